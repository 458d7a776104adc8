"""The command for people, bin/baguymo: lessons in words over the proved programs of target/bin."""
