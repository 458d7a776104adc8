# The practice files of the benchmark, to be sourced from the root after $made is set, a folder for those that are made from their readable
# form: $longest, $typical, $ticks and $button.
longest=crates/cases/data/longest.scap
typical=$made/typical.scap
ticks=$made/ticks.scap
button=$made/button.scap
bin/baguymo lesson bench/typical.txt -o "$typical"
bin/baguymo lesson bench/button.txt -o "$button"
{ cat bench/ticks.txt; printf '12 0 0 1%.0s\n' $(seq 4082); } > "$made/ticks.txt"
bin/baguymo lesson "$made/ticks.txt" -o "$ticks"
