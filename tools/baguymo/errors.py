"""What ends a command: each is said in one place, in main.py, and has its exit status."""


class Failure(Exception):
    """What was refused or could not be done: status 1. A list of lines is said line by line."""

    def __init__(self, *lines):
        super().__init__(*lines)
        self.lines = lines


class Misuse(Exception):
    """Wrong use: status 2, with how the verb is used."""


class Refused(Failure):
    """What a program refused, with its report as it stands, which --plain prints."""

    def __init__(self, report, *lines):
        super().__init__(*lines)
        self.report = report


def reason(error):
    """Why an operation of the system failed."""
    return error.strerror or str(error)
