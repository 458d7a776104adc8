"""The sessions that README.md shows and the examples of --help, byte for byte; and the words of tools/words.txt."""
import re

from tried import COMMAND, ROOT, run

README = (ROOT / "README.md").read_text()
SESSION = re.compile(r"^    \$ (.+)\n((?:\n*    (?!\$ ).*\n)*)", re.M)


def prepared(folder):
    """Puts into the folder what the sessions name: the lessons that README.md shows by `cat`, and links."""
    for call, shown in SESSION.findall(README):
        if call.startswith("cat ") and " " not in call[4:]:
            (folder / call[4:]).write_text(re.sub("^    ", "", shown, flags=re.M))
    for name in ("bin", "crates", "tools"):
        (folder / name).symlink_to(ROOT / name)


def sessions(text, folder):
    """The sessions of a text: an indented line that starts with $ is called, and what stands below it is its whole output, which may
    have empty lines."""
    for call, shown in SESSION.findall(text):
        output = re.sub("^    ", "", shown, flags=re.M)
        status, got, messages = run(["bash", "-c", f'PATH="{ROOT}/bin:$PATH"; {call}'], folder)
        right = got.decode() == output and messages == b"" and status in ((0, 1) if "2>&1" in call else (0,))
        yield call, None if right else f"status {status}, output {got.decode()!r}, messages {messages!r}"


def all_shown(folder):
    """All of README.md, and all examples."""
    yield from sessions(README, folder)
    verbs = re.findall(r"^  (\w+)  ", run([COMMAND, "--help"], folder)[1].decode(), re.M)
    for verb in verbs:
        yield from ((f"{verb} --help: {call}", result) for call, result in sessions(run([COMMAND, verb, "--help"], folder)[1].decode(), folder))
        yield f"README.md shows {verb}", None if re.search(rf"^    \$ (?:.*\| )?bin/baguymo {verb}\b", README, re.M) else "it does not"
    yield "README.md shows bin/play", None if "    $ bin/play " in README else "it does not"
    words = [line.split(None, 2) for line in (ROOT / "tools/words.txt").read_text().splitlines() if line and not line.startswith("#")]
    rules = (ROOT / "docs/RULES.md").read_text()
    for sort, number, _ in words:
        if sort not in ("side", "leg", "zone", "kind"):
            right = re.search(rf"^\| {number.partition('.')[0]}(?: \([0-9.]+\))? \|", rules, re.M)
            yield f"docs/RULES.md has {sort} {number}", None if right else "it has no row for it"
    kinds = {"side": 2, "leg": 4, "zone": 14, "kind": 12}
    yield "every kind, zone, side and leg has words", None if {sort: sum(w[0] == sort for w in words) for sort in kinds} == kinds else "one is missing"
