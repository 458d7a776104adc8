"""How each verb is used: which inputs and outputs it takes, text and bytes, and how it ends."""
import functools
import os
import struct

from tried import CASES, COMMAND, ROOT, binder, calls, case, numbers, practice_file, program, run, without_rt, wrong

PAIRS = ROOT / "crates/spacing/data/pairs.txt"
HOLDINGS = ROOT / "crates/classroom/data/holdings.txt"
LIST = b"7 3 1 1\n8 2 2 2\n"


@functools.cache
def samples():
    """The samples, once."""
    return list(made_samples())


def made_samples():
    """Of each verb the words before FILE, FILE as text and as bytes, and the report of the proved program, which both give."""
    rows, data = numbers(PAIRS), practice_file(numbers(PAIRS))
    text, holdings = PAIRS.read_bytes(), practice_file(numbers(HOLDINGS))
    field = struct.pack("<13H", 64, 64, 64, 64, 64, 7, 3, 1, 1, 8, 2, 2, 2)
    yield ["play"], text, data, program("play", [], data)
    yield ["debrief", "--plain"], text, data, program("play", [], data)
    yield ["debrief"], text, data, run([COMMAND, "debrief"], ROOT, input=text)[1]
    yield ["week"], text, binder([data]), program("week", [], binder([data]))
    yield ["button"], text, data, program("button", [], data)
    yield ["spacing", "64"], text, data, program("spacing", ["64"], data)
    yield ["classroom", "list"], HOLDINGS.read_bytes(), holdings, program("classroom", ["list"], holdings)
    yield ["classroom", "field"], LIST, field, program("classroom", ["field"], field)
    yield ["desks"], text, calls(rows), program("desks", [], calls(rows))
    yield ["author"], text, data[26:], data
    yield ["lesson"], text, None, data
    yield ["lesson", "--show"], text, data, run([COMMAND, "lesson", "--show"], ROOT, input=text)[1]
    yield ["binder"], text, data, binder([data])


def right_use(folder):
    """What every verb takes: text and bytes, each as a file and as standard input, from any folder, and the ways to call it."""
    for words, text, data, report in samples():
        name = " ".join(words)
        inputs = [("text", text)] + ([("bytes", data)] if data is not None else [])
        for sort, content in inputs:
            path = folder / f"{name.replace(' ', '_')}.{sort}"
            path.write_bytes(content)
            yield case(f"{name}, {sort}", [COMMAND, *words, path.name], folder, 0, report)
            yield case(f"{name}, {sort}, from the root", ["bin/baguymo", *words, path], ROOT, 0, report)
            yield case(f"{name}, {sort}, --", [COMMAND, *words, "--", path.name], folder, 0, report)
            yield case(f"{name}, {sort}, -", [COMMAND, *words, "-"], folder, 0, report, input=content)
            yield case(f"{name}, {sort}, without rt", [COMMAND, *words, path.name], folder, 0, report, env=without_rt(folder))
            if "binder" not in words:
                yield case(f"{name}, {sort}, standard input", [COMMAND, *words], folder, 0, report, input=content)
            if "debrief" not in words and "--show" not in words:
                yield case(f"{name}, {sort}, --plain", [COMMAND, *words, "--plain", path.name], folder, 0, report)
            yield f"{name}, {sort}, -o", lambda words=words, path=path, report=report: to_file([COMMAND, *words, path], folder, report)


def to_file(words, folder, report):
    """What is wrong with a command that writes to the file that -o names."""
    out = folder / f"out.{os.urandom(8).hex()}"
    difference = wrong(run([*words, "-o", out.name], folder), 0)
    if difference or out.read_bytes() != report:
        return difference or f"-o wrote {out.read_bytes()[:500]!r}"
    out.chmod(0o600)
    difference = wrong(run([*words, "-o", out.name], folder), 0)
    if difference or out.read_bytes() != report or out.stat().st_mode & 0o777 != 0o600:
        return difference or "-o over a file that is there"
    left = [path.name for path in folder.iterdir() if path.name.startswith(out.name + ".")]
    return f"left over: {left}" if left else None


def ways(folder):
    """Ways to call a command: by a link, with names that need care; and bin/play, which prints what the papers say."""
    data, report = practice_file(numbers(PAIRS)), program("play", [], practice_file(numbers(PAIRS)))
    for name in ("two words", "-dash", "new\nline", "umlaut ü"):
        (folder / name).write_bytes(data)
        yield case(f"a file called {name!r}", [COMMAND, "play", "--", name], folder, 0, report)
    for command in ("baguymo", "play"):
        (folder / f"link-{command}").symlink_to(ROOT / "bin" / command)
    yield case("by a link", [folder / "link-baguymo", "play", "two words"], folder, 0, report)
    yield case("bin/play by a link", [folder / "link-play", "two words"], folder, 0, report)
    yield case("bin/play", [ROOT / "bin/play", "two words"], folder, 0, report)
    yield case("bin/play, standard input", [ROOT / "bin/play"], folder, 0, report, input=data)
    yield case("bin/play in its folder", ["sh", "play", PAIRS], ROOT / "bin", 0, report)
    yield case("bin/play of a refused file", [ROOT / "bin/play", CASES / "hand-file-25.scap"], folder, 1, b"file 5\n")
    yield case("two at a time", ["bash", "-c", f'diff <("{ROOT}/bin/play" "two words") <("{ROOT}/bin/play" -- -dash)'], folder, 0)
    yield case("-o -", [COMMAND, "play", "-o", "-", "two words"], folder, 0, report)
    yield case("-o to a device", [COMMAND, "play", "-o", "/dev/stdout", "two words"], folder, 0, report)


def helps(folder):
    """What --help prints."""
    verbs = run([COMMAND, "--help"], folder)[1].decode()
    for verb in sorted({words[0] for words, *_ in samples()}):
        yield f"--help lists {verb}", lambda verb=verb: None if f"\n  {verb} " in verbs else "it is not there"
        text = run([COMMAND, verb, "--help"], folder)[1]
        yield f"{verb} --help has an example", lambda text=text: None if b"\nExample:\n    $ " in text and b"usage: baguymo" in text else repr(text)
        yield case(f"{verb} -h", [COMMAND, verb, "missing", "-h"], folder, 0, text)
        yield case(f"{verb} --help, full disk", [COMMAND, verb, "--help"], folder, 1, b"", rb"baguymo: [^\n]+ No space left[^\n]+\n", stdout=open("/dev/full", "wb"))
    yield case("-h", [COMMAND, "-h"], folder, 0, verbs.encode())
    yield case("no verb", [COMMAND], folder, 2, b"", rb"baguymo: a verb is missing\n.+classroom.+\n")
    yield case("an unknown verb", [COMMAND, "plya"], folder, 2, b"", rb"baguymo: unknown verb: plya\n.+\n")


def wrong_use(folder):
    """Wrong use of every verb: status 2, no output, and what could stand there."""
    (folder / "sample").write_bytes(practice_file(numbers(PAIRS)))
    use = rb"\nbaguymo: usage: baguymo .+\n"
    for words, *_ in samples():
        name = " ".join(words)
        called = [COMMAND, *words]
        yield case(f"{name}, unknown option", [*called, "--no-such", "sample"], folder, 2, b"", rb"baguymo: unknown option: --no-such; .+" + use)
        yield case(f"{name}, a dash", [*called, "-dash"], folder, 2, b"", rb"baguymo: unknown option: -dash; .+" + use)
        yield case(f"{name}, -o alone", [*called, "sample", "-o"], folder, 2, b"", rb"baguymo: behind -o stands .+" + use)
        yield case(f"{name}, -o nothing", [*called, "sample", "-o", ""], folder, 2, b"", rb"baguymo: behind -o stands .+" + use)
        yield case(f"{name}, -o twice", [*called, "sample", "-o", "a", "-o", "b"], folder, 2, b"", rb"baguymo: behind -o stands .+" + use)
        yield case(f"{name}, -o the input", [*called, "sample", "-o", "./sample"], folder, 2, b"", rb"baguymo: ./sample is read, .+" + use)
        if words[0] not in ("week", "binder"):
            yield case(f"{name}, two files", [*called, "sample", "sample"], folder, 2, b"", rb"baguymo: more than one file: .+" + use)
    spacing = rb"baguymo: sample: the word before FILE must be a number, .+" + use
    yield case("the spacing forgotten", [COMMAND, "spacing", "sample"], folder, 2, b"", spacing)
    yield case("the spacing missing", [COMMAND, "spacing"], folder, 2, b"", rb"baguymo: SPACING is missing" + use)
    yield case("half a 64th", [COMMAND, "spacing", "0.01 miles", "sample"], folder, 2, b"", rb".+0\.015625 to 8 miles" + use)
    yield case("no word of classroom", [COMMAND, "classroom"], folder, 2, b"", rb"baguymo: list or field is missing" + use)
    for word in ("lst", "list|field", ""):
        yield case(f"classroom {word!r}", [COMMAND, "classroom", word, "sample"], folder, 2, b"", rb"baguymo: unknown word: .*list or field" + use)
    yield case("a binder of nothing", [COMMAND, "binder", "-o", "empty"], folder, 2, b"", rb"baguymo: LESSON is missing" + use)
    yield case("words and plain", [COMMAND, "week", "--words", "--plain", "sample"], folder, 2, b"", rb"baguymo: --plain and --words .+" + use)
    yield case("- twice", [COMMAND, "week", "-", "-"], folder, 2, b"", rb"baguymo: standard input, -, can be read once" + use)


def system(folder):
    """What the system refuses: one line and status 1, with every verb."""
    (folder / "sub").mkdir(exist_ok=True)
    (folder / "closed").write_bytes(b"")
    (folder / "closed").chmod(0)
    one = rb"baguymo: [^\n]+\n"
    for words, text, data, report in samples():
        name, called, path = " ".join(words), [COMMAND, *words], folder / f"{'_'.join(words)}.text"
        path.write_bytes(text)
        for what, given in (("a missing file", "missing"), ("a folder", "sub"), ("a file whose reading fails", "/proc/self/mem")):
            yield case(f"{name}, {what}", [*called, given], folder, 1, b"", rb"baguymo: [^\n]+: could not be read: [^\n]+\n")
        if os.geteuid() != 0:  # root may read any file
            yield case(f"{name}, a closed file", [*called, "closed"], folder, 1, b"", rb"baguymo: closed: could not be read: [^\n]+\n")
        yield case(f"{name}, a full disk", [*called, path], folder, 1, b"", rb"baguymo: standard output: could not be written: No space[^\n]+\n", stdout=open("/dev/full", "wb"))
        yield case(f"{name}, -o on a full disk", [*called, path, "-o", "/dev/full"], folder, 1, b"", rb"baguymo: /dev/full: could not be written: No space[^\n]+\n")
        yield case(f"{name}, -o in no folder", [*called, path, "-o", "none/out"], folder, 1, b"", one)
        yield case(f"{name}, -o a folder", [*called, path, "-o", "sub"], folder, 1, b"", one)
        yield case(f"{name}, -o a folder that is not there", [*called, path, "-o", "none/"], folder, 1, b"", one)
        reader, writer = os.pipe()
        os.close(reader)
        yield case(f"{name}, a closed pipe", [*called, path], folder, 1, b"", rb"baguymo: standard output: could not be written: Broken pipe\n", stdout=writer)
        yield case(f"{name}, no output", ["sh", "-c", '"$0" "$@" >&-', *called, path], folder, 1, b"", rb"baguymo: standard output: could not be written: [^\n]+\n")
        yield case(f"{name}, no input", ["sh", "-c", '"$0" "$@" - <&-', *called], folder, 1, b"", rb"baguymo: standard input: could not be read: [^\n]+\n")
        yield case(f"{name}, no error output", ["sh", "-c", '"$0" "$@" missing 2>&-', *called], folder, 1)
    yield "a disk that fills up", lambda: fills_up(folder)
    (folder / "own.txt").write_bytes(PAIRS.read_bytes())
    message = rb"baguymo: own.txt is read, and would be overwritten: [^\n]+\nbaguymo: usage: [^\n]+\n"
    yield case("-o the standard input", ["sh", "-c", '"$0" lesson -o own.txt < own.txt', COMMAND], folder, 2, b"", message)
    yield "-o leaves its source", lambda: None if (folder / "own.txt").read_bytes() == PAIRS.read_bytes() else "it does not"


def fills_up(folder):
    """What is wrong where an output file does not find room: nothing may be left of it."""
    (folder / "room").mkdir()
    words = ["bash", "-c", 'ulimit -f 1; exec "$0" debrief "$1" -o room/out', COMMAND, CASES / "refusals.scap"]
    difference = wrong(run(words, folder), 1, b"", rb"baguymo: room/out: could not be written: [^\n]+\n")
    return difference or (f"left over: {os.listdir(folder / 'room')}" if os.listdir(folder / "room") else None)
