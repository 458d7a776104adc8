"""Commands at the same time, and builds: one at a time, once, and never in the way of a command that runs. The small repository in which
programs are built has the command's own files, and a program that prints one line."""
import concurrent.futures
import os
import pty
import re
import shutil
import signal
import subprocess
import time

from tried import CASES, COMMAND, ROOT, practice_file, run, without_rt, wrong
from use import samples

MAIN = """// Writes a line.
#![tactic(auto)]

use std::io;

fn main(rt: HostRuntime) -> io::Result<()> {
    println!(rt; "%s")?;
    Ok(())
}
"""
FILE = practice_file([[64] * 4])
# An `rt run` that notes when it begins and ends, and builds and runs a program whose line the source has; it goes on when it may.
BUILDS = r"""#!/bin/sh
[ "$*" = run ] || exit 2
echo begin >> "$NOTES"
while [ ! -e "$NOTES.go" ]; do sleep 0.05; done
echo 'rt: chose --jobs 2 for first' >&2
sleep 0.2
echo 'rt: chose --jobs 2 for play' >&2
mkdir -p out
line=$(sed -n 's/.*println!(rt; "\(.*\)").*/\1/p' src/main.rt)
printf '#!/bin/sh\necho %s\n' "$line" > out/play
chmod 755 out/play
echo "$line" > out/play.stamp
echo 'rt: running out/play; to give it other input, run that file yourself' >&2
out/play
echo end >> "$NOTES"
"""
FAILS = r"""#!/bin/sh
echo begin >> "$NOTES"
echo 'fn first::one: no proof: expected answers in ./proofs/one/Answers.antt' >&2
echo 'rt: the library first did not build, so nothing above it was checked' >&2
echo end >> "$NOTES"
exit 1
"""


class Sandbox:
    """A small repository with the command in it, and an `rt` of its own on the path."""

    def __init__(self, folder, crates, rt):
        self.root, self.tools, self.notes = folder / "repository", folder / "path", folder / "notes"
        for part in ("bin", "tools"):
            shutil.copytree(ROOT / part, self.root / part, ignore=shutil.ignore_patterns("__pycache__"))
        (self.root / "crates.txt").write_text(crates)
        for name in ("play", "first"):
            (self.root / "crates" / name / "src").mkdir(parents=True)
        (self.root / "crates/first/src/lib.rt").write_text("// Nothing.\n")
        self.source("end 0 0 0 0 0")
        self.tools.mkdir()
        self.put_rt(rt)
        self.go = folder / "notes.go"
        self.go.touch()
        self.env = {**os.environ, "PATH": f"{self.tools}:{os.environ['PATH']}", "NOTES": str(self.notes)}

    def source(self, line):
        """Has the program print a line."""
        (self.root / "crates/play/src/main.rt").write_text(MAIN % line)
        (self.root / "crates/play/stdout").write_text(line + "\n")

    def put_rt(self, text):
        """Puts an `rt` on the path."""
        (self.tools / "rt").write_text(text)
        (self.tools / "rt").chmod(0o755)

    def builds(self):
        """How often `rt` was called; not one began before another ended."""
        notes = self.notes.read_text().split() if self.notes.exists() else []
        return len(notes) // 2 if notes == ["begin", "end"] * (len(notes) // 2) else notes

    def play(self, **how):
        """What comes of a command."""
        return run([self.root / "bin/baguymo", "play"], self.root, input=FILE, **{"env": self.env, **how})

    def ten(self):
        """What comes of ten commands at a time."""
        with concurrent.futures.ThreadPoolExecutor(10) as pool:
            return [each.result() for each in [pool.submit(self.play) for _ in range(10)]]


def all_right(results, line):
    """What is wrong with results that should all be a line."""
    return next((result for result in (wrong(each, 0, line + b"\n", rb"(baguymo: [^\n]+\n)*") for each in results) if result), None)


def by_the_prover(folder):
    """With the real `rt`: ten commands where nothing is built, and ten at a time beside a build by hand."""
    real = shutil.which("rt")
    noted = f'#!/bin/sh\necho begin >> "$NOTES"\n"{real}" "$@"\nstatus=$?\necho end >> "$NOTES"\nexit $status\n'
    box = Sandbox(folder, "play:\n", noted)
    shutil.rmtree(box.root / "crates/first")
    results = box.ten()
    yield "ten commands, nothing built", all_right(results, b"end 0 0 0 0 0")
    said = b"".join(result[2] for result in results)
    right = said.count(b"proved and built first") == 1 and said.count(b"waits for it") >= 1
    yield "one builds, and who waits says so", None if right else repr(said)
    yield "it is built once", None if box.builds() == 1 else box.builds()
    for stamp in ("target/stamp/play", "crates/play/out/play.stamp"):
        (box.root / stamp).unlink()
    how = {"stdin": subprocess.DEVNULL, "stdout": subprocess.DEVNULL, "stderr": subprocess.DEVNULL}
    build = subprocess.Popen([real, "run"], cwd=box.root / "crates/play", **how)
    rounds = 0
    while build.poll() is None or rounds == 0:
        rounds += 1
        yield f"ten commands beside a build, round {rounds}", all_right(box.ten(), b"end 0 0 0 0 0")
        time.sleep(0.3)
    yield "the build beside them went well", None if build.returncode == 0 and box.builds() == 1 else f"{build.returncode}, {box.builds()}"


def when_to_build(folder):
    """When a program is built, and when not."""
    box = Sandbox(folder, "first:\nplay: first\n", BUILDS)
    said = wrong(box.play(env=without_rt(folder)), 1, b"", rb"baguymo: play: [^\n]+ `rt`, the Rattle toolchain, is not on the path\n")
    yield "nothing built and no rt", said
    yield "the first", wrong(box.play(), 0, b"end 0 0 0 0 0\n", rb"baguymo: play: proved and built first[^\n]+\n")
    yield "again", wrong(box.play(env=without_rt(folder)), 0, b"end 0 0 0 0 0\n")
    for path in box.root.rglob("*.rt"):
        os.utime(path)
    yield "newer and the same, as in a clone", wrong(box.play(env=without_rt(folder)), 0, b"end 0 0 0 0 0\n")
    box.source("end 2 0 0 0 0")
    yield "changed", wrong(box.play(), 0, b"end 2 0 0 0 0\n", rb"baguymo: play: proved[^\n]+\n")
    (box.root / "crates/first/specs").mkdir()
    (box.root / "crates/first/specs/New.antt").write_text("-- new\n")
    yield "a new file", wrong(box.play(), 0, b"end 2 0 0 0 0\n", rb"baguymo: play: proved[^\n]+\n")
    (box.root / "crates/first/specs/New.antt").unlink()
    yield "a file less", wrong(box.play(), 0, b"end 2 0 0 0 0\n", rb"baguymo: play: proved[^\n]+\n")
    yield "four builds", None if box.builds() == 4 else box.builds()
    box.source("end 2 2 0 0 0")
    yield "ten commands after a change", all_right(box.ten(), b"end 2 2 0 0 0")
    yield "five builds", None if box.builds() == 5 else box.builds()
    box.source("end 2 0 0 0 0")
    yield "changed back", wrong(box.play(), 0, b"end 2 0 0 0 0\n", rb"baguymo: play: proved[^\n]+\n")
    shutil.rmtree(box.root / "target/commands")
    yield "built by tools/build alone", wrong(box.play(env=without_rt(folder)), 0, b"end 2 0 0 0 0\n")
    box.source("end 3 0 0 0 0")
    box.put_rt(FAILS)
    failed = rb"baguymo: play: proved[^\n]+\nbaguymo: fn first::one: no proof[^\n]+\nbaguymo: rt: the library first did not build[^\n]+\n"
    failed += rb"baguymo: play: the program could not be built; [^\n]*build.log [^\n]+\n"
    yield "a build that fails", wrong(box.play(), 1, b"", failed)
    box.put_rt(BUILDS)
    yield "and then one that does not", wrong(box.play(), 0, b"end 3 0 0 0 0\n", rb"baguymo: play: proved[^\n]+\n")


def killed(folder):
    """A command that is killed while it builds: the next waits for its `rt`, which goes on, and two never run at a time."""
    box = Sandbox(folder, "first:\nplay: first\n", BUILDS)
    box.go.unlink()
    (folder / "file").write_bytes(FILE)
    words = [box.root / "bin/baguymo", "play", folder / "file"]
    first = subprocess.Popen(words, cwd=box.root, env=box.env, stdout=subprocess.PIPE, stderr=subprocess.DEVNULL)
    until = time.monotonic() + 60
    while not box.notes.exists() and time.monotonic() < until:
        time.sleep(0.01)
    first.send_signal(signal.SIGKILL)
    first.communicate()
    second = subprocess.Popen(words, cwd=box.root, env=box.env, stdout=subprocess.PIPE, stderr=subprocess.PIPE)
    said = second.stderr.readline()
    box.go.touch()
    output, messages = second.communicate(timeout=60)
    yield "after one that was killed", wrong((second.returncode, output, said + messages), 0, b"end 0 0 0 0 0\n", rb"baguymo: another command [^\n]+ waits for it\n")
    yield "no two at a time", None if box.builds() == 1 else box.builds()


def progress(folder):
    """The line of progress on a terminal."""
    box = Sandbox(folder, "first:\nplay: first\n", BUILDS)
    ours, its = pty.openpty()
    done = subprocess.run([box.root / "bin/baguymo", "play"], input=FILE, stdout=subprocess.PIPE, stderr=its, env=box.env)
    os.close(its)
    shown = b""
    try:
        while part := os.read(ours, 4096):
            shown += part
    except OSError:
        pass  # the end of a terminal whose other side is closed
    os.close(ours)
    lines = [line for line in re.split(rb"[\r\n]|\x1b\[K", shown) if line]
    expected = [b"baguymo: play: proved and built first, which can take some minutes", b"proving 1 of 2: first", b"proving 2 of 2: play"]
    yield "the line of progress", None if lines == expected and done.returncode == 0 else f"{done.returncode}, {shown!r}"


def processor_time(words, folder):
    """The least time of the processor that a command takes in ten runs, its program included, in ms."""
    least = 1e9
    for _ in range(10):
        child = subprocess.Popen([str(word) for word in words], cwd=folder, stdin=subprocess.DEVNULL, stdout=subprocess.DEVNULL)
        used = os.wait4(child.pid, 0)[2]
        child.returncode = 0
        least = min(least, 1000 * (used.ru_utime + used.ru_stime))
    return least


def built_ones(folder):
    """Built commands in the repository itself: their time, ten of all verbs at a time, and ten that write to one file."""
    # 50 ms, and on a slow machine seven times what Python alone takes to start there
    most = max(50, 7 * processor_time([shutil.which("python3", path="/usr/bin") or "python3", "-I", "-S", "-c", "pass"], folder))
    for words in (["play", CASES / "worked.scap"], ["debrief", CASES / "worked.txt"]):
        took = processor_time([COMMAND, *words], folder)
        yield f"{words[0]} takes under 50 ms", None if took < most else f"{took:.1f} ms, and the most is {most:.1f}"
    with concurrent.futures.ThreadPoolExecutor(10) as pool:
        results = [pool.submit(run, [COMMAND, "play", CASES / "worked.scap", "-o", "one"], folder) for _ in range(10)]
    yield "ten that write to one file", next((wrong(result.result(), 0) for result in results if wrong(result.result(), 0)), None)
    right = (folder / "one").read_bytes() == (CASES / "worked.expected").read_bytes() and os.listdir(folder) == ["one"]
    yield "and what they leave", None if right else repr(os.listdir(folder))
    given = [(words, text, report) for words, text, _, report in samples()][:10]
    for number in range(3):
        with concurrent.futures.ThreadPoolExecutor(10) as pool:
            results = [pool.submit(run, [COMMAND, *words, "-"], folder, input=text) for words, text, _ in given]
        for (words, _, report), result in zip(given, results):
            yield f"ten at a time, {' '.join(words)}, round {number}", wrong(result.result(), 0, report)
