"""Proving and building the programs of the commands, one command at a time, under a lock."""
import fcntl
import os
import re
import shutil
import subprocess
import time

from . import programs
from .errors import Failure, reason
from .files import say, tell

LOG = os.path.join(programs.OWN, "build.log")
BUILD = os.path.join(programs.ROOT, "tools/build")


def plan_of(names):
    """All crates that some programs are made of, in the order in which they are proved: each after what it needs."""
    plan = []

    def visit(crate, crates):
        if crate not in plan:
            for need in crates[crate]:
                if need in crates:
                    visit(need, crates)
            plan.append(crate)

    for name in names:
        visit(name, programs.made_of(name))
    return plan


def locked():
    """The lock on building, which lasts as long as its file is open, in a process that has it open too."""
    os.makedirs(programs.OWN, exist_ok=True)
    lock = os.open(os.path.join(programs.OWN, "lock"), os.O_RDWR | os.O_CREAT, 0o666)
    try:
        fcntl.flock(lock, fcntl.LOCK_EX | fcntl.LOCK_NB)
    except BlockingIOError:
        say("another command proves and builds; this one waits for it")
        fcntl.flock(lock, fcntl.LOCK_EX)
    return lock


class Progress:
    """The line of progress: rewritten on a terminal, and none elsewhere."""

    def __init__(self, plan):
        self.plan, self.done, self.shown = plan, 0, os.isatty(2)

    def show(self):
        """Says which crate is proved now."""
        if self.shown and self.done < len(self.plan):
            tell(f"\r\033[Kproving {self.done + 1} of {len(self.plan)}: {self.plan[self.done]}")

    def heard(self, line):
        """Takes a line of `rt`: whether it begins with a crate. Those before it are done, or were."""
        begun = re.match(r"rt: chose --jobs [0-9]+ for (\w+)", line)
        at = self.plan.index(begun[1]) if begun and begun[1] in self.plan else 0
        if at > self.done:
            self.done = at
            self.show()

    def end(self):
        """Clears the line."""
        if self.shown:
            tell("\r\033[K")


def proved(names, lock):
    """Has tools/build prove and build programs by `rt`. Both have the lock open too, and write to a file, so that they go on, and the lock with
    them, where this command is killed."""
    if shutil.which("rt") is None:
        raise Failure(f"{', '.join(names)}: has to be proved and built first, and `rt`, the Rattle toolchain, is not on the path")
    plan = plan_of(names)
    say(f"{', '.join(names)}: proved and built first, which can take some minutes")
    progress = Progress(plan)
    progress.show()
    with open(LOG, "wb") as log, open(LOG, encoding="utf-8", errors="backslashreplace") as said:
        build = subprocess.Popen([BUILD, *names], cwd=programs.ROOT, stdin=subprocess.DEVNULL, stdout=log, stderr=log, pass_fds=[lock])
        ended = False
        while not ended:
            ended = build.poll() is not None
            for line in said:
                progress.heard(line)
            if not ended:
                time.sleep(0.1)
    progress.end()
    if build.returncode:
        with open(LOG, encoding="utf-8", errors="backslashreplace") as log:
            lines = [line.rstrip() for line in log]
        told = [line for line in lines if re.match(r"fn \S+: (not proved|no proof|could not tell)|rt: the library \w+ did not build", line)]
        raise Failure(*(told[:10] or lines[-3:]), f"{', '.join(names)}: the program could not be built; {os.path.relpath(LOG)} has all that `rt` said")


def provide(names):
    """Has a copy of each program there, taken where it is built, else built first: the folder of the copies. Where no copy can be written
    it is the folder of the programs, if they are built."""
    try:
        lock = locked()
    except OSError as error:
        if all(programs.is_built(name, programs.Source(name, {})) for name in names):
            return programs.BUILT
        raise Failure(f"{programs.OWN}: {reason(error)}; the program could not be built")
    try:
        left, looked = [], {}
        for name in names:
            source = programs.Source(name, looked)
            if not programs.is_own(name, source):
                made = (name, source, source.content())  # before it is built: what changes meanwhile is not in the program
                if not (programs.is_built(name, source) and programs.taken(*made)):
                    left.append(made)
        if left:
            proved([made[0] for made in left], lock)
        for made in left:
            if not programs.taken(*made):
                raise Failure(f"{made[0]}: was built again by another at the same time; try once more")
    except OSError as error:
        raise Failure(f"{error.filename or programs.OWN}: {reason(error)}; the program could not be built")
    finally:
        os.close(lock)
    return programs.OWN
