"""The proved programs: where each is, whether it is older than what it is made of, and running it.

A command runs its own copy of a program, target/commands/NAME, which is put there whole by renaming: neither a build nor another command
disturbs one that runs. Beside it stands NAME.made, what the copy was made of: a sum over the content of those files, and their sizes and
times. Where the times are the same nothing is read; where only the times differ, as in a fresh clone, the content decides."""
import os
import time

from .errors import Failure, reason

ROOT = os.path.dirname(os.path.dirname(os.path.dirname(os.path.abspath(__file__))))
OWN = os.path.join(ROOT, "target/commands")
BUILT = os.path.join(ROOT, "target/bin")


def needs():
    """Of each crate in crates.txt the crates that it needs."""
    found = {}
    with open(os.path.join(ROOT, "crates.txt"), encoding="utf-8") as file:
        for line in file:
            crate, colon, others = line.partition("#")[0].partition(":")
            if colon:
                found[crate.split()[0]] = others.split()
    return found


def made_of(name):
    """The crates that a program is made of, itself included, each with what it needs."""
    found, reached, new = needs(), set(), [name]
    while new:
        crate = new.pop()
        if crate in found and crate not in reached:
            reached.add(crate)
            new += found[crate]
    return {crate: others for crate, others in found.items() if crate in reached}


class Folder:
    """The files below a folder, with sizes and times as lines, and the time of the newest; also of the folders, so that a file that is
    taken away counts."""

    def __init__(self, path):
        self.files, self.lines, self.newest = [], [], 0
        try:
            self.look(path)
        except FileNotFoundError:
            pass  # not every crate has every part

    def look(self, path):
        """Adds what stands in a folder, in order of name."""
        newest, start = os.stat(path).st_mtime_ns, len(ROOT)
        for entry in sorted(os.scandir(path), key=lambda entry: entry.name):
            if entry.is_dir():
                self.look(entry.path)
                continue
            stat, below = entry.stat(), entry.path
            self.files.append(below)
            self.lines.append(f"{below[start:]} {stat.st_size} {stat.st_mtime_ns}")
            newest = max(newest, stat.st_mtime_ns)
        self.newest = max(self.newest, newest)


class Source:
    """What a program is made of, as it stands now; folders that were looked at for another program are not looked at again."""

    def __init__(self, name, looked):
        self.crates, self.folders = made_of(name), []
        for crate in self.crates:
            for part in ("src", "specs", "proofs"):
                path = os.path.join(ROOT, "crates", crate, part)
                if path not in looked:
                    looked[path] = Folder(path)
                self.folders.append(looked[path])
        self.newest = max(folder.newest for folder in self.folders)
        self.times = "\n".join([repr(self.crates)] + [line for folder in self.folders for line in folder.lines])

    def content(self):
        """A sum over the content of all files and their names, and over who needs whom."""
        from hashlib import sha256
        total = sha256(repr(self.crates).encode())
        for path in [path for folder in self.folders for path in folder.files]:
            with open(path, "rb") as file:
                data = file.read()
            total.update(f"\n{path[len(ROOT):]} {len(data)}\n".encode() + data)
        return total.hexdigest()


def is_own(name, source):
    """Whether the command's own copy of a program is there and is made of what stands there now."""
    made = os.path.join(OWN, name + ".made")
    try:
        with open(made, encoding="utf-8") as file:
            content, _, times = file.read().partition("\n")
        os.stat(os.path.join(OWN, name))
    except FileNotFoundError:
        return False
    if times == source.times:
        return True
    if content != source.content():
        return False
    try:
        put(made, (content + "\n" + source.times).encode())
    except OSError:
        pass  # a place that may not be written to: the content is read again the next time
    return True


def put(path, data, mode=0o666):
    """Writes a file whole, by another name first."""
    beside = f"{path}.{os.getpid()}.{time.monotonic_ns()}"
    file = os.open(beside, os.O_WRONLY | os.O_CREAT | os.O_EXCL, mode)
    try:
        try:
            while data:
                data = data[os.write(file, data):]
        finally:
            os.close(file)
        os.replace(beside, path)
    except BaseException:
        os.unlink(beside)
        raise


def taken(name, source, content):
    """Takes a copy of a program that was built from a source with this content; none where somebody wrote it meanwhile."""
    path = os.path.join(BUILT, name)
    before = os.stat(path)
    with open(path, "rb") as file:
        data = file.read()
    after = os.stat(path)
    if (before.st_mtime_ns, before.st_size, before.st_ino) != (after.st_mtime_ns, after.st_size, after.st_ino) or len(data) != after.st_size:
        return False
    os.makedirs(OWN, exist_ok=True)
    put(os.path.join(OWN, name), data, 0o777)
    put(os.path.join(OWN, name + ".made"), (content + "\n" + source.times).encode())
    return True


def is_built(name, source):
    """Whether the proved program is there, no older than what it is made of, which is still as it was looked at, and its proof was ended."""
    try:
        os.stat(os.path.join(ROOT, "target/stamp", name))
        newer = os.stat(os.path.join(BUILT, name)).st_mtime_ns >= source.newest
        return newer and Source(name, {}).times == source.times
    except FileNotFoundError:
        return False


def ready(*names):
    """Has each program there, built where it is missing or older than what it is made of: the path of each."""
    looked = {}
    missing = [name for name in names if not is_own(name, Source(name, looked))]
    if missing:
        from .building import provide
        folder = provide(missing)
    return [os.path.join(folder if name in missing else OWN, name) for name in names]


def run(path, words, data):
    """What a program prints for its words and the bytes of its standard input."""
    given = os.memfd_create("input")
    reader, writer = os.pipe()
    try:
        rest = memoryview(data)
        while rest:
            rest = rest[os.write(given, rest):]
        os.lseek(given, 0, os.SEEK_SET)
        actions = [(os.POSIX_SPAWN_DUP2, given, 0), (os.POSIX_SPAWN_DUP2, writer, 1)]
        child = os.posix_spawn(path, [path, *words], os.environ, file_actions=actions)
    except OSError as error:
        os.close(reader)
        raise Failure(f"{path}: {reason(error)}")
    finally:
        os.close(given)
        os.close(writer)
    with open(reader, "rb") as file:
        report = file.read()
    status = os.waitstatus_to_exitcode(os.waitpid(child, 0)[1])
    if status:
        raise Failure(f"{os.path.basename(path)}: the program ended with status {status}")
    return report
