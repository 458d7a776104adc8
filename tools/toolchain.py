"""The crates as crates.txt lists them, and the toolchain's prover over what a run of `rt` has built of the libraries."""
import os
import pathlib
import shutil
import subprocess

ROOT = pathlib.Path(__file__).resolve().parent.parent


def listed(root=ROOT):
    """Of each crate in crates.txt the libraries that it names: the repository's own and the toolchain's."""
    found = {}
    for line in (root / "crates.txt").read_text().splitlines():
        head, colon, needs = line.partition("#")[0].partition(":")
        if colon:
            found[head.split()[0]] = needs.split()
    return found


def static_libraries(root=ROOT):
    """The crates that are libraries for C."""
    lines = (line.partition("#")[0].partition(":")[0].split() for line in (root / "crates.txt").read_text().splitlines())
    return [words[0] for words in lines if "staticlib" in words[1:]]


def below(name, crates, known=None):
    """The repository's libraries that a crate stands on, each after those that it needs, in the order in which `rt` builds them."""
    known = {} if known is None else known
    if name not in known:
        found = []
        for need in crates[name]:
            if need in crates:
                found += [it for it in [*below(need, crates, known), need] if it not in found]
        known[name] = found
    return known[name]


def in_order(names, crates):
    """Some crates and all that they stand on, in the order in which they are built one after the other."""
    found = []
    for name in names:
        found += [it for it in [*below(name, crates), name] if it not in found]
    return found


def rlib(name, root=ROOT):
    """Where `rt` puts a library for the crates above it."""
    return root / "crates" / name / "out/rlib" / f"{name}.rlib"


def kit():
    """The toolchain's folder."""
    return pathlib.Path(subprocess.run(["rt", "doc"], capture_output=True, text=True, check=True).stdout.strip()).parent


def words(name, crates, kit, root=ROOT):
    """What `rattle check` and `rattle build` are told of a crate, in its folder or in a copy of that: the libraries as `rt` built them last."""
    is_program = (root / "crates" / name / "src/main.rt").is_file()
    given = ["--crate-name", name, "src/main.rt" if is_program else "src/lib.rt", "--extern", f"std={kit}/rlibs/std.rlib"]
    for need in crates[name]:
        given += ["--extern", f"{need}={rlib(need, root) if need in crates else f'{kit}/rlibs/{need}.rlib'}"]
    given += ["-L", f"dependency={kit}/rlibs"]
    for need in below(name, crates):
        given += ["-L", f"dependency={rlib(need, root).parent}"]
    given += ["--crate-type", "staticlib"] if name in static_libraries(root) else []
    return [*given, "--antt-project", f"{kit}/rattle/logic/antt-project.json", "--logic-built", f"{kit}/logic_built"]


def put(data, path, mode, time):
    """Writes a file whole, by another name first, as if it were written at that time."""
    path.parent.mkdir(parents=True, exist_ok=True)
    beside = path.with_name(f"{path.name}.{os.getpid()}")
    try:
        beside.write_bytes(data)
        beside.chmod(mode)
        os.utime(beside, ns=(time, time))
        os.replace(beside, path)
    finally:
        beside.unlink(missing_ok=True)


def is_there():
    """Whether the toolchain is on the path."""
    return shutil.which("rt") is not None
