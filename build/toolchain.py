"""The Rattle toolchain, which crates crates.txt lists, and how a built file takes the place of another."""
import dataclasses
import os
import pathlib
import shutil
import subprocess
import sys

TOP = pathlib.Path(__file__).resolve().parent.parent
# The crate that is the library for C.
LIBRARY = "zsched_c"


@dataclasses.dataclass(frozen=True)
class Machine:
    """A machine for which a release has files, by its name in `uname -m`: the words by which the toolchain compiles for
    the oldest processors of its kind, what begins the names of Debian's tools for it, and its names elsewhere."""
    name: str
    words: tuple
    tools: str
    debian: str
    java: str

    @property
    def compiler(self):
        return f"{self.tools}gcc" if self.tools else "cc"

    def below(self, folder):
        """Where its files are: those for arm64 are in a folder beside those for x86-64."""
        return folder / self.name if self.tools else folder

    def place(self, path):
        """The place of its file in place of that for x86-64."""
        return self.below(path.parent) / path.name


MACHINES = {it.name: it for it in [
    Machine("x86_64", ("--cpu", "x86-64"), "", "amd64", "linux-x86-64"),
    Machine("aarch64", ("--target", "aarch64-unknown-linux-gnu"), "aarch64-linux-gnu-", "arm64", "linux-aarch64")]}
# What the toolchain compiles for x86-64, which build/wasm.py compiles further: no verdict names what comes of it.
MODULE = Machine("wasm", ("module",), "wasm", "", "")


class Unusable(Exception):
    """What a check needs isn't there. The text says what."""


@dataclasses.dataclass(eq=False)
class Crate:
    """A crate of the repository, the libraries that it names, and the crates below it, lowest first."""
    name: str
    folder: pathlib.Path
    libraries: list
    is_static: bool = False
    below: list = dataclasses.field(default_factory=list)


def crates_of(top):
    """The crates that crates.txt lists, by name, lowest first."""
    crates = {}
    for line in (top / "crates.txt").read_text(encoding="utf-8").splitlines():
        head, colon, libraries = line.partition("#")[0].partition(":")
        if colon:
            name, *words = head.split()
            crate = crates[name] = Crate(name, top / "crates" / name, libraries.split(), "staticlib" in words)
            for low in [crates[it] for it in crate.libraries if it in crates]:
                crate.below += [it for it in [*low.below, low] if it not in crate.below]
    return crates


def kit():
    """The folder of the toolchain on this machine."""
    if not (command := shutil.which("rt")):
        raise Unusable("the Rattle toolchain (the command 'rt') isn't on this machine")
    return pathlib.Path(os.path.realpath(command)).parent.parent


def linked_kit(copy, files):
    """Makes a copy of the toolchain, of links, in which files have other texts."""
    copy.mkdir()
    whole = ["bin", "c", "toolchain"]
    subprocess.run(["cp", "-rs", *[kit() / it for it in whole], copy], check=True)
    subprocess.run(["ln", "-s", *[it for it in kit().iterdir() if it.name not in whole], copy], check=True)
    for name, text in [*files.items(), ("bin/rt", None), ("bin/rtlib.py", None)]:
        (copy / name).unlink()
        (copy / name).write_text(text or (kit() / name).read_text())
        (copy / name).chmod(0o755)


def replace(place, made):
    """Replaces a file by a copy of another in one step: another process may run it, or make it too."""
    new = place.with_name(f".{place.name}.{os.getpid()}")
    try:
        shutil.copy(made, new)
        new.replace(place)
    finally:
        new.unlink(missing_ok=True)


def sources_sum(crate=LIBRARY):
    """The checksum of everything that a crate's program or library is proved and built from."""
    ended = subprocess.run([TOP / "build" / "sources-sum", crate], capture_output=True, text=True, check=False)
    if ended.returncode:
        raise Unusable(f"build/sources-sum {crate}: {ended.stderr.strip()}")
    return ended.stdout.strip()


def check_verdict(said, machine):
    """Checks that the last verdict of the toolchain's output names this machine, and no newer processor of its kind."""
    verdict = ([[]] + [line.split() for line in said.splitlines() if line.startswith("logic=proved ")])[-1]
    if f"target={machine.name}-unknown-linux-gnu" not in verdict or any(it.startswith("cpu=") for it in verdict):
        raise Unusable(f"no verdict for {machine.name}: {' '.join(verdict) or said[-900:]}")


def stamp():
    """Stores a copy of each proved program with the section that says so. Gives each library the stamp by which other
    commands know that it is up to date, which `rt ci` doesn't leave: else the first check of a crate proves all below
    it again."""
    sys.path += [os.path.dirname(os.path.realpath(shutil.which("rt"))), str(TOP / "tools")]
    import rtlib
    from zsched_tools import proved
    for crate in rtlib.crates_below(str(TOP / "crates")):
        if (program := pathlib.Path(crate.folder, "out", crate.name)).is_file():
            proved.store(program, TOP / "out" / "proved" / crate.name)
        if crate.makes_rlib() and pathlib.Path(crate.rlib, "format").exists():
            pathlib.Path(crate.folder, "out", "rlib", "stamp").write_text(crate.stamp())
