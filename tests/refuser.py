"""Runs of a program in which allocations or starts of threads fail, by the library refuse.c, which is loaded before
it."""
import os
import pathlib
import subprocess
from typing import NamedTuple

import pytest

from support import run

# More than any run that is tried makes.
MOST_ALLOCATIONS = 5000


class Counted(NamedTuple):
    """How a run ended, as `run` says it, and its numbers of allocations and of started threads (0 if it was killed)."""
    ended: tuple
    allocations: int
    threads: int


class Refuser:
    """The library, compiled for the machine of a compiler, whose programs an emulator runs."""

    def __init__(self, folder, compiler="cc", emulator=()):
        source = pathlib.Path(__file__).with_name("refuse.c")
        self.library, self.count = folder / "refuse.so", folder / "count"
        self.before = [*emulator, "-E", f"LD_PRELOAD={self.library}"] if emulator else []
        subprocess.run([compiler, "-shared", "-fPIC", "-O2", "-Wall", "-Werror", "-o", self.library, source, "-ldl",
                        "-lpthread"], check=True)

    def run(self, program, text, **failures):
        """A run in which some things fail: at=3 means REFUSE_AT=3 of refuse.c."""
        self.count.write_text("0 0")
        more = {f"REFUSE_{name.upper()}": str(number) for name, number in failures.items()}
        loaded = {} if self.before else {"LD_PRELOAD": str(self.library)}
        ended = run([*self.before, str(program)], text,
                    {**os.environ, **loaded, "REFUSE_COUNT": str(self.count), **more})
        return Counted(ended, *map(int, self.count.read_text().split()))

    def each(self, program, text, kind="at"):
        """How a run ends for each number of an allocation, with that number, until a run makes fewer allocations."""
        for number in range(1, MOST_ALLOCATIONS):
            ended, allocations, _ = self.run(program, text, **{kind: number})
            yield number, ended
            if allocations < number and ended[0] is not None and ended[0] >= 0:
                return
        raise RuntimeError(f"more than {MOST_ALLOCATIONS} allocations")


@pytest.fixture(scope="session")
def refuser(tmp_path_factory):
    return Refuser(tmp_path_factory.mktemp("refuser"))
