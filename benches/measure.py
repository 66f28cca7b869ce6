"""Runs of a program: their time, memory and instructions, and tables of them.

wait4 returns the peak memory as `ru_maxrss`, which is at least that of the process that started the program. So a small
shell starts the program and exits at once, and the program becomes a child of this process. The measured peak is then
at least 1 MB, not the size of Python. The program waits for a line on a pipe until the shell has exited. The time
begins at that line."""
import ctypes
import os
import pathlib
import re
import shutil
import subprocess
import sys
import tempfile
import time
from typing import NamedTuple

# Orphans of this process become its children: prctl's PR_SET_CHILD_SUBREAPER.
SET_CHILD_SUBREAPER = 36

# The arguments: seconds of processor time, program, files of input, output and errors.
SHELL = ('exec 3<&0; ulimit -t "$1"; '
         '{ read go <&3; exec "$2" <"$3" >"$4" 2>"$5" 3<&-; } & echo $!')


class Failed(Exception):
    """A run, or the tool that counts its instructions, failed. The text says how."""


class Run(NamedTuple):
    """Seconds, bytes and exit status of a run; the status is less than 0 for a signal."""
    wall: float
    processor: float
    memory: int
    status: int


class Shot(NamedTuple):
    """What a run returned: its status, output and standard error."""
    status: int
    output: bytes
    errors: bytes


def adopt_orphans():
    """Makes orphans of this process its children."""
    if ctypes.CDLL(None, use_errno=True).prctl(SET_CHILD_SUBREAPER, 1, 0, 0, 0) != 0:
        raise Failed(f"prctl: {os.strerror(ctypes.get_errno())}")


def started(program, plan, output, errors, seconds):
    """Starts a program that waits for a line: returns its process, and the pipe for the line."""
    words = ["sh", "-c", SHELL, "sh", str(seconds), program, plan, output, errors]
    shell = subprocess.Popen(words, stdin=subprocess.PIPE, stdout=subprocess.PIPE)
    with shell.stdout:
        process = int(shell.stdout.readline())
    shell.wait()
    return process, shell.stdin


def run(program, plan, output=os.devnull, errors=os.devnull, seconds=600):
    """Runs a program on a plan's file. It is killed after `seconds` of processor time."""
    adopt_orphans()
    process, pipe = started(program, plan, output, errors, seconds)
    waited = False
    try:
        begun = time.perf_counter()
        with pipe:
            pipe.write(b"\n")
        _, status, usage = os.wait4(process, 0)
        waited = True
    finally:
        if not waited:
            os.kill(process, 9)
            os.wait4(process, 0)
    wall = time.perf_counter() - begun
    return Run(wall, usage.ru_utime + usage.ru_stime, usage.ru_maxrss * 1024, os.waitstatus_to_exitcode(status))


def shot(program, plan, folder, seconds=600):
    """Runs a program, and returns its Shot. The folder gets two temporary files."""
    output, errors = os.path.join(folder, "output"), os.path.join(folder, "errors")
    status = run(program, plan, output, errors, seconds).status
    with open(output, "rb") as out, open(errors, "rb") as err:
        return Shot(status, out.read(), err.read())


def print_table(name, parent, table):
    """Prints the rows that `table` makes in a temporary folder below `parent` as they come: the exit status."""
    try:
        with tempfile.TemporaryDirectory(prefix=f"zsched-{name}-", dir=parent) as folder:
            for row in table(pathlib.Path(folder)):
                print(row, flush=True)
    except (Failed, OSError) as failed:
        print(f"{name}.py: {failed}", file=sys.stderr)
        return 1
    return 0


def instructions_by_perf(program, plan):
    """The number of instructions of a run, or None if `perf` is missing or can't count them."""
    if shutil.which("perf") is None:
        return None
    with tempfile.NamedTemporaryFile("r") as counts, open(plan, "rb") as text:
        words = ["perf", "stat", "-x", ",", "-e", "instructions:u", "-o", counts.name, program]
        subprocess.run(words, stdin=text, stdout=subprocess.DEVNULL, stderr=subprocess.DEVNULL, check=False)
        counted = re.search(r"^(\d+),", counts.read(), re.MULTILINE)
    return int(counted.group(1)) if counted else None


def instructions_by_callgrind(program, plan):
    """The number of instructions of a run by valgrind's count, which is the same at each run on one thread."""
    if shutil.which("valgrind") is None:
        raise Failed("valgrind isn't installed")
    words = ["valgrind", "--tool=callgrind", f"--callgrind-out-file={os.devnull}", program]
    with open(plan, "rb") as text:
        ended = subprocess.run(words, stdin=text, stdout=subprocess.DEVNULL, stderr=subprocess.PIPE, check=False)
    counted = re.search(rb"Collected : (\d+)", ended.stderr)
    if counted is None:
        raise Failed(f"valgrind printed no count for {program}: status {ended.returncode}")
    return int(counted.group(1))
