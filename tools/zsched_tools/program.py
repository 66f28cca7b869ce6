"""The path of the program, one run of it, and the length of its longest plan."""
import contextlib
import functools
import json
import math
import os
import pathlib
import re
import shutil
import subprocess
import tempfile
import time

from zsched_tools.command import Refused, naming, note
from zsched_tools.progress import waiting
from zsched_tools.proved import is_proved

# The limits of a plan: its bytes, its jobs, the entries of a script, of which the last one repeats, and its last
# moment.
MAX_BYTES, MOST_JOBS, MOST_ENTRIES, LAST_MOMENT = 16_777_216, 10_000, 1000, 999_999_999_999_999
_HERE = pathlib.Path(__file__).resolve()
CRATES = _HERE.parents[2] / "crates"
# The folder of the programs that were proved and built in this tree.
PROVED = CRATES.parent / "out" / "proved"
# The folder of the programs that were installed with these tools, which are in share/zsched beside it.
INSTALLED = _HERE.parents[3] / "bin" if _HERE.parents[2].name == "share" else None


class NoProgram(Refused):
    """The program wasn't found, or can't be run. The text says where it was searched."""


def find(named=None):
    """The program's path: the given one, else that of the variable ZSCHED, else the last one that this tree built, else
    the one that was installed with these tools, else the one on PATH."""
    if (found := find_beside("zsched", named)) is None:
        raise NoProgram("zsched is neither built (./run builds it) nor installed; --zsched PATH or ZSCHED names one")
    return found


def find_beside(name, named=None):
    """The path of another program, such as zsched-bounds, or None, found as zsched is, by ZSCHED_BOUNDS."""
    for place in [named, os.environ.get(name.upper().replace("-", "_"))]:
        if place:
            if not os.access(place, os.X_OK) or os.path.isdir(place):
                raise NoProgram(f"no program at {place}")
            return str(place)
    if last := _last_built(name):
        if not is_proved(last):
            _say_unproved(name)
        return str(last)
    return INSTALLED and shutil.which(name, path=INSTALLED) or shutil.which(name)


def find_bounds(named=None):
    """The path of zsched-bounds, or None if it isn't found."""
    return find_beside("zsched-bounds", named)


def _last_built(name):
    """The path of the last program of this name that this tree built, or None."""
    crate = name.replace("-", "_")
    built = [PROVED / crate, *(CRATES / crate / "out").glob("unproved-*")]
    return max((it for it in built if os.access(it, os.X_OK)), key=lambda it: it.stat().st_mtime, default=None)


def _say_unproved(name):
    """Says that the program of this name is unproved, or that both that ./run builds are."""
    both = map(_last_built, ("zsched", "zsched-bounds"))
    _say(*("programs", "them") if not any(it is None or is_proved(it) for it in both) else (name, "it"))


@functools.cache
def _say(what, pronoun):
    note(f"takes the {what} that ./run built, unproved (./run --proved proves {pronoun})")


def job_text(name, schedule, entries, mode="retry", start=None):
    """A job, as JSON. `entries` is the text of its script's entries."""
    start = "" if start is None else f'"start":{start},'
    text = json.dumps(schedule, ensure_ascii=False)
    return f'{{"name":"{name}","mode":"{mode}","schedule":{text},{start}"script":[{entries}]}}'


def one_job(horizon, schedule, entry):
    """The bytes of a plan with a job whose attempts all end as an entry says."""
    return f'{{"horizon":{horizon},"jobs":[{job_text("job", schedule, entry)}]}}'.encode()


def cut_plans(clock, jobs, most=None):
    """Plans of some jobs with a horizon or a list of ticks, in order, each within the program's limits, and the most
    jobs of a plan."""
    before, after = f'{{"{"ticks" if isinstance(clock, list) else "horizon"}":{clock},"jobs":[', "\n]}\n"
    most = most or MOST_JOBS
    while True:
        groups = [jobs[first:first + most] for first in range(0, len(jobs), most)] or [[]]
        sizes = [len(before) + len(after) + sum(map(len, group)) + 2 * len(group) for group in groups]
        if most == 1 or max(sizes) <= MAX_BYTES:
            break
        most = max(1, min(most, len(jobs)) * 7 // 8)
    return [(before + ",".join("\n" + job for job in group) + after).encode() for group in groups], most


def run(program, given, seconds=None, options=()):
    """Runs a program on some bytes: status, standard output, standard error. After `seconds` it is killed, and
    subprocess.TimeoutExpired is raised. Files hold what it reads and writes, so that only one copy is in memory."""
    with naming(tempfile.gettempdir()), tempfile.TemporaryFile() as read, tempfile.TemporaryFile() as written:
        read.write(given)
        read.seek(0)
        with starting(program), subprocess.Popen([program, *options], stdin=read, stdout=written,
                                                 stderr=subprocess.PIPE) as running:
            try:
                errors = _errors_of(running, written, seconds)
            except BaseException:
                running.kill()
                raise
        written.seek(0)
        return running.returncode, written.read(), errors


def _errors_of(running, written, seconds):
    """Waits for the end of a program, and returns its standard error. A program that writes something else than a
    report or JSON isn't waited for."""
    program, end, step = running.args[0], math.inf if seconds is None else time.monotonic() + seconds, 0.05
    with contextlib.closing(waiting(os.path.basename(program))) as progress:
        while True:
            try:
                return running.communicate(timeout=max(0, min(step, end - time.monotonic())))[1]
            except subprocess.TimeoutExpired:
                if os.pread(written.fileno(), 1, 0) not in (b"", b"j", b"p", b"{"):
                    raise ChildProcessError(f"{program} wrote no report") from None
                if time.monotonic() >= end:
                    raise
                progress.add(step)
                step = min(1, 2 * step)


@contextlib.contextmanager
def starting(program):
    """Says that a program can't be run by NoProgram."""
    try:
        yield
    except OSError as fault:
        if fault.filename != program:
            raise
        raise NoProgram(f"{program} can't be run: {fault.strerror}") from None


def report_of(zsched, plan, jobs, seconds=None):
    """Runs zsched on the bytes of a plan with this number of jobs, as `run` does, and checks the report."""
    status, report, errors = run(zsched, plan, seconds)
    if status == 0:
        check_report(zsched, report, jobs)
    return status, report, errors


def run_plan(zsched, plan):
    """The report of a plan, which must have no fault."""
    status, report, errors = report_of(zsched, plan, plan.count(b'"script":['))
    if status:
        raise ChildProcessError(failure(status, errors))
    return report


def check_report(zsched, report, jobs=None):
    """Raises ChildProcessError unless the bytes end as a report does, and have this number of jobs."""
    if not re.search(rb"(?:^|\n)polls [0-9]+\n\Z", report[-40:]) or jobs not in (None, report.count(b"\nend ")):
        raise ChildProcessError(f"{zsched} wrote no report" if not report else f"{zsched} wrote no complete report")


def failure(status, errors, name="zsched"):
    """The message of a failed run: the program's line on standard error, else how it ended."""
    line = errors.decode(errors="replace").strip()
    return line or (f"{name} was ended by signal {-status}" if status < 0 else f"{name} ended with status {status}")
