"""What the tests share: the built programs, runs of commands, and the plans that tests feed them."""
import gc
import io
import itertools
import json
import os
import pathlib
import re
import subprocess
import sys
from unittest import mock

TOP = pathlib.Path(__file__).resolve().parent.parent
sys.path[:0] = [str(TOP / "build"), str(TOP / "tools")]

SCRIPT = '"script":[{"ms":5,"err":7},{"ms":5,"ok":1}]'
ONE_JOB = ('{"horizon":1000,"jobs":[{"name":"a","mode":"retry","schedule":"recurs(3)",' + SCRIPT + "}]}").encode()
BLOCK = """job {} retry
attempt 1 0..5 err 7
step 1 out 0 next 5
attempt 2 5..10 ok 1
end succeeded 1 at 10 polls 3
"""
ONE_REPORT = (BLOCK.format("a") + "polls 3\n").encode()


def built(crate): return TOP / "out" / "proved" / crate


def job(name="a", schedule="recurs(3)", mode="retry", script=SCRIPT, more=""):
    """A job as JSON, by default the one of ONE_JOB."""
    return f'{{"name":"{name}","mode":"{mode}","schedule":{json.dumps(schedule)},{script}{more}}}'


def plan(jobs=None, horizon='"horizon":1000', more=""):
    """The bytes of a plan, by default those of ONE_JOB."""
    listed = ",".join([job()] if jobs is None else jobs)
    return f'{{{horizon}{more},"jobs":[{listed}]}}'.encode()


def plans_with_reports():
    """The plans that have a report next to them, in the order of their names."""
    found = sorted([*TOP.glob("examples/*.json"), *TOP.glob("tests/plans/*.json")])
    assert len(found) > 70
    return found


def report_beside(path): return path.with_name(path.name + ".stdout").read_bytes()


def rows(name):
    """The rows of a table in this folder, each a line of JSON. The first line names the test and the columns."""
    head, *found = [json.loads(line) for line in (TOP / "tests" / name).read_text(encoding="utf-8").splitlines()]
    assert found and re.match(r"test_\w+\.py: \w", head), f"{name} has no head, or no row"
    return found


def recut(text, workers, grain):
    """A plan with other numbers of workers and of jobs in a batch."""
    return json.dumps({**json.loads(text), "workers": workers, "grain": grain}).encode()


def equal_jobs(names, workers, grain, schedule="recurs(3)"):
    """A plan of equal jobs, and its report."""
    more = f',"workers":{workers},"grain":{grain}'
    report = "".join(BLOCK.format(name) for name in names) + f"polls {3 * len(names)}\n"
    return plan([job(name, schedule) for name in names], more=more), report.encode()


def population(names, workers, grain):
    """The jobs of `equal_jobs` as JSON lines."""
    head = f'{{"horizon":1000,"workers":{workers},"grain":{grain}}}'
    return "".join(f"{line}\n" for line in [head, *map(job, names)]).encode()


def tree(leaves):
    """The intersection of `leaves` leaves that continue immediately: 2 * leaves - 1 nodes, in the least depth."""
    if leaves == 1:
        return "forever"
    return f"({tree(leaves // 2)} && {tree(leaves - leaves // 2)})"


# A schedule of 998 nodes with the outputs and decisions of recurs(3).
HEAVY = f"(recurs(3) && {tree(498)}).map(_1)"


def heavy_jobs(workers, grain):
    """A plan of 120 equal jobs of 998 nodes, and its report. All are due at 0, 5 and 10, and evaluated at 5 alone."""
    return equal_jobs([f"j{number}" for number in range(120)], workers, grain, HEAVY)


def run(program, text, environment=None, seconds=60, **more):
    """Runs a program or words on the text: status (less than 0 for a signal, None past the time), output and errors."""
    words = program if isinstance(program, list) else [program]
    try:
        ended = subprocess.run(words, input=text, capture_output=True, timeout=seconds, env=environment, **more)
    except subprocess.TimeoutExpired:
        return None, b"", b""
    return ended.returncode, ended.stdout, ended.stderr


def difference(found, wanted):
    """Where two results of `run` differ, in a few words, or None. pytest would compare long reports for hours."""
    if found == wanted:
        return None
    streams = [f"status {found[0]} instead of {wanted[0]}"]
    for name, one, other in zip(["output", "errors"], found[1:], wanted[1:]):
        lines = enumerate(itertools.zip_longest(one.splitlines(), other.splitlines()), 1)
        streams += [f"{name}, line {number}: {str(pair[0])[:300]} instead of {str(pair[1])[:300]}"
                    for number, pair in lines if pair[0] != pair[1]][:1]
    return streams


def executable(path, text):
    """Makes a program of a shell's commands."""
    path.write_text(f"#!/bin/sh\n{text}\n")
    path.chmod(0o755)
    return str(path)


def run_tool(words, given=b"", folder=None, seconds=300, **variables):
    """Runs a command, with more variables: its status, standard output and standard error as texts."""
    status, output, errors = run([str(it) for it in words], given, {**os.environ, **variables}, seconds, cwd=folder)
    return status, output.decode(), errors.decode()


def output_of(words, **more):
    """The output of a command that has to succeed. Words as `cwd` and `env` go to subprocess.run."""
    ended = subprocess.run([str(it) for it in words], capture_output=True, check=False, timeout=300, **more)
    said = (ended.stdout[-1000:] + ended.stderr[-2000:]).decode(errors="replace")
    assert ended.returncode == 0, f"{words}: status {ended.returncode}: {said}"
    return ended.stdout.decode()


def run_here(main, words, given=b""):
    """Runs the main function of a command in this process: its status, standard output and standard error."""
    # Some tests take this file along, and no tools.
    from zsched_tools import command
    streams = {"stdin": io.TextIOWrapper(io.BytesIO(given)), "stdout": io.TextIOWrapper(io.BytesIO(), "utf-8"),
               "stderr": io.StringIO()}
    with mock.patch.multiple(sys, argv=[str(it) for it in words], **streams):
        try:
            status = main()
        except SystemExit as ended:
            status = ended.code
        finally:
            gc.enable()
            # The next test in this process has other options.
            command._colored[0], command._quiet[0] = "auto", False
    streams["stdout"].flush()
    return status, streams["stdout"].buffer.getvalue().decode(), streams["stderr"].getvalue()


def draw(seed, client, part, number, least, most):
    """A draw of the tools and the page, calculated from docs/FORMATS.md a second time."""
    state = 0
    for word in (seed, client, part, number):
        state = (state + word + 0x9e3779b97f4a7c15) % 2**64
        for shift, factor in [(30, 0xbf58476d1ce4e5b9), (27, 0x94d049bb133111eb), (31, 1)]:
            state = (state ^ state // 2**shift) * factor % 2**64
    return least + state * (most - least + 1) // 2**64


def floors():
    """The number of cases that each file of tests must have at least."""
    lines = (TOP / "tests" / "floors.txt").read_text(encoding="utf-8").splitlines()
    return {line.split()[0]: int(line.split()[1]) for line in lines if line and not line.startswith("#")}


def examples(number):
    """The number of random examples of a test: this one, times the option --examples."""
    return number * int(os.environ.get("ZSCHED_EXAMPLES", "1"))
