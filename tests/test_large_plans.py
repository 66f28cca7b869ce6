"""zsched on plans with many attempts, items, ticks, rounds, jobs or bytes, compared with tests/reference.py: status,
output and standard error. The reports of the largest are made by a loop here. A status 4 fails."""
import json
import socket
import subprocess

import pytest

import reference
from reference import LAST_TICK, M
from support import difference, run

PATIENCE = 120

# Schedules that continue for long, some of which grow: leaves of each form, and operators over parts that grow.
LEAVES = [
    "forever", "recurs(600)", "spaced(3)", "fixed(7)", "windowed(7)", "exponential(1, 1)", "exponential(1)",
    "exponential(3, 4294967296)", "fibonacci(0)", "fibonacci(1)", "identity", "elapsed", "linear(0)", "linear(1)"]
OPERATORS = [
    "(forever && identity)", "(recurs(3) || elapsed)", "(recurs(250) andThenEither identity)",
    "identity.whileInput(< 1000)", "(identity && elapsed).whileOutput(_2 < 2000)", "identity.map(+ 5).map(* 7)",
    "recurs(900).resetWhen(= 7)", "(recurs(2) andThenEither recurs(3)).map(merge).resetWhen(= 3)",
    "identity.collectAll.resetWhen(size = 9)", "identity.collectAll.map(size)",
    "(linear(1) && forever.collectAll.map(size)).resetWhen(_1 > 50).resetWhen(_2 = 9)"]


def job(number, schedule, values=(0,), ms=1, mode="repeat", **more):
    script = [{"ms": ms, "ok" if mode == "repeat" else "err": value} for value in values]
    return {"name": f"j{number}", "mode": mode, "schedule": schedule, "script": script, **more}


def plan(jobs, **more): return json.dumps({**more, "jobs": jobs}, separators=(",", ":")).encode()


def collected(length, value):
    """A job that collects `length` items of one value, and a short one after it."""
    return plan([job(0, f"(identity && recurs({length})).map(_1).collectAll", [value]), job(1, "recurs(1)")],
                horizon=LAST_TICK)


def many_polls(workers):
    pairs = ["forever && forever", "spaced(99) && spaced(99)", "spaced(1) && recurs(5000)"]
    jobs = [job(number, f"({pair}).map(_1)") for number, pair in enumerate(pairs)]
    return plan(jobs, horizon=12000, workers=workers)


def many_jobs(count, workers, grain):
    """`count` jobs, which begin and end apart."""
    jobs = [job(number, "(spaced(2) && recurs(1))", [number], 1 + number % 3, start=number % 5)
            for number in range(count)]
    return plan(jobs, horizon=20, workers=workers, grain=grain)


PLANS = {
    # On a clock that ends by itself only if delays grow.
    **{f"500 {attempts} over each leaf": lambda mode=mode: plan(
        [job(number, f"({leaf} && recurs(499))", range(1000), 2, mode) for number, leaf in enumerate(LEAVES)],
        horizon=LAST_TICK, workers=4, grain=3) for attempts, mode in [("repeats", "repeat"), ("retries", "retry")]},
    "500 attempts over each operator": lambda: plan(
        [job(number, schedule, range(9), 2) for number, schedule in enumerate(OPERATORS)], horizon=1100, workers=2),
    "1,100 collected items": lambda: collected(1100, 7),
    "a report of 20 million bytes": lambda: collected(1400, M),
    # The jobs are at the clock's begin, within it and at its end.
    "a million ticks": lambda: plan(
        [job(0, "(spaced(99991) && recurs(40))"), job(1, "fixed(3)", start=1999900),
         job(2, "recurs(5)", mode="retry", start=LAST_TICK), job(3, "spaced(2000000)")],
        ticks=[*range(0, 1999998, 2), LAST_TICK]),
    "12,000 rounds on a thread": lambda: many_polls(1),
    "12,000 rounds on two threads": lambda: many_polls(2),
    "9,999 jobs, each a batch": lambda: many_jobs(9999, 3, 1),
    "10,000 jobs in one batch": lambda: many_jobs(10000, 8, 10000),
    "a schedule with 1,000,000 spaces": lambda: plan([job(0, "recurs(" + " " * 1000000 + "3)")], horizon=9),
    "a script of 1,000 entries": lambda: plan([job(0, "identity", range(M - 999, M + 1))], horizon=1200),
}


def lines_of(name, outs, start=0, ms=1, value=0):
    """The lines of a repeat with these outputs, whose attempts come one immediately after the other."""
    lines, at = [f"job {name} repeat"], start
    for n, out in enumerate(outs, 1):
        at += ms
        decision = "done" if n == len(outs) else f"next {at}"
        lines += [f"attempt {n} {at - ms}..{at} ok {value}", f"step {n} out {out} {decision}"]
    return [*lines, f"end finished {outs[-1]} at {at} polls {len(outs) + 1}"]


def ended(lines, polls): return 0, "\n".join([*lines, f"polls {polls}", ""]).encode(), b""


def many_attempts(count):
    return plan([job(0, f"recurs({count - 1})")], horizon=LAST_TICK), ended(lines_of("j0", range(count)), count + 1)


def long_report(items):
    """A list of `items` greatest numbers; each step outputs those before it."""
    outs = ["[" + ",".join([str(M)] * n) + "]" for n in range(items + 1)]
    schedule = f"(identity && recurs({items})).map(_1).collectAll"
    return plan([job(0, schedule, [M])], horizon=LAST_TICK), ended(lines_of("j0", outs, value=M), items + 2)


def many_moments(count):
    """`count` jobs that begin in turn: the first half from its last job to its first, the others in order."""
    starts = [*range(count, 0, -2), *range(count + 2, 2 * count + 1, 2)]
    lines = [line for number, start in enumerate(starts) for line in lines_of(f"j{number}", [0], start)]
    jobs = [job(number, "recurs(0)", start=start) for number, start in enumerate(starts)]
    return plan(jobs, horizon=2 * count + 1), ended(lines, 2 * count)


def late_moments(names):
    """Jobs of three attempts, of which the last ends at the last tick, each a batch of two threads."""
    start = LAST_TICK - 6
    lines = [line for name in names for line in lines_of(name, range(3), start, 2)]
    jobs = [{**job(0, "recurs(2)", ms=2, start=start), "name": name} for name in names]
    return plan(jobs, horizon=LAST_TICK, workers=2), ended(lines, 4 * len(names))


# Plans, and how their runs end. Each is past a size at which a wrong body could stop working.
SIZES = {
    "70,000 attempts": lambda: many_attempts(70000),
    "a report of 45 million bytes": lambda: long_report(2100),
    "a schedule of 4,000,000 bytes": lambda: (
        plan([job(0, "recurs(" + " " * 4000000 + "0)")], horizon=9), ended(lines_of("j0", [0]), 2)),
    "a schedule of 1,400,000 levels": lambda: (
        plan([job(0, "(" * 1400000 + "forever" + "&&forever)" * 1400000)], horizon=9),
        (2, b"", b"zsched: job 0: schedule: too big\n")),
    "9,000 moments": lambda: many_moments(9000),
    "attempts at the last ticks, and a name of 64 bytes": lambda: late_moments(["n" * 64, "second"]),
}


@pytest.mark.parametrize("name", [*PLANS, *SIZES])
def test_a_plan_past_a_size(name, zsched):
    """The report of a plan of PLANS is that of the reference."""
    text, wanted = SIZES[name]() if name in SIZES else (PLANS[name](), None)
    assert difference(run(zsched, text, seconds=PATIENCE), wanted or reference.answer(text)) is None


def test_a_report_of_100_000_bytes_goes_out_in_one_write(zsched):
    """A socket separates the pieces that the program writes."""
    text, (_, report, _) = many_attempts(2000)
    ours, theirs = socket.socketpair(socket.AF_UNIX, socket.SOCK_SEQPACKET)
    with ours, subprocess.Popen([zsched], stdin=subprocess.PIPE, stdout=theirs, stderr=subprocess.DEVNULL) as running:
        theirs.close()
        running.stdin.write(text)
        running.stdin.close()
        assert list(iter(lambda: len(ours.recv(1 << 20)), 0)) == [len(report)]
