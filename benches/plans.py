#!/usr/bin/env python3
"""Makes the plans that the benchmarks run, one file NAME.json each, and prints their names and sizes.

    python3 benches/plans.py FOLDER [--divisor 10] [--only NAME ..]

Nothing is random: the same arguments make the same bytes. `--divisor 10` makes plans of a tenth of the size: a tenth of
the attempts of one job, of the jobs, ticks or bytes. The depth and size of schedules don't change. Exit status: 0, or 2
if an argument or the folder is wrong."""
import argparse
import json
import pathlib
import sys

LAST_MOMENT = 999_999_999_999_999
CUTS = [(1, 1), (4, 1), (4, 100), (4, 2_500), (64, 10), (64, 10_000)]
HEAVY_CUTS = [(1, 1), (4, 1), (4, 100), (64, 10)]
ONE = [{"ms": 1, "ok": 7}]
RESETS = "(recurs(9).resetWhen(= 5) && elapsed).resetWhen(_2 >= 50)"


def job(name, schedule, script=None, **more):
    """A job that repeats, by default attempts of a millisecond each."""
    return {"name": name, "mode": "repeat", "schedule": schedule, "script": script or ONE, **more}


def plan(jobs, horizon=LAST_MOMENT, **more):
    """The bytes of a plan. A horizon of None leaves it out."""
    head = {} if horizon is None else {"horizon": horizon}
    return json.dumps({**head, **more, "jobs": jobs}, separators=(",", ":")).encode()


def balanced(leaves, leaf="forever"):
    """The intersection of n leaves, as a tree of the least depth. It has 2n - 1 nodes."""
    if leaves == 1:
        return leaf
    left = leaves // 2
    return f"({balanced(left, leaf)} && {balanced(leaves - left, leaf)})"


def picked(leaves):
    """The same tree with the first of each pair picked. It has 3n - 2 nodes, and its output is one number."""
    if leaves == 1:
        return "forever"
    left = leaves // 2
    return f"({picked(left)} && {picked(leaves - left)}).map(_1)"


def rounds(horizon):
    """4 jobs that are due together each 10 ms, for two workers."""
    jobs = [job(f"j{number}", "forever", [{"ms": 10, "ok": 1}]) for number in range(4)]
    return plan(jobs, horizon=horizon, workers=2)


def deep():
    """A schedule 64 deep, each node over one part."""
    tails = [".whileInput(>= 0)", ".map(+ 1)", ".whileOutput(>= 0)"]
    return "forever" + "".join(tails[place % 3] for place in range(63))


def attempts_with_delays(count):
    """One job of `count` attempts that fail, with 3 ms between them."""
    schedule = "(spaced(3) && identity.whileOutput(< 100)).map(_1)"
    return plan([job("a", schedule, [{"ms": 1, "err": 7}], mode="retry")], horizon=4 * count)


def jobs_at_once(count, workers, grain):
    """`count` equal jobs of 20 attempts, all due at the same moments."""
    script = [{"ms": 5, "ok": 1}]
    jobs = [job(f"j{number}", "(recurs(19) && spaced(10))", script) for number in range(count)]
    return plan(jobs, horizon=1000, workers=workers, grain=grain)


def heavy_jobs_at_once(count, workers, grain, leaves=171, attempts=100):
    """`count` jobs with schedules of 3 * leaves - 2 nodes, by default 511, all due at the same moments."""
    jobs = [job(f"j{number}", picked(leaves)) for number in range(count)]
    return plan(jobs, horizon=attempts, workers=workers, grain=grain)


def scattered_timers(count):
    """`count` jobs of 20 attempts, which begin at different moments and wait for different times."""
    jobs = [job(f"j{number}", f"(recurs(19) && spaced({1000 + number * 7919 % 9001}))", start=number * 37 % 10007)
            for number in range(count)]
    return plan(jobs)


def steps_of(schedule, steps):
    """One job of `steps` attempts under a schedule that continues at once."""
    return plan([job("a", schedule)], horizon=steps)


def long_scripts(count):
    """`count` jobs with scripts of 1,000 entries, about 43,000 bytes each. No job begins a second attempt."""
    script = [{"ms": 999_999_000 + place, "ok": 10_000_000_000_000_000 + place} for place in range(1000)]
    return plan([job(f"long-{number}", "forever", script) for number in range(count)], horizon=0)


def long_schedules(count):
    """`count` jobs with schedules of 60 nodes, which are never stepped."""
    schedule = balanced(30, "recurs(1000)") + ".map(_1)"
    return plan([job(f"j{number}", schedule) for number in range(count)], horizon=0)


def parentheses(count):
    """One job with a schedule of `count` open parentheses, which is rejected at its end."""
    return plan([job("a", "(" * count)])


def listed_ticks(count):
    """A clock of `count` listed ticks, and a job of at most 1,000 attempts on it."""
    return plan([job("a", "spaced(3000)")], horizon=None, ticks=list(range(0, 3 * count, 3)))


def plans(divisor=1):
    """The name of each plan, and a function that makes its bytes. Sizes are divided by the divisor."""
    def least(size):
        return max(1, size // divisor)

    made = {
        "one_job": lambda: steps_of("forever", least(500_000)),
        "one_job_delays": lambda: attempts_with_delays(least(500_000)),
    }
    for workers, grain in CUTS:
        made[f"jobs_{workers}_{grain}"] = lambda w=workers, g=grain: jobs_at_once(least(10_000), w, g)
    for workers, grain in HEAVY_CUTS:
        made[f"heavy_{workers}_{grain}"] = lambda w=workers, g=grain: heavy_jobs_at_once(least(2_000), w, g)
    return made | {
        "scattered_timers": lambda: scattered_timers(least(10_000)),
        "rounds_2_1": lambda: rounds(least(20_000)),
        "deep_64": lambda: steps_of(deep(), least(100_000)),
        "wide_999": lambda: steps_of(balanced(500), least(1_000)),
        "wide_silent": lambda: steps_of(balanced(500) + ".map(as 0)", least(1_000)),
        "collect_written": lambda: steps_of("identity.collectAll", least(3_000)),
        "collect_counted": lambda: steps_of("identity.collectAll.map(size)", least(20_000)),
        "collect_nested": lambda: steps_of("identity.collectAll.collectAll", least(300)),
        "large_plan": lambda: long_scripts(least(340)),
        "long_schedules": lambda: long_schedules(least(10_000)),
        "parentheses": lambda: parentheses(least(15_000_000)),
        "million_ticks": lambda: listed_ticks(least(1_000_000)),
        "resets": lambda: steps_of(RESETS, least(100_000)),
    }


def at_least_one(text):
    """A whole number of at least 1, read from a word of the command line."""
    number = int(text)
    if number < 1:
        raise argparse.ArgumentTypeError(f"{text} is less than 1")
    return number


def write(folder, divisor=1, only=None):
    """Writes the plans into a folder, which is made if it is missing. Yields pairs of a name and a file."""
    folder = pathlib.Path(folder)
    folder.mkdir(parents=True, exist_ok=True)
    for name, make in plans(divisor).items():
        if not only or name in only:
            path = folder / f"{name}.json"
            path.write_bytes(make())
            yield name, path


def main(words):
    """The command line."""
    arguments = argparse.ArgumentParser(description=__doc__, formatter_class=argparse.RawDescriptionHelpFormatter)
    arguments.add_argument("folder", help="the folder for the files")
    arguments.add_argument("--divisor", type=at_least_one, default=1, help="divides the sizes (1)")
    arguments.add_argument("--only", action="append", metavar="NAME", choices=list(plans()), help="only this plan")
    given = arguments.parse_args(words)
    try:
        for name, path in write(given.folder, given.divisor, given.only):
            print(f"{name:18} {path.stat().st_size:>9} bytes")
    except OSError as cause:
        print(f"plans.py: {cause}", file=sys.stderr)
        return 2
    return 0


if __name__ == "__main__":
    sys.exit(main(sys.argv[1:]))
