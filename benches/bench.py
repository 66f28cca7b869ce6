#!/usr/bin/env python3
"""Measures zsched and the same behaviour in plain Rust (benches/baseline), and prints Markdown tables.

    python3 benches/bench.py                 the plans of benches/plans.py: a row each
    python3 benches/bench.py --check         the same bytes from both on examples/, tests/plans/ and these plans
    python3 benches/bench.py --growth        how cost grows, as tables and a picture

The programs run in turn. The tables have the least of several runs: the wall time, processor time and peak memory of
zsched and of the baseline, and their ratio. `perf` counts the instructions, if it can. If it can't, and with
--callgrind, valgrind counts them on plans of a tenth of the size. On a machine that does other work, wall time says
nothing.
Exit status: 0, 1 if bytes differ or a run failed, 2 if an argument or a program is wrong."""
import argparse
import os
import pathlib
import sys
import tempfile

HERE = pathlib.Path(__file__).resolve().parent
TOP = HERE.parent
sys.dont_write_bytecode = True
sys.path[:0] = [str(HERE), str(TOP / "tools")]

import growth
import measure
import plans
from zsched_tools import program

BASELINE = HERE / "baseline" / "target" / "release" / "baseline"
NAMES = ["zsched", "baseline"]
RUNS = 5
# How many times the baseline's quantities zsched's may be: instructions and wall time by plan, memory, and exceptions.
AIM, MEMORY = 1.25, {"large_plan": 1.4, "long_schedules": 2.0}
AIMS = {"parentheses": 1.3, "million_ticks": 1.3, "one_job": 1.35, "resets": 1.35, "scattered_timers": 1.45,
        "wide_999": 1.45, "collect_written": 1.45, "collect_counted": 1.45, "rounds_2_1": 1.75, "jobs_4_1": 1.9}
AIM_OF_JOBS = 1.45
# Exit statuses of a report, and of a rejected plan.
ENDED = [0, 2]


def least_of(runs):
    """The least of each over several runs, with the first status that differs from the first run's, if there is one."""
    other = [run.status for run in runs if run.status != runs[0].status]
    return measure.Run(*(min(values) for values in list(zip(*runs))[:3]), (other or [runs[0].status])[0])


def in_turn(programs, plan, runs):
    """Runs each program `runs` times on a plan, in turn, and returns the least of each."""
    measured = [[measure.run(each, plan) for each in programs] for _ in range(runs)]
    least = [least_of(one) for one in zip(*measured)]
    for name, run in zip(NAMES, least):
        if run.status not in ENDED:
            raise measure.Failed(f"{name} ended with status {run.status} on {plan.name}")
    return least


def answers(programs, plan, folder):
    """The Shot of zsched on a plan, and whether that of the baseline is the same: status, output and standard error."""
    one, other = (measure.shot(each, plan, folder) for each in programs)
    return one, one == other


# ---- the table of the plans

def instructions(programs, plan, small, callgrind):
    """The number of instructions of each program, or None: by perf on the plan, or by callgrind on the small one."""
    counted = [measure.instructions_by_perf(each, plan) for each in programs]
    if None not in counted:
        return counted
    return [measure.instructions_by_callgrind(each, small) for each in programs] if callgrind else None


def ratio(pair):
    """The first over the second, to two places."""
    return round(pair[0] / pair[1], 2)


def cells(pair, scale, digits):
    """Both values, and the first over the second."""
    return [" / ".join(f"{value * scale:,.{digits}f}" for value in pair), f"{ratio(pair):.2f}"] if pair else ["", ""]


def judged(name, pairs):
    """The aims of a plan as a text, and which of its pairs miss them."""
    aim = AIMS.get(name, AIM_OF_JOBS if name.startswith("jobs_") else AIM)
    aims = {what: MEMORY.get(name, AIM) if what == "memory" else aim for what in pairs if what != "processor"}
    missed = [what for what, most in aims.items() if pairs[what] and ratio(pairs[what]) > most]
    others = [f"{what} {most}" for what, most in aims.items() if most != aim]
    return [", ".join([str(aim), *others]), f"missed: {', '.join(missed)}" if missed else "reached"]


def row(name, least, counted, size, equal):
    """A plan's row."""
    pairs = {"instructions": counted, "processor": [run.processor for run in least],
             "wall": [run.wall for run in least], "memory": [run.memory for run in least]}
    fields = [f"`{name}`", f"{size / 1e6:.1f}"]
    for pair, scale, digits in zip(pairs.values(), [1e-6, 1000, 1000, 1e-6], [1, 0, 0, 1]):
        fields += cells(pair, scale, digits)
    return f"| {' | '.join([*fields, *judged(name, pairs)])} | {'yes' if equal else 'NO'} |"


def head_of_table():
    """The two lines above the rows."""
    names = ["Plan", "Output, MB", "Instructions, millions", "x", "Processor, ms", "x", "Wall, ms", "x", "Peak, MB",
             "x", "Aim, x", "Result", "Same bytes"]
    return f"| {' | '.join(names)} |\n|---|" + "---:|" * (len(names) - 3) + "---|---|"


def tell_plans(programs, given, folder):
    """Prints the table. Returns whether all bytes were the same."""
    all_same = True
    print(head_of_table(), flush=True)
    small = dict(plans.write(folder / "small", 10 * given.divisor, given.only)) if given.callgrind else {}
    for name, plan in plans.write(folder, given.divisor, given.only):
        answer, equal = answers(programs, plan, folder)
        least = in_turn(programs, plan, given.runs)
        counted = instructions(programs, plan, small.get(name), given.callgrind)
        print(row(name, least, counted, len(answer.output), equal), flush=True)
        all_same = all_same and equal
    return all_same


# ---- the other commands

def check(programs, given, folder):
    """Compares the bytes on all plans. Returns whether they were the same."""
    repository = [] if given.only else sorted([*TOP.glob("examples/*.json"), *TOP.glob("tests/plans/*.json")])
    made = [path for _, path in plans.write(folder, given.divisor, given.only)]
    different = [path for path in [*repository, *made] if not answers(programs, path, folder)[1]]
    for path in different:
        print(f"{path}: different bytes")
    print(f"{len(repository) + len(made) - len(different)} passed, {len(different)} failed")
    return not different


def tell_growth(programs, given, folder):
    """Prints the tables of growth, and draws the picture."""
    measured = []
    for axis in growth.axes(given.divisor, given.attempts):
        points = []
        for size in axis.sizes:
            plan = folder / f"{axis.name}_{size}.json"
            plan.write_bytes(axis.plan(size))
            points.append(growth.Point(size, in_turn(programs, plan, given.runs)))
            plan.unlink()
        measured.append((axis, points))
        print(growth.table(axis.name, NAMES, points) + "\n", flush=True)
    print(growth.table_of_exponents(NAMES, measured))
    pathlib.Path(given.picture).write_text(growth.picture(growth.panels(NAMES, measured)))
    return True


def programs_of(given):
    """The paths of both programs."""
    if not os.access(given.baseline, os.X_OK):
        raise program.NoProgram(f"no program at {given.baseline} ({HERE / 'baseline' / 'build'} builds it)")
    return [program.find(given.zsched), str(given.baseline)]


def parser():
    """The command line."""
    words = argparse.ArgumentParser(description=__doc__, formatter_class=argparse.RawDescriptionHelpFormatter)
    what = words.add_mutually_exclusive_group()
    what.add_argument("--check", action="store_true", help="compare the bytes, and measure nothing")
    what.add_argument("--growth", action="store_true", help="measure how cost grows")
    words.add_argument("--only", action="append", metavar="NAME", choices=list(plans.plans()),
                       help="only this plan; may be repeated")
    words.add_argument("--runs", type=plans.at_least_one, default=RUNS, metavar="N",
                       help=f"runs of each program ({RUNS})")
    words.add_argument("--divisor", type=plans.at_least_one, default=1, metavar="N",
                       help="divide the sizes of the plans, for a quick try (1)")
    words.add_argument("--callgrind", action="store_true", help="count instructions by valgrind if perf can't")
    words.add_argument("--attempts", type=plans.at_least_one, default=growth.ATTEMPTS, metavar="N",
                       help=f"the most attempts of --growth ({growth.ATTEMPTS}; ten times as many take gigabytes)")
    words.add_argument("--picture", default=HERE / "growth.svg", metavar="FILE",
                       help="the picture of --growth (benches/growth.svg)")
    words.add_argument("--zsched", metavar="PATH",
                       help="the program (that of the variable ZSCHED, or else the built one)")
    words.add_argument("--baseline", default=BASELINE, metavar="PATH",
                       help="the baseline (the one that benches/baseline/build builds)")
    return words


def main(words):
    """Runs the command of the command line, and returns the exit status."""
    given = parser().parse_args(words)
    todo = check if given.check else tell_growth if given.growth else tell_plans
    try:
        with tempfile.TemporaryDirectory() as folder:
            return 0 if todo(programs_of(given), given, pathlib.Path(folder)) else 1
    except measure.Failed as cause:
        print(f"bench.py: {cause}", file=sys.stderr)
        return 1
    except (program.NoProgram, OSError) as cause:
        print(f"bench.py: {cause}", file=sys.stderr)
        return 2


if __name__ == "__main__":
    try:
        sys.exit(main(sys.argv[1:]))
    except KeyboardInterrupt:
        sys.exit(130)
