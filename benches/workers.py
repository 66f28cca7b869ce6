#!/usr/bin/env python3
"""Measures when more than one worker pays: jobs that are all due at the same moments, by the nodes of their schedules.

    python3 benches/workers.py [--runs 5] [--divisor 10] [--zsched PATH]

Prints a Markdown table: the least wall time of several runs in turn, and how many times that of one worker it is. (W,G)
has W workers, and batches of G jobs. Exit status: 0, 1 if a run failed, 2 if an argument or the program is wrong."""
import argparse
import pathlib
import sys

HERE = pathlib.Path(__file__).resolve().parent
sys.dont_write_bytecode = True
sys.path[:0] = [str(HERE), str(HERE.parent / "tools")]

import measure
import plans
from zsched_tools import program

CUTS = [(1, 1), (2, 100), (4, 100), (4, 500), (4, 1)]
# The numbers of jobs, of leaves of each schedule, and of attempts of each job.
SHAPES = [(10_000, 1, 20), (10_000, 11, 20), (2_000, 34, 20), (2_000, 67, 20), (2_000, 171, 20), (2_000, 171, 100)]


def least_times(found, folder, shape, divisor, runs):
    """The least wall time of each cut in milliseconds."""
    jobs, leaves, attempts = shape
    paths = [folder / f"{place}.json" for place in range(len(CUTS))]
    for path, cut in zip(paths, CUTS):
        path.write_bytes(plans.heavy_jobs_at_once(max(1, jobs // divisor), *cut, leaves, attempts))
    measured = [[measure.run(found, path) for path in paths] for _ in range(runs)]
    if any(run.status for one in measured for run in one):
        raise measure.Failed(f"a run of {jobs} jobs didn't end with 0")
    return [min(run.wall for run in one) * 1000 for one in zip(*measured)]


def table(found, folder, divisor, runs):
    """The rows of the table, as they come."""
    yield "| Jobs | Nodes | Attempts | " + " | ".join(f"({workers},{grain}), ms" for workers, grain in CUTS) + " |"
    yield "|" + "---:|" * (3 + len(CUTS))
    for shape in SHAPES:
        jobs, leaves, attempts = shape
        first, *others = least_times(found, folder, shape, divisor, runs)
        cells = [f"{first:,.0f}", *(f"{time:,.0f} ({time / first:.2f})" for time in others)]
        yield f"| {jobs // divisor:,} | {3 * leaves - 2} | {attempts} | {' | '.join(cells)} |"


def main(words):
    """The command line: the exit status."""
    arguments = argparse.ArgumentParser(description=__doc__, formatter_class=argparse.RawDescriptionHelpFormatter)
    arguments.add_argument("--runs", type=plans.at_least_one, default=5, metavar="N", help="runs of each plan (5)")
    arguments.add_argument("--divisor", type=plans.at_least_one, default=1, metavar="N", help="divides the jobs (1)")
    arguments.add_argument("--zsched", metavar="PATH", help="the program (that of ZSCHED, or else the built one)")
    chosen = arguments.parse_args(words)
    try:
        found = program.find(chosen.zsched)
    except program.NoProgram as missing:
        arguments.error(str(missing))
    return measure.print_table("workers", None, lambda folder: table(found, folder, chosen.divisor, chosen.runs))


if __name__ == "__main__":
    sys.exit(main(sys.argv[1:]))
