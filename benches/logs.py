#!/usr/bin/env python3
"""Measures tools that read a log of calls, by the library (if there is one) and by the program alone.

    python3 benches/logs.py [--mb 100] [--folder FOLDER]

The log has an attempt a row, 45 bytes long, in the order of their begins: requests that come 2 in 3 ms, about half of
whose attempts fail and are repeated after 100, 200, 400 ms and so on. Prints a Markdown table: wall time, processor
time, the peak memory and rows a second of wall time. Exit status: 0, 1 if a step failed, 2 if an argument is wrong."""
import argparse
import datetime
import heapq
import os
import pathlib
import random
import sys

HERE = pathlib.Path(__file__).resolve().parent
TOP = HERE.parent
sys.dont_write_bytecode = True
sys.path[:0] = [str(HERE), str(TOP / "tools")]

import measure
import plans
import population
from zsched_tools import decisions

BEGIN = datetime.datetime(2026, 11, 26, 10)
POLICY = "(exponential(100) && recurs(5))"
STEPS = [("follows", ["zsched-follows", "LOG", "--schedule", POLICY]),
         ("follows, `elapsed`", ["zsched-follows", "LOG", "--schedule", f"({POLICY} && elapsed.whileOutput(< 9000))"]),
         ("plan", ["zsched-plan", "from", "LOG", "--schedule", POLICY])]


def write_log(path, size):
    """Writes a log of at least so many bytes. Returns its number of rows."""
    chance, now, name, waiting, rows = random.Random(7), 0, 0, [], 0
    with open(path, "w", encoding="ascii") as file:
        written = file.write("request_id,timestamp,duration_ms,status\n")
        while written < size:
            now, name = now + chance.choice((0, 1, 1, 2)), name + 1
            heapq.heappush(waiting, (now, name, 1))
            while waiting and waiting[0][0] <= now:
                begin, request, number = heapq.heappop(waiting)
                length, is_error = chance.randint(5, 90), chance.random() < 0.55
                at = (BEGIN + datetime.timedelta(milliseconds=begin)).isoformat(timespec="milliseconds")
                written += file.write(f"order-{request},{at}Z,{length},{503 if is_error else 200}\n")
                rows += 1
                if is_error and number < 6:
                    after = begin + length + 100 * 2**(number - 1) + chance.randint(0, 30)
                    heapq.heappush(waiting, (after, request, number + 1))
    return rows


def table(folder, size):
    """The rows of the table, as they come."""
    log = folder / "log.csv"
    rows = write_log(log, size)
    yield f"| Log of {size / 1e6:g} MB, {rows:,} rows | By | Wall, s | Processor, s | Peak, MB | Rows a second |"
    yield "|---|---|---:|---:|---:|---:|"
    for by, variables in [("library", {}), ("program", {"ZSCHED_LIBRARY": ""})]:
        for name, words in STEPS if variables or decisions.find_library() else ():
            words = [TOP / "tools" / words[0], *(str(log) if word == "LOG" else word for word in words[1:])]
            words = ["sh", "-c", 'exec "$@" 2> "$0"', folder / "errors", *words]
            run = population.ran(words, folder / "output", environment=os.environ | variables)
            if run.status not in (0, 1):
                raise measure.Failed(f"{name} ended with status {run.status}")
            yield (f"| {name} | {by} | {run.wall:,.1f} | {run.processor:,.1f} | {run.memory / 1e6:,.0f} "
                   f"| {rows / run.wall:,.0f} |")


def main(words):
    """The command line: the exit status."""
    arguments = argparse.ArgumentParser(description=__doc__, formatter_class=argparse.RawDescriptionHelpFormatter)
    arguments.add_argument("--mb", type=plans.at_least_one, default=100, help="the size of the log (100)")
    arguments.add_argument("--folder", help="the folder for the files of the run (the one for temporary files)")
    chosen = arguments.parse_args(words)
    return measure.print_table("logs", chosen.folder, lambda folder: table(folder, chosen.mb * 1_000_000))


if __name__ == "__main__":
    sys.exit(main(sys.argv[1:]))
