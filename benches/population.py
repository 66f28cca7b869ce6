#!/usr/bin/env python3
"""Measures a population of many jobs on this machine. zsched-population runs it as one program, and by ranges, as many
at a time as there are processors, which it checks and joins, by the recipe of docs/SCALE.md. Both reports must have the
same bytes. Last it measures the forms of the whole report.

    python3 benches/population.py [--jobs 1000000] [--range 100000] [--folder FOLDER]

Prints a Markdown table with a row for each step: wall time, the processor time of all its processes, the peak memory of
the largest of them, jobs a second of wall time, and the megabytes read a second of wall and of processor time. The jobs
are those of the plan `jobs_1_1`: 20 attempts each. A million of them take about 3.5 GB of files, which are removed.
Exit status: 0, 1 if a step failed or a joined report isn't that of all jobs, 2 if an argument or a program is wrong."""
import argparse
import filecmp
import itertools
import json
import os
import pathlib
import re
import subprocess
import sys
import time

HERE = pathlib.Path(__file__).resolve().parent
TOP = HERE.parent
sys.dont_write_bytecode = True
sys.path[:0] = [str(HERE), str(TOP / "tools")]

import measure
import plans
from zsched_tools import program

POLLS = 40


def write_population(path, count):
    """A population as JSON lines: the document without its jobs, then a job a line."""
    plan = json.loads(plans.jobs_at_once(1, 1, 1))
    (job,) = plan.pop("jobs")
    jobs = ({**job, "name": f"j{number}"} for number in range(count))
    with open(path, "w", encoding="ascii") as file:
        file.writelines(json.dumps(line, separators=(",", ":")) + "\n" for line in itertools.chain([plan], jobs))


def ran(words, output=os.devnull, source=os.devnull, environment=None):
    """One run of a tool, from a file to a file."""
    begun = time.perf_counter()
    with (open(source, "rb") as read, open(output, "wb") as out,
          subprocess.Popen(words, stdin=read, stdout=out, env=environment) as process):
        _, status, usage = os.wait4(process.pid, 0)
        process.returncode = os.waitstatus_to_exitcode(status)
    wall = time.perf_counter() - begun
    return measure.Run(wall, usage.ru_utime + usage.ru_stime, usage.ru_maxrss * 1024, process.returncode)


def recipe():
    """The script of ranges in docs/SCALE.md, and the commands that run it."""
    section = (TOP / "docs" / "SCALE.md").read_text(encoding="utf-8").partition("\n## Ranges\n")[2]
    return re.findall(r"^```sh\n(.*?)^```", section, re.MULTILINE | re.DOTALL)[:2]


def write_recipe(found, folder, jobs):
    """Writes the script of docs/SCALE.md, with ranges of another length. Returns the commands that run the ranges, the
    one that joins their reports, and their environment."""
    script, commands = recipe()
    (folder / "ranges.sh").write_text(re.sub(r"(?m)^size=\d+$", f"size={jobs}", script))
    (folder / "bin").mkdir()
    (folder / "bin" / "zsched-population").symlink_to(pathlib.Path(found).resolve())
    environment = {**os.environ, "PATH": f"{folder / 'bin'}:{os.environ['PATH']}"}
    return *commands.strip().split(" && "), environment


def size(paths):
    """The total size of some files in bytes."""
    return sum(path.stat().st_size for path in paths)


def steps(found, folder, count, jobs):
    """The steps, each with its name, its run and the bytes that it reads. A step that fails is the last one."""
    population, one, whole = folder / "population.jsonl", folder / "one.report", folder / "whole.report"
    report = TOP / "tools" / "zsched-report"
    write_population(population, count)
    yield "one program", ran([found], one, population), size([population])
    if last_line(one) != b"polls %d\n" % (count * POLLS):
        raise measure.Failed(f"the report isn't that of {count} jobs: it ends with {last_line(one)!r}")
    run, join, environment = write_recipe(found, folder, jobs)
    yield "ranges", ran(["bash", "-c", f"cd '{folder}'; {run}"], environment=environment), size([population])
    reports = size((folder / "ranges").iterdir())
    yield "check", ran(["bash", "-c", f"cd '{folder}'; {join}"], environment=environment), size([population]) + reports
    if not filecmp.cmp(one, whole, shallow=False):
        raise measure.Failed("the joined report isn't that of one program")
    for name, words in [("lines", ["lines"]), ("summary", ["summary", "--one-line"]), ("load", ["load"])]:
        yield name, ran([report, *words, whole]), size([whole])


def last_line(path):
    """The last line of a file."""
    with open(path, "rb") as file:
        file.seek(max(0, path.stat().st_size - 100))
        return file.read().splitlines(keepends=True)[-1]


def table(found, folder, count, jobs):
    """The rows of the table, as they come."""
    yield "| Step | Wall, s | Processor, s | Peak, MB | Jobs a second | MB a second | MB a processor second |"
    yield "|---|---:|---:|---:|---:|---:|---:|"
    for name, run, read in steps(found, folder, count, jobs):
        if run.status != 0:
            raise measure.Failed(f"{name} ended with status {run.status}")
        yield (f"| {name} | {run.wall:,.1f} | {run.processor:,.1f} | {run.memory / 1e6:,.1f} | {count / run.wall:,.0f} "
               f"| {read / 1e6 / run.wall:,.1f} | {read / 1e6 / max(run.processor, 1e-3):,.1f} |")


def main(words):
    """The command line: the exit status."""
    arguments = argparse.ArgumentParser(description=__doc__, formatter_class=argparse.RawDescriptionHelpFormatter)
    arguments.add_argument("--jobs", type=plans.at_least_one, default=1_000_000, help="the number of jobs (1000000)")
    arguments.add_argument("--range", type=plans.at_least_one, default=100_000, help="the jobs of a range (100000)")
    arguments.add_argument("--folder", help="the folder for the files of the run (the one for temporary files)")
    arguments.add_argument("--population", metavar="PATH",
                           help="the program (that of ZSCHED_POPULATION, or else the built one)")
    chosen = arguments.parse_args(words)
    try:
        found = program.find_beside("zsched-population", chosen.population)
    except program.NoProgram as missing:
        arguments.error(str(missing))
    if found is None:
        arguments.error("zsched-population is neither built nor installed")
    return measure.print_table("population", chosen.folder,
                               lambda folder: table(found, folder, chosen.jobs, chosen.range))


if __name__ == "__main__":
    sys.exit(main(sys.argv[1:]))
