"""Each allocation fails in turn, in a single call and in whole runs; and a machine on which no thread starts."""
import re
from typing import NamedTuple

import pytest

import support
from refuser import refuser
from support import ONE_JOB, ONE_REPORT, difference

PLACES = 40
BLOCK_OF_JOBS = 10_000
# How the program ends if memory or a thread is missing: with nothing written.
NO_MEMORY = (4, b"", b"zsched: out of memory\n")
NO_THREAD = (4, b"", b"zsched: no thread\n")
# The megabytes of a limit on all memory, from too few to enough.
LIMITS = [4, 8, 16, 24, 32, 40, 48, 64, 256]


class Call(NamedTuple):
    """Calls of zs_refusals: the name of the case, their input, and their result. `lines` are what they print if one of
    their allocations failed, in the order of the calls; `may` is what they print if a thread couldn't be started."""
    name: str
    given: str
    made: str
    lines: list
    may: str = ""

    def is_known(self, line):
        """Whether the case may end so. A failure in the values that a call needs counts as one in its set-up."""
        is_set_up = line.startswith("set-up: ") and "wrong" not in line
        return is_set_up or line in [f"ok\n{self.made}", *self.lines] or line == self.may != ""

    def place(self, line):
        """The place of a call. A greater N fails in a later call, but the number of allocations in threads varies."""
        threads = self.may.replace("NoThread", "Memory")
        last = self.lines.index(threads) if threads else len(self.lines)
        return min(self.lines.index(line), last)


def plan_of(jobs, workers, grain):
    """A plan with its report: ONE_JOB, a number of equal jobs, or the heavy ones."""
    if jobs == "one":
        return ONE_JOB, ONE_REPORT
    if jobs == "heavy":
        return support.heavy_jobs(workers, grain)
    return support.equal_jobs([f"j{number}" for number in range(jobs)], workers, grain)


# Single calls. `Agenda::new`, `take` and `split` allocate nothing.
CALLS = {name: Call(name, *more) for name, *more in support.rows("calls.jsonl")}
# Whole plans, each once on one worker and then shared between two.
for call, number, grain in [("jobs", 7, 1), ("run", 7, 3), ("run", 52, 3)]:
    for workers in [1, 2]:
        plan, report = plan_of(number, workers, grain if workers > 1 else 1)
        lines = {"jobs": ["read_plan: Memory", "run_jobs: Memory", "report: AllocError"],
                 "run": CALLS["run"].lines}[call]
        CALLS[f"{call} of {number}, {workers} workers"] = Call(
            call, plan.decode(), report.decode(), lines, lines[1].replace("Memory", "NoThread") if workers > 1 else "")


@pytest.mark.parametrize("name", CALLS)
def test_a_call_reports_each_failed_allocation_or_does_without_it(name, refusals, refuser):
    call, found, reached = CALLS[name], set(), 0
    for number, (status, output, errors) in refuser.each(refusals, f"{call.name}\n{call.given}".encode()):
        line = output.decode().removesuffix("\n")
        assert (status, errors) == (0, b"") and call.is_known(line), f"allocation {number}: {line}"
        if line in call.lines:
            assert call.place(line) >= reached, f"allocation {number} is one of an earlier call: {line}"
            reached = call.place(line)
        found.add(line)
    assert line == f"ok\n{call.made}"
    assert found >= set(call.lines)


@pytest.mark.parametrize("kind", ["at", "from"])
@pytest.mark.parametrize("jobs, workers, grain", [("one", 1, 1), (7, 1, 1), (7, 2, 3)])
def test_each_allocation_of_a_run_fails(jobs, workers, grain, kind, zsched, refuser):
    text, report = plan_of(jobs, workers, grain)
    ends = [ended for _, ended in refuser.each(zsched, text, kind)]
    assert NO_MEMORY in ends and [it for it in ends if it not in [(0, report, b""), NO_MEMORY, NO_THREAD]] == []


@pytest.mark.parametrize("jobs, workers, grain", [(10_000, 1, 1), (10_000, 2, 3), ("heavy", 1, 1), ("heavy", 4, 3)])
def test_allocations_fail_all_over_a_large_run(jobs, workers, grain, zsched, refuser):
    text, report = plan_of(jobs, workers, grain)
    whole, allocations, _ = refuser.run(zsched, text)
    assert difference(whole, (0, report, b"")) is None
    for place in range(PLACES):
        number = 1 + allocations * place // PLACES
        assert refuser.run(zsched, text, at=number).ended in [whole, NO_MEMORY, NO_THREAD], number


# Three workers need two starts of threads at each of three moments, two batches need one, and one batch needs none.
@pytest.mark.parametrize("jobs, workers, grain, number, is_enough", support.rows("no_threads.jsonl"))
def test_no_thread_can_be_started_from_one_on(jobs, workers, grain, number, is_enough, zsched, refuser):
    text, report = plan_of(jobs, workers, grain)
    wanted = (0, report, b"") if is_enough else NO_THREAD
    assert difference(refuser.run(zsched, text, threads=number).ended, wanted) is None


@pytest.mark.parametrize("name, failures, said", [
    ("the second worker has no memory", {"within": 1}, "out of memory"),
    ("the third worker has no memory", {"within": 2}, "out of memory"),
    ("the third worker can't be started", {"threads": 2}, "no thread"),
    ("the second worker has no memory and the third can't be started", {"within": 1, "threads": 2}, "out of memory")])
def test_of_two_causes_the_first_workers_is_reported(name, failures, said, zsched, refuser):
    assert refuser.run(zsched, plan_of("heavy", 3, 1)[0], **failures).ended == (4, b"", f"zsched: {said}\n".encode())


@pytest.mark.parametrize("millions", LIMITS)
def test_ten_thousand_jobs_within_a_limit(millions, zsched):
    text, report = plan_of(10_000, 2, 3)
    ends = {4: [NO_MEMORY], 256: [(0, report, b"")]}
    ended = support.run(["prlimit", f"--as={millions}000000", zsched], text)
    assert ended in ends.get(millions, [(0, report, b""), NO_MEMORY, NO_THREAD])


class Population:
    """Equal jobs as JSON lines, and how their run may end: with the report, or without memory after some blocks."""

    def __init__(self, jobs, workers, grain):
        self.last_line, self.workers = jobs + 1, workers
        self.text = support.population([f"j{number}" for number in range(jobs)], workers, grain)
        self.whole = 0, plan_of(jobs, workers, grain)[1], b""
        self.blocks = [plan_of(first, 1, 1)[1].rpartition(b"polls ")[0] for first in range(0, jobs + 1, BLOCK_OF_JOBS)]

    def place(self, ended):
        """Where a run ended: the number of blocks before, and a line (after a block's last if it was run), or None."""
        if ended == self.whole:
            return None
        status, output, errors = ended
        found = re.fullmatch(rb"zsched-population: (?:line (\d+): )?(out of memory|no thread)\n", errors)
        assert status == 4 and found and output in self.blocks, ended
        assert found[2] == b"out of memory" or self.workers > 1 and not found[1], ended
        before = self.blocks.index(output)
        if not found[1]:
            return before, min((before + 1) * BLOCK_OF_JOBS, self.last_line) + 2
        # The line after the last one is where the end of input is found.
        line = int(found[1])
        assert 1 <= line <= self.last_line + 1 and before == max(0, line - 2) // BLOCK_OF_JOBS, ended
        return before, line


@pytest.mark.parametrize("workers, grain", [(1, 1), (2, 3)])
def test_each_allocation_of_a_population_fails(workers, grain, population, refuser):
    """Each line is a place at which that is reported, and a later allocation fails at no earlier place."""
    jobs = Population(7, workers, grain)
    for _, ended in refuser.each(population, jobs.text, "at"):
        jobs.place(ended)
    places = [jobs.place(ended) for _, ended in refuser.each(population, jobs.text, "from")]
    places = [place for place in places if place]
    assert places == sorted(places)
    assert {line for _, line in places} >= set(range(1, jobs.last_line + 1))
    assert places[-1] == (0, jobs.last_line + 2)


@pytest.mark.parametrize("workers, grain", [(1, 1), (2, 5000)])
def test_allocations_fail_all_over_three_blocks(workers, grain, population, refuser):
    jobs, found = Population(2 * BLOCK_OF_JOBS + 3, workers, grain), set()
    whole, allocations, _ = refuser.run(population, jobs.text)
    assert difference(whole, jobs.whole) is None
    for place in range(0, PLACES, 2):
        reached = jobs.place(refuser.run(population, jobs.text, at=1 + allocations * place // PLACES).ended)
        found.add(reached and reached[0])
    assert found >= {0, 1}
    wanted = (4, b"", b"zsched-population: no thread\n") if workers > 1 else whole
    assert difference(refuser.run(population, jobs.text, threads=1).ended, wanted) is None


@pytest.mark.parametrize("millions", [limit for limit in LIMITS if limit != 64])
def test_three_blocks_within_a_limit(millions, population):
    jobs = Population(2 * BLOCK_OF_JOBS + 3, 1, 1)
    place = jobs.place(support.run(["prlimit", f"--as={millions}000000", population], jobs.text))
    assert millions not in (4, 256) or (place is None) == (millions == 256)
