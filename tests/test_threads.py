"""Counts the threads that the program starts, on plans and cuts of which the number follows from the report.

In a round min(workers, batches) workers process the batches, and the calling thread is one of them. A job is polled
once at each moment at which one of its attempts begins or ends, as the report has them. refuse.c counts the starts."""
import collections
import json

import hypothesis
import pytest

import generator
import reference
from refuser import refuser
from reports import jobs_of
from support import TOP, difference, equal_jobs, recut, report_beside
from test_cases import CUTS

# Plans of tests/plans/.
PLANS = ["seven_jobs", "seven_jobs_on_listed_ticks", "thirteen_jobs", "more_workers_than_jobs"]


def threads_of(report, workers, grain):
    """The threads that a run with this report starts under a cut."""
    due = collections.Counter(moment for job in jobs_of(report) for moment in job.moments)
    return sum(min(workers, -(-polls // grain)) - 1 for polls in due.values())


def started(refuser, zsched, plan, report, workers, grain):
    """Runs a plan, which has to have this report and to start its threads: their number."""
    ended, _, threads = refuser.run(zsched, plan)
    assert difference(ended, (0, report, b"")) is None
    assert threads == threads_of(report, workers, grain)
    return threads


@pytest.mark.parametrize("workers, grain", filter(None, CUTS))
@pytest.mark.parametrize("name", PLANS)
def test_a_plan_starts_the_threads_of_its_rounds(name, workers, grain, zsched, refuser):
    path = TOP / "tests" / "plans" / f"{name}.json"
    started(refuser, zsched, recut(path.read_bytes(), workers, grain), report_beside(path), workers, grain)


@pytest.mark.parametrize("workers, grain", [(64, 1), (4, 100), (3, 7), (64, 10000), (1, 1)])
def test_three_rounds_of_ten_thousand_jobs(workers, grain, zsched, refuser):
    plan, report = equal_jobs([f"j{number}" for number in range(10000)], workers, grain)
    started(refuser, zsched, plan, report, workers, grain)


@pytest.mark.parametrize("chunk", generator.chunks(750))
def test_random_plans_start_the_threads_of_their_rounds(chunk, zsched, refuser):
    """A third of the plans or more start threads."""
    threads = []

    def start(tree):
        status, report, _ = reference.answer(plan := json.dumps(tree).encode())
        hypothesis.assume(status == 0)
        threads.append(started(refuser, zsched, plan, report, tree.get("workers", 1), tree.get("grain", 1)))
    generator.hold(chunk, start, generator.made(generator.made_plan))
    assert 3 * sum(number > 0 for number in threads) >= len(threads) >= generator.CHUNK
