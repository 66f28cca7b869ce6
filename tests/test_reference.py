"""The program agrees with tests/reference.py on random plans, byte for byte, and the reference with what was worked out
by hand. `pytest tests/test_reference.py -n 4 --examples 50` compares 100,000 plans in minutes."""
import collections
import contextlib
import json
import random
import re

import pytest

import faults
import generator
import reference
import reports
from support import job, plan, run

MOST_ATTEMPTS = 2100
PLANS = 2000


@pytest.mark.parametrize("chunk", generator.chunks(PLANS))
def test_random_plans_agree_with_the_reference(chunk, zsched):
    def agrees(text):
        with contextlib.suppress(reference.TooManyAttempts):
            assert reference.answer(text, MOST_ATTEMPTS) == run(zsched, text)
    generator.hold(chunk, agrees, generator.made(generator.any_plan))


@pytest.mark.parametrize("text, wanted", faults.answers())
def test_the_reference_gives_each_fault_and_each_report_also_of_plans_at_the_limits(text, wanted):
    assert reference.answer(text) == wanted


def test_a_caller_of_the_reference_may_limit_the_attempts():
    with pytest.raises(reference.TooManyAttempts):
        reference.answer(plan([job("a", "forever", "repeat", '"script":[{"ms":1,"ok":1}]')], '"horizon":100'), 5)


def test_random_plans_have_each_fault_and_each_ending_and_need_threads():
    found, shared = collections.Counter(), 0
    for seed in range(PLANS):
        text = generator.plan_of(seed)
        status, report, fault = reference.answer(text, MOST_ATTEMPTS)
        jobs = reports.jobs_of(report) if status == 0 else []
        found.update([re.sub(r"\d+", "N", fault.decode())] + [f"{it.mode} {it.how}" for it in jobs])
        due = collections.Counter(moment for it in jobs for moment in it.moments)
        shared += bool(jobs) and max(due.values(), default=0) > json.loads(text).get("grain", 1)
    wanted = {re.sub(r"\d+", "N", f"zsched: {fault.text}\n") for fault in faults.table()} | {
        "", "retry succeeded", "retry failed", "retry unfinished", "repeat finished", "repeat failed",
        "repeat unfinished"}
    assert set(found) == wanted
    assert found[""] > PLANS // 2 < 3 * shared


def test_a_seed_makes_the_same_plan_again():
    assert [generator.plan_of(seed) for seed in range(50)] == [generator.plan_of(seed) for seed in range(50)]


@pytest.mark.parametrize("spoil, fault", zip(generator.SPOILED[1:], [
    "too big", "number too large", "factor is 0", "no kind", "window is 0"]))
def test_a_schedule_is_spoiled_as_the_name_says(spoil, fault):
    for seed in range(20):
        with pytest.raises(reference.Fault, match=fault):
            reference.read_schedule(spoil(random.Random(seed), "(recurs(3) && elapsed)").encode())
