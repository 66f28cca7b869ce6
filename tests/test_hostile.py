"""Plans that no honest user writes. Streams that fail, end early or never end are in tests/cases/zsched.txt."""
import functools
import os
import signal
import subprocess
import time

import pytest

from faults import outcomes
from support import ONE_JOB, ONE_REPORT, difference, equal_jobs, heavy_jobs, job, plan, run

PATIENCE = 20


@pytest.mark.parametrize("text, wanted", outcomes())
def test_a_plan_has_its_fault_on_standard_error_alone_and_is_run_at_a_limit(text, wanted, zsched):
    assert difference(run(zsched, text, seconds=PATIENCE), wanted) is None


@pytest.mark.parametrize("workers, grain", [(64, 1), (64, 10000), (3, 7)])
def test_ten_thousand_jobs_end_at_the_horizon(workers, grain, zsched):
    jobs = [job(f"j{number}", "recurs(0)", "repeat", '"script":[{"ms":1,"ok":0}]') for number in range(10000)]
    block = "job j{} repeat\nattempt 1 0..1 ok 0\nstep 1 out 0 done\nend finished 0 at 1 polls 2\n"
    report = "".join(block.format(number) for number in range(10000)) + "polls 20000\n"
    text = plan(jobs, '"horizon":1', f',"workers":{workers},"grain":{grain}')
    assert difference(run(zsched, text), (0, report.encode(), b"")) is None


@pytest.mark.parametrize("make", [functools.partial(equal_jobs, "abcdefg"), heavy_jobs], ids=["seven", "heavy"])
@pytest.mark.parametrize("workers", [1, 2, 7, 64])
@pytest.mark.parametrize("grain", [1, 3, 10000])
def test_equal_jobs_have_one_report_under_each_cut(make, workers, grain, zsched):
    text, report = make(workers, grain)
    assert difference(run(zsched, text), (0, report, b"")) is None


def test_input_comes_one_byte_at_a_time_to_a_program_that_is_stopped_and_continued(zsched):
    with subprocess.Popen([zsched], stdin=subprocess.PIPE, stdout=subprocess.PIPE, stderr=subprocess.PIPE) as started:
        for place in range(len(ONE_JOB)):
            os.write(started.stdin.fileno(), ONE_JOB[place:place + 1])
            if place % 10 == 0:
                started.send_signal(signal.SIGSTOP)
                time.sleep(0.001)
                started.send_signal(signal.SIGCONT)
            time.sleep(0.001)
        assert (*started.communicate(timeout=PATIENCE), started.returncode) == (ONE_REPORT, b"", 0)
