"""The binding for Python: its schedules and bounds, beside the steps and retries of tests/test_bindings.py."""
import concurrent.futures
import copy
import datetime
import json
import math
import pickle
import re
import sys
import threading
import time

import pytest

from languages import BINDINGS, ran
from python_binding import LARGEST, POLICY, ms, zsched
from support import rows


def test_a_fault_has_its_text_number_and_place(zsched):
    for call in [zsched.Schedule, zsched.retrying, zsched.bounds]:
        with pytest.raises(zsched.ScheduleFault) as caught:
            call("recurs(1) && recurs(2)")
        fault = caught.value
        assert (fault.text, fault.number, fault.at) == ("recurs(1) && recurs(2)", 11, 10)
        assert str(fault) == ('no term at byte 10: "&&" stands in parentheses: (A && B)\n'
                              f"recurs(1) && recurs(2)\n{' ' * 10}^")
    for call in [zsched.Schedule, zsched.retrying]:
        with pytest.raises(zsched.ScheduleFault, match="list") as caught:
            call("forever.collectAll")
        assert (caught.value.text, caught.value.number, caught.value.at) == ("forever.collectAll", 6, 0)


def test_numbers_that_bounds_take(zsched):
    for error, steps in [(OverflowError, -1), (OverflowError, 2 ** 64), (TypeError, 9.0), (TypeError, None)]:
        for call in [zsched.bounds, lambda text, steps: zsched.retrying(text).bounds(steps, late=0)]:
            with pytest.raises(error):
                call("recurs(1)", steps)
    # This number of steps is never made: the schedule is done at its second one.
    assert zsched.bounds("recurs(1)", LARGEST) == (2, 2, 2, ms(0), ms(0), None)
    assert zsched.bounds("forever.collectAll", 3) == (3, 4, None, ms(0), None, None)
    # No timedelta is that long.
    assert zsched.bounds(f"(spaced({10 ** 17}) && recurs(1))") == (1, 2, None, None, None, None)
    for error, late, trusted in [(zsched.Fault, 0, (0.006, 0.005)), (ValueError, -1, None), (TypeError, "1", None),
                                 (ValueError, math.nan, None), (ValueError, 0, (-1, 5)),
                                 (ValueError, 0, (1, math.nan))]:
        with pytest.raises(error) as caught:
            zsched.retrying(POLICY).bounds(late=late, trusting_attempts=trusted)
        assert error is not zsched.Fault or caught.value.number == 10
    with pytest.raises(TypeError, match="late"):
        zsched.retrying(POLICY).bounds()


def test_a_policy_is_within_its_bounds_and_not_within_less(zsched):
    # 6 attempts, and 3.1 seconds
    found = zsched.bounds("(exponential(100) && recurs(5))")
    assert [found.within(most, total) for most, total in [(6, 3.1), (9, ms(5000)), (5, 3.1), (6, 3.0999), (0, 0)]] == [
        True, True, False, False, False]
    # It may end at any step; it continues at the last step; three waits of up to 2^64 - 1 have no sum.
    for text, steps in [("forever.whileInput(= 1)", 1000), ("recurs(5)", 5),
                        ("(fixed(18446744073709551615) && recurs(3))", 9)]:
        assert not zsched.bounds(text, steps).within(2 ** 64, math.inf)
    assert zsched.bounds("recurs(5)", 6).within(6, 0)


def test_a_step_that_is_refused_leaves_the_schedule(zsched):
    schedule = zsched.Schedule("recurs(1)")
    with pytest.raises(zsched.Fault, match="^no step was made yet$"):
        schedule.output()
    assert (schedule.after(5, 7), schedule.output()) == (ms(5000), "0")
    state = schedule.state
    for error, moment, value in [(ValueError, 4, 7), (OverflowError, -1, 7), (OverflowError, 5, 2 ** 64),
                                 (TypeError, 5, 7.0), (TypeError, "5", 7), (ValueError, math.nan, 7)]:
        with pytest.raises(error):
            schedule.after(moment, value)
    for error, words, options in [
            (TypeError, ("5", 6, 7), {}), (ValueError, (5, math.nan, 7), {}), (OverflowError, (5, 6, -1), {}),
            (OverflowError, (5, 6, 7), {"least": -1}), (TypeError, (5, 6, 7), {"longest": None}),
            (ValueError, (5, 6, 7), {"least": math.nan}), (OverflowError, (5, 6, 7), {"draw": 2 ** 32}),
            (ValueError, (5, 6, 7), {"jitter": -0.1}), (ValueError, (5, 6, 7), {"jitter": math.nan})]:
        with pytest.raises(error):
            schedule.plan(*words, **options)
    assert (schedule.state, schedule.output()) == (state, "0")
    assert (schedule.after(ms(5000), LARGEST), schedule.output()) == (None, "1")


def test_a_plan_takes_seconds_or_a_timedelta_by_any_clock(zsched):
    # A step at 5.9 ms, and each wait of 30 ms from a whole one on.
    for began, ended, begin in [(0, 0.0059, ms(35)), (0, ms(5.9), ms(35)), (7e-9, -5, ms(31)), (-9, ms(-5), ms(31)),
                                (0.0059, 0, ms(35)), (0, 18446744073.669551, ms(18446744073699)), (0, 2 ** 64, None),
                                (0, math.inf, None), (2 ** 9999, 0, None)]:
        assert zsched.Schedule("spaced(30)").plan(began, ended) == begin, (began, ended)
    # No begin is rounded to one that is earlier: the attempt ended at 1.0004 ms.
    assert zsched.Schedule("recurs(1)").plan(0, 0.0010004) == ms(1.001)
    schedule, options = zsched.Schedule("spaced(100)"), {"jitter": 0.5, "draw": 2 ** 31}
    assert schedule.plan(0, 0.01, **options) == ms(85)
    assert schedule.begin().plan(0, 0.01, least=0.08, longest=ms(90), **options) == ms(90)
    assert schedule.begin().plan(0, 0.01, least=ms(100), longest=0.09, **options) == ms(100)
    drawn = [schedule.begin().plan(0, 0, jitter=0.5) for _ in range(99)]
    assert ms(51) <= min(drawn) < ms(60) and ms(90) < max(drawn) <= ms(101)
    assert zsched.Schedule(f"spaced({LARGEST})").after(0) == datetime.timedelta.max


def test_copies_share_the_program_and_have_separate_states(zsched):
    schedule = zsched.Schedule(POLICY)
    schedule.after(0.001)
    other, first, state = copy.copy(schedule), schedule.begin(), schedule.state
    assert other._program is schedule._program is first._program
    assert (other.after(0.02), other.output()) == (ms(40), "(20,1)")
    assert (first.after(0.02), first.output()) == (ms(30), "(10,0)")
    assert (schedule.state, schedule.output(), repr(schedule)) == (state, "(10,0)", f"Schedule('{POLICY}')")
    by = zsched.retrying(POLICY)
    assert by.with_(jitter=0.5).program.text == POLICY and zsched.retrying(schedule).program is schedule


def test_an_output_of_any_length_is_whole(zsched):
    text = "recurs(1)"
    for leaves in [2 ** number for number in range(1, 9)]:
        text = f"({text} && {text})"
        schedule = zsched.Schedule(text)
        schedule.after(1)
        assert len(schedule.output()) == 4 * leaves - 3 and schedule.output().count("0") == leaves


def test_what_is_saved_goes_on(zsched):
    made = zsched.Schedule(POLICY)
    made.plan(0, 0.002, 2)
    again, saved = zsched.Schedule.load(made.save()), made.save()
    assert (again.text, again.state, again.output()) == (made.text, made.state, "(10,0)")
    assert again.plan(0, ms(20)) == made.plan(0, ms(20)) == ms(40)
    for state, said in [([], "fewer words"), (made.state[1:], "no state of this version"),
                        ([made.state[0] - 1, *made.state[1:]], "no state of this version"),
                        (made.state[:1], "another|fewer words"), ([*made.state, 0], "more words")]:
        with pytest.raises(ValueError, match=said):
            zsched.Schedule.load(json.dumps({"schedule": POLICY, "state": state}))
    for text in [*rows("not_saved.jsonl"), saved.replace("recurs(3)", "recurs(4)"), saved.replace("]", ", 0]"),
                 10**5 * "["]:
        with pytest.raises(ValueError):
            zsched.Schedule.load(text)


def test_schedules_and_their_faults_are_pickled(zsched):
    made = zsched.Schedule(POLICY)
    made.after(0.001, 2)
    again = pickle.loads(pickle.dumps(made))
    assert (again.text, again.save()) == (made.text, made.save())
    assert again.after(0.012, 2) == made.after(0.012, 2)
    with pytest.raises(zsched.Fault) as caught:
        made.after(0)
    again = pickle.loads(pickle.dumps(caught.value))
    assert (again.number, str(again)) == (3, "the moment is below that of the step before it")
    again = pickle.loads(pickle.dumps(zsched.ScheduleFault("forever.", 11, 8)))
    assert (again.text, again.number, again.at) == ("forever.", 11, 8)
    assert str(again) == f"no term at byte 8: the text ends too early\nforever.\n{' ' * 8}^"


@pytest.mark.parametrize("header, wait", [
    ("120", 120), (" 0 ", 0), ("Sun, 06 Nov 1994 08:49:37 GMT", 7), ("Sunday, 06-Nov-94 08:49:37 GMT", 7),
    ("Sun Nov  6 08:49:37 1994", 7), ("Sun, 06 Nov 1994 08:49:29 GMT", 0), ("99999999999999999999", None),
    *[(it, "none") for it in [None, "", "-5", "1.5", "1e3", "soon", "120 s", "\u0661",
                              "Sun, 99 Nov 1994 08:49:37 GMT"]]])
def test_a_header_asks_for_a_wait_in_seconds_or_by_a_date(zsched, header, wait, monkeypatch):
    monkeypatch.setenv("TZ", "UTC-9")
    time.tzset()
    wanted = None if wait == "none" else datetime.timedelta.max if wait is None else ms(1000 * wait)
    assert zsched.retry_after_of(header, now=784111770) == wanted
    assert wait != 7 or zsched.retry_after_of(header) == ms(0)


def test_threads_may_call_at_once(zsched):
    together = threading.Barrier(4)

    def work(_):
        together.wait(60)
        schedule = zsched.Schedule("fibonacci(10)")
        return [(schedule.after(number), schedule.output())[1] for number in range(60)]
    with concurrent.futures.ThreadPoolExecutor(4) as pool:
        found = list(pool.map(work, range(4)))
    assert found[0][:5] == ["10", "10", "20", "30", "50"] and found == [found[0]] * 4


@pytest.mark.parametrize("is_text", [True, False])
def test_threads_share_a_decorated_function(zsched, is_text):
    numbers, schedule = [], zsched.Schedule("recurs(20)")
    schedule.after(1)

    @zsched.retrying(schedule.text if is_text else schedule)
    def fetch():
        numbers.append(1)
        raise OSError("busy")
    with concurrent.futures.ThreadPoolExecutor(8) as pool:
        found = [pool.submit(fetch) for _ in range(8)]
    assert [str(it.exception()) for it in found] == ["busy"] * 8 and len(numbers) == 8 * 21
    assert (fetch.statistics.calls, fetch.statistics.retries) == (8, 8 * 20)


@pytest.mark.parametrize("name, wanted", [
    ("/nowhere/libzsched.so", "/nowhere/libzsched.so: .* build/make-library"),
    ("libc.so.6", "libc.so.6: it has no zs_bounds, so it is of an older version")])
def test_a_missing_library_names_the_command_that_makes_it(tmp_path, name, wanted):
    words = [sys.executable, "-B", "-c",
             "try:\n import zsched; zsched.Schedule('forever')\nexcept OSError as fault:\n print(fault)"]
    assert re.match(wanted, ran(words, tmp_path, ZSCHED_LIBRARY=name, PYTHONPATH=BINDINGS / "python"))
