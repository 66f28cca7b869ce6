"""The binding for Python in services: the guard, tests without sleeping, events, and what people expect first."""
import asyncio
import time
import unittest.mock
import warnings

import pytest

from python_binding import Clock, clock, ms, retrying, zsched

# It goes on for 5 s by its own clock, so each option changes its bounds.
POLICY = "(spaced(1000) && elapsed).whileOutput(_2 < 5000)"
TRUSTED = {"late": 0, "trusting_attempts": (0.5, 2)}


def fields(zsched, *driver, text=POLICY):
    """The bounds of a text with the numbers of zs_driver, in milliseconds, None for no bound."""
    found = zsched.schedules.run_bounds(text, 1000, *driver)
    wanted = [found.least, found.most if found.has_most else None, found.longest_ms,
              found.total_ms if found.has_total else None, found.longest_run_ms if found.has_longest_run else None]
    return [*wanted[:2], *(None if it is None or it > 10 ** 16 else ms(it) for it in wanted[2:])]


def ask_least(_):
    return 3600


def test_the_guard_fails_for_a_loop_that_honours_waits_of_an_hour(zsched):
    by = zsched.retrying("((exponential(100) || spaced(5000)) && recurs(8))", on=OSError)
    trusted = {"late": 0, "trusting_attempts": (0.001, 5)}
    assert by.bounds(**trusted).ends_within(90) and by(len).bounds(**trusted).ends_within(ms(90_000))
    found = by.with_(retry_after=ask_least).bounds(**trusted)
    assert not found.ends_within(90) and found.ends_within(8.02 * 3600) and not found.ends_within(8 * 3600)


@pytest.mark.parametrize("options, asked, driver", [
    ({}, {}, (500, 1, 2000, 100, 100, 0, 0)), ({"jitter": 0.5}, {}, (500, 1, 2000, 50, 100, 0, 0)),
    ({"retry_after": ask_least}, {}, (500, 1, 2000, 100, 100, 3600_000, 0)),
    ({"retry_after": ask_least, "retry_after_most": ms(7000)}, {}, (500, 1, 2000, 100, 100, 7000, 0)),
    ({"retry_after": ask_least, "retry_after_most": 0}, {}, (500, 1, 2000, 100, 100, 0, 0)),
    ({}, {"late": 0.0201}, (500, 1, 2000, 100, 100, 0, 21)),
    ({}, {"trusting_attempts": None}, (1, 0, 0, 100, 100, 0, 0)),
    ({}, {"late": float("inf")}, (500, 1, 2000, 100, 100, 0, 2 ** 64 - 1)),
    # A loop can't end an attempt, and a decorated coroutine can, by a timer.
    ({"attempt_most": 1}, {"trusting_attempts": None}, (1, 0, 0, 100, 100, 0, 0)),
    ({"attempt_most": 1}, {"trusting_attempts": None, "is_late": True}, (1, 1, 1000, 100, 100, 0, 0)),
    ({"attempt_most": 1}, {"late": 0.02, "is_late": True}, (500, 1, 1020, 100, 100, 0, 20)),
    ({"attempt_most": 9}, {"is_late": True}, (500, 1, 2000, 100, 100, 0, 0)),
    # A killed attempt counts as one that failed at once.
    ({"journal": "file"}, {}, (1, 1, 2000, 100, 100, 0, 0))])
def test_each_option_of_the_loop_is_in_its_bounds(zsched, options, asked, driver):
    async def later():
        pass
    if "journal" in options:
        options = {"journal": zsched.Journal("file")}
    asked, by = {**TRUSTED, **asked}, zsched.retrying(POLICY, **options)
    found = (by(later) if asked.pop("is_late", False) else by).bounds(**asked)
    least, most, longest, *limits = fields(zsched, *driver)
    assert found[1:] == (least, most, longest, *limits)
    is_plain = driver == (500, 1, 2000, 100, 100, 0, 0)
    assert (found == zsched.retrying(POLICY).bounds(**TRUSTED)) == is_plain
    if driver[1] == 0:
        assert found.longest_run is None and not found.ends_within(1e9)


def test_a_deadline_and_a_budget_are_in_the_bounds(zsched):
    plain, late = zsched.retrying(POLICY).bounds(**TRUSTED), {**TRUSTED, "late": 0.02}
    # A call may give up earlier, and the maxima hold.
    assert zsched.retrying(POLICY, budget=zsched.Budget()).bounds(**TRUSTED) == plain._replace(least=1)
    found = zsched.retrying(POLICY, deadline=ms(3000)).bounds(**late)
    assert found == plain._replace(least=1, longest=ms(1020), total=ms(3020), longest_run=ms(5020))
    assert zsched.retrying("spaced(1000)", deadline=ms(3)).bounds(**late)[3:] == (ms(23), ms(23), ms(2023))
    assert zsched.retrying("spaced(1000)", deadline=3).bounds(late=0).longest_run is None


def test_a_test_inside_the_switch_sleeps_nowhere_and_decides_as_in_production(zsched):
    text, events, begun = "(exponential(60000) && elapsed).whileOutput(_2 < 3600000)", [], time.monotonic()

    @zsched.retrying(text, on_event=events.append)
    def fetch():
        raise OSError

    @zsched.retrying(text, on_event=events.append)
    async def fetch_later():
        raise OSError

    def loop():
        for attempt in zsched.retrying(text, on_event=events.append):
            with attempt:
                raise OSError

    async def loop_later():
        async for attempt in zsched.retrying(text, on_event=events.append):
            with attempt:
                raise OSError
    for call in [fetch, lambda: asyncio.run(fetch_later()), loop, lambda: asyncio.run(loop_later())]:
        with zsched.testing(), zsched.testing(), unittest.mock.patch("time.sleep") as slept, pytest.raises(OSError):
            call()
        # The waits of 1, 2, 4 .. 32 minutes, and a millisecond for each attempt.
        assert [it.attempt for it in events] == list(range(1, 8)) and events[-1].why == "gave up"
        assert events[-1].elapsed == ms(63 * 60_000 + 6) and not slept.called
        events.clear()
    assert time.monotonic() - begun < 1
    begun, numbers = time.monotonic(), iter([OSError])
    assert zsched.retrying("spaced(20)")(lambda: [exec("raise it", {"it": it}) for it in numbers])() == []
    assert time.monotonic() - begun >= 0.02


@pytest.mark.parametrize("name", ["time.sleep", "asyncio.sleep"])
def test_a_sleep_that_a_test_replaced_ends_with_the_name_of_the_switch(zsched, name):
    events, attempts = [], []

    def effect():
        attempts.append(1)
        raise OSError("busy")

    async def later():
        effect()
    by = zsched.retrying("spaced(1000)", on_event=events.append, name="fetch")
    said = r"100 sleeps of fetch ended early; .*zsched\.testing"
    with unittest.mock.patch(name) as slept, pytest.raises(RuntimeError, match=said):
        by(effect)() if name == "time.sleep" else asyncio.run(by(later)())
    assert slept.call_count <= 102 and len(attempts) == 1 and [it.why for it in events] == [None, "cancelled"]


def test_a_clock_that_stands_still_beside_real_sleeps_ends_the_call_too(zsched):
    with pytest.raises(RuntimeError, match="100 sleeps of .*effect ended early"):
        zsched.retrying("spaced(1)", clock=lambda: 7.0)(Clock().failing(9))()


def test_a_plain_function_in_an_event_loop_says_that_it_blocks_it(zsched):
    fetch = zsched.retrying("spaced(200)")(Clock().failing(1))

    async def main():
        return fetch()
    with pytest.warns(RuntimeWarning, match="effect isn't asynchronous, so its sleep blocks the event loop") as caught:
        assert asyncio.run(main()) == "done"
    assert caught[0].filename == __file__
    with warnings.catch_warnings():
        warnings.simplefilter("error")
        assert zsched.retrying("spaced(1)")(Clock().failing(1))() == "done"


@pytest.mark.parametrize("form", ["function", "coroutine", "loop", "async for", "async with"])
@pytest.mark.parametrize("times, why", [(1, "succeeded"), (9, "gave up")])
def test_one_event_comes_before_each_wait_and_at_the_end(retrying, clock, form, times, why):
    events, effect = [], clock.failing(times)

    async def say_later(event):
        await asyncio.sleep(0)
        events.append(event)
    is_late = form in ["coroutine", "async with"]
    by = retrying("(spaced(30) && recurs(1))", on_event=say_later if is_late else events.append, name="fetch",
                  **({} if form in ["function", "loop"] else {"sleep": clock.sleep_async}))

    async def later():
        return effect()

    def loop():
        for attempt in by:
            with attempt:
                return effect()

    async def loop_later():
        async for attempt in by:
            if form == "async for":
                with attempt:
                    return effect()
            else:
                async with attempt:
                    return effect()
    call = {"function": lambda: by(effect), "coroutine": lambda: by(later), "loop": lambda: loop}.get(
        form, lambda: loop_later)()
    try:
        assert (call() if form in ["function", "loop"] else asyncio.run(call())) == "done" and times == 1
    except OSError as error:
        assert times == 9 and error is events[1].error
    assert [(it.name, it.attempt, str(it.error)) for it in events] == [
        ("fetch", 1, f"{times - 1} left"), ("fetch", 2, "None" if times == 1 else "7 left")]
    assert [it[3:] for it in events] == [(ms(5), ms(30), None), (ms(40), None, why)]


@pytest.mark.parametrize("where", ["attempt", "wait"])
def test_a_cancelled_call_says_so(zsched, where):
    events = []

    async def say(event):
        events.append(event.why)

    @zsched.retrying("spaced(60000)", on_event=say)
    async def fetch():
        await asyncio.sleep(60 if where == "attempt" else 0)
        raise OSError

    async def main():
        task = asyncio.create_task(fetch())
        await asyncio.sleep(0.02)
        task.cancel()
        await task
    with pytest.raises(asyncio.CancelledError):
        asyncio.run(main())
    assert events == ["cancelled"] if where == "attempt" else [None, "cancelled"]


def test_a_function_says_which_errors_are_retried(retrying, clock):
    by = retrying("spaced(30)", on=lambda error: error.errno in (429, 503))
    for errors, slept in [([OSError(503, ""), OSError(429, "")], 2), ([OSError(503, ""), OSError(404, "")], 1)]:
        left = iter(errors)
        clock.slept.clear()

        def effect():
            for it in left:
                raise it
            return "done"
        if slept == 2:
            assert by(effect)() == "done"
        else:
            with pytest.raises(OSError, match="404"):
                by(effect)()
        assert clock.slept == [0.031] * slept


def test_a_call_gives_up_at_once_where_the_next_attempt_comes_after_the_deadline(retrying, clock):
    for deadline, slept in [(2.5, 2), (ms(2010), 2), (ms(2009), 1), (0.001, 0)]:
        clock.slept.clear()
        with pytest.raises(OSError):
            retrying("spaced(1000)", deadline=deadline)(clock.failing(99))()
        assert clock.slept == [1] * slept


def test_the_default_policy_draws_its_whole_wait(zsched):
    by, drawn = zsched.retrying(), []
    assert by.program.text == zsched.DEFAULT and by.bounds(late=0) == (6, 6, 6, ms(1600), ms(3100), None)
    assert zsched.retrying(zsched.DEFAULT).share == 0 and zsched.retrying(jitter=0.5).share == 0.5

    @zsched.retrying(on_event=lambda event: drawn.append(event.wait))
    def fetch():
        raise OSError
    with zsched.testing():
        for _ in range(50):
            with pytest.raises(OSError):
                fetch()
    fifth = drawn[4::6]
    assert len(drawn) == 300 and min(fifth) < ms(500) and ms(1100) < max(fifth) <= ms(1600)
