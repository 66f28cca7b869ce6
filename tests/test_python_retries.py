"""The binding for Python: its loops, beside the retries of tests/test_bindings.py."""
import asyncio
import contextlib
import dataclasses
import datetime
import functools
import importlib
import math
import pickle
import time
import timeit

import pytest

from python_binding import Clock, LARGEST, POLICY, clock, ms, retrying, zsched


@pytest.mark.parametrize("text, more, times, error, wanted, slept", [
    ("(exponential(10) && recurs(5))", {}, 3, OSError, None, [0.01, 0.02, 0.04]),
    ("(spaced(30) && recurs(2))", {}, 10, OSError, "^7 left$", [0.03, 0.03]),
    ("spaced(30)", {"on": (OSError, EOFError)}, 10, KeyError, "left", []),
    ("spaced(30).whileInput(> 7)", {"input_of": lambda error: int(str(error)[0])}, 10, OSError, "^7 left$",
     [0.03] * 2)],
    ids=["it returns", "the last error", "another error", "its input"])
def test_a_function_is_tried_until_the_schedule_is_done(retrying, clock, text, more, times, error, wanted, slept):
    told = []
    tried = retrying(text, on_event=told.append, **more)(clock.failing(times, error))
    if wanted:
        with pytest.raises(error, match=wanted):
            tried()
    else:
        assert tried(value=7) == 7
    assert clock.slept == slept and [(it.attempt, it.wait) for it in told] == [
        *((number, ms(1000 * wait)) for number, wait in enumerate(slept, 1)), (len(slept) + 1, None)]


class Asynchronous:
    def __init__(self, effect):
        self.effect = effect

    async def __call__(self):
        return self.effect()


COROUTINES = {"a loop": None, "an object": Asynchronous, "a method": lambda effect: Asynchronous(effect).__call__,
              "a part": lambda effect: functools.partial(Asynchronous(effect).__call__),
              "a lambda": lambda effect: lambda: Asynchronous(effect)()}


@pytest.mark.parametrize("form", COROUTINES)
def test_what_returns_a_coroutine_is_awaited_each_time(zsched, retrying, clock, form):
    effect, budget = clock.failing(2), zsched.Budget(9, 2)
    by = retrying("linear(10)", sleep=clock.sleep_async, budget=budget)

    async def loop():
        async for attempt in by:
            with attempt:
                return effect()
    tried = by(COROUTINES[form](effect)) if COROUTINES[form] else loop
    assert (asyncio.run(tried()), clock.slept, budget.tokens) == ("done", [0.01, 0.02], 9)


def generator():
    yield 1


async def generating():
    yield 1


async def late(*_):
    return generator()


def loop(by):
    for attempt in by:
        with attempt:
            pass


def zsched_retrying():
    return importlib.import_module("zsched").retrying


@pytest.mark.parametrize("tried, named", [
    (lambda by: by("recurs(1)")(generator), "generator returns a generator"),
    (lambda by: by("recurs(1)")(generating), "generating returns a generator"),
    (lambda by: by("recurs(1)")(lambda: generator())(), "<lambda> returns a generator"),
    (lambda by: asyncio.run(by("recurs(1)")(late)()), "late returns a generator"),
    (lambda by: by("recurs(1)", sleep=late)(Clock().failing(1))(), "function late at .* sleeps asynchronously"),
    (lambda by: iter(by("recurs(1)", retry_on_result=bool)), "a loop has no result"),
    (lambda by: by("recurs(1)")(contextlib.contextmanager(generator))(), "generator returns a generator"),
    (lambda by: by("recurs(1)")(7), "7 is no function"),
    (lambda by: by("recurs(1)", on=(len,)), "issubclass"), (lambda by: by("recurs(1)", on=7), "on is 7, which is no"),
    (lambda by: by("recurs(1)", attempt_most=1)(int), "is not asynchronous, so attempt_most can't end it"),
    *[(lambda by, name=name: by("recurs(1)", **{name: late}), f"{name} is a coroutine function")
      for name in ["on", "input_of", "retry_on_result", "retry_after"]],
    (lambda by: by("recurs(1)", on_event=late)(int), "is not asynchronous, so on_event would not be awaited"),
    *[(lambda by, times=times: by("recurs(1)", on_event=lambda _: late())(Clock().failing(times))(),
       "on_event returns an awaitable") for times in [0, 1]],
    (lambda by: loop(by("recurs(1)", on_event=late)), "on_event returns an awaitable"),
    (lambda by: by("recurs(1)", retry_on_result=lambda _: late())(int)(), "a hook returns an awaitable"),
    # Without a call the function is taken for the text.
    (lambda by: zsched_retrying()(len), r"built-in function len> is no text of a schedule: write @retrying\(\) or @"),
    (lambda by: by(7), "7 is no text")])
def test_what_would_be_tried_once_or_never_awaited_is_an_error(retrying, tried, named):
    with pytest.raises(TypeError, match=named):
        tried(retrying)


@pytest.mark.parametrize("is_late", [False, True])
def test_a_result_may_count_as_an_error(retrying, clock, is_late):
    results, said = iter([503, 503, 429, 200]), []

    async def fetched():
        return next(results)
    by = retrying("(spaced(10) && recurs(5)).whileInput(>= 500)", retry_on_result=lambda code: code >= 400,
                  input_of=lambda code: code, on_event=said.append, name="fetched",
                  **({"sleep": clock.sleep_async} if is_late else {}))
    tried = by(fetched if is_late else lambda: next(results))
    assert (asyncio.run(tried()) if is_late else tried()) == 429 and clock.slept == [0.011] * 2
    assert said == [("fetched", 1, 503, ms(0), ms(11), None), ("fetched", 2, 503, ms(11), ms(11), None),
                    ("fetched", 3, 429, ms(22), None, "gave up")]
    with pytest.raises(ValueError, match="input_of returned no whole number"):
        retrying("recurs(3)", retry_on_result=bool, input_of=str)(lambda: 7)()


@pytest.mark.parametrize("jitter, share", [(0.5, 1), (1, 1), (0, 0.9), (0.5, 0.9)])
@pytest.mark.parametrize("form", ["function", "coroutine", "loop"])
def test_jitter_and_sleeps_that_end_early_are_within_the_bounds(zsched, retrying, clock, form, jitter, share):
    text, effect, attempts = "(spaced(20) && elapsed).whileOutput(_2 < 2000)", clock.failing(9999), []

    async def late(seconds):
        clock.sleep(seconds * share)
    by = retrying(text, jitter=jitter, sleep=late if form == "coroutine" else lambda it: clock.sleep(it * share))

    def attempt():
        attempts.append(1)
        return effect()

    async def attempt_late():
        return attempt()
    with pytest.raises(OSError):
        if form == "loop":
            for it in by:
                with it:
                    attempt()
        else:
            asyncio.run(by(attempt_late)()) if form == "coroutine" else by(attempt)()
    bounds = by.bounds(9999, late=0, trusting_attempts=(0.005, 0.005))
    assert bounds.least <= len(attempts) <= bounds.most and bounds.ends_within(2.1)
    assert clock.seconds - 100 <= bounds.longest_run.total_seconds()


def test_a_clock_that_falls_makes_no_attempt_more(zsched, clock):
    moments = []

    def sleep(seconds):
        clock.sleep(seconds)
        # In the first sleep it falls to a moment before its start.
        clock.seconds -= 60 * (len(clock.slept) == 1)

    def effect():
        moments.append(round(clock.seconds - 100, 3))
        clock.seconds += 0.005
        raise OSError
    with pytest.raises(OSError):
        zsched.retrying("(spaced(30) && recurs(3))", clock=clock, sleep=sleep)(effect)()
    # It counts as one that stood still in the first sleep, so that is made again.
    assert clock.slept == [0.03] * 4 and moments == [0, -59.935, -59.9, -59.865]


def test_statistics_are_of_all_calls_and_options_can_be_others(retrying, clock):
    tried = retrying("(spaced(30) && recurs(2))")(clock.failing(4))
    with pytest.raises(OSError):
        tried()
    assert tried() == "done" and (tried.statistics.calls, tried.statistics.retries) == (2, 3)
    assert (tried.statistics.given_up, tried.statistics.slept) == (1, ms(90))
    other = tried.with_(schedule="spaced(7)", on=KeyError)
    assert other() == "done" and (other.statistics.calls, tried.statistics.calls) == (1, 2)
    # The decorator has the same ones.
    by = retrying("recurs(2)")
    assert by(clock.failing(1))() == by(clock.failing(1))() == "done"
    assert (by.statistics.calls, by.statistics.retries) == (2, 2)
    with pytest.raises(ValueError, match="the jitter 2 is not from 0 to 1"):
        tried.with_(jitter=2)


def test_a_call_that_does_not_fail_takes_less_than_5_microseconds(zsched):
    assert min(timeit.repeat(zsched.retrying(POLICY)(int), number=1000, repeat=100)) < 0.005


@pytest.mark.parametrize("name, found", [
    *[("input_of", it) for it in [None, "503", 2.0, -1, 2 ** 64, AttributeError]],
    *[("retry_after", it) for it in ["1", math.nan, [1], AttributeError]], ("on", AttributeError)])
def test_what_returns_no_number_hides_no_error(zsched, retrying, clock, name, found):
    note, by = (("has no attribute 'code'", lambda error: error.code) if found is AttributeError
                else ("zsched: not tried again", lambda _: found))
    budget = zsched.Budget()
    with pytest.raises(OSError, match="^9 left$") as caught:
        retrying("spaced(1)", **{name: by}, budget=budget)(clock.failing(10))()
    assert note in caught.value.__notes__[0] and clock.slept == [] and budget.tokens == 10


ORDERS = {"plain": "input least sleep input least gave_up 8", "unretried": "not_retried 10",
          "input": "input not_retried 10", "least": "input least not_retried 10", "broke": "input least budget 0",
          "late": "input least deadline 9"}


@pytest.mark.parametrize("what", ORDERS)
def test_the_order_of_hooks_and_of_what_a_failure_takes(zsched, retrying, clock, what):
    said, budget = [], zsched.Budget(1, 0) if what == "broke" else zsched.Budget(10, 0.5)

    def say(name, found=None):
        return lambda *_: said.append(name) or found
    by = retrying("recurs(1)", on=EOFError if what == "unretried" else OSError, budget=budget,
                  on_event=lambda event: said.append((event.why or "sleep").replace(" ", "_")),
                  input_of=say("input", None if what == "input" else 7), deadline=0.004 if what == "late" else None,
                  retry_after=say("least", math.nan if what == "least" else -1))
    with pytest.raises(OSError):
        by(clock.failing(9))()
    assert " ".join([*said, f"{budget.tokens:.0f}"]) == ORDERS[what]


@pytest.mark.parametrize("least, slept", [(99999999999, 3600), (1e300, 3600), (10 ** 300, 3600), (3600.5, 3600),
                                          (7.5, 7.5), (0.07, 0.07), (0.0701, 0.071), (-5, 0.001),
                                          (math.inf, 3600), (-math.inf, 0.001), (10 ** 400, 3600), (None, 0.001),
                                          (datetime.timedelta.max, 3600), (ms(70), 0.07), (-ms(70), 0.001)])
def test_a_least_sleep_is_honoured_up_to_its_longest(retrying, clock, least, slept):
    with pytest.raises(OSError, match="^0 left$"):
        retrying("(spaced(1) && recurs(1))", retry_after=lambda _: least)(clock.failing(2))()
    assert clock.slept == [slept]
    clock.slept.clear()
    assert retrying("spaced(1)", retry_after=lambda _: least, retry_after_most=5)(clock.failing(1))() == "done"
    assert clock.slept == [min(slept, 5)]
    clock.slept.clear()
    tried = retrying("spaced(1)", retry_after=lambda _: least, retry_after_most=0)(clock.failing(1))
    assert tried() == "done" and clock.slept == [0.001]


@pytest.mark.parametrize("least", [math.inf, -math.inf, 10 ** 400, 99999999999])
def test_a_least_sleep_that_no_clock_has_hides_no_error(zsched, least):
    tried = zsched.retrying("(spaced(1) && recurs(1))", retry_after=lambda _: least, retry_after_most=0.001)
    with pytest.raises(OSError, match="^0 left$"):
        tried(Clock().failing(2))()


def test_an_attempt_of_a_coroutine_is_cancelled_at_its_limit(zsched):
    ended, numbers = [], iter([60, 60, 0])

    @zsched.retrying("(spaced(1) && recurs(3))", on=asyncio.TimeoutError, attempt_most=0.05)
    async def fetch():
        try:
            await asyncio.sleep(next(numbers))
            return "done"
        except asyncio.CancelledError:
            ended.append("cancelled")
            raise
    assert asyncio.run(fetch()) == "done" and ended == ["cancelled"] * 2
    assert (fetch.statistics.calls, fetch.statistics.retries) == (1, 2)


def test_a_loop_has_the_seconds_that_are_left(retrying, clock):
    found = []
    with pytest.raises(EOFError):
        for attempt in retrying("(spaced(10) && recurs(2))", attempt_most=0.02):
            with attempt:
                found.append(attempt.left())
                clock.seconds += 0.015
                found.append(attempt.left())
                clock.seconds += 0.015
                found.append(attempt.left())
                raise EOFError
    assert found == [ms(20), ms(5), ms(0)] * 3
    assert [attempt.left() for attempt in retrying("recurs(1)")] == [None]


def test_methods_of_a_class_are_tried_whatever_decorates_them(retrying, clock):
    class Service:
        failing, other = clock.failing(2), clock.failing(2)

        @retrying("recurs(2)")
        @classmethod
        def of_class(cls):
            return cls.failing(cls.__name__)

        @retrying("recurs(2)")
        @staticmethod
        def of_none(name="none"):
            return Service.other(name)
    assert (Service.of_class(), Service().of_none()) == ("Service", "none")


def test_an_awaitable_is_awaited_and_a_value_that_follows_is_not(retrying, clock):
    effect, calls = clock.failing(1), []

    async def fetched():
        return effect()

    def cached():
        calls.append(1)
        return "cached" if len(calls) > 1 else fetched()

    async def main():
        return await retrying("recurs(2)", sleep=clock.sleep_async)(cached)()
    assert (asyncio.run(main()), len(calls)) == ("cached", 2)


def test_statistics_and_a_budget_are_plain_values(zsched, retrying, clock):
    tried = retrying("recurs(9)")(clock.failing(2))
    assert tried() == "done"
    assert dataclasses.asdict(pickle.loads(pickle.dumps(tried.statistics))) == {
        "calls": 1, "retries": 2, "given_up": 0, "slept": ms(0)}
    budget = zsched.Budget(4, 0.5)
    assert budget.take() and (again := pickle.loads(pickle.dumps(budget))).tokens == 3
    assert not again.take() and (again.tokens, budget.tokens) == (2, 3)
    for words in [(-1,), (math.nan,), (math.inf,), (3, -1), (3, math.nan), (3, math.inf)]:
        with pytest.raises(ValueError, match="^zsched: a budget of "):
            zsched.Budget(*words)
    assert not zsched.Budget(0, 0).take()
    for name in ["retry_after_most", "attempt_most", "deadline"]:
        for most in [-1, math.nan, math.inf, -ms(1), *([0, ms(0)] if name != "retry_after_most" else [])]:
            with pytest.raises(ValueError, match=f"^zsched: the {name} "):
                retrying("recurs(9)", **{name: most})
    for jitter in [-0.1, 1.1, math.nan]:
        with pytest.raises(ValueError, match="^zsched: the jitter "):
            retrying("recurs(9)", jitter=jitter)


@pytest.mark.parametrize("is_late", [False, True])
def test_a_wait_that_no_sleep_lasts_is_slept_in_parts(retrying, clock, monkeypatch, is_late):
    monkeypatch.setattr(*([asyncio, "sleep", clock.sleep_async] if is_late else [time, "sleep", clock.sleep]))
    effect, centuries = clock.failing(1), 10 ** 13

    async def late():
        return effect()
    tried = retrying(f"spaced({centuries})", sleep=None)(late if is_late else effect)
    assert (asyncio.run(tried()) if is_late else tried()) == "done"
    assert clock.slept[:9] == [1e9] * 9 and round(sum(clock.slept), 3) == centuries / 1000
    # 64 bits don't hold the next begin in nanoseconds.
    with pytest.raises(OSError, match="^0 left$"):
        retrying(f"spaced({LARGEST})", sleep=None)(clock.failing(1))()


@pytest.mark.parametrize("where", ["attempt", "wait"])
def test_a_task_that_is_cancelled_is_not_tried_again(retrying, clock, where):
    numbers = []

    async def cancelled():
        async for attempt in retrying("spaced(1000)", on=BaseException, sleep=None):
            with attempt:
                numbers.append(attempt.number)
                await asyncio.sleep(60) if where == "attempt" else clock.failing(1)()

    async def main():
        task = asyncio.create_task(cancelled())
        await asyncio.sleep(0.02)
        task.cancel()
        with pytest.raises(asyncio.CancelledError):
            await task
    asyncio.run(main())
    assert numbers == [1]


def test_many_attempts_keep_no_list(zsched, retrying, clock):
    run, effect = iter(retrying("(linear(1) || spaced(7))")), clock.failing(5000)
    for attempt in run:
        with attempt:
            effect()
    assert (attempt.number, len(clock.slept), clock.slept[-1]) == (5001, 5000, 0.007)
    assert len(run.schedule.state) == len(zsched.Schedule("(linear(1) || spaced(7))").state)
