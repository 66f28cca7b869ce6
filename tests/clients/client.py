"""The client of the library in Python. client.c documents the requests and the lines."""
import asyncio
import contextlib
import datetime
import functools
import inspect
import math
import sys
import time

import zsched

BUDGET, MILLISECOND = zsched.Budget(10, 0.5), datetime.timedelta(milliseconds=1)


def steps(form, text, *numbers):
    """Yields the words of a line of steps."""
    schedule = zsched.Schedule(text)
    for moment, value in zip(numbers[::2], numbers[1::2]):
        if form == "stored":
            schedule = zsched.Schedule.load(schedule.save())
        following = schedule._stepped(moment, value)
        yield f"{int(following is None)},{following or 0},{schedule.output()}"


def plan(text, percent, least, longest, *numbers):
    """Yields the words of a line of turns."""
    schedule = zsched.Schedule(text)
    for began, ended, value, draw in zip(*(numbers[place::4] for place in range(4))):
        begin = schedule._planned(began, ended, value, least, longest, percent / 100, draw)
        yield f"{int(begin is None)},{begin or 0}"


def restarted(text, code, back, most):
    """Plans attempts that fail at once, each by what was stored, over a clock that is set back."""
    start, last, number, saved = 10 ** 18, 0, 0, zsched.Schedule(text).save()
    clock, begin = start, 0
    while begin is not None and number < most:
        number, schedule = number + 1, zsched.Schedule.load(saved)
        clock -= 1_000_000 * back * (number == 3)
        begin = schedule._planned(clock - start, clock - start, code, 0, 0, 0)
        last, saved = last if begin is None else begin, schedule.save()
        clock = start + last
    return [number, last]


def retry(form, text, code, times, jitter=0, least=0, stop=None, budget=0, most=3600_000):
    begun, said, numbers = time.monotonic_ns(), [], iter(range(times))

    def say(event):
        if event.wait is not None:
            said.append(f"{event.attempt}:{event.wait / MILLISECOND:.0f}")
    hook = {} if stop is None else {"on_event": say}

    by = zsched.retrying(text, on=OSError, input_of=lambda error: error.errno, jitter=jitter / 100,
                         retry_after=lambda _: least / 1000, retry_after_most=most / 1000,
                         budget=BUDGET if budget else None, **hook)

    def effect():
        said.append((time.monotonic_ns() - begun) // 1000)
        if next(numbers, None) is not None:
            raise EOFError(code) if code == stop else OSError(code, "failed")
        return "done"

    async def later():
        return effect()

    def loop():
        for attempt in by:
            with attempt:
                return effect()

    async def later_loop():
        async for attempt in by:
            with attempt:
                return effect()
    tried = {"retry": by(effect), "later": by(later), "loop": loop, "later_loop": later_loop}[form]
    try:
        return [asyncio.run(tried()) if inspect.iscoroutinefunction(tried) else tried(), *said]
    except (OSError, EOFError) as error:
        return [error.args[0], *said]


def order(text, what):
    """What a retry calls, in its order."""
    said, budget = [], zsched.Budget(1, 0) if what == "broke" else zsched.Budget(10, 0.5)

    def say(name, found=None):
        return lambda *_: said.append(name) or found

    @zsched.retrying(text, on=EOFError if what == "unretried" else OSError, budget=budget,
                     on_event=lambda event: said.append((event.why or "sleep").replace(" ", "_")),
                     input_of=say("input", None if what == "input" else 7),
                     retry_after=say("least", math.nan if what == "least" else 0.0))
    def effect():
        said.append("attempt")
        raise OSError(7, "failed")
    try:
        effect()
    except OSError as error:
        return [*said, error.errno, f"{budget.tokens:.1f}"]


def limited(form, text, code, times, most):
    begun, said, numbers = time.monotonic_ns(), [], iter(range(times))
    by = zsched.retrying(text, on=(OSError, asyncio.TimeoutError), attempt_most=most / 1000,
                         input_of=lambda error: getattr(error, "errno", None) or code)

    def say():
        said.append((time.monotonic_ns() - begun) // 1000)

    @by
    async def later():
        say()
        try:
            if next(numbers, None) is not None:
                await asyncio.sleep(5)
        finally:
            # It ends a while after it was cancelled.
            await asyncio.sleep(0.03)
            say()
        return "done"

    def loop():
        for attempt in by:
            with attempt:
                say()
                left = attempt.left()
                time.sleep(5 if left is None else left.total_seconds() if next(numbers, None) is not None else 0)
                say()
                if len(said) <= 2 * times:
                    raise OSError(code, "failed")
                return "done"

    async def later_loop():
        async for attempt in by:
            with attempt:
                say()
                try:
                    await asyncio.wait_for(asyncio.sleep(5 if next(numbers, None) is not None else 0),
                                           attempt.left().total_seconds())
                finally:
                    say()
                return "done"
    try:
        return [loop() if form == "loop" else asyncio.run({"later": later, "later_loop": later_loop}[form]()), *said]
    except (OSError, asyncio.TimeoutError):
        return [code, *said]


def good(form, text, count):
    by = zsched.retrying(text)
    same = by(lambda value: value)

    @by
    async def same_later(value):
        return value

    async def later():
        for number in range(count):
            await same_later(number)
    begun = time.perf_counter_ns()
    if form == "later":
        asyncio.run(later())
    else:
        for number in range(count):
            same(number)
    return [(time.perf_counter_ns() - begun) // count]


def bounds(text, count, least=1, longest=None, jitter=0, asked=0, late=0):
    """Returns the fields of zs_run_bounds."""
    found = zsched.schedules.run_bounds(text, count, least, longest is not None, longest or 0, 100 - jitter, 100, asked,
                                        late)
    return [getattr(found, name) for name, _ in found._fields_[1:]]


def edge(text, what, number=None):
    """What a retry does whose attempts fail at once, with a limit or a longest least wait in milliseconds."""
    waits, limits = [], {} if number is None else {{"limit": "attempt_most", "longest": "retry_after_most"}[what]:
                                                   number / 1000}

    async def effect():
        raise OSError(503, "failed")

    async def main(tried):
        task = asyncio.create_task(tried())
        if what == "cancelled":
            task.cancel()
        await task
    try:
        tried = zsched.retrying(text, on=OSError, retry_after=lambda _: 1.5 if what == "longest" else None,
                                on_event=waits.append, **limits)(effect)
    except ValueError:
        return ["refused"]
    try:
        asyncio.run(main(tried))
    except asyncio.CancelledError:
        return [len(waits), "cancelled"]
    except OSError as error:
        return [len(waits), error.errno, *("long" if it.wait.total_seconds() >= 1 else "short" for it in waits[:-1])]


def guarded(text, seed, jitter, asked, deadline, late, least, most, falls):
    """A call over a clock that it alone moves, beside the bounds of its guard."""
    now = ended = attempts = 0
    waits = [0]

    def draw(most):
        nonlocal seed
        seed = (seed * 1103515245 + 12345) % 2 ** 32
        return (seed >> 16) * most // 65535

    def move(nanoseconds):
        nonlocal now
        now += nanoseconds
        if falls and draw(3) == 0:
            now -= 1000 * draw(10 ** 7)
    by = zsched.retrying(
        text, jitter=jitter / 100, deadline=deadline / 1000 if deadline else None, input_of=lambda error: error.errno,
        retry_after=(lambda _: draw(2 * asked) / 1000) if asked else None, retry_after_most=asked / 1000,
        clock=lambda: now / 10 ** 9, sleep=lambda it: move(math.ceil(it * 10 ** 9) + 1000 * draw(1000 * late)))

    @by
    def effect():
        nonlocal attempts, ended
        waits.append(now - ended)
        move(1000 * (1000 * least + draw(1000 * (most - least))))
        attempts, ended = attempts + 1, now
        if attempts < 200:
            raise OSError(502 + draw(2), "failed")
    with contextlib.suppress(OSError):
        effect()
    found = by.bounds(late=math.inf) if falls else by.bounds(late=late / 1000,
                                                             trusting_attempts=(least / 1000, most / 1000))
    yield from [attempts, max(waits), sum(waits), ended, found.least, -1 if found.most is None else found.most]
    yield from (-1 if it is None else round(it / MILLISECOND) for it in found[3:])


def said(text):
    """The message of a wrong text, as digits."""
    try:
        zsched.Schedule(text)
    except zsched.ScheduleFault as fault:
        return [f".{str(fault).encode().hex()}"]


def many(text, count):
    schedule, moment = zsched.Schedule(text), 0
    for number in range(1, count + 1):
        moment = schedule._stepped(moment, 503)
        if number % (count // 10) == 0:
            print(flush=True)
    return []


CALLS = {form: functools.partial(retry, form) for form in ["retry", "later", "loop", "later_loop"]}
CALLS |= {f"limited_{form}": functools.partial(limited, form) for form in ["later", "loop", "later_loop"]}
CALLS |= {form: functools.partial(steps, form) for form in ["program", "stored"]}
CALLS |= {"good": functools.partial(good, ""), "good_later": functools.partial(good, "later")}
CALLS |= {"plan": plan, "restarted": restarted, "order": order, "bounds": bounds, "many": many, "edge": edge,
          "guarded": guarded, "said": said,
          "version": lambda _: [zsched.calls.library().zs_version()]}
for line in sys.stdin:
    command, digits, *words = line.split()
    text, given, words = bytes.fromhex(digits[1:]).decode(), [it if it.isalpha() else int(it) for it in words], []
    try:
        words.extend(CALLS[command](text, *given))
    except zsched.Fault as fault:
        words.append(f"{fault.number},{fault.at},{str(fault).splitlines()[0].partition(': ')[0]}")
    print(*words)
