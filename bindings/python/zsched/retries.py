"""Retries that really sleep."""
import array
import asyncio
import collections.abc
import contextlib
import copy
import dataclasses
import datetime
import functools
import inspect
import itertools
import math
import threading
import time
import types
import typing
import warnings

from .budgets import Budget
from .durations import (LARGEST, LONGEST, Duration, duration_of, duration_of_milliseconds, milliseconds, nanoseconds,
                        refuse_outside)
from .journals import Journal, Opened
from .schedules import Bounds, Schedule, run_bounds

DEFAULT = "(exponential(100) && recurs(5))"
# How often a sleep may return before its time.
EARLY = 100
GENERATORS = (types.GeneratorType, types.AsyncGeneratorType, contextlib._GeneratorContextManager,
              contextlib._AsyncGeneratorContextManager)
Range = tuple[Duration, Duration]
Classes = type[BaseException] | tuple[type[BaseException], ...]
P = typing.ParamSpec("P")
R = typing.TypeVar("R", covariant=True)
T = typing.TypeVar("T")
_switches: list[None] = []


@contextlib.contextmanager
def testing() -> collections.abc.Iterator[None]:
    """Makes loops that begin inside not sleep: each has a clock that begins at 0 and that only its waits move, so they
    decide as they would after these waits. It is for tests, and for all threads."""
    _switches.append(None)
    try:
        yield
    finally:
        _switches.pop()


class Event(typing.NamedTuple):
    """What on_event gets before a wait, and at the end of a call.

    name: the function's name, or the option `name`
    attempt: the number of the attempt that ended, from 1
    error: its error, or the result that counts as one; None if it succeeded
    elapsed: the time from the begin of the first attempt
    wait: how long the wait takes, None at the end
    why: why the call ended: "succeeded", "gave up" (the schedule is done), "deadline", "budget", "not retried" (another
        error than those of `on`, or a hook that returned no number) or "cancelled"; None before a wait"""
    name: str
    attempt: int
    error: typing.Any
    elapsed: datetime.timedelta
    wait: datetime.timedelta | None
    why: str | None


@dataclasses.dataclass
class Statistics:
    """What happened in all calls so far: their number, how many attempts were not the first of their
    call, how many calls gave up by the schedule, the budget or the deadline, and all sleeps together."""
    calls: int = 0
    retries: int = 0
    given_up: int = 0
    slept: datetime.timedelta = datetime.timedelta()

    def __post_init__(self) -> None:
        self._lock = threading.Lock()

    def __reduce__(self) -> tuple[typing.Any, ...]:
        return type(self), (self.calls, self.retries, self.given_up, self.slept)

    def add(self, calls: int = 0, retries: int = 0, given_up: int = 0, slept: int = 0) -> None:
        """Adds to these numbers, and nanoseconds to the sleeps; threads may add at once."""
        with self._lock:
            self.calls += calls
            self.retries += retries
            self.given_up += given_up
            if slept:
                self.slept += duration_of(slept)


class Attempt:
    """One attempt, as a context manager, with `async with` too if on_event is asynchronous.

    It suppresses an error that is retried if another attempt follows. `number` counts the
    attempts from 1."""

    number: int

    def __init__(self, run: "Run") -> None:
        run.attempts, run.is_over = run.attempts + 1, True
        self._run, self.number = run, run.attempts

    def left(self) -> datetime.timedelta | None:
        """Returns what remains of attempt_most, or None without it. The attempt has to end in time."""
        most = self._run.by.attempt_most
        return None if most is None else duration_of(max(0, nanoseconds(most) - (self._run.now() - self._run.began)))

    def __enter__(self) -> "Attempt":
        return self

    def __exit__(self, kind: type[BaseException] | None, error: BaseException | None,
                 trace: types.TracebackType | None) -> bool:
        goes_on = self._run.is_retried(error)
        self._run.tell()
        return goes_on

    async def __aenter__(self) -> "Attempt":
        return self

    async def __aexit__(self, kind: type[BaseException] | None, error: BaseException | None,
                        trace: types.TracebackType | None) -> bool:
        goes_on = self._run.is_retried(error)
        await self._run.tell_later()
        return goes_on


def whole_number(found: typing.Any) -> int:
    """Returns a whole number from 0 to 2^64 - 1, or raises an error."""
    return int(array.array("Q", [found])[0])


def duration(found: typing.Any) -> int:
    """Returns a duration in milliseconds, 0 for None or one below 0, or raises an error."""
    return 0 if found is None else max(0, milliseconds(found))


def refuse_awaitable(result: typing.Any, why: str) -> None:
    """Raises TypeError for an awaitable."""
    if hasattr(type(result), "__await__"):
        if inspect.iscoroutine(result):
            result.close()
        raise TypeError(f"zsched: {why}")


class _Moved:
    """A clock that only its sleeps move."""
    seconds = 0.0

    def __call__(self) -> float:
        return self.seconds


class Run:
    """One run of a Retrying, which iterates over its attempts.

    It holds the schedule, the start, and in nanoseconds from there when the last attempt began, when the next one may
    begin, and the last moment that was read; and the event of the attempt that ended, until on_event gets it."""

    # They are made after the first error, or for a journal. Most calls have none, and set nothing of this.
    schedule: Schedule | None = None
    opened: Opened | None = None
    event: Event | None = None
    moved: _Moved | None = None
    attempts = began = begin = last = 0
    is_over = False

    def __init__(self, by: "Retrying", name: str) -> None:
        self.by, self.name, self.clock = by, name, by.clock
        if _switches:
            self.clock = self.moved = _Moved()
        self.start = self.clock()
        by.statistics.add(1)
        if by.journal is not None:
            self.open(by.journal)

    def open(self, journal: Journal) -> None:
        """Takes the journal, to go on where it ended."""
        self.opened = Opened(journal)
        try:
            found = self.opened.read(self.by.program)
        except BaseException:
            self.close()
            raise
        self.schedule = self.by.program.begin()
        if found is not None:
            self.schedule, self.attempts, self.last, self.begin, passed = found
            # Where the system's clock was set back, this is before the last moment, as with any clock that falls.
            self.start -= passed / 1e9

    def close(self) -> None:
        """Lets other calls have the journal."""
        if self.opened is not None:
            self.opened.close()
            self.opened = None

    def __iter__(self) -> "Run":
        return self

    def __aiter__(self) -> "Run":
        return self

    def __next__(self) -> Attempt:
        if self.is_over:
            raise StopIteration
        if self.attempts or self.opened is not None:
            self.sleep()
        return Attempt(self)

    async def __anext__(self) -> Attempt:
        if self.is_over:
            raise StopAsyncIteration
        if self.attempts or self.opened is not None:
            await self.sleep_asynchronously()
        return Attempt(self)

    def now(self) -> int:
        """Returns the nanoseconds from the start by the clock. One that falls counts as one that stood still."""
        now = round((self.clock() - self.start) * 1e9)
        if now < self.last:
            self.start -= (self.last - now) / 1e9
        self.last = max(self.last, now)
        return self.last

    def rests(self, least: int) -> collections.abc.Iterator[float]:
        """Yields the seconds to sleep, at most LONGEST, and at least a number of times, until the next attempt may
        begin. Then begins it: the journal says that it failed at once, which counts if the process is killed.

        Raises RuntimeError if sleeps end early again and again, as one does that a test replaced."""
        for number in itertools.count():
            self.now()
            # By floats, as the clock counts, so that no rest is too short for it.
            rest = self.start + self.begin / 1e9 - self.clock()
            if rest <= 0 and number >= least:
                break
            if number > EARLY:
                raise RuntimeError(f"zsched: {EARLY} sleeps of {self.name or 'a loop'} ended early; a test calls it "
                                   "inside `with zsched.testing():`, where loops don't sleep")
            yield min(max(0.0, rest), LONGEST)
        self.began = self.now()
        if self.opened is not None and self.schedule is not None:
            killed, attempt = copy.copy(self.schedule), self.attempts + 1
            begin = killed._planned(self.began, self.began, self.opened.killed, 0, 0, self.by.share)
            self.opened.write(killed, attempt, self.began, begin, f"killed in attempt {attempt}")

    def sleep(self) -> None:
        """Sleeps until the next attempt may begin, and begins it."""
        try:
            for rest in self.rests(0):
                if asyncio._get_running_loop() is not None:
                    warnings.warn(f"zsched: {self.name or 'a loop'} isn't asynchronous, so its sleep blocks the event "
                                  "loop that runs here", RuntimeWarning, 3)
                if self.moved is not None:
                    self.moved.seconds += rest
                else:
                    refuse_awaitable((self.by.sleep or time.sleep)(rest),
                                     f"{self.by.sleep!r} sleeps asynchronously, and the function or loop doesn't")
        except BaseException as error:
            self.end("cancelled", error)
            self.tell()
            raise

    async def sleep_asynchronously(self) -> None:
        """The same, for a coroutine. Other tasks run in any case."""
        try:
            for rest in self.rests(1):
                if self.moved is not None:
                    self.moved.seconds, rest = self.moved.seconds + rest, 0
                await (self.by.sleep or asyncio.sleep)(rest)
        except BaseException as error:
            self.end("cancelled", error)
            await self.tell_later()
            raise

    def tell(self) -> None:
        """Calls on_event with the event, if there is one."""
        if self.event is not None:
            refuse_awaitable(self.told(), "on_event returns an awaitable, which would not be awaited: decorate a "
                             "coroutine function, or write `async with attempt`")

    async def tell_later(self) -> None:
        """The same, and awaits what it returns."""
        if self.event is not None and hasattr(type(result := self.told()), "__await__"):
            await typing.cast(typing.Any, result)

    def told(self) -> object:
        """Returns what on_event returns for the event. An error of it ends the call."""
        event, self.event = self.event, None
        try:
            return typing.cast(typing.Any, self.by.on_event)(event)
        except BaseException:
            self.close()
            raise

    def number_of(self, name: str, failure: typing.Any, convert: collections.abc.Callable[[typing.Any], T]) -> T | None:
        """Returns what a hook returns for an error or result, converted. If that fails, adds a note to the error and
        returns None; a result has no notes, so then it raises ValueError."""
        hook = getattr(self.by, name)
        try:
            return convert(None if hook is None else hook(failure))
        except Exception as fault:
            why = f"zsched: not tried again, since {name} returned no {convert.__name__.replace('_', ' ')}: {fault!r}"
        if not isinstance(failure, BaseException):
            raise ValueError(why)
        # Python 3.10 has no notes.
        if hasattr(failure, "add_note"):
            failure.add_note(why)
        return None

    def is_retried(self, error: BaseException | None) -> bool:
        """Ends an attempt. Returns whether its error is suppressed and another attempt follows."""
        if error is None:
            self.succeed()
            return False
        # An error that is no Exception isn't the service's: Ctrl-C, or a cancelled task.
        if not isinstance(error, Exception):
            return self.end("cancelled", error)
        on = self.by.on
        is_expected = isinstance(error, on) if isinstance(on, (type, tuple)) else self.number_of("on", error, truth)
        return self.goes_on(error) if is_expected else self.end("not retried", error)

    def is_rejected(self, result: typing.Any) -> bool:
        """Ends an attempt. Returns whether another one follows in place of its result."""
        if self.by.retry_on_result is not None and truth(self.by.retry_on_result(result)):
            return self.goes_on(result)
        self.succeed()
        return False

    def succeed(self) -> None:
        """Ends the call with success."""
        if self.by.budget is not None:
            self.by.budget.add()
        if self.opened is not None or self.by.on_event is not None:
            self.end("succeeded", None)

    def goes_on(self, failure: typing.Any) -> bool:
        """Plans the next attempt after an error, or a result that counts as one. Returns whether it follows."""
        ended, begin, why = self.now(), None, "budget"
        code = self.number_of("input_of", failure, whole_number)
        least = None if code is None else self.number_of("retry_after", failure, duration)
        if code is None or least is None:
            return self.end("not retried", failure)
        if self.by.budget is None or self.by.budget.take():
            self.schedule = self.schedule or self.by.program.begin()
            begin = self.schedule._planned(self.began, ended, code, least, milliseconds(self.by.retry_after_most),
                                           self.by.share)
            why = "gave up" if begin is None else "deadline"
        if begin is None or self.by.deadline is not None and begin > nanoseconds(self.by.deadline):
            self.by.statistics.add(given_up=1)
            return self.end(why, failure)
        self.begin, self.is_over = begin, False
        self.by.statistics.add(retries=1, slept=begin - ended)
        if self.opened is not None and self.schedule is not None:
            try:
                self.opened.write(self.schedule, self.attempts, ended, begin, _words(failure))
            except BaseException:
                self.close()
                raise
        self.say(failure, duration_of(begin - ended), None)
        return True

    def end(self, why: str, failure: typing.Any) -> typing.Literal[False]:
        """Ends the call. Returns False, since no attempt follows."""
        self.is_over = True
        try:
            if self.opened is not None and why == "succeeded":
                self.opened.remove()
            elif self.opened is not None and self.schedule is not None and why != "cancelled":
                self.opened.write(self.schedule, self.attempts, self.now(), None, _words(failure))
        finally:
            self.close()
        self.say(failure, None, why)
        return False

    def say(self, failure: typing.Any, wait: datetime.timedelta | None, why: str | None) -> None:
        """Makes the event for on_event."""
        if self.by.on_event is not None:
            self.event = Event(self.name, self.attempts, failure, duration_of(self.now()), wait, why)


class Tried(typing.Protocol[P, R]):
    """A decorated function: `with_` returns it with other options, and `bounds` is as that of a Retrying."""
    statistics: Statistics
    def __call__(self, *arguments: P.args, **named: P.kwargs) -> R: ...
    def with_(self, **changes: typing.Any) -> "Tried[P, R]": ...
    def bounds(self, steps: int = 1000, *, late: Duration, trusting_attempts: Range | None = None) -> Bounds: ...
    @typing.overload
    def __get__(self, of: None, owner: typing.Any = None) -> "Tried[P, R]": ...
    @typing.overload
    def __get__(self, of: object, owner: typing.Any = None) -> collections.abc.Callable[..., R]: ...


@dataclasses.dataclass(frozen=True, eq=False)
class Retrying:
    """A decorator, a loop and an asynchronous loop that retry after each error, when the schedule says so.

    When the schedule is done, the last error is raised. Durations are a timedelta or seconds.

    schedule: the text of a schedule, or a Schedule, of which only the program is read; a text is
        compiled at once, and calls share its program; without one it is DEFAULT, with a jitter of 1
    on: the class of the errors to retry after, a tuple of classes, or a function that returns whether to
        retry after an error; any other error is raised, and so is one that is no Exception, such as
        that of a cancelled task
    input_of: returns the schedule's input of an error, a whole number from 0 to 2^64 - 1; if it
        returns none or raises, the error is raised with a note that says so
    retry_on_result: returns whether a result of a decorated function counts as an error; input_of
        and on_event then get the result, and the last one is returned when the schedule is done
    on_event: is called with an Event before each wait and at the end of a call; if it is
        asynchronous, it is awaited
    name: the name in events, that of the function if it is empty
    jitter: shortens each wait by a random part of it, of at most this share, from 0 to 1, in whole
        percent
    retry_after: returns the least wait after an error, or None; if it returns no duration
        or raises, the error is raised with a note that says so
    retry_after_most: the longest such wait, an hour; if a service wants a longer one, it gets this,
        and 0 leaves all of them out
    attempt_most: what an attempt of a coroutine may take; a longer one is cancelled, with
        asyncio.TimeoutError as its error; in a loop the attempt has to end in time, by its left()
    deadline: the call gives up at once if the next attempt would begin later than this after the
        first one's begin
    budget: is a Budget that other calls share; without tokens the call gives up
    journal: is a Journal, in which the call goes on after a restart
    clock: returns seconds
    sleep: sleeps for a number of seconds; no attempt begins before its planned moment by the clock

    After a failed attempt, Schedule.plan returns when the next one may begin, so a run makes at most
    the `most` attempts of its bounds, whatever the clock does. If the input or the least wait is no
    number, no token of the budget is taken, and if the budget has too few, the schedule isn't stepped.
    Time and memory don't grow with the number of attempts. Raises ScheduleFault if the text is no
    schedule, or has a list in its output.

    Many calls may use one at the same time."""

    schedule: str | Schedule | None = None
    _: dataclasses.KW_ONLY
    on: Classes | collections.abc.Callable[[typing.Any], object] = Exception
    input_of: collections.abc.Callable[[typing.Any], int] = lambda error: 0
    retry_on_result: collections.abc.Callable[[typing.Any], object] | None = None
    on_event: collections.abc.Callable[[Event], object] | None = None
    name: str = ""
    jitter: float | None = None
    retry_after: collections.abc.Callable[[typing.Any], Duration | None] | None = None
    retry_after_most: Duration = 3600
    attempt_most: Duration | None = None
    deadline: Duration | None = None
    budget: Budget | None = None
    journal: Journal | None = None
    clock: collections.abc.Callable[[], float] = time.monotonic
    sleep: collections.abc.Callable[[float], typing.Any] | None = None
    program: Schedule = dataclasses.field(init=False, repr=False)
    share: float = dataclasses.field(init=False, repr=False)
    statistics: Statistics = dataclasses.field(init=False, repr=False, default_factory=Statistics)

    def __post_init__(self) -> None:
        given = DEFAULT if self.schedule is None else self.schedule
        if not isinstance(given, (str, Schedule)):
            raise TypeError(f'zsched: {given!r} is no text of a schedule: write @retrying() or @retrying("{DEFAULT}")')
        object.__setattr__(self, "program", Schedule(given) if isinstance(given, str) else given)
        jitter = float(self.schedule is None) if self.jitter is None else self.jitter
        object.__setattr__(self, "share", jitter)
        if isinstance(self.on, (type, tuple)):
            issubclass(Exception, self.on)
        elif not callable(self.on):
            raise TypeError(f"zsched: on is {self.on!r}, which is no class, tuple of classes or function")
        refuse_outside("jitter", jitter, most=1)
        refuse_outside("retry_after_most", self.retry_after_most)
        for name in ["attempt_most", "deadline"]:
            if getattr(self, name) is not None:
                refuse_outside(name, getattr(self, name), least=1e-9)
        for name in ["on", "input_of", "retry_on_result", "retry_after", "clock"]:
            if _is_asynchronous(getattr(self, name)):
                raise TypeError(f"zsched: {name} is a coroutine function, which would not be awaited")
        if self.journal is not None:
            self.journal.refuse(self.program.text)

    def with_(self, **changes: typing.Any) -> "Retrying":
        """Returns the same with other options, and with statistics that begin at 0."""
        return dataclasses.replace(self, **changes)

    def bounds(self, steps: int = 1000, *, late: Duration, trusting_attempts: Range | None = None) -> Bounds:
        """Returns the Bounds of each call, of which at most the first `steps` attempts are examined.

        late: how late a timer of this machine may be: an attempt may begin so much after its moment, and end so much
            after attempt_most; math.inf is any lateness
        trusting_attempts: how long attempts take at least and at most, if the loop doesn't end them; without it, and
            without an attempt_most of a decorated coroutine, the end of a call has no bound

        All options of the loop count. A budget or a deadline can end a call before `least`, so that is 1. After a
        restart with a journal, the attempt that follows is as late as the restart took.

        Raises ValueError for a duration below 0, and Fault if no attempt takes such a time."""
        return self._bounds(None, steps, late, trusting_attempts)

    def _bounds(self, limit: Duration | None, steps: int, late: Duration, trusting: Range | None) -> Bounds:
        """The same, where the loop ends an attempt at a limit."""
        for given in [late, *(trusting or ())]:
            refuse_outside("duration", given, most=math.inf)
        least, late = 1, milliseconds(late)
        mosts = [] if limit is None else [milliseconds(limit) + late]
        if trusting is not None:
            # A killed attempt of a journal counts as one that failed at once.
            least = 1 if self.journal is not None else max(1, nanoseconds(trusting[0]) // 1_000_000)
            mosts.append(max(1, milliseconds(trusting[1])))
        asked = 0 if self.retry_after is None else milliseconds(self.retry_after_most)
        found = run_bounds(self.program.text, steps, least, len(mosts) > 0, min([LARGEST, *mosts]) * (len(mosts) > 0),
                           100 - int(100 * self.share + 0.5), 100, asked, late)
        # With a deadline the last attempt begins then, or as late as timers are.
        last = [] if self.deadline is None else [milliseconds(self.deadline) + late]
        totals, runs = [found.total_ms] * found.has_total + last, [found.longest_run_ms] * found.has_longest_run
        runs += [it + min(mosts) for it in last if mosts]
        is_ended = self.budget is not None or self.deadline is not None
        return Bounds(found.seen, 1 if is_ended else found.least, found.most if found.has_most else None,
                      duration_of_milliseconds(min([found.longest_ms, *last])),
                      *(duration_of_milliseconds(min(it)) if it else None for it in [totals, runs]))

    def __iter__(self) -> collections.abc.Iterator[Attempt]:
        """Returns the attempts, with a sleep between two."""
        return self._run()

    def __aiter__(self) -> collections.abc.AsyncIterator[Attempt]:
        """Returns the attempts, with an asynchronous sleep between two."""
        return self._run()

    def _run(self) -> Run:
        if self.retry_on_result is not None:
            raise TypeError("zsched: a loop has no result for retry_on_result: decorate a function")
        return Run(self, self.name)

    def __call__(self, function: collections.abc.Callable[P, R]) -> Tried[P, R]:
        """Returns the function, or coroutine function, with retries as the schedule says.

        Raises TypeError for a generator function, whose body runs after the call, and with attempt_most
        or an asynchronous on_event for a function that isn't asynchronous, which can neither be cancelled nor await."""
        if isinstance(function, (classmethod, staticmethod)):
            return typing.cast(Tried[P, R], type(function)(self(function.__func__)))
        if not callable(function):
            raise TypeError(f"zsched: {function!r} is no function")
        if inspect.isgeneratorfunction(function) or inspect.isasyncgenfunction(function):
            raise _no_generator(function)
        is_late = _is_asynchronous(function)
        if self.attempt_most is not None and not is_late:
            raise TypeError(f"zsched: {function!r} is not asynchronous, so attempt_most can't end it: use a loop, "
                            "and left()")
        if _is_asynchronous(self.on_event) and not is_late:
            raise TypeError(f"zsched: {function!r} is not asynchronous, so on_event would not be awaited")
        name = self.name or getattr(function, "__qualname__", repr(function))
        tried = (_asynchronous if is_late else _synchronous)(self, function, name)
        tried.statistics, tried.with_ = self.statistics, lambda **changes: self.with_(**changes)(function)
        tried.bounds = lambda steps=1000, *, late, trusting_attempts=None: self._bounds(
            self.attempt_most, steps, late, trusting_attempts)
        return typing.cast(Tried[P, R], tried)


def truth(found: typing.Any) -> bool:
    """Returns whether something is true, or raises TypeError for an awaitable."""
    refuse_awaitable(found, "a hook returns an awaitable, which would not be awaited")
    return bool(found)


def _words(failure: typing.Any) -> str:
    """Returns the text of an error, or of a result that counts as one, for a journal."""
    return f"{type(failure).__qualname__}: {failure}"


def _is_asynchronous(function: typing.Any) -> bool:
    """Returns whether a function, or an object's `__call__`, is a coroutine function."""
    call = getattr(type(function), "__call__", None)
    return inspect.iscoroutinefunction(function) or inspect.iscoroutinefunction(call)


def _no_generator(function: typing.Any) -> TypeError:
    """Returns the error for a function that returns a generator."""
    name = getattr(function, "__qualname__", repr(function))
    return TypeError(f"zsched: {name} returns a generator, whose body runs after the call: decorate the function that "
                     "uses it")


def _synchronous(by: Retrying, function: typing.Any, name: str) -> typing.Any:
    """Returns a function with retries. If it returns an awaitable, so does its first attempt, and each is awaited."""
    @functools.wraps(function)
    def tried(*arguments: typing.Any, **named: typing.Any) -> typing.Any:
        run = Run(by, name)
        if run.opened is not None:
            run.sleep()
        while True:
            run.attempts += 1
            try:
                result = function(*arguments, **named)
            except BaseException as error:
                goes_on = run.is_retried(error)
                run.tell()
                if not goes_on:
                    raise
            else:
                if hasattr(type(result), "__await__"):
                    return _awaited(run, function, arguments, named, result)
                if isinstance(result, GENERATORS):
                    raise _no_generator(function)
                goes_on = run.is_rejected(result)
                if run.event is not None:
                    run.tell()
                if not goes_on:
                    return result
            run.sleep()
    return tried


def _asynchronous(by: Retrying, function: typing.Any, name: str) -> typing.Any:
    """Returns a coroutine function with retries."""
    @functools.wraps(function)
    async def tried(*arguments: typing.Any, **named: typing.Any) -> typing.Any:
        run = Run(by, name)
        if run.opened is not None:
            await run.sleep_asynchronously()
        run.attempts += 1
        return await _awaited(run, function, arguments, named, None)
    return tried


async def _awaited(run: Run, function: typing.Any, arguments: typing.Any, named: typing.Any,
                   begun: typing.Any) -> typing.Any:
    """Awaits an attempt that has begun, and those that follow."""
    while True:
        try:
            result = begun if begun is not None else function(*arguments, **named)
            if hasattr(type(result), "__await__"):
                most = run.by.attempt_most
                result = await (result if most is None else asyncio.wait_for(result, nanoseconds(most) / 1e9))
        except BaseException as error:
            goes_on = run.is_retried(error)
            await run.tell_later()
            if not goes_on:
                raise
        else:
            if isinstance(result, GENERATORS):
                raise _no_generator(function)
            goes_on = run.is_rejected(result)
            if run.event is not None:
                await run.tell_later()
            if not goes_on:
                return result
        await run.sleep_asynchronously()
        run.attempts, begun = run.attempts + 1, None


retrying = Retrying
