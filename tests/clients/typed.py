"""Uses each call of the package's hints: `mypy --strict`. A line with `type: ignore` has to be rejected."""
import asyncio
import datetime

from zsched import (DEFAULT, Attempt, Bounds, Budget, Event, Fault, GaveUp, Journal, JournalFault, Retrying, Schedule,
                    ScheduleFault, Statistics, Tried, bounds, retry_after_of, retrying, testing)

TEXT = "(exponential(10) && recurs(5))"
BUDGET, SECOND = Budget(tokens=10, ratio=0.1), datetime.timedelta(seconds=1)


def code_of(error: OSError) -> int:
    return error.errno or 0


def say(event: Event) -> None:
    print(event.name, event.attempt, event.error, event.elapsed + (event.wait or SECOND), event.why)


async def say_later(event: Event) -> None:
    say(event)


@retrying(TEXT, on=OSError, input_of=code_of, retry_on_result=lambda result: result is None, jitter=0.5, budget=BUDGET,
          on_event=say, retry_after=lambda _: retry_after_of("7", now=1.5), deadline=SECOND, name="fetch")
def fetch(url: str) -> bytes:
    return url.encode()


@retrying(Schedule(TEXT), on_event=say_later, attempt_most=SECOND)
async def fetch_later(url: str) -> bytes:
    return fetch(url)


@retrying()
def fetch_by_default(url: str) -> bytes:
    return url.encode()


class Service:
    @retrying(TEXT, on=lambda error: bool(error.args), retry_after_most=60, attempt_most=None)
    def fetch(self, url: str) -> bytes:
        return url.encode()


async def loops() -> list[int]:
    numbers = [attempt.number for attempt in retrying(DEFAULT)]
    async for attempt in retrying(TEXT, sleep=asyncio.sleep, journal=Journal("file", killed=503)):
        async with attempt:
            numbers.append(len(await fetch_later("a")))
    return numbers


def moments(schedule: Schedule) -> list[datetime.timedelta | None]:
    other = Schedule.load(schedule.save()).begin()
    return [other.plan(0, 0.5), other.plan(SECOND, 9, 503, least=1, longest=SECOND, jitter=0.5, draw=7),
            schedule.after(SECOND, 503)]


def main() -> None:
    found: Bounds = bounds(TEXT, 1000)
    assert found.within(6, 3.1) and fetch.bounds(late=0.1, trusting_attempts=(0, SECOND)).ends_within(SECOND)
    schedule = Schedule(TEXT)
    output: str = schedule.output() if moments(schedule) else schedule.text
    try:
        print(output, schedule.state, found.most, found.total, BUDGET.tokens, Statistics().calls)
    except ScheduleFault as fault:
        print(fault.at, fault.text)
    except Fault as fault:
        print(fault.number)
    except JournalFault as fault:
        print(fault.why, fault.file)
    except GaveUp as fault:
        print(fault.attempts, fault.error)
    other: Retrying = retrying(TEXT).with_(jitter=0.1)
    with testing():
        attempts: list[Attempt] = list(other)
    left: datetime.timedelta | None = attempts[0].left()
    service: Tried[[Service, str], bytes] = Service.fetch
    page: bytes = service.with_(jitter=0.1)(Service(), "a") + Service().fetch("a") + fetch.with_(jitter=0.1)("a")
    print(left, page, fetch.statistics.calls, fetch_later.with_(on=OSError).statistics.slept, fetch_by_default("a"))
    fetch(7)  # type: ignore[arg-type]
    fetch.with_(jitter=0.1)(7)  # type: ignore[arg-type]
    fetch.bounds()  # type: ignore[call-arg]
    Schedule(7)  # type: ignore[arg-type]
    schedule.plan("0.5", 1)  # type: ignore[arg-type]
    retrying(7)  # type: ignore[arg-type]
