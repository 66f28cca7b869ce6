"""The load of a report: what begins and ends in each step of time, and what runs and waits at its end."""
import collections

from zsched_tools.command import Refused
from zsched_tools.reports import Attempt, Ending, records
from zsched_tools.words import duration, plural, table

HEAD = ["from", "begun", "ok", "err", "running", "waiting"]
MOST_STEPS = 100_000
MOST_FITTED = 5_000
SECOND = 1000


class Load:
    """What began and ended in each step of time. The counters have the attempts that began, succeeded and failed, and
    the jobs that began and ended. A job begins with its first attempt. One that is unfinished doesn't end."""

    def __init__(self, every):
        self.every = every
        self.begun, self.ok, self.err, self.joined, self.left = [collections.Counter() for _ in range(5)]

    def take(self, record):
        """Adds a record of a report. Returns this load."""
        if isinstance(record, Attempt):
            self.begun[record.begin // self.every] += 1
            self.joined[record.begin // self.every] += record.number == 1
            if record.end is not None:
                (self.ok if record.outcome == "ok" else self.err)[record.end // self.every] += 1
        elif isinstance(record, Ending):
            self.left[record.at // self.every] += record.how != "unfinished"
        return self

    def _moved(self, every, place):
        """The load in other steps: `place` returns that of each step."""
        found = Load(every)
        for mine, theirs in zip(self._counters(), found._counters()):
            for step, count in mine.items():
                theirs[place(step)] += count
        return found

    def coarser(self, factor):
        """The load in steps that are longer by the factor."""
        return self if factor == 1 else self._moved(self.every * factor, lambda step: step // factor)

    def fitted(self):
        """The load in steps that are longer by a power of 10, so that attempts begin in at most MOST_FITTED of them."""
        found = self
        while len(found.begun) > MOST_FITTED:
            found = found.coarser(10)
        return found

    def clamped(self, first, last):
        """The load from the first to the last step. What is before the first step is in the step before it, and what is
        after the last step in the step after it."""
        return self._moved(self.every, lambda step: min(max(step, first - 1), last + 1))

    def _counters(self):
        return self.begun, self.ok, self.err, self.joined, self.left

    def steps(self):
        """The first and the last step in which something begins or ends, or None."""
        keys = [step for counter in self._counters() for step, count in counter.items() if count]
        return (min(keys), max(keys)) if keys else None

    def rows(self):
        """A row for each step: its first moment; the attempts that begin, succeed and fail in it; the attempts that
        run and the jobs that wait at its end."""
        if (found := self.steps()) is None:
            return
        first, last = found
        running = jobs = 0
        for step in range(first, last + 1):
            running += self.begun[step] - self.ok[step] - self.err[step]
            jobs += self.joined[step] - self.left[step]
            yield [step * self.every, self.begun[step], self.ok[step], self.err[step], running, jobs - running]


def read(file, every, progress=None):
    """The load of a report, a binary file. Too many steps are rejected."""
    load = Load(every)
    for _, record in records(file, progress):
        load.take(record)
    first, last = load.steps() or (0, 0)
    if last - first >= MOST_STEPS:
        raise Refused(f"has {last - first + 1} steps of {duration(every)}, and a load has at most {MOST_STEPS}: "
                      "take a longer --every")
    return load


def csv(load):
    """The load as lines of comma-separated values. Moments are milliseconds."""
    return ["from_ms,begun,ok,err,running,waiting", *(",".join(map(str, row)) for row in load.rows())]


def text(load):
    """The load as the lines of a table, and the sums of attempts."""
    rows = [[duration(row[0]), *map(str, row[1:])] for row in load.rows()]
    if rows:
        yield from [*table([HEAD, *rows], left=0), ""]
    begun, ok, err = [sum(counter.values()) for counter in (load.begun, load.ok, load.err)]
    yield f"{plural(begun, 'attempt')}: {ok} ok, {err} err, {begun - ok - err} running at the horizon"
