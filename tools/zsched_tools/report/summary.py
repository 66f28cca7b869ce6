"""A report as a table with a line for each job, the greatest number of attempts at once, and the times to the end."""
import itertools
from collections import Counter
from typing import NamedTuple

from zsched_tools.reports import Attempt, Ending, records
from zsched_tools.words import duration, ending_text, plural, table

HEAD = ["job", "mode", "ending", "at", "attempts", "ok", "err", "busy", "waited", "longest wait"]
WELL = ["succeeded", "finished"]


class Options(NamedTuple):
    """The user's options: the order of the table, one line in place of the table, and a limit in milliseconds."""
    sort: str | None = None
    one_line: bool = False
    within: int | None = None


# The keys by which jobs are sorted: of a job, the number of its attempts and its ending.
SORTS = {"end": lambda job, count, ending: ending.at, "name": lambda job, count, ending: job.name,
         "attempts": lambda job, count, ending: -count}


class Attempts:
    """The figures of a job's attempts. Times are milliseconds. An attempt or a wait that has not ended at the horizon
    counts up to the horizon."""

    def __init__(self):
        self.outcomes = Counter()
        self.count = self.busy = self.waited = self.longest = 0
        self.begin = self.last = None

    def add(self, attempt):
        self.count += 1
        self.outcomes[attempt.outcome] += 1
        if self.last is None:
            self.begin = attempt.begin
        else:
            self._wait(attempt.waited)
        self.busy += 0 if attempt.end is None else attempt.end - attempt.begin
        self.last = attempt

    def close(self, ending):
        if self.last is not None and ending.how == "unfinished":
            if self.last.end is None:
                self.busy += ending.at - self.last.begin
            else:
                self._wait(ending.at - self.last.end)

    def _wait(self, time):
        self.waited += time
        self.longest = max(self.longest, time)


class Summary:
    """All jobs of a report: the lines of the table with their keys for sorting, the times to the end of the jobs that
    aren't unfinished, the number of jobs that ended well within the limit, how often each ending occurs, and by how
    much the number of running attempts changes at each moment."""

    def __init__(self, options):
        self.options, self.rows, self.times, self.well = options, [], [], 0
        self.endings, self.changes = Counter(), Counter()
        self.attempts = self.total = 0
        self.open = Attempts()

    def add(self, job, record):
        if isinstance(record, Attempt):
            self.open.add(record)
            self.changes[record.begin] += 1
            if record.end is not None:
                self.changes[record.end] -= 1
        elif isinstance(record, Ending):
            self._end(job, self.open, record)
            self.open = Attempts()
        else:
            self.total = record.polls

    def _end(self, job, attempts, ending):
        attempts.close(ending)
        self.endings[ending.how] += 1
        self.attempts += attempts.count
        if ending.how != "unfinished":
            time = ending.at - attempts.begin
            self.times.append(time)
            self.well += self.options.within is not None and ending.how in WELL and time <= self.options.within
        if not self.options.one_line:
            key = SORTS[self.options.sort](job, attempts.count, ending) if self.options.sort else 0
            self.rows.append((key, [
                job.name, job.mode, ending_text(ending.how, ending.result()), duration(ending.at), str(attempts.count),
                str(attempts.outcomes["ok"]), str(attempts.outcomes["err"]), duration(attempts.busy),
                duration(attempts.waited), duration(attempts.longest)]))

    def jobs(self):
        return sum(self.endings.values())

    def most(self):
        """The greatest number of attempts that ran at once, and the first moment with that number."""
        moments = sorted(self.changes)
        running = list(itertools.accumulate(map(self.changes.__getitem__, moments)))
        most = max(running, default=0)
        return most, moments[running.index(most)] if most else 0


def _lines(summary):
    jobs, within = summary.jobs(), summary.options.within
    said = ", ".join(f"{number} {how}" for how, number in summary.endings.items())
    attempts = plural(summary.attempts, "attempt")
    yield f"{plural(jobs, 'job')}{': ' if said else ''}{said}; {attempts}; {plural(summary.total, 'poll')}"
    most, moment = summary.most()
    if most:
        yield f"most attempts at once: {most}, first at {duration(moment)}"
    if jobs:
        # An unfinished job takes longer than all others.
        times, ranks = sorted(summary.times), {percent: -(-percent * jobs // 100) - 1 for percent in [50, 95, 99]}
        yield "time to the end: " + ", ".join(f"p{it} {duration(times[rank]) if rank < len(times) else 'unfinished'}"
                                              for it, rank in ranks.items())
    if within is not None:
        share = 10_000 * summary.well // jobs if jobs else 0
        yield (f"ended well within {duration(within)}: {summary.well} of {plural(jobs, 'job')}, "
               f"{share // 100}.{share % 100:02} %")


def write_summary(file, write, options=Options(), progress=None):
    """Writes the table, the number of endings of each kind, the greatest number of attempts at once, and the times to
    the end. With `one_line` it writes everything except the table, in one line. `file` is binary."""
    summary = Summary(options)
    for job, record in records(file, progress):
        summary.add(job, record)
    if options.one_line:
        write("; ".join(_lines(summary)))
        return
    if summary.jobs():
        for line in table([HEAD, *(cells for _, cells in sorted(summary.rows, key=lambda row: row[0]))]):
            write(line)
        write("")
    for line in _lines(summary):
        write(line)
