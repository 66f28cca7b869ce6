"""Reads a report of zsched into records, by docs/FORMATS.md. All tests that look into a report use this reader."""
import re
from typing import NamedTuple

OUT = r"[0-9A-Za-z(),\[\]]+"
JOB = re.compile(r"job ([A-Za-z0-9._-]{1,64}) (retry|repeat)\n((?:(?:attempt|step) .*\n)*+)"
                 rf"end (succeeded|failed|finished|unfinished)(?: ({OUT}))? at (\d+) polls (\d+)\n")
ATTEMPT = re.compile(r"attempt (\d+) (\d+)\.\.(?:(\d+) (ok|err) (\d+)| running)\n"
                     rf"(?:step (\d+) out ({OUT}) (?:next (\d+)|done)\n)?")


class Attempt(NamedTuple):
    """An attempt with its step. `end`, `how` and `value` are None if it runs at the horizon. `out`, a text, is None if
    the schedule wasn't stepped, and `next` is None then or if the schedule is done."""
    begin: int
    end: int | None
    how: str | None
    value: int | None
    out: str | None
    next: int | None


class Job(NamedTuple):
    """A job: how it ended, with the text of a value or of an output or None, and at which moment."""
    name: str
    mode: str
    attempts: list
    how: str
    value: str | None
    at: int
    polls: int

    @property
    def steps(self):
        """The moment, input, output and next moment (None if done) of each step of the schedule."""
        return [(it.end, it.value, it.out, it.next) for it in self.attempts if it.out is not None]

    @property
    def waits(self):
        """The time between an attempt's end and the begin of the one after it, for each attempt but the last."""
        return [after.begin - it.end for it, after in zip(self.attempts, self.attempts[1:])]

    @property
    def moments(self):
        """The moments at which an attempt begins or ends. The job is polled once at each of them."""
        return {moment for it in self.attempts for moment in (it.begin, it.end) if moment is not None}


def attempts_of(lines):
    """The attempts of these lines, or None if a line has another form or another number."""
    found = [*ATTEMPT.finditer(lines)]
    if "".join(it[0] for it in found) != lines or any(
            {it[1], it[6] or it[1]} != {str(number)} for number, it in enumerate(found, 1)):
        return None
    numbers = [[it[at] and int(it[at]) for at in (2, 3, 5, 8)] for it in found]
    return [Attempt(begin, end, it[4], value, it[7], after) for it, (begin, end, value, after) in zip(found, numbers)]


def jobs_of(report):
    """The jobs of a report, which is bytes or a text. Raises ValueError if it isn't a whole report: the polls of each
    job must be the number of its moments, and the last line their sum."""
    text = report.decode() if isinstance(report, bytes) else report
    jobs, at = [], 0
    while found := JOB.match(text, at):
        name, mode, lines, how, value, end, polls = found.groups()
        job = Job(name, mode, attempts_of(lines), how, value, int(end), int(polls))
        if job.attempts is None or len(job.moments) != job.polls:
            break
        jobs.append(job)
        at = found.end()
    if text[at:] != f"polls {sum(job.polls for job in jobs)}\n":
        raise ValueError(f"not a report from line {text.count(chr(10), 0, at) + 1} on: {text[at:at + 200]!r}")
    return jobs
