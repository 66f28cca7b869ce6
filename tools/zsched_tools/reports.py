"""Reads a report line by line into records. It rejects a text that isn't a whole report, with the line's number.

docs/FORMATS.md has the form of a report. The reader checks the form of each line, and compares the lines with each
other: attempts are numbered from 1 and don't overlap, there is a step exactly if the schedule was stepped, an ending is
that of the last attempt, and the polls are the moments at which attempts began or ended. Numbers are whole and go up to
2^64 - 1; the total of the last line has no bound, since the report of a population may have any number of jobs.

Reports that a tool has just got from the program are cut into jobs by `blocks_of`, and aren't checked again."""
import contextlib
import dataclasses
import io
import re
from array import array

from zsched_tools.command import Refused

MOST = 2**64 - 1
DEEPEST_OUTPUT = 64
LONGEST_LINE = 2**28

_NUMBER = "(?:0|[1-9][0-9]{0,19})"
_OUTPUT = r"[0-9A-Za-z(),\[\]]+"
# A part of an output that was checked before is replaced by #.
_PART = f"(?:#|{_NUMBER})"
_SHORT_OUTPUT = re.compile(rf"{_NUMBER}|\({_NUMBER},{_NUMBER}\)")
_INNERMOST = re.compile(rf"\({_PART},{_PART}\)|(?:Left|Right)\({_PART}\)|\[(?:{_PART}(?:,{_PART})*+)?\]")
_WHOLE_OUTPUT = re.compile(_PART)
_TWENTY_DIGITS = re.compile("[0-9]{20}")
_ATTEMPT = re.compile(rb"\nattempt \d+ (\d+)\.\.(?:(\d+) (ok|err) (\d+))?")
_BEGIN = re.compile(rb"\nattempt \d+ (\d+)")
_END = re.compile(rb"\nend (\w+)(?: (\S+))? at (\d+) polls ")


@dataclasses.dataclass(slots=True)
class Job:
    """A job's first line."""
    name: str
    mode: str


@dataclasses.dataclass(slots=True)
class Attempt:
    """An attempt with its step. One that runs at the horizon has no end and no value; `out` is None if the schedule
    wasn't stepped, and `next` if it wasn't stepped or is done; `waited` is the time since the end of the attempt
    before, and None for the first."""
    number: int
    begin: int
    end: int | None
    outcome: str
    value: int | None
    waited: int | None
    out: str | None = None
    next: int | None = None


@dataclasses.dataclass(slots=True)
class Ending:
    """A job's last line: succeeded and failed have a value, finished has an output, unfinished has neither."""
    how: str
    value: int | None
    out: str | None
    at: int
    polls: int

    def result(self):
        """The value or the output as text; empty if there is neither."""
        return self.out or ("" if self.value is None else str(self.value))


@dataclasses.dataclass(slots=True)
class Total:
    """The last line of a report."""
    polls: int


def is_output(text):
    """Whether a text is an output of a schedule: inner pairs, sides and lists are replaced until a number remains."""
    if len(text) < 20 and _SHORT_OUTPUT.fullmatch(text):
        return True
    if any(int(digits) > MOST for digits in _TWENTY_DIGITS.findall(text)):
        return False
    for _ in range(DEEPEST_OUTPUT):
        if _WHOLE_OUTPUT.fullmatch(text):
            return True
        text, found = _INNERMOST.subn("#", text)
        if not found:
            return False
    return False


def shown(text):
    """A line's beginning, for a message."""
    return ascii(text if len(text) <= 60 else text[:60] + "..")


class Reader:
    """What is known of a report between two of its lines. A fault has only the line's number; the caller that
    knows the file's name puts it before."""

    def __init__(self):
        self.line = self.polls = self.polls_of_all = self.latest = 0
        self.job = self.attempt = self.total = self.horizon = None
        self.is_step_due = False

    def take(self, text):
        """Takes the next line without its newline. Returns the record that is whole with it: an attempt, if no step
        is due after it, or with its step; an ending; the total; else None."""
        self.line += 1
        form, taker = _FORMS.get(text[:1], (None, None))
        match = form and form.fullmatch(text)
        if self.total is not None:
            self._refuse("is after the last line", text)
        if match is None:
            self._refuse("isn't a line of a report", text)
        return taker(self, match)

    def close(self):
        """Rejects a report that has no last line."""
        if self.line == 0:
            raise Refused("is empty, not a report")
        if self.total is None:
            raise Refused(f"ends after line {self.line}, but {self._due()} is expected, "
                          "and there is no last line 'polls TOTAL'")

    def _refuse(self, why, text):
        raise Refused(f"line {self.line} {why}: {shown(text)}")

    def _due(self):
        last = self.attempt
        if self.job is None:
            return "a job or the last line"
        if last is None:
            return "attempt 1 or an end"
        if self.is_step_due:
            return f"step {last.number}"
        return "an end" if last.next is None else f"attempt {last.number + 1} or an end"

    def _misplaced(self, match):
        self._refuse(f"is misplaced, expected {self._due()}", match[0])

    def _number(self, text, match):
        """A number of a line, which is at most 2^64 - 1."""
        if (number := int(text)) > MOST:
            self._refuse("has a number above 18446744073709551615", match[0])
        return number

    def _take_job(self, match):
        if self.job is not None:
            self._misplaced(match)
        self.job, self.attempt, self.polls = Job(match[1], match[2]), None, 0

    def _take_attempt(self, match):
        number, begin, end, outcome, value = match.groups()
        last, begin = self.attempt, int(begin)
        wanted = 1 if last is None else last.number + 1
        if self.job is None or (last is not None and last.next is None) or number != str(wanted):
            self._misplaced(match)
        waited = None if last is None else begin - last.end
        if last is not None and (waited < 0 or begin < last.next):
            self._refuse("begins before the schedule continues", match[0])
        self.polls += waited != 0
        if end is None:
            self.attempt = Attempt(wanted, self._number(begin, match), None, "running", None, waited)
            return self.attempt
        end = self._number(end, match)
        if end <= begin:
            self._refuse("ends before it began", match[0])
        self.polls += 1
        self.attempt = Attempt(wanted, begin, end, outcome, self._number(value, match), waited)
        self.is_step_due = outcome == _ASKS_AFTER[self.job.mode]
        return None if self.is_step_due else self.attempt

    def _take_step(self, match):
        number, out, following = match.groups()
        if not self.is_step_due or number != str(self.attempt.number):
            self._misplaced(match)
        if not is_output(out):
            self._refuse("has no output of a schedule", match[0])
        self.attempt.out, self.is_step_due = out, False
        self.attempt.next = None if following is None else self._number(following, match)
        return self.attempt

    def _take_end(self, match):
        if self.job is None or self.is_step_due:
            self._misplaced(match)
        ending = Ending(match[1] or ("finished" if match[3] else "unfinished"),
                        None if match[2] is None else self._number(match[2], match), match[3],
                        self._number(match[4], match), self._number(match[5], match))
        if ending.polls != self.polls:
            self._refuse(f"has other polls than its attempts, {self.polls}", match[0])
        if not self._is_ending_of_last(ending):
            self._refuse("is not the end of the attempts before it", match[0])
        # All unfinished jobs have one horizon, and no job ended after it.
        self.latest = max(self.latest, ending.at)
        if ending.how == "unfinished" and self.horizon not in [None, ending.at]:
            self._refuse(f"has another horizon than a job before it, {self.horizon}", match[0])
        self.horizon = ending.at if ending.how == "unfinished" else self.horizon
        if self.horizon is not None and self.latest > self.horizon:
            self._refuse(f"is at odds with a horizon of {self.horizon} and a job that ended at {self.latest}", match[0])
        self.polls_of_all += ending.polls
        self.job = None
        return ending

    def _is_ending_of_last(self, ending):
        last = self.attempt
        if ending.how == "unfinished":
            is_open = last is None or last.end is None or last.next is not None
            return is_open and (last is None or ending.at >= (last.begin if last.end is None else last.end))
        if last is None or last.end is None or last.next is not None or ending.at != last.end:
            return False
        if ending.how == "finished":
            return self.job.mode == "repeat" and last.outcome == "ok" and ending.out == last.out
        outcome = "ok" if ending.how == "succeeded" else "err"
        is_of_mode = self.job.mode == "retry" or ending.how == "failed"
        return is_of_mode and last.outcome == outcome and ending.value == last.value

    def _take_total(self, match):
        if self.job is not None:
            self._misplaced(match)
        if match[1] != str(self.polls_of_all):
            self._refuse(f"is not the sum of all polls, {self.polls_of_all}", match[0])
        self.total = Total(self.polls_of_all)
        return self.total


_ASKS_AFTER = {"retry": "err", "repeat": "ok"}
_FORMS = {
    "j": (re.compile("job ([A-Za-z0-9._-]{1,64}) (retry|repeat)"), Reader._take_job),
    "a": (re.compile(rf"attempt ({_NUMBER}) ({_NUMBER})\.\.(?:({_NUMBER}) (ok|err) ({_NUMBER})| running)"),
          Reader._take_attempt),
    "s": (re.compile(f"step ({_NUMBER}) out ({_OUTPUT}) (?:next ({_NUMBER})|done)"), Reader._take_step),
    "e": (re.compile(f"end (?:(succeeded|failed) ({_NUMBER})|finished ({_OUTPUT})|unfinished) at ({_NUMBER})"
                     f" polls ({_NUMBER})"), Reader._take_end),
    "p": (re.compile("polls (0|[1-9][0-9]*)"), Reader._take_total),
}


def text_lines(source):
    """The lines of an open text file, without their newlines. A line without one is rejected."""
    number = 0
    while line := source.readline(LONGEST_LINE):
        number += 1
        if line[-1] != "\n":
            if len(line) == LONGEST_LINE:
                raise Refused(f"line {number} is longer than {LONGEST_LINE - 1} characters")
            raise Refused(f"line {number} is cut, since no newline ends it: {shown(line)}")
        yield line[:-1]


def as_text(binary):
    """A binary file as text of single bytes, whose lines end only at byte 10."""
    return io.TextIOWrapper(binary, encoding="latin-1", newline="\n")


def records(file, progress=None):
    """The records of a report, a binary file, each with its job: attempts and ending of each job, and last the total
    without a job. The records before a fault are yielded before the fault is raised."""
    reader = Reader()
    with contextlib.closing(progress) if progress else contextlib.nullcontext():
        for text in text_lines(as_text(file)):
            if progress is not None:
                progress.add(len(text) + 1)
            job = reader.job
            if (record := reader.take(text)) is not None:
                yield job, record
    reader.close()


def joined(reports):
    """The report of all jobs, from those of the plans that have them in order."""
    bodies, totals = zip(*(re.fullmatch(rb"(.*\n|)polls (\d+)\n", report, re.S).groups() for report in reports))
    return b"".join(bodies) + b"polls %d\n" % sum(map(int, totals))


def whole_block(block):
    """The report of one job, from its block."""
    polls = re.search(rb"(?m)^end .* polls (\d+)$", block)[1]
    return re.sub(rb"(?m)^polls \d+\n", b"", block).rstrip(b"\n") + b"\npolls %b\n" % polls


def blocks_of(report):
    """The jobs of a report's bytes, each from its first line on; the last one with the total."""
    begin = 0
    while begin >= 0:
        end = report.find(b"\njob ", begin)
        yield report[begin:end if end >= 0 else len(report)]
        begin = end + 1 if end >= 0 else end


def attempts_in(block):
    """The attempts of a job's bytes: begin, end, ok or err, and value, all as texts. Only the begin of one that runs at
    the horizon isn't empty."""
    return _ATTEMPT.findall(block)


def begins_in(block):
    """The moments at which the attempts of a job's bytes begin."""
    return array("Q", map(int, _BEGIN.findall(block)))


def ending_in(block):
    """How a job's bytes end: the word, the value or the output as a text (or empty), and the moment; or None."""
    found = _END.search(block, max(0, block.rfind(b"\nend ")))
    return found and (found[1].decode(), (found[2] or b"").decode(), int(found[3]))
