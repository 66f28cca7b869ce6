"""zsched-plan from: a log of calls (CSV, JSON) or a policy file (YAML, TOML) as a plan.

The program checks the plan, with the horizon 0, so that nothing is simulated. A fault that it finds is shown at its
place in the file that was read. From a log it learns when the service failed and when it served, and what it would have
answered another policy. A moment between two attempts has the state of the one before. All moments are milliseconds
from the log's first attempt."""
import argparse
import array
import bisect
import collections
import contextlib
import io
import itertools
import json
import pathlib
import re
import sys
from fractions import Fraction
from typing import NamedTuple

from zsched_tools import call_log, command, faults, program
from zsched_tools.call_log import Notes
from zsched_tools.command import Refused
from zsched_tools.decisions import TOGETHER, Decisions, find_library
from zsched_tools.drawn import check_schedule
from zsched_tools.durations import exact_milliseconds
from zsched_tools.outage.scenario import DEFAULTS, Outcome
from zsched_tools.place import FaultAt, line_of, told
from zsched_tools.plan.placed import Written
from zsched_tools.plan.policy_file import read_toml, read_yaml
from zsched_tools.plan.policy_plan import Names, is_allowed, plan_of, whole
from zsched_tools.program import LAST_MOMENT, MOST_ENTRIES, MOST_JOBS, job_text
from zsched_tools.progress import Progress
from zsched_tools.words import WIDTH, duration, plural, shown

READERS = {".yaml": read_yaml, ".yml": read_yaml, ".toml": read_toml}
LOGS = (".csv", ".tsv", ".jsonl", ".ndjson", ".json")
HOUR = 3_600_000
# A horizon that is in range: fifteen digits at most.
_HORIZON = re.compile(r'("horizon":)([0-9]{1,15})(?![0-9.eE])')
ABOUT = """Converts FILE to a plan, and writes it to standard output.

  zsched-plan from log.csv --schedule '(exponential(100) && recurs(5))' > plan.json

A log (.csv, .tsv, .jsonl, .ndjson; .json for a list, or spans of OpenTelemetry or Jaeger) has an attempt a row, in any
order: its request, its begin, its length or end, and its status. Columns are found by their names, as request_id,
timestamp, duration_ms, status; standard error says how each is read, and docs/FORMATS.md has all rules. Without a
length an attempt lasts until the next of its request.

Each request becomes a job, which starts at its first attempt. The plan says what the policy --schedule would have done:
an attempt that begins within 50 ms of one of its request's own ends as that one did. Another ends as the service did at
its moment, which all attempts of the log say: windows in which it failed, and others in which it served. Errors of 400
to 499, without 408, 425 and 429, are those of the request. Standard error says how sure that is: the longest gap
without an attempt. --windows makes a scenario for zsched-outage from the windows and the requests' starts. --by-attempt
assumes that a request's k-th attempt ends as the k-th in the log, whenever it begins.

A policy file (.yaml, .yml, .toml) has the keys of a plan. Durations may have units, as 1h or 40ms, and a script may be
a text, as '40 err 503 x3, 35 ok 200'. 'mode', 'start' and 'script' next to 'jobs' are the defaults of all jobs.
'policies' is a table of names and schedules: each becomes a job.

A name that a plan doesn't allow is changed. Lengths of time are rounded to whole milliseconds, at least 1. Standard
error reports both. YAML needs PyYAML (Debian: python3-yaml)."""
EPILOG = """Exit status: 0; 2 if FILE can't become a plan, with file, line and column on standard error, or if there is
no program; 3 if reading, writing or the program fails."""
# An attempt that begins this close to one of its request's own ends as that one did.
NEAR = 50
MOST_SHOWN = 5
# Errors of the request, which say nothing about the service; the others of HTTP's 4xx do.
_OF_SERVICE = {408, 425, 429}


class Request(NamedTuple):
    """A request: the name of its job, its start, and its own attempts with their begins."""
    name: str
    start: int
    own: list

    def near(self, place, moment):
        """How the request's own attempt of a moment ended, that of the place if it may be; or the error of the
        request before it; else None."""
        if place < len(self.own) and abs(self.own[place][0] - moment) <= NEAR:
            return self.own[place][1]
        begin, outcome = min(self.own, key=lambda own: abs(own[0] - moment))
        if abs(begin - moment) <= NEAR:
            return outcome
        before = [outcome for begin, outcome in self.own if begin < moment]
        return before[-1] if before and not tells_state(before[-1]) else None

    def asked(self, service, mode, horizon, script):
        """Asks for the wait after each attempt under a policy, and adds how it ends to the script. An attempt's moment
        says how it ends."""
        moment = self.start
        while moment <= horizon and len(script) < MOST_ENTRIES:
            outcome = self.near(len(script), moment) or service.at(moment)
            script.append(outcome)
            if outcome.is_ok == (mode == "retry") or moment + outcome.ms > horizon:
                return
            moment += outcome.ms
            wait = yield moment, outcome.value
            if wait is None:
                return
            moment += wait

    def job(self, schedule, mode, script):
        entries = ",".join(outcome.entry() for outcome in script)
        return job_text(self.name, schedule, entries, mode, self.start or None)


def tells_state(outcome):
    """Whether an outcome says that the service serves or fails, and not that the request is wrong."""
    return outcome.is_ok or not 400 <= outcome.value < 500 or outcome.value in _OF_SERVICE


class Requests:
    """The requests of a log, with names that a plan allows and lengths of whole milliseconds. `begins` and `outcomes`
    have their attempts, those of a request together."""

    def __init__(self, log, notes):
        self.names, self.counts, self.begins, self.outcomes = [], array.array("L"), array.array("q"), []
        self.last, names, known = 0, Names(notes), {}
        first = min(log.begins)
        names.taken.update(filter(is_allowed, set(log.names)))
        for name, calls in log.requests():
            if len(calls) > MOST_ENTRIES:
                raise Refused(f'{log.path}:{log.word}{calls[MOST_ENTRIES].row}: "{shown(name)}" has more than '
                              f"{MOST_ENTRIES} attempts")
            for call, after in zip(calls, [*calls[1:], None]):
                begin = call_log.in_ms(call.begin - first) if log.has_moments else 0
                if (length := call.length) is None:
                    length = after.begin - call.begin if after else 1_000_000
                ms, rest = divmod(length, 1_000_000)
                if rest or not ms:
                    ms = whole(Fraction(length, 1_000_000), f"{length / 1_000_000:g} ms", call.row, notes)
                outcome = Outcome(ms, call.is_ok, call.code)
                self.begins.append(begin)
                self.outcomes.append(known.setdefault(outcome, outcome))
                self.last = max(self.last, begin + ms)
            self.names.append(name if name in names.taken else names.clean(name, calls[0].row))
            self.counts.append(len(calls))

    def __iter__(self):
        for name, count, end in zip(self.names, self.counts, itertools.accumulate(self.counts)):
            own = list(zip(self.begins[end - count:end], self.outcomes[end - count:end]))
            yield Request(name, own[0][0], own)


class Service:
    """What the attempts of a log say of the service."""

    def __init__(self, begins, outcomes):
        order = sorted(range(len(begins)), key=begins.__getitem__)
        says = [at for at in order if tells_state(outcomes[at])]
        self.last, self.left_out = begins[order[-1]], len(order) - len(says)
        balance = collections.Counter()
        for at in says:
            balance[begins[at]] += 1 if outcomes[at].is_ok else -1
        # The moments of change, and whether the service serves from there on. If as many attempts of one moment fail
        # as succeed, it fails.
        self.changes, self.serves = [], []
        for begin in sorted(balance):
            if not self.serves or self.serves[-1] != (balance[begin] > 0):
                self.changes.append(begin)
                self.serves.append(balance[begin] > 0)
        pairs = itertools.pairwise(map(begins.__getitem__, order))
        self.gap = max(((after - before, before) for before, after in pairs), default=(0, 0))
        self.unlike = sum(self._serves_at(begins[at]) != outcomes[at].is_ok for at in says)
        self.up, self.down = (_usual([outcomes[at] for at in says if outcomes[at].is_ok == is_ok], default)
                              for is_ok, default in zip([True, False], DEFAULTS))

    def _serves_at(self, moment):
        place = bisect.bisect_right(self.changes, moment)
        return place == 0 or self.serves[place - 1]

    def at(self, moment):
        """How an attempt ends that begins at a moment."""
        return self.up if self._serves_at(moment) else self.down

    def windows(self):
        """The windows in which the service fails: begin and end. The last may have no end."""
        ends = [*self.changes[1:], None]
        return [(begin, end) for begin, end, serves in zip(self.changes, ends, self.serves) if not serves]

    def lines(self):
        """What was learned, and how sure it is, in lines."""
        found = [f"from {duration(begin)} " + ("on" if end is None else f"to {duration(end)}")
                 for begin, end in self.windows()]
        more = f" and {len(found) - MOST_SHOWN} more" if len(found) > MOST_SHOWN else ""
        yield f"the service failed {', '.join(found[:MOST_SHOWN])}{more}" if found else "the service never failed"
        length, begin = self.gap
        yield (f"the longest gap without an attempt is {duration(length)}, from {duration(begin)}; the service is "
               "taken to change when an attempt shows it")
        if self.left_out:
            verb = "has" if self.left_out == 1 else "have"
            yield (f"{plural(self.left_out, 'attempt')} {verb} an error of the request, 400 to 499, which says nothing "
                   "about the service")
        if self.unlike:
            yield f"{plural(self.unlike, 'attempt')} began in one millisecond with others that ended the other way"

    def scenario(self, requests, policy, horizon):
        """The scenario, as JSON. The first policy is named `policy`."""
        windows = ",".join(f'\n    {{"from": {begin}, ' + ("" if end is None else f'"to": {end}, ') + '"is": "down"}'
                           for begin, end in self.windows())
        starts = sorted(request.start for request in requests)
        return (f'{{\n  "horizon": {horizon},\n  "clients": {{"starts": {json.dumps(starts)}}},\n'
                f'  "windows": [{windows}],\n'
                f'  "outcomes": {{"up": {self.up.entry()}, "down": {self.down.entry()}}},\n'
                f'  "policies": {{"policy": {json.dumps(policy)}}}\n}}\n')


def _usual(outcomes, default):
    """The most frequent value of some outcomes with the length in the middle."""
    if not outcomes:
        return default
    value = collections.Counter(outcome.value for outcome in outcomes).most_common(1)[0][0]
    return Outcome(sorted(outcome.ms for outcome in outcomes)[len(outcomes) // 2], outcomes[0].is_ok, value)


class Source(NamedTuple):
    """What becomes a plan: its name and its text."""
    name: str
    text: str


def until(word):
    """The horizon of a plan that has no horizon."""
    length = exact_milliseconds(word)
    if length is None or length.denominator != 1 or length > LAST_MOMENT:
        raise argparse.ArgumentTypeError(f"{word} is not a duration: write 60000, 90s or 1h")
    return int(length)


def convert(given):
    """Writes the plan of a file, or the scenario of a log."""
    suffix = pathlib.Path(given.file).suffix.lower()
    given.data = command.read("-") if given.file == "-" else None
    if given.data is None and suffix not in [*READERS, *LOGS]:
        command.read(given.file)
        raise Refused(f"{given.file}: the name must end with one of {', '.join([*LOGS, *READERS])}")
    if given.data is not None:
        is_toml = re.search(rb"\A(?:\s|#.*\n)*(?:\[|[\w\"'-]+\s*=)", given.data)
        suffix = LOGS[0] if given.schedule is not None else ".toml" if is_toml else ".yaml"
        given.file = "standard input"
    is_log = suffix in LOGS
    if is_log and given.schedule is None:
        raise Refused(f"{given.file}: a log needs --schedule, as --schedule 'recurs(3)'")
    if not is_log and given.schedule is not None:
        raise Refused(f"{given.file}: --schedule is for a log; write the schedule into the file")
    given.data = command.read(given.file) if given.data is None else given.data
    pieces, jobs = _of_log(given) if is_log else _of_policies(given, READERS[suffix])
    data = io.BytesIO()
    for piece in pieces:
        data.write(piece.encode())
    if jobs > MOST_JOBS or data.tell() > program.MAX_BYTES:
        _say(f"the plan has {jobs} jobs and {data.tell()} bytes, and one run takes {MOST_JOBS} and "
             f"{program.MAX_BYTES}: docs/SCALE.md runs it as JSON lines")
    if given.out in (None, "-"):
        data.seek(0)
        sys.stdout.writelines(io.TextIOWrapper(data, "utf-8", newline="\n"))
    else:
        command.write(given.out, data.getbuffer())


def _say(text):
    command.note(text, "zsched-plan")


def _report(notes, path, line):
    """Reports the changes. `line` returns the line of a place."""
    for place, text in notes.lines():
        _say(f"{shown(path, WIDTH)}:{line(place)}: {text}")


def _of_log(given):
    """The pieces of the plan or the scenario of a log, and how many jobs it has."""
    check_schedule("zsched-plan", given)
    notes = Notes()
    log = call_log.Reader("zsched-plan", shown(given.file, WIDTH), given.data, given, notes)
    given.data = None
    if not log.has_moments and (given.windows or not log.has_lengths):
        what = "moments" if given.windows else "moments or the lengths"
        option = "--begin" if given.windows else "--begin or --time"
        raise Refused(f"{log.path}:1: no known column has the {what} of attempts: {option} COLUMN names it")
    if log.has_moments and not log.has_lengths:
        _say(f"{log.path}: no column has an end or a length: an attempt lasts until the next of its request")
    requests = Requests(log, notes)
    if log.has_moments:
        _say(f"{log.path}: {log.told}")
    _report(notes, f"{given.file}:{log.word}" if log.word else given.file, int)
    horizon = (requests.last if log.has_moments else 0) + HOUR if given.until is None else given.until
    if log.has_moments and not given.by_attempt:
        service = Service(requests.begins, requests.outcomes)
        for line in service.lines():
            _say(f"{log.path}: {line}")
        if given.windows:
            return [service.scenario(requests, given.schedule, horizon)], 0
        jobs = _jobs(given, log.path, service, requests, horizon)
    else:
        _say(f"{log.path}: a request's k-th attempt is assumed to end as the k-th in the log, whenever it begins; "
             "after the last, as the last" + ("" if log.has_moments else "; no column has the moments of attempts"))
        jobs = (it.job(given.schedule, given.mode, [outcome for _, outcome in it.own]) for it in requests)
    comma = itertools.chain([""], itertools.repeat(",\n"))
    pieces = itertools.chain([f'{{"horizon":{horizon},"jobs":[\n'], map("".join, zip(comma, jobs)), ["\n]}\n"])
    return pieces, len(requests.names)


def _jobs(given, path, service, requests, horizon):
    """The jobs of the requests under the schedule, by the moments of their attempts."""
    decisions = Decisions(given.schedule, given.mode, program.find(given.zsched), find_library())
    too_long, rest, count = [], iter(requests), len(requests.names)
    with contextlib.closing(Progress(
            "zsched-plan", lambda done: f"decides: {done:,} requests of {count:,}")) as progress:
        while group := [(request, []) for request in itertools.islice(rest, TOGETHER)]:
            decisions.run(request.asked(service, given.mode, horizon, script) for request, script in group)
            for request, script in group:
                if len(script) == MOST_ENTRIES and script[-1].is_ok == (given.mode == "repeat"):
                    too_long.append(request.name)
                yield request.job(given.schedule, given.mode, script or [service.at(request.start)])
            progress.add(len(group))
    if too_long:
        _say(f"{plural(len(too_long), 'job')}, {too_long[0]} the first, have more than {MOST_ENTRIES} attempts: after "
             "these the last one repeats")
    _say(f"{path}: an attempt within {NEAR} ms of one of its request's own ends as that one, others as the service did "
         f"at their moment; after {duration(service.last)}, the log's last attempt, as at that one")


def _of_policies(given, read):
    """The pieces of the plan of a policy file, and how many jobs it has."""
    notes = Notes()
    try:
        source = Source(given.file, given.data.decode("utf-8-sig"))
        with command.budget(given.file):
            root = plan_of(read(source.text), HOUR if given.until is None else given.until, notes)
            plan = Written(root)
    except UnicodeDecodeError as fault:
        line = given.data.count(b"\n", 0, fault.start) + 1
        raise Refused(f"{given.file}:{line}: the text is not UTF-8") from None
    except FaultAt as fault:
        raise Refused(*told(*source, fault.cause)) from None
    jobs = root.data.get("jobs")
    count = len(jobs.data) if jobs is not None and isinstance(jobs.data, list) else 0
    if count <= MOST_JOBS and len(plan.text.encode()) <= program.MAX_BYTES:
        check(source, plan, given.zsched, count)
    _report(notes, given.file, lambda at: line_of(source.text, at))
    return [plan.text], count


def check(source, plan, zsched, jobs=1):
    """Runs the program to check a plan of some jobs. A fault is shown at its place in the source."""
    found = program.find(zsched)
    data = _HORIZON.sub(lambda it: it[1] + "0".ljust(len(it[2])), plan.text, 1).encode()
    status, _, errors = program.report_of(found, data, jobs)
    line = errors.decode(errors="replace").strip().removeprefix("zsched: ")
    if status == 2:
        fault = faults.explained(faults.Plan(data), line)
        at, is_letter = plan.place(fault.cause.at)
        cause = fault.cause._replace(at=at, size=fault.cause.size if is_letter else 1)
        raise Refused(*told(*source, cause, fault.name))
    if status:
        raise OSError(f"{found}: {line or f'status {status}'}")
