"""The command zsched-follows: whether a service's attempts, as its log has them, follow a policy, by the decisions of
the library or of the program after each attempt."""
import collections
import contextlib
import itertools
import json
import math
import sys
from typing import NamedTuple

from zsched_tools import call_log, command, drawn, program
from zsched_tools.call_log import Notes, in_ms
from zsched_tools.command import Refused
from zsched_tools.decisions import TOGETHER, Decisions, find_library
from zsched_tools.durations import duration_argument
from zsched_tools.progress import Progress
from zsched_tools.settings import add_allowed, not_covered
from zsched_tools.words import WIDTH, duration, plural, shown

TOOL = "zsched-follows"
DESCRIPTION = """Says whether a service follows its retry policy: compares each attempt of a log with what the policy
decides.

  $ zsched-follows log.csv --schedule '(exponential(100) && recurs(5))'
  order-17: attempt 3: 80 ms early, at 260 ms and not 340 ms
  40 requests, 83 attempts: 1 early, in 1 request

early    the attempt begins before the policy's moment, by more than --tolerance; of random waits before the least draw
late     .. after it, by more than --tolerance; of random waits after the greatest draw
long     the attempt goes on after the policy's limit of an attempt or of the call, by more than --tolerance
extra    the policy gave up before it, the request had ended, or the limit of the call had passed
missing  the attempt never comes, and both the log and the call go on after its moment

The tolerance is at most half of the wait or limit that it is applied to. Attempts whose least wait is so short that
even one at once isn't early, and rows that are given twice, are counted.

LOG is CSV, JSON lines, Envoy's access log, or the JSON of spans of OpenTelemetry or Jaeger; - is standard input. It has
an attempt a row, in any order: its request, its status, and two of its begin, its end and its length. Columns are found
by their names, as request_id, timestamp, duration_ms, status; standard error says how each is read. Moments are RFC
3339 or numbers: seconds, milliseconds, microseconds or nanoseconds since 1970, known by their size. Without an end and
a length an attempt takes no time. A status of 400 or more is an error, and so are 0 (no response), error and timeout.
Attempts of spans are those of one parent: spans of the kind client, else those without spans below them. A parent or a
trace_id makes a request of each endpoint that it calls: method, server and path. Rows of several endpoints with one
other request are an error: --endpoint takes one, and --name a,b says which columns together are the request.
docs/FORMATS.md has the names of columns and all rules.

The decisions are those of the proved library, libzsched, which steps the policy at the moments at which the log's
attempts ended, so after an early or a late attempt the policy goes on from that attempt's own end. All moments count
from the begin of the request's first attempt, in whole milliseconds. Without the library, which ZSCHED_LIBRARY names or
a release installs, the program decides by runs of jobs, which takes longer, and requests have at most 999 attempts."""
EPILOG = """Exit status: 0 if all attempts follow; 1 if one differs; 2 if the log, the policy or an option is wrong,
with file, row and column on standard error, or if there is no program; 3 if reading, writing or the program fails."""
KINDS = ["early", "late", "long", "extra", "missing"]


class Attempt(NamedTuple):
    """An attempt: begin and end in milliseconds from the begin of the request's first one, and how it ended."""
    begin: int
    end: int
    is_ok: bool
    code: int


class Difference(NamedTuple):
    """An attempt that isn't where the policy has it. Moments count from the request's first attempt."""
    request: str
    attempt: int
    kind: str
    expected_ms: int | None
    found_ms: int | None
    why: str

    def line(self):
        if self.kind == "extra":
            what = f"extra, at {duration(self.found_ms)}: {self.why}"
        elif self.kind == "missing":
            what = f"missing, expected at {duration(self.expected_ms)}: {self.why}"
        elif self.kind == "long":
            what = f"long, up to {duration(self.found_ms)} and not {duration(self.expected_ms)}: {self.why}"
        else:
            off = duration(abs(self.found_ms - self.expected_ms))
            what = f"{off} {self.kind}, at {duration(self.found_ms)} and not {duration(self.expected_ms)}{self.why}"
        return f"{self.request}: attempt {self.attempt}: {what}"


class Rule(NamedTuple):
    """What attempts are compared with, beside the waits: the mode, the tolerance, the limits of an attempt and of the
    call, whether waits may be shorter than the least, and whether others may follow those of the schedule."""
    mode: str
    tolerance: int
    attempt: int | float
    call: int | float
    is_less: bool
    is_cut: bool

    def slack(self, wait):
        """How far an attempt may be from the end of a wait: half of that at most."""
        return min(self.tolerance, math.ceil(wait / 2)) if 0 < wait < math.inf else self.tolerance

    def ranges(self, least, most):
        """The least and the greatest wait after each attempt, or None."""
        return [wait if wait is None else (0 if self.is_less else low, wait) for low, wait in zip(least, most)]

    def is_last(self, attempt):
        """Whether an attempt's outcome ends its request: a success under retry, an error under repeat."""
        return attempt.is_ok == (self.mode == "retry")

    def over(self, name, number, attempt):
        """The difference of an attempt that goes on after a limit, if it does."""
        limits = [(attempt.begin, self.attempt, "an attempt"), (0, self.call, "the call")]
        begin, limit, what = min(limits, key=lambda it: it[0] + it[1])
        if attempt.end > begin + limit + self.slack(limit):
            why = f"the limit of {what} is {duration(limit)}"
            yield Difference(name, number, "long", begin + limit, attempt.end, why)


def rule_of(policy, given):
    """The rule of a policy that was read, and of the options of a command."""
    limits = [it or math.inf for it in (policy.timeout, policy.deadline)]
    return Rule(given.mode, given.tolerance, *limits, *policy.ends()[2:])


def summary(counts):
    """What was compared, and the number of differences of each kind, in words."""
    head = f"{plural(counts['requests'], 'request')}, {plural(counts['attempts'], 'attempt')}"
    head += f" ({counts['twice']} given twice)" if counts["twice"] else ""
    parts = [f"{counts[kind]} {kind}" for kind in KINDS if counts[kind]]
    found = f"{', '.join(parts)}, in {plural(counts['differing'], 'request')}"
    rest = f"; {counts['never_early']} can't be early, since the least wait is at most 1 ms"
    return f"{head}: {found if parts else 'all follow the policy'}{rest if counts['never_early'] else ''}"


def differences(log, schedules, rule, given, counts):
    """The differences of a log's attempts from the schedules of a policy's least and greatest waits. `counts` gets the
    numbers of requests, of attempts, of differences of each kind, of requests that have one, of attempts that are given
    twice, and of those that can't be early."""
    library = find_library()
    decisions = {it: Decisions(it, rule.mode, given.zsched, library) for it in schedules}
    latest = max(log.latest, max(map(sum, zip(log.begins, (length or 0 for length in log.lengths)))))
    requests = log.requests()
    with contextlib.closing(Progress(TOOL, lambda done: f"compares: {done:,} requests")) as progress:
        while group := [(name, calls[0].begin, _attempts(calls, log, counts, progress)) for name, calls in
                        itertools.islice(requests, TOGETHER)]:
            waits = {it: [[] for _ in group] for it in decisions}
            for it, found in waits.items():
                decisions[it].run(_asked(attempts, rule, into) for (_, _, attempts), into in zip(group, found))
            for (name, begin, attempts), *both in zip(group, *(waits[it] for it in schedules)):
                ranges = rule.ranges(*both)
                found = list(_differences(name, attempts, rule, ranges, in_ms(latest - begin), counts))
                counts.update(requests=1, attempts=len(attempts), differing=int(bool(found)))
                counts.update(it.kind for it in found)
                if found:
                    progress.close()
                yield from found
            progress.add(len(group))


def _attempts(calls, log, counts, progress):
    """The attempts of a request's calls. The first row of a log that is given twice is named."""
    for one, other in itertools.pairwise(calls):
        if one.mark == other.mark:
            if not counts["twice"]:
                progress.close()
                place = f"{log.path}:{log.word}{other.row}"
                command.note(f"{place}: this row is given twice, also in {log.word or 'row '}{one.row}", TOOL)
            counts["twice"] += 1
    first = calls[0].begin
    return [Attempt(in_ms(call.begin - first), in_ms(call.begin - first + (call.length or 0)), call.is_ok, call.code)
            for call in calls]


def _asked(attempts, rule, waits):
    """Asks for the wait after each attempt before the first that ends the request, until the policy gives up. The
    moments are the ends of the attempts, from 1 on, each later than the one before."""
    moment = 0
    for attempt in attempts:
        if rule.is_last(attempt) or None in waits[-1:]:
            return
        moment = max(attempt.end - attempts[0].end + 1, moment + 1)
        waits.append((yield moment, attempt.code))


def _differences(name, found, rule, ranges, ends, counts):
    """The differences of a request. The log goes on up to `ends`. `counts` gets the attempts that can't be early."""
    stopped = None

    def wait_after(number):
        """The least and the greatest wait after an attempt, or None."""
        return (ranges[number - 1] if number <= len(ranges) else None) or ((0, math.inf) if rule.is_cut else None)
    for number, attempt in enumerate(found, 1):
        if number > 1 and stopped is None:
            waits, before = wait_after(number - 1), found[number - 2].end
            counts["never_early"] += waits is not None and waits[0] <= rule.slack(waits[0])
            if waits is None:
                stopped = f"the policy gave up after attempt {number - 1}"
            elif attempt.begin > rule.call + rule.slack(rule.call):
                stopped = f"the limit of the call is {duration(rule.call)}"
            elif attempt.begin < before + waits[0] - rule.slack(waits[0]):
                why = " or later" * (waits[0] < waits[1])
                yield Difference(name, number, "early", before + waits[0], attempt.begin, why)
            elif attempt.begin > before + waits[1] + rule.slack(waits[1]):
                why = " or earlier" * (waits[0] < waits[1])
                yield Difference(name, number, "late", before + waits[1], attempt.begin, why)
        if stopped is not None:
            yield Difference(name, number, "extra", None, attempt.begin, stopped)
            continue
        yield from rule.over(name, number, attempt)
        if rule.is_last(attempt):
            stopped = f"attempt {number} {'succeeded' if attempt.is_ok else 'failed'}"
    waits = wait_after(len(found)) if stopped is None else None
    expected = found[-1].end + waits[1] if waits else math.inf
    if expected + rule.slack(waits[1] if waits else 0) < ends and expected < rule.call:
        why = f"the log goes on up to {duration(ends)}"
        yield Difference(name, len(found) + 1, "missing", expected, None, why)


def work(given):
    given.zsched = program.find(given.zsched)
    name = "standard input" if given.log == "-" else given.log
    data = command.read(given.log)
    policy = drawn.check_schedule(TOOL, given)
    notes = Notes()
    log = call_log.Reader(TOOL, shown(name, WIDTH), data, given, notes)
    del data
    if not log.has_moments:
        raise Refused(f"{log.path}:1: no known column has the moments of attempts: --begin COLUMN names it")
    told = log.told if log.has_lengths else f"{log.told}; no column has an end or a length: attempts take no time"
    command.note(f"{log.path}: {told}", TOOL)
    for place, text in notes.lines():
        command.note(f"{log.path}:{log.word}{place}: {text}", TOOL)
    counts, paint = collections.Counter(), command.Paint(given.color, sys.stdout)
    found = differences(log, policy.ends()[:2], rule_of(policy, given), given, counts)
    if given.json:
        listed = [dict(zip(Difference._fields[:-1], it)) for it in found]
        keys = ["requests", "attempts", "twice", "never_early", *KINDS]
        print(json.dumps({key: counts[key] for key in keys} | {"differences": listed} | policy.limits()))
    else:
        for difference in found:
            print(shown(difference.line(), 10 * WIDTH))
        print(paint("bad" if counts["differing"] else "good", summary(counts)))
    lines = not_covered(given.allow_left_out, [policy], "follows")
    for line in lines:
        print(f"{TOOL}: {line}", file=sys.stderr)
    return command.NO if counts["differing"] or lines else 0


def arguments():
    parser = command.parser(TOOL, DESCRIPTION, EPILOG)
    parser.add_argument("log", metavar="LOG", help="the log's file; - for standard input")
    parser.add_argument("--schedule", metavar="POLICY", required=True,
                        help="a schedule, or a text that zsched-try takes")
    parser.add_argument("--mode", choices=["retry", "repeat"],
                        help="the policy runs again after each error (retry) or after each success (repeat); as the "
                             "policy says, or else retry")
    parser.add_argument("--tolerance", type=duration_argument, default=50, metavar="TIME",
                        help="how far from its moment an attempt may begin (50ms): at most half of its wait")
    add_allowed(parser)
    parser.add_argument("--json", action="store_true", help="print one object")
    call_log.add_options(parser.add_argument_group("columns"))
    command.add_programs(parser)
    return command.complete(parser)


main = command.main(arguments, work)
