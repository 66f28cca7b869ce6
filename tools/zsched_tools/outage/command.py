"""The command zsched-outage: simulates many clients in an outage, and the program confirms each run."""
import argparse
import pathlib
import sys

from zsched_tools import command, plan_size, program, words
from zsched_tools.command import REFUSED, Paint, Refused
from zsched_tools.drawn import HIGH, LOW
from zsched_tools.durations import duration_argument
from zsched_tools.outage.certificate import Uncertified, certified, simulated
from zsched_tools.outage.curve import Figures, headline, policy_lines, table, to_json
from zsched_tools.outage.panels import curve_page, draw_curves
from zsched_tools.outage.scenario import DOWN, in_text, read_scenario
from zsched_tools.outage.search import FIRST_LOOK, Schedules, Search, Unsettled, name_of
from zsched_tools.place import Cause, FaultAt, in_file, tell
from zsched_tools.program import MOST_JOBS, cut_plans
from zsched_tools.progress import Now
from zsched_tools.reports import joined
from zsched_tools.settings import add_allowed, not_covered
from zsched_tools.words import duration, plural

TOOL = "zsched-outage"
MOST_PASSES = 50
DESCRIPTION = """Simulates many clients, each with a retry policy, in an outage: a service that is down, slow or full.
Prints a table with a column for each policy: attempts, peaks of load, times to success, and the number of clients that
gave up.

  zsched-outage outage.json
  zsched-outage outage.json -o outage --html outage.html
  zsched-outage outage.json --max-peak 200/100ms --max-recovery 1min --max-gave-up 0

A scenario is a JSON object. A time is a whole number of milliseconds or a text, as "1.5s" or "3min".

  {
    "horizon": "3min",
    "seed": 1,
    "clients": { "number": 10000, "within": "1s" },
    "windows": [
      { "from": "0s", "to": "30s", "is": "down" },
      { "from": "30s", "capacity": 2000 }
    ],
    "outcomes": { "up": { "ms": 40, "ok": 200 }, "down": { "ms": 50, "err": 503 } },
    "policies": {
      "backoff": "exponential(100)",
      "spread": "exponential(rand(50, 150))",
      "jitter": "jitter(100, 5000, 24)"
    }
  }

clients    "number" is how many. They start all at once, evenly "within" a time, or at a rate "per_second"; the first
           starts at "start" (0). Client i, from 0, starts at start + within * i / number, or at start + 1000 * i /
           per_second, rounded down. {"starts": [0, 120, "1.5s"]} has the start of each instead.
windows    in order, without overlap. "is" is "down", "slow" or "up" (default). "capacity" is the most attempts that the
           service serves of those that begin in one second of the window, or in each time "per", as "100ms"; for the
           others it is full. Without "to" a window has no end. At all other times the service is up.
outcomes   how an attempt ends if the service is "up", "down", "slow" or "full" when it begins, as an entry of a plan's
           script. Defaults: 40 ms ok 200, 50 ms err 503, 2000 ms ok 200; full as down. What is drawn depends on the
           seed, the client and the number of the attempt alone.
           {"ms": {"p50": 80, "p99": 600}, "ok": 200, "fail": "10%"}: a log-normal duration with these percentiles, and
           a tenth of the attempts ends as if the service were down.
           [{"share": "5%", "ms": 20, "err": 429, "retry_after": "2s"}, {"ms": 50, "err": 503}]: outcomes with shares,
           of which one may be left out. A client waits for "retry_after" if its policy has the setting `asked 10s`, and
           that isn't less.
budget     a limit of retries that all clients of a policy share; a bucket of tokens is full at the start.
           {"like": "grpc", "tokens": 100, "ok": 0.1}: a failure takes a token, and a success returns "ok" tokens. A
           client retries only if more than half of the tokens remain.
           {"like": "aws", "tokens": 500, "retry": 5, "ok": 1}: a retry takes "retry" tokens, and returns them if it is
           served. A first attempt that is served returns "ok" tokens.
           {"like": "envoy", "percent": 20, "least": 3}: retries, from when they are allowed until they end, are at most
           this share of the attempts that run, or "least".
           {"like": "finagle", "percent": 20, "per_second": 10, "ttl": "10s"}: within "ttl", retries are at most this
           share of the clients that start, and "per_second" more.
           A client that may not retry fails with the code "err" (0).
policies   schedules by name, or other texts that zsched-try takes, as "(exponential(100) && recurs(9)) jitter full" and
           "@service.yaml#checkout". rand(LO, HI) is a number drawn once for each client. jitter(BASE, CAP, N) is a
           schedule of N delays, the k-th drawn from 0 to the smaller of CAP and BASE * 2^(k - 1). The same seed gives
           the same bytes. After a schedule or @FILE#NAME come settings, as in "spaced(100) call 3s attempt 1s on 5xx".
           With `mode repeat` a client, as a poller, goes on after each success, and gives up at the first failure.
           An attempt that is longer than its limit fails then, as if the service were down. At the limit of its call a
           client gives up. An error that isn't retried ends a call. What isn't applied of a policy is named, and
           --max-.. pass over it only with --allow-left-out NAME.

How a run is simulated: the proved program first runs all clients as if the service served no attempt. The moment at
which an attempt begins sets its outcome. The program runs the clients again until no outcome changes. Only the program
steps schedules. At one millisecond, attempts end before others begin, and clients are in the order of their numbers.
The last run is the certificate: every ending, number of attempts and outcome in it must be the simulated one.

A plan has no room for a client of more than 1,000 attempts of which those from the 1,000th on end in different ways. It
is simulated as if each of these ended as the 1,000th, until it is served. It is in no plan and in no report, and isn't
certified. The table has the share of the clients that is certified, and below it are the names of some others.

A peak is the most attempts that begin within 100 ms, within a second from any moment, and within a second of the clock.
Times to success are of all clients: one that is never served counts as endless, and a time that isn't known is a dash.
Times to the end and waits in all are of the calls that ended, and of those that were served; an unfinished call counts
as endless. Recovery is the time from the end of the last window that is down to the last success of a client whose
first attempt failed; if one of these is never served, the table has their number. Few attempts and low peaks are also
those of clients that give up, so the first row says how many were served."""
FILES = """With -o FOLDER, for each policy: NAME.json (the plan), NAME.report (its certified report) and NAME.csv
(second, begun, ok, err, running: attempts that began and ended in each second, and those that run when it ends). A plan
of more than 10,000 jobs or 16,777,216 bytes is written as JSON lines for zsched-population, NAME.jsonl. Standard error
says so before the plan runs. A job goes on after the limit of its call: it is certified up to that."""
EPILOG = FILES + """

Exit status: 0; 1 if a policy exceeds a limit --max-.., if a scenario doesn't settle (with the open clients), or if a
report isn't the simulated run (with the job, the policy and both endings); 2 if the scenario or an argument is wrong,
with file, line and column on standard error, or if there is no program; 3 if reading, writing or the program fails."""


def _check_policies(scenario, zsched):
    """Runs the program to check the schedule of each policy. FaultAt has the place in the scenario."""
    for policy, node in scenario.policies.values():
        policy.zsched = zsched
        try:
            if policy.mode == "repeat" and (policy.on or scenario.budget):
                what = "the errors that are retried are" if policy.on else "a budget of retries is"
                raise FaultAt(Cause(0, len(policy.text), f"{what} of the mode retry"))
            policy.schedule(HIGH)
            policy.show(TOOL, "outage")
            policy.check(zsched)
        except FaultAt as fault:
            raise FaultAt(in_text(node, fault.cause)) from None


def simulate(scenario, zsched, name, most_passes, say, is_kept=True):
    """The run of one policy: its jobs, plans and reports, none if they aren't kept, and its figures. `say` is called at
    each step with the share that is done and a line. It raises Unsettled or Uncertified."""
    asked = max(it.asks for it in scenario.each())
    scenario = scenario.limited(scenario.policies[name][0])
    policy, codes = scenario.policies[name][0], scenario.errors()
    if policy.mode != "repeat" and not any(map(policy.retries, codes)):
        command.note(f"policy {name}: it retries no error of this service, {', '.join(map(str, sorted(codes)))}", TOOL)
    if policy.mode != "repeat" and asked > (policy.asked or 0):
        command.note(f"policy {name}: it makes no wait of {duration(asked)} that the service asks for, since its limit "
                     f"`asked` {'is ' + duration(policy.asked) if policy.asked else 'has no time'}", TOOL)
    schedules, firsts = (Schedules(scenario, name, most) for most in [None, FIRST_LOOK])
    warn_of_lines(name, schedules)
    jobs, reports, clients, others = [], [], [], []
    try:
        search = Search(scenario, zsched, schedules, most_passes, firsts)
        walk = search.settle(say)

        def read(numbers, of_part, made):
            has_job = [number for number, it in zip(numbers, of_part) if it]
            found = dict(zip(has_job, certified(scenario, search.runs, walk, has_job, made)))
            of_clients = [found.get(number) or simulated(scenario, number, search.runs[number], walk.found[number],
                                                         walk.endings[number]) for number in numbers]
            return (of_clients, [number for number in numbers if number not in found],
                    *(([*filter(None, of_part)], made) if is_kept else ([], [])))
        for part in search.final(walk, read):
            for whole, of_part in zip([clients, others, jobs, reports], part):
                whole += of_part
            say(len(clients) / len(schedules), "the certificate")
    except (Unsettled, Uncertified) as failed:
        raise type(failed)(f"policy {name}: {failed}") from None
    passes, plans = search.passes + 1, cut_plans(scenario.horizon, jobs)[0] if is_kept else []
    del search, walk
    text = policy.source + policy.typed()
    return jobs, plans, reports, Figures(scenario, text, clients, list(map(name_of, others)), passes)


def write_files(folder, name, horizon, found):
    jobs, plans, reports, figures = found
    if len(plans) == 1:
        command.write(folder / f"{name}.json", plans[0])
    else:
        command.write(folder / f"{name}.jsonl", "".join(f"{line}\n" for line in [f'{{"horizon":{horizon}}}', *jobs]))
    command.write(folder / f"{name}.report", joined(reports))
    command.write(folder / f"{name}.csv", figures.curve.csv())


def warn_of_attempts(scenario, name, color):
    """Warns, before a policy runs, if its attempts may be many: those of the least waits until it is up for good."""
    policy, starts = scenario.policies[name][0], scenario.starts
    end = max((it.end for it in scenario.windows if it.state or it.capacity is not None), default=0)
    time = max(0, min(scenario.horizon, end) - min(starts))
    failed = scenario.limited(policy).outcomes[DOWN].choices[0].outcome
    plan = program.one_job(min(time, policy.deadline or time), policy.schedule(LOW), failed.entry())
    many = plan_size.warning(plan, times=len(starts))
    plan_size.warn(TOOL, many and f"policy {name}: {many}", color)


def warn_of_lines(name, schedules):
    """Warns, before a policy runs, if its jobs exceed one plan; it checks only the schedules of the clients."""
    count, size = len(schedules), schedules.size()
    if count > MOST_JOBS or size > program.MAX_BYTES:
        about = "" if schedules.only else "about "
        command.note(f"policy {name}: {count:,} jobs with schedules of {about}{size:,} bytes are more than one plan of "
                     f"{MOST_JOBS:,} jobs and {program.MAX_BYTES:,} bytes: -o writes it as JSON lines", TOOL)


def _all(given, scenario, zsched):
    """Simulates all policies, one after another, and writes the requested files; returns the figures of each."""
    figures = {}
    with command.new_folder(given.folder) as folder, Now() as progress:
        for name in scenario.policies:
            def say(share, what, name=name):
                done = 100 * (len(figures) + 0.9 * share) / len(scenario.policies)
                progress.say(f"{done:.0f} %: {name}: {what}")
            warn_of_attempts(scenario, name, given.color)
            found = simulate(scenario, zsched, name, given.passes, say, folder is not None)
            if folder is not None:
                say(1, "files")
                write_files(folder, name, scenario.horizon, found)
            figures[name] = found[-1]
            if scenario.policies[name][0].is_cut and figures[name].gave_up > figures[name].denied:
                command.note(f"policy {name}: clients that gave up came to the end of a schedule that leaves out later "
                             "waits", TOOL)
    if given.svg:
        command.write(given.svg, "".join(f"{line}\n" for line in draw_curves(scenario, figures)))
    if given.html:
        command.write(given.html, "".join(curve_page(scenario, figures)))
    return figures


def _exceeded(given, figures):
    if given.max_peak is not None:
        most, span = given.max_peak
        if (peak := figures.curve.peak(span)) is None:
            yield "no attempt begins, so --max-peak compares nothing"
        elif peak[0] > most:
            yield f"{peak[0]:,} attempts in {duration(span)}, from {duration(peak[1])} on, over --max-peak {most:,}"
    if given.max_recovery is not None and not figures.first_failed:
        yield "no client failed, so --max-recovery compares nothing"
    elif given.max_recovery is not None and (figures.recovery is None or figures.recovery > given.max_recovery):
        words = f"{'recovered in ' * (figures.recovery is not None)}{figures.recovery_words()}"
        yield f"{words}, over --max-recovery {duration(given.max_recovery)}"
    if given.max_gave_up is not None and figures.gave_up + figures.unfinished > given.max_gave_up:
        words = f", and {figures.unfinished:,} may later" if figures.unfinished else ""
        yield f"{plural(figures.gave_up, 'client')} gave up{words}, over --max-gave-up {given.max_gave_up:,}"


def _seed_of(scenario, name):
    """The seed in words, if the figures of a policy depend on it."""
    is_drawn = scenario.is_drawn or scenario.policies[name][0].is_drawn
    return f", with the seed {scenario.seed}" if is_drawn else ""


def work(given):
    name = "standard input" if given.scenario == "-" else given.scenario
    data = command.read(given.scenario)
    for path in filter(None, [given.folder, given.svg, given.html]):
        if not pathlib.Path(path).absolute().parent.is_dir():
            raise Refused(f"{path}: its folder doesn't exist")
    try:
        zsched = program.find(given.zsched)
        with command.budget(name):
            scenario = read_scenario(data)
        scenario.title = given.title
        if given.max_recovery is not None and scenario.back is None:
            raise Refused(f"{name}: --max-recovery needs a window that is down and ends before the horizon")
        _check_policies(scenario, zsched)
        figures = _all(given, scenario, zsched)
    except FaultAt as fault:
        text = data.decode(errors="replace")
        tell(f"{TOOL}: {in_file(name, text, fault.cause)}", text, fault.cause, Paint(given.color, sys.stderr))
        return REFUSED
    except (Unsettled, Uncertified) as failed:
        print(f"{TOOL}: {failed}", file=sys.stderr)
        return command.NO
    is_shown = "-" not in (given.svg, given.html)
    if is_shown and given.json:
        print(to_json(scenario, figures))
    elif is_shown:
        head, *rows = words.table(list(table(scenario, figures)), 1)
        notes = [f"{name}: {it.note()}" for name, it in figures.items() if it.uncertified]
        print(headline(scenario), *policy_lines(figures), "", Paint(given.color, sys.stdout)("strong", head), *rows,
              *notes, sep="\n")
    exceeded = [f"{TOOL}: policy {name}: {words}{_seed_of(scenario, name)}" for name, it in figures.items()
                for words in _exceeded(given, it)]
    lines = not_covered(given.allow_left_out, [policy for policy, _ in scenario.policies.values()], "outage")
    if any(it is not None for it in (given.max_peak, given.max_recovery, given.max_gave_up)):
        exceeded += [f"{TOOL}: {line}" for line in lines]
    sys.stdout.flush()
    for line in exceeded:
        print(line, file=sys.stderr)
    return command.NO if exceeded else 0


_count = command.number(0, 10**15 - 1, '"{}" is not a whole number')


def _peak(word):
    """A number of attempts and the time within which they begin."""
    count, _, span = word.partition("/")
    if not (time := duration_argument(span or "1s")):
        raise argparse.ArgumentTypeError(f'"{word}" has no time: write 500, or 50/100ms')
    return _count(count), time


def arguments():
    parser = command.parser(TOOL, DESCRIPTION, EPILOG)
    parser.add_argument("scenario", metavar="SCENARIO.json", help="the scenario's file; - for standard input")
    parser.add_argument("-o", dest="folder", metavar="FOLDER",
                        help="a new or empty folder for plans, reports and curves")
    parser.add_argument("--svg", metavar="FILE", help="a picture of the curves under one axis; - in place of the table")
    parser.add_argument("--html", metavar="FILE",
                        help="a page with the picture and the table, for any width; - in place of the table")
    parser.add_argument("--title", default="", help="the first words above the picture")
    parser.add_argument("--json", action="store_true", help="print one object in place of the table")
    parser.add_argument("--max-peak", type=_peak, metavar="N[/TIME]",
                        help="the most attempts that may begin within a second, or within TIME, as 50/100ms")
    parser.add_argument("--max-recovery", type=duration_argument, metavar="TIME",
                        help="the longest time from the end of the last window that is down until all clients whose "
                             "first attempt failed were served")
    parser.add_argument("--max-gave-up", type=_count, metavar="N",
                        help="the most clients that may give up; one that is unfinished counts")
    add_allowed(parser)
    passes = command.number(1, 99999, "{} isn't a number of passes from 1 to 99999")
    parser.add_argument("--passes", type=passes, default=MOST_PASSES, metavar="N",
                        help=f"the most passes before the certificate ({MOST_PASSES})")
    command.add_programs(parser)
    return command.complete(parser)


main = command.main(arguments, work)
