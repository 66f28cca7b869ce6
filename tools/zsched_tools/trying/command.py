"""The command zsched-try: what policies do, a line each."""
import contextlib
import itertools
import json
import re
import sys
from dataclasses import replace
from operator import attrgetter

from zsched_tools import bounding, checks, command, plan_size, program
from zsched_tools.attempts import add_attempts, count, driver_of, entries_of, limits_of, mode_of, time
from zsched_tools.command import REFUSED, Paint, Refused
from zsched_tools.drawn import Policy, every, policies_of, seeded
from zsched_tools.place import FaultAt, tell_policy
from zsched_tools.policy import saying
from zsched_tools.program import cut_plans, job_text
from zsched_tools.progress import Now
from zsched_tools.reports import attempts_in, blocks_of, ending_in, joined
from zsched_tools.schedule_rules import any_cause
from zsched_tools.settings import add_allowed
from zsched_tools.trials import as_object, entries_text, job_names, plan_of, tried_in, waits_in, without_last
from zsched_tools.trying import draws, layers, picturing
from zsched_tools.words import duration, plural

TOOL = "zsched-try"
# That many waits of a draw are shown; --plan has all.
MOST_SHOWN = 10
# A run of more attempts would take minutes.
MOST_ATTEMPTS = 5_000_000
NO_RUN = "no run is drawn, since its waits depend on {}"
# The program's status if it is out of memory or of threads.
NO_MEMORY = 4
DESCRIPTION = """Runs policies from the command line, all on the same attempts, and prints a line for each: how it ends,
after how many attempts and when, and how long it waits. If zsched-bounds is there, a second line says what the policy
does for every input and every duration of attempts, until it gives up. That line is proved, unless it begins with
`unproved:`. With --attempt it also says when the whole call ends, with --late and --asked also on late timers and if
waits that a service asks for are honoured, with --wait if a service waits 80 to 120 % of what the policy says.

  $ zsched-try '(exponential(100) && recurs(5))'
  failed 503 after 6 attempts, 3.34 s (waited 3.1 s, longest wait 1.6 s)
  for every input: 6 attempts, always; waits of at most 1.6 s, 3.1 s in all

  zsched-try 'spaced(1000)' 'exponential(100)' --after 3
  zsched-try "$POLICY" --max-wait 30s --max-end 2min
  zsched-try "$POLICY" --attempt 5s --require-end 30s

Each attempt ends as --fails says. With --after N this holds only for the first N, and the others end as --then says. A
duration is a number of milliseconds, or has a unit: 40, 40ms, 1.5s, 2min, 1h30m, 1d. docs/RECIPES.md has policies for
many tasks.

A policy is a schedule, or one of these, and standard error shows the schedule that it becomes. Random waits are drawn
with --seed: standard error has the first ten, --plan all. docs/FORMATS.md says what then holds for every draw. If all
waits are drawn, and depend on more than their number, no run is drawn: every --max-.. fails, --require-.. doesn't.

  @service.yaml#checkout                      the policy that `zsched-policy import service.yaml` finds
  @service.yaml#*                             each policy of the file
  delays(1s, 1.5s, 2.25s)                     these waits, one after another
  exponential(1s, 1.5, max 10s, 9 retries)    a factor with a fraction, a cap, a number of retries
  (exponential(100) && recurs(5)) jitter full each wait drawn from 0 to it; jitter equal from half of it, jitter 20%
                                              from 80 % to 120 % of it, jitter 2/3..1 from two thirds of it
  slow: spaced(1000)                          a policy with a name, which the picture and the plan have

After a schedule or @FILE#NAME come its settings, in any order, as `spaced(1000) call 3s attempt 1s on 5xx,429`: limits
of the call and of an attempt, and the errors that are retried. A config has them too. The limit of an attempt counts as
--attempt does, and cuts longer ones. That of the call ends it: `by the call's limit` isn't proved, since it holds where
the client cuts. What isn't applied of a policy is named, and --max-.. and --require-.. pass over it only with
--allow-left-out NAME.

With --over each attempt of POLICY is a whole call of another one, and so on, and --attempt is that of the last:

  zsched-try @client.yaml --over @gateway.yaml --over @mesh.yaml --attempt 300ms --require-end 5s

The most calls at the bottom are a product, which isn't proved: --require-attempts needs --allow-unproved then.

With --draws N calls are drawn, by --seed, and run and certified as those of zsched-outage, whose help says more. The
table has percentiles of all calls and of those that are served, beside what is proved. --world says how attempts end:

  zsched-try "$POLICY" --draws 10000 --attempt 1s --world '{"ms": {"p50": 80, "p99": 600}, "ok": 200, "fail": "10%"}'"""
EPILOG = """A policy that is unfinished at --until has neither an end nor a last attempt, so it exceeds every
--max-end and --max-attempts. Its waits count up to --until. --max-.. are limits of this run, --require-.. of every
run. The whole call is from the begin of the first attempt to the end of the last.

Exit status: 0; 1 if a policy exceeds a bound, or if a required bound isn't proved (standard error says so); 2 if a
policy or an argument is wrong, with a caret below its place, if there is no zsched, or if --require-.. is given without
zsched-bounds; 3 if a program or writing fails."""


def bounds_of_all(given):
    """The bounds of the policies for every input; None for each if zsched-bounds isn't found and isn't required."""
    path, drivers = _bounds_path(given), [driver_of(given, policy) for policy in given.read]
    _check_end(given, given.read, drivers)
    within = getattr(given, "within", None)
    return bounding.of_policies(path, given.read, drivers, within) if path else [None] * len(given.read)


def _check_end(given, policies, drivers):
    """Rejects a required end without the limit that it takes, or without that of an attempt."""
    end = getattr(given, "require_end", None)
    if end == checks.OWN and (without := [it.text for it in policies if not it.deadline]):
        raise Refused(f"--require-end @ takes the limit of the call that a config has, and {without[0]} has none")
    if end is not None and any(it.attempt is None and (end == checks.OWN or not policy.deadline)
                               for it, policy in zip(drivers, policies)):
        raise Refused("--require-end needs --attempt TIME, the greatest duration of an attempt")


def _bounds_path(given):
    """The path of zsched-bounds; None if it isn't found and isn't required."""
    path = program.find_bounds(given.bounds)
    if path is None and any(value is not None for name, value in vars(given).items() if name.startswith("require_")):
        raise Refused("--require-.. needs zsched-bounds, which is neither built (./run builds it) nor installed; "
                      "--bounds PATH or ZSCHED_BOUNDS names one")
    return path


def _read(given):
    """Reads the policies, texts or Policies, and draws the schedule of each."""
    given.read, given.schedules = [], []
    is_line = hasattr(given, "over") and not (given.plan or given.svg or given.html or given.over)
    for number, text in enumerate(given.policies):
        with _numbered(number):
            given.read += [text] if isinstance(text, Policy) else policies_of(
                text, given.zsched and program.find(given.zsched), is_line)
    given.policies = [it.text for it in given.read]
    for number, policy in enumerate(given.read):
        with _numbered(number):
            policy.take_mode(given.mode)
            if policy.undrawn:
                policy.check(program.find(given.zsched))
            given.schedules.append("recurs(0)" if policy.undrawn else policy.schedule(seeded(given.seed)))


@contextlib.contextmanager
def _numbered(number):
    """Gives a fault of a policy the number of the policy."""
    try:
        yield
    except FaultAt as fault:
        raise FaultAt(fault.cause, number) from None


def _tell(tool, given, fault):
    """Shows the fault of a policy."""
    which = f"policy {fault.number + 1}, " if len(given.policies) > 1 else ""
    tell_policy(f"{tool}: {which}", given.policies[fault.number], fault.cause, Paint(given.color, sys.stderr))


def of_all(given, *policies):
    """What the bounds of policies are for, with what runs them."""
    driver, *others = {driver_of(given, it) for it in policies}
    if others:
        return every(policies) + driver._replace(attempt=None).words("each one's attempts", True)
    return every(policies) + driver.words()


def _said(given, all_bounds):
    """The sentence of each policy, if its bounds are known, which are noted of those of files."""
    if None in all_bounds or not (given.svg or given.html or any(it.waits for it in given.read)):
        return []
    said = saying.each(program.find(given.zsched), given.read, all_bounds)
    for policy, text in zip(given.read, said):
        if policy.waits:
            command.note(f"{policy.text}: {text}", TOOL)
    return said


def _begun(given, bounds):
    """How many attempts begin within a time, in words."""
    if bounds.within is None:
        return ""
    most = bounds.within["most"]
    of = f", {most * given.clients} of {plural(given.clients, 'client')}" if given.clients != 1 else ""
    return f"; {plural(most, 'attempt')} at most in the first {duration(given.within)}{of}"


def _notes(given, said):
    """The lines above a picture, with the sentence of each policy, if there is one."""
    names = job_names(given.read)
    notes = [f"{name}: {it.source}{it.typed()}" for name, it in zip(names, given.read)]
    return [line for name, note, text in zip(names, notes, said) for line in (note, f"{name}: {text}")] or notes


def _seed_of(given, *policies):
    """The seed in words, if the run of policies depends on it."""
    return f", with the seed {given.seed}" if any(it.is_drawn and not it.undrawn for it in policies) else ""


def _print_all(given, report, all_bounds):
    """The lines of the policies, the object or the picture; and the bounds that they exceed. Returns the status."""
    limits = limits_of(given)
    tell_waits(TOOL, given, waits_in(report))
    said = _said(given, all_bounds)
    if given.svg or given.html:
        more = [{"draws": draws, "end": picturing.end_of(bounds)}
                for draws, bounds in zip(picturing.draws_of(given), all_bounds)]
        picturing.draw(given, report, limits, _notes(given, said), more)
    found_ones = [None if it.undrawn else found for it, found in zip(given.read, tried_in(report, limits))]
    if given.json:
        drivers = [driver_of(given, it) for it in given.read]
        print(json.dumps({"policies": list(map(as_object, given.read, found_ones, all_bounds, drivers))}))
    is_shown = not given.json and "-" not in (given.svg, given.html)
    paint, status = Paint(given.color, sys.stdout), 0
    widest = max(map(len, given.policies)) + 2 if len(given.policies) > 1 else 0
    each = [entries_of(given, it)[0][0] for it in given.read]
    each = each if len(set(each)) > 1 else [None] * len(each)
    for policy, found, bounds, length in zip(given.read, found_ones, all_bounds, each):
        if is_shown:
            style = {"succeeded": "good", "finished": "good", "unfinished": "strong"}.get(found and found.how, "bad")
            ending, after, rest = (found.line(length) if found else NO_RUN.format(policy.undrawn)).partition(" after ")
            print((policy.text.ljust(widest) if widest else "") + paint(style, ending) + after + rest)
            if bounds is not None:
                said = f"{of_all(given, policy)}: {bounds.line()}{_begun(given, bounds)}"
                print(" " * widest + bounding.mark(bounds) + said)
        unproved = checks.not_proved(given, bounds, policy) if bounds is not None else []
        for words in [*(it + _seed_of(given, policy) for it in checks.exceeded(given, policy, found)), *unproved]:
            sys.stdout.flush()
            print(f"{TOOL}: {policy.text}: {words}", file=sys.stderr)
            status = command.NO
    return max(status, checks.covered(TOOL, given, given.read, "run", "bound"))


def _run(tool, given, plan, first):
    """Runs a plan of the policies from the number `first` on, and returns the report. FaultAt has a fault. If the plan
    may have many attempts, a line on standard error says so before it runs; with too many it is run only if its jobs
    end early."""
    zsched, jobs, status = program.find(given.zsched), plan.count(b'"script":['), 0
    if many := plan_size.warning(plan):
        status, report, errors = program.report_of(zsched, plan_size.with_one_tick(plan), jobs)
    if not status and plan_size.warning(plan, MOST_ATTEMPTS):
        plan = _short(given, zsched, plan, first)
    if not status:
        plan_size.warn(tool, many, given.color)
        status, report, errors = program.report_of(zsched, plan, jobs)
    line = program.failure(status, errors)
    place = re.fullmatch(r"zsched: job (\d+): schedule: (.+)", line)
    if status == REFUSED and place:
        number = first + int(place[1])
        cause = any_cause(given.schedules[number], place[2])
        raise FaultAt(given.read[number].cause_at(seeded(given.seed), cause), number)
    if status == REFUSED:
        raise Refused(line.removeprefix("zsched: "))
    if status:
        raise ChildProcessError(line + "; shorten --until, or lengthen the waits" * (status == NO_MEMORY or status < 0))
    return report


def _short(given, zsched, plan, first):
    """A plan of many attempts up to an earlier horizon, at which all its jobs have ended. Refused names one that goes
    on."""
    short, until = plan_size.with_fewer(plan, MOST_ATTEMPTS)
    for number, block in enumerate(blocks_of(program.run_plan(zsched, short)), first):
        if ending_in(block)[0] == "unfinished":
            most = plan_size.most_attempts(plan)
            count = f"{most:,.0f}" if most < 10**16 else "more than 10^16"
            raise Refused(f"{given.read[number].text}: it makes {len(attempts_in(block)):,} attempts in "
                          f"{duration(until)}, and up to {count} in all: shorten --until, or lengthen the waits")
    return short


def _reports(tool, given, jobs):
    """The reports of jobs. Each one whose call has a limit runs alone, up to that."""
    limits, first = limits_of(given), 0
    for (limit, _), group in itertools.groupby(enumerate(jobs), lambda it: (limits[it[0]], limits[it[0]] and it[0])):
        group = [job for _, job in group]
        plans, most = cut_plans(limit or given.until, group)
        for number, plan in enumerate(plans):
            yield without_last(_run(tool, given, plan, first + number * most), limit)
        first += len(group)


def tried(tool, given, is_plan=False):
    """Runs the policies of a command line, and returns the report, or the plan. A fault is shown, for None."""
    try:
        _read(given)
        modes = [mode_of(given, policy) for policy in given.read]
        jobs = zip(job_names(given.read), given.schedules, [entries_of(given, it) for it in given.read], modes)
        if only := [it.text for it, mode in zip(given.read, modes) if it.on and mode == "repeat"]:
            raise Refused(f"{only[0]}: the errors that are retried are of --mode retry")
        if is_plan:
            for policy in filter(attrgetter("deadline"), given.read):
                print(f"{TOOL}: {policy.text}: the plan goes on after the limit of the call", file=sys.stderr)
            return plan_of(given.until, jobs)
        report = joined(list(_reports(tool, given, [job_text(name, schedule, entries_text(script), mode)
                                                    for name, schedule, script, mode in jobs])))
    except FaultAt as fault:
        return _tell(tool, given, fault)
    for policy in given.read:
        policy.show(tool, *(["layers"] if getattr(given, "over", None) else ["run", "bound"]))
    return report


def tell_waits(tool, given, all_waits):
    """Writes the first waits of each policy whose waits are drawn, as they were made."""
    for policy, waits in zip(given.read, all_waits):
        if policy.is_drawn and not policy.undrawn:
            many = f" .. ms ({len(waits)} in all)" if len(waits) > MOST_SHOWN else " ms"
            told = f"waits {', '.join(map(str, waits[:MOST_SHOWN]))}{many}" if waits else "makes no wait"
            command.note(f"{policy.text} with the seed {given.seed} {told}", tool)


def work(given):
    total, longest = given.require_waits, given.fails[0] if given.fails else 0
    if total is not None and 10 * longest > total:
        command.note(f"--require-waits limits the waits alone, and each attempt of --fails takes {duration(longest)}; "
                     "--attempt and --require-end limit the whole call", TOOL)
    if given.svg == given.html == "-":
        raise Refused("--svg - and --html - both write to standard output")
    draws.refuse_options(given)
    if given.draws is not None:
        return _work_draws(given)
    if given.over:
        return _work_over(given)
    if (found := tried(TOOL, given, given.plan)) is None:
        return REFUSED
    if given.plan:
        sys.stdout.writelines([found])
        return 0
    return _print_all(given, found, bounds_of_all(given))


def _work_draws(given):
    """Runs many draws of each policy, and prints their percentiles beside the bounds."""
    zsched, found = program.find(given.zsched), []
    try:
        _read(given)
        for number, (policy, name) in enumerate(zip(given.read, job_names(given.read))):
            if policy.undrawn:
                raise Refused(f"{policy.text}: {NO_RUN.format(policy.undrawn)}")
            with _numbered(number):
                policy.check(zsched)
            policy.show(TOOL, "outage", "bound")
            with Now() as progress:
                progress.say(f"{policy.text}: {plural(given.draws, 'draw')}")
                found.append(draws.drawn(given, zsched, policy, name))
    except FaultAt as fault:
        _tell(TOOL, given, fault)
        return REFUSED
    if given.plan:
        if len(found) > 1 or len(found[0][1]) > 1:
            raise Refused(f"--plan takes one policy and draws that fit into one plan, as {program.MOST_JOBS:,}")
        sys.stdout.writelines([found[0][1][0].decode()])
        return 0
    return _print_draws(given, [figures for *_, figures in found], bounds_of_all(given))


def _print_draws(given, found, all_bounds):
    """The lines of the policies or the object, and the required bounds that aren't proved. Returns the status."""
    status, each = 0, []
    for policy, figures, bounds in zip(given.read, found, all_bounds):
        about = as_object(policy, None, bounds, driver_of(given, policy))
        each.append(about | {"drawn": draws.as_object(given, figures)})
        if not given.json:
            print(*[policy.text] * bool(given.read[1:]), *draws.lines(given, figures), sep="\n")
            if bounds is not None:
                print(f"{bounding.mark(bounds)}{of_all(given, policy)}: {bounds.line()}{_begun(given, bounds)}")
        for text in checks.not_proved(given, bounds, policy) if bounds is not None else ():
            sys.stdout.flush()
            print(f"{TOOL}: {policy.text}: {text}", file=sys.stderr)
            status = command.NO
    if given.json:
        print(json.dumps({"policies": each}))
    return max(status, checks.covered(TOOL, given, given.read, "outage", "bound"))


def _work_over(given):
    """Runs layers of policies, and prints a line for each and for the whole."""
    layers.refuse_options(given)
    given.policies += given.over
    count = len(given.policies)
    if tried(TOOL, given) is None:
        return REFUSED
    if len(given.read) > count:
        raise Refused("--over takes one policy of each file: write @FILE#NAME")
    outer, bottom = given.read[0], given.read[-1]
    limits, entries = [it.timeout for it in given.read], entries_of(given, bottom)
    made = layers.Layers(program.find(given.zsched), given, limits, entries)
    call, path, driver = made.call(), _bounds_path(given), driver_of(given, bottom)
    tell_waits(TOOL, given, (it.waits() for it in call.firsts()))
    _check_end(given, [outer], [driver])
    if given.plan:
        sys.stdout.writelines([made.plan(call).decode()])
        return 0
    found, whole = made.bounds(path, driver) if path else ([], None)
    said = _said(given, [bounds for _, bounds in found] or [None])
    if given.svg or given.html:
        notes = [*_notes(given, said), f"the whole: {layers.total(call, whole)}"]
        more = [{"depth": depth, "end": None if depth else picturing.end_of(whole)} for depth in made.depths(call)]
        given.title = given.title or " over ".join(made.names)
        report = program.run_plan(made.zsched, made.plan(call))
        picturing.draw(given, report, list(made.limits_of_jobs(call)), notes, more)
    if given.json:
        print(json.dumps(layers.as_object(made, call, found, whole)))
    elif "-" not in (given.svg, given.html):
        layers.show(made, call, found, whole, every(given.read))
    tried_whole = replace(call.tried, attempts=call.bottom())
    unproved = checks.not_proved(given, whole, *given.read) if whole else []
    lines = [*(it + _seed_of(given, *given.read) for it in checks.exceeded(given, outer, tried_whole)), *unproved]
    for words in lines:
        print(f"{TOOL}: the whole: {words}", file=sys.stderr)
    return max(command.NO if lines else 0, checks.covered(TOOL, given, given.read, "layers"))


def arguments():
    parser = command.parser(TOOL, DESCRIPTION, EPILOG)
    parser.add_argument("policies", metavar="POLICY", nargs="+", help="a schedule")
    add_attempts(parser)
    parser.add_argument("--max-end", type=time(0), metavar="TIME", help="the latest end")
    parser.add_argument("--max-wait", type=time(0), metavar="TIME", help="the longest wait")
    parser.add_argument("--max-attempts", type=count(2**64 - 1), metavar="N", help="the most attempts")
    parser.add_argument("--require-attempts", type=count(2**64 - 1), metavar="N",
                        help="the most attempts for every input")
    parser.add_argument("--require-wait", type=time(0), metavar="TIME", help="the longest wait for every input")
    parser.add_argument("--require-waits", type=time(0), metavar="TIME",
                        help="the most of all waits for every input: the waits alone, without the attempts")
    parser.add_argument("--require-end", type=checks.end, metavar="TIME",
                        help="the most of the whole call for every input, with attempts as --attempt says; @ is the "
                             "limit of the call in the policy's config")
    parser.add_argument("--within", type=time(0), metavar="TIME",
                        help="also how many attempts begin within this time of the first one, for every input: 10s")
    parser.add_argument("--clients", type=count(2**64 - 1), default=1, metavar="N",
                        help="how many clients --within counts the attempts of (1)")
    parser.add_argument("--over", action="append", default=[], metavar="INNER",
                        help="the policy of what each attempt calls; again for what that calls")
    parser.add_argument("--allow-unproved", action="store_true",
                        help="let --require-.. accept what a zsched-bounds says that ./run built unproved")
    many = command.number(1, draws.MOST, f'"{{}}" is not a whole number from 1 to {draws.MOST}')
    parser.add_argument("--draws", type=many, metavar="N", help="draw so many calls, and print percentiles of them")
    parser.add_argument("--world", metavar="OUTCOMES",
                        help="how attempts of --draws end, as a service that is up in a scenario of zsched-outage: "
                             '\'{"ms": {"p50": 80, "p99": 600}, "ok": 200, "fail": "10%%"}\'')
    add_allowed(parser)
    printed = parser.add_mutually_exclusive_group()
    printed.add_argument("--plan", action="store_true", help="print the plan, and run nothing")
    printed.add_argument("--json", action="store_true", help="print one object")
    parser.add_argument("--svg", metavar="FILE",
                        help="a picture: one draw, where attempts may begin in all draws, and the latest end of each "
                             "call; - is standard output, without the lines")
    parser.add_argument("--html", metavar="FILE", help="the picture as a page, for any width; - is as for --svg")
    parser.add_argument("--title", default="", help="the text above the picture")
    return command.complete(parser)


main = command.main(arguments, work)
