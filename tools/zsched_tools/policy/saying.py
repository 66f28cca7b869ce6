"""A policy in one sentence: "up to 5 retries after 25 to 250 ms, each drawn from 0; at most 6 attempts, within 3 s".

Numbers are those that zsched-bounds proves. The least wait, and from where waits are drawn, are those of a run, where
the schedule's form shows that no other one is shorter."""
import re
from typing import NamedTuple

from zsched_tools import bounding, program
from zsched_tools.drawn import HIGH, LOW
from zsched_tools.program import LAST_MOMENT, cut_plans, job_text, report_of
from zsched_tools.reports import attempts_in, blocks_of
from zsched_tools.schedule_rules import any_cause
from zsched_tools.settings import codes_of
from zsched_tools.trials import waits_between
from zsched_tools.words import duration, plural

# So many first waits are looked at.
MOST_WAITS = 100
_UNSTEADY = re.compile("fixed|windowed|identity|whileInput|resetWhen|elapsed")
# A limit of time of the whole, which ends it, and changes no wait.
_LIMIT = re.compile(r"&& *+elapsed\.whileOutput\( *+<=? *+[0-9]++ *+\) *+\)\Z")
_FAULT = re.compile(r"zsched: job (\d+): schedule: (.+)")


class Waits(NamedTuple):
    """The first waits of a policy whose attempts fail at once: with the least draws, and with the greatest."""
    low: list
    high: list


def waits_of(zsched, policies):
    """The Waits of each policy, or the cause of the fault of its schedule, by one plan of all, or by a plan more for
    each fault."""
    found, left = {}, list(enumerate(policies))
    while left:
        jobs = [_job(f"{at}{end}", policy, draws) for at, policy in left for end, draws in (("a", LOW), ("b", HIGH))]
        plans, most = cut_plans(LAST_MOMENT, jobs)
        blocks = []
        for number, plan in enumerate(plans):
            status, report, errors = report_of(zsched, plan, plan.count(b'"script":['))
            line = program.failure(status, errors) if status else ""
            if fault := _FAULT.fullmatch(line):
                at, policy = left.pop((number * most + int(fault[1])) // 2)
                found[at] = policy.cause_at(HIGH, any_cause(policy.schedule(HIGH), fault[2]))
                break
            if status:
                raise ChildProcessError(line)
            blocks += [waits_between(attempts_in(it)) for it in blocks_of(report)]
        else:
            found |= {at: Waits(*pair) for (at, _), *pair in zip(left, blocks[::2], blocks[1::2])}
            left = []
    return [found[at] for at in range(len(policies))]


def _job(name, policy, source):
    """The job of a policy whose attempts fail with an error that it retries."""
    code = codes_of(policy.on[0])[0] if policy.on else policy.failing
    entries = [f'{{"ms":1,"err":{code}}}'] * MOST_WAITS + ['{"ms":1,"ok":0}']
    return job_text(name, policy.schedule(source), ",".join(entries))


def _is_steady(policy, waits, bounds):
    """Whether no input and no duration makes a wait shorter than those of the run, or longer."""
    is_all = bounds.most is not None and len(waits.high) == min(MOST_WAITS, bounds.most - 1)
    longest = bounds.wait()
    return (is_all or bounds.is_endless) and not policy.jitter and not _UNSTEADY.search(
        _LIMIT.sub("", policy.spelled)) and (longest is None or longest == max(waits.high, default=0))


def _between(least, most):
    """Two durations as `25 to 250 ms`."""
    one, other = duration(least), duration(most)
    if least == most:
        return one
    unit = re.fullmatch("[0-9.]+( [a-z]+)", other)
    return f"{one.removesuffix(unit[1]) if unit else one} to {other}"


def _waits(policy, waits, bounds):
    """How long a policy waits, and how waits are drawn."""
    longest = bounds.wait()
    if longest == 0:
        return " at once"
    is_steady = waits is not None and _is_steady(policy, waits, bounds)
    if longest is None:
        after = f" after {duration(min(waits.high))} and longer" if is_steady and waits.high else (
            " after waits without a proved limit")
    else:
        after = f" after {_between(min(waits.high), longest)}" if is_steady else f" after at most {duration(longest)}"
    if not (policy.is_drawn or policy.jitter):
        return after
    if policy.undrawn:
        return f"{after}, each drawn"
    parts = [100 * low // high for low, high in zip(*waits) if high] if waits and not policy.jitter else []
    drawn = f", each drawn from {min(parts)} % of it" if parts and min(parts) and is_steady else ", each drawn from 0"
    return after + (drawn if parts and is_steady or not parts else ", some drawn")


def each(zsched, policies, all_bounds):
    """The sentence of each policy with its bounds, which says if these are unproved."""
    return [bounding.mark(bounds) + sentence(policy, bounds, waits if isinstance(waits, Waits) else None)
            for policy, bounds, waits in zip(policies, all_bounds, waits_of(zsched, policies))]


def sentence(policy, bounds, waits=None):
    """A policy in one sentence, by its bounds and its Waits."""
    return retries_of(policy, bounds, waits) + end_of(bounds)


def retries_of(policy, bounds, waits=None):
    """The first half of the sentence: how often a policy retries, and after which waits."""
    one, many = ("repeat", "repeats") if policy.mode == "repeat" else ("retry", "retries")
    if bounds.most == 1:
        return f"no {many}"
    if bounds.every is None and bounds.longest > LAST_MOMENT:
        return f"{many} of which nothing is proved"
    count = f"{many} without {'end' if bounds.is_endless else 'a proved limit'}"
    if bounds.most is not None:
        count = f"up to {bounds.most - 1} {one if bounds.most == 2 else many}"
    elif bounds.has_first():
        count += f", the first {bounds.seen}"
    return count + _waits(policy, waits, bounds)


def end_of(bounds):
    """The second half: the most attempts, and the end of the whole call."""
    latest, is_cut = bounds.latest()
    within = latest is not None and f"within {bounding.rounded(latest)}" + " by the call's limit" * is_cut
    parts = [bounds.most is not None and f"at most {plural(bounds.most, 'attempt')}", within]
    return "".join(f"{mark} {it}" for mark, it in zip(";,", filter(None, parts)))
