"""Policies from the command line as one plan, and the result of each in one line."""
import itertools
import json
import re
from dataclasses import dataclass

from zsched_tools.reports import attempts_in, blocks_of, ending_in
from zsched_tools.words import duration, plural, shown

WIDEST_RESULT = 30
MOST_AFTER = 999
# An attempt that runs at the horizon, at the end of a report of one job.
_LAST = re.compile(rb"\nattempt [0-9]++ ([0-9]++)\.\. running\n(end unfinished at [0-9]++ polls )([0-9]++)\n"
                   rb"polls [0-9]++\n\Z")


def plain_name(text, allowed="._"):
    """A name for the job of a policy, made of the letters and digits of a text."""
    return re.sub(rf"[^A-Za-z0-9{allowed}]+", "-", text).strip("-")[:48].strip("-") or "policy"


def job_names(policies):
    """A name for the job of each Policy: its own, or one made of its text."""
    numbers = {}
    for policy in policies:
        name = plain = policy.name or plain_name(policy.text, "")
        while name in numbers:
            numbers[plain] += 1
            name = f"{plain}-{numbers[plain]}"
        numbers[name] = 1
    return list(numbers)


def entries_text(script):
    """The entries of a script as JSON."""
    return ",".join(f'{{"ms":{ms},"{word}":{value}}}' for ms, word, value in script)


def plan_of(horizon, jobs):
    """The text of a plan with these jobs, each a name, a schedule, the entries of a script and a mode."""
    jobs = [f'    {{\n      "name": "{name}",\n      "mode": "{mode}",\n      "schedule": '
            f'{json.dumps(schedule, ensure_ascii=False)},\n      "script": ['
            + ", ".join(f'{{ "ms": {ms}, "{word}": {value} }}' for ms, word, value in entries) + "]\n    }"
            for name, schedule, entries, mode in jobs]
    return f'{{\n  "horizon": {horizon},\n  "jobs": [\n' + ",\n".join(jobs) + "\n  ]\n}\n"


@dataclass
class Tried:
    """The result of a policy in a report: its ending with the value, its end, its attempts, the sum of its waits and
    the longest. An attempt or a wait that continues at the horizon, or at the limit of its call, counts up to it. That
    limit is the ending `cut`."""
    how: str
    result: str
    at: int
    attempts: int
    waited: int
    longest: int

    def line(self, each=None):
        """The result in words, with the length of each attempt if it is given."""
        length = "" if each is None else f" of {duration(each)}"
        return (f"{self.ending()} after {plural(self.attempts, 'attempt')}{length}, {duration(self.at)} "
                f"(waited {duration(self.waited)}, longest wait {duration(self.longest)})")

    def ending(self):
        return "ended by the call's limit" if self.how == "cut" else f"{self.how} {self.result}".strip()


def without_last(report, limit):
    """The report of one job up to the limit of its call, at which no attempt begins."""
    found = limit and _LAST.search(report)
    if not found or int(found[1]) != limit:
        return report
    polls = int(found[3]) - (b"..%d err " % limit not in report)
    return report[:found.start()] + b"\n%b%d\npolls %d\n" % (found[2], polls, polls)


def waits_between(attempts):
    return [int(after[0]) - int(before[1]) for before, after in itertools.pairwise(attempts)]


def waits_in(report):
    """The waits between the attempts of each job in a report's bytes."""
    return (waits_between(attempts_in(block)) for block in blocks_of(report))


def tried_in(report, limits=itertools.repeat(None)):
    """The result of each job in a report's bytes, each with the limit of its call, if that ends it."""
    for block, limit in zip(blocks_of(report), limits):
        how, result, at = ending_in(block)
        attempts = attempts_in(block)
        waits = waits_between(attempts)
        if how == "unfinished" and attempts:
            waits.append(at - int(attempts[-1][1] or at))
        how = "cut" if how == "unfinished" and at == limit else how
        yield Tried(how, shown(result, WIDEST_RESULT), at, len(attempts), sum(waits), max(waits, default=0))


def every_input(bounds):
    """Bounds as an object of JSON."""
    limits, (latest, is_cut) = bounds.limits(), bounds.latest()
    return {"is_proved": bounds.is_proved, "never_gives_up": bounds.is_endless, "least_attempts": bounds.least,
            "most_attempts": bounds.most, "longest_wait_ms": limits[0], "waited_ms": limits[1],
            "end_ms": None if bounds.is_cut_inside else bounds.call(), "end_by_limit_ms": latest if is_cut else None,
            "within": bounds.within}


def as_object(policy, found, bounds, driver):
    """The result of a policy (None: no run was drawn), its bounds and what runs it then, and its settings, as an object
    of JSON."""
    found = found or Tried(*[None] * 6)
    return {"policy": policy.text, "schedule": policy.spelled, "how": found.how, "result": found.result,
            "end_ms": found.at, "attempts": found.attempts, "waited_ms": found.waited, "longest_wait_ms": found.longest,
            "for_every_input": bounds and every_input(bounds), "holds_for": bounds and driver.members(),
            **policy.limits()}
