"""Policies over each other: an attempt of one is a whole call of the next one, and those of the last are the calls at
the bottom."""
import functools
from dataclasses import replace
from itertools import pairwise, repeat
from math import inf
from typing import NamedTuple

from zsched_tools import bounding, program, trials
from zsched_tools.command import Refused
from zsched_tools.program import cut_plans, job_text
from zsched_tools.reports import attempts_in
from zsched_tools.trials import job_names, tried_in, without_last
from zsched_tools.words import duration, plural

MOST_ROWS, MOST_SCRIPT = 200, 999


class Call(NamedTuple):
    """A call of a layer: how long it takes and how it ends, the begins of its attempts with their calls, the entries of
    its job's script, and its result in words (none at the bottom)."""
    ms: int
    word: str
    value: int
    attempts: tuple = ()
    entries: tuple = ()
    tried: object = None

    def bottom(self, until=inf):
        """The number of calls at the bottom that begin before a moment, and before the end of this call."""
        until = min(until, self.ms)
        return sum(it.bottom(until - begin) for begin, it in self.attempts if begin < until) if self.tried else 1

    def waits(self):
        """The waits between its attempts."""
        return [after - begin - it.ms for (begin, it), (after, _) in pairwise(self.attempts)]

    def firsts(self):
        """This call and, of each layer below it, the first one."""
        return [self, *self.attempts[0][1].firsts()] if self.tried else []


class Layers:
    """Policies, outermost first, with the draws of their schedules. `limits` has the longest attempt of each, or None,
    `entries` those of the calls at the bottom: all that are left are as the last one."""

    def __init__(self, zsched, given, limits, entries):
        self.zsched, self.given, self.limits, self.entries = zsched, given, limits, entries
        self.names = job_names(given.read)

    def call(self, level=0, done=0):
        """A call of a layer, after so many calls at the bottom."""
        done = min(done, len(self.entries) - 1)
        return Call(*self.entries[done]) if level == len(self.names) else self._called(level, done)

    @functools.cache
    def _called(self, level, done):
        inner = [self._cut(level, self.call(level + 1, done))]
        counts = [inner[0].bottom()]
        while done + sum(counts) < len(self.entries) and inner[-1].word == "err" and len(inner) < MOST_SCRIPT:
            inner.append(self._cut(level, self.call(level + 1, done + sum(counts))))
            counts.append(inner[-1].bottom())
        entries = [it[:3] for it in inner]
        limit = self.given.read[level].deadline
        until = min(self.given.until, limit or self.given.until)
        report = without_last(program.run_plan(self.zsched, cut_plans(until, [self.job(level, entries)])[0][0]), limit)
        (tried,), begins = tried_in(report, [limit]), [int(it[0]) for it in attempts_in(report)]
        if tried.how == "unfinished" and level:
            raise Refused(f"{self.given.read[level].text}: a call has no end up to {duration(tried.at)}, and it is an "
                          "attempt of the policy over it; --after N lets calls at the bottom succeed")
        word = "ok" if tried.how == "succeeded" else "err"
        attempts = tuple((begin, inner[min(at, len(inner) - 1)]) for at, begin in enumerate(begins))
        value = self.entries[0][2] if tried.how == "cut" else int(tried.result or 0)
        return Call(tried.at, word, value, attempts, tuple(entries), tried)

    def _cut(self, level, call):
        """A call as an attempt of the policy over it, which may have a limit."""
        limit = self.limits[level] if level + 1 < len(self.names) else None
        call = call._replace(ms=limit, word="err", value=self.entries[0][2]) if limit and call.ms > limit else call
        return call if call.word == "ok" else call._replace(value=self.given.read[level].seen(call.value))

    def job(self, level, entries, name=None, start=None):
        schedule = self.given.schedules[level]
        return job_text(name or self.names[level], schedule, trials.entries_text(entries), "retry", start)

    def jobs(self, call, level=0, name="", start=0):
        """The jobs of a call and of those below it."""
        yield self.job(level, call.entries, self.names[level] + name, start or None)
        for number, (begin, it) in enumerate(call.attempts, 1) if level + 1 < len(self.names) else ():
            yield from self.jobs(it, level + 1, f"{name}-{number}", start + begin)

    def limits_of_jobs(self, call, level=0, start=0, until=inf):
        """The moments at which limits end the calls of `jobs`, or None."""
        until = min(until, start + call.ms)
        yield until if call.tried.how == "cut" or until < start + call.tried.at else None
        for begin, it in call.attempts if level + 1 < len(self.names) else ():
            yield from self.limits_of_jobs(it, level + 1, start + begin, until)

    def depths(self, call, level=0):
        """How many layers are over each of `jobs`."""
        yield level
        for _, it in call.attempts if level + 1 < len(self.names) else ():
            yield from self.depths(it, level + 1)

    def plan(self, call):
        """The plan of all calls but those at the bottom."""
        found = []
        for job in self.jobs(call):
            found.append(job)
            if len(found) > MOST_ROWS:
                raise Refused(f"a picture and a plan have at most {MOST_ROWS} calls")
        return cut_plans(self.given.until, found)[0][0]

    def bounds(self, path, driver):
        """What runs a policy and its bounds, for each, outermost first; and the bounds of the whole, which counts calls
        at the bottom. `driver` runs the last policy."""
        found, most, attempt, is_cut = [], 1, driver.attempt, False
        for level in reversed(range(len(self.names))):
            limit = self.limits[level] if level + 1 < len(self.names) else None
            if found:
                run, is_cut = found[0][1].latest()
                attempt = None if run is None else (min(attempt[0], run) if attempt else 1, run)
            if limit and found:
                is_cut = is_cut and run > limit
                attempt = (min(attempt[0], limit), min(attempt[1], limit)) if attempt else (1, limit)
            driver = driver._replace(attempt=attempt)
            bound = bounding.of_policies(path, [self.given.read[level]], [driver])[0]
            most = most * bound.most if None not in (most, bound.most) else None
            found.insert(0, (driver, replace(bound, is_cut_inside=is_cut)))
        return found, replace(found[0][1], most=most, is_proved=all(it.is_proved for _, it in found),
                              is_product=most is not None)


def ended(call):
    """How the whole ended in a run."""
    return f"{call.tried.ending()} after {plural(call.bottom(), 'call')} at the bottom, {duration(call.ms)}"


def most(whole):
    """What the whole does at most."""
    count = "no limit of" if whole.most is None else f"at most {whole.most}"
    return f"{count} calls at the bottom{', without limits of calls' if whole.latest()[1] else ''}{whole.end()}"


def total(call, whole):
    """The whole in a line: its run, and its bounds if they are known."""
    return f"{ended(call)}; {bounding.mark(whole)}{most(whole)}" if whole else ended(call)


def show(layers, call, found, whole, every):
    """Prints a line for each layer and one for the whole, each with the bounds and what they are for."""
    widest = max(map(len, [*layers.names, "the whole"])) + 2

    def line(name, what, bound, scope="", proved=""):
        known = [f"{'':{widest}}{bounding.mark(bound)}{every}{scope}: {proved}"] if bound else []
        print(f"{name:<{widest}}{what}", *known, sep="\n")
    for level, (inner, name) in enumerate(zip(call.firsts(), layers.names)):
        below, driver, bound = layers.names[level + 1:level + 2], *(found[level] if found else (None, None))
        scope = driver and driver.words(f"calls of {below[0]}" if below else "attempts", bool(below))
        line(name, inner.tried.line(), bound, scope, bound and bound.line())
    line("the whole", ended(call), whole, found and found[-1][0].words("calls at the bottom"), whole and most(whole))


def as_object(layers, call, found, whole):
    """What `show` prints, as an object of JSON."""
    each = []
    for policy, inner, (driver, bound) in zip(layers.given.read, call.firsts(), found or repeat((None, None))):
        each.append(trials.as_object(policy, inner.tried, bound, driver))
    return {"layers": each, "whole": {
        "how": call.tried.how, "result": call.tried.result, "end_ms": call.ms, "calls": call.bottom(),
        "for_every_input": whole and {
            "is_proved": whole.is_proved and not whole.is_product, "is_end_proved": whole.is_proved,
            "most_calls": whole.most,
            "end_ms": None if whole.is_cut_inside else whole.call(),
            "end_by_limit_ms": whole.latest()[0] if whole.latest()[1] else None}}}


def refuse_options(given):
    """Layers retry, and only some limits are those of the whole."""
    for name in ["require_wait", "require_waits", "max_wait", "within"]:
        if getattr(given, name) is not None:
            raise Refused(f"--{name.replace('_', '-')} is for a policy alone; --require-attempts and --require-end, "
                          "--max-attempts and --max-end hold for the whole of layers")
    if given.mode == "repeat" or len(given.policies) > 1:
        raise Refused("--over takes one POLICY, which retries")
