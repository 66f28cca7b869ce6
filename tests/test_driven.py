"""What zsched-bounds prints of small policies, against everything that a driver can do with them: each duration of an
attempt, each wait, and each input on which a test may depend. No history may leave the bounds, and most bounds must be
reached exactly. `pytest tests/test_driven.py -n 2 -rP --examples 8` tries some 22,000 policies, and shows how many."""
import collections
import contextlib
import json
import random
import re

import bounds as intervals
import generator
import pytest
import reference
import zio_model as zio
from support import examples, run

MADE = 400      # policies of each kind, of which FLOORS are
POLICIES = examples(MADE)
# The most steps of a history, and about how much is looked at of a policy: those that have more aren't counted.
STEPS, WORK, LAST = 40, 60000, reference.LAST_TICK
ATTEMPTS = [(1, 1), (1, 3), (2, 6), (1, 8), (3, 12)]
# Attempts and waits of drivers, as in bounds.py. Of wide ones only some durations are tried.
EXACT, SPREAD, WIDE = (ATTEMPTS, [intervals.EXACT]), (ATTEMPTS, [
    (0, 100, 0, 0), (50, 100, 0, 0), (80, 120, 0, 0), (50, 150, 1, 0), (100, 100, 3, 0), (100, 100, 0, 7),
    (33, 67, 2, 5)]), ([(1, 1), (1, 8), (20, 5020), (1, 10 ** 14), (LAST, LAST)], [
        intervals.EXACT, (0, 1000, 0, 0), (250, 300, 50, 900), (0, 0, 0, 0), (1, 1, 5000, 0), (50, 150, 0, 10 ** 14),
        (100, 100, intervals.MOST, 0), (0, 100, intervals.MOST, 30)])


def fixed(period):
    def step(now, given, state):
        number, first, before = state or (0, now, None)
        is_behind = before is not None and (now > before + period or period == 0)
        after = now if is_behind else now + period - (now - first) % (period or 1)
        return (number + 1, first, after), number, after
    return zio.Schedule(None, step)


def schedule_of(s):
    """A term as a schedule of ZIO, without a limit of 64 bits. Of a list only the length can be read."""
    parts = [schedule_of(part) for part in reference.parts_of(s)]
    match s:
        case ("&&" | "||") as operator, *_:
            return {"&&": zio.both, "||": zio.either}[operator](*parts).map(lambda out: ("Pair", *out))
        case "andThenEither", *_:
            return zio.and_then_either(*parts)
        case "collectAll", _:
            return parts[0].repetitions().map(range)
        case "map", _, function, k:
            return parts[0].map(lambda out: reference.mapped(function, k, out))
        case "whileInput", _, _, test, k:
            return parts[0].while_input(lambda given: reference.COMPARISONS[test](given, k))
        case ("whileOutput" | "resetWhen") as form, _, *test:
            limited = parts[0].while_output if form == "whileOutput" else parts[0].reset_when
            return limited(lambda out: reference.passes(out, *test))
    return (fixed if s[0] == "fixed" else getattr(zio, s[0]))(*s[1:])


class Reached:
    """What all histories of a driver reach: the least and the most steps, the longest wait, all waits, the longest run.
    A history begins with a step at moment 0, which is the end of the first attempt. Of many durations three may do."""

    def __init__(self, s, inputs, driver, steps=STEPS, is_sampled=False):
        (self.shortest, self.longest), (self.low, self.high, self.late, self.asked) = driver
        self.least, self.most, self.wait, self.total, self.run = None, 0, 0, 0, self.longest
        # The earliest begin of each attempt but the first one, after that of the first one.
        self.begins = collections.defaultdict(lambda: LAST)
        schedule, self.is_sampled = schedule_of(s), is_sampled
        # Steps of one state at one moment: the longest waits before it, and the number of histories up to it.
        self.steps, self.histories, self.work, self.open = 0, 0, 0, {(schedule.initial, 0): (0, 1)}
        while self.open and self.most < steps and self.work < WORK:
            before, self.open, self.most = self.open, {}, self.most + 1
            for (state, m), (waited, histories) in before.items():
                for i in inputs:
                    after, _, then = schedule.step(m, i, state)
                    self.steps, self.work, self.histories = self.steps + 1, self.work + 10, self.histories + histories
                    if then is None:
                        self.least = self.least or self.most
                        self.see(m, waited, 0, 0)
                    else:
                        self.go_on(after, m, reference.sat(then) - m, waited, histories)

    def see(self, m, waited, wait, attempt):
        self.wait, self.total = max(self.wait, wait), max(self.total, waited + wait)
        self.run = max(self.run, self.longest + m + wait + attempt)

    def go_on(self, after, m, wait, waited, histories):
        """Adds each moment of the next step."""
        least, most = wait * self.low // 100, reference.sat(max(-(-wait * self.high // 100), self.asked) + self.late)
        self.see(m, waited, most, self.longest)
        self.begins[self.most] = min(self.begins[self.most], self.shortest + m + least)
        times = range(least + self.shortest, min(most + self.longest, LAST - m) + 1)
        times = sorted({*times[:2], *times[-1:]}) if self.is_sampled else times
        self.work += len(times)
        for time in times if self.work < WORK else times[-1:]:
            longest, number = self.open.get((after, m + time), (0, 0))
            waits = waited + min(most, time - self.shortest)
            self.open[after, m + time] = max(longest, waits), number + histories

    def judge(self, line, where):
        """Asserts that no history leaves the bounds of a line of zsched-bounds. Returns the attempts in its time."""
        least, most = line["attempts"].values()
        begun = 1 + sum(at <= line["within"]["time"] for at in self.begins.values())
        limits = [(self.most, most), (self.wait, line["every"]), (self.total, line["total_wait"]),
                  (self.run, line["longest_run"]), (begun, line["within"]["most"])]
        assert self.least is None or least <= self.least, (where, line, self.least)
        assert all(bound is None or x <= bound for x, bound in limits), (where, line, limits)
        assert self.wait <= line["longest_wait"] or self.most > line["steps_seen"], (where, line, self.wait)
        assert line["is_cut"] or self.most <= line["steps_seen"], (where, line, self.most)
        return begun


def real_policy(chance):
    """A policy as services have them: waits, a limit of time or of attempts, and what is retried."""
    waits = chance.choice(["spaced(A)", "linear(A)", "exponential(A)", "fibonacci(A)", "(exponential(A) || spaced(B))",
                           "(linear(A) || spaced(B))", "exponential(A, 3)", "fixed(B)"])
    text = chance.choice(["(W && elapsed.whileOutput(< L))", "(W && elapsed).whileOutput(_2 < L)", "(W && recurs(N))",
                          "(elapsed && W).whileOutput(_1 <= L)", "((W && recurs(N)) && elapsed.whileOutput(< L))"])
    text += chance.choice(["", "", ".map(_1)", ".whileInput(>= 5)"])
    numbers = {"A": range(1, 6), "B": range(3, 13), "L": range(3, 31), "N": range(6)}
    return re.sub("[ABLN]", lambda it: str(chance.choice(numbers[it[0]])), text.replace("W", waits))


def random_policy(chance):
    """A policy of any form, of small numbers."""
    text = generator.made_term(chance, chance.choice([2, 3, 4, 5, 6]))[0]
    text = re.sub(r"(?<![\w_])\d+", lambda _: str(chance.choice(range(9))), text)
    return chance.choice([text, f"({text} && recurs({chance.choice(range(5))}))",
                          f"({text} && elapsed.whileOutput(< {chance.choice(range(3, 21))}))"])


def phases(chance):
    """Two policies in turn, each with a limit of time, perhaps beside a third one."""
    one, other, beside = (real_policy(chance) for _ in range(3))
    text = f"({one} andThenEither {other})"
    return chance.choice([text, f"({text} && {beside})", f"({text} || {beside})", f"({one} andThenEither {text})"])


def policies(make, drivers):
    """Policies by what their driver may do: durations of attempts and waits."""
    chance, made = random.Random(2026), collections.defaultdict(list)
    for _ in range(POLICIES):
        driver = tuple(chance.choice(them) if len(them) > 1 else them[0] for them in drivers)
        text = make(chance)
        with contextlib.suppress(reference.Fault):
            made[driver].append((text, reference.read_schedule(text.encode())))
    return made


def searched(program, make, drivers, steps, within, is_sampled=False):
    """Policies of a kind: what a search reaches of each, the line of zsched-bounds, and the attempts within a time. No
    history leaves a bound."""
    all_steps, histories, number = 0, 0, 0
    for driver, made in policies(make, drivers).items():
        status, output, errors = run([program, *intervals.options(*driver), "--steps", str(steps), "--within",
                                      f"{within}ms"], "".join(f"{text}\n" for text, _ in made).encode())
        assert (status, errors) == (0, b"")
        for (text, s), line in zip(made, map(json.loads, output.splitlines()), strict=True):
            it = Reached(s, intervals.edges(text), driver, is_sampled=is_sampled)
            all_steps, histories, number = all_steps + it.steps, histories + it.histories, number + 1
            yield it, line, it.judge(line, (text, driver))
    print(f"{number} policies, {all_steps} steps of {histories} histories")
    assert number >= POLICIES * 9 // 10 and histories > 10 ** 6, (number, histories)


# Of each kind: how it is made, what drivers may do, and what share of the policies reaches the least and the most
# steps, the longest wait, all waits and the longest run, in percent.
FLOORS = {"real": (real_policy, EXACT, (99, 92, 100, 91, 90)),
          "real_with_waits": (real_policy, SPREAD, (99, 94, 100, 92, 91)),
          "random": (random_policy, EXACT, (97, 96, 99, 93, 93)),
          "random_with_waits": (random_policy, SPREAD, (99, 96, 98, 93, 90)),
          "random_with_wide": (random_policy, WIDE, (85, 80, 99, 70, 68))}


@pytest.mark.parametrize("kind", FLOORS)
def test_bounds_hold_for_all_that_a_driver_does_and_most_are_reached(kind, bounds):
    make, drivers, floors = FLOORS[kind]
    met, had = [0] * 5, 0
    for it, line, _ in searched(bounds, make, drivers, STEPS, 12, is_sampled=drivers is WIDE):
        if not it.open:
            had += 1
            reached = it.least, it.most, it.wait, it.total, it.run
            said = *line["attempts"].values(), *(line[name] for name in ("longest_wait", "total_wait", "longest_run"))
            met = [n + (x == bound) for n, x, bound in zip(met, reached, said)]
    print(f"{had} searched to the end, {met} bounds reached")
    assert had >= POLICIES // 2, had
    assert POLICIES > MADE or all(100 * n >= floor * had for n, floor in zip(met, floors)), (met, had)


@pytest.mark.parametrize("steps, within", [(3, 12), (STEPS, 30)])
def test_limits_by_a_policy_s_form_hold_after_the_steps_that_are_looked_at(steps, within, bounds):
    """Three steps are fewer than most histories of two phases have, so the limits are those of the form alone."""
    had, met = collections.Counter(), 0
    for _, line, begun in searched(bounds, phases, SPREAD, steps, within):
        had.update({"all": 1, "most": line["attempts"]["most"] is not None, "run": line["longest_run"] is not None})
        met += begun == line["within"]["most"]
    assert had["most"] >= had["all"] // 3 and had["run"] >= had["all"] // 5, had
    assert steps < STEPS or met >= had["all"] // 3, (met, had)
