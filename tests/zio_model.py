"""Schedules of ZIO 2 by the definitions of its sources, as far as the tables in docs/RECIPES.md speak of them.

The tests compare these tables with it. Nothing here depends on zsched's results, except for the text of outputs. What
is named here has its name in ZIO, with `_` for a capital.

A schedule is a first state and a step: from a moment, an input and a state to a state, an output and the moment of the
next run, or None if it is done. Intervals are open to the right, so a moment represents one. Moments are in
milliseconds. A pair is a tuple of two, Left and Right are lists of a word and an output, and the unit is 0."""
import functools


class Schedule:
    def __init__(self, initial, step):
        self.initial, self.step = initial, step

    def decide(self, change):
        """The schedule whose results (input, output, moment, next) are changed to (output, next)."""
        def step(now, given, state):
            state, out, after = self.step(now, given, state)
            return (state, *change(given, out, now, after))
        return Schedule(self.initial, step)

    def map(self, change): return self.decide(lambda given, out, now, after: (change(out), after))
    def unit(self): return self.map(lambda out: 0)
    def passthrough(self): return self.decide(lambda given, out, now, after: (given, after))
    def check(self, test): return self.decide(lambda given, out, now, after: (out, after if test(given, out) else None))
    def while_input(self, test): return self.check(lambda given, out: test(given))
    def while_output(self, test): return self.check(lambda given, out: test(out))

    def modify_delay(self, change):
        return self.decide(lambda given, out, now, after: (
            out, None if after is None else now + change(out, after - now)))

    def add_delay(self, more): return self.modify_delay(lambda out, delay: delay + more(out))

    def fold(self, first, change):
        """Outputs what was folded before this step."""
        def step(now, given, state):
            inner, folded = state
            inner, out, after = self.step(now, given, inner)
            return (inner, folded if after is None else change(folded, out)), folded, after
        return Schedule((self.initial, first), step)

    def repetitions(self): return self.fold(0, lambda number, out: number + 1)

    def anew(self, test):
        """Steps once more from the first state if what the step returned passes."""
        def step(now, given, state):
            answer = self.step(now, given, state)
            return self.step(now, given, self.initial) if test(*answer) else answer
        return Schedule(self.initial, step)

    def forever(self): return self.anew(lambda state, out, after: after is None)
    def reset_when(self, test): return self.anew(lambda state, out, after: test(out))
    def up_to(self, duration): return both(self, up_to(duration)).map(lambda out: out[0])

    def reset_after(self, duration):
        return both(self, elapsed()).reset_when(lambda out: out[1] >= duration).map(lambda out: out[0])


def joined(left, right, choose):
    def step(now, given, state):
        first, one, here = left.step(now, given, state[0])
        second, two, there = right.step(now, given, state[1])
        return (first, second), (one, two), choose([it for it in (here, there) if it is not None])
    return Schedule((left.initial, right.initial), step)


def later(moments): return max(moments) if len(moments) == 2 else None
def both(left, right): return joined(left, right, later)
def either(left, right): return joined(left, right, lambda moments: min(moments, default=None))


def and_then_either(left, right):
    def step(now, given, state):
        first, second, is_left = state
        if is_left:
            first, out, after = left.step(now, given, first)
            if after is not None:
                return (first, second, True), ["Left", out], after
        second, out, after = right.step(now, given, second)
        return (first, second, False), ["Right", out], after
    return Schedule((left.initial, right.initial, True), step)


def and_then(left, right): return and_then_either(left, right).map(lambda out: out[1])


def compose(left, right):
    def step(now, given, state):
        first, out, here = left.step(now, given, state[0])
        second, out, there = right.step(now, out, state[1])
        return (first, second), out, None if None in (here, there) else max(here, there)
    return Schedule((left.initial, right.initial), step)


def since_begin(result):
    """The schedule whose output and next moment follow from the moment and the moment of the first step."""
    def step(now, given, state):
        begun = now if state is None else state
        return (begun, *result(now, begun))
    return Schedule(None, step)


def unfold(first, change): return Schedule(first, lambda now, given, state: (change(state), state, now))
def forever(): return unfold(0, lambda number: number + 1)
def recurs(times): return forever().while_output(lambda out: out < times)
def identity(): return Schedule(0, lambda now, given, state: (state, given, now))
def elapsed(): return since_begin(lambda now, begun: (now - begun, now))
def up_to(duration): return elapsed().while_output(lambda out: out < duration)
def delayed(schedule): return schedule.add_delay(lambda out: out)
def spaced(delay): return forever().add_delay(lambda out: delay)
def linear(delay): return delayed(forever().map(lambda number: delay * (number + 1)))
def exponential(delay, factor=2): return delayed(forever().map(lambda number: delay * factor ** number))


def fibonacci(delay):
    return delayed(unfold((delay, delay), lambda two: (two[1], two[0] + two[1])).map(lambda two: two[0]))


def windowed(window):
    ends = since_begin(lambda now, begun: (now, now + window - (now - begun) % window))
    return both(ends, forever()).map(lambda out: out[1])


def duration(delay):
    return Schedule(True, lambda now, given, state: (False, delay, now + delay) if state else (False, 0, None))


def from_durations(*delays): return functools.reduce(and_then, map(duration, delays))


def text_of(out):
    if isinstance(out, tuple):
        return f"({text_of(out[0])},{text_of(out[1])})"
    return f"{out[0]}({text_of(out[1])})" if isinstance(out, list) else str(out)
