"""Waits as the text of a schedule, in its shortest form."""
import functools
import itertools
import math
import operator
import re
from fractions import Fraction
from typing import Callable, NamedTuple

from zsched_tools.hints import said

# A schedule is at most 64 levels deep, and a list of n delays takes n + 1 of them. A limit of time takes one more.
MOST_PIECES = 60
# So many waits are tried to find those pieces, since waits below a millisecond may be equal when rounded.
MOST_TRIED = 5000
GREATEST = 2**64 - 1


class Waits(NamedTuple):
    """The waits of a policy. `at` returns the one with this number, from 1, in whole milliseconds. All from `steady` on
    are equal. `closed` returns the text of an endless schedule with these first n waits (None: all), or None."""
    at: Callable[[int], int]
    steady: int | None = None
    closed: Callable[[int | None], str | None] = lambda _: None


def nearest(wait):
    """The nearest whole number of milliseconds; a half is rounded up. For systems that count in less than those."""
    return int(Fraction(wait) + Fraction(1, 2))


def constant(wait):
    whole = nearest(wait)
    return Waits(lambda _: whole, 1, lambda _: f"spaced({whole})" if whole else "forever")


def listed(waits):
    """The waits of a list, the last of which is repeated."""
    return Waits(lambda number: waits[min(number, len(waits)) - 1], len(waits))


def growing(following, most=None, least=0, base=None):
    """Waits that don't fall: those of the iterator `following`, at least `least` and at most `most`. `base` is the text
    of a schedule of the unlimited ones, if there is one."""
    if most is not None and least > most:
        return constant(least)
    unlimited = []

    def fill(number):
        while len(unlimited) < number and not (unlimited and most is not None and unlimited[-1] >= most):
            unlimited.append(next(following))

    def at(number):
        fill(number)
        wait = max(least, unlimited[min(number, len(unlimited)) - 1])
        return nearest(wait if most is None else min(wait, most))

    def closed(number):
        fill(1 if number is None else min(number, MOST_TRIED))
        is_low = unlimited[0] < least
        is_high = most is not None and (number is None or number > len(unlimited) or unlimited[number - 1] > most)
        if base is None or (is_low and least % 1) or (is_high and most % 1):
            return None
        text = f"({base} && spaced({int(least)}))" if is_low else base
        return f"({text} || spaced({int(most)}))" if is_high else text

    fill(MOST_TRIED if most is not None else 1)
    return Waits(at, len(unlimited) if most is not None and unlimited[-1] >= most else None, closed)


def exponential(first, factor, most=None, least=0):
    """Waits of first, first * factor, first * factor * factor and so on. A ValueError says why they can't be."""
    first, factor = Fraction(first), Fraction(factor)
    if first == 0 or factor == 1:
        return constant(max(least, first if most is None else min(first, most)))
    if factor < 1:
        raise ValueError(said("fall"))
    base = f"exponential({first})" if factor == 2 else f"exponential({first}, {factor})"
    waits = itertools.accumulate(itertools.repeat(factor), operator.mul, initial=first)
    return growing(waits, most, least, base if first.denominator == factor.denominator == 1 else None)


def linear(first, step, most=None):
    """Waits of first, first + step, first + 2 * step and so on."""
    if step < 0:
        raise ValueError(said("fall"))
    base = f"linear({first})" if first == step and Fraction(first).denominator == 1 else None
    return growing(itertools.count(Fraction(first), step), most, 0, base) if step else constant(
        first if most is None else min(first, most))


def fibonacci(most=None):
    """Waits of 1, 1, 2, 3, 5 and so on, in seconds."""
    def following():
        last, wait = 0, 1000
        while True:
            yield wait
            last, wait = wait, last + wait
    return growing(following(), most, 0, "fibonacci(1000)")


def decorrelated(first, at, before):
    """Polly's wait by the moments that are drawn for it and the wait before: f(at) - f(before) divided by 1.4, with
    f(t) = 2^t * tanh(sqrt(4t)), which is 0 before 0."""
    one, other = (2.0**it * math.tanh(math.sqrt(4 * it)) if it > 0 else 0.0 for it in (at, before))
    return (one - other) / 1.4 * first


def together(parts):
    """The sums of the waits of parts."""
    steady = None if any(part.steady is None for part in parts) else max(part.steady for part in parts)
    rest = [part for part in parts if part.steady != 1 or part.at(1)]
    at = functools.cache(lambda number: sum(part.at(number) for part in parts))
    return (rest or parts)[0] if len(rest) < 2 else Waits(at, steady)


def one_by_one(parts):
    """The first wait of the first part, the second of the second and so on. The last part has all later ones."""
    steady = parts[-1].steady and max(len(parts), parts[-1].steady)
    return Waits(lambda number: parts[min(number, len(parts)) - 1].at(number), steady)


def spelled(waits, retries, limit=None):
    """The schedule of so many retries (None: without an end) that stops when `limit` milliseconds have passed, and what
    of the waits it leaves out, by name."""
    if isinstance(waits, str):
        return waits, {}
    closed = waits.closed(retries) if retries != 0 else None
    texts, left_out = ["recurs(0)"] if retries == 0 else [], {}
    if closed is not None:
        texts = [closed if retries is None else f"recurs({retries})" if closed == "forever"
                 else f"({closed} && recurs({retries}))"]
    runs, number = _runs(waits, retries) if retries != 0 else ([], 0)
    if not texts and not runs:
        raise ValueError(said("above", most=GREATEST))
    if not texts or (number is None and len(_chain(runs)) < len(texts[0])):
        texts = [_chain(runs)]
        left_out = {} if number is None else {
            "waits": f"after the first {number}, of {'all later ones' if retries is None else f'{retries} in all'}"}
    if any(int(it) > GREATEST for it in re.findall("[0-9]+", texts[0])):
        raise ValueError(said("above", most=GREATEST))
    return texts[0] if limit is None else f"({texts[0]} && elapsed.whileOutput(< {limit}))", left_out


class Draws(NamedTuple):
    """Waits that are drawn as the words of a jitter say, and cut only then to the greatest, a whole number, if any."""
    waits: Waits
    jitter: str
    most: int | None = None


def drawn(jitter, draws, schedule, waits, retries, limit):
    """A policy with its random waits in the words of the tools, or None. `schedule` has the greatest ones, `waits`."""
    kind, percent = jitter.get("kind"), Fraction(str(jitter.get("percent", 0))) / 100
    if isinstance(draws, str):
        return draws
    if draws:
        is_cut = draws.most and not (retries and waits.at(retries) < draws.most)
        text, left_out = spelled(draws.waits, retries, None if is_cut else limit)
        text = f"{text} jitter {draws.jitter}"
        if is_cut:
            parts = [f"({text} || spaced({draws.most}))", retries and f"recurs({retries})",
                     limit and f"elapsed.whileOutput(< {limit})"]
            text = functools.reduce("({} && {})".format, filter(None, parts))
        return None if left_out else text
    if kind == "proportional":
        return f"{schedule} jitter {(1 - percent) / (1 + percent)}..1"
    if kind == "added" and percent:
        return f"{schedule} jitter {1 / (1 + percent)}..1"
    return f"{schedule} jitter full" if kind == "full" else None


def _runs(waits, retries):
    """The waits as pairs of a wait and how often it is repeated (None: always); and the number of waits that they have,
    or None if it is all."""
    runs, number = [], 1
    while retries is None or number <= retries:
        wait, is_last = waits.at(number), waits.steady is not None and number >= waits.steady
        count = (None if retries is None else retries - number + 1) if is_last else 1
        if wait > GREATEST or number > MOST_TRIED or (len(runs) == MOST_PIECES and runs[-1][0] != wait):
            return runs, number - 1
        if runs and runs[-1][0] == wait:
            before = runs.pop()[1]
            count = None if count is None else before + count
        runs.append((wait, count))
        if is_last:
            break
        number += 1
    return runs, None


def _chain(runs):
    pieces = [(f"spaced({wait})" if wait else "forever") if count is None else
              f"(recurs({count}) && spaced({wait}))" if wait else f"recurs({count})" for wait, count in runs]
    if len(runs) == 1 and runs[0][0] and runs[0][1] is not None:
        return f"(spaced({runs[0][0]}) && recurs({runs[0][1]}))"
    return functools.reduce(lambda later, piece: f"({piece} andThenEither {later})", reversed(pieces))
