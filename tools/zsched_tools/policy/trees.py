"""Schedules as trees, with what is known of their outputs. They are built of schedules, functions and tests."""
import functools
import re
from fractions import Fraction
from typing import NamedTuple

from zsched_tools.hints import OPERATORS
from zsched_tools.schedule_rules import MAX_DEPTH, MAX_WEIGHT, folded

NUMBER, UNIT, UNKNOWN = ("number",), ("unit",), ("unknown",)
OPPOSITE = {"<": ">=", ">=": "<", "<=": ">", ">": "<=", "=": "!=", "!=": "="}
ENDLESS = {"forever", "spaced", "fixed", "windowed", "exponential", "linear", "fibonacci", "identity", "elapsed"}
WAITING = {"spaced", "exponential", "linear", "fibonacci"}
UNSTEADY = {"elapsed", "fixed", "windowed", "identity"}


class Unfit(Exception):
    """A schedule can't be built. The text says why."""


class Tree(NamedTuple):
    """A schedule: a leaf, an operator or a method, with its parts, its words and numbers, and the kind of its outputs.
    `unknown` has outputs that aren't known, `jitter` waits that are drawn between two parts of each."""
    form: str
    parts: tuple
    words: tuple
    kind: tuple
    depth: int
    weight: int


def make(form, parts=(), words=()):
    """A tree, if it is within the limits, and functions and picks fit."""
    kind = _kind(form, [it.kind for it in parts], words)
    is_shown = form not in ("unknown", "jitter")
    depth = is_shown + max((it.depth for it in parts), default=0)
    weight = is_shown + sum(it.weight for it in parts) * (2 if form == "resetWhen" else 1)
    if depth > MAX_DEPTH or weight > MAX_WEIGHT:
        raise Unfit(f"the schedule is deeper than {MAX_DEPTH}, or has more than {MAX_WEIGHT} parts")
    if any(isinstance(it, int) and not 0 <= it < 2**64 for it in words):
        raise Unfit(f"numbers go from 0 to {2**64 - 1}")
    if form == "windowed" and words[0] == 0 or form == "exponential" and words[1] == 0:
        raise Unfit("a window and a factor are at least 1")
    return Tree(form, tuple(parts), tuple(words), kind, depth, weight)


def _kind(form, kinds, words):
    """The kind of outputs."""
    if form in OPERATORS:
        return ("sum" if form == "andThenEither" else "pair", *kinds)
    if form == "unknown":
        return UNKNOWN
    if form == "collectAll":
        return ("list", kinds[0])
    if form == "map":
        return after(kinds[0], words)
    if form in ("whileOutput", "resetWhen"):
        picked = after(kinds[0], words[:1]) if len(words) == 3 else kinds[0]
        if picked != NUMBER:
            raise Unfit("what is compared isn't a number")
    return kinds[0] if kinds else NUMBER


def after(kind, step):
    """The kind of what a step of a function gives."""
    word = step[0]
    if word == "as":
        return UNIT if len(step) == 1 else NUMBER
    if kind == UNKNOWN:
        raise Unfit("this reads an output that isn't known")
    if word in ("_1", "_2") and kind[0] == "pair":
        return kind[int(word[1])]
    if word == "size" and kind[0] == "list" or word in ("+", "*") and kind == NUMBER:
        return NUMBER
    if word == "merge" and kind[0] == "sum" and _plain(kind[1]) == _plain(kind[2]):
        return kind[1] if kind[1] == kind[2] else _plain(kind[1])
    raise Unfit("both schedules need outputs of one kind" if word == "merge" else f"{word} doesn't fit the output")


def is_one_kind(one, two):
    """Whether the outputs of two schedules are of one kind that is known."""
    return UNKNOWN not in (one.kind, two.kind) and _plain(one.kind) == _plain(two.kind)


def _plain(kind):
    """A kind in which the unit is a number, which represents it here."""
    return NUMBER if kind == UNIT else tuple(_plain(it) if isinstance(it, tuple) else it for it in kind)


def text_of(tree, is_drawn=False, scale=1):
    """The text of a tree, whose waits are multiplied by `scale`. Drawn waits have their jitter, or if `is_drawn` isn't
    set their greatest values, as far as these are whole and no test reads them."""
    words, shown = tree.words, [text_of(it, is_drawn, scale) for it in tree.parts if tree.form != "jitter"]
    if tree.form in OPERATORS:
        return f"({shown[0]} {tree.form} {shown[1]})"
    if tree.form == "jitter":
        least, most = words
        is_whole = most == 1 or scale and all(it.words[0] * most % 1 == 0 for it in nodes(tree) if it.form in WAITING)
        text = text_of(tree.parts[0], is_drawn, most if is_whole else 1)
        return text + (f" jitter {_range(least / most, 1) if is_whole else _range(least, most)}" if is_drawn else "")
    if tree.form == "unknown":
        return shown[0]
    if not tree.parts:
        words = (int(words[0] * (scale or 1)), *words[1:]) if tree.form in WAITING else words
        words = words[:1] if tree.form == "exponential" and words[1] == 2 else words
        return f"{tree.form}({', '.join(map(str, words))})" if words else tree.form
    words = ("as", 0) if words == ("as",) else words
    return f"{shown[0]}.{tree.form}" + (f"({' '.join(map(str, words))})" if words else "")


def texts_of(tree):
    """The schedule of a tree, and the same with its draws, or None."""
    is_read = any(it.form == "resetWhen" or it.form == "whileOutput" and it.parts[0].form != "elapsed"
                  for it in nodes(tree))
    made = [text_of(tree, is_drawn, 0 if is_read else 1) for is_drawn in (False, True)]
    return made[0], made[1] if any(it.form == "jitter" for it in nodes(tree)) else None


def _range(least, most):
    """The words of a jitter between two parts of each wait."""
    if most == 1 and least in (0, Fraction(1, 2)):
        return "equal" if least else "full"
    percent = (most - 1) * 100
    return f"{percent}%" if most - 1 == 1 - least and percent % 1 == 0 else f"{least}..{most}"


def nodes(tree):
    yield tree
    for it in tree.parts:
        yield from nodes(it)


class Pattern(NamedTuple):
    """A schedule as it is written: its form, parts, words, and place."""
    form: str
    parts: tuple
    words: tuple
    at: int = 0


def pattern_of(text, letters="sab"):
    """The pattern of a text. A letter is a schedule that isn't known yet."""
    text = re.sub(rf"(?<![\w])([{letters}])(?![\w(])", r"recurs(\1)", text) if letters else text

    def leaf(piece):
        words = tuple(it[0] for it in piece.arguments if it[0] != ",")
        is_letter = letters and words and words[0] in letters
        return Pattern("letter" if is_letter else piece.word, (), words, piece.at)
    return folded(text, leaf, lambda operator, *parts: Pattern(operator, parts, (), parts[0].at),
                  lambda piece, part: Pattern(piece.word, (part,), tuple(it[0] for it in piece.arguments), piece.at))


def tree_of(text):
    """The tree of a text that is a schedule."""
    return built(pattern_of(text, ""))


def built(pattern):
    form, parts, words, _ = pattern
    words = tuple(int(it) if it.isdigit() else it for it in words)
    if form == "exponential" and len(words) == 1:
        words = (*words, 2)
    return make(form, [built(it) for it in parts], words)


# What is known of a schedule.

def is_endless(tree):
    """Whether the schedule is never done."""
    if tree.form in ("||", "&&"):
        return (any if tree.form == "||" else all)(map(is_endless, tree.parts))
    if tree.form == "andThenEither":
        return any(map(is_endless, tree.parts))
    return tree.form in ENDLESS or tree.form in ("map", "collectAll", "jitter", "unknown") and is_endless(tree.parts[0])


def count(tree):
    """How often the schedule continues before it is done, if that is known."""
    if tree.form == "recurs":
        return tree.words[0]
    if tree.form in ("map", "collectAll", "jitter", "unknown"):
        return count(tree.parts[0])
    counts = [count(it) for it in tree.parts if not is_endless(it)]
    if not counts or None in counts or tree.form not in OPERATORS:
        return None
    if tree.form == "&&":
        return min(counts)
    return (max if tree.form == "||" else sum)(counts) if len(counts) == 2 else None


def is_at_once(tree):
    """Whether the schedule continues at the moment of its step, if it does."""
    return all(it.form not in WAITING | {"fixed", "windowed"} for it in nodes(tree))


def ignores_input(tree):
    return all(it.form not in ("identity", "whileInput") for it in nodes(tree))


# Functions and tests.

class Value(NamedTuple):
    """What a function gives: steps from the output, or from the input, and the kind."""
    steps: tuple
    kind: tuple
    is_input: bool = False


class Test(NamedTuple):
    """A comparison of a value, or a combination of tests: `and`, `or` (of none: it always holds, or never)."""
    word: str
    parts: tuple = ()
    value: Value | None = None
    number: int = 0

    def opposite(self):
        if self.value is not None:
            return self._replace(word=OPPOSITE[self.word])
        return Test({"and": "or", "or": "and"}[self.word], tuple(it.opposite() for it in self.parts))


def components(kind, steps=()):
    """The parts of a pair as ZIO has them, whose tuples are flat to the left: steps and kind of each."""
    left, right = kind[1:]
    first = components(left, (*steps, ("_1",))) if left[0] == "pair" else [((*steps, ("_1",)), left)]
    return [*first, ((*steps, ("_2",)), right)]


def grouped(values, kind):
    """The value that has these components, or None."""
    steps = values[0].steps
    for size in range(len(steps) + 1):
        inner = functools.reduce(after, steps[:size], kind)
        if inner[0] == "pair" and components(inner, steps[:size]) == [(it.steps, it.kind) for it in values]:
            return Value(steps[:size], inner)
    return None


def mapped(tree, steps):
    return functools.reduce(lambda made, step: make("map", [made], step), steps, tree)


def _is_pick(steps):
    return len(steps) == 1 and steps[0][0] in ("_1", "_2", "size")


def limited(tree, test):
    """The schedule as long as a test holds."""
    if test.value is None and test.word == "and":
        return functools.reduce(limited, test.parts, tree)
    if test.value is None:
        if not test.parts:
            return make("map", [make("&&", [tree, make("recurs", (), (0,))])], ("_1",))
        return functools.reduce(lambda one, two: make("map", [make("||", [one, two])], ("_1",)),
                                [limited(tree, it) for it in test.parts])
    value, words = test.value, (test.word, test.number)
    if value.is_input and not value.steps:
        return make("whileInput", [tree], words)
    if not value.is_input and (not value.steps or _is_pick(value.steps)):
        return make("whileOutput", [tree], (*(it[0] for it in value.steps), *words))
    read = make("identity") if value.is_input else tree
    return make("map", [make("&&", [tree, make("whileOutput", [mapped(read, value.steps)], words)])], ("_1",))


def reset(tree, test):
    """The schedule, which restarts when a test holds."""
    if test.value is None and test.word == "or":
        return functools.reduce(reset, test.parts, tree)
    if test.value is None:
        if len(test.parts) != 1:
            raise Unfit("a reset has one comparison, or several of which one has to hold")
        return reset(tree, test.parts[0])
    value, words = test.value, (test.word, test.number)
    if not value.steps or _is_pick(value.steps):
        return make("resetWhen", [tree], (*(it[0] for it in value.steps), *words))
    both = make("&&", [tree, mapped(tree, value.steps)])
    return make("map", [make("resetWhen", [both], ("_2", *words))], ("_1",))
