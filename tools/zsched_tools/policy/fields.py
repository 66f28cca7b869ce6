"""The settings of a policy: each is taken by its name and read as a number, a duration or texts; others stay."""
import re
from fractions import Fraction
from typing import Callable, NamedTuple

from zsched_tools.durations import UNITS, exact_milliseconds
from zsched_tools.hints import TABLE
from zsched_tools.policy.reading import Table, plain
from zsched_tools.policy.spelling import drawn, spelled
from zsched_tools.settings import ERRORS, Policy
from zsched_tools.words import shown

DAY = 86_400_000
_NUMBER = r"(?:[0-9]{1,20}(?:\.[0-9]{0,20})?|\.[0-9]{1,20})"
_SPAN = re.compile(r"(?:([0-9]{1,8})\.)?([0-9]{1,2}):([0-9]{1,2})(?::([0-9]{1,2}(?:\.[0-9]{1,7})?))?")
_SIGNED = re.compile(rf"[+-]?{_NUMBER}(?:[eE][+-]?[0-9]{{1,2}})?")


def made(waits, retries, left_out, jitter=None, limit=None, draws=None, **settings):
    """The Policy of some waits, or of the text of a whole schedule, a number of retries (None: without an end), a time
    limit of all waits, and how it draws if the range of its jitter doesn't say so: Draws, or a text of the tools. A
    setting that is 0 is none."""
    schedule, more = spelled(waits, retries, limit)
    settings = {name: max(1, int(it)) if isinstance(it, Fraction) else it for name, it in settings.items() if it}
    text = drawn(jitter or {}, draws, schedule, waits, retries, limit)
    left_out = {**left_out, **more, **({"jitter": jitter} if jitter and text is None else {})}
    return Policy(schedule, text, jitter, left_out=left_out, **settings)


class Found(NamedTuple):
    """A policy of a file before it is read, with its place, from 1. `read` returns the Policy, or raises Wrong."""
    form: str
    name: str
    line: int
    read: Callable[[], Policy]
    column: int = 1

    @classmethod
    def at(cls, form, name, node, read):
        """What was found at a node."""
        return cls(form, name, node.line, read, node.column)


def default(job, setting, read=int):
    """A default of another program, in milliseconds if it is a time: from the table that docs/POLICIES.md has too."""
    text = next(text for name, text, _ in TABLE["policies"][job] if name.strip("`") == setting)
    if read is texts:
        return text.strip("`").split(",")
    exact = exact_milliseconds(text)
    return read(exact if exact is not None else Fraction(re.match("[0-9.]+", text)[0]))


def _table(node):
    if node is None or not node.is_table():
        return Table()
    return node.data if isinstance(node.data, Table) else Table(node.data)


def _plain_names(node):
    return _table(node).plain


def keys_of(node):
    """The plain names of a table's keys."""
    return _plain_names(node).keys()


def part(node, *names):
    """The value of the first key of a table that has one of these names, or None."""
    known = _plain_names(node)
    return min((known[name] for name in names if name in known and known[name][1]), default=(0, None))[1]


def timeouts(node):
    """The settings of a table whose names end with timeout."""
    return Fields(node.having(_table(node).timeouts))


def value_of(node):
    """A value as Python has it."""
    if node.is_table():
        return {name: value_of(it) for name, it in node.data.items()}
    return [value_of(it) for it in node.data] if isinstance(node.data, list) else node.data


def text_of(node):
    return node.data if node is not None and isinstance(node.data, str) else None


class Fields:
    """The settings of a table that aren't null. What isn't taken is left out."""

    def __init__(self, node, *less):
        """`less` are tables with the settings that this one doesn't have."""
        self.wrong, self.found, self.left = node.wrong, {}, {}
        for name, value in (item for table in [node, *less] if table.is_table() for item in table.data.items()):
            if value.data is not None and plain(name) not in self.found:
                self.found[plain(name)], self.left[plain(name)] = value, name

    def take(self, *names):
        """The value of the first of these names that is set, or None."""
        name = next((it for it in names if it in self.found), None)
        self.left.pop(name, None)
        return self.found.get(name)

    def get(self, read, *names, default=None, **more):
        """The value of the first of these names that is set, as `read` reads it."""
        node = self.take(*names)
        return default if node is None else read(node, **more)

    def classes(self, *names):
        """The settings of these names, whose kinds of errors have no numbers, as one that is left out."""
        found = {self.left[name]: self.get(value_of, name) for name in names if name in self.found}
        return {ERRORS: found} if found else {}

    def left_out(self, before=""):
        """The settings that weren't taken, by their names, with their whole values."""
        return {before + name: value_of(self.found[key]) for key, name in self.left.items()}


def named(node):
    """A value in a message."""
    return f'"{shown(node.data)}"' if isinstance(node.data, str) else "this"


def number(node, least=0):
    """A value as an exact fraction."""
    text = (text_of(node) or "").strip()
    if not _SIGNED.fullmatch(text):
        raise node.wrong(f"{named(node)} is not a number")
    if Fraction(text) < least:
        raise node.wrong(f"{named(node)} is less than {least}")
    return Fraction(text)


def whole(node, least=0):
    found = number(node, least)
    if found.denominator != 1:
        raise node.wrong(f"{named(node)} is not a whole number")
    return int(found)


def truth(node):
    if str(node.data).lower() not in ("true", "false"):
        raise node.wrong(f"{named(node)} is neither true nor false")
    return node.data.lower() == "true"


def items(node):
    """The values of a list, or the only one."""
    return node.data if isinstance(node.data, list) else [node]


def texts(node):
    """A list of texts, or a text with commas, as texts."""
    items = node.data.split(",") if isinstance(node.data, str) else [getattr(it, "data", None) for it in node.data]
    if not all(isinstance(item, str) for item in items):
        raise node.wrong("this is not a list of texts")
    return [item.strip() for item in items if item.strip()]


def duration(node, unit=None):
    """A duration in milliseconds: 1.5s, 1m30s, PT1.5S, 00:00:01.5, a table of seconds and nanos, or a number."""
    if node.is_table() and keys_of(node) <= {"seconds", "nanos"}:
        return sum((number(it) * UNITS["s" if plain(key) == "seconds" else "ns"] for key, it in node.data.items()),
                   Fraction(0))
    text = (text_of(node) or "").strip().lower()
    if found := _SPAN.fullmatch(text):
        return sum(Fraction(it) * size for it, size in zip(found.groups(), [DAY, 3_600_000, 60_000, 1000]) if it)
    if _SIGNED.fullmatch(text):
        if unit is None and number(node):
            raise node.wrong(f"{named(node)} has no unit: write it as 1.5s")
        return number(node) * (unit or 1)
    exact = exact_milliseconds(text.upper() if text.startswith("p") else text)
    if exact is None:
        raise node.wrong(f"{named(node)} is not a duration: write it as 1.5s")
    return exact
