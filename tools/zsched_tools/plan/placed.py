"""The values of a file that becomes a plan, each with its place, and the text of the plan."""
import bisect
import json
import re
from typing import NamedTuple

from zsched_tools.place import Cause, FaultAt

DEEPEST = 20
_HALF_OF_A_PAIR = re.compile("[\ud800-\udfff]")


class Key(str):
    """A key of a table. `at` is its place in the file."""
    at = 0


class Raw(str):
    """A number that isn't whole, as it is written in the file."""


class Value(NamedTuple):
    """A value of a file: a dict of Keys and Values, a list of Values, a text, an int, a Raw, a bool
    or None. `at` is its place. `inside` is the place of a text's first character if the file has
    the text character by character, else None."""
    data: object
    at: int
    inside: int | None = None

    def part(self, begin, end):
        """The place and size of a part of a text, or of the text if its parts have no places."""
        return (self.at, 1) if self.inside is None else (self.inside + begin, end - begin)


def _json(data):
    """A text, a number, a truth value or None as JSON, with escapes only if they are necessary."""
    is_odd = isinstance(data, str) and _HALF_OF_A_PAIR.search(data) is not None
    return json.dumps(data, ensure_ascii=is_odd)


def key(name, at):
    """A Key at a place."""
    made = Key(name)
    made.at = at
    return made


class Written:
    """A plan's text, a job a line. `place` maps a place of the text to the file."""

    def __init__(self, root):
        pieces, length, self._marks = [], 0, []
        for text, *mark in _pieces(root, 0):
            self._marks += [(length, *mark)] if mark else []
            pieces.append(text)
            length += len(text)
        self.text = "".join([*pieces, "\n"])

    def place(self, at):
        """The place in the file of what is at a place of the text, and whether it is that of a character of a text."""
        number = bisect.bisect_right(self._marks, at, key=lambda mark: mark[0]) - 1
        begin, place, inside = self._marks[number]
        if inside is None or at == begin:
            return place, False
        return inside + at - begin - 1, True


def _pieces(value, depth, between=","):
    """The pieces of a value's text, those with a place each with it and with that of its first character, or None."""
    if depth == DEEPEST:
        raise FaultAt(Cause(value.at, 1, f"this is nested deeper than {DEEPEST}"))
    if isinstance(value.data, dict):
        yield "{", value.at, None
        for number, (name, item) in enumerate(value.data.items()):
            yield ("," if number else "",)
            yield f"{_json(name)}:", name.at, None
            yield from _pieces(item, depth + 1, ",\n" if depth == 0 and name == "jobs" else ",")
        yield ("}",)
    elif isinstance(value.data, list):
        yield "[" + between[1:], value.at, None
        for number, item in enumerate(value.data):
            yield (between if number else "",)
            yield from _pieces(item, depth + 1)
        yield (between[1:] + "]",)
    else:
        text = value.data if isinstance(value.data, Raw) else _json(value.data)
        has_letters = isinstance(value.data, str) and len(text) == len(value.data) + 2
        yield text, value.at, value.inside if has_letters else None
