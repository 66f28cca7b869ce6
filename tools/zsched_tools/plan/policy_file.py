"""A YAML or TOML file as values with their places.

PyYAML gives the place of each value. Python's reader of TOML doesn't: this module
searches the lines for headers and keys. A value that isn't found has the place of its parent."""
import functools
import re
import tomllib

from zsched_tools.place import Cause, FaultAt
from zsched_tools.plan.placed import DEEPEST, Raw, Value, key
from zsched_tools.policy.reading import LONGEST, documents

# More than the longest plan has. An alias in a list of aliases may represent any number of values.
MOST_VALUES = 5_000_000

_NUMBER = re.compile(r"-?(?:0|[1-9][0-9]*)(?:\.[0-9]+)?(?:[eE][+-]?[0-9]+)?")
_BARE = r"[A-Za-z0-9_-]++"
_NAME = rf"""(?:{_BARE}|"[^"\n]*+"|'[^'\n]*+')"""
_HEADER = re.compile(rf"\s*+(\[\[?)\s*+({_BARE}(?:\s*\.\s*+{_BARE})*)\s*+\]\]?\s*+(?:#.*)?")
_ASSIGNED = re.compile(rf"""\s*+(?:({_BARE})|"([^"\\]++)"|'([^']++)')\s*+=\s*+""")
# A name of too many parts, for which Python's reader takes the square of their number.
_DOTTED = re.compile(rf"^[ \t\[]*+(?:{_NAME}[ \t]*+\.[ \t]*+){{{DEEPEST}}}", re.M)
_LONG = "this number is longer than any number of a plan"
_TOML_PLACE = re.compile(r"(.*) \(at (?:line (\d+), column (\d+)|end of document)\)", re.DOTALL)


def _scalar(data, at, text):
    """A text as a Value, with the places of its characters if the file has it unchanged."""
    quoted = text[at:at + 1] in ("'", '"')
    return Value(data, at, at + quoted if text.startswith(data, at + quoted) else None)


def read_yaml(text):
    found = documents(text, functools.partial(_of_yaml, text), DEEPEST, MOST_VALUES)
    if len(found) != 1:
        what = "a plan is one document, and this is another one" if found else "the file is empty"
        raise FaultAt(Cause(found[1].at, 1, what) if found else Cause(0, 0, what))
    return found[0]


def _of_yaml(text, data, mark, kind):
    """A Value of its data, its mark, and the kind of a scalar."""
    if kind in ("int", "float") and _NUMBER.fullmatch(data):
        data = int(data) if data.isdigit() and len(data) < 30 else Raw(data)
    elif kind in ("bool", "null"):
        data = None if kind == "null" else data.lower() in ("yes", "true", "on")
    elif isinstance(data, str):
        return _scalar(data, mark.index, text)
    return Value(data, mark.index)


def read_toml(text):
    if found := _DOTTED.search(text):
        raise FaultAt(Cause(found.start(), 1, f"this is nested deeper than {DEEPEST}"))
    try:
        tree = tomllib.loads(text)
    except ValueError as fault:
        if not (found := _TOML_PLACE.fullmatch(str(fault))):
            raise FaultAt(Cause(re.search("[0-9_]{4000}", text).start(), 1, _LONG)) from None
        what, line, column = found.groups()
        at = len(text)
        if line:
            at = sum(len(row) + 1 for row in text.split("\n")[:int(line) - 1]) + int(column) - 1
        raise FaultAt(Cause(min(at, len(text)), 1, f"not TOML: {what}")) from None
    except RecursionError:
        raise FaultAt(Cause(0, 0, "this is nested too deeply")) from None
    return _value_of(text, _toml_places(text), tree, (), 0)


def _header_path(names, is_item, counts):
    """The path of a header. `counts` has the number of the last item of each list of tables."""
    path = ()
    for number, name in enumerate(names, 1):
        path += (name,)
        if is_item and number == len(names):
            counts[path] = counts.get(path, -1) + 1
        if path in counts:
            path += (counts[path],)
    return path


def _toml_places(text):
    """The starts of the keys and values of a TOML document, by their paths."""
    found, counts, base, here = {(): (0, 0)}, {}, (), 0
    for line in text.split("\n"):
        header, assigned = len(line) <= LONGEST and _HEADER.fullmatch(line.rstrip("\r")), _ASSIGNED.match(line)
        if header:
            base = _header_path([it.strip() for it in header[2].split(".")], header[1] == "[[", counts)
            at = here + header.start(1)
            found.setdefault(base, (at, at))
            found.setdefault(base[:-1] if header[1] == "[[" else base, (at, at))
        elif assigned:
            name = next(filter(None, assigned.groups()))
            indent = len(line) - len(line.lstrip())
            found.setdefault(base + (name,), (here + indent, here + assigned.end()))
        here += len(line) + 1
    return found


def _value_of(text, places, data, path, outer):
    """The value of a TOML document at a path, whose parent has the place `outer`."""
    at = places.get(path, (outer, outer))[1]
    if len(path) == DEEPEST:
        raise FaultAt(Cause(at, 1, f"this is nested deeper than {DEEPEST}"))
    if isinstance(data, dict):
        return Value({key(name, places.get((*path, name), (at, at))[0]):
                      _value_of(text, places, item, (*path, name), at) for name, item in data.items()}, at)
    if isinstance(data, list):
        return Value([_value_of(text, places, item, (*path, number), at) for number, item in enumerate(data)], at)
    if isinstance(data, str):
        return _scalar(data, at, text) if path in places else Value(data, at)
    if isinstance(data, float):
        if not _NUMBER.fullmatch(repr(data)):
            raise FaultAt(Cause(at, 1, f"{data} is not a number of a plan"))
        return Value(Raw(repr(data)), at)
    if not isinstance(data, (bool, int)):
        raise FaultAt(Cause(at, 1, "a plan has no dates", "write milliseconds"))
    if data.bit_length() > 1000:
        raise FaultAt(Cause(at, 1, _LONG))
    return Value(data, at)
