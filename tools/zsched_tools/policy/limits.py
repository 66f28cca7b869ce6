"""The file .zsched.toml: which files aren't read, the limits of policies, and which findings are ignored, and why.

docs/FORMATS.md has its keys. Each part that fits nothing is an error, if all files of its folder are read."""
import fnmatch
import os
import re
from typing import NamedTuple

from zsched_tools import command
from zsched_tools.command import Refused
from zsched_tools.durations import milliseconds
from zsched_tools.hints import near
from zsched_tools.place import Cause, FaultAt, line_of, told
from zsched_tools.plan.policy_file import read_toml
from zsched_tools.program import LAST_MOMENT
from zsched_tools.words import shown

NAME = ".zsched.toml"
_TIMES = ("wait", "waits", "end", "attempt", "asked")
_UNLESS_ANY = {"attempt": None, "asked": LAST_MOMENT}
_LOAD = ("clients", "within", "attempts")
_KEYS = {"limits": ("path", "name", "attempts", *_TIMES, "load", "by_call_limit", "allow_left_out"),
         "layers": ("names", "attempts", "end", "attempt", "asked", "by_call_limit", "by_product", "allow_left_out"),
         "ignore": ("path", "name", "reason")}


class Load(NamedTuple):
    """At most so many attempts of a number of clients that begin at once, within a time."""
    clients: int
    within: int
    attempts: int


class Entry:
    """An item of a list of the file, with its keys as attributes; those that it doesn't have are None. `used` says
    whether it fits anything, `line` is its line."""

    def __init__(self, kind, given, line):
        self.kind, self.line, self.used = kind, line, False
        for key in _KEYS[kind]:
            setattr(self, key, given.get(key))

    def fits(self, path, name):
        """Whether the entry is for a policy, or for a file, whose name is None."""
        return (self.path is None or fnmatch.fnmatchcase(path, self.path)) and (
            self.name is None or name is not None and fnmatch.fnmatchcase(name, self.name))

    def words(self):
        """The entry as a part of a message."""
        found = [f"{key} {shown(str(getattr(self, key)))}" for key in ("path", "name", "names") if getattr(
            self, key, None)]
        return f"[[{self.kind}]]{' of ' * bool(found)}{' and '.join(found)}"


class Config:
    """A file .zsched.toml, or none. Paths are those from its folder, with slashes."""

    def __init__(self, folder, path=None, tree=None):
        tree = tree or {}
        self.folder, self.path = folder, path
        self.leave_out, self.leave_line = {pattern: 0 for pattern in tree.get("leave_out", ())}, tree.get("line")
        self.limits, self.layers, self.ignored = (tree.get(kind, []) for kind in _KEYS)

    def relative(self, path):
        return os.path.relpath(path, self.folder).replace(os.sep, "/")

    def left_out(self, path):
        """The first pattern that leaves out a file, or None."""
        for pattern in self.leave_out:
            if fnmatch.fnmatchcase(self.relative(path), pattern):
                self.leave_out[pattern] += 1
                return pattern
        return None

    def of(self, path, name):
        """The limits of a policy by their names, each with the entry that has it: a later one replaces it."""
        found = {}
        for entry in self.limits:
            if entry.fits(self.relative(path), name):
                entry.used = True
                found |= {key: getattr(entry, key) for key in _KEYS["limits"][2:] if getattr(entry, key) is not None}
        return found

    def reason(self, path, name):
        """Why the findings of a policy, or of a file, are ignored, or None."""
        for entry in self.ignored:
            if entry.fits(self.relative(path), name):
                entry.used = True
                return entry.reason
        return None

    def unused(self, allowed):
        """What fits nothing: its line, and the words for it. `allowed` has the settings that policies leave out."""
        yield from ((self.leave_line, f'leave_out "{shown(it)}"') for it, count in self.leave_out.items() if not count)
        yield from ((it.line, it.words()) for it in (*self.limits, *self.ignored) if not it.used)
        yield from ((it.line, f'allow_left_out "{shown(name)}"') for it in (*self.limits, *self.layers)
                    for name in it.allow_left_out or () if name not in allowed)


def find(places):
    """The path of the file in the folder that has all places, or in the nearest one above it in a checkout, or None."""
    folders = [it if os.path.isdir(it) else os.path.dirname(it) or "." for it in places]
    folder = os.path.commonpath([os.path.abspath(it) for it in folders])
    while not os.path.isfile(path := os.path.join(folder, NAME)):
        if os.path.exists(os.path.join(folder, ".git")) or folder == (folder := os.path.dirname(folder)):
            return None
    return os.path.relpath(path)


def read(path):
    """The Config of a file."""
    data = command.read(path)
    try:
        text = data.decode("utf-8-sig")
    except UnicodeDecodeError as fault:
        line = data.count(b"\n", 0, fault.start) + 1
        raise Refused(f"{path}:{line}: the text is not UTF-8") from None
    try:
        tree = {}
        for key, value in _table(read_toml(text), "the file", [*_KEYS, "leave_out"]).items():
            tree[str(key)] = _texts(value, key) if key == "leave_out" else [
                _entry(it, str(key), line_of(text, it.at)) for it in _list(value, key)]
            tree["line"] = line_of(text, value.at) if key == "leave_out" else tree.get("line")
    except FaultAt as fault:
        raise Refused(*told(path, text, fault.cause)) from None
    return Config(os.path.dirname(path) or ".", path, tree)


def _refuse(at, what, help=""):
    raise FaultAt(Cause(at, 1, what, help))


def _table(value, what, known):
    if not isinstance(value.data, dict):
        _refuse(value.at, f"{what} is not a table")
    for key in value.data:
        if key not in known:
            meant = near(key, known)
            _refuse(key.at, f"unknown key {shown(key)}", f"write {meant}" if meant else f"known: {', '.join(known)}")
    return value.data


def _list(value, key):
    if not isinstance(value.data, list):
        _refuse(value.at, f"{key} is not a list", f"write [[{key}]]" if key in _KEYS else f'write {key} = [".."]')
    return value.data


def _texts(value, key):
    return [_text(it, key) for it in _list(value, key)]


def _text(value, key):
    if not isinstance(value.data, str) or not value.data:
        _refuse(value.at, f"{key} is not a text")
    return value.data


def _whole(value, key):
    if type(value.data) is not int or not 0 <= value.data < 2**63:
        _refuse(value.at, f"{key} is not a whole number")
    return value.data


def _time(value, key):
    if value.data == "any" and key in _UNLESS_ANY:
        return _UNLESS_ANY[key]
    if re.fullmatch(r"\s*+[0-9_.]++\s*+", str(value.data)):
        _refuse(value.at, f"{key} has no unit", f'write {key} = "{value.data}s", or "{value.data}ms"')
    try:
        found = milliseconds(str(value.data))
    except ValueError as fault:
        _refuse(value.at, str(fault), f'write {key} = "1.5s"')
    if not found <= LAST_MOMENT:
        _refuse(value.at, f"{key} is above {LAST_MOMENT} ms")
    return found


def _load(value, key):
    parts = _table(value, key, _LOAD)
    if missing := next((it for it in _LOAD if it not in parts), None):
        _refuse(value.at, f"{key} has no {missing}", 'write load = { clients = 1000, within = "10s", attempts = 3000 }')
    parts = {str(name): (_time if name == "within" else _whole)(it, name) for name, it in parts.items()}
    if not parts["within"]:
        _refuse(value.at, "within is 0")
    return Load(**parts)


def _truth(value, key):
    if not isinstance(value.data, bool):
        _refuse(value.at, f"{key} is neither true nor false")
    return value.data


def _entry(value, kind, line):
    """The Entry of a table."""
    reads = {**dict.fromkeys(_TIMES, _time), "attempts": _whole, "load": _load, "by_call_limit": _truth,
             "by_product": _truth, "names": _texts, "allow_left_out": _texts}
    given = {str(key): reads.get(key, _text)(it, key) for key, it in _table(value, kind, _KEYS[kind]).items()}
    if kind == "ignore" and not ("reason" in given and {"path", "name"} & given.keys()):
        _refuse(value.at, "ignore needs a reason, and a path or a name", 'write reason = "..", and name or path')
    if kind == "limits" and not given.keys() - {"path", "name"}:
        _refuse(value.at, "limits has no limit", 'write attempts = 6, or end = "30s"')
    if kind == "layers" and not (len(given.get("names", ())) > 1 and {"attempts", "end"} & given.keys()):
        _refuse(value.at, "layers needs two names or more, outermost first, and attempts or end")
    if given.get("attempt") == 0:
        _refuse(value.at, "attempt is 0")
    return Entry(kind, given, line)
