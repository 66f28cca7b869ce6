"""Files as trees of nodes, each with its line: JSON, YAML, properties, and INI or lines of NAME=VALUE."""
import bisect
import contextlib
import functools
import importlib
import json
import re
import sys
from typing import NamedTuple

from zsched_tools.command import Unread, read
from zsched_tools.place import Cause, FaultAt, line_of
from zsched_tools.plan.placed import key
from zsched_tools.positions import Document
from zsched_tools.words import shown

MOST_BYTES = 2_000_000
# Of a file with all its aliases written out.
MOST_VALUES = 200_000
DEEPEST = 100
DEBIAN = "/usr/lib/python3/dist-packages"
# A line that a pattern reads has at most these letters, and so has the text of a policy.
LONGEST = 1 << 16
_PAIR = re.compile(r"((?:\\.|[^\\\s=:])+?)(\[[0-9]+\])?(?:\s*[=:]\s*|\s+|$)(.*)")
_SECTION = re.compile(r"\s*+\[([^\]]*+)\]\s*+(?:[#;].*)?")
_ASSIGNED = re.compile(r"(?:export\s++)?([A-Za-z_][\w.-]*+)\s*+=\s*+(.*)")
_COMMENT = re.compile(r"(?<!\s)\s++[#;].*")
KINDS = {"json": "json", "yaml": "yaml", "yml": "yaml", "properties": "properties", "py": "python", "ini": "ini",
         "cfg": "ini", "env": "ini", "java": "java", "kt": "java", "scala": "scala", "sc": "scala",
         "ts": "typescript", "tsx": "typescript", "mts": "typescript"}
_MARKS = {"python": r"^(?:import|from) \w|^[^\S\n]*+@\w",
          "ini": r"^\[(?:default|profile .*)\]|^(?:export[^\S\n]++)?AWS_\w++[^\S\n]*+=", "json": r"\A\s*+[{[]",
          "properties": r"^[\w.\[\]-][\w\[\]-]*+\.[\w.\[\]-]++[^\S\n]*+="}


class Wrong(Exception):
    """A file can't be understood: the line, what is wrong, and the column if it is known, both from 1."""

    def __init__(self, line, what, column=None):
        super().__init__(line, what, column)
        self.line, self.what, self.column = line, str(what), column


def plain(name):
    """A name without its style: maxAttempts, max_attempts and max-attempts are equal."""
    return re.sub("[-_]", "", name).lower()


class Table(dict):
    """A dict of nodes by their names, which is searched by plain names."""

    @functools.cached_property
    def plain(self):
        """The place and the node of each plain name, the first that isn't null; a place alone if all are."""
        found = {}
        for place, (name, node) in enumerate(self.items()):
            if found.get(key := plain(name), (0, None))[1] is None:
                found[key] = place, None if node.data is None else node
        return found

    @functools.cached_property
    def timeouts(self):
        """Those of its items whose names end with timeout."""
        return {name: node for name, node in self.items() if plain(name).endswith("timeout")}


class Node(NamedTuple):
    """A value: a dict of nodes, a list of nodes, the text of another value, or None. `size` is its number of values,
    `column` its place in the line, from 1."""
    data: object
    line: int
    size: int = 1
    column: int = 1

    def is_table(self):
        return isinstance(self.data, dict)

    def having(self, data):
        """Another value at the same place."""
        return self._replace(data=data)

    def wrong(self, what):
        """The error that this value is wrong."""
        return Wrong(self.line, what, self.column)


def read_text(path):
    """The text of a file; - is standard input."""
    data = read(path, MOST_BYTES + 1)
    if len(data) > MOST_BYTES:
        raise Unread(path, f"the file has more than {MOST_BYTES} bytes; cut out the part with the policies")
    try:
        return data.decode("utf-8-sig")
    except UnicodeDecodeError as fault:
        before = fault.object[:fault.start].decode().split("\n")
        raise Wrong(len(before), "the text is not UTF-8", len(before[-1]) + 1) from None


def _sized(data, line, column=1):
    """A table or a list with the number of its values."""
    size = 1 + sum(node.size for node in (data.values() if isinstance(data, dict) else data))
    if size > MOST_VALUES:
        raise Wrong(line, f"the file has more than {MOST_VALUES} values", column)
    return Node(Table(data) if isinstance(data, dict) else data, line, size, column)


def _put(table, key, node, line, column):
    if key in table:
        raise Wrong(line, f'the key "{key}" is on line {table[key].line} too; remove one of them', column)
    table[key] = node


def read_json(text):
    try:
        json.loads(text)
    except json.JSONDecodeError as fault:
        raise Wrong(fault.lineno, f"not JSON: {fault.msg}", fault.colno) from None
    except (RecursionError, ValueError):
        raise Wrong(1, f"not JSON: nested deeper than {DEEPEST}, or a number is too long") from None
    starts = [0, *(found.end() for found in re.finditer("\n", text))]
    return _json_node(Document(text).root(), starts, 0)


def _json_node(node, starts, depth):
    """The Node of a value of a document, whose lines start at these places."""
    line, column = _place(starts, node)
    if depth > DEEPEST:
        raise Wrong(line, f"this is nested deeper than {DEEPEST}", column)
    if node.kind == "list":
        return _sized([_json_node(it, starts, depth + 1) for it in node.items()], line, column)
    if node.kind != "object":
        return Node(node.string() if node.kind == "text" else None if node.kind == "null" else node.source, line, 1,
                    column)
    table = {}
    for name, value in node.members():
        _put(table, name.string(), _json_node(value, starts, depth + 1), *_place(starts, name))
    return _sized(table, line, column)


def _place(starts, node):
    """The line and the column of a value or a key of a document."""
    line = bisect.bisect(starts, node.at)
    return line, node.at - starts[line - 1] + 1


def documents(text, make, deepest, most):
    """The values of the documents of a YAML text, at most `most` with aliases written out. `make` makes one, with a
    member `data`, of a dict, a list or a scalar's text, its mark, and a scalar's kind. FaultAt has a fault."""
    # PyYAML, of this Python or of Debian's.
    for more in [], [DEBIAN]:
        sys.path += more
        with contextlib.suppress(ImportError):
            yaml = importlib.import_module("yaml")
            break
    else:
        raise OSError("YAML needs PyYAML, and it isn't installed (Debian: python3-yaml; pip: PyYAML)")
    try:
        return list(_Reader(yaml, text, make, deepest, most).documents())
    except yaml.MarkedYAMLError as fault:
        mark = fault.problem_mark or fault.context_mark
        _refuse(min(mark.index, len(text)), f"not YAML: {fault.problem}")
    except yaml.reader.ReaderError as fault:
        _refuse(fault.position, f"not YAML: {fault.reason}")


def _refuse(at, what, help="", size=1):
    raise FaultAt(Cause(at, size, what, help)) from None


class _Reader:
    """Reads the events of a text. `anchors` has the values that aliases name and their sizes, None for open ones."""

    def __init__(self, yaml, text, make, deepest, most):
        self.yaml, self.make, self.deepest, self.most = yaml, make, deepest, most
        self.loader, self.anchors, self.count = yaml.SafeLoader(text), {}, 0

    def documents(self):
        while self.loader.check_event():
            if isinstance(self.loader.get_event(), self.yaml.DocumentStartEvent):
                self.anchors = {}
                yield self._value(self.loader.get_event(), 0)

    def _value(self, event, depth):
        mark, before, name = event.start_mark, self.count, event.anchor
        value, size = None, 1
        if isinstance(event, self.yaml.AliasEvent):
            if self.anchors.get(name) is None:
                _refuse(mark.index, f"*{name} is inside of the value that it names" if name in self.anchors
                        else f"no value before this is named &{name}")
            value, size = self.anchors[name]
        self.count += size
        if depth == self.deepest:
            _refuse(mark.index, f"this is nested deeper than {self.deepest}")
        if self.count > self.most:
            _refuse(mark.index, f"the file has more than {self.most} values")
        if value is not None:
            return value
        self.anchors[name] = None
        if isinstance(event, self.yaml.ScalarEvent):
            tag = event.tag or self.loader.resolve(self.yaml.ScalarNode, event.value, event.implicit)
            value = self.make(event.value, mark, tag.rpartition(":")[2])
        elif isinstance(event, self.yaml.SequenceStartEvent):
            value = self.make([self._value(item, depth + 1) for item in self._inner()], mark, None)
        else:
            value = self.make(self._table(depth + 1), mark, None)
        self.anchors[name] = value, self.count - before
        return value

    def _inner(self):
        """The first event of each part of a list or a table."""
        while not isinstance(event := self.loader.get_event(), self.yaml.CollectionEndEvent):
            yield event

    def _table(self, depth):
        """The table of a mapping, with what it merges (`<<`)."""
        table, lines, merged = {}, {}, []
        for event in self._inner():
            at = event.start_mark.index
            if not isinstance(event, self.yaml.ScalarEvent):
                is_template = event.start_mark.buffer[event.start_mark.pointer - 1:].startswith("{{")
                _refuse(at, "this key is not a text", "render templates before, as helm template does" * is_template)
            name = event.value
            if name in lines and name != "<<":
                _refuse(at, f'the key "{shown(name)}" is on line {lines[name]} too', "remove one of them", len(name))
            lines[name] = event.start_mark.line + 1
            value = self._value(self.loader.get_event(), depth)
            if name != "<<":
                table[key(name, at)] = value
            else:
                merged += value.data if isinstance(value.data, list) else [value]
                if not all(isinstance(it.data, dict) for it in merged):
                    _refuse(at, "<< needs a table, or a list of tables", size=2)
        for value in merged:
            table = {**value.data, **table}
        return table


def read_yaml(text):
    """The trees of the documents of a YAML file."""
    try:
        return documents(text, _of_yaml, DEEPEST, MOST_VALUES)
    except FaultAt as fault:
        what = "; ".join(filter(None, [fault.cause.what, fault.cause.help]))
        at = fault.cause.at
        raise Wrong(line_of(text, at), what, at - text.rfind("\n", 0, at)) from None


def _of_yaml(data, mark, kind):
    """A Node of its data, its mark, and the kind of a scalar."""
    line, column = mark.line + 1, mark.column + 1
    return _sized(data, line, column) if kind is None else Node(None if kind == "null" else data, line, 1, column)


def read_properties(text):
    """The trees of the documents of a Java properties file, which lines of #--- part. A dot in a key leads one level
    down; the items of a list, as name[0], are a text with commas."""
    parts, rows, before = [], {}, []
    for number, line in _lines(text):
        if not before and line.rstrip() in ("#---", "!---"):
            parts.append(rows)
            rows = {}
            continue
        before.append(line.strip())
        if not before[0] or before[0][0] in "#!":
            before = []
        elif (len(before[-1]) - len(before[-1].rstrip("\\"))) % 2:
            before[-1] = before[-1][:-1]
        else:
            column = len(line) - len(line.lstrip()) + 1
            if not (found := _PAIR.fullmatch("".join(before))):
                raise Wrong(number, "not a property: write NAME = VALUE", column)
            # The value of several lines is at the begin of the last one.
            column += found.start(3) if len(before) == 1 else 0
            key, is_item, value = found.groups()
            path = re.sub(r"\\(.)", r"\1", key).split(".")[:DEEPEST]
            rows.setdefault(key if is_item else (key, number), (path, number, column, []))[-1].append(value.strip())
            before = []
    return [unfolded([(path, Node(",".join(items), line, 1, column)) for path, line, column, items in it.values()])
            for it in (*parts, rows)]


def _lines(text):
    """The lines of a text with their numbers, none of them too long for a pattern."""
    for number, line in enumerate(text.split("\n"), 1):
        if len(line) > LONGEST:
            raise Wrong(number, f"this line has more than {LONGEST} characters", LONGEST + 1)
        yield number, line


def unfolded(rows):
    """The tree of pairs of a path and a node. A table joins the other values of its path."""
    groups = {}
    for names, node in rows:
        groups.setdefault(names[0], []).append((names[1:], node))
    for name, parts in groups.items():
        if len(parts) > 1 or parts[0][0]:
            whole = next((node for names, node in parts if not names and not node.is_table()), None)
            if whole is not None:
                last = max((node for _, node in parts), key=lambda it: it.line)
                raise last.wrong(f'"{name}" has a value on line {whole.line}, so it has no other one, and no part')
            parts = [row for names, node in parts for row in ([(names, node)] if names else [
                ([key], value) for key, value in node.data.items()])]
            groups[name] = unfolded(parts)
        else:
            groups[name] = parts[0][1]
    return _sized(groups, min((node.line for node in groups.values()), default=1))


def read_ini(text):
    """The tree of an INI file: its sections, with their keys. Keys before the first section are those of "". Indented
    lines belong to the key before them, and are left out."""
    sections, here = {"": Node({}, 1)}, ""
    for number, line in _lines(text):
        if found := _SECTION.fullmatch(line):
            here = found[1].strip()
            _put(sections, here, Node({}, number), number, 1)
        elif (found := _ASSIGNED.fullmatch(line)) and not line[0].isspace():
            text = _COMMENT.sub("", found[2]).rstrip().strip("\"'")
            _put(sections[here].data, found[1], Node(text, number, 1, found.start(2) + 1), number, 1)
        elif line.strip() and line.strip()[0] not in "#;" and not line[0].isspace():
            raise Wrong(number, "not INI: write [section], or NAME = VALUE", 1)
    return Node(sections, 1)


def kind_of(path, text):
    """What a file is by the end of its name, or else by its text: json, yaml, properties, python or ini."""
    kind = KINDS.get(path.rpartition(".")[2].lower())
    return kind or next((kind for kind, mark in _MARKS.items() if re.search(mark, text, re.M)), "yaml")
