"""The text of a source in Java or Kotlin: its brackets, the names in it, and numbers and durations, as far as they are
known without running it."""
import bisect
import re
from collections import Counter
from typing import NamedTuple

from zsched_tools.policy.reading import DEEPEST, Node
from zsched_tools.positions import run_of
from zsched_tools.words import shown

# What begins what isn't code, and where each of these ends: a comment, a text of several lines, a text, a character.
_QUIET = re.compile(r"//|/\*|\"\"\"|[\"']")
_ENDS = {"//": re.compile(r"(?=\n)"), "/*": re.compile(r"\*/"), '"""': re.compile(r"\\(?s:.)|\"\"\""),
         '"': re.compile(r"\\.|\"|(?=\n)"), "'": re.compile(r"\\.|'|(?=\n)")}
# A bracket, or what begins or ends a statement.
_BRACKET = re.compile(r"[()\[\]{},;]|(?<![.:])\b(?:return|class|interface|object)\b")
_OPENED = {")": "(", "]": "[", "}": "{"}
# The arguments of a type, as <Map<String, List<Reply>>>.
_INNER = "<" + run_of("[^<>;(){}]++|<[^<>;(){}]*+>") + ">"
TYPES = "<" + run_of("[^<>;(){}]++|" + _INNER) + ">"
# A name that gets a value: Kotlin's with its type, a function, or one with =. A name with a type, also of a parameter.
_NAMED = re.compile(r"\bva[lr]\s++(\w++)(?:\s*+:[^=;{}()\n]*+)?(?:\s*+=)?|"
                    r"\bfun\s++(\w++)\s*+\([^()]*+\)\s*+(?::[^=;{}()\n]*+)?=|\b(\w++)\s*+=(?!=)")
_DECLARED = re.compile(r"(?:\b(\w++)|[>\]?])\s++(\w++)\s*+(?=[=;,):])|\b(\w++)\s*+(?:->|:(?!:))")
# A function with a body, and what looks like one.
_FUNCTION = re.compile(r"\b(\w++)\s*+\(" + run_of(r"[^()]++|\([^()]*+\)") + r"\)\s*+"
                       r"(?:throws\s[\w\s.,]*+|:[\w\s.,<>?]*+)?(?=\{)")
_NO_FUNCTIONS = {"if", "for", "while", "switch", "catch", "synchronized", "when", "try"}
_NO_TYPES = {"return", "throw", "else", "in", "is", "case", "new", "yield", "await", "package", "import"}
_VALUE, _LONGEST = re.compile(r"[^;}\n]*+"), 200
_SPACE, _REST = re.compile(r"\s*+"), re.compile(r"[\s;]*+")
_NUMBER = re.compile(r"([0-9_]++(?:\.[0-9_]++)?|\.[0-9_]++)([dDfFlL]?)")
_DURATIONS = [
    re.compile(r"(?:java\.time\.)?Duration\.of(?P<unit>Nanos|Millis|Seconds|Minutes|Hours|Days)\((?P<count>\w++)\)"),
    re.compile(r"(?:java\.time\.)?Duration\.of\((?P<count>\w++),(?:ChronoUnit\.)?"
               r"(?P<unit>NANOS|MILLIS|SECONDS|MINUTES|HOURS|DAYS)\)"),
    re.compile(r"\b(?P<count>[0-9_]++)\.(?P<unit>nanoseconds|milliseconds|seconds|minutes|hours|days)"
               r"(?:\.toJavaDuration\(\))?")]
_PARSED = re.compile(r"(?:java\.time\.)?Duration\.parse\(\"([^\"\\]*+)\"\)")
_FINAL = re.compile(r"\b(?:final|val)\s|\b[A-Z][A-Z0-9_]*+\s*+=\s*+\Z")
_UNITS = {"nano": "ns", "mill": "ms", "seco": "s", "minu": "min", "hour": "h", "days": "d"}


class Call(NamedTuple):
    """A call in a chain or a block: its name, its place, and where its brackets and its block open, if it has any."""
    name: str
    at: int
    opened: int | None
    block: int | None
    end: int


# A step of a chain of calls, and a call that is a line of a block.
_STEP = re.compile(rf"\s*+(?:\?|!!)?\.\s*+(?:{TYPES}\s*+)?(\w++)\s*+(?:{TYPES}\s*+)?")
_LINE = re.compile(rf"[\s;]*+(?:this\s*+\.\s*+)?(\w++)\s*+(?:{TYPES}\s*+)?")


class Java:
    """A source. `text` has spaces for comments, and `code` also for what texts have in them. `closed` has the place
    where the bracket of a place is closed, `commas` the places of the commas in it, and `above` the bracket around."""

    def __init__(self, source):
        self.text, self.code = _without_quiet(source)
        self.starts = [0, *(it.end() for it in re.finditer("\n", source))]
        self.closed, self.commas, self.above = {}, {}, {}
        # Of each block, where its statements begin and end; and each bracket, with that which is open behind it.
        self.edges, self.brackets, self.outer = {None: [-1]}, [-1], [None]
        self._match_brackets()
        self.named, self.assigned, self.declared, self.functions = {}, {}, Counter(), {}
        self._find_names()

    def _match_brackets(self):
        opened = []
        for it in _BRACKET.finditer(self.code):
            at, letter = it.start(), it[0]
            if letter in "([{":
                self.above[at], self.commas[at] = opened[-1] if opened else None, []
                opened.append(at)
                if len(opened) > DEEPEST:
                    raise self.node(at).wrong(f"this is nested deeper than {DEEPEST}")
                if letter == "{":
                    self.edges[at] = [at]
            elif letter == "," and opened:
                self.commas[opened[-1]].append(at)
            elif letter in _OPENED and any(self.code[its] == _OPENED[letter] for its in opened):
                while self.code[opened[-1]] != _OPENED[letter]:
                    opened.pop()
                self.closed[opened.pop()] = at
            if letter in "()[]{}":
                self.brackets.append(at)
                self.outer.append(opened[-1] if opened else None)
            elif letter != ",":
                self.edges[self._block(opened[-1] if opened else None)].append(it.end() - 1)
            if letter == "}" and (not opened or self.code[opened[-1]] == "{"):
                self.edges[opened[-1] if opened else None].append(at)

    def _block(self, bracket):
        """The block that a bracket is, or is in; None is the whole source."""
        while bracket is not None and self.code[bracket] != "{":
            bracket = self.above[bracket]
        return bracket

    def _find_names(self):
        for it in _NAMED.finditer(self.code):
            name = it[1] or it[2] or it[3]
            self.named.setdefault(self.around(it.start()), []).append((it.start(), name))
            if it[0].endswith("=") and not it[2]:
                self.assigned.setdefault(name, []).append(it.end())
        for it in _DECLARED.finditer(self.code):
            if it[1] not in _NO_TYPES:
                self.declared[it[2] or it[3]] += 1
        for it in _FUNCTION.finditer(self.code):
            self.functions[it.end()] = None if it[1] in _NO_FUNCTIONS else it[1]

    # Places.

    def line(self, at):
        return bisect.bisect(self.starts, at)

    def column(self, at):
        return at - self.starts[self.line(at) - 1] + 1

    def node(self, at, data=None):
        """A value at a place."""
        return Node(data, self.line(at), 1, self.column(at))

    def around(self, at):
        """The bracket that is open before a place, or None."""
        return self.outer[bisect.bisect_left(self.brackets, at) - 1]

    def statement(self, at):
        """Where the statement of a place begins and ends, of the block around it."""
        block = self._block(self.around(at))
        edges = self.edges[block]
        number = bisect.bisect_left(edges, at)
        last = len(self.code) if block is None else self.closed.get(block, len(self.code))
        return edges[number - 1] + 1, edges[number] if number < len(edges) else last

    def name_of(self, at):
        """The name to which the statement of a place assigns, or that of the function or the statement around it."""
        while at is not None:
            block = self._block(self.around(at))
            names = self.named.get(block, [])
            number = bisect.bisect_left(names, (at,))
            if number and names[number - 1][0] >= self.statement(at)[0]:
                return names[number - 1][1]
            if self.functions.get(block):
                return self.functions[block]
            at = block
        return None

    def after(self, at):
        """The next place that has no space."""
        return _SPACE.match(self.code, at).end()

    def said(self, begin, end):
        """A part of the source in one line."""
        return " ".join(self.text[begin:end].split())

    # Calls.

    def inside(self, opened):
        """What brackets have in them, in one line."""
        return self.said(opened + 1, self.closing(opened))

    def closing(self, opened):
        if opened not in self.closed:
            raise self.node(opened).wrong("this bracket isn't closed")
        return self.closed[opened]

    def arguments(self, opened):
        """The places between which the arguments in brackets are."""
        edges = [opened, *self.commas[opened], self.closing(opened)]
        return [(self.after(begin + 1), end) for begin, end in zip(edges, edges[1:])
                if self.after(begin + 1) < end]

    def letter(self, at):
        return self.code[at:at + 1]

    def call(self, found, name=None):
        """The call whose name was found, or that has one of ours. A bracket that isn't closed has all that follows."""
        opened = block = None
        end, most = found.end(), len(self.code) - 1
        if self.letter(end) == "(":
            opened, end = end, self.closed.get(end, most) + 1
        if self.letter(self.after(end)) == "{":
            block = self.after(end)
            end = self.closed.get(block, most) + 1
        return Call(name or found[1], found.start() if name else found.start(1), opened, block, end)

    def chain(self, at):
        """The calls that follow a place, each on what the one before it gives."""
        calls = []
        while found := _STEP.match(self.code, at):
            calls.append(self.call(found))
            at = calls[-1].end
        return calls

    def calls_in(self, opened):
        """The calls that a block has, one after the other."""
        calls, at, end = [], opened + 1, self.closing(opened)
        while (found := _LINE.match(self.code, at, end)) and self.letter(found.end()) == "(" and (
                found[1] not in _NO_FUNCTIONS):
            calls.append(self.call(found))
            at = calls[-1].end
        if (rest := _REST.match(self.code, at).end()) < end:
            raise self.node(rest).wrong("what this block does beside calls of the builder can't be known without "
                                        "running the source")
        return calls

    # Values.

    def constant(self, name):
        """Where the value of a name begins, if the source assigns it once, and nothing else has the name."""
        places = self.assigned.get(name, ())
        return self.after(places[0]) if len(places) == 1 and self.declared[name] <= 1 else None

    def number(self, text, here, depth=3):
        """A number or a duration as the text of a setting, and whether it is a double. A constant of the source is
        followed, and so are those in its value, at most `depth` of them."""
        short = "".join(text.split())
        if found := _NUMBER.fullmatch(short):
            return found[1].replace("_", ""), "." in short or found[2] in "dDfF" and found[2] != ""
        if found := next(filter(None, (form.fullmatch(short) for form in _DURATIONS)), None):
            count = self.number(found["count"], here, depth)[0]
            return count + _UNITS[found["unit"][:4].lower()], False
        if found := _PARSED.fullmatch(short):
            return found[1], False
        if short == "Duration.ZERO":
            return "0ms", False
        begin = self.constant(short.removeprefix("this.")) if depth else None
        if begin is not None and self.is_final(begin):
            value = self.text[begin:begin + _VALUE.match(self.code[begin:begin + _LONGEST]).end()]
            return self.number(value, here, depth - 1)
        raise here.wrong(f"{shown(' '.join(text.split()), 200)} is not a number that can be known without running the "
                         "source")

    def is_final(self, at):
        """Whether the name that is assigned right before a place keeps its value."""
        before = self.code[max(self.statement(at)[0], at - _LONGEST):at].rpartition("\n")[2]
        return _FINAL.search(before) is not None


def _without_quiet(source):
    """The text of a source without its comments, and its code, also without what its texts have: each with spaces."""
    text, code, at = [], [], 0
    while found := _QUIET.search(source, at):
        text.append(source[at:found.start()])
        code.append(text[-1])
        form, at = _ENDS[found[0]], found.end()
        while (end := form.search(source, at)) and end[0][:1] == "\\":
            at = end.end()
        at = end.end() if end else len(source)
        blank = re.sub(r"[^\n]", " ", source[found.start():at])
        text.append(blank if found[0][0] == "/" else source[found.start():at])
        code.append(blank if found[0][0] == "/" else found[0][0] + blank[1:])
    return "".join([*text, source[at:]]), "".join([*code, source[at:]])
