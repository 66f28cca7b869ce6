"""Schedules of ZIO 2 as trees. The table `zio.tsv`, which docs/RECIPES.md shows, says what each constructor and
operator is here: its spellings are read as a source is, and the letters in them get what the source has there."""
import functools
import re
from fractions import Fraction
from typing import NamedTuple

from zsched_tools.policy import expressions, trees
from zsched_tools.policy.expressions import Block, Broken, Call, Function, Named, Number
from zsched_tools.policy.scala import Other, Source
from zsched_tools.policy.trees import Unfit, Value
from zsched_tools.policy.zio_table import rows
from zsched_tools.words import listed

LONGEST_IMPORT = 4096
# The names of arguments where there are several.
_ORDERS = {"exponential": ["base", "factor"]}
# An import of another Schedule.
_OTHER = re.compile(r"\.\s*(?:Schedule\b|\{[^}]*\bSchedule\b(?!\s*(?:=>|as)))|(?:\bas|=>)\s+Schedule\b")
_LETTERS = {**dict.fromkeys("sab", "schedule"), **dict.fromkeys("de", "duration"), **dict.fromkeys("kN", "number")}


@functools.cache
def patterns(reader):
    """The rows of each name by a class of readers: pairs of the expression of a spelling and its row, those of
    constructors apart."""
    found = {}
    for row in rows(reader.library):
        for text in row.spellings():
            made = reader.turned(expressions.read(text, reader.language)[0][0], {"Schedule"})
            found.setdefault((row.part, made.name), []).append((made, row))
    return found


def is_letter(node):
    return isinstance(node, Call) and node.of is None and not node.lists and (len(node.name) == 1 or node.name in (
        "effect", "now", "inputs"))


def matched(pattern, node, found, names=()):
    """Whether an expression is as a spelling; `found` gets what its letters are."""
    if isinstance(node, Named):
        node = node.value
    if is_letter(pattern) and pattern.name not in names:
        return found.setdefault(pattern.name, node) is node
    if isinstance(pattern, Function):
        word = pattern.body.name if isinstance(pattern.body, Call) else ""
        if word in ("<", ">=", "||", "&&", "*"):
            found["function" if word == "*" else "test"] = node
            return True
        alike = isinstance(node, Function) and len(node.parameters) == len(pattern.parameters)
        names = dict(zip(pattern.parameters, node.parameters)) if alike else {}
        return alike and matched(pattern.body, node.body, found, names)
    if isinstance(pattern, Number):
        return isinstance(node, Number) and node.value == pattern.value
    if not isinstance(node, Call) or (pattern.of is None) != (node.of is None) or node.name != dict(names).get(
            pattern.name, pattern.name) or [*map(len, pattern.lists)] != [*map(len, _lists(pattern, node))]:
        return False
    pairs = [(pattern.of, node.of)] if pattern.of and getattr(pattern.of, "name", "") != "Schedule" else []
    pairs += [pair for ours, its in zip(pattern.lists, _lists(pattern, node)) for pair in zip(ours, its)]
    return all(matched(*pair, found, names) for pair in pairs)


def _lists(pattern, node):
    """The arguments of an expression in their order. An empty list of them at the end is none."""
    is_more = len(node.lists) == len(pattern.lists) + 1 and not node.lists[-1]
    return [_ordered(node.name, it) for it in (node.lists[:-1] if is_more else node.lists)]


def _ordered(name, items):
    """Arguments in the order of their names; none if that isn't known."""
    if len(items) < 2 or not any(isinstance(it, Named) for it in items):
        return items
    order = _ORDERS.get(name, [])
    places = [order.index(it.name) if it.name in order else -1 for it in items if isinstance(it, Named)]
    places = [*range(len(items) - len(places)), *places]
    return [items[places.index(at)] for at in range(len(items))] if sorted(places) == [*range(len(items))] else []


class Left(NamedTuple):
    """A call that isn't applied: its name, its source with the reason, and its place."""
    name: str
    text: str
    place: str


class Reader(Source):
    """Reads the schedules of a source. `left_out` gets the settings that aren't applied, `dropped` what changes
    nothing, `lists` the own rules of lists, which count if a test reads their size, `modes` those of definitions."""

    library, language = "zio", "scala"

    def __init__(self, source, marks):
        super().__init__(source, marks)
        self.patterns = patterns(type(self))
        self.known, self.modes, self.left_out, self.dropped, self.lists = {}, {}, [], [], []

    @staticmethod
    def marks_of(imports, text):
        """The names of ZIO's Schedule in a source; none if it imports no zio, or another Schedule."""
        marks, others = set(), False
        for it in imports:
            line = text[it[0].at:min(it[-1].end, it[0].at + LONGEST_IMPORT)]
            words = line.removeprefix("import").strip()
            if re.match(r"zio\b(?!\.\w+\.)", words):
                for name, alias in re.findall(r"\b(Schedule)\b(?:\s*(?:=>|as)\s*(\w+))?", words):
                    marks.add(alias or name)
                if re.search(r"zio\s*\.\s*(?:[_*]|\{[^}]*[_*])", words):
                    marks.add("Schedule")
            elif _OTHER.search(words):
                others = True
        is_defined = any(re.search(rf"\b(?:class|object|trait|type|enum|val|def)\s+{it}\b", text) for it in marks)
        return set() if others or is_defined else marks

    is_marked = Source.is_mark

    def places(self, found):
        """The places of names of Schedule before a member."""
        here = {it.at for it, dot, name in zip(found, found[1:], found[2:]) if it.kind == "id" and dot.kind == "." and (
            it.text in self.marks and name.text[:1].islower())}
        return here.union(*(self.places(it.inside) for it in found if it.inside))

    @staticmethod
    def turned(node, _):
        """An expression as a call of a receiver."""
        return node

    def is_schedule(self, node):
        """Whether an expression is a schedule, as far as the source says."""
        if node not in self.known:
            self.known[node] = False
            self.known[node] = self._is_schedule(node)
        return self.known[node]

    def _is_schedule(self, node):
        if isinstance(node, Block):
            return bool(node.items) and self.is_schedule(node.items[-1])
        if isinstance(node, Broken):
            return any(map(self.is_schedule, node.items)) or any(it.text in self.marks for it in node.names)
        if not isinstance(node, Call):
            return False
        if self.is_mark(node.of):
            return node.name[0].islower()
        if (found := self.definition(node)) is not None:
            return self.is_schedule(self.value_of(found))
        if node.of is None or node.name in ("driver", "run"):
            return False
        return self.is_schedule(node.of) or self._joins(node.name) and any(map(self.is_schedule, node.children()[1:]))

    def _joins(self, name):
        return any(len(set(re.findall(r"\b[ab]\b", text))) == 2
                   for _, row in self.patterns.get(("operators", name), []) for text in row.spellings())

    def left(self, node, why, at=None):
        """A call as one that isn't applied, which has a place of its own in it or begins there."""
        return Left(node.name, f"{' '.join(self.source[node.at:node.end].split())}: {why}", self.place(at or node))

    def schedule(self, node):
        """The tree of an expression."""
        while isinstance(node, Block) and node.items:
            node = node.items[-1]
        if isinstance(node, Broken):
            raise self.wrong(node, node.why)
        if (made := self.followed(node, self.schedule)) is not None:
            return made
        if not isinstance(node, Call) or node.of is None:
            name = node.name if isinstance(node, Call) else "this"
            raise self.wrong(node, f"{name} isn't a schedule that this source defines")
        if node.name == ":":
            self.dropped.append(f"{self.place(node)}: a type")
            return self.schedule(node.of)
        is_made = self.is_mark(node.of)
        try:
            return self.by_table(node, "constructors" if is_made else "operators")
        except Unfit as unfit:
            raise self.wrong(node, f"{node.name}: {unfit}") from None

    def by_table(self, node, part):
        """The tree of a call of a constructor or an operator."""
        if node.name == "jittered" and part == "operators" and any(node.lists):
            return self.jittered(node)
        if node.name == "check" and len(node.lists) == 1 and len(node.lists[0]) == 1:
            try:
                return self.tested("whileInput", inner := self.schedule(node.of), node.lists[0][0], False)
            except Other as other:
                self.left_out.append(self.left(node, other.args[1], other.args[0]))
                return inner
        if node.name == "forever" and part == "operators" and trees.is_endless(inner := self.schedule(node.of)):
            return inner
        if node.name == "fromDurations" and part == "constructors" and node.lists:
            return self.listed(node)
        candidates = self.patterns.get((part, node.name), [])
        for pattern, row in candidates:
            found = {}
            if matched(pattern, node, found) and (not row.text or self.fits(row, node, found)):
                return self.filled(row, node, found) if row.text else self.unread(row, node)
        if not candidates:
            if part == "operators" and not self.is_schedule(node.of):
                raise self.wrong(node.of, "this isn't a schedule that this source defines")
            raise self.wrong(node, f"{node.name} isn't in the table of docs/RECIPES.md")
        if candidates[-1][1].text:
            raise self.wrong(node, f"{node.name} isn't understood with these arguments: {candidates[-1][1].reason()}")
        return self.unread(candidates[-1][1], node)

    def filled(self, row, node, found):
        if row.said.startswith("dropped"):
            self.dropped.append(f"{self.place(node)}: {node.name}")
        if "own rule" in row.said:
            (self.left_out if "fixed" in row.text else self.lists).append(self.left(node, row.reason()))
        values = {}
        for letter, its in found.items():
            if letter in _LETTERS and letter in re.findall(r"\w+", row.text):
                values[letter] = self.schedule(its) if letter in "sab" else (
                    lambda its=its: self.whole(its)) if letter in "de" else (lambda its=its: self.number(its))
        if row.text.endswith("resetWhen(_2 = k).map(_1)"):
            values["k"] = lambda: trees.count(values["s"])
        text, _, jitter = row.text.partition(" jitter ")
        if row.text.endswith("andThenEither b).map(merge)") and not trees.is_one_kind(values["a"], values["b"]):
            return trees.make("unknown", [trees.make("andThenEither", [values["a"], values["b"]])])
        made = self.fill(trees.pattern_of(text), values, found, node)
        if jitter:
            return self.drawn(node, made, *((0, 1) if jitter == "full" else (Fraction(4, 5), Fraction(6, 5))))
        return self.flat(made) if made.form in ("&&", "||") else made

    def flat(self, made):
        """A pair without the units, which ZIO drops beside `&&` and `||`."""
        for at, other in [(0, "_2"), (1, "_1")]:
            if made.parts[at].kind == trees.UNIT:
                return trees.make("map", [made], (other,))
        return made

    def fill(self, pattern, values, found, node):
        """A row's text with what its letters are. Another test or function is left out, and so is what it gives."""
        form, parts, words, _ = pattern
        if form == "letter":
            return values[words[0]]
        parts = [self.fill(it, values, found, node) for it in parts]
        try:
            if form in ("whileInput", "whileOutput", "resetWhen") and "test" in found and words[-1] in ("N", "k"):
                return self.tested(form, parts[0], found["test"], words[-2] == ">=" and form != "resetWhen")
            if form == "map" and words[0] == "*" and "function" in found:
                value = self.function(found["function"], [Value((), parts[0].kind)])
                return trees.mapped(parts[0], value.steps)
        except Other as other:
            self.left_out.append(self.left(node, other.args[1], other.args[0]))
            return trees.make("unknown", parts) if form == "map" else parts[0]
        words = [values[it]() if it in values else int(it) if it.isdigit() else it for it in words]
        if form == "exponential" and len(words) == 1:
            words.append(2)
        return trees.make(form, parts, ["as"] if words == ["as", 0] and pattern[2][1] == "0" else words)

    def fits(self, row, node, found):
        """Whether a row's condition is met. It says if so, or leaves it out."""
        name = row.spellings()[0]
        if name == "a >>> b":
            is_met = trees.ignores_input(self.schedule(found["b"]))
        elif name == "s.forever":
            is_met = trees.count(self.schedule(found["s"])) is not None
        elif name == "s.addDelay(_ => d)":
            is_met = trees.is_at_once(self.schedule(found["s"]))
        elif name in ("s.delayed(_ min d)", "capDelay(d, s)"):
            is_met = trees.is_endless(self.schedule(found["s"]))
        elif name == "a followedBy b":
            is_met = {it.form for it in trees.nodes(self.schedule(found["b"]))} <= {"spaced", "forever", "||"}
        elif name == "Schedule.exponential(d, k)":
            factor = self.number(found["k"], False)
            is_met = factor % 1 == 0 and factor >= 1
        else:
            return True
        if not is_met:
            raise self.wrong(node, f"{node.name}: {row.reason()}")
        return True

    def unread(self, row, node):
        """A call that the table leaves out. If it is one of a schedule, that remains, and its output isn't known."""
        if row.part == "constructors" or self._joins(node.name) or re.search(r"first|second|left|right", node.name):
            raise self.wrong(node, f"{node.name}: {row.reason()}")
        inner = self.schedule(node.of)
        if node.name == "contramap" and trees.ignores_input(inner):
            self.dropped.append(f"{self.place(node)}: {node.name}")
            return inner
        self.left_out.append(self.left(node, row.reason()))
        return trees.make("unknown", [inner])

    def jittered(self, node):
        inner, given = self.schedule(node.of), [it for items in node.lists for it in items]
        named = {it.name: it.value for it in given if isinstance(it, Named)}
        least, most = (self.number(named.get(name, given[at] if len(given) == 2 else None) or default, False)
                       for at, (name, default) in enumerate([("min", Number(0, Fraction(4, 5))),
                                                             ("max", Number(0, Fraction(6, 5)))]))
        if not 0 <= least <= most or len(given) not in (0, 2):
            raise self.wrong(node, "jittered has a least and a greatest part of each wait")
        return self.drawn(node, inner, least, most)

    def drawn(self, node, inner, least, most):
        """A schedule whose waits are drawn between two parts of each."""
        forms = {it.form for it in trees.nodes(inner)}
        if "jitter" in forms:
            raise self.wrong(node, f"{node.name}: these waits are drawn already")
        if forms & trees.UNSTEADY or "whileInput" in forms and inner.form != "whileInput":
            unsteady = listed(sorted(forms & {*trees.UNSTEADY, "whileInput"}))
            self.left_out.append(self.left(node, f"the waits of {unsteady} aren't drawn"))
            return inner
        return trees.make("jitter", [inner], (Fraction(least), Fraction(most)))

    def listed(self, node):
        """Durations, one after another."""
        waits = [self.whole(it.value if isinstance(it, Named) else it) for it in node.lists[0]]
        stop = trees.make("map", [trees.make("recurs", (), (0,))], ("as",))

        def one(wait, rest):
            first = trees.make("&&", [trees.make("recurs", (), (1,)), trees.make("spaced", (), (wait,))])
            return trees.make("map", [trees.make("andThenEither", [
                trees.make("map", [first], ("as", wait)), rest])], ("merge",))
        return functools.reduce(lambda rest, wait: one(wait, rest), reversed(waits), stop)
