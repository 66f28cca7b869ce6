"""Names, numbers, durations, functions and tests of a Scala source, as far as they are known without running it."""
import bisect
import re
from fractions import Fraction

from zsched_tools.durations import UNITS
from zsched_tools.policy import trees
from zsched_tools.policy.expressions import Block, Call, Function, Group, Named, Number
from zsched_tools.policy.reading import Wrong
from zsched_tools.policy.trees import NUMBER, Test, Unfit, Value

_COMPARED = {"<": "<", "<=": "<=", "==": "=", "===": "=", "!=": "!=", ">": ">", ">=": ">=", "!==": "!="}
_TURNED = {"<": ">", "<=": ">=", ">": "<", ">=": "<="}
_MADE = re.compile(r"(?:from|of)(Nanos|Micros|Millis|Seconds|Minutes|Hours|Days)")
_MOST = {"Int": 2**31 - 1, "Long": 2**63 - 1}
# What changes nothing of a number or a duration, which are milliseconds here.
_SAME = {"toMillis", "toLong", "toInt", "toDouble", "asScala", "asJava", "toJava", "toScala"}


class Other(Exception):
    """A function or a test can't be a schedule's. The arguments are its node and why."""


class Source:
    """A source. `marks` are the names of ZIO's Schedule in it."""

    def __init__(self, source, marks):
        self.starts = [0, *(found.end() for found in re.finditer("\n", source))]
        self.source, self.marks, self.opened = source, marks, set()

    def wrong(self, node, why):
        return Wrong(self.line(node.at), why, self.column(node.at))

    def line(self, at):
        return bisect.bisect(self.starts, at)

    def column(self, at):
        return at - self.starts[self.line(at) - 1] + 1

    def place(self, node):
        return f"{self.line(node.at)}:{self.column(node.at)}"

    # Names.

    def is_mark(self, node):
        if not isinstance(node, Call) or node.lists:
            return False
        is_full = node.name == "Schedule" and isinstance(node.of, Call) and node.of.name == "zio"
        return is_full or node.of is None and node.name in self.marks and not node.scope.find(node.name)

    def definition(self, node):
        """The one definition of a name that has a value, or None. `A.b` is that of an object of the source."""
        if not isinstance(node, Call) or any(node.lists):
            return None
        scope = node.scope
        if node.of is not None and not (isinstance(node.of, Call) and node.of.name == "this" and node.of.of is None):
            holders = node.of.scope.find(node.of.name) if isinstance(node.of, Call) and node.of.of is None else []
            if len(holders) != 1 or holders[0].inner is None:
                return None
            scope = holders[0].inner
            found = scope.names.get(node.name, [])
        else:
            found = scope.find(node.name)
        return found[0] if len(found) == 1 and found[0].is_plain and found[0].value is not None else None

    def value_of(self, definition):
        value = definition.value
        while isinstance(value, Block) and value.items:
            value = value.items[-1]
        return value

    def followed(self, node, read):
        """What `read` makes of what a name is, or None if the source doesn't say."""
        if (found := self.definition(node)) is None:
            return None
        if found in self.opened:
            raise self.wrong(node, f"{node.name} is defined by itself")
        self.opened.add(found)
        try:
            return read(self.value_of(found))
        finally:
            self.opened.discard(found)

    # Numbers and durations.

    def number(self, node, is_whole=True):
        """The value of a number, or of a duration in milliseconds."""
        value = self._number(node)
        if value is None or value < 0:
            name = f"{node.name} " if isinstance(node, Call) and node.name.isidentifier() else "this "
            raise self.wrong(node, f"{name}is not a number that can be known without running the source")
        if is_whole and value.denominator != 1:
            raise self.wrong(node, "this is not a whole number, or not one of milliseconds")
        return int(value) if is_whole else value

    whole = number

    def _number(self, node):
        if isinstance(node, Named):
            node = node.value
        if isinstance(node, Number):
            return node.value
        if not isinstance(node, Call):
            return None
        if (found := self.followed(node, self._number)) is not None:
            return found
        given = [it for items in node.lists for it in items]
        if isinstance(node.of, Call) and node.of.name in ("Duration", "FiniteDuration"):
            if (made := _MADE.fullmatch(node.name)) and len(given) == 1:
                return self._times(given[0], made[1].lower())
            if node.name in UNITS and len(given) == 1:
                return self._times(given[0], node.name)
            return Fraction(0) if node.name.lower() == "zero" else None
        if node.name in ("Duration", "FiniteDuration") and len(given) == 2:
            unit = given[1].name if isinstance(given[1], Call) else ""
            return self._times(given[0], unit.lower())
        if node.of is None:
            return None
        if node.name == "MaxValue" and isinstance(node.of, Call):
            return _MOST.get(node.of.name)
        if node.name in _SAME and not given:
            return self._number(node.of)
        if node.name in UNITS and len(node.name) > 2 and not given:
            return self._times(node.of, node.name)
        sides = [self._number(it) for it in [node.of, *given]] if node.name in ("+", "-", "*") else []
        if len(sides) != 2 or None in sides:
            return None
        return {"+": sides[0] + sides[1], "-": sides[0] - sides[1], "*": sides[0] * sides[1]}[node.name]

    def _times(self, node, unit):
        value = self._number(node)
        return None if value is None or unit not in UNITS else value * UNITS[unit]

    # Functions and tests.

    def function(self, node, values, read=None):
        """What a function of these values gives, as it is read: as a value, or as a test."""
        if isinstance(node, Named):
            node = node.value
        if not isinstance(node, Function) or len(node.parameters) != len(values) or isinstance(node.body, Block):
            raise Other(node, "other functions are left out")
        return (read or self.value)(node.body, self.bound(node, values))

    def bound(self, node, values):
        """The names of a function's parameters, and of the whole output."""
        names = {"": values[-1]}
        for parameter, value in zip(node.parameters, values):
            self.bind(node, parameter, value, names)
        return names

    def bind(self, node, parameter, value, names):
        if isinstance(parameter, str):
            names[parameter] = value
        elif parameter is None or value.kind[0] != "pair" or len(parameter) != len(self.components(value.kind)):
            raise Other(node, "this pattern isn't one of the output's parts")
        else:
            for part, it in zip(parameter, self.components(value.kind, value.steps)):
                self.bind(node, part, Value(*it, value.is_input), names)

    def value(self, node, names):
        """The value of an expression in a function."""
        if isinstance(node, Group) and len(node.items) > 1:
            values = [self.value(it, names) for it in node.items]
            if any(it.is_input for it in values) or (made := trees.grouped(values, names[""].kind)) is None:
                raise Other(node, "other functions are left out")
            return made
        if isinstance(node, Group):
            return Value((("as",),), trees.UNIT)
        if isinstance(node, Call) and node.of is None and not node.lists and node.name in names:
            return names[node.name]
        if not self.reads(node, names):
            if self._number(node) is None:
                raise Other(node, "other functions are left out")
            return Value((("as", self.number(node)),), NUMBER)
        if isinstance(node, Call) and node.of is not None:
            given = [it for items in node.lists for it in items]
            if not given and node.name in _SAME:
                return self.value(node.of, names)
            if not given and (found := re.fullmatch("_([0-9]{1,2})", node.name)):
                return self.component(node, self.value(node.of, names), int(found[1]))
            if not given and node.name in ("merge", "size", "length"):
                return self.then(self.value(node.of, names), ("merge" if node.name == "merge" else "size",))
            if node.name in ("toMillis", "size", "merge") and len(given) == 1:
                value = self.value(given[0], names)
                return value if node.name == "toMillis" else self.then(value, (node.name,))
            if node.name in ("+", "*") and len(given) == 1:
                sides = [node.of, given[0]]
                read, = [it for it in sides if self.reads(it, names)] if sum(
                    self.reads(it, names) for it in sides) == 1 else [None]
                if read is not None:
                    other = sides[0] if read is sides[1] else sides[1]
                    return self.then(self.value(read, names), (node.name, self.number(other)))
        raise Other(node, "other functions are left out")

    def reads(self, node, names):
        return isinstance(node, Call) and node.of is None and node.name in names or any(
            self.reads(it, names) for it in node.children())

    def then(self, value, step):
        return Value((*value.steps, step), trees.after(value.kind, step), value.is_input)

    def components(self, kind, steps=()):
        """The parts of a pair, each with its steps and its kind."""
        return trees.components(kind, steps)

    def component(self, node, value, number):
        parts = self.components(value.kind, value.steps) if value.kind[0] == "pair" else []
        if value.kind == trees.UNKNOWN:
            raise Unfit("this reads an output that isn't known")
        if not 1 <= number <= len(parts):
            raise self.wrong(node, f"the output has {len(parts)} parts" if parts else "the output isn't a tuple")
        return Value(*parts[number - 1], value.is_input)

    def tested(self, form, tree, node, is_opposite):
        """A schedule with a test of its input or its output, or of both."""
        output = Value((), tree.kind)
        is_both = isinstance(node, Function) and len(node.parameters) == 2
        values = [Value((), NUMBER, True)] if form == "whileInput" and not is_both else [output]
        test = self.function(node, [Value((), NUMBER, True), output] if is_both else values, self.test)
        test = test.opposite() if is_opposite else test
        return trees.reset(tree, test) if form == "resetWhen" else trees.limited(tree, test)

    def test(self, node, names):
        given = [it for items in node.lists for it in items] if isinstance(node, Call) else []
        if isinstance(node, Call) and node.of is None and node.name in ("true", "false"):
            return Test("and" if node.name == "true" else "or")
        if isinstance(node, Call) and node.name == "unary !":
            return self.test(node.of, names).opposite()
        if isinstance(node, Call) and node.name in ("&&", "||") and len(given) == 1:
            return Test("and" if node.name == "&&" else "or", (self.test(node.of, names), self.test(given[0], names)))
        if isinstance(node, Call) and node.name in _COMPARED and len(given) == 1:
            word, sides = _COMPARED[node.name], [node.of, given[0]]
            if self.reads(sides[1], names):
                sides, word = sides[::-1], _TURNED.get(word, word)
            value = self.value(sides[0], names)
            is_read = value.kind == NUMBER and not (value.steps and value.steps[0][0] == "as")
            if is_read and not self.reads(sides[1], names):
                return Test(word, (), value, self.number(sides[1]))
        raise Other(node, "other tests are left out")
