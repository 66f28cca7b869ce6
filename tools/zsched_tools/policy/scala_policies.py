"""The policies of a Scala source: the largest schedule around each name of ZIO's Schedule, and calls such as `retryN`,
each named by its definition or by the call that it is an argument of."""
import functools
import re

from zsched_tools.policy import expressions, fields, trees
from zsched_tools.policy.expressions import Block, Broken, Call, Definition, Number, Odd
from zsched_tools.policy.fields import Found
from zsched_tools.policy.reading import Wrong
from zsched_tools.policy.relatives import Cats, Effect
from zsched_tools.policy.zio import Reader, matched

LONGEST = 65_536


class Policies:
    """Finds the policies of a source: the largest schedules around each name of ZIO's Schedule, each with a name."""

    def __init__(self, reader):
        self.reader, self.found, self.seen, self.visited = reader, [], {}, set()

    def walk(self, node, name, mode=None, left_out=()):
        """Finds the policies of a node, in a definition or a call with a name."""
        reader = self.reader
        if isinstance(node, Definition):
            return self.defined(node)
        if reader.is_schedule(node) and not (isinstance(node, Block) and len(node.items) > 1):
            if (made := reader.definition(node)) is not None:
                reader.modes.setdefault(made, set()).add(mode)
            else:
                self.add(node, name, mode, left_out)
            return None
        if isinstance(node, Call) and node.of is not None and ("effects", node.name) in self.reader.patterns:
            return self.effect(node, name)
        called = node.name if isinstance(node, Call) and node.lists and node.name.isidentifier() else None
        for it in node.children():
            self.walk(it, called or name if reader.is_schedule(it) else name or called)
        return None

    def each(self, nodes, name):
        for it in nodes:
            self.walk(it, name)

    def defined(self, node):
        """What a definition has: a schedule, statements before it, or others."""
        value = self.reader.value_of(node)
        is_one = value is not None and self.reader.is_schedule(value)
        if is_one:
            self.add(value, node.name, None, (), definition=node)
        items = node.value.items if isinstance(node.value, Block) else node.children()
        self.each(items[:-1] if is_one else items, node.name)

    def add(self, node, name, mode, left_out, make=None, definition=None):
        at = min(it.at for it in every(node))
        line = self.reader.line(at)
        read = functools.partial(self.policy, node, mode, left_out, make or self.reader.schedule, definition)
        self.found.append(Found(self.reader.library, name or f"line{line}", line, read, self.reader.column(at)))

    def effect(self, node, name):
        """A call that retries or repeats: `effect.retry(s)`, `effect.retryN(k)`."""
        for pattern, row in self.reader.patterns["effects", node.name]:
            found, word = {}, re.search("`(retry|repeat)`", row.said)
            if not matched(pattern, node, found):
                continue
            self.walk(node.of, name)
            if "s" in found:
                if self.reader.is_schedule(found["s"]):
                    what = () if row.text else (self.reader.left(node, row.reason()),)
                    self.walk(found["s"], name or node.name, re.match("retry|repeat|", node.name)[0] or None, what)
                else:
                    self.walk(found["s"], name or node.name)
                self.each([it for items in node.lists for it in items if it is not found["s"]], name)
            elif row.text:
                self.add(node, name or node.name, word[1], (), lambda it, row=row, found=found: (
                    self.reader.filled(row, it, found)))
            return
        self.each(node.children(), name or node.name)

    def policy(self, node, mode, left_out, make, definition):
        """The policy of an expression."""
        reader = self.reader
        if (size := max(it.at for it in every(node)) - min(it.at for it in every(node))) > LONGEST:
            raise reader.wrong(node, f"an expression of {size} characters; at most {LONGEST} are read")
        reader.left_out, reader.dropped, reader.lists = [*left_out], [], []
        modes = reader.modes.get(definition, {mode}) - {None}
        try:
            tree = make(node)
        except (trees.Unfit, RecursionError) as fault:
            what = "this is nested too deeply" if isinstance(fault, RecursionError) else fault
            raise reader.wrong(node, what) from None
        text, drawn = trees.texts_of(tree)
        if len(text) > LONGEST:
            raise reader.wrong(node, f"a schedule of {len(text)} characters; at most {LONGEST} are written")
        forms = [it for it in trees.nodes(tree) if it.form == "jitter"]
        kinds = [_jitter(*it.words) for it in forms]
        jitter = {"kind": "mixed", "parts": kinds} if len(kinds) > 1 else kinds[0] if kinds else None
        if any(it.words[:1] == ("size",) for it in trees.nodes(tree)) or "repeat" in modes:
            reader.left_out += reader.lists
        left_out, notes = {"mode": sorted(modes)} if len(modes) > 1 else {}, []
        for it in dict.fromkeys(reader.left_out):
            left_out.setdefault(it.name, []).append(it.text)
            notes.append(f"{it.place}: {it.name} is left out")
        notes += [f"{it} changes nothing, and is dropped" for it in dict.fromkeys(reader.dropped)]
        return fields.made(text, None, {name: its if its[1:] else its[0] for name, its in left_out.items()}, jitter,
                           draws=drawn, mode=modes.pop() if len(modes) == 1 else None, notes=tuple(notes))


def _jitter(least, most):
    """The jitter between two parts of each wait, as other formats have it."""
    if least == 0 and most == 1:
        return {"kind": "full"}
    if most - 1 == 1 - least:
        return {"kind": "proportional", "percent": _short((most - 1) * 100)}
    return {"kind": "added", "percent": _short((most / least - 1) * 100)} if least else {"kind": "full"}


def _short(value):
    return int(value) if value == int(value) else float(value)


def every(node):
    """A node and all in it."""
    found = [node]
    for it in found:
        found += it.children()
    return found


def find(text, language="scala"):
    """The policies of a source in Scala or TypeScript."""
    try:
        return list(_found(text, language))
    except Odd as odd:
        at, why = odd.args
        name = {"scala": "Scala", "typescript": "TypeScript"}[language]
        raise Reader(text, set()).wrong(Number(at), f"not {name}: {why}") from None
    except RecursionError:
        raise Wrong(1, "the source is nested too deeply") from None


def _found(text, language):
    statements, imports, found = expressions.read(text, language)
    for reader in READERS:
        marks = reader.marks_of(imports, text) if reader.language == language else set()
        if marks or reader.library == "zio" and language == "scala" and "zio.Schedule." in text:
            made = reader(text, marks)
            nodes = [it for statement in statements for it in every(statement)]
            known = {it.at for it in nodes if made.is_marked(it)} | {
                it.at for node in nodes if isinstance(node, Broken) for it in node.names}
            lost = made.places(found) - known - {it.at for tokens in imports for it in tokens}
            yield from found_by(made, [reader.turned(it, marks) for it in statements], lost)


def found_by(reader, statements, lost):
    """The policies of one library. What isn't understood at some places is an error there."""
    policies = Policies(reader)
    policies.each(statements, None)
    for at in sorted(lost):
        policies.found.append(Found(reader.library, "schedule", reader.line(at), functools.partial(_lost, reader, at),
                                    reader.column(at)))
    return sorted(policies.found, key=lambda it: it.line)


def _lost(reader, at):
    raise reader.wrong(Number(at), "the expression around this isn't understood")


READERS = [Reader, Effect, Cats]
