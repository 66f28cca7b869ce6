"""Schedules of Effect in TypeScript sources, and policies of cats-retry in Scala sources, each as ZIO's by a table of
its own. All rows are from memory: nothing here can check them."""
import dataclasses
import functools
import re

from zsched_tools.durations import exact_milliseconds
from zsched_tools.policy.expressions import Call, Named, Scope, Text
from zsched_tools.policy.zio import Reader
from zsched_tools.policy.zio_table import rows


def changed(node, change):
    """A node with each call in it changed, the innermost ones first."""
    values = {}
    for field in dataclasses.fields(node):
        value = getattr(node, field.name)
        if field.name == "lists":
            values[field.name] = [[changed(it, change) for it in items] for items in value]
        elif isinstance(value, list) and value and dataclasses.is_dataclass(value[0]):
            values[field.name] = [changed(it, change) for it in value]
        elif dataclasses.is_dataclass(value) and field.name != "scope":
            values[field.name] = changed(value, change)
    for name, value in values.items():
        setattr(node, name, value)
    return change(node) if isinstance(node, Call) else node


@functools.cache
def names(library, part):
    """The names of a part of a table, each with the number of its arguments after the schedule."""
    found = {}
    for row in rows(library):
        for text in row.spellings() if row.part == part else ():
            text = text.removeprefix("s.pipe(").removeprefix("a.pipe(").removeprefix("effect.pipe(")
            name = re.match(r"(?:Schedule\.|Effect\.|a |s\.)?(\w+|\|\+\|)(\(?)", text)
            found[name[1]] = len(name[2])
    return found


class Effect(Reader):
    """Reads Effect's schedules. A pipe is read as calls of methods, and so is a call with the schedule first."""
    library, language = "effect", "typescript"

    @staticmethod
    def marks_of(imports, text):
        lines = [text[it[0].at:it[-1].end] for it in imports]
        return {name for line in lines if re.search(r"[\"']effect(?:/Schedule)?[\"']", line)
                for name in re.findall(r"\bSchedule\b", line)}

    @classmethod
    def turned(cls, node, marks):
        return changed(node, lambda it: cls.call(it, marks))

    @staticmethod
    def call(node, marks):
        def is_of(it, words):
            return isinstance(it, Call) and isinstance(it.of, Call) and it.of.of is None and it.of.name in words
        if node.name == "pipe" and len(node.lists) == 1:
            given = [node.of, *node.lists[0]] if node.of is not None else list(node.lists[0])
            if given and all(is_of(it, {*marks, "Effect"}) for it in given[1:]):
                made = given[0]
                for it in given[1:]:
                    made = Call(it.at, made, it.name, it.lists, it.scope, it.depth + 1, it.end)
                return made
        if is_of(node, marks) and node.lists and node.name in names("effect", "operators"):
            if len(node.lists[0]) == names("effect", "operators")[node.name] + 1:
                first, *rest = node.lists[0]
                return dataclasses.replace(node, of=first, lists=[rest] if rest else [])
        if is_of(node, {"Effect"}) and len(node.lists) == 1 and len(node.lists[0]) == 2 and (
                node.name in names("effect", "effects")):
            return dataclasses.replace(node, of=node.lists[0][0], lists=[node.lists[0][1:]])
        return node

    def flat(self, made):
        return made

    def components(self, kind, steps=()):
        return [((*steps, (f"_{at}",)), part) for at, part in enumerate(kind[1:], 1)]

    def _number(self, node):
        node = node.value if isinstance(node, Named) else node
        if isinstance(node, Text):
            return exact_milliseconds(node.value) if re.fullmatch(r"[0-9.]+ [a-z]+", node.value) else None
        return super()._number(node)


class Cats(Reader):
    """Reads the policies of cats-retry. Its functions are constructors, or methods of their last argument."""
    library = "cats"

    @staticmethod
    def marks_of(imports, text):
        lines = [text[it[0].at:it[-1].end] for it in imports]
        return {"Schedule"} if any(re.match(r"import\s+(?:cats\.)?retry\b", line) for line in lines) else set()

    def is_marked(self, node):
        return isinstance(node, Call) and node.name in names("cats", "constructors")

    def places(self, found):
        known = names("cats", "constructors")
        here = {it.at for it, after in zip(found, found[1:]) if it.text in known and after.kind in ("(", "[")}
        return here.union(*(self.places(it.inside) for it in found if it.inside))

    @classmethod
    def turned(cls, node, _):
        return changed(node, cls.call)

    @staticmethod
    def call(node):
        is_free = node.of is None or isinstance(node.of, Call) and node.of.name == "RetryPolicies"
        if is_free and node.name in names("cats", "constructors"):
            return dataclasses.replace(node, of=Call(node.at, None, "Schedule", [], Scope()))
        if is_free and node.name in names("cats", "operators") and len(node.lists) == 1 and len(node.lists[0]) == 2:
            return dataclasses.replace(node, of=node.lists[0][1], lists=[node.lists[0][:1]])
        return node

    def flat(self, made):
        return made
