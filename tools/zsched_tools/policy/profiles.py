"""The profiles of Spring Boot: the documents of a file, and of the files beside it, merged as Spring merges them.

From memory, not checked: Spring Boot 3.3. A later document overrides an earlier one, and application-PROFILE.yaml the
documents of application.yaml; .properties override .yml, and that .yaml. Keys are equal if their plain names are, and a
dot in one leads a level down; a list is replaced as a whole. A document without a profile is in each of them."""
import os
import re
from typing import NamedTuple

from zsched_tools.command import Unread
from zsched_tools.policy.fields import part, plain, text_of
from zsched_tools.policy.reading import DEEPEST, MOST_VALUES, Node, Table, Wrong
from zsched_tools.policy.services import document_of

# A file of Spring's settings: its name without the profile, and the profile, or None.
_FILE = re.compile(r"(application|bootstrap)(?:-(.+))?\.(?:ya?ml|properties)", re.S)
# The endings of such a file, from the one that is overridden by the others.
_ENDINGS = ["yaml", "yml", "properties"]
# The values of a file that are read for its profiles, those of the base once for each.
_MOST = 10 * MOST_VALUES


class Layer(NamedTuple):
    """A document of settings with the profile in which it counts, None for each. `is_own` says whether it is of the
    file that is read, and not of one beside it."""
    tree: Node
    profile: str | None
    is_own: bool = True

    def counts(self, profile):
        """Whether it counts in a profile, None being that of no document."""
        if self.profile in (None, profile):
            return True
        each = _active(profile)
        return bool(each) and all(_is_true(self.profile, active) for active in each)


def is_of_profile(path):
    """Whether a file has the settings of a profile, by its name."""
    found = _FILE.fullmatch(os.path.basename(path))
    return found is not None and found[2] is not None


def _both(one, other):
    """The profile in which two are active, of which the other may be None."""
    return f"{one} & ({other})" if re.search("[|,]", other or "") else " & ".join(filter(None, [one, other]))


def _terms(text):
    return [it.strip() for it in text.split("&")]


def _active(profile):
    """The names that are active in a profile, for each of its alternatives; none if it has parentheses."""
    alternatives = [] if profile is None or "(" in profile else re.split("[|,]", profile)
    return [{it for it in _terms(terms) if not it.startswith("!")} for terms in alternatives]


def _is_true(profile, active):
    """Whether an expression without parentheses holds with these active names."""
    return "(" not in profile and any(all(it.startswith("!") != (it.lstrip("! ") in active) for it in _terms(terms))
                                      for terms in re.split("[|,]", profile))


def _layer(tree, settings, is_own=True):
    """The layer of a document, whose settings have no dots in their keys. Of spring.profiles, as older files have it,
    a table, as of spring.profiles.active, says nothing of when the document counts."""
    spring = part(settings, "spring")
    found = [part(part(part(spring, "config"), "activate"), "onprofile", "oncloudplatform"),
             part(tree, "spring.profiles"), part(part(tree, "spring"), "profiles"), part(spring, "profiles")]
    node = next((it for it in found if it is not None and not it.is_table()), None)
    listed = node.data if node is not None and isinstance(node.data, list) else [node]
    return Layer(settings, ", ".join(filter(None, map(text_of, listed))).strip() or None, is_own)


def merged(nodes, depth=0):
    """The value of several ones, of which each overrides those before: tables by their keys, without dots in these."""
    nodes = [it for it in nodes if it.data is not None] or nodes[-1:]
    last, groups = nodes[-1], {}
    if depth > DEEPEST:
        raise last.wrong(f"this is nested deeper than {DEEPEST}")
    if not last.is_table():
        return last
    begin = max((number for number, it in enumerate(nodes, 1) if not it.is_table()), default=0)
    for name, node in (item for table in nodes[begin:] for item in table.data.items()):
        first, _, rest = (name, "", "") if "[" in name else name.partition(".")
        node = Node(Table({rest: node}), node.line, node.size + 1, node.column) if rest else node
        groups.setdefault(plain(first), (first, []))[1].append(node)
    table = Table({name: merged(found, depth + 1) for name, found in groups.values()})
    return Node(table, last.line, 1 + sum(it.size for it in table.values()), last.column)


def _mapped(node, line, column):
    """A tree whose values have this place if they have none; with None no value has one."""
    if line is None:
        line, column, place = None, None, (0, 0)
    else:
        line, column = place = (node.line, node.column) if node.line else (line, column)
    data = node.data
    if node.is_table():
        data = Table({name: _mapped(it, line, column) for name, it in data.items()})
    elif isinstance(data, list):
        data = [_mapped(it, line, column) for it in data]
    return Node(data, place[0], node.size, place[1])


def _beside(path, name, read):
    """The documents of the files without a profile beside one with a profile, with no place in that one."""
    for ending in _ENDINGS:
        other = os.path.join(os.path.dirname(path), f"{name}.{ending}")
        if os.path.isfile(other) and not os.path.islink(other):
            try:
                for tree in read(other):
                    if (settings := _plain(tree)) is not None:
                        yield _layer(tree, _mapped(settings, None, None), False)
            except (Wrong, Unread) as wrong:
                place = ":".join(str(it) for it in (other, wrong.line, wrong.column) if it is not None)
                raise Wrong(1, f"{place}: {wrong.what}") from None


def _plain(tree):
    """A document of settings without dots in its keys, or None: a document of Kubernetes isn't one, nor is a list."""
    return merged([tree]) if tree.is_table() and document_of(tree) is None else None


def found(path, trees, read, find):
    """The policies of the documents of a file. Those of Spring's settings are one, and one more in each profile, with
    what differs there. `read` gives the trees of another file, `find` the policies of a tree."""
    name, profile = getattr(_FILE.fullmatch(os.path.basename(path)), "groups", lambda: (None, None))()
    keys = {key.partition(".")[0] for it in trees if it.is_table() for key in it.data}
    is_merged = name is not None or path.endswith(".properties") and len(trees) > 1
    known = [(it, _plain(it)) for it in trees] if is_merged or "spring" in keys else []
    layers = [_layer(tree, settings) for tree, settings in known if settings is not None]
    if not (is_merged and layers or any(it.profile for it in layers)):
        return [it for tree in trees for it in find(tree)]
    others = [it for tree, settings in known if settings is None for it in find(tree)]
    if profile is not None:
        layers = [*_beside(path, name, read), *(it._replace(profile=_both(profile, it.profile)) for it in layers)]
    base = [it.tree for it in layers if it.profile is None]
    others += find(merged(base)) if base and profile is None else []
    names = {it.profile: it.tree for it in layers if it.is_own and it.profile}
    size, outcomes = sum(it.tree.size for it in layers), {}
    for number, (each, last) in enumerate(names.items(), 1):
        if number * size > _MOST:
            raise last.wrong(f"the file has more than {_MOST} values with those of each profile")
        counted = [it for it in layers if it.counts(each)]
        before = tuple(it.tree for it in counted if not (it.is_own and it.profile == each))
        if (key := tuple(map(id, before))) not in outcomes:
            outcomes[key] = _outcomes(find(merged(before)) if before else ())
        for it in find(_mapped(merged([it.tree for it in counted]), 1, 1)):
            if _outcome(it) not in outcomes[key].get((it.form, it.name), []):
                others.append(it._replace(name=f"{it.name} ({each})"))
    return others


def _outcomes(policies):
    """What policies are, by their formats and names."""
    found = {}
    for it in policies:
        found.setdefault((it.form, it.name), []).append(_outcome(it))
    return found


def _outcome(policy):
    """What a policy is, or why it can't be read, without its place."""
    try:
        return vars(policy.read())
    except ValueError as wrong:
        return str(wrong)
    except Wrong as wrong:
        return wrong.what
