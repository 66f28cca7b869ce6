"""What differs between two policies: over the same attempts, for every input, and in their settings; and between those
of two files or folders, by their paths and names."""
import itertools
import json
import os
import sys
import types

from zsched_tools import bounding, program
from zsched_tools.attempts import driver_of, entries_of, limits_of, mode_of
from zsched_tools.command import NO, REFUSED, Refused, note
from zsched_tools.drawn import RANGES
from zsched_tools.policy import checking, configs, limits
from zsched_tools.policy.telling import canonical, told_apart
from zsched_tools.program import LAST_MOMENT
from zsched_tools.reports import attempts_in, blocks_of
from zsched_tools.settings import WORDS, shown_value
from zsched_tools.trials import as_object, tried_in, waits_in
from zsched_tools.trying.command import bounds_of_all, of_all, tell_waits, tried
from zsched_tools.words import duration, listed, plural

TOOL = "zsched-policy"


def _by(one, other, more, less, name=""):
    """A difference in one of two forms, of things with a name or of time; nothing if there is none."""
    words = plural(abs(other - one), name) if name else duration(abs(other - one))
    return (more if other > one else less).format(words) if other != one else ""


def _here(one, other):
    """How the second result differs from the first one."""
    ends = [it.ending() for it in (one, other)]
    parts = [_by(one.attempts, other.attempts, "makes {} more", "makes {} fewer", "attempt"),
             _by(one.waited, other.waited, "waits {} more", "waits {} less"),
             _by(one.longest, other.longest, *map("has a longest wait that is {{}} {}".format, ["longer", "shorter"])),
             _by(one.at, other.at, "ends {} later", "ends {} earlier"),
             f"ends as {ends[1]}".replace("as ended ", "") if ends[0] != ends[1] else ""]
    parts = list(filter(None, parts))
    return f"here B {listed(parts)}" if parts else ""


def _first(blocks):
    for number, (one, other) in enumerate(itertools.zip_longest(*map(attempts_in, blocks)), 1):
        if one is None or other is None:
            name, begin = ("A", one) if other is None else ("B", other)
            yield f"the first difference: only {name} makes attempt {number}, at {duration(int(begin[0]))}"
        elif one[:2] != other[:2]:
            place, verb = (0, "begins") if one[0] != other[0] or not one[1] or not other[1] else (1, "ends")
            yield (f"the first difference: attempt {number} {verb} at {duration(int(one[place]))}, and in B at "
                   f"{duration(int(other[place]))}")
        elif one != other:
            ends = [" ".join(map(bytes.decode, it[2:])) for it in (one, other)]
            yield "the first difference: attempt {} ends with {}, and in B with {}".format(number, *ends)


def _limit(one, other, what, more, less, name=""):
    if None not in (one, other) or one == other:
        return _by(one or 0, other or 0, more, less, name)
    known = one if other is None else other
    words = plural(known, name) if name else bounding.rounded(known)
    return f"no limit of {what} (A: {words})" if other is None else f"a limit of {what} ({words})"


def _always(scope, one, other):
    """How the bounds of the second policy differ from those of the first one, in lines."""
    if other.most is not None and other.most < one.least or one.most is not None and one.most < other.least:
        yield f"{scope} B makes {'fewer' if other.least < one.least else 'more'} attempts than A"
    waits, totals = zip(one.limits(), other.limits())
    least = ["no end" if it.is_endless else f"at least {plural(it.least, 'attempt')}" for it in (one, other)]
    limits = ["{1} (A: {0})".format(*least) if least[0] != least[1] else "",
              _limit(one.most, other.most, "attempts", "{} more", "{} fewer", "attempt"),
              _limit(*waits, "each wait", "a wait that is {} longer", "a wait that is {} shorter"),
              _limit(*totals, "all waits", "{} more of waits in all", "{} less of waits in all"),
              _limit(*(it.call() for it in (one, other)), "the whole call", "an end that is {} later",
                     "an end that is {} earlier")]
    if any(limits):
        yield f"the limits of B {scope}: {listed(list(filter(None, limits)))}"


def _settings(one, other):
    """How policies differ beside their schedules, in lines."""
    pairs = {what: [it.given().get(word, "retry" if word == "mode" else None) for it in (one, other)]
             for word, (_, what) in WORDS.items()}
    pairs |= {name: [it.left_out[name] if name in it.left_out else None for it in (one, other)]
              for name in dict.fromkeys([*one.left_out, *other.left_out])}
    for what, values in pairs.items():
        if values[0] != values[1]:
            yield "{}: {} in A, {} in B".format(what, *(shown_value(it) if it or it == 0 else "none" for it in values))


def compared(given):
    """Prints what differs between two policies, or between those of two places; returns the status."""
    places = list(map(_place, (given.policies, given.other)))
    if None not in places:
        return _places(given, places)
    given.policies = [given.policies, given.other]
    if (report := tried(TOOL, given)) is None:
        return REFUSED
    if len(given.read) > 2:
        raise Refused("diff takes two policies, or two files or folders: write @FILE#NAME")
    (pair,) = _pairs(given, report)
    tell_waits(TOOL, given, waits_in(report))
    lines = list(_differences(given, *pair))
    policies, found, bounds = pair[0], *pair[2:]
    if given.json:
        drivers = [driver_of(given, it) for it in policies]
        print(json.dumps({**dict(zip("ab", map(as_object, policies, found, bounds, drivers))), "differences": lines}))
        return NO if lines else 0
    for name, policy, result, bound in zip("AB", policies, found, bounds):
        every = [f"   {bounding.mark(bound)}{of_all(given, policy)}: {bound.line()}"] if bound else []
        print(f"{name}  {policy.text}", f"   {result.line()}", *every, sep="\n")
    print(*lines or ["no difference"], sep="\n")
    return NO if lines else 0


def _pairs(given, report):
    """The policies that were run, two by two: these, the blocks of the report, the results, and the bounds."""
    all_ = [given.read, list(blocks_of(report)), list(tried_in(report, limits_of(given))), bounds_of_all(given)]
    for at in range(0, len(given.read), 2):
        yield [it[at:at + 2] for it in all_]


def _differences(given, policies, blocks, found, bounds):
    """What differs between two policies, in lines."""
    scope = of_all(given, *policies)
    lines = [*filter(None, [_here(*found)]), *itertools.islice(_first(blocks), 1),
             *([] if None in bounds else map(bounding.mark(*bounds).__add__, _always(scope, *bounds)))]
    modes = {mode_of(given, it) for it in policies}
    if not lines and len(modes) == 1 and len(set(map(canonical, policies))) > 1:
        first, limits_ = entries_of(given, policies[0])[0], driver_of(given, policies[0]).attempt or (1, LAST_MOMENT)
        lines = told_apart(program.find(given.zsched), policies, modes.pop(), first, limits_, given.seed)
    return [*lines, *_settings(*policies)]


def _place(text):
    """The file or the folder that a text names, also as @FILE#*, or None."""
    is_each = text.startswith("@") and text.endswith(f"#{configs.EACH}")
    path = text[1:].removesuffix(f"#{configs.EACH}") if is_each else text
    return path if is_each or os.path.exists(path) else None


def _policies(given, place):
    """The policies of a file or a folder by their names, and whether all could be read."""
    path = limits.find([place])
    walked = types.SimpleNamespace(zsched=program.find(given.zsched), limits={}, allow_left_out=[], strict=False)
    check = checking.Check(limits.read(path) if path else limits.Config("."), walked)
    check.walk([place])
    for it in check.findings:
        print(f"{TOOL}: {it.words()}", file=sys.stderr)
    if number := len(check.mentions):
        note(f"{place}: {plural(number, 'file')} with words of retries and without a policy that is known, so not "
             "compared; zsched-policy check --list names them", TOOL)
    of_folder = os.path.isdir(place)
    return {f"{os.path.relpath(it.path, place)}#{it.found.name}" if of_folder else it.found.name: it.policy
            for it in check.policies}, not check.findings


def _is_same(one, other):
    return one.schedule(RANGES) == other.schedule(RANGES) and not list(_settings(one, other))


def _places(given, places):
    """Prints what differs between the policies of two files or folders; returns the status."""
    (one, is_one_whole), (other, is_other_whole) = (_policies(given, it) for it in places)
    both = [name for name in one if name in other]
    changed = [name for name in both if not _is_same(one[name], other[name])]
    found = {}
    if changed:
        given.policies = [it for name in changed for it in (one[name], other[name])]
        if (report := tried(TOOL, given)) is None:
            return REFUSED
        found = {name: list(_differences(given, *pair)) for name, pair in zip(changed, _pairs(given, report))}
    found = {name: lines for name, lines in found.items() if lines}
    only = {"A": [it for it in one if it not in other], "B": [it for it in other if it not in one]}
    if given.json:
        print(json.dumps({"changed": found, "only_in_a": only["A"], "only_in_b": only["B"],
                          "equal": len(both) - len(found)}))
    else:
        for name, lines in found.items():
            print(name, *(f"   {it}" for it in lines), sep="\n")
        print(*(f"only in {side}: {name}" for side, names in only.items() for name in names),
              f"policies in both: {len(both)}, without a difference: {len(both) - len(found)}", sep="\n")
    if not (is_one_whole and is_other_whole):
        return REFUSED
    if not one and not other:
        print(f"{TOOL}: neither {given.policies} nor {given.other} has a policy, so nothing was compared",
              file=sys.stderr)
        return NO
    return NO if found or only["A"] or only["B"] else 0
