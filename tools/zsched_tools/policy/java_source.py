"""Retry policies in sources in Java and Kotlin, which are never run: Resilience4j's RetryConfig and IntervalFunction,
and Spring's @Retryable.

docs/POLICIES.md has their defaults. All this is from memory, not checked.

- Resilience4j 2.2 (RetryConfig.Builder): of a call that is repeated the last one counts; build() refuses waitDuration
  beside intervalFunction.
- Spring Retry 2.0 (@Backoff): a delay of 0 stands for `value`, which is 1000 ms if it isn't given.
- Spring Framework 7.0 (org.springframework.resilience.annotation.Retryable): times are in timeUnit, which is a
  millisecond if it isn't given."""
import bisect
import functools
import itertools
import re
from typing import NamedTuple

from zsched_tools.policy.fields import Found
from zsched_tools.policy.java_text import TYPES, Call, Java
from zsched_tools.policy.libraries import SPRING_7, resilience, spring
from zsched_tools.words import shown

# What a policy begins with. With Resilience4j's module for Kotlin, RetryConfig { .. } is one too.
_CONFIG = re.compile(rf"\bRetryConfig\s*+(?:\.\s*+(?:{TYPES}\s*+)?(custom|from|ofDefaults)\s*+(?:{TYPES}\s*+)?(?=\()|"
                     rf"(?:{TYPES}\s*+)?(?=\{{))")
_INTERVAL = re.compile(r"\bIntervalFunction\s*+\.\s*+(of\w*+)\s*+(?=\()")
_ANNOTATION = re.compile(r"@([\w.]++)\s*+")
_KOTLIN = "io.github.resilience4j.kotlin"
_COUNTED = re.compile(r"\bmaxAttempts\s*+\(\s*+([0-9]++)\s*+\)")
# An argument with a name, the annotation @Backoff, and what is before the items of an array.
_GIVEN = re.compile(r"(\w++)\s*+=(?!=)\s*+")
_BACKOFF = re.compile(r"@?([\w.]++)\s*+")
_ARRAY = re.compile(r"(?:new\s[\w\s.<>?\[\]]*+|arrayOf\s*+|listOf\s*+)?")
_TEXT = re.compile(r"\A\"([^\"\\]*+)\"\Z")
# What is between an annotation and the name of what it stands before: another annotation, and words.
_OTHER = re.compile(r"@(?:\w++:)?[\w.]++\s*+")
_WORDS = re.compile(r"[^({;=@]*+")
_TYPE = re.compile(r"\b(?:class|interface|object|record|enum)\s++(\w++)")
# The calls of the builder that say how long it waits, and what resilience4j.retry has for these.
_WAITS = {"waitDuration", "intervalFunction", "intervalBiFunction"}
_KEYS = ["waitDuration", "exponentialBackoffMultiplier", "exponentialMaxWaitDuration", "randomizedWaitFactor",
         "enableExponentialBackoff", "enableRandomizedWait"]
# Kotlin's functions that may do anything with the builder; the block of `apply` is read.
_SCOPES = {"also", "apply", "let", "run", "with"}
_TIMES = {"NANOSECONDS": "ns", "MICROSECONDS": "us", "MILLISECONDS": "ms", "SECONDS": "s", "MINUTES": "min",
          "HOURS": "h", "DAYS": "d"}
# The arguments of @Retryable that name classes, those of Spring 7 alone, and those that only a run can know.
_ERRORS = {"retryFor", "noRetryFor", "include", "exclude", "includes", "excludes", "value"}
_OF_7 = {"maxRetries", "maxRetriesString", "delay", "delayString", "maxDelay", "maxDelayString", "multiplier",
         "multiplierString", "jitter", "jitterString", "timeUnit", "includes", "excludes", "predicate"}
_UNREAD = {"maxAttemptsExpression", "delayExpression", "maxDelayExpression", "multiplierExpression", "randomExpression",
           "interceptor", *(it for it in _OF_7 if it.endswith("String"))}
# So many RetryConfigs are followed from one that is made from another.
_MOST_BASES = 8
_SPRING_RETRY = "org.springframework.retry"
_UNKNOWN = "can't be known without running the source"


class Chain(NamedTuple):
    """What makes a RetryConfig: where it begins and ends, its first word, where that one's brackets open, the calls
    that follow, and whether the last of them is build."""
    at: int
    end: int
    word: str
    opened: int | None
    calls: list[Call]
    is_built: bool


def find(text):
    """The policies of a source in Java or Kotlin."""
    return list(Policies(Java(text)).found())


class Policies:
    """The policies of a source: where each begins, and what is read there."""

    def __init__(self, source):
        self.source, code = source, source.code
        is_kotlin = _KOTLIN in code
        # Behind a colon RetryConfig { .. } is the type of a function, and its body.
        self.chains = {it.start(): _chain(source, it) for it in _CONFIG.finditer(code) if it[1] or (
            is_kotlin and not code[max(0, it.start() - 99):it.start()].rstrip().endswith(":"))}
        self.begins = list(self.chains)
        self.ends = list(itertools.accumulate((it.end for it in self.chains.values()), max))
        self.intervals = {it.start(): (it[1], it.end()) for it in _INTERVAL.finditer(code)}
        self.counts = [(it.start(), it[1]) for it in _COUNTED.finditer(code) if not self.is_in_chain(it.start())]

    def found(self):
        """All, in the order of their places."""
        source, found, code = self.source, [], self.source.code
        for chain in self.chains.values():
            read = functools.partial(_config, self, chain)
            found.append((chain.at, "resilience4j", source.name_of(chain.at) or "RetryConfig", read))
        used = set(self.used())
        for at, (word, opened) in self.intervals.items():
            if at not in used and not self.is_in_chain(at):
                read = functools.partial(_interval_alone, source, at, word, opened, self.count_beside(at))
                found.append((at, "resilience4j", source.name_of(at) or word, read))
        imports = {it: it in code for it in (SPRING_7, _SPRING_RETRY)}
        marks = [it for it in _ANNOTATION.finditer(code) if it[1].rpartition(".")[2] == "Retryable"]
        names = _names(source, marks)
        for it in marks:
            read = functools.partial(_retryable, source, it, imports)
            found.append((it.start(), "spring", names[it.start()] or "Retryable", read))
        for at, form, name, read in sorted(found, key=lambda it: it[0]):
            yield Found(form, name, source.line(at), read, source.column(at))

    def is_in_chain(self, at):
        """Whether a place is inside what makes a RetryConfig."""
        number = bisect.bisect_left(self.begins, at)
        return number > 0 and at < self.ends[number - 1]

    def used(self):
        """The places of the IntervalFunctions that a RetryConfig takes by a name."""
        for it in itertools.chain.from_iterable(it.calls for it in self.chains.values()):
            if it.name == "intervalFunction" and it.opened in self.source.closed:
                yield self.source.constant(self.source.inside(it.opened).removeprefix("this."))

    def count_beside(self, at):
        """The number of attempts in the statement of a place, as its text, or None."""
        begin, end = self.source.statement(at)
        number = bisect.bisect_left(self.counts, (begin,))
        return self.counts[number][1] if number < len(self.counts) and self.counts[number][0] < end else None


def _chain(source, found):
    """The Chain of what _CONFIG found."""
    at, opened = found.start(), found.end()
    if not found[1]:
        call = source.call(found, "apply")
        return Chain(at, call.end, "custom", None, [call], True)
    if opened not in source.closed or found[1] == "ofDefaults":
        return Chain(at, source.closed.get(opened, len(source.code)), found[1], opened, [], True)
    calls = source.chain(source.closed[opened] + 1)
    number = next((number for number, it in enumerate(calls, 1) if it.name == "build"), None)
    calls = calls[:number]
    return Chain(at, calls[-1].end if calls else source.closed[opened], found[1], opened, calls, number is not None)


def _names(source, marks):
    """The name of the method or the type behind each annotation, by its place. What is between two of them is read
    once, for the later one."""
    known = {}
    for mark in reversed(marks):
        at, name = mark.end(), None
        at = source.closed.get(at, at - 1) + 1 if source.letter(at) == "(" else at
        while (at := source.after(at)) not in known:
            is_type = source.code.startswith("@interface", at)
            if source.letter(at) == "@" and not is_type and (other := _OTHER.match(source.code, at)):
                at = other.end()
                at = source.closed.get(at, at) + 1 if source.letter(at) == "(" else at
                continue
            found = _WORDS.match(source.code, at + is_type)
            kind, words, at = _TYPE.search(found[0]), re.findall(r"\w++", found[0]), found.end()
            name = kind[1] if kind else words[-1] if words else None
            if kind or source.letter(at) != "@" or not found[0]:
                break
        else:
            name = known[at]
        known[mark.start()] = name
    return known


# Resilience4j.

def _config(policies, chain):
    """The policy of a RetryConfig."""
    return resilience(policies.source.node(chain.at, _settings(policies, chain, set())[0]), None)


def _settings(policies, chain, made):
    """The settings of a RetryConfig by their names, as resilience4j.retry has them, and the call that says how long it
    waits. `made` has the places of those that are made from this one."""
    source, here = policies.source, policies.source.node(chain.at)
    if chain.opened is not None:
        source.closing(chain.opened)
    found, by = {}, None
    if chain.word == "from":
        found, by = _settings(policies, _base(policies, chain, made), made | {chain.at})
    for call in _calls(source, chain):
        here = source.node(call.at)
        if call.name in _SCOPES or call.opened is None and call.block is None:
            raise here.wrong(f"what {call.name} does with the builder {_UNKNOWN}")
        said = source.said(call.block, call.end) if call.opened is None else source.inside(call.opened)
        if call.name in _WAITS:
            if by not in (None, call.name):
                raise here.wrong(f"{by} and {call.name} both say how long it waits, which build() refuses")
            by, waits = call.name, _waits(policies, call, said)
            found = {name: it for name, it in found.items() if name not in _KEYS} | waits
        elif call.name == "maxAttempts":
            found[call.name] = here.having(source.number(said, here)[0])
        elif call.name in ("retryExceptions", "ignoreExceptions") and call.opened is not None:
            found[call.name] = _classes(source, source.arguments(call.opened), here)
        elif call.name != "build":
            found[call.name] = here.having(said)
    if not chain.is_built:
        raise here.wrong(f"these calls don't end with build(), and what else is called on the builder {_UNKNOWN}")
    return found, by


def _base(policies, chain, made):
    """What RetryConfig.from(..) begins with."""
    source, here = policies.source, policies.source.node(chain.at)
    said = source.inside(chain.opened)
    begin = source.after(chain.opened + 1)
    begin = begin if begin in policies.chains else source.constant(said)
    base = policies.chains.get(begin)
    if len(made) > _MOST_BASES:
        raise here.wrong(f"more than {_MOST_BASES} others, each made from the next, are behind this")
    if base is None or begin in made | {chain.at} or source.letter(source.after(base.end)) == ".":
        raise here.wrong(f"{shown(said, 200)}, from which it is made, {_UNKNOWN}")
    return base


def _calls(source, chain):
    """The calls of a chain, and those of the blocks of Kotlin's `apply` in it."""
    for call in chain.calls:
        if call.name == "apply" and call.block is not None:
            yield from source.calls_in(call.block)
        else:
            yield call


def _waits(policies, call, said):
    """The settings of the waits of a call of the builder."""
    source, here = policies.source, policies.source.node(call.at)
    if call.name == "waitDuration":
        return {call.name: here.having(source.number(said, here)[0])}
    begin = source.after(call.opened + 1) if call.opened is not None else None
    at = begin if begin in policies.intervals else source.constant(said.removeprefix("this."))
    word, opened = policies.intervals.get(at, (None, None))
    end = source.after(source.closing(opened) + 1) if word else None
    is_whole = word and (end == source.closed[call.opened] if at == begin else source.letter(end) not in (".", "?"))
    if call.name != "intervalFunction" or not is_whole:
        raise here.wrong(f"{call.name}: {shown(said, 200)} {_UNKNOWN}")
    return _interval(source, at, word, opened)


def _interval(source, at, call, opened):
    """The settings of a call of IntervalFunction."""
    here = source.node(at)
    values = [source.number(source.said(*it), here) for it in source.arguments(opened)]
    wait, factor, most, share = _KEYS[:4]
    names = {"of": [wait], "ofDefaults": [], "ofRandomized": [wait, share],
             "ofExponentialBackoff": [wait, factor, most],
             "ofExponentialRandomBackoff": [wait, factor, share, most]}.get(call, [])
    if len(names) == 4 and len(values) == 3 and not values[2][1]:
        names = [wait, factor, most]
    if len(values) > len(names) or call[2:] not in ("", "Defaults") and not names:
        raise here.wrong(f"IntervalFunction.{call} with {len(values)} arguments can't become a schedule")
    table = dict(zip(names, [text for text, _ in values]))
    table |= {"enableExponentialBackoff": "true"} if "Exponential" in call else {}
    table |= {"enableRandomizedWait": "true"} if "Random" in call else {}
    return {name: here.having(text) for name, text in table.items()}


def _interval_alone(source, at, call, opened, count):
    """The policy of a call of IntervalFunction that no RetryConfig takes."""
    here = source.node(at)
    table = _interval(source, at, call, opened) | ({"maxAttempts": here.having(count)} if count else {})
    policy = resilience(here.having(table), None)
    policy.left_out |= {} if count else {"maxAttempts": "not beside the call, so its default"}
    return policy


def _classes(source, parts, here):
    """The names of classes, of arguments or of an array."""
    names = []
    for begin, end in parts:
        at = _ARRAY.match(source.code, begin).end()
        if source.letter(at) in ("{", "[", "(") and at in source.closed and source.after(source.closed[at] + 1) >= end:
            names += _classes(source, source.arguments(at), here).data
        else:
            names.append(here.having(re.sub(r"(?:\.class|::class(?:\.java)?)\Z", "", source.said(begin, end))))
    return here.having(names)


# Spring.

def _given(source, opened):
    """The places of the values of an annotation by their names. Those without a name are `value`."""
    found = {}
    for begin, end in source.arguments(opened):
        named = _GIVEN.match(source.code, begin)
        found.setdefault(named[1] if named else "value", []).append((named.end() if named else begin, end))
    return found


def _retryable(source, found, imports):
    """The policy of @Retryable, of Spring Retry or of Spring 7."""
    here, opened = source.node(found.start()), found.end()
    given = _given(source, opened) if source.letter(opened) == "(" else {}
    if "." in found[1]:
        is_7 = found[1].startswith(SPRING_7)
    elif imports[SPRING_7] != imports[_SPRING_RETRY]:
        is_7 = imports[SPRING_7]
    else:
        is_7 = not given.keys().isdisjoint(_OF_7)
    return spring(here.having(_annotation(source, given, is_7)), SPRING_7 if is_7 else "")


def _annotation(source, given, is_7):
    """The settings of @Retryable by their names, as Spring's configs have them."""
    table, unit = {}, "ms"
    if "timeUnit" in given:
        place = given.pop("timeUnit")[0]
        said = source.said(*place)
        if (unit := _TIMES.get(said.rpartition(".")[2])) is None:
            raise source.node(place[0]).wrong(f"timeUnit = {shown(said, 200)} {_UNKNOWN}")
    if not is_7 and "backoff" in given:
        table = _backoff(source, given.pop("backoff")[0])
    for name, parts in given.items():
        said, here = source.said(*parts[0]), source.node(parts[0][0])
        if name in _UNREAD and said != '""':
            raise here.wrong(f"{name} = {shown(said, 200)} {_UNKNOWN}")
        if is_7 and name == "maxAttempts":
            raise here.wrong("Spring 7's @Retryable has maxRetries, and no maxAttempts")
        if name in ("maxAttempts", "maxRetries", "multiplier"):
            table[name] = here.having(source.number(said, here)[0])
        elif name in ("delay", "maxDelay", "jitter"):
            table[name] = here.having(source.number(said, here)[0] + unit)
        elif name in _ERRORS:
            table[name] = _classes(source, parts, here)
        elif said != '""':
            table[name] = here.having(_TEXT.sub(r"\1", said))
    return table


def _backoff(source, part):
    """The settings of the waits of @Backoff."""
    here = source.node(part[0])
    found = _BACKOFF.match(source.code, part[0])
    if found is None or found[1].rpartition(".")[2] != "Backoff":
        raise here.wrong(f"backoff = {shown(source.said(*part), 200)} {_UNKNOWN}")
    given, table = _given(source, found.end()) if source.letter(found.end()) == "(" else {}, {}
    for name, parts in given.items():
        said, here = source.said(*parts[0]), source.node(parts[0][0])
        if name in _UNREAD and said != '""':
            raise here.wrong(f"{name} = {shown(said, 200)} {_UNKNOWN}")
        if name in ("delay", "value", "maxDelay", "multiplier"):
            table[name] = here.having(source.number(said, here)[0])
        elif said != '""':
            table[name] = here.having(said)
    value = table.pop("value", None)
    if table.get("delay", here.having("1")).data.strip("0") == "":
        table.pop("delay")
    return {"delay": value, **table} if value is not None else table
