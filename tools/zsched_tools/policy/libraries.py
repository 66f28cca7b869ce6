"""Policies in the configuration of libraries: Resilience4j, Spring, Spring Cloud Gateway and Polly 8.

docs/POLICIES.md has their defaults. All this is from memory, not checked.

- Resilience4j 2.2 (IntervalFunction): exponential: each wait is the one before it times the multiplier (1.5), as a
  double, cut to whole milliseconds; then at most exponentialMaxWaitDuration. Randomized: drawn from wait * (1 - f) to
  wait * (1 + f), f 0.5, and cut; the cap comes last. A number without a unit is in milliseconds.
- Spring Retry 2.0 (ExponentialBackOffPolicy): each wait is the one before it times the multiplier, as a double, cut to
  whole milliseconds, until one is above the cap, which all later ones are. Random: times 1 to the multiplier, at most
  the cap. max-retries (Spring 7) counts retries.
- Spring Framework 7.0 (ExponentialBackOff): the jitter is multiplied as the wait is, in whole times of the first wait;
  no wait is below the first one or above the cap.
- Spring Cloud Gateway 4.1 (RetryGatewayFilterFactory): each wait is the one before it times the factor, at most
  maxBackoff; without backoff there are no waits. It retries server errors; without exceptions those of input, output
  and time.
- Polly 8.4 (RetryHelper): UseJitter: 25 % above or below, then at most MaxDelay; for Exponential decorrelated: the n-th
  wait, from 0, is (f(n + u) - f of the wait before) / 1.4 of the delay, with f(t) = 2^t * tanh(sqrt(4t)) and u drawn
  from 0 to 1. 2147483647 retries are no limit.
- .NET's standard HTTP handler (Microsoft.Extensions.Http.Resilience 8): other defaults, limits of an attempt and of the
  call; it retries 408, 429, 5xx and what has no response."""
import functools
import itertools
import math
import os
import re
from fractions import Fraction
from http import HTTPStatus

from zsched_tools.policy.fields import (DAY, Fields, Found, default, duration, items, keys_of, made, named, number,
                                        part, plain, text_of, texts, truth, value_of, whole)
from zsched_tools.policy.reading import Node, unfolded
from zsched_tools.policy.services import document_of, label, tables
from zsched_tools.policy.spelling import (GREATEST, Draws, Waits, constant, decorrelated, exponential, growing,
                                          linear)
from zsched_tools.settings import ERRORS, codes_of, listed_codes

# The package of Spring 7's own @Retryable, which is not Spring Retry's.
SPRING_7 = "org.springframework.resilience"
# The defaults of Spring Boot's keys, and of Spring 7's @Retryable: attempts, first wait, multiplier, cap.
SPRING = {"spring.rabbitmq": (3, 1000, 1, 10_000), "spring.kafka": (3, 1000, 0, 30_000),
          "spring.cloud.config": (6, 1000, Fraction(11, 10), 2000), "spring.cloud.stream": (3, 1000, 2, 10_000),
          SPRING_7: (4, 1000, 1, 2**63 - 1)}
# What says which errors are retried, by classes or by conditions.
RESILIENCE_ERRORS = ("retryexceptions", "ignoreexceptions", "retryonexception", "ignoreexception", "retryonresult")
SPRING_ERRORS = ("retryfor", "include", "value", "noretryfor", "exclude", "includes", "excludes", "predicate",
                 "exceptionexpression")
FIRST = ("initialinterval", "backoffinitialinterval", "initialdelay", "delay", "backoffdelay", "period")
FACTOR = ("multiplier", "backoffmultiplier")
MOST = ("maxinterval", "backoffmaxinterval", "maxdelay", "backoffmaxdelay", "maxperiod")
COUNT = ("maxattempts", "attempts", "maxretries")
# A file of Spring Boot's settings, and the keys of other frameworks that name their files so.
_SPRING_FILE = re.compile(r"(?:application|bootstrap)(?:[-._].*)?\.(?:ya?ml|properties|json)", re.S)
OTHERS = {"micronaut", "quarkus", "smallrye", "mp"}


def _has_settings_of_spring(path, root):
    """Whether all settings of a file may be Spring's, by its name; other frameworks that take this name have keys."""
    firsts = {key.partition(".")[0] for key in root.data} if root.is_table() else set()
    return _SPRING_FILE.fullmatch(os.path.basename(path)) is not None and not firsts & OTHERS


def find(document, path):
    """The policies of a document of a file. Spring's are below `spring.`, or in a file of Spring Boot's settings."""
    root = document
    if root.is_table():
        root = unfolded([(key.split(".") if key.startswith(("resilience4j.", "spring.")) else [key], node)
                         for key, node in root.data.items()])
    is_spring = _has_settings_of_spring(path, root)
    yield from _find_resilience(root) if document_of(root) is None else ()
    for path, kind in tables(root, (("", root),)):
        if kind is not None:
            continue
        node, keys, names = path[-1][1], keys_of(path[-1][1]), ".".join(str(key) for key, _ in path[1:])
        around = path[-2][1] if len(path) > 1 else Node({}, 1)
        yield from _find_gateway(path, names)
        if names.startswith("resilience4j"):
            continue
        if "maxretryattempts" in keys or (keys & {"backofftype", "usejitter"} and keys & {"delay", "maxdelay"}):
            yield Found.at("polly", label(path, "polly"), node, functools.partial(_polly, node, around))
        elif (is_spring or names.startswith("spring.")) and _is_spring(
                keys, keys_of(part(node, "backoff")), names.split(".")[-1]) and not (
                    plain(names).endswith(".backoff") and keys_of(around) & {*COUNT}):
            yield Found.at("spring", names or "spring", node, functools.partial(spring, node, names))


def _find_resilience(root):
    retry = part(part(root, "resilience4j"), "retry")
    for group, prefix in [(part(retry, "configs"), "configs."), (part(retry, "instances", "backends"), "")]:
        for name, node in group.data.items() if group is not None and group.is_table() else ():
            read = functools.partial(resilience, node, part(retry, "configs"))
            yield Found.at("resilience4j", prefix + name, node, read)


def _find_gateway(path, names):
    """The filters of a route of Spring Cloud Gateway, and those of all routes."""
    node, is_route = path[-1][1], len(path) > 2 and plain(str(path[-2][0])) == "routes"
    if not (is_route or names.startswith("spring.cloud.gateway")):
        return
    filters = part(node, "filters", "defaultfilters")
    for it in filters.data if filters is not None and isinstance(filters.data, list) else ():
        if (text_of(part(it, "name")) or str(text_of(it)).partition("=")[0].strip()) == "Retry":
            yield Found.at("gateway", text_of(part(node, "id")) or "gateway", it, functools.partial(_gateway, it))


def resilience(node, configs):
    """The policy of settings of Resilience4j. `configs` has those that a baseConfig names."""
    tables_, base = [node], part(node, "baseconfig")
    while base is not None:
        tables_.append(configs.data.get(text_of(base)) if configs is not None and configs.is_table() else None)
        if tables_[-1] is None or any(tables_[-1] is it for it in tables_[:-1]):
            raise base.wrong(f"there is no config {named(base)} for this baseConfig")
        base = part(tables_[-1], "baseconfig")
    fields = Fields(*tables_)
    fields.take("baseconfig")
    attempts, first = (default("resilience4j", it) for it in ["maxAttempts", "waitDuration"])
    retries = fields.get(whole, "maxattempts", "maxretryattempts", default=attempts, least=1) - 1
    first, factor, most, jitter, share = fields.get(duration, "waitduration", default=first, unit=1), 1, None, None, 0
    if fields.get(truth, "enableexponentialbackoff"):
        factor = float(fields.get(number, "exponentialbackoffmultiplier", default=1.5))
        most = fields.get(duration, "exponentialmaxwaitduration", unit=1)
    if fields.get(truth, "enablerandomizedwait"):
        share = fields.get(number, "randomizedwaitfactor", default=Fraction(1, 2))
        jitter = {"kind": "proportional", "percent": _short(share * 100)}
    if factor < 1 or share >= 1:
        raise node.wrong("exponentialBackoffMultiplier must be at least 1, and randomizedWaitFactor below 1")
    waits = functools.partial(cut, int(first), factor, after=lambda wait: math.ceil(wait * (1 + share)))
    most = None if most is None else int(most)
    draws = share and most is not None and _capped(waits, (1 - share) / (1 + share), most, retries)
    return made(waits(most), retries, {**fields.classes(*RESILIENCE_ERRORS), **fields.left_out()},
                jitter, draws=draws or None)


def statuses(words):
    """The codes of statuses of HTTP, as 503, 5xx, SERVER_ERROR or BadGateway; and the words that name none."""
    series = {"informational": "1xx", "successful": "2xx", "redirection": "3xx", "clienterror": "4xx",
              "servererror": "5xx"}
    names = series | {plain(it.name): str(it.value) for it in HTTPStatus}
    found = {word: word if codes_of(word) else names.get(plain(word)) for word in words}
    return listed_codes(filter(None, found.values())), [word for word, code in found.items() if code is None]


def _capped(waits, least, most, retries):
    """The Draws of waits, which get the cap that the drawn ones have; None if no wait reaches it."""
    higher = waits(math.ceil(most / least))
    last = retries if retries is not None else higher.steady or 0
    return Draws(higher, f"{least}..1", most) if any(higher.at(number) > most for number in (1, last)) else None


def _short(value):
    """A fraction as an int, or as a float."""
    return int(value) if value == int(value) else float(value)


def cut(first, factor, most, after=int):
    """Waits that are multiplied as doubles and cut to whole milliseconds. `after` changes one before the cap."""
    def following():
        wait = first
        while True:
            yield after(wait)
            wait = min(int(wait * factor), GREATEST)
    if int(first * factor) == first:
        return constant(after(first) if most is None else min(after(first), most))
    if factor == int(factor) and after(first) == first:
        return exponential(first, int(factor), most)
    return growing(following(), most)


def _is_spring(keys, inner, key):
    """Whether these are the keys of Spring's settings. `inner` are those of a table `backoff`."""
    has_wait, has_more = (keys | inner) & {*FIRST}, (keys | inner) & {*FACTOR, *MOST}
    is_retry = key == "retry" and keys & {"maxattempts", "maxretries"}
    return "initialbackoff" not in keys and (has_wait and (keys & {*COUNT} or has_more) or is_retry)


def spring(node, names):
    """The policy of settings of Spring, whose place has these names."""
    inner = part(node, "backoff")
    fields = Fields(node, *([inner] if inner is not None else []))
    fields.take("backoff" if inner is not None and inner.is_table() else "")
    known = next((SPRING[key] for key in SPRING if names.startswith(key)), None)
    attempts, first, factor, most = known or (*(default("spring-retry", it) for it in ["maxAttempts", "delay"]), 0, 0)
    if (retries := fields.get(whole, "maxretries")) is None:
        retries = fields.get(whole, "maxattempts", "attempts", default=attempts, least=1) - 1
    first = int(fields.get(duration, *FIRST, default=first, unit=1))
    most = int(fields.get(duration, *MOST, default=most, unit=1))
    factor = float(fields.get(number, *FACTOR, default=factor))
    is_random, jitter, draws = fields.get(truth, "random", "randombackoff"), None, None
    more = int(fields.get(duration, "jitter", unit=1, default=0)) if known is SPRING[SPRING_7] else 0
    if str(getattr(fields.found.get("enabled"), "data", "")).lower() == "true":
        fields.take("enabled")
    left_out = {**fields.classes(*SPRING_ERRORS), **fields.left_out()}
    if more:
        waits, jitter, draws = _jittered(cut(first, max(factor, 1.0), most), first, most, more)
        left_out |= {} if jitter else {"jitter": str(more)}
    elif factor > 0:
        most, factor = most if known or most > first else 30_000, max(factor, 1.0)
        waits = cut(first, factor, most)
        if is_random:
            jitter = {"kind": "added", "percent": _short(Fraction(str(factor)) * 100 - 100)}
            waits = Waits(lambda number, at=waits.at: min(int(at(number) * factor), most), waits.steady)
            draws = _capped(functools.partial(cut, first, factor, after=lambda wait: int(wait * factor)),
                            1 / Fraction(str(factor)), most, retries)
    elif most > first and not known:
        waits, jitter = constant(most), {"kind": "added", "up_to_ms": most - first}
        draws = Draws(constant(first), f"+0..{most - first}ms")
    else:
        waits, left_out = constant(first), left_out | ({"random": "true"} if is_random else {})
    return made(waits, retries, left_out, jitter, draws=draws)


def _jittered(waits, first, most, more):
    """Spring 7's waits, their jitter and its draws: `more`, as often as a wait has the first one, is added or taken
    away, but no wait is below the first one or above the cap. What is drawn around a wait that grows can't be said."""
    def at(number):
        wait = waits.at(number)
        return min(wait + more * (wait // max(1, first)), most)
    if waits.steady != 1 or waits.at(1) != first:
        return Waits(at, waits.steady), None, None
    jitter = {"kind": "added", "up_to_ms": at(1) - first}
    return constant(at(1)), jitter, Draws(constant(first), f"+0..{at(1) - first}ms")


def _gateway(node):
    """A filter: a table of its name and arguments, or their text, as Retry=3,BAD_GATEWAY,GET,10ms,50ms,2,false."""
    names = ["retries", "statuses", "methods", "firstBackoff", "maxBackoff", "factor", "basedOnPreviousValue"]
    given = zip(names, (text_of(node) or "").partition("=")[2].split(","))
    short = {name: node.having(value.strip()) for name, value in given if value.strip()}
    args = part(node, "args") if node.is_table() else node.having(short)
    args = args if args is not None and args.is_table() else node.having({})
    back_off = part(args, "backoff")
    fields = Fields(args, *([back_off] if back_off is not None else []))
    fields.take("backoff")
    has_waits, retries = back_off is not None or "firstbackoff" in fields.found, fields.get(whole, "retries", default=3)
    first, most = (fields.get(duration, name, default=usual, unit=1)
                   for name, usual in [("firstbackoff", 5), ("maxbackoff", None)])
    factor = fields.get(whole, "factor", default=2, least=1)
    words = [*fields.get(texts, "statuses", default=[]), *fields.get(texts, "series", default=["SERVER_ERROR"])]
    on, unknown = statuses(words)
    classes = fields.classes("exceptions")
    # Without them, exceptions of input and output, and of time.
    on = on if classes else listed_codes([*on, "0"])
    if unknown:
        raise node.wrong(f'"{unknown[0]}" is not a status or a series of HTTP')
    return made(exponential(first, factor, most) if has_waits else constant(0), retries,
                {**classes, **fields.left_out()}, on=on)


def _polly(node, around):
    fields = Fields(node)
    fields.take("name")
    is_http = bool(keys_of(around) & {"attempttimeout", "totalrequesttimeout", "circuitbreaker"})
    job = "dotnet-http" if is_http else "polly"
    retries = fields.get(whole, "maxretryattempts", default=default(job, "MaxRetryAttempts"))
    first, most = fields.get(duration, "delay", default=default(job, "Delay"), unit=DAY), fields.get(
        duration, "maxdelay", unit=DAY)
    kind, kinds = fields.take("backofftype"), ["constant", "linear", "exponential"]
    word = kinds[2 * is_http] if kind is None else str(kind.data).lower()
    word = kinds[int(word)] if word in ("0", "1", "2") else word
    if word not in kinds:
        raise kind.wrong(f'"{word}" is not Constant, Linear or Exponential')
    is_random = fields.get(truth, "usejitter", default=is_http)
    words = fields.get(items, "shouldhandle", default=None)
    on, unknown = ((), []) if words is None else statuses([value_of(it) for it in words if text_of(it)])
    if unknown or words and not on:
        on, unknown = (), [value_of(it) for it in words]
    on = listed_codes(["0", "408", "429", "5xx"]) if is_http and words is None else on
    left_out = fields.left_out() | ({ERRORS: unknown} if unknown else {})
    if around is not None and around.is_table():
        left_out |= {name: value_of(it) for name, it in around.data.items()
                     if plain(name) in ("circuitbreaker", "ratelimiter", "timeout", "hedging", "fallback")}
    timeout, deadline = (part(part(around, name), "timeout") for name in ["attempttimeout", "totalrequesttimeout"])
    timeout, deadline = (duration(it, DAY) if it else Fraction(default(job, name)) if is_http else None
                         for it, name in [(timeout, "AttemptTimeout"), (deadline, "TotalRequestTimeout")])
    jitter, draws = {"kind": "proportional", "percent": 25} if is_random else None, None
    greatest, retries = first * Fraction(5, 4) if is_random else first, None if retries == 2**31 - 1 else retries
    if word == "exponential" and is_random and first:
        waits, jitter = growing((decorrelated(float(first), it + 1, it - 1) if it < 900 else GREATEST
                                 for it in itertools.count()), most), {"kind": "decorrelated"}
        if retries and retries <= 240 and first.denominator == 1:
            draws = f"decorrelated({int(first)}, {retries})"
            draws = draws if most is None else f"(({draws} || spaced({int(most)})) && recurs({retries}))"
    elif word == "exponential":
        waits = exponential(first, 2, most)
    else:
        waits = functools.partial(linear, greatest, greatest if word == "linear" else 0)
        draws = is_random and most is not None and _capped(waits, Fraction(3, 5), int(most), retries) or None
        waits = waits(most)
    return made(waits, retries, left_out, jitter, draws=draws, timeout=timeout, deadline=deadline, on=on)
