"""A scenario: clients, a service whose state depends on the moment, and policies. It is read from JSON; a fault has its
place.

All moments and durations are milliseconds here; in the file they are whole numbers or texts such as "1.5s"."""
import fractions
import re
from dataclasses import dataclass, replace
from typing import NamedTuple

from zsched_tools import faults, json_reading
from zsched_tools.command import Refused
from zsched_tools.drawn import policies_of
from zsched_tools.durations import milliseconds
from zsched_tools.hints import near
from zsched_tools.outage.outcomes import WHOLE, Choice, Outcome, Outcomes, Spread, always, drawn
from zsched_tools.place import Cause, FaultAt
from zsched_tools.plan_faults import over
from zsched_tools.program import LAST_MOMENT
from zsched_tools.words import duration, listed, shown

SKETCH = '{"horizon": "3min", "clients": {"number": 1000}, "policies": {"NAME": "SCHEDULE"}}'
MOST_CLIENTS = 1_000_000
STATES = ["up", "down", "slow", "full"]
BUDGETS = {"grpc": ["like", "tokens", "ok", "err"], "aws": ["like", "tokens", "ok", "err", "retry"],
           "envoy": ["like", "percent", "least", "err"], "finagle": ["like", "percent", "per_second", "ttl", "err"]}
UP, DOWN, SLOW, FULL = range(4)
THOUSAND = 1000


class Window(NamedTuple):
    """A time from `begin` until `end` (not included) in which the service is in a state. With a capacity it serves at
    most that many of the attempts that begin in each `per` milliseconds of the window; the others find it full."""
    begin: int
    end: int
    state: int
    capacity: int | None
    per: int = 1000


class Budget(NamedTuple):
    """A limit of retries that all clients share. Of gRPC and AWS `tokens` is a bucket's size, `ok` what a success
    returns, and `retry` a price, in thousandths of a token. Envoy has a share of `ok` thousandths of a percent, or
    `retry` retries. Of Finagle `tokens` is a reserve, `ok` what a first attempt adds for `ttl`, `retry` a price."""
    like: str
    tokens: int
    ok: int
    retry: int
    code: int
    ttl: int = 0


@dataclass
class Scenario:
    """What is simulated. `starts` has the moment of each client's first attempt, and `outcomes` those of each state.
    `is_usual` says that the file doesn't say how a service fails that is down. Of the policy are `deadline`, the limit
    of each call, `late`, how an attempt ends at its limit, and `is_repeat`: a client goes on after each success."""
    horizon: int
    seed: int
    starts: list
    coming: str
    windows: list
    outcomes: list
    budget: Budget | None
    policies: dict
    title: str = ""
    deadline: int | None = None
    late: Outcome | None = None
    is_repeat: bool = False
    is_usual: bool = False

    def __post_init__(self):
        self.fixed = [it.only for it in self.outcomes]

    @property
    def is_drawn(self):
        """Whether the outcomes of attempts are drawn."""
        return None in self.fixed

    def outcome(self, state, client, number):
        """How an attempt of a client ends in a state. `number` is that of the attempt, from 0."""
        if found := self.fixed[state]:
            return found
        found = drawn(self.outcomes, state, DOWN, self.seed, client, number)
        return self.late if self.late and found.ms > self.late.ms else found

    def each(self):
        """Each of the outcomes of all states."""
        return [it.outcome for of_state in self.outcomes for it in of_state.choices]

    def errors(self):
        """The error codes of the service."""
        return {it.value for it in self.each() if not it.is_ok}

    @property
    def back(self):
        """The moment at which the service is back for good: the end of the last window in which it is down. None
        without one, or if the horizon comes first."""
        ends = [window.end for window in self.windows if window.state == DOWN]
        return max(ends) if ends and max(ends) <= self.horizon else None

    def limited(self, policy):
        """The scenario of a policy with its limits: an attempt that is longer fails then, as if the service were down.
        If the file doesn't say how it fails, that is an error of the policy's own kind. A wait that is asked for and
        longer than the policy's limit isn't made."""
        code = policy.failing if self.is_usual else self.outcomes[DOWN].choices[0].outcome.value
        late = policy.timeout and Outcome(policy.timeout, False, code)

        def seen(it):
            it = it._replace(value=code) if self.is_usual and it == DEFAULTS[DOWN] else it
            return it if it.asks <= (policy.asked or 0) else it._replace(asks=0)
        outcomes = [it.mapped(seen) for it in self.outcomes]
        outcomes = [always(late) if late and it.only and it.only.ms > late.ms else it for it in outcomes]
        return replace(self, outcomes=outcomes, deadline=policy.deadline, late=late,
                       is_repeat=policy.mode == "repeat")

    def limit_of(self, client):
        """The moment at which the call of a client ends by its limit, if that is up to the horizon."""
        limit = self.starts[client] + self.deadline if self.deadline else LAST_MOMENT + 1
        return limit if limit <= self.horizon else LAST_MOMENT + 1


DEFAULTS = [Outcome(40, True, 200), Outcome(50, False, 503), Outcome(2000, True, 200)]


def _root(data):
    """The root of a JSON document. FaultAt has a fault and its place."""
    read = faults.Plan(data)
    cause = read.no_json if read.no_utf8 is None else json_reading.no_utf8(data, read.text, read.no_utf8)
    if cause is not None:
        raise FaultAt(_of_scenario(cause))
    return read.root


def read_world(data):
    """The outcomes of a service that is up, of a text's bytes. FaultAt has a fault and its place."""
    return _state(_root(data), "up")


def read_scenario(data):
    """The scenario of a file's bytes. FaultAt has a fault and its place."""
    root = _root(data)
    known = ["horizon", "seed", "clients", "windows", "outcomes", "budget", "policies"]
    parts = _members(root, "the scenario", known, ["horizon", "clients", "policies"])
    horizon, seed = _time(parts["horizon"], "the horizon"), _if(parts, "seed", _whole, "the seed", 0)
    starts, coming = _clients(parts["clients"])
    outcomes, windows = _outcomes(parts.get("outcomes")), list(_windows(parts.get("windows")))
    budget = _budget(parts["budget"], outcomes) if "budget" in parts else None
    return Scenario(horizon, seed, starts, coming, windows, outcomes, budget, _named(_policies(parts["policies"])),
                    is_usual="outcomes" not in parts or outcomes[DOWN].only is DEFAULTS[DOWN])


def _of_scenario(cause):
    """A cause that mentions plans, in the words of scenarios."""
    what, help = (re.sub(r"\b(a|the|no) plan\b", r"\1 scenario", words)
                  for words in [cause.what, cause.help.removeprefix(json_reading.FROM)])
    return cause._replace(what=what, help=help.replace(json_reading.SKETCH, SKETCH))


def _refuse(node, what, help=""):
    raise FaultAt(over(node, what, help))


def _members(node, where, known, needed):
    """The values of an object by their keys. An unknown, a repeated or a missing key is a fault."""
    if node.kind != "object":
        _refuse(node, f"{where} must be an object in braces")
    found = {}
    for name, value in node.members():
        key = name.string()
        if known is not None and key not in known:
            _refuse(name, f'{where} has no key "{shown(key)}"', _key_help(key, known))
        if key in found:
            _refuse(name, f'the key "{shown(key)}" is repeated', "remove one of them")
        found[key] = value
    for key in needed:
        if key not in found:
            raise FaultAt(Cause(node.at, 1, f'{where} has no "{key}"', f'write "{key}": {_SAMPLES[key]}'))
    return found


_SAMPLES = {"horizon": '"3min"', "clients": '{"number": 1000, "within": "1s"}', "policies": '{"NAME": "SCHEDULE"}',
            "number": "1000", "from": '"0s"', "ms": "50", "p50": "80", "p99": "600", "like": '"grpc" or "aws"',
            "tokens": "100"}


# What no script says, with the reason.
_BREAKER = ("a breaker decides by the attempts of other calls, and each client runs a schedule alone; a budget is what "
            "clients share")
_HEDGING = "a hedged call has attempts that run side by side, and those of a schedule run one after another"
UNSAID = {**dict.fromkeys(["breaker", "circuit_breaker", "circuitBreaker"], _BREAKER),
          **dict.fromkeys(["hedging", "hedge", "hedgingPolicy"], _HEDGING)}


def _key_help(key, known):
    if key in ("jobs", "workers", "grain", "ticks"):
        return "this is a key of a plan, which zsched runs; a scenario has clients, windows and policies"
    if key in UNSAID:
        return UNSAID[key]
    meant = near(key, known)
    return f'did you mean "{meant}"?' if meant else f"the keys are {listed(known)}"


def _time(node, what):
    """A duration or a moment: a whole number, or a text with a unit."""
    found = node.whole()
    if node.kind == "text":
        try:
            found = milliseconds(node.string())
        except ValueError as fault:
            _refuse(node, str(fault))
    if found is None:
        _refuse(node, f"{what} must be a time", 'write milliseconds, as 1500, or a text, as "1.5s"')
    if found > LAST_MOMENT:
        _refuse(node, f"{what} is more than {LAST_MOMENT} ms")
    return found


def _whole(node, what, least=0, most=2**64 - 1):
    found = node.whole()
    if found is None or not least <= found <= most:
        _refuse(node, f"{what} must be a whole number from {least} to {most}")
    return found


def _word(node, what, words):
    found = node.string() if node.kind == "text" else None
    if found not in words:
        meant = near(found, words) if found else None
        quoted = [f'"{word}"' for word in words]
        _refuse(node, f"{what} must be {listed(quoted, 'or')}", f'did you mean "{meant}"?' if meant else "")
    return found


def _thousandths(node, what):
    """A number of tokens in thousandths: digits, with at most three after the point."""
    if node.kind != "number" or not re.fullmatch(r"[0-9]{1,12}(\.[0-9]{1,3})?", node.source):
        _refuse(node, f"{what} must be a number of tokens", "write at most three digits after the point, as 0.1")
    return int(fractions.Fraction(node.source) * THOUSAND)


def _if(parts, key, read, what, default, *more):
    """The value of a key as `read` reads it, or a default."""
    return read(parts[key], what, *more) if key in parts else default


def _clients(node):
    """The moment at which each client starts, and how they come, in words."""
    if node.kind == "object" and any(name.string() == "starts" for name, _ in node.members()):
        starts = _members(node, "clients", ["starts"], [])["starts"]
        items = list(starts.items()) if starts.kind == "list" else []
        if not 1 <= len(items) <= MOST_CLIENTS:
            _refuse(starts, f'"starts" must be a list of 1 to {MOST_CLIENTS} times', 'write [0, 120, "1.5s"]')
        return [_time(item, "a start") for item in items], "at their own starts"
    parts = _members(node, "clients", ["number", "within", "per_second", "start"], ["number"])
    number = _whole(parts["number"], "the number of clients", 1, MOST_CLIENTS)
    start, time = _if(parts, "start", _time, "the start", 0), _if(
        parts, "within", _time, "the time within which clients start", 0)
    if "per_second" not in parts:
        return [start + time * it // number for it in range(number)], (
            f"within {duration(time)}" if time else "all at once")
    if "within" in parts:
        _refuse(parts["per_second"], 'clients start "within" a time or at a rate "per_second", not both')
    rate = _whole(parts["per_second"], "the clients per second", 1, MOST_CLIENTS)
    return [start + THOUSAND * it // rate for it in range(number)], f"{rate:,} a second"


def _outcomes(node):
    """The outcomes of each state of the service. A full one is as one that is down, without "full"."""
    parts = {} if node is None else _members(node, "outcomes", STATES, [])
    found = [_state(parts[name], name) if name in parts else always(default) for name, default in zip(STATES, DEFAULTS)]
    return found + [_state(parts["full"], "full") if "full" in parts else found[DOWN]]


def _state(node, name):
    """The outcomes of a state: one, as an entry of a plan's script, or a list of some with their shares."""
    if node.kind != "list":
        outcome, spread, parts = _outcome(node, name, ["fail"])
        if "fail" in parts and not outcome.is_ok:
            _refuse(parts["fail"], '"fail" is the share of the attempts that fail, and here all fail')
        return Outcomes((Choice(WHOLE, outcome, spread),), _if(parts, "fail", _percent, '"fail"', 0))
    found = [_outcome(item, name, ["share"]) for item in node.items()]
    shares = [_if(parts, "share", _percent, '"share"', None) for _, _, parts in found]
    rest = WHOLE - sum(filter(None, shares))
    if not found or shares.count(None) != (rest > 0) or rest < 0:
        _refuse(node, f"the outcomes of a service that is {name} have no shares of 100 % together",
                'write [{"share": "10%", ..}, {..}]: that of one outcome may be left out, and is the rest')
    if name == "up" and not any(it.is_ok for it, _, _ in found):
        _refuse(node, "a service that is up returns ok", 'a state in which it fails is "down"')
    choices, below = [], 0
    for (outcome, spread, _), share in zip(found, shares):
        below += rest if share is None else share
        choices.append(Choice(below, outcome, spread))
    return Outcomes(tuple(choices))


def _outcome(node, name, more):
    """An outcome, its spread of durations or None, and its members."""
    known = ["ms", "ok", "err", "retry_after", *more]
    parts = _members(node, f"the outcome of a service that is {name}", known, ["ms"])
    if ("ok" in parts) == ("err" in parts):
        _refuse(node, 'an outcome has "ms" and one of "ok" and "err"', 'write {"ms": 50, "err": 503}')
    is_ok = "ok" in parts
    if name == "up" and not is_ok and "share" not in more or name in ("down", "full") and is_ok:
        _refuse(node, f'a service that is {name} returns {"ok" if name == "up" else "err"}',
                'a state in which it fails is "down"' if name == "up" else "")
    if is_ok and "retry_after" in parts:
        _refuse(parts["retry_after"], "only an error asks for a wait")
    value, spread = _whole(parts["ok" if is_ok else "err"], "a code"), None
    if parts["ms"].kind == "object":
        spread = _spread(parts["ms"])
    ms = spread.p50 if spread else _whole(parts["ms"], "ms", 1, LAST_MOMENT)
    return Outcome(ms, is_ok, value, _if(parts, "retry_after", _time, "retry_after", 0)), spread, parts


def _spread(node):
    """The distribution of a duration, by two of its percentiles."""
    parts = _members(node, "ms", ["p50", "p99"], ["p50", "p99"])
    found = Spread(*(_time(parts[name], name) for name in ["p50", "p99"]))
    if not 1 <= found.p50 <= found.p99:
        _refuse(node, "p50 must be from 1 ms to p99", 'write {"p50": 80, "p99": 600}')
    return found


def _percent(node, what):
    """A share of more than 0, in thousandths of a percent."""
    found = re.fullmatch(r"([0-9]{1,3}(?:\.[0-9]{1,3})?) *%", node.string()) if node.kind == "text" else None
    share = found and int(fractions.Fraction(found[1]) * THOUSAND)
    if not share or share > WHOLE:
        _refuse(node, f"{what} must be a share above 0 % and up to 100 %", 'write "10%", with at most three digits '
                "after the point")
    return share


def _windows(node):
    """The windows, in order and apart from one another."""
    if node is not None and node.kind != "list":
        _refuse(node, "windows must be a list in brackets", 'write [{"from": "0s", "to": "30s", "is": "down"}]')
    last = 0
    for item in node.items() if node is not None else ():
        parts = _members(item, "a window", ["from", "to", "is", "capacity", "per"], ["from"])
        begin = _time(parts["from"], "from")
        end = _if(parts, "to", _time, "to", LAST_MOMENT + 1)
        if begin < last:
            _refuse(parts["from"], "this window begins before the one before it ends",
                    "write the windows in order, and apart from one another")
        if end <= begin:
            _refuse(parts["to"], "this window ends before it begins")
        if "is" not in parts and "capacity" not in parts:
            _refuse(item, "this window changes nothing", 'write "is": "down", "is": "slow" or "capacity": 200')
        yield _window(parts, begin, end)
        last = end


def _window(parts, begin, end):
    state = STATES.index(_word(parts["is"], '"is"', STATES[:FULL])) if "is" in parts else UP
    capacity = _if(parts, "capacity", _whole, "the capacity", None, 1, MOST_CLIENTS)
    if capacity is not None and state == DOWN:
        _refuse(parts["capacity"], "a service that is down has no capacity", 'remove "capacity", or "is"')
    if "per" in parts and capacity is None:
        _refuse(parts["per"], '"per" is the time of a "capacity"', 'write "capacity": 200, "per": "100ms"')
    per = _if(parts, "per", _time, "per", THOUSAND)
    if not per:
        _refuse(parts["per"], '"per" is 0', 'write "100ms", or "1s"')
    return Window(begin, end, state, capacity, per)


def _budget(node, outcomes):
    like = _word(_members(node, "the budget", None, ["like"])["like"], '"like"', list(BUDGETS))
    parts = _members(node, f'a budget like "{like}"', BUDGETS[like], ["tokens"] * ("tokens" in BUDGETS[like]))
    code = _if(parts, "err", _whole, "err", 0)
    if any(code == it.outcome.value for of_state in outcomes for it in of_state.choices if not it.outcome.is_ok):
        _refuse(parts.get("err", node), f"{code} is an error code of the service too",
                'write "err": with another code, for clients whose retries the budget rejects')
    retry = _if(parts, "retry", _thousandths, "retry", (5 if like == "aws" else 1) * THOUSAND)
    ok = _if(parts, "ok", _thousandths, "ok", 100 if like == "grpc" else THOUSAND)
    percent = _if(parts, "percent", _thousandths, "percent", 20 * THOUSAND)
    if "tokens" in parts:
        return Budget(like, _thousandths(parts["tokens"], "tokens"), ok, retry, code)
    if like == "envoy":
        return Budget(like, 0, percent, _if(parts, "least", _whole, "least", 3), code)
    ttl, price = _if(parts, "ttl", _time, "ttl", 10 * THOUSAND), 100 * THOUSAND**2 // percent if percent else 1
    reserve = _if(parts, "per_second", _whole, "per_second", 10) * price * ttl // THOUSAND
    return Budget(like, reserve, THOUSAND if percent else 0, price, code, ttl)


def _named(policies):
    """The policies by their names, of which no two are equal."""
    found = {}
    for name, (policy, node) in policies:
        if name in found:
            _refuse(node, f"two policies have the name {name}", "write @FILE#NAME")
        found[name] = policy, node
    return found


def _policies(node):
    """The name of each policy, with the policy and its place."""
    if not (parts := _members(node, "policies", None, [])):
        _refuse(node, "policies is empty", 'write {"NAME": "SCHEDULE"}, as {"backoff": "exponential(100)"}')
    for name, (key, value) in zip(parts, node.members()):
        if not re.fullmatch("[A-Za-z0-9_-][A-Za-z0-9._-]{0,63}", name):
            _refuse(key, "a name has 1 to 64 letters, digits, - _ and .", "the names of its files begin with it")
        if value.kind != "text":
            _refuse(value, f"the policy {name} must be the text of a schedule", 'as "exponential(100)"')
        try:
            found = policies_of(value.string())
            for it in found:
                yield f"{name}-{it.name}"[:64] if found[1:] else name, (it, value)
        except FaultAt as fault:
            raise FaultAt(in_text(value, fault.cause)) from None
        except Refused as refused:
            _refuse(value, str(refused))


def in_text(node, cause):
    """A cause in the content of a text, with its place in the document."""
    at = node.place_in(cause.at)
    return cause._replace(at=at, size=node.place_in(cause.at + cause.size) - at)
