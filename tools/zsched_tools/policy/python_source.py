"""Policies in Python source: the decorators and classes of tenacity, the decorators of backoff, botocore's Config, and
urllib3's Retry.

tests/test_draws.py compares their waits with those of Debian's packages: tenacity 8.2, backoff 2.2, botocore 1.29, and
urllib3 1.26, whose first retry is at once, and the n-th after factor * 2^(n-1) s, at most 120 s. It retries what has no
response and the statuses of its list; with a Retry-After of any length, that is the wait, and 413, 429 and 503 are
retried, too.
tenacity: wait_exponential waits multiplier * exp_base^(n-1) s, at least min, at most max; a cap comes after the draw,
and min is no least draw. backoff: expo waits factor * base^(n-1) s, at most max_value, before the draw; fibo 1, 1, 2,
3, 5 .. s. Both count the first attempt in stop_after_attempt and max_tries, and their limits of time from its begin
(from memory, as is botocore's Config: max_attempts counts retries, total_max_attempts attempts).
The source is read by `ast`, and never run."""
import ast
import functools
import itertools
import math
import re
from fractions import Fraction
from typing import NamedTuple

from zsched_tools.policy.fields import Found, default, made
from zsched_tools.policy import celery_tasks, services
from zsched_tools.policy.reading import Node, Wrong
from zsched_tools.policy.spelling import (Draws, Waits, constant, exponential, fibonacci, linear, listed,
                                          nearest, one_by_one, spelled, together)
from zsched_tools.program import LAST_MOMENT
from zsched_tools.settings import ERRORS, codes_of, listed_codes

FULL = {"kind": "full"}
MOST_JITTERS = 1000
RETRY = ("urllib3.Retry", "requests.Retry")
# The order of the arguments of tenacity's strategies.
ORDERS = {"wait_none": "", "wait_fixed": "wait", "wait_random": "min max", "wait_incrementing": "start increment max",
          "wait_exponential": "multiplier max exp_base min", "wait_random_exponential": "multiplier max exp_base min",
          "wait_full_jitter": "multiplier max exp_base min", "wait_exponential_jitter": "initial max exp_base jitter"}
_LENGTHS = {"days": 86_400, "hours": 3600, "minutes": 60, "seconds": 1, "milliseconds": Fraction(1, 1000),
            "microseconds": Fraction(1, 10**6), "weeks": 604_800}


def find(text):
    try:
        tree = ast.parse(text)
    except SyntaxError as fault:
        raise Wrong(fault.lineno or 1, f"not Python: {fault.msg}", fault.offset or None) from None
    except (RecursionError, MemoryError, ValueError):
        raise Wrong(1, "not Python, or nested too deeply") from None
    try:
        yield from _Source(tree, text).policies()
    except RecursionError:
        raise Wrong(1, "the source is nested too deeply") from None


class _Source:
    """A source with the names that it imports and the constants that it sets once."""

    def __init__(self, tree, text):
        self.tree, self.names, self.constants, self.known = tree, {}, {}, {}
        self.rows = re.split(r"\r\n|\r|\n", text)
        for node in ast.walk(tree):
            if isinstance(node, (ast.Import, ast.ImportFrom)):
                module = f"{node.module}." if isinstance(node, ast.ImportFrom) else ""
                self.names |= {it.asname or it.name: module + it.name for it in node.names}
        for node in tree.body:
            for target in getattr(node, "targets", [getattr(node, "target", None)]):
                if isinstance(target, ast.Name) and isinstance(node, (ast.Assign, ast.AnnAssign)):
                    self.constants[target.id] = None if target.id in self.constants else node.value
        # The names that somewhere are set to a Retry.
        self.retries = {it.targets[0].id for it in ast.walk(tree) if isinstance(it, ast.Assign) and isinstance(
            it.targets[0], ast.Name) and isinstance(it.value, ast.Call) and self.called(it.value) in RETRY}

    def column(self, node):
        """The column of a node. Python counts the bytes before it."""
        return len(self.rows[node.lineno - 1].encode()[:node.col_offset].decode()) + 1

    def wrong(self, node, what):
        """The error that a node is wrong."""
        return Wrong(node.lineno, what, self.column(node))

    def called(self, node):
        """The full name of what is called or named, without a module inside of the first one: `tenacity.retry`."""
        at, names = node.func if isinstance(node, ast.Call) else node, []
        while isinstance(at, ast.Attribute):
            names.append(at.attr)
            at = at.value
        names.append(ast.unparse(at) if isinstance(at, ast.Name | ast.Constant) else "?")
        text = ".".join(reversed(names))
        first, dot, rest = text.partition(".")
        words = (self.names.get(first, self.names.get("*", "*").replace("*", first)) + dot + rest).split(".")
        return f"{words[0]}.{words[-1]}" if len(words) > 1 else text

    def policies(self):
        """The policies of decorators, and of calls of tenacity's classes."""
        around = {}

        def found(form, name, node, read):
            return Found(form, name, node.lineno, read, self.column(node))

        for node in ast.walk(self.tree):
            name = around.get(node)
            if isinstance(node, ast.Assign) and isinstance(node.targets[0], ast.Name):
                name = node.targets[0].id
            name = getattr(node, "name", None) or name if hasattr(node, "decorator_list") else name
            around.update((child, name) for child in ast.iter_child_nodes(node))
            for it in getattr(node, "decorator_list", []):
                if self.called(it) == "tenacity.retry":
                    yield found("tenacity", name, it, lambda it=it: _Tenacity(self, it).policy())
                elif self.called(it) in ("backoff.on_exception", "backoff.on_predicate") and isinstance(it, ast.Call):
                    yield found("backoff", name, it, lambda it=it: _backoff(self, it))
            for it, given, calls in celery_tasks.options_of(self, node):
                read = functools.partial(celery_tasks.policy_of, self, it, given, calls)
                yield found("celery", getattr(node, "name", None) or "task", it, read)
            if isinstance(node, ast.Call) and self.called(node) in RETRY:
                yield found("urllib3", name or "retry", node, lambda it=node: _urllib3(self, it))
            if (count := _count_of_adapter(self, node)) is not None:
                yield found("urllib3", name or "adapter", node, lambda it=node, by=count: _urllib3(
                    self, ast.copy_location(ast.Call(it.func, [by], []), it)))
            retries = [it.value for it in getattr(node, "keywords", []) if it.arg == "retries"]
            if retries and self.called(node) in ("botocore.Config", "aiobotocore.AioConfig"):
                yield found("aws", name or "config", node, lambda it=retries[0]: _botocore(self, it))
            if isinstance(node, ast.Call) and self.called(node) in ("tenacity.Retrying", "tenacity.AsyncRetrying"):
                yield found("tenacity", name or "retrying", node, lambda it=node: _Tenacity(self, it).policy())

    def once(self, name, read):
        """What `read` reads from the value of a constant, read once."""
        key = name, read.__name__
        if key not in self.known:
            self.known[key] = read(self.constants[name])
        return self.known[key]

    def number(self, node, depth=0):
        """The value of a number in the source, as an exact fraction; a timedelta is in seconds."""
        if isinstance(node, ast.Constant) and type(node.value) in (int, float) and abs(node.value) < 1e30:
            return Fraction(repr(node.value))
        if isinstance(node, ast.Name) and self.constants.get(node.id) is not None and depth < 20:
            return self.once(node.id, lambda it: self.number(it, depth + 1))
        if isinstance(node, ast.UnaryOp) and isinstance(node.op, ast.USub):
            return -self.number(node.operand, depth + 1)
        if isinstance(node, ast.BinOp) and depth < 20:
            one, two = self.number(node.left, depth + 1), self.number(node.right, depth + 1)
            kinds = {ast.Add: lambda: one + two, ast.Sub: lambda: one - two, ast.Mult: lambda: one * two,
                     ast.Div: lambda: one / two, ast.Pow: lambda: one**int(two)}
            is_right = two if isinstance(node.op, ast.Div) else not isinstance(node.op, ast.Pow) or two in range(65)
            if type(node.op) in kinds and is_right:
                return kinds[type(node.op)]()
        if isinstance(node, ast.Call) and self.called(node).split(".")[-1] == "timedelta":
            units = [*zip(("days", "seconds", "microseconds", "milliseconds", "minutes", "hours", "weeks"), node.args),
                     *((it.arg, it.value) for it in node.keywords)]
            if all(unit in _LENGTHS for unit, _ in units):
                return sum((self.number(value, depth + 1) * _LENGTHS[unit] for unit, value in units), Fraction(0))
        raise self.wrong(node, f"{self.shown(node)} is not a number that can be known without running the source")

    def shown(self, node):
        """The beginning of a piece of the source."""
        text = self.whole(node)
        return text if len(text) <= 60 else text[:58] + ".."

    def whole(self, node):
        """A piece of the source in one line."""
        rows = [it.encode() for it in self.rows[node.lineno - 1:node.end_lineno]]
        rows[-1] = rows[-1][:node.end_col_offset]
        return " ".join(b"\n".join([rows[0][node.col_offset:], *rows[1:]]).decode().split())

    def option(self, node, default=None, times=1):
        """A number, or a default if it is None or isn't there."""
        is_none = node is None or (isinstance(node, ast.Constant) and node.value is None)
        return default if is_none else self.number(node) * times

    def arguments(self, call, *names):
        """The arguments of a call by their names."""
        if any(isinstance(it, ast.Starred) for it in call.args) or any(it.arg is None for it in call.keywords):
            raise self.wrong(call, f"the arguments of {self.shown(call)} can't be known without running the source")
        if len(call.args) > len(names):
            raise self.wrong(call, f"{self.shown(call)} has too many arguments")
        return {**dict(zip(names, call.args)), **{it.arg: it.value for it in call.keywords}}

    def each(self, node):
        """The items of a list, of a sum of lists, or of a list for each number of a range."""
        if isinstance(node, (ast.List, ast.Tuple, ast.Set)):
            return list(node.elts)
        if isinstance(node, ast.BinOp) and isinstance(node.op, ast.Add):
            return self.each(node.left) + self.each(node.right)
        if isinstance(node, ast.BinOp) and isinstance(node.op, ast.Mult):
            items, times = (node.left, node.right) if isinstance(node.left, (ast.List, ast.Tuple)) else (
                node.right, node.left)
            return (self.each(items) * min(1000, int(self.number(times))))[:1000]
        over = node.generators[0].iter if isinstance(node, (ast.ListComp, ast.GeneratorExp)) else None
        if isinstance(over, ast.Call) and self.called(over).split(".")[-1] == "range" and len(over.args) == 1:
            return [node.elt] * min(1000, int(self.number(over.args[0])))
        raise self.wrong(node, f"{self.shown(node)} can't be known without running the source")

    def codes(self, node):
        """The statuses of a list, as texts."""
        if isinstance(node, ast.Name) and self.constants.get(node.id) is not None:
            return self.once(node.id, self.codes)
        if isinstance(node, ast.Call) and self.called(node) in ("set", "frozenset", "list", "tuple") and node.args:
            return self.codes(node.args[0])
        found = [str(int(self.number(it))) for it in self.each(node)]
        if wrong := [it for it in found if codes_of(it) is None]:
            raise self.wrong(node, f"{wrong[0]} is not a status")
        return found

    def only(self, call, name):
        given = self.arguments(call, name)
        if list(given) != [name]:
            raise self.wrong(call, f"{self.shown(call)} needs {name}, and nothing else")
        return given[name]


class Strategy(NamedTuple):
    """The greatest waits of a strategy, and how they are drawn, if they are and a text can say it."""
    waits: Waits
    draws: Draws | None = None


class _Tenacity:
    """A policy of tenacity."""

    def __init__(self, source, node):
        self.source, self.node, self.jitters = source, node, []

    def policy(self):
        names = ("sleep", "stop", "wait", "retry", "before", "after", "before_sleep", "reraise")
        given = self.source.arguments(self.node, *names) if isinstance(self.node, ast.Call) else {}
        waits, draws = self.waits(given.pop("wait")) if "wait" in given else Strategy(constant(0))
        stop = given.pop("stop", None)
        retries, limit = (None, None) if stop is None else self.stop(stop)
        left_out = {name: self.source.whole(it) for name, it in given.items() if name != "retry"}
        errors = self.source.whole(given["retry"]) if "retry" in given else "(Exception)"
        left_out |= {} if re.search(r"\(\)$|\(Exception\)$", errors) else {ERRORS: errors}
        left_out |= {} if limit is None else {"stop_after_delay": "it counts from the begin of the first attempt, here "
                                                                  "from its end"}
        jitter = {"kind": "mixed", "parts": self.jitters} if self.jitters and draws is None else None
        return made(waits, retries, left_out, jitter or next(iter(self.jitters), None), limit, draws)

    def stop(self, node):
        """The number of retries and the limit of time, None for no limit."""
        source, called = self.source, self.source.called(node)
        parts = node.args if isinstance(node, ast.Call) and called == "tenacity.stop_any" else (
            [node.left, node.right] if isinstance(node, ast.BinOp) and isinstance(node.op, ast.BitOr) else [])
        if parts:
            found = [self.stop(part) for part in parts]
            return tuple(min((it[at] for it in found if it[at] is not None), default=None) for at in (0, 1))
        if called == "tenacity.stop_never":
            return None, None
        if isinstance(node, ast.Call) and called in ("tenacity.stop_after_attempt", "tenacity.stop_after_delay"):
            is_count = called.endswith("attempt")
            value = source.number(source.only(node, "max_attempt_number" if is_count else "max_delay"))
            return (max(0, math.ceil(value) - 1), None) if is_count else (None, nearest(value * 1000))
        raise source.wrong(node, f"stop={source.shown(node)} can't become a schedule")

    def waits(self, node):
        """The Strategy of a call, a sum or a constant."""
        source, called = self.source, self.source.called(node)
        if isinstance(node, ast.Name) and source.constants.get(node.id) is not None:
            waits, jitters = source.once(node.id, self.waits_alone)
            self.jitters += jitters
            if len(self.jitters) > MOST_JITTERS:
                raise source.wrong(node, f"these waits have more than {MOST_JITTERS} random parts")
            return waits
        if isinstance(node, ast.BinOp) and isinstance(node.op, ast.Add):
            return _sum([self.waits(node.left), self.waits(node.right)])
        name = called.removeprefix("tenacity.")
        if not isinstance(node, ast.Call) or name == called:
            raise source.wrong(node, f"wait={source.shown(node)} can't become a schedule")
        if name in ("wait_chain", "wait_combine"):
            items = (source.each(it.value) if isinstance(it, ast.Starred) else [it] for it in node.args)
            parts = [self.waits(item) for item in itertools.chain.from_iterable(items)] or [Strategy(constant(0))]
            if name == "wait_combine" or len(parts) == 1:
                return _sum(parts)
            return Strategy(one_by_one([it.waits for it in parts]))
        if name not in ORDERS:
            raise source.wrong(node, f"wait={source.shown(node)} can't become a schedule")
        given = {key: source.number(value) for key, value in source.arguments(node, *ORDERS[name].split()).items()}
        return self.known(name, given.get)

    def waits_alone(self, node):
        """The waits of a strategy, and their jitters alone."""
        before, self.jitters = self.jitters, []
        try:
            return self.waits(node), self.jitters
        finally:
            self.jitters = before

    def known(self, name, get):
        """One of tenacity's own strategies. `get` returns an argument, or its default."""
        most = get("max", None) and get("max", None) * 1000
        least, factor = max(0, get("min", 0) * 1000), get("exp_base", default("tenacity-exponential", "exp_base"))
        if name in ("wait_none", "wait_fixed"):
            return Strategy(constant(get("wait", 0) * 1000))
        if name == "wait_random":
            least, most = get("min", 0) * 1000, get("max", 1) * 1000
            return self.added(constant(most), constant(least), most - least)
        if name == "wait_incrementing":
            return Strategy(linear(get("start", 0) * 1000, get("increment", 100) * 1000, most))
        if name == "wait_exponential_jitter":
            first, more = get("initial", 1) * 1000, get("jitter", 1) * 1000
            if most is not None and most <= more:
                greatest = constant(most)
            else:
                inner = exponential(first, factor, None if most is None else most - more)
                greatest = together([inner, constant(more)])
            return self.added(greatest, exponential(first, factor, most), more, most and nearest(most))
        first = get("multiplier", None)
        first = default("tenacity-exponential", "multiplier") if first is None else first * 1000
        waits = exponential(first, factor, most, least)
        if name == "wait_exponential":
            return Strategy(waits)
        self.jitters.append(FULL)
        return Strategy(waits, Draws(waits, "full"))

    def added(self, greatest, waits, more, most=None):
        """Waits to each of which a random time is added, before a cap."""
        if not nearest(more):
            return Strategy(greatest)
        self.jitters.append({"kind": "added", "up_to_ms": nearest(more)})
        return Strategy(greatest, Draws(waits, f"+0..{nearest(more)}ms", most))


def _sum(parts):
    """The sum of strategies. A text can say how it is drawn if one part is, and only has a time added."""
    waits, drawn = together([it.waits for it in parts]), [it for it in parts if it.draws]
    others = [it.waits for it in parts if it.waits.steady != 1 or it.waits.at(1)]
    if len(others) == 1 and drawn and drawn[0].waits is others[0]:
        return drawn[0]
    if len(drawn) != 1 or drawn[0].draws.most or not drawn[0].draws.jitter.startswith("+"):
        return Strategy(waits)
    draws = drawn[0].draws
    return Strategy(waits, draws._replace(waits=together([draws.waits, *(
        it.waits for it in parts if it is not drawn[0])])))


def _botocore(source, node):
    """The policy of botocore's Config, whose retries are those of an AWS config with other counts."""
    if isinstance(node, ast.Call) and source.called(node) == "dict" and not node.args:
        node = ast.copy_location(ast.Dict([ast.Constant(it.arg) for it in node.keywords],
                                          [it.value for it in node.keywords]), node)
    keys = [getattr(it, "value", None) for it in node.keys] if isinstance(node, ast.Dict) else [None]
    if not set(keys) <= {"max_attempts", "total_max_attempts", "mode"}:
        raise source.wrong(node, f"retries={source.shown(node)} can't be known without running the source")
    given, data, place = dict(zip(keys, node.values)), {}, (node.lineno, 1, source.column(node))
    if "mode" in given:
        data["retry_mode"] = Node(str(getattr(given["mode"], "value", source.shown(given["mode"]))), *place)
    count = given.get("total_max_attempts", given.get("max_attempts"))
    if count is not None:
        attempts = source.number(count) + ("total_max_attempts" not in given)
        data["max_attempts"] = Node(str(attempts), *place)
    return services.aws(Node(data, *place))


def _count_of_adapter(source, node):
    """The number of retries of an HTTPAdapter of requests, which makes a Retry of it, or None: it has none, or a Retry
    that stands in the source itself."""
    if not isinstance(node, ast.Call) or source.called(node) != "requests.HTTPAdapter":
        return None
    named = (it.value for it in node.keywords if it.arg == "max_retries")
    given = node.args[2] if len(node.args) > 2 else next(named, None)
    is_none = given is None or isinstance(given, ast.Constant) and not given.value
    return None if is_none or isinstance(given, ast.Call) or getattr(given, "id", None) in source.retries else given


def _urllib3(source, node):
    """The policy of urllib3's Retry. Each limit of a kind of errors only ends a call earlier."""
    given = source.arguments(node, "total", "connect", "read", "redirect", "status", "other", "allowed_methods",
                             "status_forcelist", "backoff_factor")
    count = default("urllib3", "total") if "total" not in given else source.option(given.pop("total"))
    retries, factor = None if count is None else int(count), source.option(given.pop("backoff_factor", None), 0, 1000)
    if min(retries or 0, factor) < 0:
        raise source.wrong(node, f"{source.shown(node)} has a number below 0")
    codes, asks = given.pop("status_forcelist", None), given.pop("respect_retry_after_header", None)
    kinds = ("connect", "read", "redirect", "status", "other", "allowed_methods", "method_whitelist")
    errors = {name: source.whole(given.pop(name)) for name in kinds if name in given}
    on = source.codes(codes) if getattr(codes, "value", codes) is not None else []
    is_asked = getattr(asks, "value", True)
    # It retries these by a Retry-After alone, whatever its list has.
    if is_asked and (more := [it for it in ("413", "429", "503") if it not in on]):
        errors["only with Retry-After"] = more
        on += more
    left_out = {name: source.whole(it) for name, it in given.items()} | ({ERRORS: errors} if errors else {})
    waits = constant(0)
    if factor and retries not in (0, 1):
        later = exponential(2 * factor, 2, default("urllib3", "DEFAULT_BACKOFF_MAX"))
        text, more = spelled(later, retries and retries - 1)
        waits, left_out = f"(recurs(1) andThenEither {text})", left_out | more
    return made(waits, retries, left_out, asked=LAST_MOMENT if is_asked else None, on=listed_codes(["0", *on]))


def _backoff(source, node):
    given = source.arguments(node, "wait_gen", source.called(node).removeprefix("backoff.on_"))
    wait, left_out = given.pop("wait_gen", node), {}
    kind = source.called(wait).removeprefix("backoff.")
    errors = {name: source.whole(given.pop(name)) for name in ("exception", "predicate", "giveup") if name in given}
    errors = {name: it for name, it in errors.items() if (name, it) != ("exception", "Exception")}
    retries, limit = source.option(given.pop("max_tries", None)), source.option(given.pop("max_time", None), times=1000)
    retries = None if retries is None else max(0, int(retries) - 1)
    asked = given.pop("jitter", None)
    word = "full_jitter" if asked is None else source.called(asked).removeprefix("backoff.")
    jitter = {"random_jitter": {"kind": "added", "up_to_ms": 1000}, "full_jitter": FULL}.get(word)
    if jitter is None and word != "None":
        left_out["jitter function"] = source.whole(asked)
    most = source.option(given.pop("max_value", None), times=1000)
    if kind == "constant" and isinstance(given.get("interval"), (ast.List, ast.Tuple)) and given["interval"].elts:
        each = [nearest(source.number(item) * 1000) for item in given.pop("interval").elts]
        waits, retries = listed(each), len(each) if retries is None else min(retries, len(each))
    elif kind == "constant":
        waits = constant(source.option(given.pop("interval", None), 1) * 1000)
    elif kind == "expo":
        first, factor = (source.option(given.pop(it, None), default("backoff-expo", it), times)
                         for it, times in [("factor", 1000), ("base", 1)])
        waits = exponential(first, factor, most)
    elif kind == "fibo":
        waits = fibonacci(most)
    else:
        raise source.wrong(node, f"the waits of {source.shown(wait)} can't become a schedule")
    if limit is not None:
        left_out["max_time"] = ("it counts from the begin of the first attempt, here from its end, and the last wait "
                                "isn't cut to the time that remains")
    draws, waits = (Draws(waits, "+0..1s"), together([waits, constant(1000)])) if word == "random_jitter" else (
        None, waits)
    left_out |= {name: source.whole(it) for name, it in given.items()} | ({ERRORS: errors} if errors else {})
    return made(waits, retries, left_out, jitter, None if limit is None else nearest(limit), draws)
