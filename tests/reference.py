"""The result of zsched for a plan, computed a second time from docs/SEMANTICS.md and docs/FORMATS.md alone: its status,
report and fault. It never runs out of memory or threads. It is as naive as the documents: an output is evaluated from
the whole history, one job after another, without state, timer or thread. Results are cached only so that none is
computed twice. What has one letter in the documents has it here."""
import bisect
import itertools
import json
import math
import operator
import re
from typing import NamedTuple

M = 18446744073709551615
LONGEST_PLAN = 16777216
LAST_TICK = 999999999999999


class Fault(Exception):
    """A fault of a plan, with its text."""


def sat(x):
    """x, or M if x is larger."""
    return min(x, M)


# A term is a tuple: its form, and then its parts, numbers and words in the order in which they are written. A test is
# three of them: a pick or None, a comparison and a number.

# The leaves, and how many numbers have to follow each.
LEAVES = {"forever": 0, "recurs": 1, "spaced": 1, "fixed": 1, "exponential": 1, "fibonacci": 1, "identity": 0,
          "elapsed": 0, "linear": 1, "windowed": 1}
COMPARISONS = {"<": operator.lt, "<=": operator.le, "=": operator.eq, "!=": operator.ne, ">": operator.gt,
               ">=": operator.ge}
PICKS = ["_1", "_2", "size"]
# The functions, and how many numbers have to follow each.
FUNCTIONS = {"_1": 0, "_2": 0, "size": 0, "merge": 0, "as": 1, "+": 1, "*": 1}
SPACES = re.compile(rb" *")
TOKEN = re.compile(rb"[A-Za-z]+|0(?![0-9])|[1-9][0-9]*|_1|_2|&&|\|\||<=|>=|!=|[().,<=>+*]")


class Tokens:
    """The tokens of a text, the first of which is yet to be read."""

    def __init__(self, text):
        self.text = text
        self.first_large = None     # the place of the first number above M
        self.end = 0                # the end of the token before
        self.advance()

    def advance(self):
        """Reads the next token, which is "" at the end of the text and None if there is no token at this place."""
        self.at = SPACES.match(self.text, self.end).end()
        found = TOKEN.match(self.text, self.at)
        self.token = found[0].decode() if found else None if self.at < len(self.text) else ""
        self.end = found.end() if found else self.at

    def take(self, *wanted):
        """Reads one of these tokens. Any other token is a fault, since no term continues with it."""
        if self.token is None or self.token not in wanted:
            raise Fault(f"no term at byte {self.at}")
        token = self.token
        self.advance()
        return token

    def number(self):
        """Reads a number of any size. One above M becomes M + 1."""
        if not self.token or not self.token.isdigit():
            raise Fault(f"no term at byte {self.at}")
        number = int(self.token) if len(self.token) <= 20 else M + 1
        if number > M and self.first_large is None:
            self.first_large = self.at
        self.advance()
        return min(number, M + 1)


class Spelled(NamedTuple):
    """A term that was read, with its depth and its weight. Past 1,000 a weight isn't counted on."""
    term: tuple
    depth: int
    weight: int


def read_leaf(tokens):
    form, numbers = tokens.take(*LEAVES), ()
    if LEAVES[form]:
        tokens.take("(")
        numbers = (tokens.number(),)
        if form == "exponential":
            numbers += (tokens.number() if tokens.token == "," and tokens.take(",") else 2,)
        tokens.take(")")
    return Spelled((form, *numbers), 1, 1)


def read_tail(tokens, part):
    tokens.take(".")
    form, words = tokens.take("whileInput", "whileOutput", "collectAll", "map", "resetWhen"), ()
    if form != "collectAll":
        tokens.take("(")
        if form == "map":
            function = tokens.take(*FUNCTIONS)
            words = function, tokens.number() if FUNCTIONS[function] else None
        else:
            pick = tokens.take(*PICKS) if form != "whileInput" and tokens.token in PICKS else None
            words = pick, tokens.take(*COMPARISONS), tokens.number()
        tokens.take(")")
    weight = part.weight * (2 if form == "resetWhen" else 1) + 1
    return Spelled((form, part.term, *words), part.depth + 1, min(weight, 1001))


def read_spelled(tokens):
    """Reads a whole text as a term. A stack replaces the recursion, since parentheses may be many."""
    is_open = []        # a parenthesis that is open: None, or its first part and its operator
    while True:
        while tokens.token == "(":
            tokens.take("(")
            is_open.append(None)
        spelled = read_leaf(tokens)
        while True:
            while tokens.token == ".":
                spelled = read_tail(tokens, spelled)
            if not is_open:
                tokens.take("")
                return spelled
            if is_open[-1] is None:
                is_open[-1] = spelled, tokens.take("&&", "||", "andThenEither")
                break
            tokens.take(")")
            a, infix = is_open.pop()
            depth = max(a.depth, spelled.depth) + 1
            spelled = Spelled((infix, a.term, spelled.term), depth, min(a.weight + spelled.weight + 1, 1001))


# The schedules that a term is made of; and a term, its parts, and theirs.
def parts_of(s): return [part for part in s if isinstance(part, tuple)]
def every_part(s): return [s] + [inner for part in parts_of(s) for inner in every_part(part)]


def mapped_kind(function, kind):
    """The kind that a function or a pick gives from a kind."""
    match function, kind:
        case (None | "+" | "*"), ["Num"]:
            return kind
        case ("as", _) | ("size", ["Items", _]):
            return ("Num",)
        case ("_1", ["Pair", a, _]) | ("_2", ["Pair", _, a]):
            return a
        case "merge", ["Sum", a, b] if a == b:
            return a
    raise Fault("no kind")


def kind_of(s):
    """The kind of the outputs of a term."""
    kinds = [kind_of(part) for part in parts_of(s)]
    match s[0]:
        case "&&" | "||":
            return "Pair", *kinds
        case "andThenEither":
            return "Sum", *kinds
        case "collectAll":
            return "Items", *kinds
        case "map":
            return mapped_kind(s[2], *kinds)
        case "whileOutput" | "resetWhen" if mapped_kind(s[2], *kinds) != ("Num",):
            raise Fault("no kind")
    return kinds[0] if kinds else ("Num",)


def read_schedule(text):
    """The schedule that a text spells. If there are several faults the first of the table is raised."""
    tokens = Tokens(text)
    s, depth, weight = read_spelled(tokens)
    if depth > 64 or weight > 1000:
        raise Fault("too big")
    if tokens.first_large is not None:
        raise Fault(f"number too large at byte {tokens.first_large}")
    if any(part[0] == "exponential" and part[2] == 0 for part in every_part(s)):
        raise Fault("factor is 0")
    kind_of(s)
    if ("windowed", 0) in every_part(s):
        raise Fault("window is 0")
    return s


# An output is a whole number, ("Pair", a, b), ("Left", a), ("Right", b), or a list. A decision is the moment at which
# the schedule continues, or None for done.

class History:
    """The steps of a job from one to another, oldest first: a piece of the job's one list of pairs (moment, input). The
    pieces of a list cache the results on each of them."""

    def __init__(self, pairs, kept, begin, end):
        self.pairs, self.kept, self.begin, self.end, self.n = pairs, kept, begin, end, end - begin

    @property
    def before(self):
        """The history before the last step, or None at the first one."""
        return History(self.pairs, self.kept, self.begin, self.end - 1) if self.n > 1 else None

    def since(self, k):
        """The history that begins with the k-th step, counted from 1."""
        return History(self.pairs, self.kept, self.begin + k - 1, self.end)


def kept(rule):
    """The same function of a schedule and a history, which is evaluated only once on one history."""
    def looked_up(s, h):
        key = rule, id(s), h.begin, h.end
        if key not in h.kept:
            h.kept[key] = rule(s, h)
        return h.kept[key]
    return looked_up


@kept
def step(s, h):
    """The output and the decision of a schedule at the last step of a history."""
    n, (m, i), m1 = h.n, h.pairs[h.end - 1], h.pairs[h.begin][0]
    match s:
        case ["forever"]:
            return n - 1, m
        case "recurs", k:
            return n - 1, m if n - 1 < k else None
        case "spaced", d:
            return n - 1, sat(m + d)
        case "fixed", p:
            return n - 1, next_run(s, p, m, m1, h)
        case "windowed", p:
            return n - 1, sat(m + p - (m - m1) % p)
        case ("exponential" | "fibonacci" | "linear") as form, *numbers:
            x = sat({"exponential": lambda b, f: b * f ** (n - 1), "fibonacci": lambda o: o * fibonacci(n),
                     "linear": lambda b: b * n}[form](*numbers))
            return x, sat(m + x)
        case ["identity"]:
            return i, m
        case ["elapsed"]:
            return m - m1, m
        case ("&&" | "||") as infix, a, b:
            (left, x), (right, y) = step(a, h), step(b, h)
            going = [z for z in (x, y) if z is not None]
            is_done = len(going) < (2 if infix == "&&" else 1)
            return ("Pair", left, right), None if is_done else max(going) if infix == "&&" else min(going)
        case "andThenEither", a, b:
            k = first_done(a, h)
            side, (out, goes_on) = ("Left", step(a, h)) if k is None else ("Right", step(b, h.since(k)))
            return (side, out), goes_on
        case "resetWhen", part, *_:
            return step(part, h.since(last_reset(s, h)))
    out, goes_on = step(s[1], h)
    match s:
        case "whileInput", _, _, comparison, number:
            return out, goes_on if COMPARISONS[comparison](i, number) else None
        case "whileOutput", _, *test:
            return out, goes_on if passes(out, *test) else None
        case "collectAll", part:
            return collected(part, h.before) if h.before else [], goes_on
        case "map", _, function, number:
            return mapped(function, number, out), goes_on


def next_run(s, p, m, m1, h):
    if h.before is None:
        return sat(m1 + p)
    r = step(s, h.before)[1]
    return m if m > r + p or p == 0 else sat(m + p - (m - m1) % p)


def fibonacci(n):
    """The n-th of 1, 1, 2, 3, 5, .."""
    f, following = 1, 1
    for _ in range(n - 1):
        f, following = following, f + following
    return f


@kept
def first_done(a, h):
    """The least step of a history at which a schedule is done, counted from 1, or None."""
    earlier = first_done(a, h.before) if h.before else None
    return h.n if earlier is None and step(a, h)[1] is None else earlier


@kept
def collected(part, h):
    """The outputs of a schedule at those steps of a history at which it continued."""
    out, goes_on = step(part, h)
    return (collected(part, h.before) if h.before else []) + ([] if goes_on is None else [out])


@kept
def last_reset(s, h):
    """The last step of a history that reset a `resetWhen`, counted from 1, or else the first step."""
    _, part, *test = s
    k = last_reset(s, h.before) if h.before else 1
    return h.n if passes(step(part, h.since(k))[0], *test) else k


def passes(out, pick, comparison, number):
    """Whether what a pick takes of an output passes a test."""
    return COMPARISONS[comparison](mapped(pick, None, out), number)


def mapped(function, number, out):
    """A function of an output, or what a pick takes of it."""
    return {None: lambda: out, "_1": lambda: out[1], "_2": lambda: out[2], "merge": lambda: out[1],
            "size": lambda: len(out), "as": lambda: number, "+": lambda: sat(out + number),
            "*": lambda: sat(out * number)}[function]()


def out_text(out):
    if isinstance(out, tuple):
        return f"{out[0].removeprefix('Pair')}({','.join(map(out_text, out[1:]))})"
    return f"[{','.join(map(out_text, out))}]" if isinstance(out, list) else str(out)


def first_from(moment, ticks):
    """The first of the ticks, which are a list or a range, at or after a moment, or None."""
    at = bisect.bisect_left(ticks, moment)
    return ticks[at] if at < len(ticks) else None


class TooManyAttempts(Exception):
    """A job has more attempts than the caller allows."""


def job_lines(job, ticks, most):
    """The lines of a job's attempts and steps, how it ended, and the moments at which attempts of it began or ended."""
    lines, moments, pairs, remembered = [], set(), [], {}
    s = first_from(job.get("start", 0), ticks)
    while s is not None:
        k = len(pairs) + 1
        if most is not None and k > most:
            raise TooManyAttempts
        moments.add(s)
        entry = job["script"][min(k, len(job["script"])) - 1]
        d, how = entry["ms"], "ok" if "ok" in entry else "err"
        value = entry[how]
        e = first_from(sat(s + d), ticks)
        if e is None:
            lines.append(f"attempt {k} {s}.. running")
            break
        moments.add(e)
        lines.append(f"attempt {k} {s}..{e} {how} {value}")
        if how == ("ok" if job["mode"] == "retry" else "err"):
            return lines, f"{'succeeded' if how == 'ok' else 'failed'} {value} at {e}", moments
        pairs.append((e, value))
        out, x = step(job["term"], History(pairs, remembered, 0, k))
        lines.append(f"step {k} out {out_text(out)} {'done' if x is None else f'next {x}'}")
        if x is None:
            ending = f"failed {value}" if job["mode"] == "retry" else f"finished {out_text(out)}"
            return lines, f"{ending} at {e}", moments
        s = e if x <= e else first_from(x, ticks)
    return lines, f"unfinished at {ticks[-1]}", moments


# A whole number becomes an int and every other number a float; an object becomes a dict, a list a list, a text a str.

JSON_STRING = re.compile(r'"(?:[^"\\]|\\.)*+"')
# An escape, as two if both are halves of one character. The group is a half that is alone.
JSON_ESCAPE = re.compile(r"\\(?:u[dD][89abAB]\w\w\\u[dD][c-fC-F]|(u[dD][89a-fA-F])|.)")


def json_number(text):
    if not math.isfinite(float(text)):
        raise ValueError
    return int(text) if text.isdigit() and len(text) <= 20 and int(text) <= M else float(text)


def read_json(plan):
    """The document of these bytes. Python's reader alone would also take NaN, halves of characters and more levels."""
    try:
        text = plan.decode("utf-8")
        tree = json.loads(text, parse_int=json_number, parse_float=json_number, parse_constant=json_number)
    except (ValueError, RecursionError):
        raise Fault("plan is not JSON") from None
    signs = re.findall(r"[\[{\]}]", JSON_STRING.sub("", text))
    depth = max(itertools.accumulate(1 if sign in "[{" else -1 for sign in signs), default=0)
    if depth > 127 or any(found[1] for found in JSON_ESCAPE.finditer(text)):
        raise Fault("plan is not JSON")
    return tree


# The keys of objects, with the types of their values.
DOCUMENT = {"jobs": list, "horizon": int, "ticks": list, "workers": int, "grain": int}
JOB = {"name": str, "mode": str, "schedule": str, "script": list, "start": int}
ENTRY = {"ms": int, "ok": int, "err": int}
NAME = re.compile(r"[A-Za-z0-9._-]{1,64}")


def check(where, is_so, text):
    """Raises a fault if `is_so` is false."""
    if not is_so:
        raise Fault(f"{where}: {text}")


def has_types(tree, types, *needed):
    """Whether a tree is an object whose values have these types, and that has all needed keys. (True isn't an int.)"""
    return isinstance(tree, dict) and all(key in tree for key in needed) and all(
        type(value) is types.get(key, type(value)) for key, value in tree.items())


def is_in_range(tree):
    ticks = tree.get("ticks", [tree.get("horizon")])
    return (1 <= len(ticks) <= 1000000 and all(map(operator.lt, ticks, ticks[1:])) and ticks[-1] <= LAST_TICK
            and 1 <= tree.get("workers", 1) <= 64 and 1 <= tree.get("grain", 1) <= 10000 and len(tree["jobs"]) <= 10000)


def read_job(tree, j, names):
    """The j-th job of a document, counted from 0, with its schedule's term. Its name is added to those before it."""
    where = f"job {j}"
    check(where, has_types(tree, JOB, "name", "mode", "schedule", "script") and all(
        has_types(it, ENTRY, "ms") and ("ok" in it) != ("err" in it) for it in tree["script"]), "wrong shape")
    check(where, tree.keys() <= JOB.keys() and all(it.keys() <= ENTRY.keys() for it in tree["script"]), "unknown key")
    check(where, tree["mode"] in ("retry", "repeat"), "out of range")
    check(where, NAME.fullmatch(tree["name"]), "bad name")
    check(where, tree["name"] not in names, "name used before")
    names.add(tree["name"])
    try:
        term = read_schedule(tree["schedule"].encode())
    except Fault as fault:
        raise Fault(f"{where}: schedule: {fault}") from None
    check(where, tree["script"], "script: empty")
    check(where, len(tree["script"]) <= 1000, "script: more than 1000 entries")
    check(where, all(entry["ms"] > 0 for entry in tree["script"]), "script: an entry takes 0 ms")
    return {**tree, "term": term}


def read_plan(plan):
    """The jobs and the ticks of a plan. The number of workers and the grain never change a report."""
    if len(plan) > LONGEST_PLAN:
        raise Fault(f"plan is longer than {LONGEST_PLAN} bytes")
    tree = read_json(plan)
    check("plan", has_types(tree, DOCUMENT, "jobs") and ("horizon" in tree) != ("ticks" in tree)
          and all(type(tick) is int for tick in tree.get("ticks", [])), "wrong shape")
    check("plan", tree.keys() <= DOCUMENT.keys(), "unknown key")
    check("plan", is_in_range(tree), "out of range")
    ticks, names = tree["ticks"] if "ticks" in tree else range(tree["horizon"] + 1), set()
    return [read_job(job, j, names) for j, job in enumerate(tree["jobs"])], ticks


def answer(plan, most=None):
    """The status, output and errors of zsched for a plan. Raises TooManyAttempts if a job has more than `most`."""
    try:
        jobs, ticks = read_plan(plan)
    except Fault as fault:
        return 2, b"", f"zsched: {fault}\n".encode()
    lines, total = [], 0
    for job in jobs:
        its_lines, ending, moments = job_lines(job, ticks, most)
        total += len(moments)
        lines += [f"job {job['name']} {job['mode']}", *its_lines, f"end {ending} polls {len(moments)}"]
    return 0, "".join(f"{line}\n" for line in [*lines, f"polls {total}"]).encode(), b""
