"""What zsched-bounds prints for a schedule, computed a second time from docs/SEMANTICS.md, as a run over intervals.

Each number of a schedule's state is an interval: its least and its greatest value. A history is driven: moments are at
most LAST, and after a step the driver waits, by the schedule's wait and its own options. Then an attempt takes the
least duration or more, which is 1 ms or more, and at most the greatest one, if there is one."""
import random
import re

import generator
import reference
from reference import sat

MOST, LAST = 2 ** 64 - 1, 999999999999999
# By default so many steps are looked at that those of all nodes are at most WORK.
WORK, ANY = 1200000, (1, None)
# A driver's waits: the least and the most percentage, how late an attempt may begin, and the longest wait on request.
EXACT = (100, 100, 0, 0)
WAITS = [EXACT, EXACT, (0, 100, 0, 0), (80, 120, 0, 0), (50, 150, 3, 0), (100, 100, 50, 900), (33, 67, 0, 5),
         (100, 100, MOST, 0), (0, 0, 0, 7)]
# The place in outputs that a test reads: 1 and 2 lead into pairs, 0 into a list.
PLACES = {None: [], "_1": [1], "_2": [2], "size": [0]}
# The least and the greatest duration of attempts.
DURATIONS = [ANY, ANY, (1, 1), (1, 8), (2, 3), (1, 5001), (20, 5020)]


# Ranges of outputs: ("num", low, high), ("pair", a, b), ("sum", left or None, right or None), ("items", low, high).
# A result: a range of outputs, the interval of waits if it may continue or None, and whether it may stop.

def hull(a, b):
    """The least interval around two, either of which may be missing."""
    return (min(a[0], b[0]), max(a[1], b[1])) if a and b else a or b


def join(a, b):
    """The least range around two."""
    if a is None or b is None:
        return a or b
    return (a[0], *hull(a[1:], b[1:])) if a[0] in ("num", "items") else (a[0], join(a[1], b[1]), join(a[2], b[2]))


def either(a, b): return (join(a[0], b[0]), hull(a[1], b[1]), a[2] or b[2]) if a and b else a or b


def tested(interval, comparison, k):
    """Whether a number of the interval may pass, and may fail."""
    low, high = interval
    less, more, equal, is_one = low < k, high > k, low <= k <= high, low == high == k
    return {"<": (less, high >= k), "<=": (low <= k, more), ">": (more, low <= k), ">=": (high >= k, less),
            "=": (equal, not is_one), "!=": (not is_one, equal)}[comparison]


def mapped(function, k, out):
    """The range of a function of an output, or of what a pick takes of it."""
    if function in ("_1", "_2"):
        return out[int(function[1])]
    low, high = out[1:]
    return {"merge": lambda: join(low, high), "size": lambda: ("num", low, high), "as": lambda: ("num", k, k),
            "+": lambda: ("num", sat(low + k), sat(high + k)), "*": lambda: ("num", sat(low * k), sat(high * k)),
            None: lambda: out}[function]()


def leaf(s, steps, time):
    """The result of a leaf by the intervals of its number of steps, with this one, and of the time since the first."""
    (low, high), is_first = steps, steps[1] == 1
    number = "num", low - 1, high - 1
    match s:
        case ["forever"]:
            return number, (0, 0), False
        case "recurs", k:
            return number, (0, 0) if low - 1 < k else None, high - 1 >= k
        case "identity" | "elapsed", *_:
            return ("num", *((0, MOST) if s[0] == "identity" else time)), (0, 0), False
        case "spaced" | "fixed" | "windowed", p:
            least = {"spaced": p, "fixed": p if is_first else 0, "windowed": p if is_first else min(1, p)}[s[0]]
            return number, (min(least, MOST - LAST), p), False
        case "exponential", b, f:
            x = [b if b == 0 or f == 1 else sat(b * f ** min(n - 1, 64)) for n in steps]
        case "fibonacci", o:
            x = [sat(o * reference.fibonacci(min(n, 100))) for n in steps]
        case "linear", b:
            x = [sat(b * n) for n in steps]
    return ("num", *x), (min(x[0], MOST - LAST), x[1]), False


def merge(s, a, b):
    if a is None or b is None:
        return a or b
    match s[0]:
        case "&&" | "||" | "andThenEither":
            return merge(s[1], a[0], b[0]), merge(s[2], a[1], b[1])
        case "collectAll":
            return merge(s[1], a[0], b[0]), hull(a[1], b[1])
        case "whileInput" | "whileOutput" | "map" | "resetWhen":
            return merge(s[1], a, b)
    return hull(a[0], b[0]), hull(a[1], b[1])


def step(s, state, d):
    """The result of one more step, an interval d of time after the one before, and the next state (None: the first)."""
    match s:
        case ("&&" | "||") as operator, a, b:
            (x, v, stops_a), after_a = step(a, state and state[0], d)
            (y, w, stops_b), after_b = step(b, state and state[1], d)
            pick = max if operator == "&&" else min
            wait = v and w and (pick(v[0], w[0]), pick(v[1], w[1]))
            if operator == "&&":
                return (("pair", x, y), wait, stops_a or stops_b), (after_a, after_b)
            wait = hull(hull(wait, v if stops_b else None), w if stops_a else None)
            return (("pair", x, y), wait, stops_a and stops_b), (after_a, after_b)
        case "andThenEither", a, b:
            return step_in_turn(a, b, state, d)
        case "whileInput" | "whileOutput" as operator, part, pick, comparison, k:
            (x, wait, stops), after = step(part, state, d)
            passes, fails = tested((0, MOST) if operator == "whileInput" else mapped(pick, None, x)[1:], comparison, k)
            return (x, wait if passes else None, stops or fails), after
        case "collectAll", part:
            count = state[1] if state else (0, 0)
            (_, wait, stops), after = step(part, state and state[0], d)
            counted = count[0] + (not stops), count[1] + (wait is not None)
            return (("items", *count), wait, stops), (after, counted)
        case "map", part, function, k:
            (x, wait, stops), after = step(part, state, d)
            return (mapped(function, k, x), wait, stops), after
        case "resetWhen", part, pick, comparison, k:
            result, after = step(part, state, d)
            passes, fails = tested(mapped(pick, None, result[0])[1:], comparison, k)
            begun = step(part, None, None) if passes else (None, None)
            return either(result if fails else None, begun[0]), merge(part, after if fails else None, begun[1])
    steps, time = state or ((0, 0), (0, 0))
    after = (steps[0] + 1, steps[1] + 1), (time[0] + d[0], min(time[1] + d[1], LAST)) if state else (0, 0)
    return leaf(s, *after), after


def step_in_turn(a, b, state, d):
    """The same for `andThenEither`: a state has those of both parts, and None for a part that can't be active."""
    result = first = second = None
    if state is None or state[0]:
        (x, wait, stops), after = step(a, state and state[0], d)
        if wait:
            result, first = (("sum", x, None), wait, False), after
        if stops:
            (y, wait, may_stop), second = step(b, None, None)
            result = either(result, (("sum", None, y), wait, may_stop))
    if state and state[1]:
        (y, wait, may_stop), after = step(b, state[1], d)
        result, second = either(result, (("sum", None, y), wait, may_stop)), merge(b, second, after)
    return result, (first, second)


def never_ends(s):
    """Whether the form of a schedule shows that it never gives up, as docs/FORMATS.md says."""
    match s:
        case "&&", a, b:
            return never_ends(a) and never_ends(b)
        case ("||" | "andThenEither"), a, b:
            return never_ends(a) or never_ends(b)
        case ("map" | "collectAll" | "resetWhen"), part, *_:
            return never_ends(part)
    return s[0] not in ("recurs", "whileInput", "whileOutput")


# The lowest of the limits that there are; the highest, if all are there; the greater number, if the second has 64 bits.
def lower(*limits): return min((it for it in limits if it is not None), default=None)
def all_limited(*limits): return None if None in limits else max(limits)
def summed(*limits): return None if None in limits or sum(limits) > MOST else sum(limits)
def within(x, y): return max(x, y) if y <= MOST else None


def has_time(s, place):
    """Whether the outputs of a schedule have the time since its first step at a place: 1 and 2 lead into pairs."""
    match s, place:
        case ["elapsed"], []:
            return True
        case ["&&" | "||", *parts], [1 | 2 as part, *rest]:
            return has_time(parts[part - 1], rest)
        case ["whileInput" | "whileOutput", part, *_], _:
            return has_time(part, place)
        case ["map", part, "_1" | "_2" as pick, _], _:
            return has_time(part, [int(pick[1]), *place])
    return False


def time_limit(s, durations=ANY, waits=EXACT, beside=0):
    """A limit of the time from the first step up to one that goes on, by the form of a schedule, or None. The waits of
    what is stepped beside it have a limit."""
    match s:
        case ["&&" | "||" as operator, a, b]:
            joined = lower if operator == "&&" else all_limited
            return joined(*(time_limit(it, durations, waits, all_limited(beside, wait_limit(other)))
                            for it, other in ((a, b), (b, a))))
        case "andThenEither", a, b:
            # The second part begins at the step after the last one at which the first goes on.
            wait = all_limited(beside, wait_limit(a))
            gap = None if None in (wait, durations[1]) else driven(waits, wait, wait)[1] + durations[1]
            return summed(time_limit(a, durations, waits, beside), gap, time_limit(b, durations, waits, beside))
        case "whileOutput", part, pick, comparison, k if has_time(part, PLACES[pick]):
            return lower(time_limit(part, durations, waits, beside),
                         {"<": max(k - 1, 0), "<=": k, "=": k}.get(comparison))
        case ["whileInput" | "whileOutput" | "map" | "collectAll", part, *_]:
            return time_limit(part, durations, waits, beside)
    return None


def wait_limit(s):
    """A limit of all waits, by the form of a schedule, or None."""
    match s:
        case ["exponential" | "fibonacci" | "linear", *_]:
            return None
        case ["spaced" | "fixed" | "windowed", p]:
            return p
        case "||", a, b if never_ends(a) or never_ends(b):
            return lower(*(wait_limit(it) for it in (a, b) if never_ends(it)))
        case ["&&" | "||" | "andThenEither", a, b]:
            return all_limited(wait_limit(a), wait_limit(b))
        case [_, [*_] as part, *_]:
            return wait_limit(part)
    return 0


def driven(waits, low, high):
    """The least and the longest wait of a driver if the schedule waits from `low` to `high`."""
    least, most, late, asked = waits
    return low * least // 100, sat(max(-(-high * most // 100), asked) + late)


def weight(s):
    """The number of nodes, where `resetWhen` counts its part twice."""
    return 1 + (1 + (s[0] == "resetWhen")) * sum(weight(it) for it in s[1:] if isinstance(it, tuple))


def bounds(s, durations=ANY, most=None, waits=EXACT):
    """The bounds that zsched-bounds prints of a schedule, durations, waits of a driver and at most this many steps."""
    state, d, passed, least, longest, total, run = None, None, 0, 1, 0, 0, durations[1]
    limit, most = time_limit(s, durations, waits), most or WORK // weight(s)
    for n in range(1, most + 1):
        (_, wait, may_stop), state = step(s, state, d)
        least += least == n and not may_stop
        wait = wait and driven(waits, *wait)
        # A step that goes on is within the limit, and so are the waits and the n - 1 attempts before it.
        before = None if limit is None else max(0, limit - durations[0] * (n - 1))
        if total is not None:
            total = within(total, lower(before, total) + (wait[1] if wait else 0))
        if wait:
            longest = max(longest, wait[1])
            if run:
                begins = run if limit is None else min(run, durations[1] + limit)
                run = within(run, begins + wait[1] + durations[1])
            d = wait[0] + durations[0], wait[1] + (durations[1] or LAST)
            passed += d[0]
        if wait is None or passed > LAST:
            break
    every, is_cut, seen = longest, wait is not None and passed <= LAST, n
    n = n if wait is None else None
    if is_cut:
        # More steps may follow. Before one that goes on is time for some attempts, and one more may come.
        n, last = None if limit is None else summed(limit // max(durations[0], 1), 2), wait_limit(s)
        every = None if last is None else driven(waits, last, last)[1]
        total = None if None in (limit, every) else within(0, limit + every)
        run = None if None in (durations[1], total) else within(0, total + 2 * durations[1])
    return {"attempt": dict(zip(("least", "most"), durations)),
            "wait": dict(zip(("least_percent", "most_percent", "late", "asked"),
                             [None if it == MOST else it for it in waits])),
            "attempts": {"least": least, "most": n}, "never_gives_up": never_ends(s),
            "longest_wait": longest, "every": every, "total_wait": total, "longest_run": run, "within": None,
            "steps_seen": seen, "is_cut": is_cut}


def attempts_within(s, durations, waits, time, most):
    """How many attempts begin within a time of the begin of the first one, at most, from at most this many steps."""
    state, d, passed, least = None, None, 0, max(durations[0], 1)
    for n in range(1, most + 1):
        (_, wait, _), state = step(s, state, d)
        wait = wait and driven(waits, *wait)
        if wait is None:
            return n
        d = wait[0] + least, wait[1] + (durations[1] or LAST)
        passed += d[0]
        if passed > time:
            return n
    return sat(time // least + 1)


def options(durations, waits):
    """The options of zsched-bounds for durations of attempts and waits of a driver."""
    least, most, late, asked = waits
    return [*([] if durations[1] is None else ["--attempt", "{}ms..{}ms".format(*durations)]),
            *([] if waits == EXACT else [
                "--wait", f"{least}..{most}%", "--asked", f"{asked}ms",
                "--late", "any" if late == MOST else f"{late}ms"])]


def policy(chance):
    nodes = chance.choice([1, 2, 3, 4, 5, 7, 10, 14])
    return generator.spelled(chance, generator.made_term(chance, nodes)[0]).strip()


def random_policy(seed):
    """A text and its schedule, or None if the text isn't a schedule."""
    text = policy(random.Random(seed))
    try:
        return text, reference.read_schedule(text.encode())
    except reference.Fault:
        return None


def edges(text):
    """The inputs on which the tests of a policy may depend."""
    ks = map(int, re.findall(r"[<=>] *(\d+)", text) if "nput" in text or "identity" in text else [])
    return sorted({0, *(min(max(0, k + d), MOST) for k in ks for d in (-1, 0, 1))})
