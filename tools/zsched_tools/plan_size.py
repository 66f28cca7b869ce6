"""How many attempts a plan may have at most, and whether its workers pay, before it is run."""
import itertools
import json
import math
import operator
import re
import sys
from typing import NamedTuple

from zsched_tools import program, schedule_rules
from zsched_tools.command import Paint, note

MOST_ATTEMPTS = 10**6
_HORIZON = re.compile(rb'("horizon": *)([0-9]+)')
# From which number of nodes on a schedule pays for more workers than one, and a batch of schedules for its thread.
_NODES, _BATCH = 100, 4000
_MOST_TICKS = 1000000
_COMPARE = {"<": operator.lt, "<=": operator.le, "=": operator.eq, "!=": operator.ne, ">": operator.gt,
            ">=": operator.ge}


class World(NamedTuple):
    """What is known of a job except its schedule: its time, the least length of an attempt, and the value or the code
    of each entry of its script."""
    time: int
    least: int
    values: list


class Bound(NamedTuple):
    """What is known of a schedule under a job: its most attempts, the least wait between two of them on average, and
    the kind of its outputs: 'elapsed', 'count', 'input', a pair of these, or None."""
    count: float
    wait: int
    out: object = None


def warn(tool, found, color="auto"):
    """Writes a warning to standard error, if there is one."""
    if found and sys.stderr is not None:
        note(f"{Paint(color, sys.stderr)('strong', 'warning')}: {found}", tool)


def warning(plan, limit=MOST_ATTEMPTS, times=1):
    """The warning for the bytes of a plan that may have more attempts than the limit if it is run so many times, else
    None; also None for a plan that the program rejects."""
    most = most_attempts(plan) * times
    if most <= limit:
        return None
    count = f"{most:,.0f}" if most < 10**16 else "more than 10^16"
    return f"its attempts may be {count}, more than {limit:,}: the run may be long, and its report large"


def most_attempts(plan):
    """The most attempts that the bytes of a plan may have, 0 of one that the program rejects."""
    return _found(plan, lambda tree: sum(_attempts(job, _clock(tree)) for job in tree["jobs"])) or 0


def with_fewer(plan, limit):
    """The bytes of a plan with a horizon, and the horizon that it then has, so that it makes about so many attempts."""
    until = int(_HORIZON.search(plan)[2]) * limit // max(limit, math.ceil(most_attempts(plan)))
    return _HORIZON.sub(rb"\g<1>%d" % until, plan, count=1), until


def workers_warning(plan):
    """The warning for a plan's bytes with several workers that don't pay, else None."""
    return _found(plan, _no_pay) if b"workers" in plan else None


def _found(plan, search):
    """What a search finds in the tree of a plan, or None if the program rejects the plan."""
    try:
        return search(json.loads(plan, parse_float=_no_whole, parse_constant=_no_whole))
    except (ValueError, TypeError, KeyError, IndexError, AttributeError, StopIteration, RuntimeError, OverflowError):
        return None


def _clock(tree):
    """The ticks of a document, or its horizon alone."""
    return [tree["horizon"]] if "horizon" in tree else tree["ticks"]


def _no_pay(tree):
    """Why workers don't pay, if a plan has several and more than one batch: small schedules, or a small grain."""
    grain, jobs = tree.get("grain", 1), tree["jobs"]
    if tree.get("workers", 1) < 2 or len(jobs) <= grain:
        return None
    nodes = max(sum(piece.word not in "()" for piece in schedule_rules.pieces(job["schedule"])) for job in jobs)
    least = -(-_BATCH // nodes)
    if nodes < _NODES:
        return f"its workers don't pay, since no schedule has {_NODES} nodes: leave \"workers\" out"
    if grain < least:
        return f"its workers don't pay, since threads start at each moment: write a grain of {least} or more"
    return None


def with_one_tick(plan):
    """The bytes of a plan with one moment for its clock, which has the plan's faults and runs at once; the plan itself
    if its clock or its size has a fault."""
    try:
        tree = json.loads(plan.decode(), parse_int=_whole, parse_float=_no_whole, parse_constant=_no_whole)
    except (ValueError, RecursionError):
        return plan
    if len(plan) > program.MAX_BYTES or not isinstance(tree, dict) or ("horizon" in tree) == ("ticks" in tree):
        return plan
    ticks = _clock(tree)
    if not (isinstance(ticks, list) and 1 <= len(ticks) <= _MOST_TICKS and all(type(tick) is int for tick in ticks)
            and all(tick < later for tick, later in itertools.pairwise(ticks)) and ticks[-1] <= program.LAST_MOMENT):
        return plan
    tree.update({"horizon": 0} if "horizon" in tree else {"ticks": [0]})
    return json.dumps(tree, ensure_ascii=False, separators=(",", ":")).encode(errors="surrogatepass")


def _whole(text):
    """A whole number. No plan has a number with a sign."""
    if text.startswith("-"):
        raise ValueError(text)
    return int(text)


def _no_whole(text):
    raise ValueError(text)


def _attempts(job, clock):
    """The attempts of a job on a clock, at most."""
    goes_on = "err" if job["mode"] == "retry" else "ok"
    script, time = job["script"], max(0, clock[-1] - job.get("start", 0))
    ends = next((number for number, entry in enumerate(script, 1) if goes_on not in entry), math.inf)
    least = max(1, min(entry["ms"] for entry in script))
    world = World(time, least, [entry.get(goes_on, 0) for entry in script])
    bound = schedule_rules.folded(job["schedule"], lambda piece: _leaf(piece, world), _joined,
                                  lambda piece, part: _behind(piece, part, world))
    return min(ends, bound.count, 1 + time // (least + bound.wait), math.inf if len(clock) == 1 else len(clock))


def _leaf(piece, world):
    """The bound of a leaf. Waits that grow pass the time after few attempts."""
    numbers = [int(argument[0]) for argument in piece.arguments if argument[0].isdigit()]
    word, first, time = piece.word, numbers[0] if numbers else 0, world.time
    if word == "recurs":
        return Bound(first + 1, 0, "count")
    if word == "spaced":
        return Bound(math.inf, first, "count")
    if word in ("fixed", "windowed"):
        return Bound(math.inf, max(0, first // 2 - world.least), "count")
    if word == "linear" and first:
        return Bound(math.isqrt(2 * time // first) + 3, first)
    if word == "fibonacci" and first:
        return Bound(3 + math.log(1 + time / first, 1.6), first)
    if word == "exponential":
        factor = numbers[1] if len(numbers) > 1 else 2
        grows = first and factor > 1
        return Bound(3 + math.log(1 + time / first, factor) if grows else math.inf, first)
    return Bound(math.inf, 0, {"elapsed": "elapsed", "forever": "count", "identity": "input"}.get(word))


def _joined(operator, left, right):
    if operator == "andThenEither":
        return Bound(left.count + right.count, min(left.wait, right.wait))
    out = (left.out, right.out)
    if operator == "&&":
        return Bound(min(left.count, right.count), max(left.wait, right.wait), out)
    return Bound(max(left.count, right.count), min(left.wait, right.wait), out)


def _behind(piece, part, world):
    """The bound of a schedule that a method follows."""
    words = [argument[0] for argument in piece.arguments]
    pick = words[0] if words and words[0] in ("_1", "_2") else None
    out = part.out[int(pick[1]) - 1] if pick and isinstance(part.out, tuple) else part.out
    if piece.word == "map":
        return part._replace(out=out if pick else None)
    if piece.word == "resetWhen":
        return Bound(math.inf, part.wait, part.out)
    if piece.word == "collectAll":
        return part._replace(out=None)
    tested = "input" if piece.word == "whileInput" else out
    return part._replace(count=min(part.count, _passes(tested, words[-2], int(words[-1]), part.wait, world)))


def _passes(tested, comparison, number, wait, world):
    """How many attempts there are at most before a test fails of an input, of the time so far or of a count."""
    if tested == "input":
        fails = (at for at, value in enumerate(world.values, 1) if not _COMPARE[comparison](value, number))
        return next(fails, math.inf)
    if comparison not in ("<", "<="):
        return math.inf
    return {"elapsed": 3 + number / (world.least + wait), "count": number + 2}.get(tested, math.inf)
