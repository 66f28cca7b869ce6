"""Schedules, plans and texts made at random, for hypothesis and for tests that need many of them at once.

Each function takes `chance`, of which it uses `choice` alone: a random.Random(seed), or hypothesis by `made`. The first
of the options is the simplest one, toward which hypothesis shrinks. A valid plan is bounded as it is made: each of its
jobs has at most some 2,000 attempts."""
import itertools
import json
import random
import re

import hypothesis
from hypothesis import strategies

from reference import LAST_TICK, LONGEST_PLAN, M
from support import examples, tree

# How many examples a test of random plans or policies has.
CHUNK = 250

SMALL = [0, 1, 1, 2, 2, 3, 3, 4, 5, 7, 10, 20]
EDGES = [2 ** 53 - 1, 2 ** 53, 2 ** 53 + 1, 2 ** 63 - 1, 2 ** 63, 2 ** 63 + 1, M - 1, M]
NUMBERS = SMALL * 4 + [13, 37, 64, 100, 256, 404, 500, 999] + EDGES
# What a letter in a form below stands for.
LETTERS = {"N": NUMBERS, "P": [max(1, number) for number in NUMBERS], "C": ["<", "<=", "=", "!=", ">", ">="],
           "L": [M + 1, M + 5, 10 ** 20 - 1, 10 ** 40]}


def made(make):
    """The strategy of what a function makes by the choices of hypothesis."""
    return strategies.randoms(use_true_random=False).map(make)


def chunks(number):
    """The numbers of the chunks of so many examples, times the option --examples. Chunks may run side by side."""
    return range(-(-examples(number) // CHUNK))


def hold(chunk, test, strategy):
    """Tests the examples of a chunk. Hypothesis makes the first that fails small, and shows it."""
    given = hypothesis.given(strategy)(test)
    hypothesis.seed(chunk)(hypothesis.settings(max_examples=CHUNK)(given))()


# True once in so many times; and a whole number, mostly a small one, now and then one at a limit.
def seldom(chance, times): return chance.choice(range(times)) == times - 1
def whole(chance): return chance.choice(NUMBERS)


LEAVES = ["forever", "recurs(N)", "recurs(N)", "spaced(N)", "identity", "elapsed", "linear(N)", "fixed(N)",
          "windowed(P)", "fibonacci(N)", "exponential(N)", "exponential(N, P)"]
TOKEN = re.compile(r"[A-Za-z]+|_[12]|\d+|&&|\|\||[<>!]=|[^ ]")
NUM = ("num",)


def filled(chance, form): return re.sub(r"\b[NPCL]\b", lambda it: str(chance.choice(LETTERS[it[0]])), form)
def leaf(chance): return filled(chance, chance.choice(LEAVES))


def fitting_tails(kind):
    """What may follow a schedule of this kind at a point, with the resulting kind."""
    name, *parts = kind
    maps, picks = [("as N", NUM)], []
    if name == "num":
        maps, picks = [("+ N", NUM), ("* N", NUM), *maps], [""]
    elif name == "pair":
        maps, picks = [("_1", parts[0]), ("_2", parts[1]), *maps], [f"_{k} " for k in (1, 2) if kind[k] == NUM]
    elif name == "items":
        maps, picks = [("size", NUM), *maps], ["size "]
    elif parts[0] == parts[1]:
        maps = [("merge", parts[0])] * 3 + maps
    tests = [f"{form}({pick}C N)" for pick in picks for form in ("whileOutput", "resetWhen", "resetWhen")]
    return ([("whileInput(C N)", kind), ("collectAll", ("items", kind))] + [(test, kind) for test in tests]
            + [(f"map({function})", its_kind) for function, its_kind in maps])


def made_term(chance, nodes):
    """The text of a schedule of about `nodes` nodes, and its kind."""
    if nodes <= 1:
        return leaf(chance), NUM
    operator = chance.choice(["", "", "", "&&", "||", "andThenEither"]) if nodes > 2 else ""
    if not operator:
        text, kind = made_term(chance, nodes - 1)
        tail, kind = chance.choice(fitting_tails(kind))
        return f"{text}.{filled(chance, tail)}", kind
    a, kind = made_term(chance, nodes // 2 if nodes < 5 else chance.choice(range(1, nodes - 1)))
    b, other = (a, kind) if seldom(chance, 10) else made_term(chance, (nodes - 1) // 2)
    return f"({a} {operator} {b})", ("sum" if operator == "andThenEither" else "pair", kind, other)


def at_a_limit(chance):
    """A schedule of the greatest depth or weight that is allowed."""
    text, depth = leaf(chance), 1
    if chance.choice([True, False]):
        leaves = tree(244).replace("forever", leaf(chance), 122)
        return f"({leaves} || {text}{'.resetWhen(= 3)' * 8}).map(_1)"
    while depth < 64:
        tail = chance.choice([".map(+ 1)", ".whileInput(C N)", " || spaced(N)).map(_1)"][:64 - depth + 1])
        text, depth = "(" * ("||" in tail) + text + filled(chance, tail), depth + 1 + ("||" in tail)
    return text


def spelled(chance, text):
    """The text of a schedule with other spaces: as people write it, with the fewest, or with many."""
    gaps = chance.choice([None, None, [0], [0, 3], [1, 0, 0], [2]])
    if gaps is None:
        return text
    tokens = TOKEN.findall(text)
    spaces = [max(gap, before.isalpha() and token.isalpha())
              for before, token, gap in zip(["("] + tokens, tokens, itertools.cycle(gaps))]
    return "".join(" " * space + token for space, token in zip(spaces, tokens)) + " " * gaps[-1]


def most_attempts(text, is_long):
    """How many attempts a job with this schedule may have: lists of lists grow fast."""
    lists = min(text.count("collectAll"), 3)
    if is_long:
        return [2000, 300, 40, 20][lists if len(text) < 1000 else 3]
    return [60, 30, 15, 8][lists]


def made_clock(chance, is_long):
    """A clock, as the key and the value of a document, and how many attempts it has room for."""
    if chance.choice([True, True, False]):
        horizon = chance.choice([10, 100, 500, 1000, 2000, 3000] if is_long else
                                [0, 1, 2, 5, 10, 20, 50, 100, 300, 1000, 10 ** 6, 10 ** 12, LAST_TICK])
        return "horizon", horizon, horizon + 1
    gaps = chance.choice([[1], [1, 2, 5], [2, 1, 1, 100, 10], [7, 1, 10 ** 6, 10 ** 14]])
    count = chance.choice([10, 100, 400, 2000] if is_long else [0, 1, 5, 20, 50])
    first = chance.choice([0, 0, 1, 5, 100])
    ticks = [first, *(first + tick for tick in itertools.accumulate(itertools.islice(itertools.cycle(gaps), count)))]
    ticks = [tick for tick in ticks if tick < LAST_TICK] + [LAST_TICK] * seldom(chance, 10)
    return "ticks", ticks, len(ticks)


def made_entry(chance, how):
    return {"ms": chance.choice([1, 1, 1, 2, 3, 5, 10, 50] * 8 + [404, 1000, 2 ** 53, 2 ** 63, M]), how: whole(chance)}


def made_job(chance, number, room, is_long):
    """A job within its bound on attempts, for a clock that has room for at most `room` attempts."""
    mode = chance.choice(["retry", "repeat"])
    goes_on, ends = ("err", "ok") if mode == "retry" else ("ok", "err")
    is_limit = seldom(chance, 50)
    nodes = chance.choice([1, 2, 3, 4, 5, 6, 8, 10, 12, 16, 24])
    text = at_a_limit(chance) if is_limit else made_term(chance, nodes)[0]
    if is_long and not is_limit:
        text = f"({text} || {chance.choice(['forever', 'spaced(1)', 'fixed(3)', 'identity'])})"
    most = most_attempts(text, is_long)
    script = [made_entry(chance, goes_on) for _ in range(chance.choice([1, 1, 2, 3, 5, 8]))]
    if chance.choice([False, False, True]) and not is_long:
        script.append(made_entry(chance, ends))
    elif seldom(chance, 100):
        script = (script * 1000)[:1000]
    if room > most and len(script) <= min(most, 50) and (is_limit or chance.choice([False, True])):
        script.append(made_entry(chance, ends))
    elif room > most:
        text = f"({text} && recurs({chance.choice(range(most // 2, most))}))"
    name = chance.choice([f"j{number}"] * 9 + [f"{number}".ljust(64, "-")])
    return {"name": name, "mode": mode, "schedule": spelled(chance, text), "script": script}


def made_plan(chance):
    """The tree of a valid plan. Most jobs start together, so that threads share the polls of one moment."""
    is_long = seldom(chance, 10)
    key, value, room = made_clock(chance, is_long)
    count = 1 if is_long else chance.choice([1, 2, 2, 2, 3, 3, 4, 5, 6])
    jobs = [made_job(chance, number, room, is_long) for number in range(count)]
    if seldom(chance, 20) and not is_long:
        copies = range(chance.choice([0, 3, 8]))
        jobs = [{**job, "name": f"{job['name'][:60]}.{copy}"} for copy in copies for job in jobs]
    start = chance.choice([None, None, None, whole(chance)])
    for job in jobs:
        its_start = whole(chance) if seldom(chance, 7) else start
        job.update({} if its_start is None else {"start": its_start})
    tree = {key: value, "jobs": jobs, "workers": chance.choice([1, 2, 2, 3, 3, 4, 4, 7, 8, 63, 64])}
    return {**tree, **chance.choice([{}] * 8 + [{"grain": grain} for grain in [1, 1, 1, 1, 2, 7, 100, 10000]])}


SIGNS = ("( ) , . : ; ' \" \\ { } [ ] [] {} && || & | andThenEither < <= = != > >= ! + - * _ _1 _2 _3 as size x $ "
         "recurs recurs( spaced( collectAll .map .collectAll. 00 01 7 -1 1.5").split() + [
    " ", "\t", "\n", "\r\n", "\0", "# x\n", "// x\n", "\u00e9", "\u2028", "\U0001f600", "\\u0041"]


def no_term(chance, text):
    """A text that isn't a term, mostly."""
    at = chance.choice(range(len(text) + 1))
    return chance.choice([text[:at], text[:at] + chance.choice(SIGNS) + text[at:], text[:at] + text[at + 1:],
                          "(" * chance.choice([1, 2, 200]) + text, re.sub("[0-9]+", r"0\g<0>", text, count=1)])


def spoiler(*forms):
    """The function that puts a schedule's text into one of these forms."""
    return lambda chance, text: filled(chance, chance.choice(forms)).replace("{}", text)


too_big = spoiler("{}.map(as 1)" + ".resetWhen(= 0)" * 9, f"({{}} || {tree(500)})", "{}" + ".collectAll" * 64,
                  "({} && forever" + ".map(+ 0)" * 63 + ")", "{}" + ".collectAll" * 300)
big_number = spoiler("({} || recurs(L))", "{}.whileInput(< L)", "{}.map(as L)", "({} && exponential(L, 2))")
zero_factor = spoiler("({} || exponential(1, 0))", "(exponential(0,0) && {}).map(as 2)")
zero_window = spoiler("({} || windowed(0))", "({} andThenEither windowed(0).map(+ 1))")
# A pick or a function that doesn't fit, whatever the kind of the text is.
no_kind = spoiler("(forever.collectAll andThenEither {}.map(as 1)).map(merge)", *(
    f"{{}}.map(as 1){wrong}{tail}" for tail in ["", ".map(as 1)", ".collectAll", ".resetWhen(= 1)"] for wrong in [
        ".map(_1)", ".map(size)", ".map(merge)", ".whileOutput(size < 1)", ".resetWhen(_2 > 1)", ".collectAll.map(_2)",
        ".collectAll.map(+ 1)", ".collectAll.whileOutput(< 1)", ".collectAll.resetWhen(_1 = 1)"]))
SPOILED = [no_term, too_big, big_number, zero_factor, no_kind, zero_window]


def written(tree, **style):
    """A tree as JSON, in which a text @TEXT@ becomes TEXT."""
    return re.sub('"@(.*?)@"', lambda it: json.loads(f'"{it[1]}"'), json.dumps(tree, **style))


ODD_NUMBERS = ("1.0 1e3 1E2 -0 -1 0.0 -0.0 1e-400 18446744073709551616 20000000000000000000 01 1e400 -1e400 "
               "0e999999999999 1e99999999999999999999 +1 .5 1. 1.e1 1e 1e+ 0x1 NaN Infinity -Infinity - 5e-324 "
               "1.7976931348623158e308 1.797693134862315808e308 1.8e308").split() + ["1" * 309, "-" + "9" * 400]
WRONG = [*map("@{}@".format, ODD_NUMBERS[:10]), None, True, "1", [], {}, 7, ["retry"]]
# Wrong values at the places of some keys, and all keys with some that are unknown or misplaced.
WRONG_AT = {
    "horizon": [LAST_TICK + 1, M], "ticks": [[], [5, 5], [0, 1, 1], [1, 0], [0, LAST_TICK + 1], [0, "@1.0@"]],
    "workers": [0, 65], "grain": [0, 10001], "jobs": [[7] * 10001], "ms": [0],
    "script": [[], [{"ms": 1, "ok": 1}] * 1001],
    "name": ["", "a" * 65, "a b", "\u00e9" * 32, "a\n", "a/b", "\0", "\uff41", "j0", "j1"],
    "mode": ["loop", "Retry", "", "retry ", "repeat\0"]}
OFTEN = {"jobs": 16, "schedule": 6, "script": 2}
KEYS = [*WRONG_AT, "schedule", "start", "ok", "err", "x", "", "Jobs", "horizon ", "ti\u00e7ks", "MS"]


def place_in(chance, root):
    """A place of a tree, which is the one value of a list: its list or object, and its index or key."""
    holder, key = root, 0
    while isinstance(holder[key], (dict, list)) and holder[key] and not seldom(chance, 20 if holder is root else 6):
        holder = holder[key]
        key = chance.choice(range(len(holder)) if isinstance(holder, list) else
                            [key for key in holder for _ in range(OFTEN.get(key, 1))])
    return holder, key


def damaged(chance, tree):
    """A tree with another value at one place, a value fewer, one more, or one several times."""
    root = [json.loads(json.dumps(tree))]
    holder, key = place_in(chance, root)
    value, how = holder[key], chance.choice(["another", "another", "another", "fewer", "more", "again"])
    if how == "fewer" and holder is not root:
        del holder[key]
    elif how == "more" and isinstance(value if isinstance(value, dict) else holder, dict):
        holder = value if isinstance(value, dict) else holder
        holder[chance.choice(KEYS)] = chance.choice([1, None, [], "x"])
    elif how == "again" and isinstance(holder, list) and holder is not root:
        holder.extend([value] * chance.choice([1, 1, 3, 1001 if len(str(value)) < 2000 else 9]))
    elif key == "schedule" and isinstance(value, str):
        holder[key] = chance.choice(SPOILED)(chance, value)
    else:
        holder[key] = chance.choice(WRONG_AT.get(key, []) * 8 + WRONG)
    return root[0]


def faulty_plan(chance):
    tree = made_plan(chance)
    for _ in range(chance.choice([1, 1, 2, 2, 3])):
        tree = damaged(chance, tree)
    return tree


ORDERS = [dict, dict, lambda pairs: dict(pairs[::-1]), lambda pairs: dict(sorted(pairs))]


def json_text(chance, tree, is_odd=False):
    """A tree as JSON, with its keys in some order. If it is odd, a key may occur twice, and letters may be escapes."""
    tree = json.loads(json.dumps(tree), object_pairs_hook=chance.choice(ORDERS))
    separators = chance.choice([(",", ":"), (", ", ": "), (", ", " : ")])
    text = written(tree, ensure_ascii=chance.choice([True, False]), separators=separators,
                   indent=chance.choice([None, "\t\r\n "]) if is_odd else None)
    if is_odd and chance.choice([True, False]):
        member = chance.choice([*re.finditer(r'"(\w+)" ?:', text)] or [None])
        twice = f"{member[0]}{chance.choice(['1', 'null', '[]', 'true'])}," if member else ""
        text = text[:member.start()] + twice + text[member.start():] if member else text
    if is_odd and chance.choice([True, False]):
        form = chance.choice(["\\u{:04x}", "\\u{:04X}"])
        text = re.sub(r'(?<=")([a-zA-Z(])(?=[^"\\]*")', lambda it: form.format(ord(it[1])), text)
    return text


ESCAPES = [f'"{text}"' for text in
           r"\ud800 \udc00\ud800 \ud83d\ude00 \ud83dx \ud83d\u0041 \u00 \x \/ \u0000 \b\f\n\r\t".split()]
BYTES = [b"\xff", b"\x80", b"\xc3", b"\xc0\x80", b"\xed\xa0\x80", b"\xf4\x90\x80\x80", b"\xe2\x82", b"\xef\xbb\xbf"]
NESTS = [opened * depth + inside + closed * depth for depth in [123, 125, 127, 128, 3000]
         for opened, inside, closed in [("[", "", "]"), ('{"x":', "1", "}"), ("[", "", "")]]
ODD_PIECES = [*ODD_NUMBERS, *"tru True nul null true 'a' , : \\ /**/".split(), "//x\n", "\ufeff", "\u00a0", "\u2028",
              "\x0b", "\x0c", "\0", "\x7f", "\x1f", '"\x01"', '"\x7f"', '"\u00e9\U0001f600"',
              *ESCAPES, *(odd.decode(errors="surrogateescape") for odd in BYTES)]
NAMES = [f'"{key}"' for key in [*KEYS, "note", "m\\u0073", "a b", "retry", "Repeat"]]
VALUES = ('0 1 2 3 7 63 64 65 255 999 1000 1001 10001 4294967296 9007199254740993 999999999999999 1000000000000000 '
          '007 10s null true None "5s" "5" [] {}').split() + ODD_NUMBERS[:20]
TERMS = LEAVES + ["recurs(0)", "windowed(0)", "exponential(1, 0)", "upTo(5)"]
WORDS = SIGNS + VALUES + NAMES + ODD_PIECES + NESTS + TERMS
# What may be replaced, and by what: & is what was there.
VALUE = r'(?<=:)("[^"]*"|\d+)'
SWAPS = [*((VALUE, words) for words in [NESTS, NESTS, ODD_PIECES, ESCAPES]), (r"\d+", VALUES), (r"\d+", VALUES),
         (r'"[a-z]+"(?= *:)', NAMES), (r"[a-zA-Z]+\(?", TERMS), (r"[().,]", SIGNS),
         (r'"[^"\n]*"|[A-Za-z]+|\d+|\S', WORDS),
         (r"\[[^\[\]]*\]|\{[^{}]*\}|\([^()]*\)", ["", '"&"', "7", "&&", "&,&"])]


def changed_text(chance, text):
    """A text with a few characters fewer, more, twice or at another place, or with another word."""
    at = chance.choice(range(len(text) + 1))
    end = at + chance.choice([1, 1, 1, 2, 3, 8, 29])
    how = chance.choice(["fewer", "cut", "twice", "moved", "word"] + ["other"] * 4)
    found = list(re.finditer((swap := chance.choice(SWAPS))[0], text)) if how == "other" else []
    if found:
        place, another = chance.choice(found), chance.choice(found)[0]
        word = another if seldom(chance, 5) else filled(chance, chance.choice(swap[1]).replace("&", place[0]))
        return text[:place.start()] + word + text[place.end():]
    return {"fewer": text[:at] + text[end:], "cut": text[:at], "twice": text[:end] + text[at:],
            "moved": text[:at] + text[at + 1:end + 1] + text[at:at + 1] + text[end + 1:]}.get(
                how, text[:at] + filled(chance, chance.choice(WORDS)) + text[at:])


def longer(chance, text):
    """A schedule with one more method, which often doesn't fit its kind."""
    tails = fitting_tails(("pair", NUM, NUM)) + fitting_tails(("items", NUM)) + fitting_tails(NUM)
    return f"{text}.{filled(chance, chance.choice(tails)[0])}"


def damaged_text(chance, text):
    """The text of a document with something else at one place."""
    try:
        return written(damaged(chance, json.loads(text)))
    except (ValueError, RecursionError):
        return changed_text(chance, text)


# What is changed, by a pattern, or all of the text; and how.
SCHEDULE = r'(?<="schedule":")[^"\n\\]*(?=")|(?<="schedule": ")[^"\n\\]*(?=")'
CHANGES = [*[("", changed_text)] * 4, *[("", damaged_text)] * 2, (r'(?<=")[a-z]+(?=" *:)', changed_text)] + [
    (SCHEDULE, change) for change in [changed_text, changed_text, longer, *SPOILED]]


def mutated(chance, plan, times=1):
    """The bytes of a plan after some changes: of the whole text, or of a key or a schedule in it."""
    text = plan.decode(errors="surrogateescape")
    for _ in range(times):
        pattern, change = chance.choice(CHANGES)
        found = list(re.finditer(pattern, text)) if pattern else []
        if found:
            place = chance.choice(found)
            new = json.dumps(change(chance, place[0]), ensure_ascii=False)[1:-1]
            text = text[:place.start()] + new + text[place.end():]
        else:
            text = change(chance, text)
    return text.encode(errors="surrogateescape")


def any_plan(chance):
    """The bytes of a plan: two of three are valid, and the others have faults, or are odd JSON or none."""
    form = chance.choice(range(40))
    if form < 24:
        return json_text(chance, made_plan(chance)).encode()
    if form < 34:
        return json_text(chance, faulty_plan(chance), form > 31).encode(errors="surrogateescape")
    text = json_text(chance, made_plan(chance), True).encode()
    if form == 39 and seldom(chance, 12):
        return text.ljust(LONGEST_PLAN + chance.choice([0, 1, -1, 2]), chance.choice([b" ", b"\n", b"x"]))
    return mutated(chance, text) if form > 35 else text


def plan_of(seed): return any_plan(random.Random(seed))
