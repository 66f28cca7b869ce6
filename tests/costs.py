"""What a pattern costs on texts that repeat something: a text that a pattern matches is cut at each place, and there a
unit is repeated. The cost of n and of 2n units is compared: a linear one doubles, a quadratic one is 3 to 4 times as
high, whatever the machine does."""
import ast
import gc
import importlib
import itertools
import re
import statistics
import time

from support import TOP
from zsched_tools import json_reading
from zsched_tools.policy import reading, walking
from zsched_tools.policy.reading import LONGEST

TOOLS = TOP / "tools" / "zsched_tools"
MOST_RATIO, MOST_UNITS, LONG = 2.8, 1 << 13, 1_500_000
UNITS = [" ", "\n", "\\", "(", ")", "()", "[", "]", "{", "}", "a", "a ", "a.", "a=", "0", "0.", "0 ", '"', "'", ",",
         "-", "#", "/*", "//", "$(", "${", "{{", "=", ":", '"a":1,', "A ", "_", "a(", "a()", "a:", "\t", "x 1 "]
METHODS = ["search", "match", "fullmatch", "finditer", "sub", "split", "findall"]
# The values of names that patterns of functions have.
LOCALS = {"name": "drawing", "said": "a", "ms": "[0-9]+", "pattern": "a", "mark": "a", "allowed": "._",
          "timed": '"ms" *: *[0-9]+', "ended": '"ok" *: *[0-9]+', "text": r'(?:[^\W\d]\w*)?(?:"""|")',
          "form": r'\$\{|\\.|\n|"', "it": "Schedule", "letters": "sab", "words": ["retry*=", "retry.do"]}


def _letter(items):
    """A letter of a set of a parsed pattern."""
    is_out = items[0][0] == re._constants.NEGATE
    compiled = [(str(kind), value) for kind, value in items[is_out:]]

    def has(letter):
        code = ord(letter)
        named = {"CATEGORY_DIGIT": letter.isdigit(), "CATEGORY_SPACE": letter.isspace(), "CATEGORY_WORD":
                 letter.isalnum() or letter == "_", "CATEGORY_NOT_SPACE": not letter.isspace(),
                 "CATEGORY_NOT_DIGIT": not letter.isdigit(),
                 "CATEGORY_NOT_WORD": not (letter.isalnum() or letter == "_")}
        return any(code == value if kind == "LITERAL" else value[0] <= code <= value[1] if kind == "RANGE" else
                   named.get(str(value), False) for kind, value in compiled)
    letters = itertools.chain("a0 .x-A(\"'\n\t#", map(chr, range(1, 0x2100)))
    return next((it for it in letters if has(it) != is_out), "a")


def sample(tree):
    """A text that a parsed pattern matches, or nearly."""
    made = ""
    for kind, value in tree:
        kind = str(kind)
        if kind in ("LITERAL", "NOT_LITERAL"):
            made += chr(value) if kind == "LITERAL" else "a" if value != ord("a") else "b"
        elif kind == "ANY":
            made += "a"
        elif kind == "IN":
            made += _letter(value)
        elif kind == "BRANCH":
            made += sample(value[1][0])
        elif kind == "SUBPATTERN":
            made += sample(value[-1])
        elif kind == "ATOMIC_GROUP":
            made += sample(value)
        elif kind.endswith("REPEAT"):
            made += sample(value[2]) * min(max(value[0], min(1, value[1])), 30)
    return made


def contexts(pattern, flags=0):
    """The beginnings, units and ends of the texts of a pattern, as tuples."""
    try:
        whole = sample(re._parser.parse(pattern, flags))
    except re.error:
        whole = ""
    places = sorted({round(number * len(whole) / 20) for number in range(21)})
    units = dict.fromkeys([*UNITS, *whole, whole, whole + " ", *re.findall(r"[A-Za-z]{2,}", whole)])
    return [(whole[:at], unit, end) for at in places for unit in filter(None, units)
            for end in dict.fromkeys(["", whole[at:], "\0"])]


def patterns(folder=TOOLS):
    """Each pattern of the tools: its place, itself, and the method that reads texts with it."""
    for path in sorted(folder.rglob("*.py")):
        text = path.read_text()
        if "re." not in text or path.name == "__main__.py":
            continue
        name = ".".join(path.relative_to(folder.parent).with_suffix("").parts)
        module = importlib.import_module(name.removesuffix(".__init__"))
        tree = ast.parse(text)
        above = {child: node for node in ast.walk(tree) for child in ast.iter_child_nodes(node)}
        for node in ast.walk(tree):
            if isinstance(node, ast.Call) and re.fullmatch(rf"re\.({'|'.join(METHODS)}|compile|subn)",
                                                           ast.unparse(node.func)):
                yield from _of_call(f"{path.relative_to(folder)}:{node.lineno}", node, above, vars(module))
    for kind, pattern in reading._MARKS.items():
        yield f"the mark of {kind}", re.compile(pattern, re.M), "search"
    yield from ((f"the words of .{it}", walking._words()[it][1], "search") for it in ("py", "yaml"))
    for pattern, *_ in json_reading._OTHER_TEXTS:
        yield "another text than JSON", re.compile(pattern), "match"


def _of_call(place, node, above, names):
    made = names | {key: value for key, value in LOCALS.items() if not isinstance(names.get(key), str)}
    source, word = ast.unparse(node.args[0]), node.func.attr
    flags = [it.value for it in node.keywords if it.arg == "flags"]
    at = {"compile": 1, "sub": 4, "subn": 4, "split": 3}.get(word, 2)
    flags += node.args[at:at + 1]
    pattern = eval(source, made)
    compiled = re.compile(pattern, eval(ast.unparse(flags[0]), made) if flags else 0)
    if word != "compile":
        return [(place, compiled, word.removesuffix("n"))]
    parent = above[node]
    if isinstance(parent, ast.Attribute):
        return [(place, compiled, parent.attr)]
    target = parent.targets[0] if isinstance(parent, ast.Assign) else None
    used = set()
    if isinstance(target, ast.Name):
        text = names_file(place) if target.id.startswith("_") else USES
        used = set(re.findall(rf"\b{target.id}\.({'|'.join(METHODS)})\(", text))
    return [(place, compiled, it) for it in sorted(used or {"search", "fullmatch"})]


def names_file(place):
    """The text of the file of a place, in which alone its private names are used."""
    return (TOOLS / place.partition(":")[0]).read_text()


USES = "\n".join(path.read_text() for path in TOOLS.rglob("*.py"))


def cost(work, times=1):
    """The least time of the processor of some runs, in nanoseconds. Collecting garbage isn't counted, since its time
    grows with all that the process has."""
    found = []
    gc.disable()
    try:
        for _ in range(times):
            begin = time.process_time_ns()
            work()
            found.append(time.process_time_ns() - begin)
    finally:
        gc.enable()
    return min(found)


def ratio(work, number, times=3):
    """How much the cost grows from half of a number to the number: by the least times, or by the median of pairs, the
    less of both. What else the machine does slows the one and the other of a pair, and seldom makes both too great."""
    whole, half = [], []
    for tried in range(5 * times):
        whole.append(cost(lambda: work(number)))
        half.append(max(1, cost(lambda: work(number // 2))))
        found = min(min(whole) / min(half), statistics.median(one / other for one, other in zip(whole, half)))
        if tried + 1 >= times and found <= MOST_RATIO:
            break
    return found


def grows(compiled, method, context):
    """The number of units at which the cost grows too fast, and how, or None."""
    before, unit, after = context
    if isinstance(compiled.pattern, bytes):
        before, unit, after = (it.encode("utf-8", "replace") for it in context)
    call = getattr(compiled, method)

    def work(number):
        text = before + unit * number + after
        found = call(text[:0], text) if method == "sub" else call(text)
        return sum(1 for _ in found) if method == "finditer" else found
    number = 32
    while number < min(MOST_UNITS, LONGEST // len(unit)) and cost(lambda: work(number)) < LONG:
        number *= 2
    # A single time may be too long by what else the process did.
    if any(cost(lambda: work(number)) < LONG for _ in range(3)):
        return None
    # A cost that grows too fast does so from twice the number, too.
    found = min(ratio(work, it) for it in (number, 2 * number))
    return (number, round(found, 1)) if found > MOST_RATIO else None
