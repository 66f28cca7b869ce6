"""Scala for ZIO: each row of the table is read from all its spellings, what is printed reads back as the same schedule,
what is left out is named at its place, and random expressions do what ZIO's definitions do."""
import json
import random
import re

import pytest

import zio_model as zio
from case_files import unpacked
from generator import chunks, made_term, seldom
from languages import need
from reports import jobs_of
from support import TOP, run
from test_recipes import LETTERS, first_difference, script_of
from zsched_tools.hints import LEAVES, METHODS, OPERATORS
from zsched_tools.place import FaultAt
from zsched_tools.policy import exporting, scala_policies, trees
from zsched_tools.policy.reading import Wrong
from zsched_tools.policy.zio_table import rows
from zsched_tools.schedule_text import TOKEN

HEAD = "import zio._\n\nobject Policies {\n"
# What the letters of the table are: the text here, and Scala.
PARTS = {"s": ("(linear(3) && identity).map(_2).map(* 2)",
               "(Schedule.linear(3.millis) && Schedule.identity[Long]).map(_._2).map(_ * 2)"),
         "ends": ("(recurs(3) && spaced(7)).map(as 77)",
                  "(Schedule.recurs(3) && Schedule.spaced(7.millis)).as(77)"),
         "steady": ("linear(3)", "Schedule.linear(3.millis)"),
         "at once": ("recurs(3)", "Schedule.recurs(3)"),
         "a": ("(spaced(4) && recurs(2)).map(_2)", "(Schedule.spaced(4.millis) && Schedule.recurs(2)).map(_._2)"),
         "b": ("exponential(5)", "Schedule.exponential(5.millis)")}
WHOSE = {"s.forever": "ends", "s.addDelay(_ => d)": "at once", "s.jittered": "steady", "s.jittered(0, 1)": "steady"}
NUMBERS = dict(zip("dekN", LETTERS[0]))
ROWS = [(row, name) for row in rows() for name in row.spellings()]


def here(row):
    """A row's text with what its letters are."""
    values = {letter: PARTS[WHOSE.get(row.spellings()[0], letter) if letter == "s" else letter][0] for letter in "sab"}
    values |= {letter: str(number) for letter, number in NUMBERS.items()}
    return re.sub(r"(?<![A-Za-z])[sabdekN](?![A-Za-z])", lambda found: values[found[0]], row.text)


def there(row, name):
    """A spelling with what its letters are."""
    values = {letter: f"({PARTS[WHOSE.get(row.spellings()[0], letter) if letter == 's' else letter][1]})"
              for letter in "sab"}
    values |= {letter: f"{number}{'.millis' if letter in 'de' else ''}" for letter, number in NUMBERS.items()}
    values |= {"f": "transform", "g": "other", "z": "first", "r": "layer"}
    return re.sub(r"\b(?<!\.)[sabdekNfgzr]\b(?!:)", lambda found: values[found[0]], name)


def read(code, name="policy"):
    """The policy of a piece of Scala."""
    found = [it for it in scala_policies.find(f"{HEAD}{code}\n}}\n") if it.name == name]
    assert len(found) == 1, code
    return found[0].read()


def canonical(text):
    return re.sub(r"exponential \( ([^(),]*) \)", r"exponential ( \1 , 2 )",
                  " ".join(found[0] for found in TOKEN.finditer(text)))


def schedule(code):
    return read(f"  val policy = {code}").waits


@pytest.mark.parametrize("row, name", [it for it in ROWS if it[0].text and it[0].part != "effects"],
                         ids=lambda it: it if isinstance(it, str) else "")
def test_a_row_is_read_from_each_spelling_and_printed(row, name):
    policy = read(f"  val policy = {there(row, name)}")
    assert canonical(policy.draws or policy.waits) == canonical(here(row))
    assert [it for it in policy.left_out if "fixed" not in it] == []
    code = exporting.zio("policy", policy.draws or policy.waits)[0]
    again = read(code.split("\n\n")[1])
    assert (again.waits, again.draws) == (policy.waits, policy.draws)


@pytest.mark.parametrize("row, name", [it for it in ROWS if it[0].text and it[0].part == "effects"],
                         ids=lambda it: it if isinstance(it, str) else "")
def test_a_row_of_effects_has_its_schedule_and_mode(row, name):
    policy = read(f"  val policy = {there(row, name)}")
    assert policy.waits == here(row) and f"mode `{policy.mode}`" in row.said


@pytest.mark.parametrize("row, name", [it for it in ROWS if not it[0].text and not it[0].said.startswith("a job")],
                         ids=lambda it: it if isinstance(it, str) else "")
def test_a_row_that_is_left_out_is_named_at_its_place(row, name):
    """Either there is no policy, or the policy has it as a setting that isn't applied."""
    if name == "effect.retry(a).repeat(b)":
        found = scala_policies.find(f"{HEAD}  val policy = {there(row, name)}\n}}\n")
        assert [it.read().mode for it in found] == ["retry", "repeat"]
        return
    word = re.findall(r"(?<=[. ])([A-Za-z*+|]+)(?=[( ]|$)", name)[0]
    try:
        policy = read(f"  val policy = {there(row, name)}")
        what, = map(" ".join, zip(policy.notes, policy.left_out.values(), strict=True))
    except Wrong as wrong:
        what = f"{wrong.line}:{wrong.column}: {wrong.what}"
    column = 16 + there(row, name).index(word) if word.isalpha() else r"\d+"
    assert re.match(rf"4:{column}: ", what) and f"{row.reason()}" in what and word in what


# Schedules that don't meet the condition of a row, and the row.
UNMET = {"Schedule.recurs(3) >>> Schedule.identity[Long]": "a >>> b",
         "Schedule.recurs(3) >>> Schedule.recurs(3).whileInput[Long](_ < 2)": "a >>> b",
         "Schedule.upTo(5.seconds).forever": "s.forever",
         "(Schedule.recurs(3) && Schedule.elapsed.whileOutput(_ < 1.second)).forever": "s.forever",
         "Schedule.spaced(1.second).addDelay(_ => 1.second)": "s.addDelay(_ => d)",
         "(Schedule.spaced(1.second) && Schedule.recurs(3)).delayed(_ min 1.second)": "s.delayed(_ min d)",
         "Schedule.exponential(1.second, 1.5)": "Schedule.exponential(d, k)",
         "Schedule.exponential(1.second, 0.0)": "Schedule.exponential(d, k)"}


@pytest.mark.parametrize("code, name", UNMET.items())
def test_a_row_is_left_out_where_its_condition_isn_t_met(code, name):
    with pytest.raises(Wrong) as wrong:
        schedule(code)
    row = next(row for row, it in ROWS if it == name)
    assert wrong.value.what.endswith(f": {row.reason()}") and wrong.value.line == 4


def test_bodies_without_braces_are_read():
    source = """import zio.*

object Three:
  def run =
    val base = Schedule.recurs(4)
    lazy val slow: Schedule[Any, Any, (Long, Long)] =
      base
        && Schedule.spaced(1.second)
    effect.retry(slow.upTo(1.minute))
  val after = run
"""
    found = [it for it in scala_policies.find(source)]
    assert [(it.name, it.read().waits, it.read().mode) for it in found] == [
        ("base", "recurs(4)", None), ("slow", "(recurs(4) && spaced(1000))", None),
        ("retry", "((recurs(4) && spaced(1000)) && elapsed.whileOutput(< 60000)).map(_1)", "retry")]


def test_arguments_are_read_by_their_names():
    assert schedule("Schedule.exponential(factor = 3.0, base = 1.second)") == "exponential(1000, 3)"
    assert schedule("Schedule.exponential(1.second, factor = 3)") == "exponential(1000, 3)"
    policy = read("  val policy = Schedule.linear(5.millis).jittered(max = 1.0, min = 0.0)")
    assert policy.draws == "linear(5) jitter full"
    with pytest.raises(Wrong):
        schedule("Schedule.exponential(factor = 3.0, start = 1.second)")


def test_a_schedule_that_is_never_done_is_its_own_forever():
    assert schedule("Schedule.spaced(1.second).forever") == "spaced(1000)"


def test_each_operator_has_a_row_by_which_it_is_printed():
    """The operators of zs_term, by the tools' table of words, and the functions of `map`."""
    printed = {it[0] if isinstance(it, tuple) else it for it in exporting.spellings()}
    assert printed == {*LEAVES, *METHODS, *OPERATORS, "as", "merge"}


# Random layouts.

# Scala's levels, from the language's specification: words, then by the first character.
LEVELS = ["|", "^", "&", "=!", "<>", ":", "+-", "*/%"]


def level(operator):
    return next((number for number, signs in enumerate(LEVELS, 2) if operator[0] in signs), 1)


class Printed(exporting.Scala):
    """The same code in one of many spellings, with parentheses where Scala needs them."""

    def __init__(self, chance):
        super().__init__()
        self.chance = chance

    def infix(self, form, codes):
        """An expression with one of the spellings of an operator, or a method. `is_infix` is the operator's level."""
        first = exporting.spellings()[form]
        operator = self.chance.choice([name for row, name in ROWS if row.spellings()[0] == first]).split()[1]
        left, right = codes
        if seldom(self.chance, 4):
            return exporting.Code(f"{left.inside()}.{operator}({right.text})", left.type)
        one = left.inside() if left.is_infix and left.is_infix < level(operator) else left.text
        two = right.inside() if right.is_infix and right.is_infix <= level(operator) else right.text
        return exporting.Code(f"{one} {operator} {two}", left.type, level(operator))


def spread(chance, code):
    """Code in parentheses, with lines, spaces and comments where they change nothing. In braces a line may end more."""
    pieces = re.split(r"(\{[^{}]*\})", code)

    def gap(_):
        return chance.choice([" ", "  ", "\n    ", " /* a . b */ ", " // && c\n", "\n\n"]) if seldom(chance, 3) else " "
    for place in range(0, len(pieces), 2):
        text = re.sub(r" (?=[^\w ]|andThen|zip|both|either)|(?<=[&|>+*]) |(?<=andThen) ", gap, pieces[place])
        pieces[place] = re.sub(r"\.(?=[a-zA-Z])", lambda _: chance.choice(["\n      .", ".", ".", "."]), text)
    return "".join(pieces)


@pytest.mark.parametrize("chunk", chunks(5000))
def test_what_is_printed_in_any_layout_reads_back(chunk):
    chance, count = random.Random(chunk), 0
    while count < 250:
        text = made_term(chance, chance.choice([1, 2, 3, 4, 5, 6, 8, 12, 16, 24, 40]))[0]
        try:
            trees.tree_of(text)
            code = Printed(chance).code(exporting.pattern_of(text)).text
        except trees.Unfit:
            continue
        except FaultAt as fault:
            assert re.search("above 9223372036854775807|isn't exact|at most 22 parts", fault.cause.what)
            continue
        count += 1
        assert canonical(schedule(f"({spread(chance, code)})")) == canonical(text), code


# Random expressions beside ZIO's definitions. Each is Scala, ZIO's schedule, and the kind of its outputs in ZIO: "num",
# "unit", or a list of kinds for a tuple.

def number(chance): return chance.choice([0, 1, 2, 3, 5, 6, 8, 9, 10])
def time(chance): return chance.choice([1, 2, 3, 4, 7, 9, 25, 40, 70])


def millis(chance, value):
    return chance.choice([f"{value}.millis", f"Duration.fromMillis({value})", f"{value}L.milliseconds",
                          f"{value * 1000}.micros", f"java.time.Duration.ofMillis({value})"])


def made_leaf(chance):
    k, d, e, n = chance.choice([0, 1, 2, 3, 5]), time(chance), time(chance), number(chance)
    span, other = millis(chance, d), millis(chance, e)
    return chance.choice([
        ("Schedule.forever", zio.forever(), "num"), ("Schedule.count", zio.forever(), "num"),
        (f"Schedule.recurs({k})", zio.recurs(k), "num"), ("Schedule.once", zio.recurs(1).unit(), "unit"),
        ("Schedule.stop", zio.recurs(0).unit(), "unit"), (f"Schedule.spaced({span})", zio.spaced(d), "num"),
        (f"Schedule.windowed(interval = {span})", zio.windowed(d), "num"),
        (f"Schedule.exponential({span})", zio.exponential(d), "num"),
        (f"Schedule.exponential({span}, 3.0)", zio.exponential(d, 3), "num"),
        (f"Schedule.linear({span})", zio.linear(d), "num"), (f"Schedule.fibonacci({span})", zio.fibonacci(d), "num"),
        ("Schedule.identity[Long]", zio.identity(), "num"), ("Schedule.elapsed", zio.elapsed(), "num"),
        (f"Schedule.upTo({span})", zio.up_to(d), "num"), (f"Schedule.duration({span})", zio.duration(d), "num"),
        (f"Schedule.fromDurations({span}, {other}, {span})", zio.from_durations(d, e, d), "num"),
        (f"Schedule.recurWhileEquals({n})", zio.identity().while_input(lambda x: x == n), "num"),
        (f"Schedule.succeed({n}L)", zio.forever().map(lambda out: n), "num"),
        (f"Schedule.fromFunction((x: Long) => {n} + x)", zio.identity().map(lambda x: x + n), "num"),
        (f"Schedule.unfold({n})(_ + 1)", zio.unfold(n, lambda x: x + 1), "num")])


def parts_of(kind):
    """The numbers of a kind: how Scala reads each from x, and how Python reads it from the output."""
    if kind == "num":
        return [("x", lambda out: out)]
    if not isinstance(kind, list):
        return []
    found = []
    for place, part in enumerate(kind):
        def read(out, place=place):
            for _ in range(len(kind) - 1 - max(place, 1)):
                out = out[0]
            return out[min(place, 1)]
        found += [(re.sub("^x", f"x._{place + 1}", code), lambda out, inner=inner, read=read: inner(read(out)))
                  for code, inner in parts_of(part)]
    return found


def made_test(chance, parts, depth=2):
    """A test of some numbers, in Scala and in Python."""
    if depth and seldom(chance, 3):
        (one, first), (two, second) = (made_test(chance, parts, depth - 1) for _ in range(2))
        return chance.choice([(f"({one} && {two})", lambda it: first(it) and second(it)),
                              (f"({one} || {two})", lambda it: first(it) or second(it)),
                              (f"!({one})", lambda it: not first(it))])
    code, read = chance.choice(parts)
    n, name = number(chance), chance.choice(["<", "<=", "==", "!=", ">", ">="])
    does = {"<": int.__lt__, "<=": int.__le__, "==": int.__eq__, "!=": int.__ne__, ">": int.__gt__, ">=": int.__ge__}
    if seldom(chance, 4):
        return f"{n} {name} {code}", lambda it: does[name](n, read(it))
    if seldom(chance, 4):
        return f"{code} * 2 {name} {n}", lambda it: does[name](read(it) * 2, n)
    return f"{code} {name} {n}", lambda it: does[name](read(it), n)


def made_method(chance, size):
    """A schedule with a method."""
    code, model, kind = made_expression(chance, size)
    n, d, parts = number(chance), time(chance), parts_of(kind)
    test, does = made_test(chance, [("x", lambda it: it)])
    options = [(f"{code}.as({n}L)", model.map(lambda out: n), "num"), (f"{code}.unit", model.unit(), "unit"),
               (f"{code}.whileInput((x: Long) => {test})", model.while_input(does), kind),
               (f"{code}.untilInput[Long] {{ x => {test} }}", model.while_input(lambda it: not does(it)), kind),
               (f"{code}.upTo({millis(chance, d)})", model.up_to(d), kind),
               (f"{code}.resetAfter({millis(chance, d)})", model.reset_after(d), kind),
               (f"{code}.repetitions", model.repetitions(), "num"), (f"{code}.passthrough", model.passthrough(), "num"),
               (f"{code}.delayed(_ max {millis(chance, d)})", model.modify_delay(lambda out, it: max(it, d)), kind),
               (f"{code}.tapOutput(x => ZIO.log(x))", model, kind)]
    if parts:
        holds, does_hold = made_test(chance, parts)
        read, get = chance.choice(parts)
        options += [(f"{code}.whileOutput(x => {holds})", model.while_output(does_hold), kind),
                    (f"{code} untilOutput {{ case x => {holds} }}", model.while_output(lambda it: not does_hold(it)),
                     kind),
                    (f"{code}.resetWhen(x => {read} >= {n})", model.reset_when(lambda out: get(out) >= n), kind),
                    (f"{code}.map(x => {read} + {n})", model.map(lambda out: get(out) + n), "num"),
                    (f"{code}.map(x => {read} * {n})", model.map(lambda out: get(out) * n), "num")] * 2
        both = made_test(chance, [("i", lambda it: it[0]),
                                  *((code, lambda it, get=get: get(it[1])) for code, get in parts)])
        options.append((f"{code}.check((i, x) => {both[0]})", model.check(lambda i, out: both[1]((i, out))), kind))
    made = chance.choice(options)
    return (f"({made[0]})", *made[1:]) if " untilOutput " in made[0] else made


def made_pair(chance, size):
    """Two schedules with an operator."""
    one, two = made_expression(chance, size // 2), made_expression(chance, size - size // 2)
    (a, first, left), (b, second, right) = one, two
    pair = [*left, right] if isinstance(left, list) else [left, right]
    joined = chance.choice([("&&", zio.both), ("zip", zio.both), ("<*>", zio.both), ("||", zio.either)])
    made = f"({a} {joined[0]} {b})", joined[1](first, second), pair
    if "unit" in (left, right):
        place = 1 if left == "unit" else 0
        made = made[0], made[1].map(lambda out: out[place]), (left, right)[place]
    options = [made, made, (f"({a} <* {b})", zio.both(first, second).map(lambda out: out[0]), left),
               (f"{a}.*>({b})", zio.both(first, second).map(lambda out: out[1]), right),
               (f"({a} andThenEither {b})", zio.and_then_either(first, second), "either")]
    if left == right == "num":
        options += [(f"({a} andThen {b})", zio.and_then(first, second), "num"),
                    (f"({a} ++ {b})", zio.and_then(first, second), "num")]
    if not re.search("Input|identity|fromFunction|recurWhile|check|passthrough", b):
        options.append((f"({a} >>> {b})", zio.compose(first, second), right))
    return chance.choice(options)


def made_expression(chance, size):
    if size <= 1:
        return made_leaf(chance)
    return (made_pair if size > 2 and chance.choice([True, False]) else made_method)(chance, size - 1)


@pytest.mark.parametrize("chunk", chunks(2000))
def test_random_expressions_do_what_zio_s_definitions_do(chunk, zsched):
    chance, jobs, models = random.Random(chunk), [], []
    while len(jobs) < 250:
        code, model, _ = made_expression(chance, chance.choice([1, 2, 3, 4, 5, 6, 8, 10]))
        try:
            text = schedule(f"({spread(chance, code)})")
        except Wrong as wrong:
            assert re.search("a reset has one comparison|more than 1000 parts", wrong.what), code
            continue
        mode, key, end = chance.choice([("retry", "err", "ok"), ("repeat", "ok", "err")])
        script = (script_of(chance, key) * 20)[:20] + [{"ms": 1, end: 1}]
        jobs.append({"name": f"j{len(jobs)}", "mode": mode, "schedule": text, "script": script})
        models.append((code, model))
    status, report, errors = run(zsched, json.dumps({"horizon": 15000, "jobs": jobs}).encode())
    assert (status, errors) == (0, b"")
    for (code, model), job, ran in zip(models, jobs, jobs_of(report), strict=True):
        assert first_difference(model, ran.steps) is None, f"{code}: {job}"


# What scalac calls the signs of operators.
SIGNS = {"amp": "&", "bar": "|", "less": "<", "greater": ">", "plus": "+", "times": "*", "eq": "=", "bang": "!"}


def zippables():
    """The tuples that become one longer, as ZIO has them."""
    for size in range(2, 22):
        names = ", ".join(f"A{number}" for number in range(size))
        yield f"    implicit def flat{size}[{names}, Z]: Of[({names}), Z, ({names}, Z)] = ???"


def policies_after_scalac(folder, source):
    """The policies of a source, by their names, after scalac compiled it and printed it as it reads it."""
    need("scalac")
    stub = (TOP / "tests" / "zio_stub.scala").read_text().replace("    ZIPPABLES", "\n".join(zippables()))
    (folder / "stub.scala").write_text(stub)
    (folder / "policies.scala").write_text(source)
    words = ["scalac", "-language:_", "-d", folder, "-Xprint:parser", "stub.scala", "policies.scala"]
    status, printed, errors = run(words, b"", None, 600, cwd=folder)
    assert status == 0, errors.decode() + printed.decode()[-2000:]
    code = re.sub(r"\$([a-z]+)", lambda it: SIGNS[it[1]] if it[1] in SIGNS else it[0], printed.decode())
    return {it.name: it.read() for it in scala_policies.find(code.partition("// policies.scala")[2])}


@pytest.mark.full
def test_scala_compiles_the_example_and_reads_it_as_the_import_does(tmp_path):
    source = (TOP / "examples" / "Retries.scala").read_text()
    found, read = policies_after_scalac(tmp_path, source), {it.name: it.read() for it in scala_policies.find(source)}
    kept = ["waits", "draws", "mode", "left_out"]
    assert [(name, [getattr(it, key) for key in kept]) for name, it in found.items()] == [
        (name, [getattr(it, key) for key in kept]) for name, it in read.items()] and len(found) == 10


@pytest.mark.full
def test_scala_compiles_what_is_printed_and_reads_it_as_the_import_does(tmp_path):
    chance, texts, lines = random.Random(7), [], []
    while len(texts) < 120:
        text = made_term(chance, chance.choice([2, 3, 4, 5, 6, 8, 12, 16]))[0]
        try:
            lines.append(f"  def p{len(texts)} = {Printed(chance).code(exporting.pattern_of(text)).text}")
            texts.append(text)
        except FaultAt:
            continue
    found = policies_after_scalac(tmp_path, f"import zio._\nobject Policies {{\n{chr(10).join(lines)}\n}}\n")
    assert [canonical(found[f"p{number}"].waits) for number in range(len(texts))] == [*map(canonical, texts)]


# Effect and cats-retry: what the letters of their tables are, here and there.
OTHERS = {"effect": {"s": ("linear(3)", 'Schedule.linear("3 millis")'), "a": ("spaced(4)", "Schedule.spaced(4)"),
                     "b": ("recurs(2)", "Schedule.recurs(2)"), "d": ("25", '"25 millis"'), "e": ("40", "40")},
          "cats": {"s": ("exponential(3)", "exponentialBackoff[IO](3.millis)"),
                   "a": ("spaced(4)", "constantDelay[IO](4.millis)"), "b": ("spaced(5)", "constantDelay[IO](5.millis)"),
                   "d": ("25", "25.millis")}}
NUMBERED = {"k": ("3", "3"), "N": ("6", "6"), "f": ("", "transform")}
HEADS = {"effect": ('import { Chunk, Duration, Effect, Either, Schedule } from "effect"\n\n', "typescript"),
         "cats": ("import retry._\nimport retry.RetryPolicies._\n\n", "scala")}
OTHER_ROWS = [(library, row, name) for library in OTHERS for row in rows(library) for name in row.spellings()]


def read_other(library, code):
    head, language = HEADS[library]
    policy, = scala_policies.find(f"{head}{'const' if library == 'effect' else 'val'} policy = {code}\n", language)
    return policy.read()


@pytest.mark.parametrize("library, row, name", OTHER_ROWS, ids=lambda it: it if isinstance(it, str) else "")
def test_a_row_of_another_library_is_read_and_printed_or_named(library, row, name):
    ours, theirs = (re.sub(r"(?<![A-Za-z])[sabdekNf](?![A-Za-z])",
                           lambda found: (OTHERS[library] | NUMBERED)[found[0]][side], text)
                    for side, text in enumerate([row.text, name]))
    try:
        policy = read_other(library, theirs)
    except Wrong as wrong:
        assert not row.text and row.reason() in wrong.what
        return
    if not row.text:
        assert row.reason() in next(iter(policy.left_out.values()))
        return
    assert canonical(policy.draws or policy.waits) == canonical(ours)
    try:
        code = exporting.TARGETS[library]("policy", policy.draws or policy.waits)[0]
    except FaultAt:
        assert row.text == "recurs(0)"
        return
    again = read_other(library, code.rpartition("policy = ")[2].strip())
    ours = ours if library == "effect" else ours.replace(".map(_1)", "")
    assert canonical(again.draws or again.waits) == canonical(ours)


@pytest.mark.parametrize("chunk", chunks(1000))
def test_what_is_printed_for_effect_reads_back(chunk):
    chance, count = random.Random(chunk), 0
    while count < 250:
        text = made_term(chance, chance.choice([1, 2, 3, 4, 6, 8, 12, 16, 24]))[0]
        try:
            trees.tree_of(text)
            code = exporting.TARGETS["effect"]("policy", text)[0]
        except trees.Unfit:
            continue
        except FaultAt as fault:
            assert "above 9007199254740991" in fault.cause.what
            continue
        count += 1
        assert canonical(read_other("effect", code.rpartition("policy = ")[2].strip()).waits) == canonical(text), code


PIECES = ("( ) { } [ ] \" \"\"\" ' /* */ // . => = _ <- : , ; ! - $ ` @ 0x 1e9 .5 && || >>> case val def if match for "
          "new given object class return yield Schedule. .millis .jittered .map(_._1) .resetWhen(_>3&&_<4) [0]").split()


@pytest.mark.parametrize("path", [TOP / "examples/Retries.scala", *(unpacked("zsched-policy") / name for name in [
    "scala_that_is_broken/b.scala", "scala_settings_that_are_left_out/a.scala", "cats_retry_policies/policies.scala",
    "effect_in_typescript/policies.ts"])], ids=lambda it: it.name)
def test_a_damaged_source_is_an_error_at_a_place_or_has_policies(path):
    source, chance, read = path.read_text(), random.Random(path.name), 0
    for _ in range(200):
        text = source
        for _ in range(chance.choice([1, 1, 2, 5])):
            at, end = sorted(chance.choice(range(len(text))) for _ in range(2))
            piece = chance.choice([*PIECES, "\n", "\n\n", text[at:min(end, at + 60)]])
            text = text[:at] + piece + text[chance.choice([at, at, at + 1, min(end, at + 20)]):]
        try:
            for it in scala_policies.find(text, "typescript" if path.suffix == ".ts" else "scala"):
                try:
                    assert len(it.read().waits) <= 65536
                    read += 1
                except Wrong as wrong:
                    assert wrong.line >= 1 <= wrong.column
        except Wrong as wrong:
            assert wrong.line >= 1 and (wrong.column is None and wrong.line == 1 or wrong.column >= 1)
    assert read > 10
