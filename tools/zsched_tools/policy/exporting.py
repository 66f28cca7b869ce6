"""Schedules as code for ZIO 2: each form by the first spelling of the table `zio.tsv` whose text is this form.

Outputs have their types in Scala: durations of `exponential`, `linear`, `fibonacci` and `elapsed`, tuples that are flat
to the left, and Long. Durations become Long by `toMillis` before a `merge` of two types."""
import functools
import re
from fractions import Fraction
from typing import NamedTuple

from zsched_tools.hints import OPERATORS
from zsched_tools.place import Cause, FaultAt
from zsched_tools.policy import trees
from zsched_tools.policy.expressions import KEYS
from zsched_tools.policy.zio_table import rows

DURATIONS = {"exponential", "linear", "fibonacci", "elapsed"}
OWN = {"fixed": "a late run is here at once, then on the boundaries again",
       "collectAll": "here the list has the outputs at which the schedule continued"}
MOST = 2**63 - 1
# No name of a value, in Scala or in TypeScript.
_WORDS = set(" ".join(KEYS.values()).split()) | set("true false null this super with enum delete in void".split())
MOST_PARTS = 22
_JITTER = re.compile(r"\bjitter +(full|equal|([0-9.]+) *%|[0-9/]+(?:\.[0-9]+)?\.\.[0-9/]+(?:\.[0-9]+)?)")


class Code(NamedTuple):
    """An expression with the type of its outputs. `is_infix` says that it has an operator outside of parentheses."""
    text: str
    type: object
    is_infix: bool = False

    def inside(self):
        return f"({self.text})" if self.is_infix else self.text


@functools.cache
def spellings(library="zio"):
    """The spelling of each form."""
    found, named = {}, {"(a andThenEither b).map(merge)": "merge", "s.map(as N)": "as"}
    for row in rows(library):
        if row.text in named:
            found[named[row.text]] = row.spellings()[0]
        if row.text and " jitter" not in row.text and row.part != "effects":
            form, parts, words, _ = trees.pattern_of(row.text)
            is_bare = all(it.form == "letter" for it in parts) and form != "letter" and not {"0", "_1", "_2"} & {*words}
            if is_bare and (form != "map" or words[0] == "*"):
                found.setdefault((form, len(words)) if form == "exponential" else form, row.spellings()[0])
    return found


def refuse(at, what, help=""):
    raise FaultAt(Cause(at, 1, what, help))


def number(value, at, most=MOST):
    if value > most:
        refuse(at, f"{value} is above {most}, the greatest number there")
    return f"{value}L" if value > 2**31 - 1 else str(value)


def duration(value, at):
    """A duration in the greatest unit of which it is a whole number."""
    unit, name = next((it, name) for it, name in [(60_000, "minute"), (1000, "second"), (1, "milli")]
                      if value % it == 0 and (value or it == 1))
    return f"{number(value // unit, at)}.{name}{'s' if value != unit else ''}"


def decimal(value, at):
    """A fraction as a decimal number."""
    if 10**9 % value.denominator:
        refuse(at, f"{value} is no decimal number")
    return repr(float(value))


class Scala:
    """Writes a schedule's pattern. `is_plain` makes all durations of outputs Long. `notes` gets the own rules."""

    def __init__(self):
        self.notes = []

    def code(self, pattern, is_plain=False):
        form, parts, words, at = pattern
        if form == "map" and words[0] == "jitter":
            return self.jittered(parts[0], words[1:], at, is_plain)
        if form == "map" and words == ("merge",):
            return self.merged(parts[0], at, is_plain)
        if form in OWN and f"{form}: {OWN[form]}" not in self.notes:
            self.notes.append(f"{form}: {OWN[form]}")
        codes = [self.code(it, is_plain) for it in parts]
        if form in OPERATORS:
            return self.joined(form, codes, at)
        if not parts:
            return self.leaf(form, words, at, is_plain)
        made = codes[0]
        if form == "collectAll":
            return Code(self.listed(made), ("Chunk", made.type))
        if form == "map":
            return self.mapped(made, words, at)
        return self.tested(form, made, words, at)

    def tested(self, form, made, words, at):
        *pick, compared, value = words
        type = "Long" if form == "whileInput" else self.picked(made, pick[0])[1] if pick else made.type
        read = self.picked(made, pick[0])[0] if pick else "_"
        sign = {"=": "=="}.get(compared, compared)
        value = duration(int(value), at) if type == "Duration" else number(int(value), at)
        return Code(self.filled(form, made, f"{read} {sign} {value}"), made.type)

    def listed(self, made):
        return f"{self.filled('collectAll', made, '')}[{type_text(made.type)}]"

    def other(self, made, word):
        return f"{made.inside()}.map(_.{word})"

    def drawn(self, made, least, most, at):
        if (least, most) == (Fraction(4, 5), Fraction(6, 5)):
            return f"{made.inside()}.jittered"
        return f"{made.inside()}.jittered({decimal(least, at)}, {decimal(most, at)})"

    def filled(self, form, made, argument):
        """A method's spelling with the schedule before it, and its test or function."""
        text = spellings()[form]
        text = f"{text.partition('(')[0]}({argument})" if text.endswith(")") else text
        text = text.replace("whileInput(", "whileInput[Long](")
        return text.replace("s.", f"{made.inside()}.", 1)

    def leaf(self, form, words, at, is_plain):
        words = [it for it in words if it != ","]
        if form == "exponential":
            factor = int(words[1]) if len(words) == 2 else 2
            if factor == 2:
                words = words[:1]
            elif int(float(factor)) != factor:
                refuse(at, f"{factor} isn't exact as a Double")
        text = spellings()[(form, len(words)) if form == "exponential" else form]
        shown = {letter: duration(int(value), at) if letter == "d" else (
            f"{int(value)}.0" if form == "exponential" else number(int(value), at))
            for letter, value in zip(re.findall(r"\b[dkN]\b", text), words)}
        text = re.sub(r"\b[dkN]\b", lambda it: shown[it[0]], text)
        text = f"{text}[Long]" if form == "identity" else text
        if form in DURATIONS:
            return Code(f"{text}.map(_.toMillis)", "Long") if is_plain else Code(text, "Duration")
        return Code(text, "Long")

    def joined(self, form, codes, at):
        left, right = codes
        text = self.infix(form, codes)
        if form == "andThenEither":
            return text._replace(type=("Either", left.type, right.type))
        parts = [*(left.type[1:] if left.type[0] == "Tuple" else [left.type]), right.type]
        if len(parts) > MOST_PARTS:
            refuse(at, f"a tuple has at most {MOST_PARTS} parts there")
        return text._replace(type=("Tuple", *parts))

    def infix(self, form, codes):
        """Two schedules with an operator."""
        operator = spellings()[form].split()[1]
        return Code(f"{codes[0].inside()} {operator} {codes[1].inside()}", codes[0].type, True)

    def merged(self, part, at, is_plain):
        codes = [self.code(it, is_plain) for it in (part.parts if part.form == "andThenEither" else [part])]
        types = [it.type for it in codes] if len(codes) == 2 else codes[0].type[1:]
        if types[0] != types[1]:
            return self.merged(part, at, True)
        if len(codes) == 1:
            return Code(self.other(codes[0], "merge"), types[0])
        return self.infix("merge", codes)

    def picked(self, made, word):
        """How a part of an output is read in a test, and its type."""
        if word == "size":
            return "_.size", "Long"
        size = len(made.type) - 1
        return f"_._{1 if word == '_1' else size}", made.type[1 if word == "_1" else size]

    def mapped(self, made, words, at):
        word = words[0]
        if word == "as":
            return Code(self.filled("as", made, f"{number(int(words[1]), at).rstrip('L')}L"), "Long")
        if word in ("+", "*"):
            value, is_time = int(words[1]), made.type == "Duration"
            shown = f"{number(value, at).rstrip('L')}L" if not is_time else duration(value, at) if word == "+" else (
                number(value, at))
            return Code(self.filled("map", made, f"_ {word} {shown}"), made.type)
        if word == "size":
            return Code(self.filled("map", made, "_.size.toLong"), "Long")
        parts = made.type[1:]
        if word == "_1" and len(parts) > 2:
            read = ", ".join(f"x._{number}" for number in range(1, len(parts)))
            return Code(self.filled("map", made, f"x => ({read})"), ("Tuple", *parts[:-1]))
        read, type = self.picked(made, word)
        return Code(self.filled("map", made, read), type)

    def jittered(self, part, words, at, is_plain):
        least, most = Fraction(int(words[0]), int(words[1])), Fraction(int(words[2]), int(words[3]))
        waits = [int(it.words[0]) for it in every(part) if it.form in trees.WAITING]
        around = 2 / (1 + least / most)
        if 10**9 % least.denominator and all(it / around % 1 == 0 for it in waits):
            part, least, most = scaled(part, most / around), least / most * around, around
        made = self.code(part, is_plain)
        return Code(self.drawn(made, least, most, at), made.type)


def type_text(type):
    """A type in Scala."""
    if isinstance(type, str):
        return type
    inner = ", ".join(map(type_text, type[1:]))
    return f"({inner})" if type[0] == "Tuple" else f"{type[0]}[{inner}]"


def every(pattern):
    yield pattern
    for it in pattern.parts:
        yield from every(it)


def scaled(pattern, scale):
    """A pattern whose waits are multiplied."""
    words = pattern.words
    if pattern.form in trees.WAITING:
        words = (str(int(int(words[0]) * scale)), *words[1:])
    return pattern._replace(parts=tuple(scaled(it, scale) for it in pattern.parts), words=words)


def pattern_of(text):
    """The pattern of a schedule with jitters."""
    def method(found):
        if found[2]:
            around = Fraction(found[2]) / 100
            ends = [1 - around, 1 + around]
        else:
            ends = map(Fraction, {"full": "0..1", "equal": "1/2..1"}.get(found[1], found[1]).split(".."))
        return f".map(jitter {' '.join(f'{it.numerator} {it.denominator}' for it in ends)})"
    return trees.pattern_of(_JITTER.sub(method, text), "")


def zio(name, text):
    """The code of a schedule for ZIO, and what is to say of it."""
    scala = Scala()
    made = scala.code(pattern_of(text))
    notes = "".join(f"// {it}\n" for it in scala.notes)
    name = name if re.fullmatch("[a-z][A-Za-z0-9]*", name) and name not in _WORDS else f"`{name}`"
    return f"import zio._\n\n{notes}val {name} = {made.text}\n", scala.notes


class Effect(Scala):
    """Writes a schedule for Effect, whose tuples are nested as here. Each operator is a pipe."""
    most = 2**53 - 1

    def name(self, form):
        return re.search(r"Schedule\.(\w+)(?:\((?:\w|\(n\).*)\)|)\)$", spellings("effect")[form])[1]

    def leaf(self, form, words, at, is_plain):
        words = [it for it in words if it != ","]
        words = words[:1] if form == "exponential" and words[1:] == ["2"] else words
        text = spellings("effect")[(form, len(words)) if form == "exponential" else form]
        numbers = zip(re.findall(r"\b[dk]\b", text), (number(int(it), at, self.most).rstrip("L") for it in words))
        shown = {letter: f'"{it} millis"' if letter == "d" else it for letter, it in numbers}
        text = re.sub(r"\b[dk]\b", lambda it: shown[it[0]], text)
        text = text.replace("identity()", "identity<number>()")
        if form in DURATIONS and is_plain:
            return Code(f"{text}.pipe(Schedule.map((n) => Duration.toMillis(n)))", "Long")
        return Code(text, "Duration" if form in DURATIONS else "Long")

    def infix(self, form, codes):
        return Code(f"{codes[0].text}.pipe(Schedule.{self.name(form)}({codes[1].text}))", codes[0].type)

    def joined(self, form, codes, at):
        kind = "Either" if form == "andThenEither" else "Tuple"
        return self.infix(form, codes)._replace(type=(kind, *(it.type for it in codes)))

    def filled(self, form, made, argument):
        return f"{made.text}.pipe(Schedule.{self.name(form)}" + (f"({argument}))" if argument else ")")

    def tested(self, form, made, words, at):
        *pick, compared, value = words
        read, type = self.picked(made, pick[0]) if pick else ("n", "Long" if form == "whileInput" else made.type)
        read = f"Duration.toMillis({read})" if type == "Duration" else read
        sign = {"=": "===", "!=": "!=="}.get(compared, compared)
        head = "(n: number)" if form == "whileInput" else "(n)"
        shown = number(int(value), at, self.most).rstrip("L")
        return Code(self.filled(form, made, f"{head} => {read} {sign} {shown}"), made.type)

    def picked(self, made, word):
        return ("Chunk.size(n)", "Long") if word == "size" else (f"n[{int(word[1]) - 1}]", made.type[int(word[1])])

    def mapped(self, made, words, at):
        word = words[0]
        if word == "as":
            return Code(self.filled("as", made, number(int(words[1]), at, self.most).rstrip("L")), "Long")
        if word in ("+", "*"):
            read = "Duration.toMillis(n)" if made.type == "Duration" else "n"
            shown = number(int(words[1]), at, self.most).rstrip("L")
            return Code(self.filled("map", made, f"(n) => {read} {word} {shown}"), "Long")
        read, type = self.picked(made, word)
        return Code(self.filled("map", made, f"(n) => {read}"), type)

    def other(self, made, word):
        """A function without a name of its own: merge."""
        return self.filled("map", made, "(n) => Either.merge(n)")

    def listed(self, made):
        return self.filled("collectAll", made, "")

    def drawn(self, made, least, most, at):
        if (least, most) != (Fraction(4, 5), Fraction(6, 5)):
            refuse(at, "Effect draws from 80 % to 120 % of a wait")
        return f"{made.text}.pipe(Schedule.jittered)"


class Cats(Scala):
    """Writes a policy of cats-retry, which has no outputs."""

    def code(self, pattern, is_plain=False):
        form, parts, words, at = pattern
        words = [it for it in words if it != ","]
        if form == "map" and words[0] == "jitter":
            inner = parts[0]
            if words[1:] != ["0", "1", "1", "1"] or inner.form != "exponential" or inner.words[2:] not in ((), ("2",)):
                refuse(at, "cats-retry draws the waits of exponentialBackoff, from 0 on")
            return Code(f"fullJitter[IO]({duration(int(inner.words[0]), at)})", "")
        if form in ("map", "collectAll"):
            return self.code(parts[0])
        codes = [self.code(it) for it in parts]
        if form == "andThenEither" and {it.form for it in every(parts[1])} - {"spaced"}:
            refuse(at, "followedBy counts all retries: only equal waits may follow")
        if form in ("&&", "||", "andThenEither"):
            operator = spellings("cats")[form].split()[1]
            return Code(f"{codes[0].inside()} {operator} {codes[1].inside()}", "", True)
        text = spellings("cats").get(("exponential", 1) if form == "exponential" and words[1:] in ([], ["2"]) else form)
        if text is None or parts:
            refuse(at, f"cats-retry has nothing for {form}")
        shown = number(int(words[0]), at, 2**31 - 1) if form == "recurs" else duration(int(words[0]), at)
        return Code(f"{text.partition('(')[0]}[IO]({shown})", "")


def effect(name, text):
    """The code of a schedule for Effect, and what is to say of it."""
    made = Effect()
    code = made.code(pattern_of(text)).text
    used = ", ".join(it for it in ["Chunk", "Duration", "Either", "Schedule"] if f"{it}." in code)
    notes = "".join(f"// {it}\n" for it in made.notes)
    name = re.sub(r"[^A-Za-z0-9]+", "_", name)
    name = f"_{name}" if name in _WORDS or name[0].isdigit() else name
    return f'import {{ {used} }} from "effect"\n\n{notes}export const {name} = {code}\n', made.notes


def cats(name, text):
    """The code of a policy for cats-retry, and what is to say of it."""
    name = name if re.fullmatch("[a-z][A-Za-z0-9]*", name) and name not in _WORDS else f"`{name}`"
    code = Cats().code(pattern_of(text)).text
    head = "import cats.effect.IO\nimport retry.RetryPolicies._\nimport scala.concurrent.duration._\n"
    return f"{head}\nval {name} = {code}\n", []


TARGETS = {"zio": zio, "effect": effect, "cats": cats}
