"""Why a text is not a schedule, in words. The program reports the place; the tokens before it say what is expected."""
import re
import unicodedata
from fractions import Fraction
from typing import NamedTuple

from zsched_tools.durations import UNITS, in_milliseconds
from zsched_tools.hints import (BARE_LEAVES, COMPARISONS, LEAVES, METHODS, NUMBERED_LEAVES, OPERATORS, SYMBOLS, TABLE,
                                near, said, zio)
from zsched_tools.place import Cause
from zsched_tools.words import shown

TOKEN = re.compile(r"(?P<word>[A-Za-z]+)|(?P<number>[0-9]+)|(?P<mark>_[12]|&&|\|\||<=|!=|>=|[(),.<=>+*])")
WINDOW = 4000
_WORDS = LEAVES + METHODS + ["andThenEither", "size", "merge"]
_NO_SPACE = {"\t": "tab", "\n": "line_end", "\r": "line_end"}
# What other tools write instead of a schedule: templates, cron lines, arguments with names, exponents.
_TEMPLATE = re.compile(r"\{\{.*?\}\}|\$\{[^}]*\}|\$\([^)]*\)|\$[A-Za-z_]\w*|%[A-Z_]{2,}%|<[A-Z][A-Z_]+>")
_EXPONENT = re.compile(r"((?:\.[0-9]{1,9})?)[eE]\+?([0-9]{1,2})(?!\w)")
_CRON = re.compile(r" *(?:[0-9*?,/LW#-]+ +){4,6}[0-9A-Za-z*?,/LW#-]+ *")
_CRON_NAME = re.compile(r"@(?:hourly|daily|midnight|weekly|monthly|yearly|annually|every\b.*)")
_ISO = re.compile(r"P(?:[0-9]+D)?(?:T(?:[0-9.]+[HMS])+)?(?!\w)")
_NAMED = re.compile(r"([A-Za-z_]\w*) *[=:] *([0-9]+)")
_LONGEST = 60


class Spot(NamedTuple):
    """A place of a text at which no schedule continues, with the tokens before it and the text from it on."""
    text: str
    at: int
    before: list
    rest: str

    def cause(self, size, what, help="", **values):
        """A cause at this place, in the texts of the table with these names. A size of None is that of the token."""
        values |= {"token": self.token(), "last": self.last()}
        size = max(1, len(self.token())) if size is None else size
        return Cause(self.at, size, said(what, **values), said(help, **values))

    def last(self, back=1):
        """The last token before, or one further back; empty if it is missing."""
        return self.before[-back][0] if len(self.before) >= back else ""

    def token(self):
        """The token here; empty if the text has no token here."""
        found = TOKEN.match(self.rest)
        return found[0] if found else ""


def cause_of(text, fault):
    """The cause of 'no term at byte P' and 'number too large at byte P', else None."""
    if not (place := re.fullmatch(r"(no term|number too large) at byte ([0-9]+)", fault)):
        return None
    at = int(place[2]) if text.isascii() else len(text.encode()[:int(place[2])].decode())
    if place[1] == "number too large":
        return Cause(at, len(TOKEN.match(text, at)[0]), said("too_large"), said("greatest"))
    spot = Spot(text, at, list(TOKEN.finditer(text, max(0, at - WINDOW), at)), text[at:at + WINDOW])
    if not spot.rest:
        return _ended(spot)
    expected = expectation(spot.before)
    return (slip(spot, expected) or _after_number(spot) or _in_scala(spot, expected) or _foreign(spot)
            or _odd_letter(spot) or _EXPECTED[expected](spot))


def expectation(before):
    """What must follow these tokens: 'schedule', 'more' (after a whole one), 'method', 'open' or 'close' (of
    parentheses), 'second' (a comma or the end of the arguments), or an argument: 'number', 'comparison', 'pick' (or a
    comparison), 'function'."""
    spot = Spot("", 0, before, "")
    last, previous = spot.last(), spot.last(2)
    if last == "(":
        in_parentheses = {"map": "function", "whileInput": "comparison", "whileOutput": "pick", "resetWhen": "pick"}
        return in_parentheses.get(previous, "number" if previous in NUMBERED_LEAVES else "schedule")
    if not last or last in OPERATORS:
        return "schedule"
    if last == "," or last in COMPARISONS or last in ("as", "+", "*"):
        return "number"
    if last == ".":
        return "method"
    if last in ("_1", "_2", "size"):
        return "close" if spot.last(3) == "map" else "comparison"
    if last == "merge" or last.isdigit():
        return "second" if spot.last(3) == "exponential" and previous == "(" else "close"
    return "open" if last in NUMBERED_LEAVES + METHODS and last != "collectAll" else "more"


def innermost(before):
    """The innermost pair of parentheses that is still open, around whole schedules: its token and its operator, each
    None if it is missing."""
    depth, operator = 0, None
    for token in reversed(before):
        depth += (token[0] == ")") - (token[0] == "(")
        if depth < 0:
            return token, operator
        if depth == 0 and token[0] in OPERATORS:
            operator = token[0]
    return None, operator


def _open_count(spot):
    return spot.text.count("(", 0, spot.at) - spot.text.count(")", 0, spot.at)


def _ended(spot):
    expected, count = expectation(spot.before), _open_count(spot)
    if not spot.before:
        return spot.cause(0, "empty", "write_one")
    opened, operator = innermost(spot.before)
    if expected == "more" and opened and not operator:
        return spot.cause(0, "early", "no_operator", place=opened.start() + 1)
    if expected in ("close", "second", "more"):
        return spot.cause(0, "early", "close_missing" if count == 1 else "closes_missing", count=count)
    return spot.cause(0, "early", f"missing_{expected}")


def _after_number(spot):
    """The cause of a unit, a point or digits directly after a number, else None."""
    count = spot.last()
    if not count.isdigit():
        return None
    unit = re.match(r"[ .]{0,3}([A-Za-zµ]+)", spot.rest)
    if unit and (unit[1] in UNITS or unit[1].lower() in UNITS):
        return spot.cause(unit.end(), "no_unit", in_milliseconds(count + unit[1]))
    if fraction := re.match(r"\.[0-9]+", spot.rest):
        return _fraction(spot, count + fraction[0], fraction.end())
    digits = re.match(r"[_' ]?[0-9][0-9_']*", spot.rest)
    return digits and spot.cause(digits.end(), "only_digits", "write",
                                 text=shown(re.sub("[^0-9]", "", count + digits[0])))


def _fraction(spot, number, size):
    unit = re.match(r"[ .]{0,3}([A-Za-z]+)", spot.rest[size:])
    if unit and unit[1].lower() in UNITS:
        return spot.cause(size + unit.end(), "no_point_no_unit", in_milliseconds(number + unit[1]))
    if spot.last(2) == "," and spot.last(4) == "(":
        return spot.cause(size, "factor", "slower")
    if number.endswith((".0", ".00")):
        return spot.cause(size, "no_point", "write", text=shown(number.split(".")[0]))
    return spot.cause(size, "no_point", "whole_retries" if spot.last(3) == "recurs" else "whole_times")


def _in_scala(spot, expected):
    """The cause of an argument in Scala's syntax, as _ < 5 or x => x + 1, else None."""
    if expected not in ("comparison", "pick", "function"):
        return None
    if part := re.match(r"(?:\w+ *=> *)?\w+\._([12])", spot.rest):
        return spot.cause(part.end(), "no_named", "only", text=f"_{part[1]}")
    found = re.match(r"\w+ *=> *(?:\w+ *)?|_ *(?![0-9])", spot.rest)
    help = "only_function" if expected == "function" else "only_comparison"
    return found and spot.cause(found.end(), "no_named", help)


def _foreign(spot):
    """The cause of a symbol or a name that isn't one of schedules, else None."""
    rest, token = spot.rest, spot.token()
    doubled = spot.last() + rest[0]
    if spot.last() in COMPARISONS and doubled in SYMBOLS:
        return spot.cause(1, "unknown", SYMBOLS[doubled], word=doubled)
    for symbol, help in SYMBOLS.items():
        if rest.startswith(symbol) and len(symbol) > len(token):
            return spot.cause(len(symbol), "unknown", help, word=symbol)
    word = re.match(r"[A-Za-z]+", rest)
    if word and word[0] not in _WORDS and zio(word[0]) and not (word[0] == "as" and spot.last() == "("):
        return spot.cause(len(word[0]), "unknown", zio(word[0]), word=word[0])
    return None


def _odd_letter(spot):
    """The cause of a letter that can't begin a token, else None."""
    letter = spot.rest[0]
    if spot.token() or letter.isdigit() and letter.isascii():
        return None
    if letter in _NO_SPACE or letter.isspace():
        what = said(_NO_SPACE.get(letter, "character"), text=f"{ord(letter):04X}")
        return spot.cause(1, "between", "only_spaces", text=what)
    named = {"-": ("minus", "negative"), "_": ("no_part", "parts"), **dict.fromkeys("\"'`“”", ("quotes", "unquoted")),
             **dict.fromkeys("/%", ("unknown", "only_plus")), **dict.fromkeys("[{", ("no_letter", "parentheses"))}
    return spot.cause(1, *named.get(letter, ["no_letter"]), word=shown(letter))


def _misspelled(spot, words):
    """The cause of a word that isn't one of schedules, else None."""
    word = spot.token()
    if not word.isalpha() or word in _WORDS:
        return None
    meant = near(word, words) or near(word, _WORDS)
    return spot.cause(len(word), "unknown", "meant" if meant else "expected", word=shown(word),
                      text=meant or ", ".join(words[:-1]), final=words[-1])


def _no_schedule(spot):
    """A schedule is expected, but something else is here."""
    token = spot.token()
    if token in METHODS:
        return spot.cause(None, "follows", "write_method")
    if spot.rest[0].isdigit():
        number = re.match(r"[0-9]+", spot.rest)[0]
        return spot.cause(len(number), "number_alone", "number_as", text=number)
    if token == ")" and spot.last() == "(":
        return spot.cause(1, "contain_none", "write_and")
    return _misspelled(spot, LEAVES) or spot.cause(None, "schedule_before" if token else "no_begin")


def _no_more(spot):
    """A schedule is followed by something other than a method, an operator or a closing parenthesis."""
    token, last = spot.token(), spot.last()
    opened, operator = innermost(spot.before)
    if token == "(" and last in BARE_LEAVES + ["collectAll"]:
        return spot.cause(1, "no_parentheses", "only_last")
    if token in OPERATORS:
        return _second_operator(spot, token, opened, operator)
    if token == ")":
        # A parenthesis closes nothing, or a pair of them has no operator.
        inside = spot.text[opened.start() + 1:spot.at].strip() if opened else None
        return spot.cause(1, "closes_nothing", "remove") if not opened else spot.cause(
            1, "needless", "write" if len(inside) < 60 else "remove_them", text=inside)
    for tokens, texts in [(METHODS, ["point_before", "write_point"]), (LEAVES + ["("], ["operator_before", "joined"]),
                          (",", ["comma", "joined"]), (COMPARISONS, ["in_method", "write_while"]),
                          (["+", "*"], ["in_map", "write_map"])]:
        if token and token in tokens:
            return spot.cause(None, *texts)
    return _misspelled(spot, OPERATORS) or spot.cause(None, "over")


def _second_operator(spot, token, opened, operator):
    """An operator is outside of parentheses, or next to another one."""
    if not opened and _open_count(spot) <= 0:
        text = spot.text.strip()
        alone = sum(spot.text.count(operator) for operator in OPERATORS) == 1
        if text.endswith(")") and text.count(")") > text.count("("):
            return spot.cause(None, "outside", "open_first")
        return spot.cause(None, "outside", "write_whole" if alone and len(text) < 60 else "each_operator",
                          text=f"{text} B" if text.endswith(token) else text)
    left = spot.text[opened.start():spot.at].strip() if opened else ""
    help = "write_left" if 0 < len(left) < 60 else "write_three"
    return spot.cause(None, "second_operator", help, operator=operator, text=left)


def _no_method(spot):
    token = spot.token()
    if token in LEAVES + OPERATORS:
        help = "continues" if token == "forever" else "and_or" if token in LEAVES else "write_operator"
        return spot.cause(None, "no_method", help, text=token if token in BARE_LEAVES else f"{token}(N)")
    return _misspelled(spot, METHODS) or spot.cause(None, "method_missing", "are_methods")


def _no_number(spot):
    if zeros := re.match(r"0[0-9]+", spot.rest):
        return spot.cause(zeros.end(), "zeros", "write", text=shown(zeros[0].lstrip("0") or "0"))
    if spot.token() == ")":
        word = spot.last(2)
        return spot.cause(1, "number_before", "write" if word in NUMBERED_LEAVES else "write_number", text=f"{word}(3)")
    return spot.cause(None, "number_here", "write_digits")


def _no_test(spot, expected):
    token = spot.token()
    if token.isdigit():
        return spot.cause(None, "comparison_before", "compared_with")
    if expected == "comparison" and token in ("_1", "_2", "size") and spot.last() == "(":
        return spot.cause(None, "no_parts", "only_comparison")
    return spot.cause(None, f"test_{expected}", "are_comparisons")


def _no_close(spot):
    token, word = spot.token(), spot.last(3)
    if token in OPERATORS and spot.last(2) in COMPARISONS and re.match(
            r"(?:&&|\|\|) *(?:(?:_[12]|size) *)?[<>=!]", spot.rest):
        return spot.cause(None, "one_comparison", "two_inputs" if token == "||" else "one_by_one")
    if token in OPERATORS or token == ".":
        return spot.cause(None, "close_before", "write_close")
    if token == "," and word in NUMBERED_LEAVES:
        groups = re.match(r"(?:,[0-9]{3})+(?![0-9])", spot.rest)
        written = shown(spot.last() + groups[0].replace(",", "")) if groups else ")"
        return spot.cause(1, "takes_one", "only_exponential", word=word, text=written)
    return spot.cause(None, "close_here", "write_close")


def slip(spot, expected):
    """The Cause of a slip at a Spot, or None. `expected` is what has to follow there."""
    return next(filter(None, _slips(spot, expected)), None)


def _slips(spot, expected):
    """The causes of what other tools and languages write instead of a schedule, each or None."""
    rest, last = spot.rest, spot.last()
    if found := _TEMPLATE.match(rest):
        yield spot.cause(found.end(), "template", "fill")
    yield _cron(spot)
    if last.isdigit() and (found := _EXPONENT.match(rest)):
        value = Fraction(last[:19] + found[1]) * 10**int(found[2])
        is_whole = value.denominator == 1 and value < 2**64
        yield spot.cause(found.end(), "no_exponent", "write" if is_whole else "all_digits", text=value)
    if expected == "number" and (found := _ISO.match(rest)) and len(found[0]) >= 3:
        yield spot.cause(found.end(), "no_unit", in_milliseconds(found[0]))
    if expected == "number" and (found := _NAMED.match(rest)):
        yield _named(spot, found)
    if expected == "close" and rest.startswith(",") and spot.last(5) == "exponential":
        yield spot.cause(1, "two_numbers", "third", first=spot.last(3))
    if last in ("_1", "_2") and (method := spot.last(3)) in METHODS and (found := re.match(r"\._([12])", rest)):
        yield spot.cause(found.end(), "one_level", "write", text=f".map({last}).{method}(_{found[1]}" + (
            ")" if method == "map" else " .."))
    yield _limit_of_time(spot)
    plain = unicodedata.normalize("NFKC", rest[0])
    if rest[0] == ";":
        yield spot.cause(1, "semicolon", "joined")
    if not rest[0].isascii() and len(plain) == 1 and "!" <= plain <= "~":
        yield spot.cause(1, "no_ascii", "write", word=rest[0], text=plain)


def _cron(spot):
    text = spot.text.strip()
    if not (_CRON.fullmatch(spot.text) or _CRON_NAME.match(text)):
        return None
    minutes = re.fullmatch(r"\*/([0-9]{1,4}) \* \* \* \*", text)
    period = int(minutes[1]) * 60000 if minutes else TABLE["periods"].get(text)
    return spot.cause(len(spot.rest.rstrip()), "cron", "fixed" if period else "fixed_n", text=period)


def _named(spot, found):
    """The cause of a number with a name."""
    leaf, given = (spot.last(2), []) if spot.last() == "(" else (spot.last(4), [spot.last(2)])
    if leaf not in NUMBERED_LEAVES:
        return spot.cause(found.end(), "no_name", "only", text=found[2])
    if given and found[1].lower() in TABLE["caps"]:
        return spot.cause(found.end(), "no_name", "a_cap", word=leaf, first=given[0], text=found[2])
    numbers = given + re.findall(r"[0-9]+", spot.rest.split(")")[0])
    most = 2 if leaf == "exponential" else 1
    return spot.cause(found.end(), "no_name", "write", text=f"{leaf}({', '.join(numbers[:most])})")


def _limit_of_time(spot):
    found = re.match(r"upTo *\(([^()]*)\)", spot.rest)
    before = spot.text[:spot.at].rstrip(" .")
    if not found or spot.last() != "." or before.count("(") != before.count(")") or len(before) > _LONGEST:
        return None
    time = found[1].strip()
    if not time.isdigit():
        time = next(iter(re.findall("[0-9]+", in_milliseconds(time))), "")
    return spot.cause(len("upTo"), "up_to", "elapsed", first=before, text=time) if time.isdigit() else None


_EXPECTED = {
    "schedule": _no_schedule,
    "more": _no_more,
    "method": _no_method,
    "open": lambda spot: spot.cause(None, "needs", "write", text=TABLE["examples"].get(
        spot.last(), f"{spot.last()}({'< 5' if spot.last() in METHODS else '3'})")),
    "number": _no_number,
    "comparison": lambda spot: _no_test(spot, "comparison"),
    "pick": lambda spot: _no_test(spot, "pick"),
    "function": lambda spot: (spot.cause(None, "number_function", "as_number") if spot.token().isdigit() else
                              _misspelled(spot, ["size", "merge"]) or
                              spot.cause(None, "takes_function", "write_functions")),
    "second": _no_close,
    "close": _no_close,
}
