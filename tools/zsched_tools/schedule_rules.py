"""Why a schedule without faults of spelling is rejected: it is too big, has no kind, or a factor or a window is 0."""
from typing import NamedTuple

from zsched_tools import schedule_text
from zsched_tools.hints import LEAVES, OPERATORS, said
from zsched_tools.place import Cause, FaultAt
from zsched_tools.schedule_text import TOKEN

MAX_DEPTH = 64
MAX_WEIGHT = 1000
NUMBER = ("number",)


class Piece(NamedTuple):
    """A leaf, a method, a parenthesis or an operator, with its arguments."""
    word: str
    at: int
    end: int
    arguments: list


def pieces(text):
    """The pieces of a schedule without faults of spelling, in their order."""
    tokens = TOKEN.finditer(text)
    waiting = next(tokens, None)
    while waiting:
        token, arguments = waiting, []
        waiting = next(tokens, None)
        if token[0] == ".":
            token, waiting = waiting, next(tokens, None)
        end = token.end()
        if token[0].isalpha() and token[0] != "andThenEither" and waiting and waiting[0] == "(":
            waiting = next(tokens)
            while waiting[0] != ")":
                arguments.append(waiting)
                waiting = next(tokens)
            end = waiting.end()
            waiting = next(tokens, None)
        yield Piece(token[0], token.start(), end, arguments)


def folded(text, leaf, joined, behind):
    """The value of a schedule without faults of spelling: `leaf` gives that of a leaf, `joined` that of an operator and
    two values, `behind` that of a method and the value before it."""
    values, operators = [], []
    for piece in pieces(text):
        if piece.word in OPERATORS:
            operators.append(piece.word)
        elif piece.word in LEAVES:
            values.append(leaf(piece))
        elif piece.word == ")":
            right, left = values.pop(), values.pop()
            values.append(joined(operators.pop(), left, right))
        elif piece.word != "(":
            values.append(behind(piece, values.pop()))
    return values.pop()


def cause_of(text, fault):
    """The cause of a schedule's fault that isn't one of spelling, or None."""
    if fault == "too big":
        return _too_big(text)
    if fault == "factor is 0":
        return _zero(text, "exponential", 2, "zero_factor", "factor_one")
    if fault == "window is 0":
        return _zero(text, "windowed", 0, "zero_window", "window_one")
    return _no_kind(text) if fault == "no kind" else None


def any_cause(text, fault):
    """The cause of a schedule's fault, of any kind."""
    whole = Cause(0, len(text), f"the fault is in this schedule: {fault}")
    return schedule_text.cause_of(text, fault) or cause_of(text, fault) or whole


def _zero(text, word, place, what, help):
    """The cause if the argument at this place of a leaf is 0, else None."""
    for piece in pieces(text):
        if piece.word == word and len(piece.arguments) > place and piece.arguments[place][0] == "0":
            return Cause(piece.arguments[place].start(), 1, said(what), said(help))
    return None


def _too_big(text):
    """The cause at the first piece at which the schedule exceeds its limits, or None. The parts so far are in a list,
    as pairs of depth and weight; each open parenthesis adds one level and one part."""
    parts, opened = [], 0
    for piece in pieces(text):
        if piece.word in OPERATORS:
            continue
        if piece.word == "(":
            opened += 1
        elif piece.word in LEAVES:
            parts.append((1, 1))
        elif piece.word == ")":
            (left, left_weight), (right, right_weight) = parts.pop(-2), parts.pop()
            parts.append((1 + max(left, right), 1 + left_weight + right_weight))
            opened -= 1
        else:
            depth, weight = parts.pop()
            parts.append((depth + 1, 1 + (2 if piece.word == "resetWhen" else 1) * weight))
        for total, most, what, help in [(parts[-1][0] if parts else 1, MAX_DEPTH, "deeper", "levels"),
                                        (sum(weight for _, weight in parts), MAX_WEIGHT, "heavier", "weights")]:
            if opened + total > most:
                return Cause(piece.at, piece.end - piece.at, said(what, most=most), said(help))
    return None


def _no_kind(text):
    """The cause at the first pick or function that doesn't fit, or None."""
    try:
        folded(text, lambda _: NUMBER, lambda operator, *parts: (
            "sum" if operator == "andThenEither" else "pair", *parts), _behind)
    except FaultAt as fault:
        return fault.cause
    return None


def _behind(piece, kind):
    """The kind of a schedule of a kind with a method; raises FaultAt."""
    first = piece.arguments[0][0] if piece.arguments else ""
    is_pick, is_tested = first in ("_1", "_2"), piece.word in ("whileOutput", "resetWhen")

    def refuse(is_wrong, what, help, **values):
        if is_wrong:
            values = {"first": first, "kind": said(kind[0]), **values}
            raise FaultAt(Cause(piece.at, piece.end - piece.at, *(said(it, **values) for it in (what, help))))
    if piece.word == "collectAll":
        return ("list", kind)
    if piece.word == "whileInput":
        return kind
    refuse(is_pick and kind[0] != "pair", "part_of", "make_pairs")
    refuse(first == "size" and kind[0] != "list", "size_of", "make_lists")
    part = kind[int(first[1])] if is_pick else kind
    written = f"{piece.word}({' '.join(argument[0] for argument in piece.arguments)})"
    if is_tested:
        refuse(is_pick and part != NUMBER, "part_compared", "reach", kind=said(part[0]))
        is_whole = not is_pick and first != "size"
        refuse(is_whole and kind != NUMBER, "compared", _path(kind, written.replace("(", "({} ")))
        return kind
    if is_pick:
        return part
    refuse(first in ("+", "*") and kind != NUMBER, "function_on", _path(kind, f"map({{}}).{written}"))
    if first != "merge":
        return NUMBER
    refuse(kind[0] != "sum", "part_of", "merge_after")
    refuse(kind[1] != kind[2], "merge_with", "both_sides", kind=said(kind[1][0]), other=said(kind[2][0]))
    return kind[1]


def _path(kind, form):
    """What to write to reach a number in a kind: this form with each pick that gives one."""
    if kind[0] == "sum":
        return "merge_before"
    picks = ["size"] if kind[0] == "list" else [pick for pick, part in zip(("_1", "_2"), kind[1:]) if part == NUMBER]
    return said("write", text=" or ".join(form.format(pick) for pick in picks)) if picks else "map_before"
