"""What a policy does, in words: a line for each part of its term, and which parts never act, by zsched-bounds."""
import itertools
import re
from dataclasses import replace
from typing import NamedTuple

from zsched_tools import bounding, schedule_rules
from zsched_tools.drawn import HIGH, every
from zsched_tools.settings import WORDS, value_text
from zsched_tools.words import duration, plural

_COUNT, _INPUT = ("the number of retries", False), ("the value or error code", False)
_WAITS = {"exponential": (0, 1, 2), "fibonacci": (1, 1, 2, 3), "linear": (1, 2, 3)}
_COMPARED = {"<": "less than ", "<=": "at most ", "=": "", "!=": "not ", ">": "more than ", ">=": "at least "}
_OPERATORS = {"&&": "both, at the later moment, until one is done",
              "||": "either, at the earlier moment, until both are done",
              "andThenEither": "one, and when it is done the other"}


class Term(NamedTuple):
    """A part of a schedule: its canonical spelling, its last token, what it does, what its output is (words, and
    whether it is a time; or the outputs of a pair), and its parts."""
    text: str
    word: str
    does: str
    out: tuple
    parts: tuple = ()

    def all(self, depth=0, is_read=False, is_below=False):
        """Each part with its depth, whether another one reads its output, and whether it is below `||`: there it may be
        stepped before its own next moment, and after it was done."""
        yield self, depth, is_read, is_below
        reads = is_read or re.match(r"\.(whileOutput|resetWhen|map|collectAll)", self.word) is not None
        for part in self.parts:
            yield from part.all(depth + 1, reads, is_below or self.word == "||")

    def never_waits(self, longer):
        """Whether it always continues at once, if times are added to the waits of these schedules."""
        return not re.search("spaced|fixed|windowed|exponential|fibonacci|linear", self.text) and not any(
            it in self.text for it in longer)


def _leaf(piece):
    numbers = [int(it[0]) for it in piece.arguments if it[0].isdigit()] + [2] * (
        piece.word == "exponential" and len(piece.arguments) == 1)
    word, first = piece.word, numbers[0] if numbers else 0
    shown = f"{word}({', '.join(map(str, numbers))})" if numbers else word
    if word in _WAITS:
        waits = [first * (numbers[1]**it if word == "exponential" else it) for it in _WAITS[word]]
        return Term(shown, shown, f"again after {', '.join(map(duration, waits))} ..", (f"the wait of {shown}", True))
    does = {"recurs": f"again at once, {plural(first, 'time')}", "spaced": f"again after {duration(first)}",
            "windowed": f"again at the next multiple of {duration(first)} since the first attempt ended"}
    does["fixed"] = f"{does['windowed']}, at once if it is late"
    does |= dict.fromkeys(["forever", "identity", "elapsed"], "again at once, without end")
    out = {"identity": _INPUT, "elapsed": ("the time since the first attempt ended", True)}.get(word, _COUNT)
    return Term(shown, shown, does[word], out)


def _joined(operator, *parts):
    out = ("the output of one of both", False) if operator == "andThenEither" else tuple(it.out for it in parts)
    return Term(f"({parts[0].text} {operator} {parts[1].text})", operator, _OPERATORS[operator], out, parts)


def _behind(piece, part):
    words = [it[0] for it in piece.arguments]
    word = f".{piece.word}" + (f"({' '.join(words)})" if words else "")
    is_pick, out = words[:1] in (["_1"], ["_2"]), part.out
    if is_pick:
        out = out[int(words[0][1]) - 1] if isinstance(out[0], tuple) else ("a part of its output", False)
    what, is_time = out if isinstance(out[0], str) else ("its output", False)
    if piece.word == "collectAll" or words[0] == "size":
        what, is_time = "the number of outputs before", False
    if piece.word in ("map", "collectAll"):
        out = out if is_pick or words == ["merge"] else (what if piece.word == "collectAll" else "a number", False)
        return Term(part.text + word, word, "the same, with another output", out, (part,))
    number = duration(int(words[-1])) if is_time else words[-1]
    what = _INPUT[0] if piece.word == "whileInput" else what
    does = "from the start again when" if piece.word == "resetWhen" else "as long as"
    return Term(part.text + word, word, f"{does} {what} is {_COMPARED[words[-2]]}{number}", part.out, (part,))


def _folded(text): return schedule_rules.folded(text, _leaf, _joined, _behind)


def _stays_done(text):
    """Whether a schedule that was done is done at each step after: what its tests read never falls, and has limits."""
    return not re.search(r"whileInput|resetWhen|(?<!<)=|[!>]|(identity|merge).*whileOutput", text)


def _never_acts(term, is_below, found, longer):
    """The numbers of the parts of a term of which bounds show that they never act; -1 is its own test. Bounds say when
    a part is done first, if it isn't stepped before its next moment. Then its `elapsed` is known."""
    bounds = [found[it.text] for it in (*term.parts, term)]
    is_known = "elapsed" not in term.text or not is_below and term.word != "||"
    if term.word.startswith(".while") and is_known and bounds[1].least == bounds[0].most and (
            not is_below or _stays_done(term.parts[0].text)):
        yield -1
    for number in (0, 1) if len(term.parts) == 2 else ():
        (part, rest), (mine, other) = term.parts[::1 - 2 * number], (bounds[number], bounds[1 - number])
        is_last = is_known and other.most is not None and mine.least >= other.most and (
            not is_below or _stays_done(rest.text))
        is_first = is_known and mine.most is not None and mine.most <= other.least and _stays_done(part.text)
        if (term.word == "&&" and part.never_waits(longer) and (mine.is_endless or is_last)
                or term.word == "||" and rest.never_waits(longer) and (other.is_endless or is_first)
                or term.word == "andThenEither" and number == 1 and other.is_endless):
            yield number


def _is_drawn_otherwise(piece):
    """Whether a piece isn't the schedule whose waits are drawn, but a form that has draws."""
    return piece.draw and re.match("rand|decorrelated", piece.spelled)


def term_of(policy):
    """The term of a policy, with the greatest draws of what isn't a schedule of its own."""
    text = "".join(it.draw(HIGH(0), None) if _is_drawn_otherwise(it) else "" if it.draw == "" else it.spelled
                   for it in policy.pieces)
    return _folded(text)


def idle_parts(policy, term, path):
    """The parts that never act, each with the part around it: a test is its own. Where nothing is known of a policy but
    its form, or a part whose waits are drawn could begin again after it was done, that says what has no end."""
    found, driven = dict.fromkeys(it.text for it, *_ in term.all()), policy.driven()
    bounds = bounding.run(path, found, waits=driven[1] if driven else (100, 100))
    jittered = [] if policy.is_whole else [it for it in policy.pieces if it.draw and not _is_drawn_otherwise(it)]
    if driven is None or policy.is_cut or "||" in term.text and not all(_stays_done(it.spelled) for it in jittered):
        bounds = [replace(it, least=1, most=None) for it in bounds]
    found, longer = dict(zip(found, bounds)), [_folded(it.spelled).text for it in jittered if it.more]
    for it, _, is_read, is_below in term.all():
        for number in itertools.islice(_never_acts(it, is_below, found, longer), 1):
            if number < 0 or not is_read or it.word == "andThenEither":
                yield it if number < 0 else it.parts[number], it


def explained(policy, path, driver=None, bounds=None):
    """The lines of a policy that the program has read; with the path of zsched-bounds also what never acts, and its
    bounds with what runs it."""
    term = term_of(policy)
    yield term.text
    yield from (f"each wait is drawn:{it.spelled}" for it in policy.pieces if it.draw == "")
    yield from (f"{what}: {value_text(word, value)}" for word, (name, what) in WORDS.items()
                if (value := getattr(policy, name)))
    if path is not None:
        yield f"{bounding.mark(bounds)}{every([policy])}{driver.words()}: {bounds.line()}"
    idle = [(it, it is not around and it.parts) for it, around in idle_parts(policy, term, path)] if path else []
    widest = max(2 * depth + len(it.word) for it, depth, *_ in term.all())
    yield ""
    for it, depth, *_ in term.all():
        never = [": never acts as a whole" if is_whole else ": never acts" for part, is_whole in idle if part is it]
        yield f"{'  ' * depth + it.word:{widest}}  {it.does}{max(never, default='', key=len)}"
