"""Policies in the words of the tools: schedules with sugar, random numbers, names, and policies of config files.

docs/FORMATS.md has all forms. A schedule has no random numbers, so each draw is a schedule in which its numbers are
written. A source of draws, as `seeded`, gets the number of a random part of the text, and returns the draws of this
part: a function of the number of a wait, and of the least and the greatest number. The waits of `S jitter ..` come from
the program, and must depend on nothing but their number. The first 239 are drawn one by one, and all later ones, which
must be equal, with one draw."""
import functools
import itertools
import re
import string
from fractions import Fraction
from math import ceil, floor
from typing import Callable, NamedTuple

from zsched_tools import hints, program, schedule_rules, settings
from zsched_tools.command import REFUSED, Refused, note
from zsched_tools.durations import milliseconds
from zsched_tools.hints import TABLE
from zsched_tools.place import Cause, FaultAt, told
from zsched_tools.policy import configs, reading, spelling
from zsched_tools.positions import MAX_WHOLE
from zsched_tools.program import LAST_MOMENT
from zsched_tools.reports import attempts_in
from zsched_tools.trials import plain_name, plan_of, waits_between

MOST_DELAYS = 240
MOST_WAITS = 999
_MASK = 2**64 - 1
MOST_NAME = 64
_NAME = re.compile(rf" *([A-Za-z0-9._-]{{1,{MOST_NAME}}}) *: *")
_ANY_NAME = re.compile(r" *([^ :@(){}][^:@(){}]*):")
_LEAVES = ("spaced", "fixed", "windowed", "linear", "fibonacci")
_CALL = re.compile(rf"(?<![A-Za-z])(rand|jitter|delays|decorrelated|exponential|{'|'.join(_LEAVES)})(?![A-Za-z]) *"
                   r"(?:\(([^()]*)\))?")
_TIME = r"[0-9]{1,9}(?:\.[0-9]{1,9})? *[a-z]{1,3}"
_COMPARED = re.compile(rf"(\.(?:whileOutput|resetWhen) *\([^()]*[<>=] *)({_TIME})(?= *\))")
_FORMS = TABLE["draws"]
_PARTS = 2**40
_NUMBER = r"[0-9]{1,9}(?:\.[0-9]{1,9})?"
_PART = rf"(?:[0-9]{{1,9}}/[1-9][0-9]{{0,8}}|{_NUMBER})"
_ADDED = rf"\+({_NUMBER}(?: *+[a-z]{{1,3}})?) *+\.\. *+({_NUMBER}(?: *+(?:%|[a-z]{{1,3}}))?)"
_KIND = re.compile(rf"full|equal|([0-9]{{1,3}}(?:\.[0-9]{{1,9}})?) *+%|{_PART}\.\.{_PART}|{_ADDED}")
_AFTER = re.compile(rf"(?<! ) *+(?<![A-Za-z])jitter ++({_KIND.pattern})(?![A-Za-z0-9/])")
_LIMIT = re.compile(rf"&& *elapsed\.whileOutput\(<=? *+(?:[0-9]++|{_TIME}) *+\) *+\)")
_OF_INPUT = re.compile(r"(.*)\.whileInput\([^()]*\)")
_UNSTEADY = {"elapsed", "fixed", "windowed", "identity", "whileInput"}
_WAITING = re.compile("spaced|fixed|windowed|linear|fibonacci|exponential")
_TESTED = re.compile("while|reset")
# The leaves whose waits grow with their first number, and those of them whose output doesn't.
_SCALED = {"spaced", "linear", "fibonacci", "exponential"}, {"spaced"}


class Piece(NamedTuple):
    """A piece of a policy's text. `spelled` is its text without sugar. `draw` returns that of a draw: it gets a source
    of draws of this part, and the most waits (None: all). It is None if nothing is random, and empty for the words of a
    jitter. `share` has the least and the greatest percentage of each wait of `spelled`, if that is jittered, and `more`
    the longest time that is added to each."""
    at: int
    size: int
    spelled: str
    draw: Callable | str | None = None
    share: tuple | None = None
    more: int = 0


def refuse(at, size, what, help="", **values):
    """Raises the fault at a place of a policy, in the texts with these names."""
    raise FaultAt(Cause(at, size, *(hints.said(it, **values) for it in (what, help))))


# Sources of draws: the least, the greatest, and a text for each draw, by which two policies can be compared.
def LOW(_): return lambda number, least, most: least
def HIGH(_): return lambda number, least, most: most
def RANGES(part): return lambda number, least, most: f"{least}..{most} of {part}.{number}"


def _mixed(number):
    """A step of the generator SplitMix64 from a state: a number of 64 bits."""
    number = number + 0x9E3779B97F4A7C15 & _MASK
    number = (number ^ number >> 30) * 0xBF58476D1CE4E5B9 & _MASK
    number = (number ^ number >> 27) * 0x94D049BB133111EB & _MASK
    return number ^ number >> 31


def seeded(seed, client=0):
    """The draws of a client: each number equally likely, by the seed, the client, the random part and the number of the
    wait alone."""
    head = _mixed(_mixed(seed) + client)

    def of_part(part):
        begin = _mixed(head + part)
        return lambda number, least, most: least + (_mixed(begin + number) * (most - least + 1) >> 64)
    return of_part


class Policy(settings.Policy):
    """A policy's text, read once and drawn any number of times. FaultAt has a fault with its place in the text.
    `zsched` is the program's path (None: the one that is found). `source` is the schedule with its draws. `read` is
    the policy of a file that was read before, whose text is only shown. If `is_undrawn_allowed`, all waits may be
    jittered that depend on more than their number: `undrawn` has a word on which they depend, and the schedule of each
    draw is then the one without draws."""

    def __init__(self, text, zsched=None, read=None, is_undrawn_allowed=False):
        super().__init__()
        self.text, self.zsched, self.is_whole = text, zsched, False
        self.is_undrawn_allowed, self.undrawn = is_undrawn_allowed, None
        try:
            text.encode()
        except UnicodeEncodeError as fault:
            raise FaultAt(Cause(fault.start, 1, "this is not UTF-8")) from None
        found = None if read else _NAME.match(text)
        self.name, self.begin = (found[1], found.end()) if found else ("", 0)
        if not found and (other := _ANY_NAME.match(text)):
            refuse(other.start(1), len(other[1]), "bad_name", "name_as", most=MOST_NAME)
        try:
            given, self.source = ({}, text) if read else settings.take(text[self.begin:])
            if read or self.source.startswith("@"):
                self._take(read or self._of_file())
            vars(self).update(given)
            self.take_mode(given.get("mode"))
            if "on" in given:
                self.left_out.pop(settings.ERRORS, None)
            self._read()
        except FaultAt as fault:
            raise FaultAt(fault.cause._replace(at=self.begin + fault.cause.at)) from None

    def _of_file(self):
        """The policy of a text @FILE#NAME."""
        path, _, name = self.source[1:].partition("#")
        if not path:
            refuse(0, len(self.source), "the name of a file is missing", "write @FILE#NAME")
        return configs.policy_of_file(path, name or None)

    def _take(self, found):
        """Takes the policy of a file. A range of random waits that is drawn isn't left."""
        vars(self).update(vars(found), name=self.name or plain_name(found.name))
        self.source, self.jitter = self.draws or self.waits, None if self.draws else self.jitter

    def _read(self):
        if len(self.source) > reading.LONGEST:
            refuse(0, len(self.source), f"a policy has at most {reading.LONGEST} characters")
        edits = [edit for found in _AFTER.finditer(self.source) for edit in self._jitter(found)]
        inside = {at for edit in edits for at in range(edit.at, edit.at + edit.size)}
        for found in _CALL.finditer(self.source):
            made = _called(found) if found.start() not in inside else None
            edits += [made] if made else []
            edits += [Piece(made.at + made.size, 0, " jitter full", "")] if made and made.share else []
        for found in _COMPARED.finditer(self.source):
            at, size = found.start(2), len(found[2])
            if at not in inside:
                edits.append(Piece(at, size, str(_milliseconds(at, size, found[2]))))
        self.pieces, at = [], 0
        for edit in sorted(edits):
            if edit.at < at:
                refuse(edit.at, edit.size, "one_jitter")
            self.pieces += [Piece(at, edit.at - at, self.source[at:edit.at]), edit]
            at = edit.at + edit.size
        self.pieces.append(Piece(at, len(self.source) - at, self.source[at:]))
        self.spelled = "".join(piece.spelled for piece in self.pieces)
        if self.on:
            before, after = settings.around(self.on)
            self.pieces = [Piece(0, 0, before), *self.pieces, Piece(len(self.source), 0, after)]

    @property
    def is_drawn(self):
        """Whether draws differ."""
        return any(piece.draw for piece in self.pieces)

    def ends(self):
        """The schedules of the least and the greatest waits, whether waits may be shorter than the least, and whether
        others may follow them."""
        return self.schedule(LOW), self.schedule(HIGH), bool(self.jitter), self.is_cut

    @property
    def is_cut(self):
        """Whether the schedule has only the first waits of its config."""
        return "waits" in self.left_out

    def texts(self, source, most=None):
        """The text of each piece with the draws of a source."""
        if self.undrawn:
            return [piece.spelled if piece.draw != "" else "" for piece in self.pieces]
        parts = map(source, itertools.count())
        return [piece.spelled if piece.draw is None else piece.draw and piece.draw(next(parts), most)
                for piece in self.pieces]

    def schedule(self, source, most=None):
        """The schedule with the draws of a source. With `most` it may have only so many of its drawn waits."""
        return "".join(self.texts(source, most))

    def show(self, tool, *parts):
        """Writes to standard error what the text becomes, and what these parts of a tool don't apply of it."""
        if self.waits or self.spelled != self.source:
            note(f"{self.text} is {' '.join(self.spelled.split())}{self.typed()}", tool)
        settings.tell_left_out(tool, self, parts)

    def cause_at(self, source, cause):
        """A cause in the schedule of a draw as one in the policy: a piece with sugar is one place."""
        if self.waits:
            return cause._replace(at=0, size=len(self.text))
        at = cause.at
        for piece, text in zip(self.pieces, self.texts(source)):
            if at < len(text) or piece is self.pieces[-1]:
                is_whole = text != self.source[piece.at:piece.at + piece.size]
                begin = self.begin + piece.at
                return cause._replace(at=begin, size=piece.size) if is_whole else cause._replace(at=begin + at)
            at -= len(text)
        return cause

    def check(self, zsched, source=HIGH):
        """Runs the program on the schedule of a draw. FaultAt has a fault of the schedule."""
        schedule = self.schedule(source)
        status, _, errors = program.report_of(zsched, program.one_job(0, schedule, '{"ms":1,"ok":0}'), 1)
        line = program.failure(status, errors)
        if status == REFUSED:
            raise FaultAt(self.cause_at(source, schedule_rules.any_cause(schedule, line.partition("schedule: ")[2])))
        if status:
            raise OSError(f"{zsched}: {line}")

    def driven(self):
        """A schedule, and two percentages of its waits between which is each wait of every draw; None if none is known.

        If a part alone is drawn, no wait of the whole leaves the percentages up to 100 of that with the greatest draws:
        `&&`, `||` and andThenEither wait as long as one of their parts. What is drawn must have no other effect, on a
        count, on a number beside waits, or on an output that a test reads."""
        if not self.is_drawn:
            return self.schedule(LOW), (0, 100) if self.jitter else (100, 100)
        if self.is_whole or self._is_of_one_share():
            return "".join(it.spelled for it in self.pieces if it.draw != ""), self._around.share
        is_read = re.search(r"(?<!elapsed)\.(whileOutput|resetWhen)", self.spelled) is not None
        low, high = ("".join(it.spelled if it.share and it.share[1] == 100 and not is_read else text
                             for it, text in zip(self.pieces, self.texts(source))) for source in (LOW, HIGH))
        lows = [100, *(it.share[0] for it in self.pieces if it.share)]
        for least, most in zip(*map(schedule_rules.pieces, (low, high))):
            given = [[int(word[0]) for word in it.arguments if word[0].isdigit()] for it in (least, most)]
            if given[0] != given[1]:
                if least.word not in _SCALED[is_read] or given[0][1:] != given[1][1:]:
                    return None
                lows.append(100 * given[0][0] // given[1][0])
        return high, (min(lows), 100)

    def _is_of_one_share(self):
        """Whether all that waits is jittered by one range, and no test reads a wait: then the whole is. For `&&`, `||`
        and andThenEither of a wait and of others of one share, or of 0, give one of these, as without jitter."""
        drawn, others = [it for it in self.pieces if it.draw], [it.spelled for it in self.pieces if not it.draw]
        shares = {it.share for it in drawn}
        return len(shares) == 1 and None not in shares and not _WAITING.search("".join(others)) and not any(
            _TESTED.search(it.spelled) for it in drawn)

    @property
    def late(self):
        """The longest time that draws add to each wait of the schedule of `driven`."""
        return self._around.more if self.is_whole else 0

    @property
    def _around(self):
        """The piece of a jitter around the whole schedule."""
        return next(it for it in self.pieces if it.share)

    @property
    def is_argued(self):
        """Whether what holds for every draw isn't proved: if a part alone is drawn, by what `driven` says of it."""
        return self.is_drawn and not (self.is_whole or self._is_of_one_share()) and self.driven() is not None

    @functools.cached_property
    def _closing(self):
        """The place of the closing parenthesis of each opening one."""
        opened, found = [], {}
        for mark in re.finditer("[()]", self.source):
            if mark[0] == "(":
                opened.append(mark.start())
            elif opened:
                found[opened.pop()] = mark.start()
        return found

    def _unlimited(self, begin, end):
        """The ends of a schedule at these places without its limit of time, if it has one."""
        at = self.source.rfind("&&", begin, end)
        if self._closing.get(begin) != end - 1 or at < 0 or not _LIMIT.fullmatch(self.source, at, end):
            return begin, end
        inner = self.source[begin + 1:at]
        return at - len(inner.lstrip(" ")), at - len(inner) + len(inner.rstrip(" "))

    def _jitter(self, found):
        """The pieces of a jitter: the schedule before it, and its words."""
        begin, end = _operand(self.source, found.start()), found.start()
        self.is_whole = not (self.source[:begin] + self.source[found.end():]).strip()
        # A schedule has no more levels than these.
        for _ in range(schedule_rules.MAX_DEPTH):
            inner = _OF_INPUT.fullmatch(self.source, begin, end)
            begin, end = inner.span(1) if inner else self._unlimited(begin, end)
        if begin == end:
            refuse(found.start(), len(found[0]), "jitter_follows", "a_jitter")
        inner = Policy(self.source[begin:end], self.zsched)
        unsteady = _UNSTEADY & set(re.findall("[A-Za-z]+", inner.spelled))
        if inner.is_drawn:
            refuse(begin, end - begin, "drawn_already", "or_rand")
        if unsteady and not (self.is_whole and self.is_undrawn_allowed):
            refuse(begin, end - begin, "depend", "without", text=min(unsteady))
        self.undrawn = min(unsteady, default=None)
        ends = _ends(found)
        if not 0 <= ends.least <= ends.most or ends.more > ends.most_more:
            refuse(found.start(), len(found[0]), "least_wait", "percent")
        word = Piece(found.start(), len(found[0]), found[0], "")
        share = None if ends.most_more and not self.is_whole else (floor(100 * ends.least), ceil(100 * ends.most))
        made = functools.cache(lambda: _jittered(self.zsched or program.find(), inner, begin, ends))
        return word, Piece(begin, end - begin, inner.spelled, lambda *draw: _filled(*made(), *draw), share,
                           ends.most_more)


def policies_of(text, zsched=None, is_undrawn_allowed=False):
    """The Policy of a text, or each of @FILE#*, with the settings that follow. FaultAt has a fault."""
    given, source = settings.take(text)
    path = source[1:].removesuffix(f"#{configs.EACH}")
    if not source.startswith("@") or path == source[1:]:
        return [Policy(text, zsched, None, is_undrawn_allowed)]
    found = configs.each_of_file(path)
    for it in found:
        vars(it).update(given)
        if "on" in given:
            it.left_out.pop(settings.ERRORS, None)
    return [Policy(f"@{path}#{it.name}{text[len(source):]}", zsched, it, is_undrawn_allowed) for it in found]


class Ends(NamedTuple):
    """Between what a wait is drawn: parts of it, and times that are added to these, in milliseconds."""
    least: Fraction
    most: Fraction
    more: int = 0
    most_more: int = 0


def _ends(found):
    """The Ends of the words of a jitter. FaultAt has a fault."""
    word, around, low, high = found.groups()
    if around:
        return Ends(1 - Fraction(around) / 100, 1 + Fraction(around) / 100)
    if low is None:
        return Ends(*map(Fraction, {"full": "0..1", "equal": "1/2..1"}.get(word, word).split("..")))
    if high.endswith("%") and low.strip()[-1].isdigit():
        return Ends(*(1 + Fraction(it.strip(" %")) / 100 for it in (low, high)))
    times = (_milliseconds(found.start(), len(found[0]), it.strip()) for it in (low, high))
    return Ends(Fraction(1), Fraction(1), *times)


def _operand(text, end):
    """Where the schedule begins that ends here: a leaf or a pair of parentheses, with the methods after it."""
    at = end
    for _ in range(2 * schedule_rules.MAX_DEPTH):
        if not at or not (text[at - 1] == ")" or text[at - 1].isalpha()):
            break
        if text[at - 1] == ")":
            depths = itertools.accumulate((letter == ")") - (letter == "(") for letter in reversed(text[:at]))
            size = next((size for size, depth in enumerate(depths, 1) if depth == 0), 0)
            if not size:
                break
            at -= size
        at = len(text[:at].rstrip(string.ascii_letters))
        if not text[:at].endswith("."):
            break
        at -= 1
    return at


def _called(found):
    """The piece of a call, or None if it is that of a schedule."""
    word, at, size = found[1], found.start(), len(found[0].rstrip())
    texts = [part.strip() for part in (found[2] or "").split(",")]
    if word in _LEAVES:
        is_time = len(texts) == 1 and re.fullmatch(_TIME, texts[0])
        return Piece(at, size, f"{word}({_milliseconds(at, size, texts[0])})") if is_time else None
    if word == "exponential":
        is_sugar = re.search("[a-z]", found[2] or "") or any("." in part for part in texts[1:])
        return Piece(at, size, _exponential(at, size, texts)) if is_sugar else None
    if word == "delays":
        waits = [_milliseconds(at, size, part) for part in texts]
        return Piece(at, size, _spelled(at, size, lambda: spelling.listed(waits), len(waits)))
    if word == "jitter" and found.string[:at].rstrip().endswith("."):
        before = found.string[:at].rstrip()[:-1].rstrip()
        part, kind = before[_operand(before, len(before)):], found[2] if _KIND.fullmatch(found[2] or "") else "full"
        refuse(at, size, "jitter_no_method", "write", text=f"{part} jitter {kind}")
    if word == "jitter" and found[2] is None:
        refuse(at, size, "no_jitter", "jitters")
    form, many = _FORMS[word], _FORMS[word].count(",") + 1
    if len(texts) != many or not all(it.isascii() and it.isdigit() and len(it) < 20 for it in texts):
        refuse(at, size, "takes_numbers", "write", word=word, count=many, text=form)
    least, most, count = map(int, [*texts, 1][:3])
    if word == "decorrelated" and 1 <= most <= MOST_DELAYS:
        return Piece(at, size, found[0], lambda *draw: _decorrelated(least, most, *draw))
    count = most if word == "decorrelated" else count
    if word == "rand":
        if least > most:
            refuse(at, size, "falling", "write", text=f"rand({most}, {least})")
        return Piece(at, size, found[0], lambda draw, _: str(draw(0, least, most)))
    if not 1 <= count <= MOST_DELAYS:
        refuse(at, size, "many_draws", "no_more_draws", count=count, most=MOST_DELAYS)
    ranges = [(0, min(most, least << min(number, 64), MAX_WHOLE)) for number in range(count)]
    text = f"((exponential({least}) || spaced({most})) && recurs({count}))"
    return Piece(at, size, text, lambda *draw: _filled((_delay("%s"),) * count, ranges, *draw), (0, 100))


def _milliseconds(at, size, text):
    try:
        return milliseconds(text)
    except ValueError as fault:
        refuse(at, size, str(fault))


def _exponential(at, size, texts):
    """The schedule of an exponential with a fraction, a cap or a number of retries."""
    factor, most, retries = Fraction(2), None, None
    for number, text in enumerate(texts[1:]):
        if found := re.fullmatch(r"max +(.+)", text):
            most = _milliseconds(at, size, found[1])
        elif found := re.fullmatch(r"([0-9]{1,9}) +retr(?:y|ies)", text):
            retries = int(found[1])
        elif number == 0 and re.fullmatch(r"[0-9]{1,9}(\.[0-9]{1,9})?", text):
            factor = Fraction(text)
        else:
            refuse(at, size, "no_exponential", "an_exponential", text=text)
    first = _milliseconds(at, size, texts[0])
    return _spelled(at, size, lambda: spelling.exponential(first, factor, most), retries, "an_exponential")


def _spelled(at, size, make, retries, help=""):
    """The schedule of the waits that `make` returns, which must have room for all."""
    try:
        text, left_out = spelling.spelled(make(), retries)
    except ValueError as fault:
        refuse(at, size, str(fault), help)
    if left_out:
        refuse(at, size, "no_room" if retries else "no_endless", "write_max", most=spelling.MOST_PIECES)
    return text


@functools.cache
def waits_of(zsched, schedule):
    """At most MOST_WAITS first waits of a schedule by the program, and whether these are all. FaultAt has a fault."""
    script = [(1, "err", 0)] * MOST_WAITS + [(1, "ok", 0)]
    plan = plan_of(LAST_MOMENT, [("job", schedule, script, "retry")])
    status, report, errors = program.report_of(zsched, plan.encode(), 1)
    line = program.failure(status, errors)
    if status == REFUSED:
        raise FaultAt(schedule_rules.any_cause(schedule, line.partition("schedule: ")[2]))
    if status:
        raise ChildProcessError(line)
    return waits_between(attempts_in(report)), b"\nend failed" in report


def _goes_on(text):
    """Whether a schedule that makes MOST_WAITS waits goes on with the last: no test ends it, all counts are over."""
    counts = re.findall(r"recurs *\( *([0-9]+)", text)
    return not re.search("whileOutput|resetWhen", text) and sum(map(int, counts)) < MOST_WAITS - MOST_DELAYS


def _jittered(zsched, inner, at, ends):
    """The schedule of an inner policy, whose place is `at`, with a place for each wait that is drawn between its Ends,
    and the least and the greatest of each draw."""
    try:
        waits, is_all = waits_of(zsched, inner.spelled)
    except FaultAt as fault:
        cause = inner.cause_at(HIGH, fault.cause)
        raise FaultAt(cause._replace(at=at + cause.at)) from None
    is_endless = not is_all and _goes_on(inner.spelled)
    room = MOST_DELAYS if is_all and len(waits) <= MOST_DELAYS else MOST_DELAYS - 1
    if len(set(waits[room:])) > 1 or (len(waits) == MOST_WAITS and not is_endless):
        refuse(at, len(inner.text), "many_waits", "fewer", most=MOST_DELAYS)
    tail = [] if is_all and not waits[room:] else [_delay("%s", len(waits) - room) if is_all else "spaced(%s)"]
    terms = (_delay("%s"),) * len(waits[:room]) + (*tail,)
    waits = waits[:room] + (waits[-1:] or [MAX_WHOLE]) * len(tail)
    greatest = [min(floor(wait * ends.most) + ends.most_more, MAX_WHOLE) for wait in waits]
    ranges = [(min(ceil(wait * ends.least) + ends.more, most), most) for wait, most in zip(waits, greatest)]
    return terms or ("recurs(0)",), ranges


def _filled(terms, ranges, draw, most):
    """The first `most` terms (None: all), one after another, with a number of each range in their places."""
    return _one_after_another(terms[:most]) % tuple(draw(number, *it) for number, it in enumerate(ranges[:most]))


def _decorrelated(first, count, draw, most):
    """The waits of Polly's jitter in a draw; of the ends of all draws each wait's least and greatest."""
    waits = parts = [draw(number, 0, _PARTS) for number in range(count)]
    if isinstance(parts[0], str):
        waits = [f"{first} by {part}" for part in parts]
    elif set(parts) == {_PARTS}:
        waits = [spelling.decorrelated(first, it + 1, it - 1) for it in range(count)]
    elif any(parts):
        moments = [number + part / _PARTS for number, part in enumerate(parts)]
        waits = [spelling.decorrelated(first, *it) for it in zip(moments, [0, *moments])]
    waits = [it if isinstance(it, str) else min(spelling.nearest(it), MAX_WHOLE) for it in waits[:most]]
    return _one_after_another(tuple(map(_delay, waits)))


def _delay(wait, count=1):
    return f"(recurs({count})&&spaced({wait}))"


@functools.cache
def _one_after_another(terms):
    """Terms joined by andThenEither, in halves, so that the depth grows with the logarithm of their number."""
    if len(terms) == 1:
        return terms[0]
    first, second = (_one_after_another(part) for part in (terms[:-(len(terms) // 2)], terms[-(len(terms) // 2):]))
    return f"({first}andThenEither{'' if second[0] == '(' else ' '}{second})"


def at_least(schedule, waits):
    """A schedule whose k-th wait is at least the k-th of these. All after the last one are at least that."""
    runs = [(wait, len(list(group))) for wait, group in itertools.groupby(waits[:-1])]
    terms = [("recurs(%s)", (count,)) if not wait else (_delay("%s", "%s"), (count, wait)) for wait, count in runs]
    terms.append(("spaced(%s)", (waits[-1],)) if waits[-1] else ("forever", ()))
    texts, numbers = zip(*terms)
    return f"({schedule} && {_one_after_another(texts) % tuple(itertools.chain(*numbers))})"


def every(policies):
    """What bounds of policies hold for."""
    return "for every draw and input" if any(it.is_drawn or it.jitter for it in policies) else "for every input"


def check_schedule(tool, given):
    """Reads the schedule of a log's jobs, which may have sugar, and runs the program to check it. Returns it. The mode
    of the command line is then that of the schedule, if no option says one."""
    found, text, windows = program.find(given.zsched), given.schedule, getattr(given, "windows", False)
    try:
        policy = Policy(text, found)
        policy.schedule(HIGH)
        policy.take_mode(given.mode)
        given.mode = policy.mode or "retry"
        if policy.on and given.mode == "repeat":
            raise Refused("--schedule: the errors that are retried are of --mode retry")
        if policy.is_drawn and not windows and tool == "zsched-plan":
            raise Refused("--schedule: a plan has no random waits; --windows makes a scenario, which has them")
        if policy.is_drawn and tool == "zsched-follows" and policy.driven() is None:
            raise Refused("--schedule: the waits of this schedule aren't between those of its least and its greatest "
                          "draw")
        policy.show(tool, *(["follows"] if tool == "zsched-follows" else [] if windows else ["plan"]))
        policy.check(found)
    except FaultAt as fault:
        raise Refused(*told("--schedule", text, fault.cause)) from None
    text = policy.source if policy.is_drawn else policy.spelled
    given.schedule = text + policy.typed() if windows else policy.schedule(LOW)
    return policy
