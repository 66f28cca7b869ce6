"""The place at which a text stops being JSON, by the rules of the program's reader, which are those of serde_json, and
why, in words: what it has instead of a value, a key, a colon or a comma.

One regular expression matches a run of flat parts. All other parts are read one by one."""
import re

from zsched_tools.durations import UNITS, in_milliseconds
from zsched_tools.place import Cause, FaultAt, choose, line_of
from zsched_tools.positions import COLON, W, Document, maybe, run_of
from zsched_tools.words import shown

MAX_DEPTH = 127

_ESCAPE = (r'\\(?:["\\/bfnrt]|u(?:(?![dD][89a-fA-F])[0-9a-fA-F]{4}'
           r"|[dD][89abAB][0-9a-fA-F]{2}\\u[dD][c-fC-F][0-9a-fA-F]{2}))")
_STRING = r'"[^"\\\x00-\x1f]*+' + run_of(_ESCAPE + r'[^"\\\x00-\x1f]*+') + '"'
# Numbers that a 64-bit float can always hold; the others are converted to check.
_SMALL = (r"(?:[1-9][0-9]{0,199}+|-?(?:0|[1-9][0-9]{0,199}+)" + maybe(r"\.[0-9]++") + maybe("[eE][+-]?[0-9]{1,2}+")
          + r")(?![0-9.eE])")
_SCALAR = f"(?:{_SMALL}|{_STRING}|true|false|null)"
_MEMBER = f"{_STRING}{W}:{W}{_SCALAR}{W}"
# The most usual form of an entry is first, since that is faster.
_PLAIN = rf'"[A-Za-z]*+"{W}:{W}(?:[1-9][0-9]{{0,18}}+|0){W}'
_FLAT = rf"(?:\{{{W}{_PLAIN},{W}{_PLAIN}\}}|{_SCALAR}|\{{{W}{maybe(_MEMBER + run_of(f',{W}{_MEMBER}'))}\}})"

_KEY = re.compile(_STRING)
_ONE_SCALAR = re.compile(_SCALAR)
_NUMBER = re.compile("-?(?:0|[1-9][0-9]*+)" + maybe(r"\.[0-9]++") + maybe("[eE][+-]?[0-9]++"))
_ITEMS = re.compile(run_of(f"{_FLAT}{W},{W}"))
_MEMBERS = re.compile(run_of(f"{_STRING}{W}:{W}{_FLAT}{W},{W}"))
SKETCH = '{"horizon": 60000, "jobs": [ .. ]}'
FROM = "make a plan of policies by zsched-plan from FILE, or "
_WORD = re.compile(r"[A-Za-z_$][A-Za-z0-9_$]*")
_SPACE = " \t\n\r"
_COMMENTS = ("//", "/*", "#")
_CONSTANTS = {"True": "true", "False": "false", "None": "null", "nil": "null", "undefined": "null", "NULL": "null",
              "TRUE": "true", "FALSE": "false"}
_QUOTES = "'`\u201c\u201d\u2018\u2019\u00ab\u00bb"
_CLOSING = {"{": "}", "[": "]"}
# How packed files begin.
_PACKED = {
    b"\x1f\x8b": ("this is a file packed by gzip", "unpack it: zcat plan.json.gz | zsched"),
    b"\x28\xb5\x2f\xfd": ("this is a file packed by zstd", "unpack it: zstdcat plan.json.zst | zsched"),
    b"\xfd7zXZ": ("this is a file packed by xz", "unpack it: xzcat plan.json.xz | zsched"),
    b"PK\x03\x04": ("this is a zip file", "unpack it: unzip -p plan.zip | zsched"),
}
# How other texts begin, what they are, and what to do.
_OTHER_TEXTS = [
    (r"```", "this is Markdown, and a plan is only JSON", "remove the lines that begin with ```"),
    (r"(?i)<(?:!doctype|html)", "this is an HTML page, not a plan", "check the download: perhaps it is an error page"),
    (r"<\?xml", "this is XML, and a plan is JSON", f"write {SKETCH}"),
    (r"job [A-Za-z0-9._-]+ (?:retry|repeat)\n|polls [0-9]+\n", "this is a report of zsched, not a plan",
     "give the plan of this report; zsched-report reads reports"),
    (r"\[\[?[A-Za-z_.]+\]\]?[ \t]*\n|[A-Za-z_]\w*[ \t]*=", "this looks like TOML, and a plan is JSON",
     f"{FROM}write {SKETCH}"),
    (r"\x00+\Z", "this file has only NUL bytes: its content is lost", "restore the plan from a backup"),
    (r"(?:[^\x00]\x00){2}|(?:\x00[^\x00]){2}", "this is UTF-16, not UTF-8", "save the plan as UTF-8"),
]


def fault_of(text):
    """The Cause if a text is not a JSON document, else None."""
    reading = Reading(text)
    begin = reading.skip(0)
    if text.startswith("\ufeff"):
        return Cause(0, 1, "the plan begins with a byte order mark", "save it as UTF-8 without one")
    if begin == len(text):
        return Cause(0, 0, "the plan is empty", f"a plan begins as {SKETCH}")
    try:
        rest = reading.skip(reading.end_of(begin))
    except FaultAt as fault:
        return fault.cause
    return more_text(text, rest) if rest < len(text) else None


class Reading(Document):
    """One pass over a text, with the places of the lists and objects that are open."""

    def __init__(self, text):
        super().__init__(text)
        self.open = []

    def end_of(self, at):
        """The end of the value that begins here. A number may be too large for a float."""
        if self.text[at:at + 1] in ("{", "["):
            return self.end_of_container(at)
        if scalar := _ONE_SCALAR.match(self.text, at):
            return scalar.end()
        if not (number := _NUMBER.match(self.text, at)):
            raise FaultAt(no_value(self, at))
        if float(number[0]) in (float("inf"), float("-inf")):
            raise FaultAt(Cause(at, number.end() - at, "this number is too large for any reader of JSON",
                                "the greatest number of a plan is 18446744073709551615"))
        return number.end()

    def end_of_container(self, at):
        """The end of the list or object that begins here. The run of flat parts at its front is passed at once."""
        text, is_object = self.text, self.text[at] == "{"
        closing, run = ("}", _MEMBERS) if is_object else ("]", _ITEMS)
        if len(self.open) == MAX_DEPTH:
            raise FaultAt(Cause(at, 1, f"this is nested deeper than {MAX_DEPTH}", "a plan has five levels"))
        self.open.append(at)
        here = self.skip(at + 1)
        is_done = text[here:here + 1] == closing
        while not is_done:
            if len(self.open) < MAX_DEPTH:
                here = run.match(text, here).end()
            end = self.end_of(self.behind_key(here) if is_object else here)
            here = self.skip(end)
            is_done = text[here:here + 1] == closing
            if not is_done:
                if text[here:here + 1] != ",":
                    raise FaultAt(no_comma(self, end, here))
                here = self.skip(here + 1)
        self.open.pop()
        return here + 1

    def behind_key(self, at):
        """The place of the value whose key begins here."""
        if not (key := _KEY.match(self.text, at)):
            raise FaultAt(no_key(self, at))
        if not (colon := COLON.match(self.text, key.end())):
            raise FaultAt(no_colon(self, at, key.end()))
        return colon.end()


def other_text(text, at):
    """The cause at the place at which a text stops being JSON, if the whole text is something else, or None."""
    begin, is_braced = text.lstrip(_SPACE)[:4000], text[at - 1:at] == "{"
    return choose(
        at, (re.compile(r"<{7} |={7}$|>{7} ", re.M).match(text, text.rfind("\n", 0, at) + 1), 1,
             "this is a conflict mark of a merge", "remove one side, and the lines <<<<<<<, ======= and >>>>>>>"),
        (re.compile(r"\{[{%]|\$[{(]").match(text, max(0, at - is_braced)), 1,
         "this template isn't filled in", "write the value here: zsched fills in no templates"),
        *((re.match(pattern, begin), 1, what, help) for pattern, what, help in _OTHER_TEXTS))


def no_utf8(data, text, at):
    """The byte at this place of the text isn't UTF-8's."""
    byte, help = data[len(text[:at].encode())], "save the plan as UTF-8"
    return choose(at, (data[:2] in (b"\xff\xfe", b"\xfe\xff"), 1, "this is UTF-16, not UTF-8", help),
                  *((data.startswith(begin), 1, *texts) for begin, texts in _PACKED.items()),
                  (True, 1, f"this byte, {byte:#04x}, is not UTF-8", help))


def more_text(text, at):
    """The document has ended, and more follows."""
    mark, second, more = text[at], "a second document begins here", "the plan has ended, and more follows"
    return choose(
        at, (mark in "}]", 1, f"this {mark} closes nothing", "remove it, or add the bracket that it closes"),
        (mark in "{[" and '"jobs"' not in text[:at] and '"name"' in text[at:at + 4000], 1, second,
         "zsched-population runs a document and jobs in lines"),
        (mark in "{[", 1, second, "a plan is one document, with one list of jobs"),
        (mark == ":" or re.match(r'\s*"?\w+"?\s*:', text), 1, more, f"a plan is an object in braces: {SKETCH}"),
    ) or _comment(text, at) or Cause(at, 1, more, "remove it")


def _comment(text, at):
    """The cause if a comment begins here, else None."""
    end = text.find("\n", at)
    size = (end if end >= 0 else len(text)) - at
    return Cause(at, size, "JSON has no comments", "remove it") if text.startswith(_COMMENTS, at) else None


def no_value(reading, at):
    text, mark = reading.text, reading.text[at:at + 1]
    if not mark:
        return _early_end(reading, at)
    if mark == '"':
        return _bad_string(text, at)
    if not reading.open:
        is_odd = text[at].isspace() or not text[at].isprintable()
        return _comment(text, at) or choose(
            at, (re.compile(r"\w+[ \t]*:").match(text, at), 1, "this looks like YAML, and a plan is JSON",
                 f"{FROM}write {SKETCH}"), (not is_odd, 1, "no plan begins like this", f"a plan begins as {SKETCH}"),
        ) or _odd_letter(text, at)
    if mark in "]},:;=":
        return _missing(reading, at, mark, "value")
    if mark in "+-." or mark.isdigit():
        source = re.compile(r"[+-]?[0-9A-Za-z_.]*(?:(?<=[eE])[+-][0-9]*)?").match(text, at)[0] or text[at]
        is_short = re.fullmatch(r"-?\.[0-9]+", source)
        return choose(at, (source[0] == "+", len(source), "a number has no plus before it",
                           f"write {shown(source[1:])}"),
                      (is_short, len(source), "a number begins with a digit", "a plan has only whole numbers"),
                      (True, len(source), "this is not a number", "write only digits"))
    if mark in _QUOTES:
        return Cause(at, 1, "these aren't JSON's quotes", 'write "')
    word = _WORD.match(text, at)
    return _comment(text, at) or (_bare_word(text, at, word[0]) if word else _odd_letter(text, at))


def _early_end(reading, at):
    help = ""
    if reading.open:
        mark, line = reading.text[reading.open[-1]], line_of(reading.text, reading.open[-1])
        help = f"{_CLOSING[mark]} is missing: the {mark} of line {line} is still open"
    return Cause(at, 0, "the plan ends too early", help)


def _missing(reading, at, mark, part):
    """A value or a key is missing before a mark."""
    text, is_key = reading.text, part == "key"
    before = len(text[:at].rstrip(_SPACE)) - 1
    last = text[before]
    if last == "," and mark in ("}" if is_key else "]}"):
        return Cause(before, 1, f"a comma before {mark}", "remove it: JSON has commas only between parts")
    return choose(at, (last == mark == ",", 1, "a second comma", "remove it"),
                  (mark == "," and is_key, 1, "a comma before the first key", "remove it"),
                  (mark == "," and last == "[", 1, "a comma before the first item", "remove it"),
                  (is_key and mark == "]", 1, "this is ], but a key or a } is expected",
                   f"the {{ of line {line_of(text, reading.open[-1])} is still open"),
                  (is_key or last == ":", 1, f"a {part} is missing before this {mark}"),
                  (True, 1, f"no value begins with {mark}"))


def _bare_word(text, at, word):
    call = re.compile(r"\w+ *\([^\"\n{}\[\]]*\)").match(text, at)
    whole = call[0] if call else word
    return choose(at, (word in _CONSTANTS, len(word), f"JSON has no {word}",
                       f"{_CONSTANTS.get(word)} is JSON's word, but no value of a plan"),
                  (word in ("NaN", "Infinity", "inf", "nan"), len(word), f"JSON has no {word}", "write a whole number"),
                  (True, len(whole), "a text without quotes", f'write "{shown(whole, 60)}"'))


def _odd_letter(text, at):
    letter = text[at]
    return choose(at, (letter.isspace() or not letter.isprintable(), 1,
                       f"the character U+{ord(letter):04X} isn't JSON's white space", "write a space"),
                  (letter == "(", 1, "JSON has no parentheses", "write [ ] or { }; a schedule is a text in quotes"),
                  (True, 1, f"no value begins with {letter}"))


def _bad_string(text, at):
    """A text in quotes that doesn't end, or that has a character that isn't allowed."""
    stop = re.compile(_STRING[:-1]).match(text, at).end()
    mark = text[stop:stop + 1]
    if mark in ("", "\n", "\r"):
        return Cause(at, stop - at, "this text has no quote at its end", 'write " at its end; a text is on one line')
    escape = re.compile(r"\\(?:u[0-9a-fA-F]{0,4}|.?)|", re.S).match(text, stop)[0]
    return choose(stop, (re.fullmatch(r"\\u[dD][89a-fA-F][0-9a-fA-F]{2}", escape), len(escape),
                         f"{escape} is half of a character", "write the character, or both halves"),
                  (escape, len(escape), f"{shown(escape)} is not an escape of JSON", "write \\\\ for a backslash"),
                  (mark == "\t", 1, "a text can't contain a tab", "write a space, or \\t"),
                  (True, 1, f"a text can't contain the character U+{ord(mark):04X}", "remove it"))


def no_key(reading, at):
    text, mark = reading.text, reading.text[at:at + 1]
    if not mark:
        return _early_end(reading, at)
    if mark == '"':
        return _bad_string(text, at)
    if mark in "]},:":
        return _missing(reading, at, mark, "key")
    digits, word = re.compile(r"[0-9]+").match(text, at), _WORD.match(text, at)
    before = re.compile(r"(?<![0-9])[0-9]++,[ ]?$").search(text, max(0, at - 40), at)
    return choose(at, (mark in _QUOTES, 1, "these aren't JSON's quotes", 'write "'),
                  (digits and before, digits and len(digits[0]), "a number in two parts",
                   digits and before and f"write {before[0].rstrip(', ')}{shown(digits[0])}"),
                  (word, word and len(word[0]), "a key without quotes", word and f'write "{shown(word[0])}"'),
                  ) or _comment(text, at) or Cause(at, 1, f"this is {shown(mark)}, but a key in quotes is expected",
                                                   'the parts of an object are written "key": value')


def no_colon(reading, at, end):
    """No colon follows the key from `at` to `end`."""
    text, rest = reading.text, reading.skip(end)
    if not (mark := text[rest:rest + 1]):
        return _early_end(reading, rest)
    if mark == "=":
        return Cause(rest, 1, "this is =, but a colon is expected", "write :")
    if mark in ",}":
        return Cause(at, end - at, "this is only a text, but a key and a value are expected",
                     'the parts of an object are written "key": value')
    is_tail = rest == end and (mark.isalnum() or mark == "_")
    return _tail(text, end) if is_tail else Cause(end, 1, "a colon is missing after this key", "write :")


def no_comma(reading, end, at):
    """The value that ends at `end` is followed by what is at `at`, not by a comma."""
    text, opened, mark = reading.text, reading.open[-1], reading.text[at:at + 1]
    closing, unit = _CLOSING[text[opened]], _WORD.match(text, at)
    if not mark:
        return _early_end(reading, at)
    if mark in "]}":
        return Cause(at, 1, f"this is {mark}, but {closing} is expected",
                     f"the {text[opened]} of line {line_of(text, opened)} is still open: write {closing} before it")
    if at == end and (mark.isalnum() or mark in "._+-") or (
            unit and text[end - 1].isdigit() and unit[0].lower() in UNITS):
        return _tail(text, end)
    return choose(at, (mark == ";", 1, "this is a semicolon, but a comma is expected", "write ,"),
                  (mark == ":" and closing == "]", 1, "a list has a colon", 'write { } around "key": value'),
                  (mark in ":=", 1, f"this {mark} follows a value",
                   "a comma is missing before it, or there is one quote too many")) or choose(
        end, (mark in '"{[-' or mark.isalnum(), 1, "a comma is missing here", "write , after the part that ends here"),
    ) or _comment(text, at) or Cause(at, 1, f"this is {shown(mark)}, but a comma or {closing} is expected")


def _tail(text, end):
    """Letters or digits directly after a number or a word."""
    begin = end
    while begin > 0 and (text[begin - 1].isalnum() or text[begin - 1] in "+-._"):
        begin -= 1
    tail = re.compile(r"[ ]?[\w.+-]+").match(text, end)[0]
    source = text[begin:end] + tail
    if text[end - 1] == '"':
        return Cause(end, len(tail), "this follows the quote that ends a text",
                     'a quote is missing, or there is one too many; inside a text it is written \\"')
    return choose(
        begin, (not text[begin:begin + 1].isdigit() and text[begin:begin + 1] != "-", len(source),
                "a text without quotes", f'write "{shown(source)}"'),
        (re.fullmatch(r"[0-9]+(_[0-9]+)+", source), len(source), "a number can't contain _",
         f"write {shown(source.replace('_', ''))}"),
        (re.fullmatch(r"0[0-9]+", source), len(source), "a number can't begin with 0",
         f"write {shown(source.lstrip('0') or '0')}"),
        (re.fullmatch(r"-?[0-9]+\.", source), len(source), "digits are missing after the point",
         f"write {shown(source[:-1])}"),
        (True, len(source), "letters follow a number", in_milliseconds(source) or "write only digits"))
