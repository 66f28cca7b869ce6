"""A fault of a text as lines: its place, the cause, the line with a caret below it, and the help."""
import sys
import unicodedata
from typing import NamedTuple

from zsched_tools.words import WIDTH, shown


class Cause(NamedTuple):
    """A fault: its place in the text, its number of characters, what is wrong, and what to write."""
    at: int
    size: int
    what: str
    help: str = ""


class FaultAt(Exception):
    """A text is wrong at a place. `cause` is the Cause, and `number` that of the text among several."""

    def __init__(self, cause, number=0):
        super().__init__(cause.what)
        self.cause, self.number = cause, number


def choose(at, *rows):
    """The cause at a place by the first row that holds, or None. A row: a condition, a size, what is wrong, a help."""
    return next((Cause(at, *rest) for is_so, *rest in rows if is_so), None)


def line_of(text, at):
    """The number of the line of a place, from 1."""
    return text.count("\n", 0, at) + 1


def in_file(name, text, cause):
    """The place of a cause in a file, as FILE:LINE:COLUMN, both counted from 1."""
    begin = text.rfind("\n", 0, cause.at) + 1
    return f"{shown(name, WIDTH)}:{line_of(text, cause.at)}:{cause.at - begin + 1}"


def place_lines(place, text, cause, paint):
    """The lines that show a cause in a text. The first line begins with `place`."""
    number, source, mark = excerpt(text, cause)
    gutter = " " * len(str(number))
    yield f"{place}: {paint('strong', cause.what)}"
    yield f"{gutter} |"
    yield f"{number} | {source}".rstrip()
    yield f"{gutter} | {paint('bad', mark)}".rstrip()
    if cause.help:
        yield f"{gutter} = {paint('help', 'help')}: {cause.help}"


def tell(place, text, cause, paint):
    """Shows a cause in a text on standard error."""
    print(*place_lines(place, text, cause, paint), sep="\n", file=sys.stderr)


def tell_policy(head, text, cause, paint):
    """Shows a cause in a policy of the command line on standard error."""
    tell(f"{head}byte {len(text[:cause.at].encode())}", text, cause, paint)


def told(name, text, cause, job=None):
    """The lines that show the place of a cause in a file's text."""
    lines = list(place_lines(in_file(name, text, cause), text, cause, unpainted))
    if job is not None:
        lines.append(f'{" " * len(str(line_of(text, cause.at)))} = job "{shown(job, 64)}"')
    return lines


def unpainted(_, text):
    return text


def fault_lines(name, found, paint=unpainted):
    """The lines that show the place of an Explained fault."""
    text, cause = found.text, found.cause
    number, source, mark = excerpt(text, cause)
    gutter, bar = " " * len(str(number)), paint("faint", "|")
    row = paint("faint", str(number))
    lines = [f"{gutter}{paint('faint', '-->')} {in_file(name, text, cause)}", f"{gutter} {bar}",
             f"{row} {bar} {source}",
             f"{gutter} {bar} {mark[:-len(mark.lstrip())]}{paint('bad', f'{mark.lstrip()} {cause.what}')}"]
    if cause.help:
        lines.append(f"{gutter} {paint('faint', '=')} {paint('help', 'help')}: {cause.help}")
    if found.name is not None:
        lines.append(f'{gutter} {paint("faint", "=")} job {found.job} is "{shown(found.name, 64)}"')
    return [line.rstrip() for line in lines]


def excerpt(text, cause):
    """The number of a cause's line, the line, cut if it is long, and the caret below it."""
    begin = text.rfind("\n", 0, cause.at) + 1
    end = text.find("\n", cause.at)
    end = len(text) if end < 0 else end
    end -= text[cause.at:end].endswith("\r")
    first = begin if cause.at - begin <= WIDTH * 3 // 4 else cause.at - WIDTH // 2
    last = min(end, first + WIDTH)
    before, after = (shown(part.replace("\t", " "), WIDTH) for part in (text[first:cause.at], text[cause.at:last]))
    if first > begin:
        before = ".. " + before.lstrip()
    source = before + after + (" .." if last < end else "")
    size = max(1, min(cause.size, last - cause.at))
    return line_of(text, cause.at), source, " " * _columns(before) + "^" * max(1, _columns(after[:size]))


def _columns(text):
    """How many columns of a terminal a text takes."""
    wide = sum(unicodedata.east_asian_width(letter) in ("W", "F") for letter in text)
    return len(text) + wide - sum(unicodedata.combining(letter) > 0 for letter in text)
