"""Durations, numbers, lists and tables as people read them."""
import json
import re
import textwrap

# How wide a line that is shown may be.
WIDTH = 100
MINUTE = 60_000
HOUR = 60 * MINUTE
DAY = 24 * HOUR
_COMMAND, _BEGIN = re.compile(r"#(?=#\w*+\[)"), re.compile(r"\A( *+):(?=:)")
_LONG_UNITS = [(DAY, "d"), (HOUR, "h"), (MINUTE, "min")]


def duration(ms):
    """A duration in words: `0 ms`, `40 ms`, `3.34 s`, `1 min 30 s`, `2 h 0.5 s`. No digit is lost."""
    if ms < 1000:
        return f"{ms} ms"
    parts = []
    for unit, name in _LONG_UNITS:
        if ms >= unit:
            parts.append(f"{ms // unit} {name}")
            ms %= unit
    if ms:
        seconds = f"{ms // 1000}.{ms % 1000:03}".rstrip("0").rstrip(".")
        parts.append(f"{seconds} s")
    return " ".join(parts)


def shown(text, most=40):
    """A piece of a plan in one line: what a terminal can't print becomes a question mark, and a long piece is cut."""
    text = text if len(text) <= most else text[:most - 2] + ".."
    return "".join(letter if letter.isprintable() else "?" for letter in text)


def one_line(text, is_begin=True):
    """A text in one line, as each output has it: what isn't printable is written as JSON's escape, and so is a part of
    what a CI's log reads as a command, `##[` and `##WORD[` anywhere, and `::` where a line begins."""
    if not text.isprintable():
        text = "".join(letter if letter.isprintable() else json.dumps(letter)[1:-1] for letter in text)
    text = _COMMAND.sub(r"\\u0023", text) if "##" in text else text
    return _BEGIN.sub(r"\1\\u003a", text) if is_begin else text


def listed(words, last="and"):
    """Words as a list: 'a, b and c'."""
    return f" {last} ".join([", ".join(words[:-1]), words[-1]] if len(words) > 1 else words)


def plural(number, name):
    """A number with its noun: `1 job`, `2 jobs`."""
    return f"{number} {name}" if number == 1 else f"{number} {name}s"


def ending_text(how, result, widest=30):
    """How a job ended, with its value or output. A long text is cut."""
    return shown(f"{how} {result}" if result else how, widest)


def table(rows, left=3):
    """Lines of a table: the first columns to the left, the others to the right."""
    widths = [max(map(len, column)) for column in zip(*rows)]
    for row in rows:
        cells = [cell.ljust(width) if place < left else cell.rjust(width)
                 for place, (cell, width) in enumerate(zip(row, widths))]
        yield "  ".join(cells).rstrip()


def wrapped(text, width):
    """The lines of a text within a width. A line without indentation continues a paragraph; one with columns is wrapped
    in its last one; other lines, and examples that begin with $, stay as they are."""
    items = []
    for paragraph in text.split("\n\n"):
        items += [(0, "")] if items else []
        last = None
        for line in paragraph.split("\n"):
            columns = None if re.search(r"^ *\$ ", paragraph, re.M) else re.match(r" *(?:- |\S.*? {2,}(?=\S))", line)
            indent = len(line) - len(line.lstrip())
            hang = columns.end() if columns else 0 if indent == 0 and line else None
            if last is not None and columns is None and indent == last:
                items[-1] = last, f"{items[-1][1]} {line.lstrip()}"
            else:
                last = hang
                items.append((hang, line))
    for hang, line in items:
        more = textwrap.wrap(line[hang or 0:], max(width - (hang or 0), 30), break_long_words=False,
                             break_on_hyphens=False) if hang is not None else []
        yield from [line[:hang] + more[0], *(" " * hang + it for it in more[1:])] if more else [line]
