"""The errors of the library's calls. Their words are the library's; that of a wrong text has the text, a mark below the
fault's byte, and what to write."""
import ctypes
import re
import typing

from .calls import library

OK, DONE, NO_STEP, NO_MEMORY, NO_TERM = 0, 1, 2, 5, 11
OF_TEXTS, WITH_BYTE = [4, 6, *range(11, 17)], [4, 11, 13]
ROOM = SHOWN = 80
# In the order of the grammar.
WORDS = ("forever recurs spaced fixed exponential fibonacci identity elapsed linear windowed andThenEither whileInput "
         "whileOutput collectAll map resetWhen size merge as").split()


class Fault(ValueError):
    """A call failed. `number` and `at` are those of zsched.h."""

    number: int
    at: int

    def __init__(self, number: int, at: int = 0) -> None:
        super().__init__(fault_text(number, at))
        self.number, self.at = number, at

    def __reduce__(self) -> tuple[typing.Any, ...]:
        return type(self), (self.number, self.at)


class ScheduleFault(Fault):
    """The text `text` is no schedule, or has a list in its output. `number` and `at` are those of zsched.h."""

    text: str

    def __init__(self, text: str, number: int, at: int = 0) -> None:
        super().__init__(number, at)
        self.text, data = text, text.encode()
        begin = max(0, min(at - SHOWN // 2, len(data) - SHOWN))
        shown = "".join(chr(it) if 32 <= it < 127 else "?" for it in data[begin:begin + SHOWN])
        hint = _hint(data, at) if number == NO_TERM else ""
        self.args = f"{self}{hint}\n{shown}" + f"\n{'^':>{at - begin + 1}}" * (number in WITH_BYTE),

    def __reduce__(self) -> tuple[typing.Any, ...]:
        return type(self), (self.text, self.number, self.at)


def _hint(data: bytes, at: int) -> str:
    """Returns what to write at the byte at which a text stops being a schedule, or "" if nothing is known."""
    before, rest = data[:at], data[at:]
    if (found := re.match(rb"&&|\|\||andThenEither", rest)) and before.count(b"(") == before.count(b")"):
        operator = found[0].decode()
        return f': "{operator}" stands in parentheses: (A {operator} B)'
    if re.match(rb"\.[0-9]", rest) and re.search(rb"[0-9]$", before):
        return ": whole milliseconds, without a point"
    if not rest:
        return ": the text ends too early"
    word = re.match("[A-Za-z]*", rest.decode(errors="replace"))[0][:SHOWN]      # type: ignore[index]
    nearest = min(WORDS, key=lambda it: _edits(word, it))
    return f': did you mean "{nearest}"?' if word and 0 < _edits(word, nearest) <= 2 else ""


def _edits(one: str, other: str) -> int:
    """Returns how many letters have to be put in, taken out or changed to make one word the other."""
    row = list(range(len(other) + 1))
    for number, letter in enumerate(one, 1):
        before, row[0] = row[0], number
        for place, its in enumerate(other, 1):
            before, row[place] = row[place], min(row[place] + 1, row[place - 1] + 1, before + (letter != its))
    return row[-1]


def fault_text(number: int, at: int = 0) -> str:
    """Returns the text of a number of zsched.h and its place, or "" if the number is no error."""
    room = ctypes.create_string_buffer(ROOM)
    library().zs_strerror(number, at, room, ROOM)
    return room.value.decode()


def refuse(text: str, number: int, at: int = 0) -> None:
    """Raises the error that a number of zsched.h represents, if it is one."""
    if number <= DONE:
        return
    if number == NO_MEMORY:
        raise MemoryError(f"zsched: {fault_text(number)}")
    raise ScheduleFault(text, number, at) if number in OF_TEXTS else Fault(number, at)
