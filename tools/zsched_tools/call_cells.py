"""The cells of a log of calls: moments, lengths of time, and statuses.

Moments and lengths are whole nanoseconds of 63 bits. A cell that isn't understood is an error with its row and
column."""
import datetime
import functools
import re
from decimal import Decimal
from typing import NamedTuple

from zsched_tools.command import Refused
from zsched_tools.durations import exact_milliseconds
from zsched_tools.hints import TABLE
from zsched_tools.words import shown

UNITS = {"ns": Decimal(1), "us": Decimal(1000), "ms": Decimal(10**6), "s": Decimal(10**9)}
MOST_CODE = 2**64 - 1
MOST_NANOSECONDS = 2**63 - 1
_LONG_UNITS = {"ms": "ms millis milliseconds", "s": "s sec secs seconds", "us": "us micros microseconds",
               "ns": "ns nano nanos nanoseconds"}
_UNIT_OF = {word: unit for unit, words in _LONG_UNITS.items() for word in words.split()}
_UNIT = re.compile(rf"(.+?)(?:_unix|_epoch)?_({'|'.join(_UNIT_OF)})")
_NUMBER = re.compile(r"[0-9]{1,20}(?:\.[0-9]{1,12})?")
_DATE = re.compile(r"([0-9]{4}-[0-9]{2}-[0-9]{2})[Tt ]([0-9]{2}:[0-9]{2}:[0-9]{2})(?:[.,]([0-9]{1,9}))?"
                   r"(?: ?(Z|z|[+-][0-9]{2}:?[0-9]{2}))?")
_STATUS = re.compile(r"(?:(ok|err|error) )?([0-9]{1,20})(?: [a-z' -]+)?", re.IGNORECASE)
_OK = {"ok", "success", "succeeded", "true", "unset"}
_ERRORS = {"error", "err", "fail", "failed", "failure", "false", "timeout", "timed out", "timedout", "canceled", "-",
           "no response", "reset", "refused", "aborted by the client"}
_GRPC = [code.lower() for code in TABLE["grpc"]]
# Below the first, a moment counts from the log's own begin; the others are the least of each unit since 1970.
_EPOCHS = [(10**17, "ns", "epoch nanoseconds"), (10**14, "us", "epoch microseconds"),
           (10**11, "ms", "epoch milliseconds"), (10**8, "s", "epoch seconds")]


class Column(NamedTuple):
    """A column: its number, its name in the log, its unit, which may be a part of the name, and the log's path and the
    word before the number of a row."""
    number: int
    name: str
    unit: str | None
    path: str
    word: str

    def refused(self, row, what):
        return Refused(f"{self.path}:{self.word}{row}: column {shown(self.name)}: {what}")


def plain_name(name):
    """A column's name in small letters, without its unit; and the unit."""
    text = re.sub(r"(?<=[a-z0-9])(?=[A-Z])", "_", name).lower()
    text = re.sub(r"[^a-z0-9]+", "_", text).strip("_")
    found = _UNIT.fullmatch(text)
    return (text, None) if found is None else (found[1], _UNIT_OF[found[2]])


def is_moment(cell):
    """Whether a cell is a moment, and no length of time."""
    return _DATE.fullmatch(cell) is not None or _NUMBER.fullmatch(cell) is not None and Decimal(cell) >= _EPOCHS[-1][0]


class Moments:
    """Reads the cells of a column as moments, all in the form of the first one, which `form` has in words."""

    def __init__(self, column, unit, notes):
        self.column, self.unit, self.notes, self.form = column, column.unit or unit or "ms", notes, None

    def __call__(self, row, cell):
        date, column = _DATE.fullmatch(cell), self.column
        if date is None and not _NUMBER.fullmatch(cell):
            raise column.refused(row, f'"{shown(cell)}" is not a moment: write 2026-11-26T10:00:00.250Z, '
                                      "1764151200.25 or 1764151200250")
        unit, form = self._unit_of(Decimal(cell)) if date is None else ("", "RFC 3339")
        self.form = self.form or form
        if form != self.form:
            raise column.refused(row, f'"{shown(cell)}" is read as {form}, and the first row as {self.form}')
        if date is None:
            found = int(Decimal(cell) * UNITS[unit])
        else:
            day, time, fraction, zone = date.groups()
            if zone is None:
                self.notes.add("zone", row, f"column {shown(column.name)}: a moment without a zone is taken as UTC")
            try:
                found = _seconds(f"{day}T{time}{(zone or 'Z').upper()}") * 10**9 + int((fraction or "0").ljust(9, "0"))
            except ValueError as fault:
                raise column.refused(row, f'"{shown(cell)}" is not a moment: {fault}') from None
        if abs(found) > MOST_NANOSECONDS:
            what = "is after the year 2262" if found > 0 else (
                "is before the year 1678; Go and .NET write 0001-01-01 for a moment that is missing")
            raise column.refused(row, f'"{shown(cell)}" {what}')
        return found

    def _unit_of(self, value):
        """The unit of a moment that is a number, and its form in words."""
        if self.column.unit is None:
            for least, unit, form in _EPOCHS:
                if value >= least:
                    return unit, form
        return self.unit, self.unit


@functools.lru_cache(2**16)
def _seconds(text):
    """The seconds from 1970 to a moment of whole seconds in RFC 3339. ValueError says why there is no such moment."""
    since = datetime.datetime.fromisoformat(text) - datetime.datetime.fromtimestamp(0, datetime.UTC)
    return since // datetime.timedelta(seconds=1)


class Lengths:
    """Reads the cells of a column as lengths of time; those without a unit are in `form`."""

    def __init__(self, column, unit):
        self.column, self.form = column, column.unit or unit or "ms"
        self.read = functools.lru_cache(2**16)(self._read)

    def __call__(self, row, cell):
        found = self.read(cell)
        if isinstance(found, str):
            raise self.column.refused(row, f'"{shown(cell)}" {found}')
        return found

    def _read(self, cell):
        length = None if _NUMBER.fullmatch(cell) else exact_milliseconds(cell)
        if length is None and not _NUMBER.fullmatch(cell):
            return "is not a length of time: write 24 or 24.11"
        found = int(Decimal(cell) * UNITS[self.form] if length is None else length * 1_000_000)
        return found if found <= MOST_NANOSECONDS else "is longer than 292 years"


class Statuses:
    """Reads the cells of a column as statuses: whether an attempt succeeded, and its code."""

    def __init__(self, column, errors_from, notes):
        self.column, self.notes, self.known = column, notes, {}
        self.errors_from = 1 if "grpc" in column.name.lower() else errors_from

    def __call__(self, row, cell):
        if cell not in self.known:
            self.known[cell] = self._read(row, cell)
        return self.known[cell]

    def _read(self, row, cell):
        word = cell.lower().removeprefix("status_code_").removeprefix("statuscode.")
        number = _STATUS.fullmatch(word)
        if number is not None and int(number[2]) <= MOST_CODE:
            code = int(number[2])
            if number[1]:
                return number[1] == "ok", code
            if self.errors_from < 100 or code >= 100:
                return code < self.errors_from, code
            if code == 0:
                return False, 0
            raise self.column.refused(row, f"{code} is no status of HTTP: write --errors-from 1 if 0 is a success, as "
                                           "in gRPC")
        if word in _OK:
            return True, 0
        if word not in _GRPC and word not in _ERRORS:
            raise self.column.refused(row, f'"{shown(cell)}" is not a status: write a whole number, ok, error or '
                                           "timeout")
        code = _GRPC.index(word) if word in _GRPC else 0
        self.notes.add(f"status {word}", row, f'status "{shown(cell)}" is read as err {code}')
        return False, code
