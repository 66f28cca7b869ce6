"""Durations as people write them: 40, 40ms, 1.5s, 1h30m, PT5S, and what `duration` prints."""
import argparse
import re
from fractions import Fraction

from zsched_tools.hints import TABLE, said

# How many milliseconds a unit has.
UNITS = {unit: Fraction(length, 10**6) for length, units in TABLE["nanoseconds"] for unit in units.split()}
_PART = re.compile(r"([0-9]{1,30}(?:\.[0-9]{1,30})?|\.[0-9]{1,9})[ .]*+([A-Za-zµ]+)")


def exact_milliseconds(text):
    """The milliseconds of a duration's text, as '10s', '1.5', '2 minutes', '1h30m' or 'PT5S': a Fraction, or None."""
    text = text.strip()
    if len(text) > 100:
        return None
    if re.fullmatch(r"[0-9]{1,30}(\.[0-9]{1,30})?", text):
        return Fraction(text)
    if re.fullmatch(r"P([0-9]+D)?(T.+)?", text):
        text = text[1:].replace("T", "")
    parts = _PART.findall(text)
    units = [unit if unit in UNITS else unit.lower() for _, unit in parts]
    if not parts or "".join(_PART.split(text)[::3]).strip() or not set(units) <= set(UNITS):
        return None
    return sum((Fraction(count) * UNITS[unit] for (count, _), unit in zip(parts, units)), Fraction(0))


def in_milliseconds(text):
    """What to write for the text of a duration, or an empty text."""
    if (length := exact_milliseconds(text)) is None:
        return ""
    return said("in_ms", text=length) if length.denominator == 1 else said("smallest")


def milliseconds(text):
    """The milliseconds of a duration. A ValueError has the text of the fault."""
    if (exact := exact_milliseconds(text)) is None:
        raise ValueError(said("no_duration", text=text.strip()))
    if exact.denominator != 1:
        raise ValueError(said("no_whole", text=text.strip()))
    return int(exact)


def duration_argument(word):
    """The milliseconds of a duration or a moment of the command line."""
    try:
        return milliseconds(word)
    except ValueError as fault:
        raise argparse.ArgumentTypeError(str(fault)) from None
