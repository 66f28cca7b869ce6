"""Durations: a timedelta or seconds in, a timedelta out. The library counts nanoseconds and milliseconds."""
import datetime
import email.utils
import math
import re
import time

Duration = datetime.timedelta | float
LARGEST = 2 ** 64 - 1
# Seconds, some 31 years. A longer wait is slept in parts, since Python's sleeps raise OSError for 292 years.
LONGEST = 1e9


def nanoseconds(duration: Duration) -> int:
    """Returns a duration in whole nanoseconds, LARGEST if it is longer. Raises ValueError for NaN, and TypeError for
    what is no duration."""
    if isinstance(duration, datetime.timedelta):
        return min(duration // datetime.timedelta(microseconds=1) * 1000, LARGEST)
    if duration != duration or isinstance(duration, str):
        raise (ValueError if duration != duration else TypeError)(f"zsched: {duration!r} is no duration")
    # A float above this has no whole nanosecond, and infinity no whole number.
    return LARGEST if duration > LARGEST / 1e9 else round(max(duration, -LONGEST) * 1_000_000_000)


def milliseconds(duration: Duration) -> int:
    """Returns a duration in whole milliseconds, rounded up, LARGEST for an infinite one."""
    # First to whole nanoseconds, since 0.07 seconds are a little more than 70 milliseconds.
    return LARGEST if duration == math.inf else -(-nanoseconds(duration) // 1_000_000)


def duration_of(nanoseconds: int) -> datetime.timedelta:
    """Returns nanoseconds, rounded up to microseconds, so that what begins then doesn't begin early."""
    return datetime.timedelta(microseconds=-(-nanoseconds // 1000))


def duration_of_milliseconds(found: int) -> datetime.timedelta | None:
    """Returns milliseconds, or None if they are more than a timedelta has, which is 2.7 million years."""
    try:
        return datetime.timedelta(milliseconds=found)
    except OverflowError:
        return None


def refuse_outside(name: str, given: Duration, least: float = 0, most: float = LONGEST) -> None:
    """Raises ValueError if a number or duration isn't from one to another."""
    number = given.total_seconds() if isinstance(given, datetime.timedelta) else given
    if not least <= number <= most:
        raise ValueError(f"zsched: the {name} {given} is not from {least} to {most:.0f}")


def retry_after_of(header: str | None, now: float | None = None) -> datetime.timedelta | None:
    """Returns the wait that a header Retry-After asks for: whole seconds, or a date of HTTP, from which `now` is
    subtracted, in Unix seconds (the system's by default). Returns None for anything else."""
    text = (header or "").strip()
    try:
        if re.fullmatch("[0-9]+", text):
            return datetime.timedelta(seconds=int(text[-20:]) if len(text) <= 20 else LARGEST)
        date = email.utils.parsedate_to_datetime(text)
    except OverflowError:
        return datetime.timedelta.max
    except (TypeError, ValueError, IndexError):
        return None
    date = date if date.tzinfo else date.replace(tzinfo=datetime.timezone.utc)
    return datetime.timedelta(seconds=max(0.0, date.timestamp() - (time.time() if now is None else now)))
