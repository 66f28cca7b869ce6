"""Schedules without sleep, and their bounds."""
import array
import copy
import ctypes
import datetime
import json
import random
import typing

from .calls import Driver, RunBounds, Turn, library
from .durations import (LARGEST, Duration, duration_of, duration_of_milliseconds, milliseconds, nanoseconds,
                        refuse_outside)
from .faults import DONE, NO_STEP, OK, fault_text, refuse

ROOM = 255


class Bounds(typing.NamedTuple):
    """What a schedule or a loop does for every input.

    The schedule isn't done before the attempt `least`, and no attempt after `most` is made. `longest`
    is the longest wait after the first `seen` attempts, and `total` is all waits together. Each
    attempt ends at most `longest_run` after the begin of the first. None is no bound, or one that no
    timedelta has.

    `most` holds whatever a loop's clock does. The others hold if attempts take as long and begin as late as was said,
    and no moment is above 999999999999999 ms."""
    seen: int
    least: int
    most: int | None
    longest: datetime.timedelta | None
    total: datetime.timedelta | None
    longest_run: datetime.timedelta | None

    def within(self, most: int, total: Duration) -> bool:
        """Returns whether there are at most `most` attempts, and waits of at most `total` together."""
        return self.most is not None and self.most <= most and _is_within(self.total, total)

    def ends_within(self, limit: Duration) -> bool:
        """Returns whether each call ends within a time, attempts and waits together."""
        return _is_within(self.longest_run, limit)


def _is_within(found: datetime.timedelta | None, limit: Duration) -> bool:
    """Returns whether there is a bound, and it is at most a limit."""
    return found is not None and nanoseconds(found) <= nanoseconds(limit)


class Schedule:
    """A schedule, and its state after the steps so far, which has a fixed size.

    So a step takes no longer after many steps than after one. `save` returns the state as a text, and
    `load` continues from there. A copy shares the program, into which the text is compiled once, and
    has a separate state. Threads may make copies at once, but not steps of one schedule."""

    text: str

    def __init__(self, text: str) -> None:
        """Compiles a text, and begins before its first step. Raises ScheduleFault if the text is no schedule, or has
        a list in its output (number 6)."""
        data, size, state_size, at = text.encode(), ctypes.c_size_t(), ctypes.c_size_t(), ctypes.c_uint64()
        refuse(text, library().zs_program_size(data, len(data), size, state_size, at), at.value)
        program, state = array.array("Q", bytes(8 * size.value)), array.array("Q", bytes(8 * state_size.value))
        refuse(text, library().zs_compile(data, len(data), *program.buffer_info(), at), at.value)
        refuse(text, library().zs_program_begin(*program.buffer_info(), *state.buffer_info()))
        # No array changes: a step makes a new state.
        self.text, self._program, self._first, self._state = text, program, state, state

    def __repr__(self) -> str:
        return f"Schedule({self.text!r})"

    @property
    def state(self) -> list[int]:
        """The words of the state. Their number depends only on the text."""
        return list(self._state)

    def begin(self) -> "Schedule":
        """Returns a schedule of the same program before its first step."""
        begun = copy.copy(self)
        begun._state = self._first
        return begun

    def plan(self, began: Duration, ended: Duration, input: int = 0, *, least: Duration = 0, longest: Duration = 3600,
             jitter: float = 0.0, draw: int | None = None) -> datetime.timedelta | None:
        """Makes a step at the end of a failed attempt of a loop. Returns when the next attempt may begin, or None if
        the loop gives up.

        `began`, `ended` and this moment count from the begin of the first attempt, by any clock: below 0 they count as
        0, and a clock that fell counts as one that stood still. `input` is the error's code. `least` is the least wait
        that the service asked for, of which `longest` is honoured. `jitter` is the share of the wait that may be taken
        off, from 0 to 1, in whole percent. `draw`, of 32 bits, is how much of that is taken off; it is random if it is
        None.

        Raises OverflowError if a number isn't from 0 to 2^64 - 1, TypeError if it has another type, and ValueError for
        NaN or a jitter beyond its range. After an error the schedule is unchanged."""
        begin = self._planned(nanoseconds(began), nanoseconds(ended), input, milliseconds(least), milliseconds(longest),
                              jitter, draw)
        return None if begin is None else duration_of(begin)

    def _planned(self, began: int, ended: int, input: int, least: int, longest: int, jitter: float,
                 draw: int | None = None) -> int | None:
        """The same in nanoseconds, and milliseconds for `least` and `longest`."""
        refuse_outside("jitter", jitter, most=1)
        numbers = array.array("Q", [max(0, began), max(0, ended), input, least, longest])
        if draw is None:
            draw = random.getrandbits(32) if jitter else 0
        turn, begin = Turn(*numbers, int(100 * jitter + 0.5), *array.array("I", [draw])), ctypes.c_uint64()
        return self._continued(library().zs_plan, begin, turn, begin)

    def after(self, moment: Duration, input: int = 0) -> datetime.timedelta | None:
        """Makes a step at a moment of the caller's clock. Returns the next moment, or None if the schedule is done.

        Moments count from any start, in whole milliseconds. Raises Fault if the moment is below that of the last step,
        OverflowError if a number isn't from 0 to 2^64 - 1, and TypeError if it has another type. After an error the
        schedule is unchanged."""
        following = self._stepped(nanoseconds(moment) // 1_000_000, input)
        return None if following is None else duration_of_milliseconds(following) or datetime.timedelta.max

    def _stepped(self, moment: int, input: int) -> int | None:
        """The same in milliseconds."""
        numbers, following = array.array("Q", (moment, input)), ctypes.c_uint64()
        return self._continued(library().zs_program_step, following, *numbers, following, ctypes.c_uint64())

    def _continued(self, call: typing.Callable[..., int], following: ctypes.c_uint64,
                   *arguments: typing.Any) -> int | None:
        """Makes a step by a call, which sets `following`. Returns that, or None if the schedule is done."""
        state = self._state[:]
        number = call(*self._program.buffer_info(), *state.buffer_info(), *arguments)
        refuse(self.text, number)
        self._state = state
        return None if number == DONE else following.value

    def output(self) -> str:
        """Returns the text of the last step's output. Raises Fault before the first step."""
        size, out = ctypes.c_size_t(ROOM), ctypes.create_string_buffer(0)
        while size.value >= len(out):
            out = ctypes.create_string_buffer(size.value + 1)
            words = *self._program.buffer_info(), *self._state.buffer_info()
            refuse(self.text, library().zs_output(*words, out, len(out), size))
        return out.value.decode()

    def save(self) -> str:
        """Returns the schedule and its state as a text in JSON."""
        return json.dumps({"schedule": self.text, "state": self.state})

    @classmethod
    def load(cls, saved: str | bytes) -> "Schedule":
        """Returns the schedule and the state that `save` returned.

        Raises ValueError if the text can't be from there, for example with the state of another schedule or of another
        version of the library. Nothing is promised for words that were changed so that these fit."""
        try:
            found = json.loads(saved)
            return cls(found["schedule"])._with_state(found["state"])
        except (KeyError, TypeError, OverflowError, AttributeError, RecursionError) as fault:
            raise ValueError(f"not a saved schedule: {fault!r}") from None

    def _with_state(self, words: list[int]) -> "Schedule":
        """Returns a schedule of the same program that has these words as its state. Raises ValueError if it has no such
        state."""
        begun, out = self.begin(), ctypes.create_string_buffer(0)
        begun._state = array.array("Q", words)
        number = library().zs_output(*begun._program.buffer_info(), *begun._state.buffer_info(), out, 0,
                                     ctypes.c_size_t())
        if len(begun._state) != len(begun._first) or number not in (OK, NO_STEP):
            raise ValueError(f"not a saved schedule: {fault_text(number) or 'more words than its state has'}")
        return begun


def run_bounds(text: str, steps: int, *numbers: int) -> RunBounds:
    """Returns the bounds of a text in the library's units, with a driver of these numbers: the fields of zs_driver.
    Raises ScheduleFault if the text is no schedule, Fault if no driver does this, OverflowError if a number isn't from
    0 to 2^64 - 1, and TypeError if it is no integer."""
    data, found, at = text.encode(), RunBounds(), ctypes.c_uint64()
    steps, *fields = array.array("Q", [steps, *numbers])
    refuse(text, library().zs_bounds(data, len(data), Driver(*fields), steps, found, at), at.value)
    return found


def bounds(text: str, steps: int = 1000) -> Bounds:
    """Returns the Bounds of a text alone, of which at most the first `steps` attempts are examined: attempts take 1 ms
    or more, and begin when they are planned. Those of a loop are its `bounds`.

    Raises ScheduleFault if the text is no schedule, OverflowError if the number isn't from 0 to 2^64 - 1, and TypeError
    if it is no integer."""
    found = run_bounds(text, steps, 1, 0, 0, 100, 100, 0, 0)
    return Bounds(found.seen, found.least, found.most if found.has_most else None,
                  duration_of_milliseconds(found.longest_ms),
                  duration_of_milliseconds(found.total_ms) if found.has_total else None, None)
