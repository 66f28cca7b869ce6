"""Retries by the proved schedules of zsched.

    for attempt in retrying("(exponential(100) && recurs(5))"):
        with attempt:
            value = fetch()

`retrying` really sleeps, and is a decorator too, for functions and coroutines. `retrying(..).bounds(..)` returns how
often and how long it retries at most, for every input. `Schedule` doesn't sleep: pass it when each attempt began and
ended, and the code of its error, and it returns when the next one may begin. These results are proved; the sleeping is
not.

Durations are a timedelta or seconds, and results are a timedelta; only the text of a schedule counts milliseconds.

The library is libzsched.so: the file that the variable ZSCHED_LIBRARY names, else the one in the
folder of this file, else the one that build/make-library made in this tree, else the system's."""
from .budgets import Budget
from .durations import retry_after_of
from .faults import Fault, ScheduleFault
from .journals import GaveUp, Journal, JournalFault
from .retries import DEFAULT, Attempt, Event, Retrying, Statistics, Tried, retrying, testing
from .schedules import Bounds, Schedule, bounds

__all__ = ["DEFAULT", "Attempt", "Bounds", "Budget", "Event", "Fault", "GaveUp", "Journal", "JournalFault", "Retrying",
           "Schedule", "ScheduleFault", "Statistics", "Tried", "bounds", "retry_after_of", "retrying", "testing"]
__version__ = "0.4.0.dev0"
