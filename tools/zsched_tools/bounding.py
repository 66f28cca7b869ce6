"""The bounds of a policy for every input, as zsched-bounds prints them: lines of JSON, each shown as text."""
import json
from dataclasses import dataclass, replace
from typing import NamedTuple

from zsched_tools import program
from zsched_tools.command import Refused
from zsched_tools.program import LAST_MOMENT
from zsched_tools.settings import ERRORS
from zsched_tools.words import DAY, duration, plural

# What is known of a policy without limits.
_UNLIMITED = {"most": None, "longest": LAST_MOMENT + 1, "every": None, "total": None, "seen": LAST_MOMENT, "run": None,
              "is_endless": False, "within": None}
# The program's names of the numbers of `Bounds`, after the attempts.
_KEYS = "longest_wait", "every", "total_wait", "steps_seen", "longest_run"
# A time of this length is shown in days, and is no limit of waits that may go on.
_LONG = 1000 * DAY


def rounded(ms):
    """A duration in words, of 1,000 days and more in days, rounded up."""
    return duration(ms) if ms < _LONG else f"{-(-ms // DAY)} d"


class Driver(NamedTuple):
    """What runs a policy: the least and the greatest duration of attempts (None: any), how late an attempt may begin
    after its wait (None: by any time), the longest wait that a service may ask for, and between which percentages of
    its waits it waits (None: as it is drawn). The program looks at this number of steps (None: at its own)."""
    attempt: tuple | None = None
    late: int | None = 0
    asked: int = 0
    wait: tuple | None = None
    steps: int | None = None

    def with_late(self, more):
        """The driver whose attempts begin later by up to so much more."""
        return self._replace(late=None if self.late is None else self.late + more)

    def words(self, of="attempts", is_named=False):
        """What is run, in words, if it isn't any attempt at the end of its wait, or is named."""
        least, most = self.attempt or (None, None)
        long = "" if most is None else f" of at most {duration(most)}" if least == 1 else " of " + " to ".join(
            dict.fromkeys(map(duration, self.attempt)))
        late = " that begin at any later moment" if self.late is None else (
            f" that begin up to {duration(self.late)} late" if self.late else "")
        length = f"up to {duration(self.asked)}" if self.asked < LAST_MOMENT else "any length"
        asked = f" and Retry-After of {length}" if self.asked else ""
        waits = " and waits of {} to {} %".format(*self.wait) if self.wait else ""
        return f"{waits} and {of}{long}{late}{asked}" if long or late or is_named else waits + asked

    def members(self):
        """This as an object of JSON."""
        return {"attempt_ms": self.attempt, "late_ms": self.late, "asked_ms": self.asked, "wait_percent": self.wait}

    def options(self, least, most):
        """Those of the program, for waits between two percentages of the schedule's."""
        given = {"attempt": self.attempt and "{}ms..{}ms".format(*self.attempt),
                 "wait": (least, most) != (100, 100) and f"{least}..{most}%",
                 "late": "any" if self.late is None else self.late and f"{self.late}ms",
                 "asked": self.asked and f"{self.asked}ms", "steps": self.steps and str(self.steps)}
        return [word for name, value in given.items() if value for word in (f"--{name}", value)]


@dataclass
class Bounds:
    """The least and the most attempts until a policy gives up, the longest wait of the evaluated steps, a limit of each
    wait and all waits together in milliseconds, the number of steps that were evaluated, the time from the begin of the
    first attempt to the end of the last, whether attempts have a greatest duration, whether the policy never gives up,
    and whether they are proved. None is an unknown number. `limit` is that of the call, which no other number depends
    on, and `is_cut_inside` says that attempts are no longer since their calls have a limit. `within` has the most
    attempts that begin within a time, and `is_product` says that the most attempts are those of layers, of which
    nothing is proved."""
    least: int
    most: int | None
    longest: int
    every: int | None
    total: int | None
    seen: int
    run: int | None = None
    is_limited: bool = False
    is_endless: bool = False
    is_proved: bool = True
    limit: int | None = None
    is_cut_inside: bool = False
    within: dict | None = None
    is_product: bool = False

    def attempts(self):
        if self.is_endless:
            return "never gives up"
        if self.most is None and self.least > self.seen:
            return f"no end within {plural(self.seen, 'attempt')}"
        if self.most is None:
            return f"{self.least} or more attempts, no proved limit"
        if self.least == self.most:
            return f"{plural(self.most, 'attempt')}, always"
        return f"{self.least} to {self.most} attempts"

    def limits(self):
        """A limit of every wait and one of all waits; None if it limits nothing."""
        most = LAST_MOMENT - 1 if self.most is not None else _LONG - 1
        every = None if self.every is None or self.every > most else self.every
        is_open = self.is_endless or self.most is None and (self.total or 0) > most
        return every, None if every is None or is_open else self.total

    def has_first(self):
        """Whether the evaluated steps have a limit of waits, and later ones have none."""
        return self.every is None and self.longest < _LONG

    def wait(self):
        """A limit of every wait, else of those of the evaluated steps; None if it limits nothing."""
        return self.longest if self.has_first() else self.limits()[0]

    def waits(self):
        """The waits in words. Steps after the evaluated ones may have longer waits."""
        every, total = self.limits()
        if self.has_first():
            return f"first {plural(self.seen, 'wait')} of at most {rounded(self.longest)}"
        if every is None:
            return "waits without a proved limit"
        most = f"waits of at most {rounded(every)}" if every else "no waits"
        return most if total is None or not every else f"{most}, {rounded(total)} in all"

    def cells(self):
        """The attempts, a limit of every wait and all waits as cells of a table. A dash is an unknown limit."""
        attempts = "no end" if self.is_endless else f"{self.least} or more" if self.most is None else (
            f"{self.least} to {self.most}" if self.most != self.least else str(self.most))
        return attempts, *("–" if wait is None else rounded(wait) for wait in self.limits())

    def call(self):
        """The time of the whole call; None if it has no limit that a plan has time for."""
        return None if self.run is None or self.run > LAST_MOMENT else self.run

    def latest(self):
        """The latest end of the whole call, and whether it holds only since a call has a limit, where that is cut."""
        found = self.call()
        is_cut = self.limit is not None and (found is None or found > self.limit)
        return self.limit if is_cut else found, is_cut or self.is_cut_inside and found is not None

    def end(self):
        """The end of the whole call in words. Nothing is said if there is none, or if attempts may take any time."""
        latest, is_cut = self.latest()
        if is_cut:
            return f"; ends within {rounded(latest)} by the call's limit"
        if not self.is_limited or self.is_endless:
            return ""
        return "; no proved end" if latest is None else f"; ends within {rounded(latest)}"

    def line(self):
        if self.least == 1 and self.most is None and self.longest > LAST_MOMENT and not self.is_endless:
            return f"nothing is proved{self.end()}"
        without = ", both without the call's limit" if self.latest() == (self.limit, True) else ""
        return f"{self.attempts()}; {self.waits()}{without}{self.end()}"


def mark(*bounds):
    """What is before each line that says something for every input."""
    return "" if all(it.is_proved and not it.is_product for it in bounds) else "unproved: "


def of_policies(path, policies, drivers, within=None):
    """The bounds of each Policy with its Driver, for every draw if it is random, and the attempts within a time."""
    if drawn := [it for it, driver in zip(policies, drivers) if driver.wait and (it.is_drawn or it.jitter)]:
        raise Refused(f"--wait is for policies whose waits aren't drawn, and those of {drawn[0].text} are")
    asked, groups = [(it.driven(), driver.with_late(it.late)) for it, driver in zip(policies, drivers)], {}
    for driven, driver in asked:
        if driven:
            groups.setdefault((driver, driver.wait or driven[1]), []).append(driven[0])
    found = {key: iter(run(path, group, *key, within=within)) for key, group in groups.items()}
    bounds = [next(found[driver, driver.wait or driven[1]]) if driven else Bounds(1, **_UNLIMITED)
              for driven, driver in asked]
    bounds = [replace(it, is_proved=it.is_proved and not policy.is_argued, limit=policy.deadline,
                      least=1 if ERRORS in policy.left_out else it.least,
                      is_endless=it.is_endless and ERRORS not in policy.left_out)
              for policy, it in zip(policies, bounds)]
    return [replace(it, **_UNLIMITED) if policy.is_cut else it for policy, it in zip(policies, bounds)]


def run(path, policies, driver=Driver(), waits=(100, 100), by=program.run, within=None):
    """The bounds of each policy by the program at this path, for a driver whose waits are between two percentages of
    the policy's. `by` runs the program, as program.run does."""
    given = "".join(f"{policy}\n" for policy in policies).encode()
    options = [*driver.options(*waits), *([] if within is None else ["--within", f"{within}ms"])]
    status, printed, errors = by(path, given, options=options)
    if status:
        raise ChildProcessError(program.failure(status, errors, "zsched-bounds"))
    lines = printed.splitlines()
    if len(lines) != len(policies):
        raise ChildProcessError(f"{path} printed {plural(len(lines), 'line')} for {len(policies)} policies")
    is_proved = program.is_proved(path)
    try:
        return [_read(json.loads(line), is_proved) for line in lines]
    except (ValueError, LookupError, TypeError):
        raise ChildProcessError(f"{path} printed a line without bounds") from None


def _read(line, is_proved):
    return Bounds(*line["attempts"].values(), *(line[key] for key in _KEYS), line["attempt"]["most"] is not None,
                  line["never_gives_up"], is_proved, within=line["within"])
