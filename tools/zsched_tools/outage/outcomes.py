"""How attempts end in a state of the service: all alike, or each drawn, by the seed, the client and the number of the
attempt alone. docs/FORMATS.md says how."""
from statistics import NormalDist
from typing import NamedTuple

from zsched_tools.drawn import seeded
from zsched_tools.program import LAST_MOMENT, MOST_ENTRIES

# All shares together, in thousandths of a percent.
WHOLE = 100_000
# The random parts of an attempt: whether it fails, which of the outcomes it has, and how long it takes.
FAILS, WHICH, HOW_LONG = range(2**63, 2**63 + 3)
_PARTS = 2**40
_NORMAL = NormalDist()
_P99 = _NORMAL.inv_cdf(0.99)


class Spread(NamedTuple):
    """A log-normal distribution of durations: half of them are at most `p50` ms, 99 of 100 at most `p99`."""
    p50: int
    p99: int

    def duration(self, part):
        """The duration of which `part` of _PARTS are shorter."""
        normal = _NORMAL.inv_cdf((part + 0.5) / _PARTS)
        return min(max(1, round(self.p50 * (self.p99 / self.p50) ** (normal / _P99))), LAST_MOMENT)


class Outcome(NamedTuple):
    """How an attempt ends: after how long, with a value (ok) or an error code, and which least wait it asks for."""
    ms: int
    is_ok: bool
    value: int
    asks: int = 0

    def entry(self):
        return f'{{"ms":{self.ms},"{"ok" if self.is_ok else "err"}":{self.value}}}'


class Choice(NamedTuple):
    """One of the outcomes of a state: those of the draws from 0 up to WHOLE that are below `below`, and not below that
    of the choice before. With a spread its duration is drawn too."""
    below: int
    outcome: Outcome
    spread: Spread | None = None


class Outcomes(NamedTuple):
    """The outcomes of a state. A share `fails` of the attempts ends as if the service were down. If there is a `list`,
    an attempt ends as its number says, and all others as the last."""
    choices: tuple
    fails: int = 0
    list: tuple = ()

    @property
    def only(self):
        """The outcome of all attempts, or None if they differ."""
        is_only = not (self.fails or self.list or self.choices[1:] or self.choices[0].spread)
        return self.choices[0].outcome if is_only else None

    def mapped(self, change):
        """With each outcome as a function changes it; a duration that is drawn isn't that of the outcome."""
        return self._replace(choices=tuple(it._replace(outcome=change(it.outcome)) for it in self.choices))


def always(outcome):
    """The outcomes of a state in which all are alike."""
    return Outcomes((Choice(WHOLE, outcome),))


def listed(outcomes):
    """The outcomes of a state in which attempts end by their numbers."""
    return Outcomes((Choice(WHOLE, outcomes[0]),), list=tuple(outcomes))


def drawn(all_outcomes, state, down, seed, client, number):
    """The outcome of an attempt of a client with its number, from 0, in a state whose outcomes differ. All from the
    last entry of a script on have its draws."""
    number = min(number, MOST_ENTRIES - 1)
    if found := all_outcomes[state].list:
        return found[min(number, len(found) - 1)]
    of_part = seeded(seed, client)
    if (fails := all_outcomes[state].fails) and of_part(FAILS)(number, 0, WHOLE - 1) < fails:
        state = down
    choices, which = all_outcomes[state].choices, 0
    if choices[1:]:
        which = of_part(WHICH)(number, 0, WHOLE - 1)
    found = next(it for it in choices if which < it.below)
    if found.spread:
        return found.outcome._replace(ms=found.spread.duration(of_part(HOW_LONG)(number, 0, _PARTS - 1)))
    return found.outcome
