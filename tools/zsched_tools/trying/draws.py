"""Many draws of a policy. Each is a call of a client of its own, and all are run and certified as those of
zsched-outage."""
import copy
from collections import Counter

from zsched_tools import words
from zsched_tools.attempts import driver_of, entries_of
from zsched_tools.command import Refused
from zsched_tools.outage.certificate import Uncertified
from zsched_tools.outage.command import MOST_PASSES, simulate
from zsched_tools.outage.curve import SHARES, TIMES
from zsched_tools.outage.outcomes import Outcome, always, listed
from zsched_tools.outage.scenario import DEFAULTS, DOWN, FULL, MOST_CLIENTS, SLOW, Scenario, read_world
from zsched_tools.outage.search import Unsettled
from zsched_tools.place import FaultAt, told
from zsched_tools.words import duration

MOST = MOST_CLIENTS
ENDINGS = ["succeeded", "finished", "failed", "cut", "unfinished"]
HEAD = ["", *(f"p{percent}" for percent in SHARES), "greatest"]


def refuse_options(given):
    """Says which options a run of draws doesn't have."""
    if given.draws is None and given.world:
        raise Refused("--world needs --draws N, the number of calls that are drawn")
    if given.draws is None:
        return
    for name in ["over", "svg", "html", "max_end", "max_wait", "max_attempts"]:
        if getattr(given, name):
            why = ": no status depends on what is drawn" if name.startswith("max") else ""
            raise Refused(f"--draws takes no --{name.replace('_', '-')}{why}")
    if given.world and (given.fails or given.then or given.after is not None):
        raise Refused("--world says how attempts end, and so do --fails, --after and --then")


def world_of(given, policy):
    """How the attempts of a policy end, by the options."""
    if not given.world:
        entries = [Outcome(ms, word == "ok", value) for ms, word, value in entries_of(given, policy)]
        return listed(entries) if entries[1:] else always(entries[0])
    try:
        return read_world(given.world.encode())
    except FaultAt as fault:
        raise Refused(*told("--world", given.world, fault.cause)) from None


def drawn(given, zsched, policy, name):
    """The jobs, plans, reports and figures of the draws of a policy. A longer attempt than --attempt fails then."""
    policy, limits = copy.copy(policy), driver_of(given, policy).attempt
    policy.timeout = limits and limits[1]
    outcomes = [world_of(given, policy), *(always(DEFAULTS[it]) for it in (DOWN, SLOW, DOWN))]
    assert len(outcomes) == FULL + 1
    scenario = Scenario(given.until, given.seed, [0] * given.draws, "", [], outcomes, None, {name: (policy, None)},
                        is_usual=True)
    try:
        return simulate(scenario, zsched, name, MOST_PASSES, lambda share, words: None)
    except (Unsettled, Uncertified) as failed:
        raise ChildProcessError(str(failed)) from None


def _rows(figures):
    """The rows of the table: a name, and a number or a time for each share, or None."""
    times = figures.of_calls
    yield "attempts", times.shares("attempts", False, 100)
    for _, which, what in TIMES:
        yield what, times.shares(which, False, 100)
        yield "  if served", times.shares(which, True, 100)


def lines(given, figures):
    """What is drawn, in lines."""
    counts = Counter(figures.endings)
    ended = ", ".join(f"{counts[how]:,} {'ended by the call' if how == 'cut' else how}" + "'s limit" * (how == "cut")
                      for how in ENDINGS if counts[how])
    yield f"{given.draws:,} draw{'s' * (given.draws != 1)} with the seed {given.seed}: {ended}"
    rows = [[what, *("-" if it is None else str(it) if what == "attempts" else duration(it) for it in found)]
            for what, found in _rows(figures)]
    yield from words.table([HEAD, *rows], 1)


def as_object(given, figures):
    """What is drawn, as an object of JSON."""
    keys, times = [*(f"p{percent}" for percent in SHARES), "greatest"], figures.of_calls
    found = {"attempts": times.shares("attempts", False, 100)}
    for key, which, _ in TIMES:
        found |= {key + "_served" * is_served + "_ms": times.shares(which, is_served, 100)
                  for is_served in (False, True)}
    return {"draws": given.draws, "seed": given.seed, "endings": dict(Counter(figures.endings)),
            **{key: dict(zip(keys, it)) for key, it in found.items()}}
