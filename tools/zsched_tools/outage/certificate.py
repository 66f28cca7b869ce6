"""The certificate of a simulated policy: the program's report of its plan, compared with the scenario.

Each ending, and the begin of each attempt, must be the simulated one, and each attempt of the report must end as the
scenario says for the moment at which it begins. Clients whose scripts a plan has no room for are in no report, and
count as they were simulated."""
from array import array
from dataclasses import dataclass, replace

from zsched_tools.outage.search import name_of
from zsched_tools.outage.world import DENIED, Ending
from zsched_tools.reports import attempts_in, blocks_of, ending_in


class Uncertified(Exception):
    """A report isn't the run that was simulated. The text names the job and both endings."""


@dataclass(slots=True)
class Client:
    """A client in the report: when its attempts begin, how long each takes (0 if it runs at the horizon), its value and
    whether that is ok; and how the client ends."""
    name: str
    begins: array
    lengths: array
    values: array
    are_ok: bytes
    ending: Ending


def clients_in(report):
    for block in blocks_of(report):
        end, attempts = ending_in(block), attempts_in(block)
        if end is None:
            raise Uncertified("the report has a job without an end")
        how, value, at = end
        begins = array("Q", [int(begin) for begin, _, _, _ in attempts])
        lengths = array("Q", [int(last) - int(begin) if last else 0 for begin, last, _, _ in attempts])
        values = array("Q", [int(value or 0) for _, _, _, value in attempts])
        value = int(value) if value and how != "finished" else None
        yield Client(block.split(b" ", 2)[1].decode(), begins, lengths, values,
                     bytes(word == b"ok" for _, _, word, _ in attempts),
                     Ending(how, value, at, len(attempts)))


def certified(scenario, runs, walk, numbers, reports):
    """The clients with these numbers of the reports of their plans. Uncertified says how they differ from the walk over
    the simulated runs, or from the scenario. A walk goes by the moments at which attempts begin. All of these are the
    simulated ones, so a walk over the reports finds the same outcomes."""
    found = [client for report in reports for client in clients_in(report)]
    if len(found) != len(numbers):
        raise Uncertified(f"the report has {len(found)} jobs, and the plan has {len(numbers)}")
    for place, (number, client) in enumerate(zip(numbers, found)):
        if client.name != name_of(number):
            raise Uncertified(f"the report has job {client.name}, but {name_of(number)} is expected")
        found[place] = _cut(client, scenario.limit_of(number))
        _hold(found[place], walk.endings[number])
        _hold_attempts(scenario, number, client, walk.found[number])
        _hold_begins(found[place], runs[number].begins)
    return found


def _hold_begins(client, begins):
    """Raises Uncertified unless each attempt of a client begins as it was simulated."""
    if client.begins != begins[:len(client.begins)]:
        number = next(number for number, (one, other) in enumerate(zip(client.begins, begins)) if one != other)
        raise Uncertified(f"job {client.name}, attempt {number + 1}: simulated from {begins[number]} on; "
                          f"the report has {client.begins[number]}")


def _cut(client, limit):
    """A client up to the limit of its call: its job goes on after it."""
    if client.ending.at < limit or client.ending.at == limit and client.ending.how != "unfinished":
        return client
    count = sum(begin < limit for begin in client.begins)
    begins, lengths, are_ok = client.begins[:count], client.lengths[:count], client.are_ok[:count]
    if count and (not lengths[-1] or begins[-1] + lengths[-1] > limit):
        lengths[-1], are_ok = limit - begins[-1], are_ok[:-1] + b"\0"
    return replace(client, begins=begins, lengths=lengths, are_ok=are_ok, values=client.values[:count],
                   ending=Ending("cut", None, limit, count))


def simulated(scenario, number, run, kinds, ending):
    """A client whose script a plan has no room for, as it was simulated."""
    outcomes = [scenario.outcome(kind & ~DENIED, number, attempt) for attempt, kind in enumerate(kinds)]
    lengths = array("Q", [outcome.ms for outcome in outcomes])
    if ending.how == "unfinished" and run.begins[len(kinds) - 1] + lengths[-1] > scenario.horizon:
        lengths[-1] = 0
    values = array("Q", [outcome.value for outcome in outcomes])
    if kinds[-1] & DENIED:
        values[-1] = scenario.budget.code
    return Client(name_of(number), run.begins[:len(kinds)], lengths, values,
                  bytes(outcome.is_ok for outcome in outcomes), ending)


def _hold(client, wanted):
    """Raises Uncertified unless a client has the wanted ending."""
    if client.ending != wanted:
        raise Uncertified(f"job {client.name}: simulated {'unfinished' if wanted is None else wanted.words()}; "
                          f"the report has {client.ending.words()}")


def _hold_attempts(scenario, client_number, client, kinds):
    """Raises Uncertified unless each attempt of a client ends as the scenario says, and the next one waits for what
    this one asks for."""
    for number, (kind, length) in enumerate(zip(kinds, client.lengths)):
        ms, is_ok, value, asks = scenario.outcome(kind & ~DENIED, client_number, number)
        if kind & DENIED:
            value = scenario.budget.code
        begin, found = client.begins[number], (length, client.are_ok[number], client.values[number])
        is_running = not length and begin + ms > scenario.horizon
        if found != (ms, is_ok, value) and not is_running:
            raise Uncertified(f"job {client.name}, attempt {number + 1}, which begins at {begin}: "
                              f"simulated {ms} ms, {'ok' if is_ok else 'err'} {value}; the report has {found[0]} ms, "
                              f"{'ok' if found[1] else 'err'} {found[2]}")
        if asks and number + 1 < len(kinds) and client.begins[number + 1] < begin + length + asks:
            raise Uncertified(f"job {client.name}, attempt {number + 2} begins at {client.begins[number + 1]}, and the "
                              f"one before it ends at {begin + length} and asks for {asks} ms")
