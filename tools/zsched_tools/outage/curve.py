"""What a simulated policy did: its load second by second, and its figures."""
import json
from collections import Counter
from typing import NamedTuple

from zsched_tools.outage.scenario import THOUSAND
from zsched_tools.program import LAST_MOMENT
from zsched_tools.words import WIDTH, duration, shown

SHARES = [50, 95, 99]
# How a call ends that is served: one that retries, and one that repeats.
SERVED = {"succeeded", "finished"}
# The times of which a peak is the worst: the name in JSON, the length, and the words. None is a second of the clock.
SPANS = [("100ms", 100, "in 100 ms"), ("second", THOUSAND, "in a second"), ("clock_second", None, "in a clock second")]
# The times of a call: the name in JSON, the member of Times, and the words.
TIMES = [("time_to_end", "end", "time to the end"), ("waited", "waited", "waits in all")]
MOST_NAMED = 10


class Curve:
    """Of each second the attempts that begin, that end well (ok) or not (err), and that run at its end."""

    def __init__(self, clients):
        self.begun, self.ok, self.err, self.begins = Counter(), Counter(), Counter(), Counter()
        for client in clients:
            self.begins.update(client.begins)
            for begin, length, is_ok in zip(client.begins, client.lengths, client.are_ok):
                if length:
                    (self.ok if is_ok else self.err)[(begin + length) // THOUSAND] += 1
        for begin, count in self.begins.items():
            self.begun[begin // THOUSAND] += count
        self.last = max([max(count) for count in [self.begun, self.ok, self.err] if count], default=0)

    def rows(self):
        """Second, begun, ok, err and running of each second, from 0 to the last in which something happens."""
        running = 0
        for second in range(self.last + 1):
            begun, ok, err = self.begun[second], self.ok[second], self.err[second]
            running += begun - ok - err
            yield second, begun, ok, err, running

    def csv(self):
        return "".join(f"{line}\n" for line in [
            "second,begun,ok,err,running", *(",".join(map(str, row)) for row in self.rows())])

    def peak(self, span, since=0):
        """The most attempts, of those from a moment on, that begin within a time, and the first begin of such a time;
        None without attempts. Without a span it is a second of the clock."""
        if span is None:
            found = [(count, -second * THOUSAND) for second, count in self.begun.items() if second * THOUSAND >= since]
            return (max(found)[0], -max(found)[1]) if found else None
        moments = sorted(begin for begin in self.begins if begin >= since)
        best, within, first = None, 0, 0
        for moment in moments:
            within += self.begins[moment]
            while moments[first] <= moment - span:
                within -= self.begins[moments[first]]
                first += 1
            if best is None or within > best[0]:
                best = within, moments[first]
        return best


def share_of(ordered, percent, count):
    """The least of some ordered values such that at least `percent` of 100 are at most that value, of `count` values,
    of which others are missing; None if so many aren't there."""
    place = -(-count * percent // 100)
    return ordered[place - 1] if 0 < place <= len(ordered) else None


class Times(NamedTuple):
    """Of each call its attempts, its time up to its end and the sum of its waits, sorted: of those that have ended, and
    of those that were served."""
    attempts: tuple
    end: tuple
    waited: tuple
    calls: int

    def shares(self, name, is_served, *more):
        """Those at the shares of the table, and at more, of all calls or of those that were served."""
        found = getattr(self, name)[is_served]
        return [share_of(found, percent, len(found) if is_served else self.calls) for percent in [*SHARES, *more]]


def times_of(clients, starts):
    """The Times of clients."""
    found = []
    for client, start in zip(clients, starts):
        how, _, at, attempts = client.ending
        if how != "unfinished":
            found.append((attempts, at - start, at - start - sum(client.lengths), how in SERVED))
    return Times(*((sorted(it[place] for it in found), sorted(it[place] for it in found if it[3]))
                   for place in range(3)), len(clients))


class Figures:
    """The figures of a policy, for one column of the table. `uncertified` has the names of those in no report."""

    def __init__(self, scenario, text, clients, uncertified, passes):
        self.text, self.curve = text, Curve(clients)
        self.passes, self.clients, self.uncertified = passes, len(clients), uncertified
        counts = [client.ending.attempts for client in clients]
        self.attempts, self.greatest = sum(counts), max(counts)
        self.of_calls = times_of(clients, scenario.starts)
        self.times = self.of_calls.end[1]
        self.mean = round(10 * self.attempts / len(self.times)) / 10 if self.times else None
        self.last_success = _last_success([client.ending for client in clients])
        self.endings = endings = Counter(client.ending.how for client in clients)
        self.cut, self.unfinished = endings["cut"], endings["unfinished"]
        self.gave_up = endings["failed"] + self.cut
        self.denied = sum(scenario.budget is not None and client.ending.how == "failed"
                          and client.ending.value == scenario.budget.code for client in clients)
        self.peaks = [self.curve.peak(span) for _, span, _ in SPANS]
        self.peaks_after = [self.curve.peak(span, scenario.back) for _, span, _ in SPANS if scenario.back is not None]
        met = [client.ending for client in clients if any(client.lengths[:1]) and not client.are_ok[0]]
        last = _last_success(met)
        self.first_failed, self.recovered = len(met), sum(ending.how == "succeeded" for ending in met)
        self.recovery = None if None in (scenario.back, last) else max(0, last - scenario.back)

    def recovery_words(self):
        """The time from the end of the outage to the last success, or how many recovered if not all did."""
        some = f"{self.recovered:,}" if self.recovered else "none"
        return "no client failed" if not self.first_failed else duration(self.recovery) if (
            self.recovery is not None) else f"{some} of {self.first_failed:,} recovered"

    def shares(self):
        """The times to success at the shares of the table, and the greatest, of all clients."""
        return [share_of(self.times, percent, self.clients) for percent in [*SHARES, 100]]

    def certified(self):
        """The share of the clients that is certified, in percent. It is 100 only for all."""
        return f"{10_000 * (self.clients - len(self.uncertified)) // self.clients / 100:g} %"

    def note(self):
        """The clients that aren't certified, in words, or None."""
        if not self.uncertified:
            return None
        names = ", ".join(self.uncertified[:MOST_NAMED]) + (", .." if len(self.uncertified) > MOST_NAMED else "")
        return (f"{len(self.uncertified):,} of {self.clients:,} clients not certified (a script has at most "
                f"1,000 entries): {names}")

    def members(self, name):
        """The figures as an object of JSON. Times are milliseconds."""
        def peaks(found):
            return {name: peak and {"attempts": peak[0], "from_ms": peak[1]} for (name, *_), peak in zip(SPANS, found)}
        return {
            "name": name, "schedule": self.text, "attempts": self.attempts, "attempts_mean": self.mean,
            "attempts_greatest": self.greatest, "peak": peaks(self.peaks),
            "peak_after": peaks(self.peaks_after) or None,
            "time_to_success_ms": dict(zip([f"p{percent}" for percent in SHARES] + ["greatest"], self.shares())),
            **{key + "_served" * is_served + "_ms": dict(zip([f"p{percent}" for percent in SHARES],
                                                             self.of_calls.shares(which, is_served)))
               for key, which, _ in TIMES for is_served in (False, True)},
            "succeeded": len(self.times), "last_success_ms": self.last_success, "recovery_ms": self.recovery,
            "first_failed": self.first_failed, "recovered": self.recovered,
            "gave_up": self.gave_up, "out_of_budget": self.denied, "by_limit": self.cut, "unfinished": self.unfinished,
            "certified": self.clients - len(self.uncertified), "not_certified": self.uncertified, "passes": self.passes}


def _last_success(endings):
    """The moment at which the last of some clients is served; None if one never is, or if there are none."""
    is_all = all(ending.how == "succeeded" for ending in endings)
    return max((ending.at for ending in endings), default=None) if is_all else None


def to_json(scenario, figures):
    """The scenario and the figures as a line of JSON."""
    return json.dumps({
        "scenario": headline(scenario), "clients": len(scenario.starts), "horizon_ms": scenario.horizon,
        "seed": scenario.seed, "back_ms": scenario.back,
        "policies": [it.members(name) | scenario.policies[name][0].limits() for name, it in figures.items()]},
        ensure_ascii=False)


def policy_lines(figures):
    """Each policy's name and text, in lines."""
    for name, it in figures.items():
        yield f"{name}: {shown(it.text, 10 * WIDTH)}"


# Cells: a peak with its height and its begin, a time, and a number of clients that may still rise.
def _peak(found): return "-" if found is None else f"{found[0]:,} at {seconds(found[1])}"
def _time(time): return "-" if time is None else duration(time)
def _up_to(count, more): return f"{count:,}" + (f" to {count + more:,}" if more else "")


def table(scenario, figures):
    """The rows of the table: a name, and a cell for each policy."""
    columns = list(figures.values())

    def row(name, cell):
        return [name, *map(cell, columns)]
    yield ["", *figures]
    yield row("served", lambda it: f"{len(it.times):,} of {it.clients:,}")
    yield row("attempts", lambda it: f"{it.attempts:,}")
    yield row("  for each served, mean", lambda it: "-" if it.mean is None else f"{it.mean:,}")
    yield row("  of a client, greatest", lambda it: f"{it.greatest:,}")
    for number, (_, _, words) in enumerate(SPANS):
        yield row(("  " if number else "peak ") + words, lambda it, number=number: _peak(it.peaks[number]))
    for number, (_, _, words) in enumerate(SPANS if scenario.back is not None else ()):
        head = "  " if number else f"peak after {duration(scenario.back)}, "
        yield row(head + words, lambda it, number=number: _peak(it.peaks_after[number]))
    for number, name in enumerate([*(f"p{percent}" for percent in SHARES), "greatest"]):
        head = "  " if number else "time to success, "
        yield row(head + name, lambda it, number=number: _time(it.shares()[number]))
    for _, which, words in TIMES:
        for is_served in (False, True):
            for number, percent in enumerate(SHARES):
                head = "  " if number else "  if served, " if is_served else f"{words}, "
                yield row(f"{head}p{percent}", lambda it, place=(which, is_served), number=number: _time(
                    it.of_calls.shares(*place)[number]))
    yield row("last success at", lambda it: _time(it.last_success))
    if scenario.back is not None:
        yield row(f"recovery after {duration(scenario.back)}", lambda it: it.recovery_words())
    yield row("gave up", lambda it: _up_to(it.gave_up, it.unfinished))
    if scenario.budget is not None:
        yield row("  out of budget", lambda it: _up_to(it.denied, it.unfinished))
    if any(it.cut for it in columns):
        yield row("  by the call's limit", lambda it: f"{it.cut:,}")
    yield row("unfinished", lambda it: f"{it.unfinished:,}")
    yield row("certified", lambda it: it.certified())


def headline(scenario):
    """The scenario in one line."""
    clients = f"{len(scenario.starts):,} client{'s' * (len(scenario.starts) != 1)}"
    windows = [f"{state_words(it)} from {seconds(it.begin)}" + f" to {seconds(it.end)}" * (it.end <= LAST_MOMENT)
               for it in scenario.windows]
    budget = [f"a budget like {scenario.budget.like}'s"] if scenario.budget is not None else []
    return "; ".join([*filter(None, [scenario.title]), f"{clients} {scenario.coming}", *windows, *budget,
                      f"until {duration(scenario.horizon)}", f"seed {scenario.seed}"])


def seconds(moment):
    """A moment in words; the first one in seconds too."""
    return duration(moment) if moment else "0 s"


def state_words(window):
    """What a service does in a window."""
    state = ["", "down", "slow"][window.state]
    per = "a second" if window.per == THOUSAND else f"each {duration(window.per)}"
    capacity = "" if window.capacity is None else f"serves {window.capacity:,} {per}"
    return ", ".join(filter(None, [state, capacity])) or "up"
