"""The outcome of each client's attempts, by the moment at which an attempt begins.

`Walk` processes the attempts of all clients in the order of their moments and computes how each ends. It steps no
schedule: the program computed when a client's attempts begin, in a run in which the client is never served. All
attempts of such a run up to the first one that is served are those of the true run, since they depend only on earlier
attempts."""
import heapq
from array import array
from collections import deque
from dataclasses import dataclass
from typing import NamedTuple

from zsched_tools.outage.scenario import FULL, UP, Window
from zsched_tools.program import LAST_MOMENT, MOST_ENTRIES

# An attempt's kind is the state of the service when it begins. DENIED is added to the kind of an attempt after which
# the budget rejects the retry.
DENIED = 8
UNDENIED = bytes(kind & ~DENIED for kind in range(256))
# How the run of a client ends: its schedule is done, it continues after the horizon, or the run was cut.
DONE, GOES_ON, CUT = range(3)


@dataclass(slots=True)
class Run:
    """The program's run of a client that is never served: when its attempts begin, the kinds of failure with which they
    were run, and how the run ends."""
    begins: array
    kinds: bytes
    tail: int


class Ending(NamedTuple):
    """How a client ends: as in a report, with the value, the moment and the number of attempts."""
    how: str
    value: int | None
    at: int
    attempts: int

    def words(self):
        value = "" if self.value is None else f" {self.value}"
        return f"{self.how}{value} at {self.at} after {self.attempts} attempts"


class Service:
    """The service at moments that don't fall."""

    def __init__(self, windows):
        self.windows = [*windows, Window(LAST_MOMENT + 2, LAST_MOMENT + 3, UP, None)]
        self.next = 0
        self.step, self.served = None, 0

    def kind(self, moment):
        """The state of the service for an attempt that begins now."""
        while moment >= self.windows[self.next].end:
            self.next += 1
        window = self.windows[self.next]
        if moment < window.begin:
            return UP
        if window.capacity is None:
            return window.state
        step = self.next, (moment - window.begin) // window.per
        if step != self.step:
            self.step, self.served = step, 0
        self.served += 1
        return window.state if self.served <= window.capacity else FULL


class Bucket:
    """The tokens for retries, in thousandths, by the rules of gRPC's retry throttling or of the AWS SDK's quota."""

    def __init__(self, budget):
        self.budget = budget
        self.tokens = budget.tokens

    def succeeded(self, is_first):
        """A client was served. Under AWS's rules a retry that is served returns its tokens."""
        budget = self.budget
        given = budget.retry if budget.like == "aws" and not is_first else budget.ok
        self.tokens = min(budget.tokens, self.tokens + given)

    def began(self, is_first, moment):
        """An attempt begins."""

    def ended(self, is_first):
        """An attempt ended."""

    def dropped(self):
        """A retry that was allowed isn't made, since its call has ended."""

    def lets_retry(self, is_wanted, moment=0):
        """An attempt failed. Returns whether a retry is allowed. gRPC takes a token for each failure, and then allows a
        retry if more than half of the tokens remain. AWS takes the price of a wanted retry."""
        budget = self.budget
        if budget.like == "grpc":
            self.tokens = max(0, self.tokens - budget.retry)
            return 2 * self.tokens > budget.tokens
        if not is_wanted or self.tokens < budget.retry:
            return False
        self.tokens -= budget.retry
        return True


class Share(Bucket):
    """Envoy's retry budget: retries are at most a share of the attempts that run, or a least number. A retry counts
    from the moment at which it is allowed, before its wait, until it ends."""

    def __init__(self, budget):
        self.budget = budget
        self.running = self.retries = 0

    def began(self, is_first, moment):
        self.running += 1

    def ended(self, is_first):
        self.running -= 1
        self.retries -= not is_first

    def dropped(self):
        self.retries -= 1

    def succeeded(self, is_first):
        """Returns nothing to a share."""

    def lets_retry(self, is_wanted, moment=0):
        most = max(self.budget.retry, self.running * self.budget.ok // 100_000)
        is_allowed = is_wanted and self.retries < most
        self.retries += is_allowed
        return is_allowed


class Deposits(Share):
    """Finagle's retry budget: a client's first attempt adds to a sum, and a retry takes its price, beside a reserve.
    Both count for `ttl`."""

    def __init__(self, budget):
        super().__init__(budget)
        self.queue, self.sum = deque(), 0

    def began(self, is_first, moment):
        if is_first:
            self._add(self.budget.ok, moment)

    def lets_retry(self, is_wanted, moment=0):
        while self.queue and self.queue[0][1] <= moment - self.budget.ttl:
            self.sum -= self.queue.popleft()[0]
        is_allowed = is_wanted and self.sum + self.budget.tokens >= self.budget.retry
        if is_allowed:
            self._add(-self.budget.retry, moment)
        return is_allowed

    def _add(self, amount, moment):
        self.queue.append((amount, moment))
        self.sum += amount


BUDGETS = {"grpc": Bucket, "aws": Bucket, "envoy": Share, "finagle": Deposits}


class Walk:
    """All attempts of all clients, in the order of their moments. At one moment ends are before begins, and clients are
    in the order of their numbers. `found` has the kinds of each client's attempts, `endings` its ending (None if its
    run ends first). At the limit of its call a client gives up: `cut`, after an attempt that ends then, and before one
    that would begin. `waiting` has those that wait for that with an allowed retry."""

    def __init__(self, scenario, runs):
        self.scenario, self.runs = scenario, runs
        self.service, self.fixed = Service(scenario.windows), scenario.fixed
        self.limits = [scenario.limit_of(it) for it in range(len(runs) if scenario.deadline else 1)]
        self.limits *= 1 if scenario.deadline else len(runs)
        self.bucket = BUDGETS[scenario.budget.like](scenario.budget) if scenario.budget else None
        # A table from each kind to the first one with the same outcome.
        known = scenario.outcomes
        self.outcomes = bytes(known.index(known[it]) if it < len(known) else it for it in UNDENIED)
        self.found = [bytearray() for _ in runs]
        self.endings, self.waiting = [None] * len(runs), set()
        count = len(runs)
        queue = [(2 * run.begins[0] + 1) * count + client for client, run in enumerate(runs) if run.begins]
        heapq.heapify(queue)
        for client, run in enumerate(runs):
            if not run.begins:
                self._close(client, "unfinished", None, self.scenario.horizon)
        while queue:
            event, client = divmod(queue[0], count)
            moment, is_begin = event >> 1, event & 1
            following = self._begin(client, moment) if is_begin else self._end(client, moment)
            if following is None:
                heapq.heappop(queue)
            else:
                # In a run that isn't the true one yet, an attempt may begin before the one before it ends.
                heapq.heapreplace(queue, max(following, event | following & 1) * count + client)

    def _begin(self, client, moment):
        """An attempt begins: the client's next event, or None."""
        kind = self.service.kind(moment)
        self.found[client].append(kind)
        if self.bucket:
            self.bucket.began(len(self.found[client]) == 1, moment)
        outcome = self.fixed[kind] or self.scenario.outcome(kind, client, len(self.found[client]) - 1)
        end = min(moment + outcome.ms, self.limits[client])
        if end > self.scenario.horizon:
            self._close(client, "unfinished", None, self.scenario.horizon)
            return None
        return 2 * end if self.bucket else self._end(client, end)

    def _end(self, client, moment):
        """An attempt ends: the client's next event, or None."""
        kinds, run, limit = self.found[client], self.runs[client], self.limits[client]
        count, is_repeat = len(kinds), self.scenario.is_repeat
        outcome = self.fixed[kinds[-1]] or self.scenario.outcome(kinds[-1], client, count - 1)
        if client in self.waiting:
            self.bucket.dropped()
            return self._close(client, "cut", None, limit)
        if self.bucket:
            self.bucket.ended(count == 1)
        if run.begins[count - 1] + outcome.ms > limit:
            return self._close(client, "cut", None, limit)
        if outcome.is_ok != is_repeat:
            if self.bucket:
                self.bucket.succeeded(count == 1)
            return self._close(client, "failed" if is_repeat else "succeeded", outcome.value, moment)
        is_last = count == len(run.begins)
        is_done = is_last and run.tail == DONE
        if self.bucket and not self.bucket.lets_retry(not is_done, moment) and not is_done:
            kinds[-1] += DENIED
            return self._close(client, "failed", self.scenario.budget.code, moment)
        following = run.begins[count] if not is_last else self.scenario.horizon if run.tail == GOES_ON else limit - 1
        if following >= limit:
            if not self.bucket:
                return self._close(client, "cut", None, limit)
            self.waiting.add(client)
            return 2 * limit
        if not is_last:
            return 2 * following + 1
        if is_done:
            self._close(client, *(("finished", None) if is_repeat else ("failed", outcome.value)), moment)
        elif run.tail == GOES_ON:
            self._close(client, "unfinished", None, self.scenario.horizon)
        return None

    def _close(self, client, how, value, at):
        self.endings[client] = Ending(how, value, at, len(self.found[client]))

    def is_settled(self, client):
        """Whether the client's run was the true one up to its end: each attempt before that, or each that a script has
        room for, failed as it was run. If the last attempt is served, or runs at the horizon, any kind will do."""
        ending, kinds, run = self.endings[client], self.found[client], self.runs[client]
        if ending is None:
            return False
        last = kinds and self.scenario.outcome(kinds[-1] & ~DENIED, client, len(kinds) - 1)
        is_running = ending.how in ("unfinished", "cut") and kinds and run.begins[len(kinds) - 1] + last.ms > ending.at
        is_last = kinds and last.is_ok != self.scenario.is_repeat
        count = min(len(kinds) - bool(is_last or is_running), MOST_ENTRIES)
        return kinds[:count].translate(self.outcomes) == run.kinds[:count].translate(self.outcomes)
