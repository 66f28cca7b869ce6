"""The run of all clients of a policy in a scenario, found by running the program alone until no outcome changes, as the
help of zsched-outage says: `Walk` computes how each client ends, and `certificate` compares the last report.

Parts of the clients are run and read side by side, each by a process of its own, on all processors. What is found
doesn't depend on their number.

A script has at most 1,000 entries, and the last one repeats. A client of more attempts is run so, and only up to a
moment. It can be certified if all its attempts from the 1,000th on end alike."""
import multiprocessing
import os
import signal
from collections import deque

from zsched_tools import schedule_rules
from zsched_tools.drawn import HIGH, LOW, at_least, seeded
from zsched_tools.outage.scenario import DOWN, UP
from zsched_tools.outage.world import CUT, DENIED, DONE, GOES_ON, UNDENIED, Run, Walk
from zsched_tools.program import MOST_ENTRIES, MOST_JOBS, cut_plans, job_text, run_plan
from zsched_tools.reports import begins_in, blocks_of, ending_in
from zsched_tools.words import plural

# The most attempts of a policy, and about how many a plan makes of clients with many.
MOST_ATTEMPTS, ATTEMPTS_OF_PLAN = 50_000_000, 1_000_000
# The number of failures after the known ones with which a client is run: in the first pass, and at least later.
FIRST_LOOK, LESS_LOOK = 32, 16
# The last entry, which ends a job, and how a run then ends; of a client that retries, and of one that repeats.
_CUT_ENTRIES = '{"ms":1,"ok":0}', '{"ms":1,"err":0}'
_TAILS = ({"succeeded": CUT, "failed": DONE, "unfinished": GOES_ON},
          {"failed": CUT, "finished": DONE, "unfinished": GOES_ON})


# The most clients of a part that the program runs alone.
PART = 500


class Unsettled(Exception):
    """A scenario that doesn't settle, or that doesn't fit into a plan. The text names the clients."""


def name_of(client):
    return f"c{client}"


class Schedules:
    """The schedule of each client under a policy, each made when it is taken, with at most so many drawn waits."""

    def __init__(self, scenario, name, most=None):
        self.scenario, self.policy, self.most = scenario, scenario.policies[name][0], most
        # With a budget a schedule also ends at the budget's code.
        self.after = f".whileInput(!= {scenario.budget.code})" if scenario.budget else ""
        self.only = None if self.policy.is_drawn else self.policy.schedule(LOW) + self.after

    def __len__(self):
        return len(self.scenario.starts)

    def __getitem__(self, client):
        if client >= len(self):
            raise IndexError
        return self.only or self.policy.schedule(seeded(self.scenario.seed, client), self.most) + self.after

    def size(self):
        """The bytes of all schedules, or about that if they are drawn."""
        return len(self) * len(self.only or self.policy.schedule(HIGH) + self.after)


def _work_on(work, part, its, pipe):
    """What a process does: it sends the result, or what was raised. An interrupt ends it without a word, and so does
    the end of the command: nobody is left who reads from the pipe."""
    signal.signal(signal.SIGINT, signal.SIG_DFL)
    its.close()
    try:
        pipe.send((True, work(part)))
    except Exception as cause:
        pipe.send((False, cause))
    finally:
        os._exit(0)


def _received(process, pipe):
    """The result of a process, or what was raised in it."""
    try:
        with pipe:
            is_done, found = pipe.recv()
    except EOFError:
        process.join()
        raise ChildProcessError(f"a part of the clients was ended by signal {-process.exitcode}") from None
    process.join()
    if not is_done:
        raise found
    return found


def side_by_side(work, parts):
    """The result of each part, in their order. As many parts as there are processors are worked on at once, each by a
    copy of this process, so the results are copies too."""
    many = len(os.sched_getaffinity(0))
    if many == 1 or len(parts) < 2:
        yield from map(work, parts)
        return
    context, running = multiprocessing.get_context("fork"), deque()
    try:
        for part in parts:
            if len(running) == many:
                yield _received(*running.popleft())
            pipe, its = context.Pipe(duplex=False)
            process = context.Process(target=_work_on, args=(work, part, pipe, its), daemon=True)
            process.start()
            its.close()
            running.append((process, pipe))
        while running:
            yield _received(*running.popleft())
    finally:
        for process, _ in running:
            process.kill()


class Search:
    """The search for the run of all clients of one policy. `firsts` are schedules for the first look."""

    def __init__(self, scenario, zsched, schedules, most_passes, firsts=None):
        self.scenario, self.zsched, self.most_passes = scenario, zsched, most_passes
        self.firsts, self.schedules, self.runs = firsts or schedules, schedules, [None] * len(schedules)
        self.scripts = {}
        self.passes = self.until = 0

    def settle(self, say):
        """The walk over the settled runs. `say` gets at each step the share of settled clients and a line."""
        are_open, guesses = range(len(self.runs)), [b""] * len(self.runs)
        while self.passes < self.most_passes:
            self.passes += 1
            say(1 - len(are_open) / len(self.runs), f"pass {self.passes}, {len(are_open):,} clients")
            self._look(are_open, guesses)
            walk = Walk(self.scenario, self.runs)
            are_open = [client for client in range(len(self.runs)) if not walk.is_settled(client)]
            if not are_open:
                return walk
            for client in are_open:
                # The kinds of the attempts after which it goes on. Only the last attempt may end it.
                kinds = bytes(walk.found[client].translate(UNDENIED))
                is_end = kinds and self._is_end(self.scenario.outcome(kinds[-1], client, len(kinds) - 1))
                guesses[client] = kinds[:-1] if is_end else kinds
        names = ", ".join(map(name_of, are_open[:10])) + (", .." if len(are_open) > 10 else "")
        raise Unsettled(f"doesn't settle in {self.most_passes} passes; {plural(len(are_open), 'client')} "
                        f"{'is' if len(are_open) == 1 else 'are'} open: {names}")

    def _is_end(self, outcome):
        return outcome.is_ok != self.scenario.is_repeat

    def _look(self, clients, guesses):
        """Runs some clients with their known failures and some more, and stores the runs. The first time the service is
        up, if clients repeat or if it never changes, or else down."""
        few, many = {}, {}
        first = UP if self.scenario.is_repeat or not self.scenario.windows else DOWN
        for client in clients:
            guess = guesses[client]
            more = bytes([guess[-1]]) * max(LESS_LOOK, len(guess)) if guess else bytes([first]) * FIRST_LOOK
            (few if len(guess + more) < MOST_ENTRIES else many)[client] = (guess + more)[:MOST_ENTRIES]
        self._run(few, self.scenario.horizon, [_CUT_ENTRIES[self.scenario.is_repeat]], MOST_JOBS)
        if many:
            known = [len(guesses[client]) for client in many]
            if sum(known) > MOST_ATTEMPTS:
                raise Unsettled(f"{len(many):,} clients make more than {MOST_ATTEMPTS:,} attempts: take fewer clients, "
                                "longer waits, or a shorter scenario")
            latest = max(self.runs[client].begins[len(guesses[client]) - 1] for client in many)
            self.until = min(self.scenario.horizon, 2 * max(self.until, latest))
            self._run(many, self.until, [], -(-ATTEMPTS_OF_PLAN // max(known)))

    def _run(self, looked, until, last, most):
        """Runs clients with these failures and the last entry up to a moment, and stores the runs."""
        if not looked:
            return
        schedules, looked = self.firsts if self.passes == 1 else self.schedules, list(looked.items())
        tails = _TAILS[self.scenario.is_repeat] | {"unfinished": CUT if until < self.scenario.horizon else GOES_ON}

        def run(part):
            jobs = [self._job(client, schedules, of_client, last) for client, of_client in part]
            reports = [run_plan(self.zsched, plan) for plan in cut_plans(until, jobs, most)[0]]
            return [(begins_in(block), ending_in(block)[0]) for it in reports for block in blocks_of(it)]
        parts = [looked[first:first + PART] for first in range(0, len(looked), PART)]
        for part, found in zip(parts, side_by_side(run, parts)):
            for (begins, how), (client, kinds) in zip(found, part):
                self.runs[client] = Run(begins, kinds, tails[how])

    def _job(self, client, schedules, kinds, last=()):
        """The job of a client whose attempts are of some kinds, and all that follow as the last one, or as `last`. None
        if its script has no room for that."""
        entries, waits = self._script(client, kinds, not last)
        if len(entries) + len(last) > MOST_ENTRIES:
            return None
        schedule = schedules[client]
        if any(waits):
            schedule = at_least(schedule, waits)
            if schedule_rules.cause_of(schedule, "too big"):
                raise Unsettled(f"{name_of(client)}: a schedule has no room for all waits that it is asked for")
        mode = "repeat" if self.scenario.is_repeat else "retry"
        return job_text(name_of(client), schedule, ",".join([*entries, *last]), mode, self.scenario.starts[client])

    def _script(self, client, kinds, is_short):
        """The entries of a client's script, and the waits that are asked for after these. It is short if the last one
        repeats. Of outcomes that aren't drawn each script is made once."""
        if (found := self.scripts.get((kinds, is_short))) is None:
            made = [self.scenario.outcome(kind & ~DENIED, client, number) for number, kind in enumerate(kinds)]
            if kinds[-1] & DENIED:
                made[-1] = made[-1]._replace(value=self.scenario.budget.code)
            while is_short and made[1:] and made[-2] == made[-1]:
                made.pop()
            found = [it.entry() for it in made], [it.asks for it in made]
            if not self.scenario.is_drawn:
                self.scripts[kinds, is_short] = found
        return found

    def final(self, walk, read):
        """The last run, in parts: what `read` makes of the numbers of clients, their jobs with all computed outcomes,
        and the reports of the plans of these jobs. The job is None for a client whose script has no room for its
        outcomes."""
        def run(part):
            jobs = [self._job(client, self.schedules, bytes(walk.found[client]) or b"\0") for client in part]
            plans, _ = cut_plans(self.scenario.horizon, [job for job in jobs if job])
            return read(part, jobs, [run_plan(self.zsched, plan) for plan in plans])
        count = len(self.runs)
        yield from side_by_side(run, [range(first, min(first + PART, count)) for first in range(0, count, PART)])
