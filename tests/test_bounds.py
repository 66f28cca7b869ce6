"""What zsched-bounds prints for random policies, durations of attempts and waits of drivers: it is what the run over
intervals in tests/bounds.py has, and no driven history leaves it.
`ZSCHED_LONG=1 pytest tests/test_bounds.py -n 3 --examples 50` tries 100,000 policies, each by all steps."""
import json
import os
import random

import pytest

import bounds as intervals
import generator
import reference
from support import run
from test_driven import Reached

# The interval run takes long for many steps: only every hundredth policy has all of them.
SHORT, LONG, EVERY = 100, 20000, int(os.environ.get("ZSCHED_LONG", "100"))
# How many driven histories a policy has, and the steps of each.
HISTORIES, HISTORY_STEPS = 3, 40
TIMES = [0, 1, 3, 20, 700, 10 ** 5, intervals.MOST]
INPUTS = [0, 1, 2, 3, 4, 5, 7, 404, 503, intervals.MOST]


def follow(chance, s, b, waits):
    """Asserts that a random driven history stays within bounds."""
    first = moment = chance.choice([0, 1, 5, 1000, intervals.LAST // 2])
    pairs, memo, waited, (shortest, longest), (least, most) = [], {}, 0, b["attempt"].values(), b["attempts"].values()
    times = [shortest, longest,
             (shortest + longest) // 2] if longest else [shortest + it for it in (0, 0, 1, 4, 39, 999)]
    for n in range(1, HISTORY_STEPS + 1):
        pairs.append((moment, chance.choice(INPUTS)))
        _, x = reference.step(s, reference.History(pairs, memo, 0, n))
        low, high = intervals.driven(waits, *[0 if x is None else x - moment] * 2)
        # The first attempt, the wait, and the attempt that this step lets begin take as long as they may.
        run = (longest or 0) + moment - first + (0 if x is None else high + (longest or 0))
        assert b["longest_run"] is None or run <= b["longest_run"]
        if x is None:
            assert n >= least and not b["never_gives_up"]
            return
        assert n != most and (high <= b["longest_wait"] or n > b["steps_seen"])
        assert b["every"] is None or high <= b["every"]
        assert b["is_cut"] or n <= b["steps_seen"]
        # The next attempt begins at the end of this wait.
        began = max(shortest, 1) + moment - first + low
        assert began > b["within"]["time"] or n < b["within"]["most"]
        assert b["total_wait"] is None or waited + high <= b["total_wait"]
        wait = chance.choice([low, low, high, (low + high) // 2])
        waited += wait
        moment += wait + chance.choice(times)
        if moment > intervals.LAST:
            return


@pytest.mark.parametrize("chunk", generator.chunks(2000))
def test_no_driven_history_leaves_the_bounds_and_the_interval_run_has_them(chunk, bounds):
    def holds(words):
        text, is_long, durations, waits, time = words
        try:
            s = reference.read_schedule(text.encode())
        except reference.Fault:     # of many `resetWhen`
            return
        steps = LONG if is_long else SHORT
        given = [*intervals.options(durations, waits), "--steps", str(steps), "--within", f"{time}ms"]
        status, output, errors = run([bounds, *given], f"{text}\n".encode())
        assert (status, errors) == (0, b"")
        line = json.loads(output)
        assert reference.read_schedule(line.pop("policy").encode()) == s
        within = {"time": time, "most": intervals.attempts_within(s, durations, waits, time, steps)}
        assert line == intervals.bounds(s, durations, steps, waits) | {"within": within}
        for k in range(HISTORIES):
            follow(random.Random(f"{text} {k}"), s, line, waits)
    generator.hold(chunk, holds, generator.made(lambda chance: (
        intervals.policy(chance), generator.seldom(chance, EVERY), chance.choice(intervals.DURATIONS),
        chance.choice(intervals.WAITS), chance.choice(TIMES))))


def test_histories_and_bounds_of_small_policies_meet():
    """Some history reaches nine of ten of each bound. The longest run counts an attempt within a period twice. Of four
    policies without `resetWhen` three have an end."""
    met, had = [0] * 5, [0] * 5
    for seed in range(1000):
        found, durations = intervals.random_policy(seed), random.Random(seed).choice(intervals.DURATIONS)
        if found is None or len(found[0]) >= 60 or "resetWhen" in found[0]:
            continue
        text = f"({found[0]} && recurs({seed % 4}))" if seed % 4 else found[0]
        s, (least, most) = reference.read_schedule(text.encode()), durations
        it = Reached(s, intervals.edges(text), ((least, most or least + 2), intervals.EXACT), 7, is_sampled=True)
        b, beyond = intervals.bounds(s, durations, it.most), it.most + 1
        said = [min(b["attempts"]["least"], beyond), b["attempts"]["most"] or beyond]
        said += [b[key] for key in ("longest_wait", "total_wait", "longest_run")]
        reached = it.least or beyond, beyond if it.open else it.most, it.wait, it.total, it.run
        met, had = zip(*((m + (x == y), h + (x is not None)) for m, h, x, y in zip(met, had, said, reached)))
    assert min(had) >= 120 and all(10 * reached >= 9 * of for reached, of in zip(met, had)), (met, had)
