"""The parts of which `zsched-policy explain` says that they never act: no decision of a run is another one without such
a part, whatever the inputs, durations, waits on request and draws."""
import random
import re

import bounds as intervals
import generator
import reference
from support import examples
from test_driven import schedule_of
from zsched_tools.drawn import Policy, seeded
from zsched_tools.place import FaultAt
from zsched_tools.policy import explaining

POLICIES, HISTORIES, STEPS = 1200, 40, 12
# How late attempts begin, and the longest wait on request.
DRIVERS = [(100, 100, 0, 0), (100, 100, 0, 0), (100, 100, 3, 0), (100, 100, 0, 9)]
AROUND = ["{}", "({} || recurs(N))", "(recurs(N) || {})", "({} && recurs(N))",
          "(({} && elapsed.whileOutput(< N)) && recurs(N))"]
# What is drawn of a schedule, and of a leaf with a number.
JITTERS = ["{} jitter full", "{} jitter equal", "{} jitter 50%", "{} jitter +0..4ms"]


def random_term(chance, is_drawn):
    """The term of a random schedule. Half of those that are drawn wait in a limit of time and a count."""
    text, around = generator.made_term(chance, chance.choice([1, 2, 3, 4, 6, 9]))[0], chance.choice(AROUND)
    if is_drawn and chance.choice([True, False]):
        text, around = chance.choice(["spaced(N)", "linear(N)", "exponential(N)"]), AROUND[-1]
    text = generator.filled(chance, around.format(text))
    try:
        reference.read_schedule(text.encode())
    except reference.Fault:     # of many `resetWhen`
        return random_term(chance, is_drawn)
    return explaining.term_of(Policy(text))


def random_draws(chance, term):
    """What is drawn of some parts that depend on the number of the wait alone: a form by the identity of a part."""
    if re.search("elapsed|fixed|windowed|identity|Input", term.text) or chance.choice([True, False]):
        return {key: form for it in term.parts for key, form in random_draws(chance, it).items()}
    number = None if term.parts else re.search(r"\d+", term.text)
    if number and chance.choice([True, False]):
        return {id(term): term.text.replace(number[0], f"rand({chance.randint(0, int(number[0]))}, {number[0]})", 1)}
    return {id(term): chance.choice(JITTERS)}


def spelled(term, draws, part=None, around=None):
    """The text of a policy with draws, without a part of one of its parts: a test is its own, and else the other part
    stays."""
    parts = [spelled(it, draws, part, around) for it in term.parts]
    if term is around:
        text = parts[0 if part is around else term.parts[0] is part]
    else:
        text = f"({parts[0]} {term.word} {parts[1]})" if len(parts) == 2 else "".join(parts) + term.word
    return draws.get(id(term), "{}").format(text)


def schedules(text, zsched):
    """The schedules of a policy, one for each of some draws, which are those of the policy without a part too."""
    policy = Policy(text, zsched)
    return [schedule_of(reference.read_schedule(policy.schedule(lambda _: seeded(seed)(0)).encode()))
            for seed in range(4 if policy.is_drawn else 1)]


def is_same(one, other, chance, inputs):
    """Whether two schedules have the same decisions in a random run, up to its end."""
    moment, states, waits = chance.choice([0, 0, 7]), [one.initial, other.initial], chance.choice(DRIVERS)
    for _ in range(STEPS):
        given = chance.choice(inputs)
        (first, _, after), (second, _, its) = (it.step(moment, given, at) for it, at in zip((one, other), states))
        if after is None or after != its:
            return after == its
        moment += chance.choice(intervals.driven(waits, after - moment, after - moment))
        moment, states = moment + chance.choice([1, 1, 2, 5, 40]), [first, second]
    return True


def test_no_decision_changes_without_a_part_that_never_acts(zsched, bounds, monkeypatch):
    """What nothing is known of, as a schedule whose waits aren't drawn alone, has another text or a fault."""
    monkeypatch.setitem(generator.LETTERS, "N", generator.SMALL)
    chance, seen, faults = random.Random(5), {"all": 0, "||": 0, "drawn": 0}, []
    for _ in range(examples(POLICIES)):
        term = random_term(chance, is_drawn := chance.choice([True, False]))
        text = spelled(term, draws := random_draws(chance, term) if is_drawn else {})
        try:
            policy, found = Policy(text, zsched), schedules(text, zsched)
        except (FaultAt, reference.Fault):
            continue
        below = {id(it) for it, *_, is_below in term.all() if is_below or it.word == "||"}
        for part, around in explaining.idle_parts(policy, term, bounds):
            less = spelled(term, draws, part, around)
            try:
                others = schedules(less, zsched)
            except (FaultAt, reference.Fault):  # of a reader of its output
                continue
            for word, is_so in ("all", True), ("||", id(around) in below), ("drawn", policy.is_drawn):
                seen[word] += is_so
            if not all(is_same(*chance.choice([*zip(found, others)]), chance, intervals.edges(text))
                       for _ in range(HISTORIES)):
                faults.append((text, less))
    assert not faults and seen["all"] >= 500 and seen["||"] >= 100 and seen["drawn"] >= 100, (faults, seen)
