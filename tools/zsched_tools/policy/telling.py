"""A history that tells two policies apart: attempts after which only one of them goes on, or goes on at another moment.
It is searched among a few thousand short ones, which the program runs in one plan."""
import itertools
import random
import re

from zsched_tools.drawn import HIGH, LOW, RANGES, seeded
from zsched_tools.positions import MAX_WHOLE
from zsched_tools.program import LAST_MOMENT, MOST_ENTRIES, cut_plans, job_text, run_plan
from zsched_tools.reports import attempts_in, blocks_of, ending_in
from zsched_tools.schedule_text import TOKEN
from zsched_tools.trials import tried_in

MOST_HISTORIES, SHORT, MOST_TEXT = 3000, 8, 20_000_000


def canonical(policy):
    """The canonical spelling of a policy that the program has read, as tokens, with the range of each draw."""
    tokens = " ".join(found[0] for found in TOKEN.finditer(policy.schedule(RANGES)))
    return re.sub(r"exponential \( ([^(),]*) \)", r"exponential ( \1 , 2 )", tokens)


def _edges(policies, more, least, most):
    """The numbers at and beside each one of some texts, and others, that are within limits."""
    numbers = {int(it) for policy in policies for it in re.findall("[0-9]+", policy.schedule(HIGH))} | set(more)
    return sorted({number + by for number in numbers for by in (-1, 0, 1)
                   if least <= number + by <= most} | {least, min(most, max(numbers) + 1)})


def _histories(policies, first, limits, most):
    """Lists of attempts, each a duration and an input: all alike, one of another kind, and any."""
    values, times = _edges(policies, [first[2], 0], 0, MAX_WHOLE), _edges(policies, [first[0]], *limits)
    count = max([SHORT, *(it + 2 for it in values if it + 2 < MOST_ENTRIES)])
    alike = [(first[0], value) for value in values] + [(time, first[2]) for time in times]
    yield from ([it] * size for size in (1, count) for it in alike)
    for place in range(4):
        yield from ([(first[0], first[2])] * place + [it] * SHORT for it in alike)
        yield from ([(first[0], first[2])] * place + [it] + [(first[0], first[2])] * SHORT for it in alike)
    chance = random.Random(0)
    for _ in range(most):
        yield [(chance.choice(times), chance.choice(values)) for _ in range(chance.randint(1, SHORT))]


def _spelled(history):
    """Attempts in words, as the page takes them: 40 err 503 x3, 40 ok 200."""
    runs = [(it, len(list(group))) for it, group in itertools.groupby(history)]
    return ", ".join(" ".join(map(str, it)) + (f" x{count}" if count > 1 else "") for it, count in runs)


def told_apart(zsched, policies, mode, first, limits, seed):
    """The shortest history that was found, and what both do, in lines; or the number of the histories."""
    word, other = ("err", "ok") if mode == "retry" else ("ok", "err")
    sources = {"": seeded(seed), ", with the least draws": LOW, ", with the greatest draws": HIGH}
    sources = sources if any(it.is_drawn for it in policies) else {"": LOW}
    texts = {name: [policy.schedule(source) for policy in policies] for name, source in sources.items()}
    most = min(MOST_HISTORIES, MOST_TEXT // max(len("".join(it)) + 4000 for it in texts.values())) // len(texts)
    tried, jobs = [], []
    for name, history in itertools.product(texts, itertools.islice(_histories(policies, first, limits, most), most)):
        entries = [*((ms, word, value) for ms, value in history), (first[0], other, 200)]
        script = ",".join(f'{{"ms":{ms},"{how}":{value}}}' for ms, how, value in entries)
        jobs += [job_text(f"{which}{len(tried)}", text, script, mode) for which, text in zip("AB", texts[name])]
        tried.append((name, entries))
    blocks = [block for plan in cut_plans(LAST_MOMENT, jobs)[0] for block in blocks_of(run_plan(zsched, plan))]
    found = [(max(len(attempts_in(it)) for it in pair), number, pair)
             for number, pair in enumerate(zip(blocks[::2], blocks[1::2]))
             if len({(*attempts_in(it), ending_in(it)) for it in pair}) > 1]
    if not found:
        return [f"no difference found in {len(tried):,} histories; not proved equal"]
    size, number, pair = min(found)
    name, entries = tried[number]
    return [f"these attempts tell them apart{name}: {_spelled(entries[:size])}",
            *(f"   {which} {next(tried_in(block)).line()}" for which, block in zip("AB", pair))]
