"""Schedules with steps, and the line that a client of the library has to print of each, by tests/reference.py."""
import functools
import random

import generator
import reference
from generator import seldom

NODES = [1, 1, 2, 2, 3, 3, 4, 5, 6, 7, 8, 10, 12, 16, 20, 30, 60]
NUMBERS = {"no term": 11, "too big": 12, "number too large": 13, "factor is 0": 14, "no kind": 15, "window is 0": 16}
KEEPS_LIST = "6,0,an output with a list has no state of fixed size"
FALLS = "3,0,the moment is below that of the step before it"


class History:
    """A text and its steps. `fault` is the last word of its line, if there is one, and `steps` the words before it.
    Each step visits 1 to `weight` nodes."""

    def __init__(self, text, pairs=()):
        self.text, self.pairs, self.steps, self.weight, self.fault = text, list(pairs), [], 0, None
        try:
            text.decode()
            self.follow(reference.read_schedule(text))
        except UnicodeDecodeError as fault:
            self.fault = f"4,{fault.start},not UTF-8 at byte {fault.start}"
        except reference.Fault as fault:
            said, _, at = str(fault).partition(" at byte ")
            self.fault = f"{NUMBERS[said]},{at or 0},{fault}"

    def follow(self, schedule):
        """Works out the weight, and the steps up to the first moment that falls."""
        self.weight, known = reference.read_spelled(reference.Tokens(self.text)).weight, {}
        for end, (moment, _) in enumerate(self.pairs, 1):
            if end > 1 and moment < self.pairs[end - 2][0]:
                self.fault = FALLS
                return
            out, following = reference.step(schedule, reference.History(self.pairs, known, 0, end))
            self.steps.append(f"{int(following is None)},{following or 0},{reference.out_text(out)}")

    @property
    def has_list(self):
        """Whether it is a schedule whose output has a list, so that its state has no fixed size."""
        return bool(self.weight) and has_list(reference.kind_of(reference.read_schedule(self.text)))

    @property
    def is_flat(self):
        """Whether it is a schedule with a state of fixed size, and with steps."""
        return bool(self.steps) and not self.has_list

    def request(self, command):
        return " ".join([command, f".{self.text.hex()}", *[str(number) for pair in self.pairs for number in pair]])

    def differs(self, line, command, longest=None):
        """What is wrong with a client's line for the request, or None. Moments above the longest one are Infinity."""
        steps, fault = ([], KEEPS_LIST) if self.has_list else (self.steps, self.fault)
        if longest:
            parts = [it.split(",", 2) for it in steps]
            steps = [",".join([done, "Infinity" if int(next_) > longest else next_, out]) for done, next_, out in parts]
        words = line.split(" ", len(steps))
        if command == "visits":
            words = [step for it, step in zip(words, steps) if 0 < int(it) <= self.weight] + words[len(steps):]
        if [it for it in words if it] == [*steps, *[fault] * bool(fault)]:
            return None
        return f"{self.request(command)}: {line}"


def has_list(kind):
    """Whether outputs of a kind have a list in them."""
    return kind[0] == "Items" or any(map(has_list, kind[1:]))


def made_text(chance):
    """A text: mostly a schedule, now and then one with a fault, or bytes that are no text."""
    text = generator.at_a_limit(chance) if seldom(chance, 100) else generator.made_term(chance, chance.choice(NODES))[0]
    text = generator.spelled(chance, text)
    data = (chance.choice(generator.SPOILED)(chance, text) if seldom(chance, 7) else text).encode()
    at = chance.choice(range(len(data) + 1))
    return data[:at] + chance.choice(generator.BYTES) + data[at:] if seldom(chance, 60) else data


def made_pairs(chance, most):
    """Steps at random moments: mostly in order, now and then with a fall."""
    moments = [generator.whole(chance)
               for _ in range(chance.choice([it for it in [1, 2, 3, 5, 8, 13, 20, 40, 40] if it <= most]))]
    return [(moment, generator.whole(chance)) for moment in (moments if seldom(chance, 10) else sorted(moments))]


def driven(chance, text):
    """Steps as a retry makes them: each attempt begins when the step before allows, until the schedule is done."""
    pairs = [(generator.whole(chance), generator.whole(chance))]
    while len(pairs) < 8:
        is_done, following, *_ = History(text, pairs).steps[-1].split(",")
        if is_done == "1":
            break
        pairs.append((min(reference.M, int(following) + 1 + generator.whole(chance)), generator.whole(chance)))
    return pairs


def made_history(seed):
    chance = random.Random(seed)
    text = made_text(chance)
    made = History(text, made_pairs(chance, 8 if text.count(b"collectAll") > 1 else 40))
    return History(text, driven(chance, text)) if made.steps and seldom(chance, 4) else made


@functools.cache
def histories():
    """Histories of which 2,000 have a state of fixed size; and those without a fault."""
    found, flat, seed = [], 0, 0
    while flat < 2000:
        found.append(made_history(seed))
        flat, seed = flat + found[-1].is_flat, seed + 1
    return found


def judge(client, asked, command, *more, longest=None, **named):
    """Compares the lines that a client prints of histories with those that they must have."""
    lines = client.says([it.request(command) for it in asked], *more, **named)
    assert len(lines) == len(asked)
    wrong = [text for line, it in zip(lines, asked) if (text := it.differs(line, command, longest))]
    assert not wrong, f"{len(wrong)} lines are wrong, such as {wrong[0]}"
