"""Cases for all ten calls of zsched.h, each a line: a text, as client.c has it, a driver, a number of steps, and turns.
tests/clients/calls.c and calls.js print a line of each."""
import functools
import itertools
import random

from histories import made_text
from reference import M

NS = 10 ** 6


def made_driver(chance):
    """What a driver may do, now and then what none does."""
    least, low = chance.choice([0, 1, 1, 1, 5, 100]), chance.choice([0, 50, 100, 100])
    most, high = max(0, least + chance.choice([-1, 0, 0, 10, 5000])), max(low, chance.choice([100, 150]))
    return [least, chance.choice([0, 1]), most, low, max(0, high - chance.choice([0] * 9 + [60])),
            chance.choice([0, 0, 100, 3600000]), chance.choice([0, 0, 50, M])]


def made_turns(chance):
    """Turns of a loop, whose clock falls now and then."""
    at = 0
    for _ in range(chance.choice([0, 1, 3, 10, 40])):
        began = at + chance.choice([0, 1, 1000, NS, 1000 * NS, NS * NS]) * chance.choice([0, 1, 2])
        ended = began + chance.choice([0, 1, NS - 1, NS, 100 * NS, 10 ** 10]) * chance.choice([0, 1, 2])
        ended = chance.choice([ended] * 60 + [max(0, began - 5), M - chance.choice([0, 1, 2])])
        yield [began, ended, chance.choice([0, 1, 2, 3, 404, 500, 503, M]), chance.choice([0, 0, 0, 10, 10 ** 7, M]),
               chance.choice([0, 5, 3600000, M]), chance.choice([0, 0, 50, 100, 130]), chance.getrandbits(32)]
        at = ended if ended < M // 2 else at


def case(seed):
    chance = random.Random(seed)
    text, turns = made_text(chance), list(made_turns(chance))
    words = [*made_driver(chance), chance.choice([0, 1, 10, 60, 200]), len(turns), *itertools.chain(*turns)]
    return " ".join([f".{text.hex()}", *map(str, words)])


@functools.cache
def cases(number):
    """This many cases, as lines."""
    return [f"{case(seed)}\n".encode() for seed in range(number)]
