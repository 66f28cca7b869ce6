"""What runs cost and how that grows: instructions, the peak memory in bytes, and allocations.

A row is an input of n and of 4n things, such as attempts or jobs. What no things cost is subtracted from both. The
larger run may take at most 4.4 times the instructions and bytes of the smaller, and each further thing at most the
row's limits.
Bytes and allocations are exact, their limits a twentieth above; instructions have more room, and so much in rows that
catch survivors that a program without proofs passes. valgrind's dhat counts; `-rP` shows what each row costs."""
import json
import re
import subprocess
from typing import NamedTuple

import pytest

import test_large_plans
from languages import client, need, request
from support import TOP, tree
from test_large_plans import job

PATIENCE = 240
FAR = 10 ** 9
# Below these a cost counts as zero, and its growth is not tested.
FEW_INSTRUCTIONS = 50_000
FEW_BYTES = 10_000
TOTAL = re.compile(r"Total: +[\d,]+ bytes in ([\d,]+) blocks")
MOST_AT_ONCE = re.compile(r"At t-gmax: +([\d,]+) bytes")
INSTRUCTIONS = re.compile(r'^,"te":(\d+)', re.M)
POLICY = "((exponential(100) || spaced(5000)) && recurs({})).whileInput(>= 500)"


class Cost(NamedTuple):
    instructions: float
    held: float
    allocations: float

    def less(self, other, things=1):
        """What this costs more than another, for each of a number of things."""
        return Cost(*((mine - its) / things for mine, its in zip(self, other)))

    def __str__(self):
        return f"{self.instructions:,.0f} instructions, {self.held:,.1f} bytes, {self.allocations:,.2f} allocations"


class Row(NamedTuple):
    """A line of growth.tsv: the program's fixture, the smaller n (0: nothing grows), the limit for each further thing
    or the run, the input of n things in Python, the status, and how often the larger run may cost the smaller."""
    runs: str
    size: int
    most: Cost
    made: str
    status: float = 0
    times: float = 4.4

    def input(self, n): return eval(self.made, globals() | {"n": n})


def plan(jobs, **more): return test_large_plans.plan(jobs, **{"horizon": FAR, **more}).decode()
def one(schedule, values=(0,), **more): return plan([job(0, schedule, values)], **more)
def jobs_of(count, schedule, **more): return plan([job(number, schedule) for number in range(count)], **more)


def pairs(count, value=None):
    """`count` pairs of a moment and an input, which is the moment if no other is given."""
    return [number for moment in range(count) for number in (moment, moment if value is None else value)]


LINES = [it.split("\t") for it in (TOP / "tests" / "growth.tsv").read_text().splitlines() if it[0] != "#"]
ROWS = {name: Row(runs, int(size), Cost(*map(float, most.split())), made, *map(float, more))
        for name, runs, size, most, made, *more in LINES}
# The input of each program with no things.
NOTHING = {"zsched": plan([]), "refusals": "jobs\n" + plan([]), "client": ""}


@pytest.fixture
def cost(tmp_path):
    """A function that runs a program under dhat."""
    need("valgrind")

    def measure(program, text, status=0):
        words = ["valgrind", "--tool=dhat", f"--dhat-out-file={tmp_path / 'dhat'}", program]
        ended = subprocess.run(words, input=text, capture_output=True, text=True, timeout=PATIENCE, check=False)
        assert ended.returncode == status, ended.stderr[-300:]
        # A request to the library prints empty lines for steps, or a line that begins with 0.
        assert "client" not in str(program) or ended.stdout[:2] in ["", "\n\n", "0 "], ended.stdout[:40]
        allocations, held = (int(form.search(ended.stderr)[1].replace(",", "")) for form in [TOTAL, MOST_AT_ONCE])
        return Cost(int(INSTRUCTIONS.search((tmp_path / "dhat").read_text())[1]), held, allocations)
    return measure


@pytest.mark.parametrize("name", ROWS)
def test_cost(name, cost, request):
    row = ROWS[name]
    program = request.getfixturevalue(row.runs)
    program = program("C").words[0] if row.runs == "client" else program
    if not row.size:
        each = cost(program, row.input(0), row.status)
    else:
        nothing = cost(program, NOTHING[row.runs])
        small, large = (cost(program, row.input(size), row.status).less(nothing) for size in [row.size, 4 * row.size])
        print(f"{row.size} cost {small}\n{4 * row.size} cost {large}")
        assert large.instructions <= row.times * max(small.instructions, FEW_INSTRUCTIONS)
        assert large.held <= row.times * max(small.held, FEW_BYTES)
        each = large.less(small, 3 * row.size)
    print(f"each costs {each}")
    assert all(found <= most for found, most in zip(each, row.most)), f"{each}, at most {row.most}"
