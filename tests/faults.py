"""Plans that have a fault, and plans at the limits. The table of faults is faults.tsv, in the order of docs/FORMATS.md:
a line has the text of a fault, in which N is a number, these numbers, a name, a part of ONE_JOB and what that part is.
A line of limits.tsv has a name, the report, a part and what that is. ⟨9×x⟩ is x nine times, ⟨1..9×#⟩ are numbers with
commas between, ⟨ff⟩ is a byte, and ⟨plan⟩ is ONE_JOB."""
import functools
import pathlib
import re
from typing import NamedTuple

import pytest

import mistakes
from support import ONE_JOB, ONE_REPORT, job, plans_with_reports, report_beside, tree

# What the program writes if the plan has no fault but the run fails, by exit status.
OTHERS = {3: ["read failed", "write failed after N bytes"], 4: ["out of memory", "no thread"]}
NAMED = {"⟨plan⟩": ONE_JOB.decode(), "⟨report⟩": ONE_REPORT.decode(), "⟨job⟩": job(),
         "⟨500 leaves⟩": tree(500), "⟨501 leaves⟩": tree(501)}
# The text of ONE_JOB that each part takes the place of.
PARTS = {"plan": ONE_JOB.decode(), "clock": '"horizon":1000', "jobs": job(), "name": '"a"', "mode": "retry",
         "schedule": "recurs(3)", "script": '{"ms":5,"err":7},{"ms":5,"ok":1}', "end": '},{"ms":5,"ok":1}]'}


class Fault(NamedTuple):
    """A fault: its text, in which N is a number, and plans that have it, each with a name and these numbers."""
    text: str
    plans: list

    def told(self, numbers):
        """Its text with these numbers."""
        return re.sub(r"\bN\b", "{}", self.text).format(*numbers)


def written_out(text):
    """A text of the table as it is in the plan."""
    for name, value in NAMED.items():
        text = text.replace(name, value)
    return mistakes.written_out(re.sub(r"⟨(\d+)\.\.(\d+)×(.+?)⟩", lambda it: ",".join(
        it[3].replace("#", str(number)) for number in range(int(it[1]), int(it[2]) + 1)), text))


def lines_of(name):
    """The lines of a table, as the words before the last two, and the bytes of the plan that these make."""
    for line in (pathlib.Path(__file__).parent / name).read_text(encoding="utf-8").splitlines():
        *words, part, value = line.split("\t")
        before, _, after = ONE_JOB.decode().partition(PARTS[part])
        yield *words, (before + written_out(value) + after).encode(errors="surrogateescape")


@functools.cache
def table():
    """All faults of a plan, in the order in which they are checked."""
    found = {}
    for text, numbers, name, data in lines_of("faults.tsv"):
        found.setdefault(text, []).append((name, data, [int(number) for number in numbers.split()]))
    found["plan is not JSON"] += [(f"a plan cut at {end}", ONE_JOB[:end], []) for end in range(len(ONE_JOB))]
    return [Fault(text, plans) for text, plans in found.items()]


def refused():
    """All rejected plans, including those of mistakes.py: a name, the bytes, and the text of the fault."""
    cases = [(name, data, fault.told(numbers)) for fault in table() for name, data, numbers in fault.plans]
    return cases + [(name, text.replace("»", "", 1).encode(errors="surrogateescape"), fault)
                    for name, text, fault, _ in mistakes.MISTAKES]


def accepted():
    """Plans at the limits: a name, the bytes, and the report."""
    return [(name, data, written_out(report).encode()) for name, report, data in lines_of("limits.tsv")]


def outcomes():
    """Parameters for all of these plans: the bytes, and how a run of them ends."""
    return [pytest.param(text, (2, b"", f"zsched: {fault}\n".encode()), id=f"{number} {name}")
            for number, (name, text, fault) in enumerate(refused())] + [
        pytest.param(text, (0, report, b""), id=name) for name, text, report in accepted()]


def answers():
    """The same, but for 1,000,001 ticks, which take the reference long, and the plans with a report next to them."""
    return [it for it in outcomes() if "1,000,001" not in it.id] + [
        pytest.param(path.read_bytes(), (0, report_beside(path), b""), id=path.stem) for path in plans_with_reports()]


def lines():
    """The patterns of the lines that the program may write on standard error, by exit status."""
    texts = {2: [fault.text for fault in table()], **OTHERS}
    forms = {status: "|".join(map(re.escape, some)) for status, some in texts.items()}
    return {status: r"zsched: ({})\n".format(re.sub(r"\bN\b", r"\\d+", it)).encode() for status, it in forms.items()}
