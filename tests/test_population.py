"""zsched-population: the report of a population is that of its jobs as one plan, and an error has its line's number.
The reports of ranges join to it, and a change of a byte is found. Lines of any form, blocks, broken streams and what is
no report of a range are the cases in tests/cases/zsched-population.txt."""
import hashlib
import json
import random
import re

import pytest

import faults
import generator
import reference
import support
from support import examples, run

BLOCK = 10000


def judge(population, lines, status, output, said=""):
    errors = f"zsched-population: {said}\n" if said else ""
    assert run(population, b"".join(line + b"\n" for line in lines), seconds=100) == (status, output, errors.encode())


def both(chance, tree):
    """A plan as the lines of a population, and the plan that these lines are together."""
    head = generator.json_text(chance, {key: value for key, value in tree.items() if key != "jobs"})
    lines = [generator.json_text(chance, one, chance.random() < 0.2).replace("\n", " ") for one in tree["jobs"]]
    plan = head[:-1] + ("," if len(head) > 2 else "") + '"jobs":[' + ",".join(lines) + "]}"
    return [line.encode() for line in [head, *lines]], plan.encode()


def test_a_population_is_reported_as_its_plan(population):
    chance, reports, texts = random.Random(1), 0, set()
    for number in range(examples(900)):
        tree = (generator.made_plan if number % 3 else generator.faulty_plan)(chance)
        if not isinstance(tree, dict) or not isinstance(tree.get("jobs"), list) or len(tree["jobs"]) > BLOCK:
            continue
        lines, plan = both(chance, tree)
        status, output, text = reference.answer(plan)
        said = text.decode().removeprefix("zsched: ").rstrip("\n")
        of_job = re.match(r"job (\d+):", said)
        judge(population, lines, status, output, said and f"line {int(of_job[1]) + 2 if of_job else 1}: {said}")
        reports += status == 0
        texts.add(re.sub(r"\d+", "N", said))
    assert reports >= 500 and len(texts) > 15, sorted(texts)


FAULTS = [(fault.told(numbers), name, plan, numbers) for fault in faults.table() if fault.text.startswith("job N")
          for name, plan, numbers in fault.plans]


@pytest.mark.parametrize("said, name, plan, numbers", FAULTS, ids=[name for _, name, _, _ in FAULTS])
def test_every_fault_of_a_job_has_its_line(population, said, name, plan, numbers):
    head, listed = re.fullmatch(rb'(\{"horizon":1000),"jobs":\[(.*)\]\}', plan, re.DOTALL).groups()
    # The jobs of these plans begin with their names.
    lines = [head + b"}", *re.split(rb',(?=\{"name":)', listed)]
    judge(population, lines, 2, b"", f"line {numbers[0] + 2}: {said}")


def range_report(lines, first, end, report):
    """The report of a range of jobs, and its trailer."""
    text = b"".join(line + b"\n" for line in lines)
    origin = {"jobs": f"{first}..{end}", "lines": len(lines), "population": hashlib.sha256(text).hexdigest()}
    before = report + json.dumps(origin, separators=(",", ":")).removesuffix("}").encode() + b',"report":"'
    return before + hashlib.sha256(before).hexdigest().encode() + b'"}\n'


def ranges(chance, count):
    """Ranges of jobs in order, up to the last of `count` jobs or beyond. Some are empty."""
    ends = sorted(chance.randint(0, count) for _ in range(chance.randrange(4)))
    ends = [0, *ends, count + chance.choice([0, 0, 1, 99])]
    return list(zip(ends, ends[1:]))


def joined(population, folder, text, reports):
    """What joining reports gives, each of which is written to a file."""
    paths = [folder / f"{number}.report" for number in range(len(reports))]
    for path, report in zip(paths, reports):
        path.write_bytes(report)
    return run([population, "--check", *paths], text)


def test_ranges_have_the_reports_of_their_jobs_and_join_to_the_whole_report(population, tmp_path):
    attempts = count = 0
    for chance in map(random.Random, range(examples(220))):
        tree = generator.made_plan(chance)
        lines, plan = both(chance, tree)
        status, whole, _ = reference.answer(plan)
        if status != 0:
            continue
        text, reports = b"".join(line + b"\n" for line in lines), []
        for first, end in ranges(chance, len(tree["jobs"])):
            part = generator.json_text(chance, tree | {"jobs": tree["jobs"][first:end]})
            reports.append(range_report(lines, first, end, reference.answer(part.encode())[1]))
            assert run([population, "--jobs", f"{first}..{end}"], text) == (0, reports[-1], b""), text
        assert joined(population, tmp_path, text, reports) == (0, whole, b""), text
        attempts, count = attempts + whole.count(b"\nattempt "), count + 1
    assert count >= 200 and attempts > 2000


# The first place at which a change shows: a report, counted from 1, or a line of the population.
SAID = rb"zsched-population: (report (\d): .*|line \d+: .*)\n"


def test_a_change_of_a_byte_a_bit_or_a_digit_is_found(population, tmp_path):
    """Of the bytes of reports, trailers and the population."""
    names, chance, found = [f"job-{number}" for number in range(11)], random.Random(11), 0
    text, whole = support.population(names, 1, 1), support.equal_jobs(names, 1, 1)[1]
    ends = [(0, 4), (4, 8), (8, 11)]
    good = [range_report(text.splitlines(), first, end, support.equal_jobs(names[first:end], 1, 1)[1])
            for first, end in ends]
    for _ in range(examples(300)):
        files, number = [*good, text], chance.randrange(4)
        changed, kind = bytearray(files[number]), chance.choice(["byte", "bit", "digit"])
        at = chance.choice([at for at, byte in enumerate(changed) if kind != "digit" or 48 <= byte < 58])
        others = {"byte": range(256), "digit": range(48, 58), "bit": [changed[at] ^ 1 << bit for bit in range(8)]}[kind]
        changed[at] = chance.choice([byte for byte in others if byte != changed[at]])
        files[number] = bytes(changed)
        status, output, said = joined(population, tmp_path, files[3], files[:3])
        assert status == 2 and (place := re.fullmatch(SAID, said)), (number, changed, said)
        assert number == 3 or int(place[2] or 0) == number + 1, (number, changed, said)
        assert whole.startswith(output) and output != whole
        found += 1
    assert found > examples(300) * 0.95
    assert joined(population, tmp_path, text, good) == (0, whole, b"")
