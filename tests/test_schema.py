"""docs/plan.schema.json: what it accepts, what it rejects, and that the program rejects whatever it rejects. The
validator is the Python package jsonschema (Debian: python3-jsonschema)."""
import contextlib
import json
import random
import re

import pytest

import faults
import generator
from support import TOP, job, plan, plans_with_reports, rows, run

jsonschema = pytest.importorskip("jsonschema")

SCHEMA = json.loads((TOP / "docs" / "plan.schema.json").read_text())
VALIDATOR = jsonschema.Draft202012Validator(SCHEMA)
SEEDS = [path.read_bytes() for path in sorted(TOP.glob("examples/*.json"))]
# A plan of more bytes takes the validator long.
LONGEST = 20000
CHANGES = 2000
# What the schema can't express, as docs/FORMATS.md says: faults, and plans, some of them by their names.
UNTOLD = re.compile(r"name used before|too big|number too large|no kind")
MISSED = rows("missed.jsonl")


def described(part, place):
    """Each key that a part of the schema describes, with its place and its description."""
    for key, value in part.get("properties", {}).items():
        yield f"{place}.{key}", value.get("description", "")
    for name, value in part.get("$defs", {}).items():
        yield name, value.get("description", "")
        yield from described(value, name)


KEYS = dict(described(SCHEMA, "plan"))


def accepts(data):
    """Whether the schema accepts a plan, or None if it isn't JSON."""
    with contextlib.suppress(ValueError, RecursionError):
        return VALIDATOR.is_valid(json.loads(data))


def test_it_is_a_schema():
    jsonschema.Draft202012Validator.check_schema(SCHEMA)


def test_each_key_has_a_description():
    assert len(KEYS) == 15 and all(len(text) > 20 for text in KEYS.values()), KEYS


@pytest.mark.parametrize("key, text", rows("described.jsonl"))
def test_ranges_and_units_are_described(key, text):
    assert text in KEYS[key]


@pytest.mark.parametrize("path", plans_with_reports(), ids=lambda path: path.stem)
def test_it_accepts_a_plan_of_the_repository(path):
    assert accepts(path.read_bytes())


def test_it_accepts_random_schedules():
    chance = random.Random(20)
    for _ in range(500):
        text = generator.spelled(chance, generator.made_term(chance, chance.choice([1, 2, 3, 5, 12]))[0])
        assert accepts(plan([job(schedule=text)])), text


@pytest.mark.parametrize("text", SCHEMA["$defs"]["job"]["properties"]["schedule"]["examples"])
def test_its_own_examples_are_right(text, zsched):
    data = plan([job(schedule=text)])
    assert (accepts(data), run(zsched, data)[0]) == (True, 0)


@pytest.mark.parametrize("verdict, data", [
    pytest.param(verdict, data, id=name) for verdict, name, data in faults.lines_of("schema.tsv")])
def test_a_faulty_plan_is_marked_or_missed_as_the_table_says(verdict, data, zsched):
    assert (accepts(data), run(zsched, data)[0]) == (verdict == "missed", 2)


def test_it_rejects_each_fault_that_it_can_express():
    rejected = 0
    for name, data, fault in faults.refused():
        is_valid = accepts(data) if len(data) <= LONGEST else None
        rejected += is_valid is False
        assert not is_valid or UNTOLD.search(fault) or name in MISSED, name
    assert rejected > 180


@pytest.mark.parametrize("chunk", generator.chunks(CHANGES))
def test_the_program_rejects_whatever_it_rejects(chunk, zsched):
    rejected = []

    def holds(data):
        if accepts(data) is False:
            rejected.append(data)
            assert run(zsched, data, seconds=5)[0] == 2
    generator.hold(chunk, holds, generator.made(
        lambda chance: generator.mutated(chance, chance.choice(SEEDS), chance.choice([1, 1, 2]))))
    assert len(rejected) > generator.CHUNK // 5
