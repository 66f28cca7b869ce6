"""zsched-explain: the table of mistakes, plans that are changed at random, and long plans. How a fault is shown is in
tests/cases/zsched-explain.txt."""
import contextlib
import json
import random
import re
import resource
import subprocess

import pytest
from hypothesis import given, settings
from hypothesis import strategies as st

import faults
from generator import mutated
from mistakes import MISTAKES, split
from support import TOP, examples, job, plan, rows, run_here
from zsched_tools import hints, json_reading, plan_size, positions, program
from zsched_tools.explain import all_faults, command

PLACE = re.compile(r"^ *--> plan\.json:(\d+):(\d+)$", re.M)


def told(data, status, line):
    """What the command writes on a plan on which the program ended so: status, output and errors."""
    return run_here(lambda: command.tell("plan.json", data, status, line), ["zsched-explain"])


@pytest.mark.parametrize("marked, fault, word", [it[1:] for it in MISTAKES], ids=[it[0] for it in MISTAKES])
def test_a_mistake_is_shown_at_its_place(marked, fault, word, zsched):
    data, line, column = split(marked)
    assert program.run(zsched, data) == (2, b"", f"zsched: {fault}\n".encode())
    ended, output, errors = told(data, 2, f"zsched: {fault}\n")
    assert (ended, output, errors.partition("\n")[0]) == (2, "", f"zsched: {fault}")
    assert PLACE.findall(errors) == [(str(line), str(column))]
    assert word in "".join(re.findall(r"^ *= help: (.*)$", errors, re.M))
    source, caret = re.search(r"^ *\d+ \|(.*)\n *\|( *\^+)", errors, re.M).groups()
    here = marked[marked.index("»") + 1:].split("\n")[0][:1]
    if here.isascii() and here.isprintable():
        assert source[caret.index("^"):][:1].strip() == here.strip()


TEXTS = st.text('aé😀"\\[]{},:\n/', max_size=6)
VALUES = st.recursive(
    TEXTS | st.sampled_from([0, -0.0, 17, 1.5, 1e300, 2**64, True, False, None]),
    lambda inner: st.lists(inner, max_size=3) | st.dictionaries(TEXTS, inner, max_size=3), max_leaves=20)


def value_of(node):
    if node.kind == "object":
        return {key.string(): value_of(value) for key, value in node.members()}
    if node.kind == "list":
        return [value_of(item) for item in node.items()]
    return json.loads(node.source)


@settings(max_examples=examples(1000))
@given(VALUES, st.booleans(), st.sampled_from([None, 1]))
def test_both_readers_of_json_agree_with_that_of_python(value, is_ascii, indent):
    text = json.dumps([value], ensure_ascii=is_ascii, indent=indent)
    assert value_of(positions.Document(text).root()) == [value]
    assert json_reading.fault_of(text) is None


def test_a_place_in_a_text_is_found_after_escapes():
    node = positions.Document('{"a": "x\\u0041\\ud83d\\ude00\\n\\\\é!"}').root().get("a")
    places = [node.place_in(index) - node.at for index in range(len(node.string()) + 1)]
    assert (node.string(), places) == ("xA😀\n\\é!", [1, 2, 8, 20, 22, 24, 25, 26])


def filled(text):
    """A schedule with its letters filled in: S, A, B are schedules, D, E, N, CAP numbers, C a comparison."""
    text = text.replace("andThenEither ..)", "andThenEither forever)").replace("C N", "< 5").replace("..", "< 5")
    text = re.sub(r"\b(S|A|B)\b", "forever", text).replace("map(F)", "map(+ 1)")
    return ("forever" if text.startswith(".") else "") + re.sub(r"\b(D|E|N|CAP)\b", "5", text)


def test_the_program_accepts_what_a_hint_says_to_write(zsched):
    found = [re.match(r"write (\.?\(*[A-Za-z].*?)(?:,|;| with| or | where|$)", help)
             for help in [*hints.ZIO.values(), *hints.SYMBOLS.values()]]
    texts = [filled(it[1]) for it in found if it]
    assert len(texts) > 40
    jobs = [job(f"j{number}", text, script='"script":[{"ms":1,"ok":1}]') for number, text in enumerate(texts)]
    assert program.run(zsched, plan(jobs, '"horizon":9'))[::2] == (0, b""), texts


@pytest.fixture
def two_gigabytes():
    """A limit of this process's memory."""
    limits = resource.getrlimit(resource.RLIMIT_AS)
    resource.setrlimit(resource.RLIMIT_AS, (2 << 30, limits[1]))
    yield
    resource.setrlimit(resource.RLIMIT_AS, limits)


def test_each_changed_plan_that_is_rejected_gets_a_place(zsched, two_gigabytes):
    chance, ends, count = random.Random(20), [], examples(2000)
    plans = [path.read_bytes() for path in sorted(TOP.glob("examples/*.json"))]
    for _ in range(count):
        data = mutated(chance, chance.choice(plans), chance.choice([1, 1, 1, 2, 3]))
        status, line = None, None
        with contextlib.suppress(subprocess.TimeoutExpired):
            status, line = command.outcome(zsched, data, 5)
        ends.append(status)
        if status == 0:
            assert told(data, 0, line) == (0, "plan.json: no fault\n", ""), data
        elif status == 2:
            ended, output, errors = told(data, 2, line)
            assert (ended, output, errors.split("\n")[0] + "\n") == (2, "", line), data
            assert "the fault is in" not in errors, data
            [(row, column)] = PLACE.findall(errors)
            lines = data.decode(errors="replace").split("\n")
            assert 1 <= int(row) <= len(lines) and 1 <= int(column) <= len(lines[int(row) - 1]) + 1, data
    assert ends.count(2) > count // 2 and ends.count(0) > count // 50
    assert ends.count(2) + ends.count(0) > count - count // 50


SCRIPTS = {name: f'"script":[{",".join([entry] * count)}]' for name, entry, count in [
    ("short", '{"ms":1,"ok":1}', 1000), ("long", '{"ms":1000,"ok":1732050807}', 64)]}


# Plans of nearly 16 MB of the parts that take longest: jobs with a script, or ticks, and then the text with a fault.
@pytest.mark.full
@pytest.mark.parametrize("kind, last, fault", rows("long_plans.jsonl"), ids=range(8))
def test_the_fault_at_the_end_of_a_long_plan_is_shown(kind, last, fault, zsched):
    script = SCRIPTS.get(kind)
    number = 16_000_000 // len(job(script=script)) + 1 if script else 0
    front = '{"horizon":1000,"jobs":[' + "".join(job(f"j{at}", script=script) + "," for at in range(number))
    if script is None:
        front = '{"jobs":[],"ticks":[' + "".join(f"{tick}," for tick in range(10**14, 10**14 + 10**6))
    data, _, column = split(front + last) if fault else ((front + last).encode(), 1, 0)
    assert 16_000_000 <= len(data) <= program.MAX_BYTES
    ended, output, errors = told(data, *command.outcome(zsched, data))
    said = f"zsched: {fault}".replace("job N", f"job {number}")
    assert (ended, output, errors.split("\n")[0]) == ((2, "", said) if fault else (0, "plan.json: no fault\n", ""))
    assert PLACE.findall(errors) == ([("1", str(column))] if fault else [])


def test_each_mistake_is_the_first_of_all_faults(zsched):
    for name, marked, fault, _ in MISTAKES[::7]:
        found = all_faults.all_faults(lambda text: command.outcome(zsched, text), split(marked)[0], 10)
        line, first = next(found)
        assert (line, first.cause.at) == (f"zsched: {fault}\n", marked.index("»")), name


@pytest.mark.parametrize("is_long, schedule, clock, entries", rows("sizes.jsonl"))
def test_a_plan_that_may_continue_for_long_gets_a_warning(is_long, schedule, clock, entries):
    found = plan_size.warning(plan([job("a", schedule, script=f'"script":[{entries}]')], clock))
    assert bool(found) == is_long
    assert not found or re.match(r"its attempts may be (?:more than 10\^)?[0-9,]+, more than 1,000,000: ", found)


def test_a_plan_with_one_tick_has_the_faults_of_the_plan(zsched):
    for name, data, text in faults.refused():
        changed = plan_size.with_one_tick(data)
        assert len(changed) <= len(data), name
        assert program.run(zsched, changed)[::2] == (2, f"zsched: {text}\n".encode()), name
    endless = plan([job("a", "forever")], '"horizon":999999999999999')
    assert program.run(zsched, plan_size.with_one_tick(endless))[0] == 0


@pytest.mark.parametrize("clock", rows("wrong_clocks.jsonl"))
def test_a_plan_with_a_wrong_clock_is_run_as_it_is(clock):
    data = plan([job("a", "forever")], clock)
    assert plan_size.with_one_tick(data) == data


def test_the_workers_of_each_example_and_of_each_plan_in_the_documents_pay():
    plans = {path.name: path.read_text() for path in TOP.glob("examples/*.json")}
    for page in [*TOP.glob("*.md"), *TOP.glob("docs/*.md")]:
        for at, text in enumerate(re.findall(r"^ *```\w*\n( *\{.*?)^ *```", page.read_text(), re.M | re.S)):
            # A population's first line is a plan without its jobs, which are the other lines.
            head, _, jobs = text.strip().partition("}\n{")
            plans[f"{page.name}, sample {at}"] = f'{head},"jobs":[{{{jobs.replace(chr(10), ",")}]}}' if jobs else text
    chosen = {name: text for name, text in plans.items() if '"workers"' in text and json.loads(text)["jobs"]}
    assert {"many_jobs_on_several_workers.json"} < chosen.keys()
    assert [name for name, text in chosen.items() if plan_size.workers_warning(text.encode())] == []


def test_no_plan_of_the_repository_is_large_and_an_invalid_one_has_no_size():
    plans = {path: path.read_bytes() for path in [*TOP.glob("examples/*.json"), *TOP.glob("tests/plans/*.json")]}
    plans |= {name: split(marked)[0] for name, marked, _, _ in MISTAKES}
    assert len(plans) >= 60 + len(MISTAKES)
    assert [name for name, data in plans.items() if plan_size.warning(data, 10**8) is not None] == []
