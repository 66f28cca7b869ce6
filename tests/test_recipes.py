"""docs/RECIPES.md: each recipe's schedule is one of its plan, the lines shown are lines of its report (test_cases.py
runs it), commands print what is shown, and the schedules for ZIO's return what ZIO's definitions do."""
import json
import os
import random
import re
import subprocess
import sys
import types

import pytest

import zio_model as zio
from languages import need
from reports import jobs_of
from support import TOP, run
from test_documents import anchor_of

PAGE = (TOP / "docs" / "RECIPES.md").read_text()
TASKS, TABLES = PAGE.split("\n## For those who come from ZIO\n")
TASKS, COMMANDS = TASKS.split("\n## Commands\n")
HEAD, *SECTIONS = TASKS.split("\n### ")
COMMANDS = COMMANDS.split("\n### ")[1:]
BLOCK = re.compile(r"^```(\w+)\n(.*?)^```$", re.MULTILINE | re.DOTALL)


def title_of(section): return section.split("\n")[0]


each_task = pytest.mark.parametrize("section", SECTIONS, ids=title_of)


def plans_of(section):
    found = re.findall(r"\]\(\.\./examples/([a-z_0-9]+)\.json\)", section)
    assert found, "no plan"
    paths = [TOP / "examples" / f"{name}.json" for name in found]
    return [(path.read_bytes(), path.with_suffix(".json.stdout").read_bytes()) for path in paths]


def test_the_readme_says_how_many_tasks_there_are():
    assert f"has {len(SECTIONS)} tasks" in (TOP / "README.md").read_text()


def test_the_top_lists_the_tasks_and_the_commands():
    titles = [title_of(section) for section in SECTIONS]
    assert re.findall(r"^\| \[(.*?)\]\(#(.*?)\)", HEAD, re.MULTILINE) == [(title, anchor_of(title)) for title in titles]
    listed = re.search(r"^With commands: (.*?)\.$", PAGE, re.MULTILINE | re.DOTALL)[1]
    titles = [title_of(section) for section in COMMANDS]
    assert re.findall(r"\[(.*?)\]", listed) == [title[0].lower() + title[1:] for title in titles]


@each_task
def test_schedules_are_those_of_the_plans(section):
    said = re.search(r"^- Schedules? (.*?)^- Plan", section, re.MULTILINE | re.DOTALL)[1]
    texts = [text for text in re.findall(r"`([^`]*)`", said) if not re.search(r"\b[A-Z]+\b", text)]
    schedules = [job["schedule"] for plan, _ in plans_of(section) for job in json.loads(plan)["jobs"]]
    assert set(texts) & set(schedules), "no schedule of the plan"
    assert [text for text in texts if not any(text in schedule for schedule in schedules)] == []


@each_task
def test_lines_shown_are_lines_of_the_report(section):
    shown = [text for language, text in BLOCK.findall(section) if language == "text"]
    reports = ["\n" + report.decode() for _, report in plans_of(section)]
    assert shown, "no line is shown"
    assert [text for text in shown if not any("\n" + text in report for report in reports)] == []


def blocks():
    """The files by name of each section of commands, and each of its commands with the output that is shown."""
    for section in COMMANDS:
        found = BLOCK.findall(section)
        files = [text for language, text in found if language not in ("sh", "text")]
        named = dict(zip(re.findall(r"^As `([\w.]+)`", section, re.MULTILINE), files, strict=True))
        for (language, text), after in zip(found, [*found[1:], ("", "")]):
            if language == "sh":
                marks = pytest.mark.full if "pandas" in text else ()
                yield pytest.param(named, text, after[1] if after[0] == "text" else None, marks=marks,
                                   id=title_of(section))


@pytest.mark.parametrize("files, command, shown", blocks())
def test_a_command_prints_what_is_shown(files, command, shown, zsched, tmp_path):
    """In a folder that has the section's files and the examples."""
    for link, target in [("examples", TOP / "examples"), ("zsched", zsched.resolve()), ("python3", sys.executable)]:
        (tmp_path / link).symlink_to(target)
    for name, text in files.items():
        (tmp_path / name).write_text(text)
    environment = {**os.environ, "PATH": f"{TOP / 'tools'}:{tmp_path}:{os.environ['PATH']}"}
    need(*(tool for tool in ["jq", "make"] if f"{tool} -" in command))
    if "pandas" in command and run([sys.executable, "-c", "import pandas"], b"")[0]:
        pytest.skip("pandas (Debian: python3-pandas) isn't on this machine")
    ended = subprocess.run(["bash", "-c", f"set -o pipefail\n{command}"], cwd=tmp_path, capture_output=True, text=True,
                           check=False, timeout=60, env=environment)
    assert ended.returncode == 0, ended.stderr
    assert shown in [None, ended.stdout]


# What the letters of the tables represent: d, e, k and N, several times.
LETTERS = [(25, 40, 3, 6), (6, 9, 1, 10), (4, 70, 5, 0)]


def rows():
    """The rows of the tables for those who come from ZIO: the names in ZIO, the text here, and the remark."""
    for line in TABLES.splitlines():
        cells = [cell.strip().replace("\\|", "|") for cell in re.split(r"(?<!\\)\|", line)[1:-1]]
        if len(cells) == 3 and cells[0] not in ("ZIO 2", "Effect", "cats-retry", "---"):
            yield cells


SAME = {name: text for name, text, said in rows() if said.startswith("same")}


def part(schedule, text): return types.SimpleNamespace(model=schedule, text=text)


def parts_of(row, k):
    """The schedules s, a and b of a row. Some rows need one that ends, or one that continues immediately."""
    seen = zio.both(zio.linear(3), zio.identity())
    s = part(seen.map(lambda out: 2 * out[1]), "(linear(3) && identity).map(_2).map(* 2)")
    if row == "`s.forever`":
        s = part(zio.both(zio.recurs(k), zio.spaced(7)).map(lambda out: 77), f"(recurs({k}) && spaced(7)).map(as 77)")
    if row == "`s.addDelay(_ => d)`":
        s = part(zio.recurs(k), f"recurs({k})")
    a = part(zio.both(zio.spaced(4), zio.recurs(2)).map(lambda out: out[1]), "(spaced(4) && recurs(2)).map(_2)")
    return {"s": s, "a": a, "b": part(zio.exponential(5), "exponential(5)")}


# ZIO's schedule of each row of the tables that says 'same', as a term of the names of zio_model and of a row's letters.
DEFINITIONS = dict(line.split("\t") for line in (TOP / "tests" / "zio.tsv").read_text().splitlines())


def script_of(chance, key):
    times, values = [1, 1, 2, 3, 9, 60], [0, 1, 3, 5, 6, 8, 9, 10]
    return [{"ms": chance.choice(times), key: chance.choice(values)} for _ in range(chance.randrange(1, 9))]


def first_difference(schedule, steps):
    """The first step at which ZIO's schedule differs from the steps of a job, or None."""
    state = schedule.initial
    for number, (now, given, out, after) in enumerate(steps, 1):
        state, wanted, later = schedule.step(now, given, state)
        if (zio.text_of(wanted), later) != (out, after):
            return f"step {number} at {now}, input {given}: ZIO {zio.text_of(wanted)} {later}, here {out} {after}"
    return None


@pytest.mark.parametrize("name, text, said", rows(), ids=lambda cell: cell.strip("`")[:40])
def test_a_row_for_zio_says_what_it_is(name, text, said):
    begin = r"(same|own rule|drawn|dropped|mode|from memory)\b" if text else "(left out: |a job of a plan)"
    assert re.match(begin, said)


def test_each_row_that_says_the_same_has_a_definition():
    assert list(SAME) == list(DEFINITIONS)


@pytest.mark.parametrize("name", SAME)
def test_the_same_has_the_outputs_and_decisions_of_zio(name, zsched):
    chance, jobs, models = random.Random(name), [], []
    for numbers in LETTERS:
        parts = parts_of(name, numbers[2])
        texts = dict(zip("dekN", map(str, numbers))) | {letter: it.text for letter, it in parts.items()}
        text = re.sub(r"\b[sabdekN]\b", lambda found: texts[found[0]], SAME[name].strip("`"))
        for mode, key in [("retry", "err"), ("repeat", "ok")] * 3:
            letters = dict(zip("dekn", numbers)) | {letter: it.model for letter, it in parts.items()}
            models.append(eval(DEFINITIONS[name], {**vars(zio), **letters}))
            jobs.append({"name": f"j{len(jobs)}", "mode": mode, "schedule": text, "script": script_of(chance, key)})
    status, report, errors = run(zsched, json.dumps({"horizon": 1500, "jobs": jobs}).encode())
    assert (status, errors) == (0, b"")
    for model, job, ran in zip(models, jobs, jobs_of(report), strict=True):
        assert ran.steps and first_difference(model, ran.steps) is None, job


def after_calm(schedule, calm):
    """The schedule, which starts again at a step that comes at least `calm` after the step before it."""
    def step(now, given, state):
        last, inner = state
        begins_anew = last is not None and now - last >= calm
        inner, out, after = schedule.step(now, given, schedule.initial if begins_anew else inner)
        return (now, inner), out, after
    return zio.Schedule((None, schedule.initial), step)


def test_a_calm_is_the_time_between_two_failures(zsched):
    example = json.loads((TOP / "examples" / "start_over_after_calm.json").read_bytes())
    schedule = after_calm(zio.either(zio.exponential(100), zio.spaced(2000)), 5000)
    chance = random.Random(3)
    times = [10, 50, 2950, 2999, 3000, 3001, 4899, 4900, 4901, 6000]
    jobs = [{"name": f"j{number}", "mode": "retry", "schedule": example["jobs"][0]["schedule"],
             "script": [{"ms": chance.choice(times), "err": 1} for _ in range(30)] + [{"ms": 1, "ok": 0}]}
            for number in range(100)]
    status, report, _ = run(zsched, json.dumps({"horizon": 1000000, "jobs": jobs}).encode())
    steps = [job.steps for job in jobs_of(report)]
    assert (status, [len(its) for its in steps]) == (0, [30] * 100)
    assert [first_difference(schedule, its) for its in steps] == [None] * 100
