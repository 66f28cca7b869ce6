"""zsched-try, and the bounds in the tables of RECIPES and POLICIES. What it prints is in tests/cases/zsched-try.txt."""
import json
import random
import re
import shlex

import pytest
from hypothesis import given
from hypothesis import strategies as st

import bounds as interval_run
import reference
from case_files import cases
from reports import jobs_of
from support import TOP, examples, run, run_here
from test_driven import schedule_of
from zsched_tools import bounding, drawn, program, schedule_rules, trials
from zsched_tools.drawn import Policy
from zsched_tools.durations import milliseconds
from zsched_tools.policy import explaining
from zsched_tools.trying import command
from zsched_tools.words import duration

HEAD, *SECTIONS = (TOP / "docs" / "RECIPES.md").read_text().split("\n### ")
POLICIES = (TOP / "docs" / "POLICIES.md").read_text()
JOBS = json.loads((TOP / "examples" / "policies.json").read_text())["jobs"]
README = (TOP / "README.md").read_text()
SHOWN = re.findall(r"^\$ tools/zsched-try (.*?)\n(.*?)(?=```|^\$ )", README + "".join(SECTIONS), re.S | re.M)


def tool(*words): return run_here(command.main, ["zsched-try", *words])


@pytest.mark.parametrize("seed", range(12))
def test_a_line_has_the_figures_of_the_report(seed, zsched):
    chance = random.Random(seed)
    policies = ["spaced(30)", "exponential(20)", "(fixed(50) && recurs(7))", "fibonacci(10).whileOutput(< 90)",
                "(recurs(3) || spaced(40))", "identity.collectAll.whileOutput(size < 30)"]
    entries = [(chance.randint(1, 60), chance.choice(["ok", "err"]), chance.randint(0, 9)) for _ in range(4)]
    mode = chance.choice(["retry", "repeat"])
    jobs = [(f"job{at}", it, entries, mode) for at, it in enumerate(policies)]
    report = run(zsched, trials.plan_of(chance.randint(0, 900), jobs).encode())[1]
    for found, job in zip(trials.tried_in(report), jobs_of(report), strict=True):
        waits, last = list(job.waits), job.attempts[-1]
        waits += [job.at - last.end] if job.how == "unfinished" and last.end is not None else []
        result = job.value or ""
        result = result if len(result) <= 30 else result[:28] + ".."
        assert found == trials.Tried(job.how, result, job.at, len(job.attempts), sum(waits), max(waits, default=0))


@given(st.integers(0, 10**15))
def test_a_duration_is_read_as_it_is_written(ms):
    assert milliseconds(duration(ms)) == ms


def test_bounds_are_left_out_without_their_program_unless_they_are_required(zsched, monkeypatch):
    monkeypatch.setattr(program, "find_bounds", lambda named: named)
    words = ["recurs(1)", "--zsched", zsched]
    assert tool(*words) == (0, "failed 503 after 2 attempts, 80 ms (waited 0 ms, longest wait 0 ms)\n", "")
    for option in ["--require-attempts", "--require-wait", "--require-waits", "--require-end"]:
        status, output, errors = tool(*words, "--attempt", "5s", option, "9")
        assert (status, output) == (2, "")
        assert "needs zsched-bounds, which is neither built (./run builds it) nor installed" in errors


@pytest.mark.parametrize("words, lines", SHOWN, ids=[words for words, _ in SHOWN])
def test_the_documents_show_runs_as_they_are(words, lines, zsched, bounds):
    """Those that test_readme.py runs with unproved programs too, here with these."""
    lines = re.sub(r"^zsched-try: takes .*\n|^unproved: ", "", lines, flags=re.M)
    status, output, errors = tool(*shlex.split(words), "--zsched", zsched, "--bounds", bounds)
    drawn = re.match("zsched-try: .* with the seed .*\n|", lines)[0]
    assert errors.startswith(drawn) and drawn + output + errors.removeprefix(drawn) == lines and "for every " in lines


def test_the_help_shows_a_run_as_it_is_and_the_documents_six(zsched, bounds):
    status, output, _ = tool("--help")
    policy, line, every = re.search(r"\$ zsched-try '(.+)'\n +(.+\n) +(.+\n)", output).groups()
    assert tool(policy, "--zsched", zsched, "--bounds", bounds) == (0, line + every, "")
    assert len(SHOWN) == 6


RANDOM = """(exponential(10) && recurs(6)) jitter full
((linear(30) && recurs(9)) && elapsed.whileOutput(< 300)) jitter equal
(fibonacci(20) && elapsed.whileOutput(<= 400)) jitter 20%
((spaced(33) || exponential(5)) && recurs(8)).whileInput(!= 7) jitter 1/3..3/2
spaced(41).whileInput(!= 7) jitter 12.5%
((exponential(10) jitter 50% || spaced(70)) && recurs(7))
(spaced(9) jitter full && fixed(25))
((spaced(50) jitter 1/3..1/2 || windowed(40)) && elapsed.whileOutput(< 500))
((exponential(8) && recurs(3)) jitter full andThenEither (spaced(60) && recurs(2)))
(spaced(40) jitter equal && elapsed).whileOutput(_2 < 350)
((spaced(40) && recurs(4)) jitter full && elapsed).resetWhen(_2 >= 60).whileOutput(_2 < 500)
((spaced(rand(7, 30)) && recurs(5)) || (linear(rand(3, 9)) && elapsed.whileOutput(< 200)))
(jitter(10, 90, 6) && decorrelated(20, 9))
(exponential(rand(2, 9)) && recurs(rand(2, 5)))""".splitlines()


@pytest.mark.parametrize("text", RANDOM)
def test_each_drawn_run_keeps_the_bounds_that_are_said_of_all(text, zsched, bounds):
    """The policy gives up by its error code 7 in some runs, and attempts take from 2 to 15 ms."""
    chance, policy = random.Random(text), Policy(text, str(zsched))
    jobs = [(f"job{seed}", policy.schedule(drawn.seeded(seed)), [
        (chance.randint(2, 15), "err", chance.choice([5, 5, 5, 5, 7])) for _ in range(999)], "retry")
        for seed in range(examples(100))]
    said = bounding.of_policies(bounds, [policy], [bounding.Driver((2, 15))])[0]
    report = run(zsched, trials.plan_of(9000, jobs).encode())[1]
    for found in trials.tried_in(report):
        assert said.least <= found.attempts or found.how == "unfinished"
        known = [(found.attempts, said.most), (found.longest, said.every), (found.waited, said.total)]
        assert all(most is None or it <= most for it, most in [*known, (found.at, said.run)]), (found, said)
    assert (said.longest > program.LAST_MOMENT) == (text == RANDOM[-1])


# Of these a draw may have other effects than longer waits, so where their attempts begin isn't shown.
UNSHOWN = {6, 7, 9, 10, 11, 13}


@pytest.mark.parametrize("text", RANDOM)
def test_each_draw_begins_where_the_picture_says(text, zsched, bounds):
    words = ["--fails", "7 err 5", "--until", "9s", "--svg", "-", "--quiet", "--zsched", zsched, "--bounds", bounds]
    status, svg, _ = tool(f"it: {text}", *words)
    shown = {int(number): (milliseconds(least), milliseconds(most)) for number, least, most in re.findall(
        r"attempt (\d+) of it begins from (.*?) to (.*?)<", svg)}
    policy = Policy(text, str(zsched))
    jobs = [(f"job{seed}", policy.schedule(drawn.seeded(seed)), [(7, "err", 5)], "retry")
            for seed in range(examples(60))]
    found = [job.attempts for job in jobs_of(run(zsched, trials.plan_of(9000, jobs).encode())[1])]
    assert status == 0 and bool(shown) == (RANDOM.index(text) not in UNSHOWN)
    for number, (least, most) in shown.items():
        begins = [attempts[number - 1].begin for attempts in found if len(attempts) >= number]
        assert begins and least <= min(begins) and max(begins) <= most and len(set(begins)) > 1


WORDS = ["full", "full", "20%", "1/4..1/2", "+0..30%", "+0..5ms"]
WAITING = ["(spaced(30) && recurs(4))", "(exponential(8) && recurs(5))", "(linear(9) && recurs(9))", "fibonacci(20)",
           "((spaced(4) || linear(1)) && recurs(6))", "(spaced(30).whileOutput(>= 1) && recurs(3))",
           "linear(7).whileOutput(< 30)"]
OTHERS = ["recurs(3)", "recurs(6)", "forever", "identity.whileInput(!= 7)", "elapsed.whileOutput(< 90)", "recurs(1)"]
AROUND = ["{}.whileInput(!= 5)", "({} && recurs(7)).resetWhen(_2 >= 3)", "{}.collectAll.whileOutput(size < 5)",
          "({} && elapsed).whileOutput(_2 < 200)", "{}"]


def jittered(chance, word, depth=2):
    """A random text whose waits are jittered by a word, but for some of them."""
    if depth and chance.random() < 0.7:
        parts = [jittered(chance, word, depth - 1) for _ in range(2)]
        return chance.choice(AROUND).format(f"({parts[0]} {chance.choice(['&&', '||', 'andThenEither'])} {parts[1]})")
    if chance.random() < 0.5:
        return chance.choice(OTHERS)
    if word == "full" and chance.random() < 0.2:
        return f"jitter({chance.randint(1, 9)}, 20, {chance.randint(1, 5)})"
    words = chance.choice([word] * 9 + WORDS + [""])
    return chance.choice(WAITING) + (words and f" jitter {words}")


def test_a_schedule_all_of_whose_waits_are_jittered_by_one_range_is_jittered(zsched):
    """At each step of a draw the wait is within the range around that of the text without its jitter, at this moment:
    what zsched-bounds proves of drivers holds then. All others aren't said to be proved."""
    chance, known = random.Random(3), {True: 0, False: 0}
    for _ in range(examples(1000)):
        policy = Policy(jittered(chance, chance.choice(WORDS)), str(zsched))
        if not policy.is_drawn or policy.is_whole:
            continue
        known[policy.is_argued or policy.driven() is None] += 1
        if policy.is_argued or policy.driven() is None:
            continue
        whole, (least, most) = policy.driven()
        texts = [whole, *(policy.schedule(drawn.seeded(seed)) for seed in range(3))]
        try:
            plain, *others = [schedule_of(reference.read_schedule(it.encode())) for it in texts]
        except reference.Fault:     # of many waits
            continue
        for one in others:
            moment, states = 0, (plain.initial, one.initial)
            for given in chance.choices([3, 5, 7], [20, 1, 1], k=15):
                (first, _, wanted), (second, _, after) = (
                    it.step(moment, given, state) for it, state in zip((plain, one), states))
                assert (wanted is None) == (after is None), (policy.text, moment)
                if after is None:
                    break
                wait = wanted - moment
                assert wait * least // 100 <= after - moment <= -(-wait * most // 100), (policy.text, moment)
                moment, states = after + chance.choice([1, 2, 9]), (first, second)
    assert min(known.values()) >= 100, known


def test_each_part_of_a_schedule_has_a_line():
    for seed in range(examples(1000)):
        if found := interval_run.random_policy(seed):
            lines = list(explaining.explained(Policy(found[0]), None))
            count = sum(piece.word not in "()" for piece in schedule_rules.pieces(found[0]))
            assert len(lines) == 2 + count and all(line.strip() for line in lines[2:]), found[0]


def shown_in(section):
    """The schedules of a recipe that its plan runs, and the table's bounds of each."""
    schedules = re.search(r"^- Schedules? \(.*?(?=^- Plan:)", section, re.M | re.S)[0]
    plan = re.search(r"^- Plan:\s+\[\w+\]\(\.\./(.*?)\)", section, re.M)[1]
    run_ones = {job["schedule"] for job in json.loads((TOP / plan).read_text())["jobs"]}
    title = re.escape(section.partition("\n")[0])
    columns = re.search(rf"^\| \[{title}\].* \| ([^|]*) \| ([^|]*) \| ([^|]*) \|$", HEAD, re.M).groups()
    said = list(zip(*(column.split(", ") for column in columns), strict=True))
    return zip([it for it in re.findall(r"`([^`]+)`", schedules) if it in run_ones], said, strict=True)


def test_the_whole_call_of_five_recipes_with_attempts_of_5_s(bounds):
    rows = re.findall(r"^\| `(.*)` \| (.*) \| (.*) \| (.*) \|$", SECTIONS[0], re.M)
    found = bounding.run(bounds, [it.replace("\\|", "|") for it, *_ in rows], bounding.Driver((1, 5000)))
    assert [(*it.cells()[::2], duration(it.run)) for it in found] == [tuple(row) for _, *row in rows] and len(rows) == 5


RECIPES = [list(shown_in(section)) for section in SECTIONS if re.search("^- Schedules? ", section, re.M)]
ROWS = re.findall(r"^\| \[.* \| ([^|]*) \| ([^|]*) \| ([^|]*) \|$", POLICIES, re.M)
TABLES = [*sum(RECIPES, []), *zip([job["schedule"] for job in JOBS], ROWS, strict=True)]


def test_each_recipe_with_a_schedule_has_its_bounds():
    assert len(RECIPES) >= 27 and all(RECIPES)


def test_bounds_of_the_tables_are_those_of_the_program(bounds):
    policies = cases()["zsched-try/bounds_worked_out_by_hand"].text("policies").splitlines()
    assert set(policies) <= {schedule for schedule, _ in TABLES}
    found = bounding.run(bounds, [schedule for schedule, _ in TABLES])
    assert [it.cells() for it in found] == [row for _, row in TABLES]
