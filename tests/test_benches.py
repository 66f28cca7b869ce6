"""benches/: the results of zsched and of the baseline for the plans are those of the reference, and the commands run.
Other programs take the place of zsched and the baseline if nothing is to be measured."""
import json
import os
import re
import shutil
import subprocess
import sys
from xml.etree import ElementTree

import pytest

import reference
from languages import need
from support import TOP, difference, executable, run, run_here, run_tool

BENCHES = TOP / "benches"
sys.path.insert(0, str(BENCHES))

import bench
import calls
import growth
import plans

CAT = shutil.which("cat")
POPULATION = [sys.executable, BENCHES / "population.py"]
NO_SOURCE = r"failed to (get|download|query)|no matching package|[Cc]ould not resolve|offline"
# Plans that the program rejects.
REJECTED = [b"", b"[]", b'{"horizon":1}', b'{"horizon":1,"jobs":[7]}', b'{"ticks":[2,1],"jobs":[]}',
            *(plans.plan([plans.job(name, schedule)]) for name, schedule in [
                ("a", "windowed(0)"), ("a", "recurs(1).map(_1)"), ("a", "recurs(1) && forever"), ("", "forever")])]


def ran(*words):
    status, output, errors = run_here(lambda: bench.main([str(it) for it in words]), ["bench.py"])
    return status, (output + errors).splitlines()


@pytest.mark.parametrize("name", plans.plans())
def test_zsched_has_the_results_of_the_reference(name, zsched):
    """A plan of large schedules has one job: the reference evaluates the whole history at each step."""
    text = plans.plans(2000 if name.startswith("heavy_") else 100)[name]()
    assert difference(run(zsched, text), reference.answer(text)) is None


def test_plans_are_as_large_as_their_names_say():
    trees = {name: json.loads(make()) for name, make in plans.plans().items()}
    schedules = {name: tree["jobs"][0]["schedule"] for name, tree in trees.items()}
    assert trees["one_job"]["horizon"] == 500_000
    assert 1 + schedules["deep_64"].count(".") == 64
    assert schedules["wide_999"].count("forever") + schedules["wide_999"].count("&&") == 999
    assert len(schedules["parentheses"]) == 15_000_000
    assert len(trees["million_ticks"]["ticks"]) == 1_000_000


def test_each_plan_has_a_row_of_results():
    page = (BENCHES / "RESULTS.md").read_text()
    assert re.findall(r"^\| `(\w+)` \|.*\| yes \|$", page, re.MULTILINE) == list(plans.plans())


def test_other_bytes_fail_the_check(tmp_path):
    words = ["--check", "--only", "one_job", "--divisor", "10000", "--zsched", CAT, "--baseline"]
    assert ran(*words, CAT) == (0, ["1 passed, 0 failed"])
    for shell in ["cat > /dev/null; echo other", "cat; echo more >&2"]:
        status, lines = ran(*words, executable(tmp_path / "script", shell))
        assert (status, lines[1]) == (1, "0 passed, 1 failed")


def test_a_run_prints_a_row(tmp_path):
    words = ["--only", "resets", "--runs", "2", "--divisor", "10000", "--zsched", CAT, "--baseline"]
    status, lines = ran(*words, CAT)
    assert status == 0
    assert re.fullmatch(r"\| `resets` \| 0\.0 \| .* \| yes \|", lines[2])
    status, lines = ran(*words, executable(tmp_path / "script", "exit 4"))
    assert (status, lines[-1]) == (1, "bench.py: baseline ended with status 4 on resets.json")


def test_a_row_says_which_aims_it_misses():
    pairs = {"instructions": (126, 100), "processor": (300, 100), "wall": (125, 100), "memory": (140, 100)}
    assert bench.judged("large_plan", pairs) == ["1.25, memory 1.4", "missed: instructions"]
    assert bench.judged("resets", {**pairs, "instructions": None}) == ["1.35, memory 1.25", "missed: memory"]
    assert bench.judged("jobs_4_100", {**pairs, "instructions": (146, 100)}) == [
        "1.45, memory 1.25", "missed: instructions, memory"]
    assert bench.judged("jobs_4_1", {**pairs, "memory": (125, 100)}) == ["1.9, memory 1.25", "reached"]


def test_growth_is_drawn(tmp_path):
    picture = tmp_path / "growth.svg"
    status, lines = ran("--growth", "--zsched", CAT, "--baseline", CAT, "--runs", "1", "--divisor", "1000",
                        "--picture", picture)
    assert (status, "\n".join(lines).count("| Against |")) == (0, 1)
    assert ElementTree.parse(picture).getroot().get("width") == str(4 * growth.COLUMN)
    assert growth.exponent([(size, 3 * size ** 2) for size in growth.up_to(1000)]) == pytest.approx(2)


def test_a_population_is_run_by_ranges_and_joined(population, tmp_path):
    words = ["--jobs", "250", "--range", "100", "--folder", tmp_path, "--population", population]
    status, rows, errors = run_tool([*POPULATION, *words])
    assert (status, errors, os.listdir(tmp_path)) == (0, "", [])
    number = r"[\d,]+\.\d"
    found = re.findall(rf"^\| ([\w ]+) \|( {number} \|){{3}} [\d,]+ \|( {number} \|){{2}}$", rows, re.MULTILINE)
    assert [row[0] for row in found] == ["one program", "ranges", "check", "lines", "summary", "load"]


def test_a_log_is_measured_by_the_program_alone_too(zsched, tmp_path):
    status, rows, errors = run_tool([sys.executable, BENCHES / "logs.py", "--mb", "1", "--folder", tmp_path],
                                    ZSCHED=str(zsched))
    assert (status, errors, os.listdir(tmp_path)) == (0, "", [])
    found = re.findall(r"^\| ([\w ,`]+) \| program \|( [\d,]+\.\d \|){2}( [\d,]+ \|){2}$", rows, re.MULTILINE)
    assert [row[0] for row in found] == ["follows", "follows, `elapsed`", "plan"]


def test_workers_are_measured_at_each_cut(zsched):
    words = [sys.executable, BENCHES / "workers.py", "--divisor", "1000", "--runs", "1", "--zsched"]
    status, rows, errors = run_tool([*words, zsched])
    assert (status, errors) == (0, "")
    cells = r"^(\| \d+ ){3}\| [\d,]+ \|( [\d,]+ \(\d+\.\d\d\) \|){4}$"
    assert len(re.findall(cells, rows, re.MULTILINE)) == 6
    status, _, errors = run_tool([*words, shutil.which("false")])
    assert (status, errors) == (1, "workers.py: a run of 10000 jobs didn't end with 0\n")


# What is wrong, the commands of the program that is run, and a pattern of the error.
@pytest.mark.parametrize("name, shell, wanted", [
    ("a status", "exit 4", r"^population.py: one program ended with status 4\n$"),
    ("no job", "cat > /dev/null; echo polls 0", "^population.py: the report isn't that of 1 jobs: .*polls 0"),
    ("a range fails", "[ $# != 0 ] || exec $RIGHT; exit 4", r"^population.py: ranges ended with status 123\n$"),
    ("another report of a range", '[ "$1" != --jobs ] || { echo polls 0; exit; }; exec $RIGHT "$@"',
     r"report 1: incomplete, or no report of --jobs\npopulation.py: check ended with status 2\n$"),
    ("another joined report", '[ "$1" != --check ] || { echo polls 0; exit; }; exec $RIGHT "$@"',
     r"^population.py: the joined report isn't that of one program\n$")])
def test_a_population_has_the_wrong_report(name, shell, wanted, population, tmp_path):
    wrong = executable(tmp_path / "script", shell)
    variables = {"ZSCHED_POPULATION": wrong, "RIGHT": str(population)}
    status, _, errors = run_tool([*POPULATION, "--jobs", "1"], **variables)
    assert status == 1
    assert re.search(wanted, errors)


@pytest.mark.parametrize("words", [["--jobs", "0"], ["--range", "x"], ["plan.json"], ["--population", "/nowhere"]])
def test_wrong_arguments_of_a_population(words):
    status, output, errors = run_tool([*POPULATION, *words])
    assert (status, output) == (2, "")
    assert "population.py: error: " in errors


@pytest.mark.full
def test_the_baseline_has_the_results_of_zsched_and_of_the_reference(zsched):
    need("cargo")
    built = subprocess.run([BENCHES / "baseline" / "build", "--quiet"], env={**os.environ, "CARGO_NET_RETRY": "0"},
                           capture_output=True, text=True, check=False)
    if built.returncode != 0 and re.search(NO_SOURCE, built.stderr):
        pytest.skip("cargo finds no serde_json: no network, and no package librust-serde-json-dev")
    assert built.returncode == 0, built.stderr
    assert ran("--check", "--divisor", "100", "--zsched", zsched)[0] == 0
    assert [text for text in REJECTED if run(bench.BASELINE, text) != reference.answer(text)] == []


def test_calls_are_measured_beside_other_packages(library, tmp_path, monkeypatch):
    monkeypatch.setenv("ZSCHED_LIBRARY_DIR", str(library))
    module = tmp_path / "usr/lib/python3/dist-packages/backoff.py"
    module.parent.mkdir(parents=True)
    module.write_text("expo = None\n\n\ndef on_exception(*_, max_tries):\n    return lambda function: function\n")
    status, output, _ = run_here(lambda: calls.main(["--root", str(tmp_path), "--count", "9", "Python"]), ["calls.py"])
    assert status == 0
    assert re.fullmatch(r"\| \| .*\n\|.*\n\| Python \| [\d,]+ \| (tenacity \d+, )?backoff \d+ \|\n", output)
    need("cargo", "node", "go")
    assert [calls.others(name, tmp_path, 9) for name in ["Rust", "Node", "Go"]] == ["not on this machine"] * 3
