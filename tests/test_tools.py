"""What all commands of tools/ have in common, beside tests/cases/tools.txt: the program that they run, the Python that
they need, and the decisions of schedules."""
import ast
import ctypes
import os
import pathlib
import random
import re
import shutil
import signal
import sys
import types

import pytest

import generator
from histories import History
from support import ONE_JOB, ONE_REPORT, TOP, examples, output_of, run_here, run_tool
from zsched_tools import checks, command, hints, program, proved, schedule_rules, settings
from zsched_tools.decisions import Decisions
from zsched_tools.policy import command as policy
from zsched_tools.policy import explaining, limits
from zsched_tools.policy.vocabulary import WORDS

TOOLS = sorted((TOP / "tools").glob("zsched-*"))
# A program, and the same if it was proved and built.
PROGRAM = pathlib.Path("/bin/true").read_bytes()
PROVED = proved.marked(PROGRAM)
MAIN = TOP / "tools" / "zsched_tools" / "__main__.py"


def test_the_last_program_that_was_built_is_taken_and_an_unproved_one_named(tmp_path, monkeypatch, capsys):
    monkeypatch.setenv("PATH", str(tmp_path))
    for name in ["ZSCHED", "ZSCHED_BOUNDS"]:
        monkeypatch.delenv(name, raising=False)
    places = {name: tmp_path / folder / name for name, folder in [
        ("zsched", "out/proved"), ("unproved-1", "crates/zsched/out"), ("unproved-2", "crates/zsched/out")]}
    monkeypatch.setattr(program, "CRATES", tmp_path / "crates")
    monkeypatch.setattr(program, "PROVED", tmp_path / "out/proved")
    with pytest.raises(program.NoProgram, match="zsched is neither built .* nor installed"):
        program.find()
    tool = pathlib.Path(sys.argv[0]).name
    said = f"{tool}: takes the zsched that ./run built, unproved (./run --proved proves it)\n"
    # The names of files in the order in which they were built, each with its bytes, and what is said of the last one.
    for built, words in [([("unproved-1", PROGRAM)], said), ([("unproved-1", PROGRAM), ("zsched", PROVED)], ""),
                         ([("zsched", PROVED), ("unproved-2", PROGRAM)], said), ([("zsched", PROGRAM)], said)]:
        for age, (name, text) in enumerate(built):
            places[name].parent.mkdir(parents=True, exist_ok=True)
            places[name].write_bytes(text)
            places[name].chmod(0o755)
            os.utime(places[name], (age, age))
        program._say.cache_clear()
        assert [program.find(), program.find()] == [str(places[built[-1][0]])] * 2
        for name, _ in built:
            places[name].unlink()
        assert capsys.readouterr() == ("", words)


# The ends of zsched and of zsched-bounds, and what is said of both.
@pytest.mark.parametrize("texts, words", [
    ((PROGRAM, PROGRAM), ["the programs that ./run built, unproved (./run --proved proves them)"]),
    ((PROVED, PROGRAM), ["the zsched-bounds that ./run built, unproved (./run --proved proves it)"]),
    ((PROGRAM, PROVED), ["the zsched that ./run built, unproved (./run --proved proves it)"]),
    ((PROVED, PROVED), [])])
def test_a_tool_says_which_program_is_unproved(texts, words, tmp_path, monkeypatch, capsys):
    for name in ["ZSCHED", "ZSCHED_BOUNDS"]:
        monkeypatch.delenv(name, raising=False)
    monkeypatch.setattr(program, "CRATES", tmp_path / "crates")
    monkeypatch.setattr(program, "PROVED", tmp_path)
    program._say.cache_clear()
    for name, text in zip(["zsched", "zsched_bounds"], texts):
        (tmp_path / name).write_bytes(text)
        (tmp_path / name).chmod(0o755)
    assert all([program.find(), program.find_bounds(), program.find()])
    assert [line.partition(" takes ")[2] for line in capsys.readouterr()[1].splitlines()] == words


def started(tool, version, monkeypatch):
    """The status with which a tool ends that is started for its version, as if Python were of this one."""
    monkeypatch.setattr(signal, "signal", lambda *_: None)
    for name, value in {"version_info": version, "argv": ["zsched_tools", tool, "--version"],
                        "path": [*sys.path]}.items():
        monkeypatch.setattr(sys, name, value)
    with pytest.raises(SystemExit) as ended:
        exec(compile(MAIN.read_text(), MAIN, "exec"), {"__file__": str(MAIN)})
    return ended.value.code


@pytest.mark.parametrize("version, shown", [((3, 11, 0), None), ((4, 0, 0), None), ((3, 9, 2), "3.9"), ((2, 7), "2.7")])
def test_an_old_python_is_named_in_one_line(version, shown, monkeypatch, capsys):
    found = started("bin/zsched-explain", version, monkeypatch), *capsys.readouterr()
    line = f"zsched-explain: needs Python 3.11 or later, and this is Python {shown}\n"
    assert found == ((3, "", line) if shown else (0, f"zsched-explain {command.version()}\n", ""))


@pytest.mark.parametrize("path", TOOLS, ids=lambda path: path.name)
def test_a_command_looks_for_an_old_python_before_it_reads_its_own_files(path, monkeypatch, capsys):
    form = re.compile(r"^import (?!importlib|os|signal|sys).*|^from .*|sys\.exit\(3|import_module", re.M)
    assert form.findall(MAIN.read_text()) == ["sys.exit(3", "import_module"]
    assert started(str(path), (3, 10, 4), monkeypatch) == 3
    assert capsys.readouterr() == ("", f"{path.name}: needs Python 3.11 or later, and this is Python 3.10\n")


def test_a_tool_stores_its_bytecode_and_reads_no_module_of_its_own_for_its_version(tmp_path):
    shutil.copytree(TOP / "tools", tmp_path / "tools", ignore=shutil.ignore_patterns("__pycache__"))
    words = [sys.executable, "-X", "importtime", tmp_path / "tools/zsched_tools", "zsched-try"]
    # What the frame of all tools imports, and what this tool does beside it.
    frame, own = {"hints", "words"}, {"drawn", "bounding"}
    for word, is_found in [("--version", lambda it: it == frame), ("-h", lambda it: it > frame | own)]:
        status, _, errors = run_tool([*words, word], PYTHONDONTWRITEBYTECODE="")
        assert status == 0 and is_found(set(re.findall(r"\| +zsched_tools\.([\w.]+)$", errors, re.M))), word
    compiled = {it.name.partition(".")[0] for it in (tmp_path / "tools/zsched_tools").rglob("*.pyc")}
    assert compiled > frame | own


def test_a_limit_has_one_name_in_all_tools_and_files():
    for words in [["zsched-try"], ["zsched-policy", "check"]]:
        found = output_of([TOP / "tools" / words[0], *words[1:], "-h"])
        assert set(re.findall(r"^  --require-(\S+)", found, re.M)) == {*checks.LIMITS}
        assert set(re.findall(r"^  --max-(\S+)", found, re.M)) <= {*checks.LIMITS}
    assert {*checks.LIMITS} < {*limits._KEYS["limits"]}


def test_two_files_are_read_before_those_of_a_tool():
    for path in TOOLS:
        assert re.findall(r"[\w/-]*zsched_tools[\w./-]*|\w+\.sh", path.read_text()) == ["/zsched_tools"]
    assert re.findall('"zsched_tools[^"]*', MAIN.read_text()) == ['"zsched_tools.']


def test_that_look_needs_no_new_python():
    for file in [MAIN, MAIN.with_name("__init__.py")]:
        ast.parse(file.read_text(), feature_version=(3, 4))


@pytest.mark.parametrize("by", ["library", "jobs"])
def test_decisions_are_those_of_the_reference(by, zsched, request):
    """Of schedules with and without time and inputs, after attempts of any lengths, of which some are late."""
    library = ctypes.CDLL(str(request.getfixturevalue("library") / "libzsched.so")) if by == "library" else None
    count = 0
    for seed in range(examples(60)):
        chance = random.Random(seed)
        text = generator.made_term(chance, chance.choice([1, 3, 6, 12]))[0]
        given = [sorted(chance.sample(range(1, 900), chance.randint(1, 6))) for _ in range(5)]
        given = [[(moment, chance.choice([0, 1, 5, 503])) for moment in moments] for moments in given]
        found = [[] for _ in given]
        Decisions(text, chance.choice(["retry", "repeat"]), str(zsched), library).run(
            asked(steps, waits) for steps, waits in zip(given, found))
        for steps, waits in zip(given, found):
            wanted = [step.split(",")[:2] for step in History(text.encode(), steps).steps[:len(waits)]]
            wanted = [None if done == "1" else int(after) - moment for (done, after), (moment, _) in zip(wanted, steps)]
            assert cut(waits) == cut(wanted), (text, steps)
            assert len(waits) == len(steps) or waits[-1] is None
            count += len(waits)
    assert count > 500


def cut(waits):
    """Waits of which the longest end after all moments."""
    return [wait and min(wait, 10**18) for wait in waits]


def asked(steps, waits):
    for step in steps:
        if None in waits:
            return
        waits.append((yield step))


def test_a_leaf_that_explain_has_no_words_for_is_an_error():
    made = [schedule_rules.folded(text, explaining._leaf, explaining._joined, explaining._behind)
            for text in ["forever", "identity", "elapsed", "recurs(1)", "spaced(1)", "fixed(1)"]]
    assert [it.never_waits([]) for it in made] == [True, True, True, True, False, False]
    with pytest.raises(KeyError):
        explaining._leaf(types.SimpleNamespace(word="doubled", arguments=[("100",)]))


@pytest.mark.parametrize("word", sorted(WORDS))
def test_a_word_is_explained_by_its_line_and_a_policy_that_has_it(word, zsched, bounds):
    line, example = WORDS[word]
    words = ["zsched-policy", "explain", word, "--zsched", zsched, "--bounds", bounds]
    status, output, _ = run_here(policy.main, words)
    assert status == 0 and output.startswith(f"{line}\nfor example {example}\n\n") and output.count("\n") > 5
    alone = re.compile(rf"(?<!\w){re.escape(word)}(?!\w)")
    assert alone.search(line.partition(": ")[0]) and alone.search(example)


def test_no_word_of_policies_is_left_out():
    of_tools = ["jitter", "delays", "rand", "decorrelated", *settings.WORDS]
    functions = re.findall("[a-z_]+[12]?", hints.said("functions").replace(" N", "").replace("or", ""))
    assert sorted([*hints.LEAVES, *hints.METHODS, *hints.OPERATORS, *functions, *of_tools]) == sorted(WORDS)


# What the examples of the tools read, and the one that isn't run: it serves until it is interrupted.
ROOM = {"plan.json": ONE_JOB.decode(), "whole.report": ONE_REPORT.decode(),
        "service.yaml": "retry_policy: {retry_on: 5xx, num_retries: 2}\n",
        "log.csv": "request_id,start_ms,duration_ms,status\na,0,10,503\na,110,10,200\n",
        "outage.json": '{"horizon": "9s", "clients": {"number": 5}, "policies": {"one": "recurs(2)"}}'}
SERVES = "zsched-play"


@pytest.mark.parametrize("tool", [it.name for it in TOOLS])
def test_the_short_help_begins_with_an_example_that_runs(tool, zsched, bounds, tmp_path):
    variables = {"ZSCHED": str(zsched), "ZSCHED_BOUNDS": str(bounds),
                 "PATH": f"{TOP}/tools:{zsched.parent}:{os.environ['PATH']}"}
    for name, text in ROOM.items():
        (tmp_path / name).write_text(text)
    (tmp_path / "whole.jsonl").write_text(output_of([TOP / "tools/zsched-report", "lines", tmp_path / "whole.report"]))
    whole = output_of([TOP / "tools" / tool, "-h"])
    for part in ["", *re.findall("^    ([a-z-]+) {2,}", whole.partition("options:")[0], re.M)]:
        found = output_of([TOP / "tools" / tool, *part.split(), "-h"]) if part else whole
        example = re.match("for example: (.*)\n\nusage: ", found)[1]
        assert f"{tool} {part}".strip() in example
        if example != SERVES:
            status, _, errors = run_tool(["bash", "-o", "pipefail", "-c", example], folder=tmp_path, **variables)
            assert status in (0, 1) and "Traceback" not in errors, errors


@pytest.mark.parametrize("file", ["c/retry.h", "go/text.go", "java/zsched/Hints.java", "node/zsched.js",
                                  "python/zsched/faults.py", "rust/src/fault.rs"])
def test_hints_of_a_language_have_each_word_of_schedules(file):
    text = re.search(r"\bforever\b[\s\"',]+recurs\b.*?\bas\b", (TOP / "bindings" / file).read_text(), re.S)[0]
    words = [*hints.LEAVES, *hints.METHODS, *filter(str.isalpha, hints.OPERATORS), "size", "merge", "as"]
    assert sorted(re.findall("[A-Za-z]+", text)) == sorted(words)
