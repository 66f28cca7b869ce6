"""The gate can fail: faults that are planted in copies of it and in the output of the toolchain, each of which it must
find."""
import hashlib
import os
import pathlib
import re
import shutil
import signal
import subprocess
import sys
import time

import pytest

import gate
import proofs
from case_files import cases
from support import TOP, executable, output_of, rows, run_tool


@pytest.mark.parametrize("name, lines, status, failed", rows("edits.jsonl"))
def test_edits_that_rt_ci_does_not_reject_fail_the_proofs(name, lines, status, failed):
    assert proofs.judged(lines, status, {"zs_term/one.edit", "zs_pool/two.edit"})[1] == failed


def test_proofs_of_an_earlier_run_fail_a_run_anew():
    done, kept = f"rt: ok; {proofs.ANEW}", "rt: ok; done in this run: 1 of the 2 proofs; the others are kept"
    assert [proofs.judged([line, "2 passed, 0 failed"], 0, set(), True)[1] for line in (done, kept)] == [0, 1]


@pytest.mark.parametrize("lines, status, is_late, failed", rows("ends_of_parts.jsonl"))
def test_a_part_fails_by_its_last_line_its_status_its_floor_and_its_time(lines, status, is_late, failed, monkeypatch):
    monkeypatch.setattr(gate, "floors", lambda: {"tests": 30})
    assert gate.judged("tests", lines, status, is_late)[1] == failed


@pytest.fixture
def tree(tmp_path):
    """A copy of what pytest reads, with one file of three tests and its floor."""
    (tmp_path / "tests").mkdir()
    for name in ["pytest.ini", "tests/conftest.py", "tests/support.py", "tests/proofs.py", "HANDLES"]:
        shutil.copy(TOP / name, tmp_path / name)
    for name in ["build", "tools"]:
        shutil.copytree(TOP / name, tmp_path / name)
    (tmp_path / "tests/test_a.py").write_text(
        "import pytest\n@pytest.mark.parametrize('it', range(3))\ndef test_it(it): pass\n")
    (tmp_path / "tests/floors.txt").write_text("test_a.py 3\n")
    return tmp_path


def passes(tree, *words):
    variables = {key: value for key, value in os.environ.items() if not key.startswith("PYTEST")} | {"ZSCHED_GATE": "1"}
    ended = subprocess.run([sys.executable, "-m", "pytest", "-q", *words], cwd=tree, env=variables,
                           capture_output=True, check=False)
    return ended.returncode == 0


# What is wrong, the texts of files that have it or null for a file that is gone, and options of pytest.
@pytest.mark.parametrize("name, files, words", rows("sabotages.jsonl"))
def test_a_sabotage_of_the_tests_is_found(name, files, words, tree):
    for file, text in files.items():
        (tree / "tests" / file).write_text(text) if text is not None else (tree / "tests" / file).unlink()
    assert not passes(tree, *words)


def test_floors_hold_for_the_files_that_run(tree):
    (tree / "tests/test_b.py").write_text(
        "import pytest\n@pytest.mark.full\n@pytest.mark.parametrize('it', ['a/b'])\ndef test_it(it): pass\n")
    (tree / "tests/floors.txt").write_text("survivors 40\ntest_a.py 3\ntest_b.py 1\n")
    for words in [["-n", "1"], ["--short"], ["tests/test_a.py"], ["tests/test_a.py::test_it"],
                  ["tests/test_b.py::test_it[a/b]"]]:
        assert passes(tree, *words)
    (tree / "tests/floors.txt").write_text("test_a.py 4\ntest_b.py 1\n")
    assert not passes(tree, "tests/test_a.py")
    assert passes(tree, "tests/test_b.py")


def test_check_installs_each_package_that_a_test_names():
    listed = {line.split()[0] for line in (TOP / "tests/packages.txt").read_text().splitlines() if line.strip()}
    named = {it for path in TOP.glob("tests/*.py")
             for it in re.findall(r"\(Debian: ([a-z+-]+[\w+.-]*)\)", path.read_text())}
    named |= {line.split()[1] for it in cases().values() for line in it.files.get("needs", b"").decode().splitlines()}
    assert len(named) > 9 and named - listed == set()


REJECTED = "rt: must-fail zsched_c/one.edit: refused, as it must be"


@pytest.mark.parametrize("name, said, status", [
    ("it is rejected", f"{REJECTED}\n2 passed, 0 failed\n", 0),
    ("it doesn't apply",
     "rt: must-fail zsched_c/one.edit: BAD EDIT: there is no file src/lib.rt\n1 passed, 0 failed\n", 1),
    ("it isn't tried", "1 passed, 0 failed\n", 1),
    ("a proof names what it took away",
     f"{REJECTED} (only because a proof file names what the edit took away, so this says little of the contract: "
     "change a value and keep the names): ./proofs/a/Answers.antt:1:1: error\n2 passed, 0 failed\n", 1),
    ("a limit of the prover rejects it",
     f"{REJECTED} (only by a limit of the prover, which gave no verdict, so this says less of the contract: choose a "
     "change that it refuses sooner): antt ran out of stack\n2 passed, 0 failed\n", 1)])
def test_an_edit_that_the_toolchain_passes_over_fails_the_proofs(name, said, status, tree):
    (tree / "crates/zsched_c/must-fail").mkdir(parents=True)
    for file, text in [("crates/zsched_c/must-fail/one.edit", ""), ("crates.txt", "zsched_c staticlib:\n"),
                       ("said", said), ("rtlib.py", "def crates_below(top):\n    return []\n")]:
        (tree / file).write_text(text)
    executable(tree / "rt", "[ $1 != ci ] || cat said")
    ended = subprocess.run([sys.executable, "tests/proofs.py"], cwd=tree, capture_output=True, text=True, check=False,
                           env=os.environ | {"PATH": f"{tree}:{os.environ['PATH']}"})
    assert ended.returncode == status, ended
    assert ended.stdout.splitlines()[-1].endswith(" passed, 0 failed" if status == 0 else " passed, 1 failed")


READER = """import sys
lines = [line for line in sys.stdin if line.startswith("rt: ")]
print(f"{len(lines)} passed, 0 failed")
"""


@pytest.mark.parametrize("floor, status", [(2, 0), (3, 1)])
def test_wrong_bodies_are_tried_as_their_crates_are_proved(floor, status, tree):
    for name in ["zsched", "zsched_bounds"]:
        (tree / "crates" / name).mkdir(parents=True)
    for name in ["gate.py", "programs.py", "quick.py", "no_program.py"]:
        shutil.copy(TOP / "tests" / name, tree / "tests")
    for name, text in [("tests/refusals.py", READER), ("rtlib.py", "def crates_below(top):\n    return []\n"),
                       ("tests/floors.txt", f"proofs 2\nrefusals {floor}\n"),
                       ("said", "rt: a proved\nrt: b is kept: it\n"),
                       ("crates.txt", "zsched:\nzsched_bounds:\nzsched_c staticlib:\n")]:
        (tree / name).write_text(text)
    executable(tree / "rt", "[ $1 != ci ] || { cat said; sleep 1; echo 2 passed, 0 failed; }")
    ended = subprocess.run([sys.executable, "tests/gate.py", "proofs", "refusals"], cwd=tree, capture_output=True,
                           text=True, check=False, env=os.environ | {"PATH": f"{tree}:{os.environ['PATH']}"})
    assert ended.returncode == status, ended
    assert ended.stdout.splitlines()[-1] == f"4 passed, {status} failed"


def with_variable(text):
    """The processes that have this text among their variables."""
    words = ["grep", "-lF", text, *pathlib.Path("/proc").glob("[0-9]*/environ")]
    return subprocess.run(words, stdout=subprocess.PIPE, stderr=subprocess.DEVNULL, check=False).stdout


@pytest.mark.parametrize("part, word", [("proofs", "ci"), ("quick", "check")])
def test_a_gate_that_is_ended_leaves_no_process(part, word, tree):
    """The toolchain began two processes, one in a session. `nohup` ignores SIGHUP, `timeout` sends two signals."""
    for name in ["gate.py", "programs.py", "quick.py", "no_program.py"]:
        shutil.copy(TOP / "tests" / name, tree / "tests")
    for name in ["zsched", "zsched_bounds"]:
        (tree / "crates" / name).mkdir(parents=True)
    (tree / "crates.txt").write_text("zsched:\nzsched_bounds:\nzsched_c staticlib:\n")
    executable(tree / "rt", f"[ $1 != {word} ] || {{ setsid sleep 300 & sleep 300 & echo > begun; wait; }}")
    variables = os.environ | {"PATH": f"{tree}:{os.environ['PATH']}", "PLANTED": str(tree)}
    with subprocess.Popen(["nohup", sys.executable, "tests/gate.py", part], cwd=tree, env=variables,
                          stdout=subprocess.DEVNULL, stderr=subprocess.DEVNULL) as running:
        while not [*tree.rglob("begun")]:
            assert running.poll() is None
            time.sleep(0.05)
        running.send_signal(signal.SIGHUP)
        time.sleep(0.5)
        for _ in range(2):
            running.send_signal(signal.SIGTERM)
        assert running.wait(60) == 128 + signal.SIGTERM
    assert with_variable(f"PLANTED={tree}") == b""


# A toolchain that moves all of crates/*/out/ away, as `rt ci` does, and gives back a part of it at its end, also if it
# is interrupted, and not if another signal ends it. It ends as the file `end` says, if there is one.
RT = """
[ $1 != version ] || echo a toolchain
[ $1 = ci ] || exit 0
back() { mkdir -p crates/zsched/out; mv aside/zsched/incremental crates/zsched/out; rm -r aside; }
mkdir aside
for it in zsched zsched_bounds; do mv crates/$it/out aside/$it; done
trap 'back; exit 130' INT
echo > begun
until [ -e end ]; do sleep 0.05; done
for it in zsched zsched_bounds; do mkdir -p crates/$it/out; printf new > crates/$it/out/$it; done
back
sh end
"""


# The build of programs after it: it leaves no stamp, and can be interrupted too.
PROGRAMS = """
echo > built
until [ -e end ]; do sleep 0.05; done
mkdir -p out/proved
printf baseline > out/proved/zsched
echo out/proved/zsched
"""


@pytest.fixture
def checkout(tree):
    """A tree whose gate has this toolchain, with a proved program, an unproved one, and what the toolchain kept."""
    for name in ["gate.py", "programs.py", "quick.py"]:
        shutil.copy(TOP / "tests" / name, tree / "tests")
    for name, says in [("make-library", ":"), ("make-programs", PROGRAMS)]:
        executable(tree / "build" / name, says)
    for name in ["survivors.py", "refusals.py"]:
        (tree / "tests" / name).write_text("print('1 passed, 0 failed')")
    (tree / "tests/no_program.py").write_text("WORDS = ['tests/refusals.py']\n")
    (tree / "tests/floors.txt").write_text("test_a.py 3\nsurvivors 1\nproofs 1\nprograms 1\n")
    (tree / "crates.txt").write_text("zsched:\nzsched_bounds:\nzsched_c staticlib:\n")
    (tree / "rtlib.py").write_text("def crates_below(top):\n    return []\n")
    executable(tree / "rt", RT)
    for name in ["zsched", "zsched_bounds"]:
        (tree / f"crates/{name}/out/incremental").mkdir(parents=True)
        (tree / f"crates/{name}/main.rt").write_text("fn main() {}")
    total = {name: total_of(tree, name) for name in ["zsched", "zsched_bounds"]}
    (tree / "out/proved").mkdir(parents=True)
    for file, text in [("out/proved/zsched", "proved"), ("crates/zsched/out/proved", f"{total['zsched']}\n"),
                       (f"crates/zsched_bounds/out/unproved-{total['zsched_bounds']}", "unproved"),
                       ("crates/zsched_bounds/out/unproved-0", "of other sources"),
                       ("crates/zsched/out/checked.json", "{}")]:
        (tree / file).write_text(text)
    return tree


def in_path(tree): return os.environ | {"PATH": f"{tree}:{os.environ['PATH']}"}


def total_of(tree, name): return output_of([tree / "build/sources-sum", name], env=in_path(tree)).strip()


def programs(tree):
    """The texts of programs, stamps, and the note of what was checked."""
    found = [*tree.glob("crates/*/out/*"), *tree.glob("out/proved/*")]
    return {path.read_text() for path in found if path.is_file()}


def begin(tree, *words, is_background=True):
    """Begins the gate, in the background as a shell does, which ignores SIGINT. Waits until its toolchain has begun:
    then no program is there."""
    before = ["sh", "-c", 'trap "" INT; exec "$@"', "sh"] * is_background
    running = subprocess.Popen([*before, sys.executable, "tests/gate.py", *words], cwd=tree, env=in_path(tree),
                               text=True, stdout=subprocess.PIPE, stderr=subprocess.STDOUT)
    while not (tree / "begun").exists():
        assert running.poll() is None, running.communicate()
        time.sleep(0.05)
    assert programs(tree) == set()
    return running


@pytest.mark.parametrize("name", ["survivors", "refusals", "early"])
def test_a_part_is_run_by_its_name(name, checkout):
    said = subprocess.run([sys.executable, "tests/gate.py", name], cwd=checkout, env=in_path(checkout), text=True,
                          capture_output=True, check=False)
    assert said.returncode == 0 and re.search(rf"^{name} .* 1 +0$", said.stdout, re.M)


@pytest.mark.parametrize("number", [signal.SIGTERM, signal.SIGINT])
@pytest.mark.parametrize("words", [[], ["proofs"]])
def test_an_interrupted_gate_gives_back_the_programs_of_these_sources(words, number, checkout):
    before = programs(checkout)
    with begin(checkout, *words, is_background=number == signal.SIGTERM) as running:
        running.send_signal(number)
        assert running.wait(60) == 128 + number
    assert programs(checkout) == before - {"of other sources"}
    assert (checkout / "crates/zsched/out/incremental").exists() and not (checkout / "out/kept").exists()


def test_programs_of_changed_sources_are_not_given_back(checkout):
    with begin(checkout) as running:
        (checkout / "crates/zsched/main.rt").write_text("fn main() { }")
        running.terminate()
        assert running.wait(60) == 128 + signal.SIGTERM
    assert programs(checkout) == {"unproved", "{}"}


def ended(tree, said, *words):
    """Ends the toolchain, which says some lines, and returns the last line of the gate."""
    with begin(tree, *words) as running:
        (tree / "end").write_text(said)
        return running.communicate(timeout=60)[0].splitlines()[-1]


def test_a_gate_gives_programs_back_unless_it_passes(checkout):
    before, total = programs(checkout), [f"{total_of(checkout, name)}\n" for name in ["zsched", "zsched_bounds"]]
    assert ended(checkout, "echo 0 passed, 1 failed; exit 1") == "6 passed, 1 failed"
    assert programs(checkout) == before - {"of other sources"} | {"new"} and not (checkout / "built").exists()
    for name in ["begun", "end"]:
        (checkout / name).unlink()
    assert ended(checkout, "echo 1 passed, 0 failed") == "8 passed, 0 failed"
    assert {it for it in programs(checkout) if it[0] != "{"} == {"baseline", "new", *total}
    assert not (checkout / "out/kept").exists()


def test_a_gate_notes_the_programs_that_it_tested_and_fails_if_a_test_changes_one(checkout):
    """Outside a git checkout it notes none."""
    git(checkout, "init", "--quiet")
    git(checkout, "add", "tests")
    assert ended(checkout, "echo 1 passed, 0 failed") == "8 passed, 0 failed"
    tree, line = (checkout / "out/passed").read_text().splitlines()
    assert tree == output_of([checkout / "build/sources-sum", "--all"]).strip()
    assert line == f"{hashlib.sha256(b'baseline').hexdigest()}  out/proved/zsched"
    (checkout / "tests/test_a.py").write_text(
        "import pytest\n@pytest.mark.parametrize('it', range(3))\n"
        "def test_it(it): open('out/proved/zsched', 'w').write('v2')\n")
    for name in ["begun", "end"]:
        (checkout / name).unlink()
    assert ended(checkout, "echo 1 passed, 0 failed") == "8 passed, 1 failed"
    assert not (checkout / "out/passed").exists()
    assert (checkout / "out/proved/zsched").read_text() == "baseline"


def test_a_gate_that_is_ended_while_it_builds_programs_gives_back_the_earlier_ones(checkout):
    before = programs(checkout)
    with begin(checkout) as running:
        (checkout / "end").write_text("rm end; echo 1 passed, 0 failed")
        while not (checkout / "built").exists():
            assert running.poll() is None
            time.sleep(0.05)
        assert programs(checkout) == {"new"}
        running.terminate()
        assert running.wait(60) == 128 + signal.SIGTERM
    assert programs(checkout) == before - {"of other sources"} | {"new"}


def test_the_next_run_gives_back_what_a_killed_gate_kept(checkout):
    before = programs(checkout)
    with begin(checkout, "proofs") as running:
        running.kill()
        (checkout / "end").touch()
        while (checkout / "aside").exists():
            time.sleep(0.05)
    subprocess.run([sys.executable, "tests/gate.py", "a"], cwd=checkout, env=in_path(checkout), check=True,
                   stdout=subprocess.DEVNULL)
    assert programs(checkout) == before - {"of other sources"} | {"new"}


def test_a_checkout_that_cannot_be_written_is_named_before_the_proofs(checkout):
    """No file may have a byte, as on a full disk."""
    ended = subprocess.run(["bash", "-c", f"trap '' XFSZ; ulimit -f 0; {sys.executable} tests/gate.py 2>&1"],
                           cwd=checkout, env=in_path(checkout), stdout=subprocess.PIPE, text=True, check=False)
    assert (ended.returncode, ended.stdout) == (3, f"check: nothing can be written to {checkout}: File too large\n")
    assert len(programs(checkout)) == 5 and not (checkout / "begun").exists()


def test_a_toolchain_that_fails_is_named_before_the_proofs(checkout):
    executable(checkout / "rt", "echo rt: broken >&2; exit 1")
    ended = subprocess.run([sys.executable, "tests/gate.py"], cwd=checkout, env=in_path(checkout), capture_output=True,
                           text=True, check=False)
    assert (ended.returncode, ended.stderr) == (127, "check: build/sources-sum zsched: rt: broken\n")
    assert len(programs(checkout)) == 5


def test_the_quick_gate_begins_with_the_tests_that_need_no_program(checkout):
    (checkout / "crates/zsched_c").mkdir()
    shutil.copy(TOP / "tests/no_program.py", checkout / "tests")
    (checkout / "tests/floors.txt").write_text("test_rules.py 2\ntest_guarantees.py 2\ntest_documents.py 2\n")
    for word, failed in [("passed", 1), ("FAILED", 2)]:
        for name in ["rules", "guarantees", "documents"]:
            is_right = word == "passed" or name != "guarantees"
            text = f"def test_of_a_program(zsched): assert False\ndef test_other(): assert {is_right}\n"
            (checkout / f"tests/test_{name}.py").write_text(text)
        said = subprocess.run([sys.executable, "tests/gate.py", "quick"], cwd=checkout, env=in_path(checkout),
                              text=True, stdout=subprocess.PIPE, check=False).stdout.splitlines()
        assert said[0] == f"rules, promises and documents: {word}"
        # The plans fail, for which this toolchain builds no program.
        assert said[-1] == f"{5 - failed} passed, {failed} failed"
        (checkout / "crates/zsched/out/checked.json").unlink()


def git(tree, *words):
    return output_of(["git", "-c", "user.name=a", "-c", "user.email=a@example.org", *words], cwd=tree).strip()


@pytest.fixture(scope="module")
def history(tmp_path_factory):
    """A repository of three commits: the second changes a comment that docs/PROMISES.md has, the third the page. Beside
    the promises it tests next to nothing, and what needs a program would fail."""
    tree = tmp_path_factory.mktemp("history")
    for name in ["build", "crates", "docs", "tests", "tools"]:
        shutil.copytree(TOP / name, tree / name, ignore=shutil.ignore_patterns("out", "cases", "__pycache__"))
    for name in ["crates.txt", "pytest.ini", "VERSION"]:
        shutil.copy(TOP / name, tree)
    (tree / "include").symlink_to(TOP / "include")
    (tree / "tests/test_rules.py").write_text("def test_it(): pass\n")
    (tree / "tests/test_documents.py").write_text("def test_it(zsched): assert False\ndef test_other(): pass\n")
    (tree / "tests/floors.txt").write_text("test_rules.py 1\ntest_documents.py 2\ntest_guarantees.py 32\n")
    source = tree / "crates/zs_term/src/printer.rt"
    git(tree, "init", "--quiet")
    for text in ["the base", "another word", "the page"]:
        if text == "another word":
            assert source.read_text().count("/// ") > 0
            source.write_text(source.read_text().replace("/// ", "/// Also: ", 1))
        elif text == "the page":
            (tree / "docs/PROMISES.md").write_text(output_of([tree / "build/guarantees"]))
        git(tree, "add", ".")
        git(tree, "commit", "--quiet", "--message", text)
    return tree


def green(tree, base):
    return run_tool([tree / "build/green", base], TMPDIR=tree.parent, CI="1")


def test_a_commit_whose_promises_are_not_printed_is_red(history):
    status, said, _ = green(history, "HEAD~2")
    name = git(history, "log", "-1", "--format=%h", "HEAD~1")
    assert status == 1
    assert re.sub(r" - .*", "", said) == (
        f"red: {name} another word\n  FAILED tests/test_guarantees.py::test_the_page_is_printed_from_the_sources\n"
        "1 of 2 commits since HEAD~2 are green\n")
    assert green(history, "HEAD~1") == (0, "1 of 1 commits since HEAD~1 are green\n", "")
    assert green(history, "HEAD") == (0, "0 of 0 commits since HEAD are green\n", "")
    assert green(history, "nothing") == (2, "", "green: BASE nothing: there is no such commit\n")


@pytest.mark.parametrize("number", [signal.SIGINT, signal.SIGTERM])
def test_an_interrupted_look_at_commits_leaves_nothing(number, history, tmp_path):
    sleeping = "import os, pathlib, time\npathlib.Path(os.environ['BEGUN']).touch()\ntime.sleep(300)\n"
    (history / "tests/test_rules.py").write_text(sleeping)
    git(history, "commit", "--quiet", "--all", "--message", "it sleeps")
    variables = os.environ | {"TMPDIR": str(tmp_path), "BEGUN": str(tmp_path / "begun")}
    with subprocess.Popen([history / "build/green", "HEAD~1"], cwd=history, env=variables, stdout=subprocess.DEVNULL,
                          stderr=subprocess.DEVNULL) as running:
        while not (tmp_path / "begun").exists():
            assert running.poll() is None
            time.sleep(0.05)
        running.send_signal(number)
        assert running.wait(60) == 128 + number
    git(history, "reset", "--quiet", "--hard", "HEAD~1")
    assert [*tmp_path.iterdir()] == [tmp_path / "begun"]
    assert len(git(history, "worktree", "list").splitlines()) == 1
    assert with_variable(f"BEGUN={tmp_path}") == b""
