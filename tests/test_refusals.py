"""Wrong bodies, over a prover that is a few lines of Python: what counts as a refusal, and what is tried again."""
import os
import pathlib
import select
import shutil
import subprocess
import sys
import time

import pytest

import refusals
from sections import sections_of
from support import TOP, executable, rows

# Two functions; the prover below reads what is wrong with a body off its words.
SOURCE = """/// One more.
pub fn next(x: u64) -> u64
    ensures value { Follows x result }
    ensures more { x ≤ result }
{
    x + 1
}

pub fn last(x: u64) -> u64
    ensures value { Follows result x }
{
    x - 1
}
"""
PROVER = r'''
import pathlib, re, sys
kept = pathlib.Path(sys.argv[sys.argv.index("--incremental") + 1])
text = pathlib.Path("src/lib.rt").read_text()
seeds = [it.name for it in kept.rglob("*.oantt")]
for name, seen in [("checks", "x"), ("texts", f"{text}\0"), ("seeds", f"{seeds}\n")]:
    open(kept.parents[1] / name, "a").write(seen)
if "unread" in text:
    sys.exit("error[parse]: what is this?")
found = dict(re.findall(r"fn (\w+)\(.*?\n\{\n(.*?)\n\}", text, re.S))
if only := [word for before, word in zip(sys.argv, sys.argv[1:]) if before == "--only"]:
    if not {*only} <= {*found}:
        sys.exit(2)
    found = {name: found[name] for name in only}
ends = {"wrong": "no proof: `search` did not prove `returns-then-x-clause-value`",
        "while": "no proof: expected a measure in ./proofs/next/Invariants.antt",
        "other": "no proof: `search` did not prove `add-requires-clause-fits`",
        "callee": "no proof: it calls `zs_a::next`", "gone": "not proved", "hand": "not proved"}
for name, body in found.items():
    if "gone" in body:
        print(f"./proofs/{name}/Answers.antt:1:1: error: `returns-clause-value`: `c.x`\n  has no field `least`")
    if "hand" in body:
        print(f"./proofs/{name}/Answers.antt:1:1: error: `returns-clause-value`: the two types differ")
    print(f"fn zs_a::{name}: {next((end for word, end in ends.items() if word in body), 'proved')}")
is_proved = not any(word in body for word in ends for body in found.values())
print("logic=" + ("proved" if is_proved else "not-proved"))
sys.exit(3 if any("limit" in body for body in found.values()) else 0 if is_proved else 1)
'''
TOOLCHAIN = """
import types
RATTLE = {!r}
def guarded(): return []
def crates_below(top): return [types.SimpleNamespace(name="zs_a", words=lambda flags, keeps: [])]
"""


@pytest.fixture
def tree(tmp_path):
    """A repository with one crate above another, and its toolchain."""
    for name in ["tests/refusals.py", "tests/support.py"]:
        (tmp_path / name).parent.mkdir(exist_ok=True)
        shutil.copy(TOP / name, tmp_path / name)
    shutil.copytree(TOP / "build", tmp_path / "build")
    for name in ["zs_low/src", "zs_a/src", "zs_a/must-fail"]:
        (tmp_path / "crates" / name).mkdir(parents=True)
    (tmp_path / "kit/bin").mkdir(parents=True)
    for name, text in [("crates.txt", "zs_low:\nzs_a: zs_low\n"), ("crates/zs_a/src/lib.rt", SOURCE),
                       ("crates/zs_low/src/lib.rt", ""), ("kit/KIT-ID", "a"), ("kit/bin/prover.py", PROVER),
                       ("kit/bin/rtlib.py", TOOLCHAIN.format(str(tmp_path / "kit/bin/rattle")))]:
        (tmp_path / name).write_text(text)
    executable(tmp_path / "kit/bin/rattle", f"exec {sys.executable} {tmp_path}/kit/bin/prover.py \"$@\"")
    executable(tmp_path / "kit/bin/rt", "")
    return tmp_path


def begun(tree, *words):
    """The script, as it runs."""
    (tree / "checks").write_text("")
    variables = {"PATH": f"{tree}/kit/bin:{os.environ['PATH']}", "XDG_CACHE_HOME": str(tree / "cache"),
                 "TMPDIR": str(tree)}
    pipes = dict.fromkeys(["stdin", "stdout", "stderr"], subprocess.PIPE)
    return subprocess.Popen([sys.executable, "tests/refusals.py", *words], cwd=tree, text=True,
                            env=os.environ | variables, **pipes)


def tried(tree, *words, given=""):
    """What the script prints, and how many checks it made."""
    running = begun(tree, *words)
    output, errors = running.communicate(given)
    assert errors == "" or running.returncode, errors
    return output + errors, len((tree / "checks").read_text())


def add(tree, name, lines, kind="wrong"):
    """Adds an edit of `x + 1` in `next`, unless its lines say another."""
    head = [] if any(line.startswith("file: ") for line in lines) else ["file: src/lib.rt", "old: x + 1"]
    at = next((place for place, line in enumerate(lines) if line.startswith("new:")), len(lines))
    lines = [*lines[:at], *head, *lines[at:], ""]
    crate = tree / "crates/zs_a"
    if kind == "must-fail":
        (crate / kind / f"{name}.edit").write_text("\n".join(lines))
    else:
        with open(crate / f"{kind}.txt", "a") as file:
            file.write("\n".join([f"== {name}", *lines]))


@pytest.mark.parametrize("name, kind, edits, passed, said", rows("wrong_bodies.jsonl"))
def test_an_edit_passes_only_if_its_own_clause_failed(name, kind, edits, passed, said, tree):
    for number, lines in enumerate(edits):
        add(tree, f"edit{number}", lines, kind)
    shown, _ = tried(tree)
    assert shown.splitlines()[-1] == f"{passed} passed, {len(edits) - passed} failed", shown
    assert said in shown


NEXT = ["# refused: zs_a::next value", "new: wrong"]
LAST = ["# refused: zs_a::last value", "file: src/lib.rt", "old: x - 1", "new: wrong"]


def test_edits_of_different_functions_are_one_check_and_others_are_not(tree):
    add(tree, "one", NEXT)
    add(tree, "two", LAST)
    assert tried(tree)[1] == 1
    add(tree, "three", ["# refused: zs_a::next value", "new: x + wrong"])
    assert tried(tree, "--anew")[1] == 2


def test_a_control_stays_in_its_place_beside_later_ones(tree):
    for name, control in [("one", "1 + x"), ("two", "x + 1 + 0")]:
        add(tree, name, [*NEXT, f"# control: {control}"])
    add(tree, "other", [*LAST, "# control: x - 1 - 0"])
    assert tried(tree)[1] == 4
    texts = (tree / "texts").read_text().split("\0")
    assert ["1 + x" in texts[0], "x + 1 + 0" in texts[1]] == [True, True]
    assert ["x - 1 - 0" in it for it in texts[:4]] == [True, True, False, False]


@pytest.mark.parametrize("change", ["crates/zs_a/src/lib.rt", "crates/zs_low/src/lib.rt", "crates/zs_a/wrong.txt",
                                    "kit/KIT-ID", "tests/refusals.py"])
def test_a_bundle_that_passed_is_tried_again_if_something_changed(change, tree):
    add(tree, "one", NEXT)
    add(tree, "two", LAST)
    assert [tried(tree)[1] for _ in range(2)] == [1, 0]
    assert tried(tree, "--anew")[1] == 1
    path = tree / change
    text = path.read_text()
    path.write_text(text.replace("== one\n", "== one\n# another belief\n") if "== one\n" in text else f"{text}\n")
    assert [tried(tree)[1] for _ in range(2)] == [1, 0]


def test_what_failed_is_tried_again(tree):
    add(tree, "one", ["# refused: zs_a::next value", "new: x + 1 + 0"])
    assert [tried(tree)[1] for _ in range(2)] == [1, 1]


def test_a_crate_is_tried_once_it_is_named_as_proved(tree):
    add(tree, "one", NEXT)
    shown, checks = tried(tree, "--as-proved", given="rt: zs_low proved\n")
    assert (shown.splitlines()[-1], checks) == ("0 passed, 0 failed", 0)
    shown, checks = tried(tree, "--as-proved", given="rt: zs_low proved\nrt: zs_a is kept: an earlier run\n")
    assert (shown.splitlines()[-1], checks) == ("1 passed, 0 failed", 1)


def test_a_crate_is_tried_while_others_are_proved(tree):
    add(tree, "one", NEXT)
    with begun(tree, "--as-proved") as running:
        running.stdin.write("rt: zs_a proved\n")
        running.stdin.flush()
        assert select.select([running.stdout], [], [], 20)[0], "nothing was tried yet"
        assert running.stdout.readline().startswith("zs_a: 1 edits in 1 checks")
        assert running.communicate()[0] == "1 passed, 0 failed\n"


OWN = ["# It does something else.", "# no control: none", "# refused: zs_a::next value", "new: wrong"]
TRYING = "rt: zs_a: trying its must-fail edits (2)\n"


def over_seed(tree, runner, *lines):
    """Whether the script says that two own wrong bodies begin over what was proved, and over which proofs the first
    check does, if a process has them a second after the first line."""
    for name in ["one", "two"]:
        add(tree, name, OWN, "must-fail")
    with begun(tree, "--as-proved") as running:
        for line in ["rt: zs_a proved\n", *lines]:
            running.stdin.write(line)
            running.stdin.flush()
            time.sleep(1)
            folder = tree / f"rt-edits-{runner}-a/seed/one"
            folder.mkdir(parents=True, exist_ok=True)
            (folder / "Rattle-zs_a-next.oantt").touch()
        shown, errors = running.communicate()
    assert errors == "" and shown.endswith("\n2 passed, 0 failed\n"), errors + shown
    return "over what rt ci proved" in shown, (tree / "seeds").read_text().splitlines()[0]


def test_own_wrong_bodies_begin_over_what_was_proved_for_them(tree):
    with subprocess.Popen(["sleep", "20"], cwd=tree) as runner:
        assert over_seed(tree, runner.pid, TRYING) == (True, "['Rattle-zs_a-next.oantt']")
        runner.kill()


def test_a_crate_whose_own_wrong_bodies_are_not_tried_comes_last(tree):
    assert over_seed(tree, os.getpid()) == (False, "[]")


@pytest.mark.parametrize("is_gone", [True, False])
def test_a_seed_of_another_checkout_or_one_that_goes_is_not_taken(is_gone, tree):
    with subprocess.Popen(["sleep", "20"], cwd=tree if is_gone else "/") as runner:
        if is_gone:
            (tree / f"rt-edits-{runner.pid}-a/seed").mkdir(parents=True)
            (tree / f"rt-edits-{runner.pid}-a/seed/judged").symlink_to("nowhere")
        assert over_seed(tree, runner.pid, TRYING) == (False, "[]")
        runner.kill()


def test_a_check_of_an_edit_alone_states_what_refuses_it(tree):
    add(tree, "one", ["new: hand"])
    assert "# refused: zs_a::next value\n" in tried(tree, "--stated", "zs_a/one")[0]


def test_an_edit_alone_is_tried_by_its_name(tree):
    add(tree, "one", NEXT)
    add(tree, "two", ["# refused: zs_a::last value", "file: src/lib.rt", "old: x - 1", "new: x - 1 - 0"])
    assert tried(tree, "zs_a/one")[0].endswith("\n1 passed, 0 failed\n")
    assert tried(tree, "zs_a/two")[0].endswith("\n0 passed, 1 failed\n")
    assert "there is no crate and no edit zs_a/three" in tried(tree, "zs_a/three")[0]


def test_each_edit_of_the_repository_has_its_line():
    edits = [it for name in refusals.CRATES for it in refusals.guarantees().edits_of(name)]
    lacking = [it.label for it in edits if "\n# refused: " not in f"\n{it.text}"]
    assert len(edits) > 270 and lacking == []
    assert {it.is_asked for it in edits} == {True, False} and len({it.label for it in edits}) == len(edits)


def test_wrong_bodies_and_survivors_are_in_the_order_of_their_names():
    lists = [[it.name for it in sections_of(path)] for kind in ["wrong", "survivors"]
             for path in TOP.glob(f"crates/*/{kind}.txt")]
    assert len(lists) > 15 and [it for it in lists if it != sorted(it)] == []
    # Nothing reads an edit that is a file elsewhere.
    assert {path.parent.name for path in TOP.glob("crates/*/*/*.edit")} == {"must-fail"}


def test_at_most_a_third_of_the_requests_wrong_bodies_has_no_control():
    texts = [pathlib.Path(path).read_text(encoding="utf-8") for path in TOP.glob("crates/*/must-fail/*.edit")]
    assert len(texts) > 40 and 3 * sum("\n# no control: " in text for text in texts) <= len(texts)
