"""Runs the cases that are files: those of tests/cases/, and the plans of examples/ and tests/plans/.

case_files.py says how tests/cases/TOOL.txt is written. A case has a file `cmd`, a few lines for bash. They run in a new
folder with its other files, with the commands of build/ and tools/ and the built programs first in PATH, and with
ZSCHED, ZSCHED_BOUNDS, ZSCHED_POPULATION and TOP set. The files `stdin`, `stdout`, `stderr` (none: empty) and `status`
(none: 0) say what it gets and what it has to give. Each file of `out/` is one that the run has to write. With a file
`library` it gets ZSCHED_LIBRARY. Each line of `needs` is a program that few machines have, and its Debian package: such
a case is marked `full`. `-k NAME` runs one alone. A plan has its report beside it; it runs as it is, and under twelve
cuts. Expected files are worked out by hand or by another program. `--update` prints what differs, and writes what you
accept."""
import difflib
import os
import pathlib
import shutil
from unittest import mock

import pytest

import case_files
import sections
from case_files import FOLDER, Case, cases, is_text, joined
from support import TOP, difference, plans_with_reports, recut, report_beside, rows, run

CUTS = [None, *[(workers, grain) for workers in [1, 2, 7, 64] for grain in [1, 3, 10000]]]
STREAMS = ["status", "stdout", "stderr"]
PATIENCE = 600


def needs(case):
    """The programs that a case needs and few machines have, each with its package."""
    return [line.split() for line in case.parts.get("needs", b"").decode().splitlines()]


def wanted(case):
    """What a run of a case has to give: the bytes of each stream and file."""
    files = case.files
    return {name: files.get(name, b"") for name in [*STREAMS, *(it for it in files if it.startswith("out/"))]}


def found(case, room, programs):
    case.unpack(room)
    status, output, errors = run(["bash", "cmd"], case.files.get("stdin", b""), programs, PATIENCE, cwd=room)
    given = {"status": b"" if status == 0 else f"{status}\n".encode(), "stdout": output, "stderr": errors}
    for name in wanted(case).keys() - {*STREAMS}:
        path = room / name.removeprefix("out/")
        given[name] = path.read_bytes() if path.is_file() else b""
    return given


def differing(case, given):
    """The streams and files of a run that aren't as wanted, each with both texts."""
    asked = wanted(case)
    asked["status"] = b"" if asked["status"].strip() in [b"", b"0"] else asked["status"].strip() + b"\n"
    return {name: (asked[name], given[name]) for name in asked if asked[name] != given[name]}


def changes(name, before, now):
    old, new = ([repr(line)[1:] for line in text.splitlines(keepends=True)] for text in [before, now])
    return "\n".join(difflib.unified_diff(old, new, f"{name}, wanted", f"{name}, found", lineterm="", n=2))


def update(case, differing, capture):
    """Shows how a case differs, and writes what is accepted."""
    with capture.disabled(), open("/dev/tty", "r+", encoding="utf-8") as terminal:
        for name, (before, now) in differing.items():
            told = changes(f"{case.place}: {case.name}/{name}", before, now)
            print(f"\n{told}\nright? [y/N] ", file=terminal, end="", flush=True)
            if terminal.readline().strip() == "y":
                case.put(name, now)


@pytest.fixture(scope="session")
def programs(zsched, population, bounds, tmp_path_factory):
    """The variables of a case, with a folder of links to the programs."""
    room = tmp_path_factory.mktemp("programs")
    for path, name in [(zsched, "zsched"), (population, "zsched-population"), (bounds, "zsched-bounds")]:
        (room / name).symlink_to(path)
    variables = {"ZSCHED": zsched, "ZSCHED_POPULATION": population, "ZSCHED_BOUNDS": bounds, "TOP": TOP, "COLUMNS": 80,
                 "PATH": f"{TOP}/build:{TOP}/tools:{room}:{os.environ['PATH']}"}
    return os.environ | {name: str(value) for name, value in variables.items()}


@pytest.mark.parametrize("case", [pytest.param(case, id=name, marks=[pytest.mark.full] if needs(case) else [])
                                  for name, case in cases().items()])
def test_a_case_gives_what_its_files_say(case, programs, tmp_path, request, capsys):
    for name, package in needs(case):
        if not shutil.which(name):
            pytest.skip(f"{name} isn't installed (Debian: {package})")
    if case.section.path.stem in ["install-library", "release"]:
        programs = programs | {"ZSCHED_LIBRARY_DIR": str(request.getfixturevalue("library"))}
    if "library" in case.parts:
        programs = programs | {"ZSCHED_LIBRARY": str(request.getfixturevalue("library") / "libzsched.so")}
    others = differing(case, found(case, tmp_path / "case", programs))
    if others and request.config.getoption("--update"):
        update(case, others, capsys)
    assert not others, "\n".join([case.place, case.section.text, *(
        changes(name, *texts) for name, texts in others.items())])


def test_each_case_is_one_text_and_what_is_beside_it_can_not_be_in_it():
    for path in FOLDER.glob("*.txt"):
        texts = {it.name: it.text for it in sections.sections_of(path)}
        assert path.read_bytes() == sections.joined(texts) and [*texts] == sorted(texts), path
    for case in cases().values():
        assert case.section.text == joined(case.parts), f"{case.place}: another order of files"
        for path in filter(pathlib.Path.is_file, case.beside.rglob("*")):
            assert not is_text(path.read_bytes()) or os.access(path, os.X_OK), path
    assert len(cases()) > 450 and {it.suffix for it in FOLDER.iterdir()} == {"", ".txt"}


def test_each_folder_is_of_a_case_or_is_named_by_one():
    texts = "".join(case.section.text for case in cases().values())
    for path in FOLDER.glob("*/*"):
        name = f"{path.parent.name}/{path.name}"
        assert name in cases() or f"tests/cases/{name}/" in texts, f"no case reads {name}"


CASE = "== one\n-- cmd --\ncat given\n-- given --\n1\n-- stdout --\n1\n"


@pytest.mark.parametrize("text", [
    "", CASE.removesuffix("\n"), f"a word\n{CASE}", CASE + CASE, CASE.replace("cmd", "script"),
    CASE.replace("== one\n", "== one\na word\n"), CASE.replace("given --", "cmd --"), f"{CASE}== 1\n2\n"])
def test_a_file_of_cases_that_is_not_read_whole_is_an_error(text):
    path = FOLDER / "tool.txt"
    with mock.patch.object(pathlib.Path, "read_bytes", lambda _: text.encode()), pytest.raises(sections.Unreadable):
        [Case(it) for it in sections.sections_of(path)]


def test_a_case_is_updated_in_its_place(tmp_path):
    with mock.patch.object(case_files, "TOP", tmp_path), mock.patch.object(case_files, "FOLDER", tmp_path / "cases"):
        path = tmp_path / "cases" / "tool.txt"
        path.parent.mkdir()
        other = CASE.replace("one", "other")
        path.write_text(CASE + other)
        case, _ = map(Case, sections.sections_of(path))
        for name, data in [("stdout", b"2\n"), ("status", b"3\n"), ("out/a", b"== one\n"), ("given", b"")]:
            case.put(name, data)
        assert path.read_text() == "== one\n-- cmd --\ncat given\n-- status --\n3\n-- stdout --\n2\n" + other
        [again, _] = map(Case, sections.sections_of(path))
        assert again.files == case.files and again.files["out/a"] == b"== one\n"


# What is wrong, the file of tools/zsched_tools that has it, the right text, the wrong one, and a case that must fail.
@pytest.mark.parametrize("name, file, right, wrong, case", rows("tool_edits.jsonl"))
def test_a_tool_with_a_planted_fault_fails_a_case(name, file, right, wrong, case, programs, tmp_path):
    shutil.copytree(TOP / "tools", tmp_path / "tools")
    (tmp_path / "docs").symlink_to(TOP / "docs")
    path, case = tmp_path / "tools/zsched_tools" / file, cases()[case]
    assert path.read_text().count(right) == 1
    path.write_text(path.read_text().replace(right, wrong))
    given = found(case, tmp_path / "case", programs | {"PATH": f"{tmp_path}/tools:{programs['PATH']}"})
    assert differing(case, given) and b"Traceback" not in given["stderr"] + given["stdout"]


@pytest.mark.parametrize("cut", CUTS, ids=lambda cut: "as_it_is" if cut is None else f"workers_{cut[0]}_grain_{cut[1]}")
@pytest.mark.parametrize("path", plans_with_reports(), ids=lambda path: path.stem)
def test_a_plan_gives_the_report_beside_it(path, cut, zsched):
    text = path.read_bytes() if cut is None else recut(path.read_bytes(), *cut)
    assert difference(run(zsched, text), (0, report_beside(path), b"")) is None
