"""The section of a proved program: `strip` keeps it, and no other file has it. tests/cases/zsched-try.txt has what is
said of unproved programs, tests/cases/run.txt what ./run takes."""
import pathlib
import random
import shutil
import subprocess
import sys

import pytest

from support import TOP, executable, output_of, run_tool
from zsched_tools import proved

SECTION = proved.SECTION.decode()


@pytest.fixture(params=["of bounds", "static"])
def program(request, bounds, tmp_path, monkeypatch):
    """The path of a proved program, in an empty folder."""
    monkeypatch.chdir(tmp_path)
    if request.param == "static":
        subprocess.run(["cc", "-static", "-o", "program", "-x", "c", "-"], input=b"int main(void) { return 0; }",
                       check=True)
        proved.store("program", "program")
    else:
        shutil.copy(bounds, "program")
    return pathlib.Path("program")


@pytest.mark.parametrize("words", [["strip"], ["strip", "--strip-unneeded", "-R", ".comment"], ["objcopy", "-g"]])
def test_strip_keeps_the_section(words, program):
    before = program.read_bytes()
    output_of([*words, program])
    assert proved.is_proved(program) and program.read_bytes() != before
    assert run_tool(["./program"])[0] == 0


def test_a_changed_byte_of_what_is_loaded_is_seen(program):
    """Also the kind of processor, the first instruction's address, and the place of the segments' table."""
    data, chance = program.read_bytes(), random.Random(1)
    rows = [line.split() for line in output_of(["readelf", "-lW", program]).splitlines()]
    places = [(int(row[1], 16), int(row[1], 16) + int(row[4], 16)) for row in rows if row[:1] == ["LOAD"]]
    assert proved.is_proved_program(data) and len(places) > 2
    for at in [*range(16, 40), *(chance.randrange(max(64, begin), end) for begin, end in places * 50)]:
        assert not proved.is_proved_program(data[:at] + bytes([data[at] ^ 1 << chance.randrange(8)]) + data[at + 1:])


def test_no_other_file_is_proved(program):
    """One without the section, another one with it, one with two, a script around it, a piece, no program, no file."""
    output_of(["objcopy", f"--dump-section={SECTION}=section", f"--rename-section={SECTION}=other", program, "renamed"])
    for file, name in [("/bin/true", "another"), ("renamed", "again"), ("renamed", "without")]:
        shutil.copy(file, name)
    for name in ["another", "again"]:
        output_of(["objcopy", f"--add-section={SECTION}=section", name])
    pathlib.Path("two").write_bytes(proved.marked(program.read_bytes()))
    executable(pathlib.Path("script"), 'exec ./program "$@"')
    pathlib.Path("piece").write_bytes(program.read_bytes()[:-300])
    pathlib.Path("header").write_bytes(program.read_bytes()[:40] + b"\xff" * 24)
    names = ["another", "without", "two", "script", "piece", "header", "section", "nothing", "."]
    assert [it for it in names if proved.is_proved(it)] == [] and proved.is_proved("again")


def test_proofs_that_pass_store_proved_copies(tmp_path):
    """The toolchain's own file is unchanged, since its checksum is noted. Nothing is stored without the proofs."""
    shutil.copytree(TOP / "build", tmp_path / "build")
    shutil.copytree(TOP / "tools", tmp_path / "tools")
    (tmp_path / "tests").mkdir()
    for name in ["proofs.py", "support.py"]:
        shutil.copy(TOP / "tests" / name, tmp_path / "tests")
    (tmp_path / "rtlib.py").write_text(
        "import types\ndef crates_below(top):\n    return [types.SimpleNamespace(name=it, folder=f'{top}/{it}', "
        "makes_rlib=lambda: False) for it in ['zsched', 'zs_term']]\n")
    made, copy = tmp_path / "crates/zsched/out/zsched", tmp_path / "out/proved/zsched"
    made.parent.mkdir(parents=True)
    for failed in [1, 0]:
        executable(tmp_path / "rt", f"cp /bin/true {made}\necho {1 - failed} passed, {failed} failed\nexit {failed}")
        status, *_ = run_tool([sys.executable, tmp_path / "tests/proofs.py"], PATH=f"{tmp_path}:/usr/bin:/bin")
        assert (status, copy.exists()) == (failed, not failed)
    assert proved.is_proved(copy) and made.read_bytes() == pathlib.Path("/bin/true").read_bytes()
