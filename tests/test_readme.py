"""README and the first page of RECIPES, as a newcomer follows them: each command, in the order of the page, prints what
is shown. They run in a copy of the tree without `out/`, so the first one builds the programs without their proofs."""
import os
import re
import shutil
import subprocess

import pytest

from support import TOP, output_of

PAGES = [(TOP / "README.md").read_text(), "### ".join((TOP / "docs/RECIPES.md").read_text().split("### ", 2)[:2])]
# How a command begins that isn't run here, and why.
LEFT_OUT = {
    "tar -xzf ": "no release is published; tests/cases/release.txt makes and runs one",
    "PATH=": "it names the folder of a release", "zsched-try ": "it is that of a release",
    "apt install ": "the package is one of a release",
    "./run --proved": "it takes half an hour; tests/cases/run.txt has it in a small tree",
    "./check": "it runs this test; tests/cases/check.txt has what it installs"}


def commands(page):
    """The commands of blocks and in backquotes, with the shown output or None. A tool named alone shows its help."""
    for found in re.finditer(r"^ *```(\w+)\n(.*?)^ *```$|`((?:\./|tools/zsched-|apt )[^`]*)`", page, re.M | re.S):
        language, text, inline = found.groups()
        if language == "console":
            yield from (it.partition("\n")[::2] for it in re.split(r"^\$ ", text, flags=re.M)[1:])
        elif language == "sh":
            yield from ((line.strip(), None) for line in text.splitlines())
        elif inline:
            yield inline + " --help" * bool(re.fullmatch(r"tools/[\w-]+", inline)), None


COMMANDS = [pair for page in PAGES for pair in commands(page)]


def test_each_command_that_is_left_out_is_on_a_page():
    assert len(COMMANDS) > 15
    assert [it for it in LEFT_OUT if not any(command.startswith(it) for command, _ in COMMANDS)] == []


def test_the_first_three_commands_say_which_policies_retry_longer_than_their_callers_wait():
    (build, _), (tried, one), (check, all_of_them) = COMMANDS[:3]
    assert [it.split()[0] for it in (build, tried, check)] == ["./run", "tools/zsched-try", "tools/zsched-policy"]
    assert " --require-end 30s " in tried and "--require-end 30 s is not proved: a call of up to 33.1 s" in one
    assert "mail.py:5:2: send: end 30 s is not proved" in all_of_them and 'end = "30s"' in (
        TOP / check.split()[2] / ".zsched.toml").read_text()


@pytest.mark.full
def test_a_newcomer_gets_what_the_pages_show(tmp_path):
    for name in output_of(["git", "ls-files"], cwd=TOP).splitlines():
        (tmp_path / name).parent.mkdir(parents=True, exist_ok=True)
        shutil.copy(TOP / name, tmp_path / name, follow_symlinks=False)
    variables = {name: text for name, text in os.environ.items() if not name.startswith("ZSCHED")}
    for command, shown in COMMANDS:
        if not any(command.startswith(it) for it in LEFT_OUT):
            ended = subprocess.run(["bash", "-c", command], cwd=tmp_path, env=variables, stdin=subprocess.DEVNULL,
                                   stdout=subprocess.PIPE, stderr=subprocess.STDOUT, text=True, timeout=1800)
            assert (shown is None and ended.returncode == 0) or ended.stdout == shown, (command, ended.stdout)
    assert (tmp_path / "picture.svg").read_text().startswith("<svg")
