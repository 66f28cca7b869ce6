"""docs/PROMISES.md is what build/guarantees prints of the sources, and docs/GUARANTEES.md names tests and files that
exist."""
import re
import runpy
import types

import pytest

from support import TOP

guarantees = types.SimpleNamespace(**runpy.run_path(str(TOP / "build" / "guarantees")))

PAGE = (TOP / "docs" / "GUARANTEES.md").read_text()
PRINTED = (TOP / "docs" / "PROMISES.md").read_text()
FILE = re.compile(r"[a-z][\w./-]*\.(?:py|rt|antt|c|md)")
TEST = re.compile(r"(?!zs_)[a-z]\w*_\w+")
# A test of a crate, or a row of one.
NAMED = re.compile(r'^(?:fn |    (?:    )?\(?\s*")(\w+)', re.M)
each_crate = pytest.mark.parametrize("crate", guarantees.CRATES)


def quoted(text): return " ".join(re.findall(r"`([^`]*)`", text)).split()


def test_the_page_is_printed_from_the_sources():
    assert PRINTED == guarantees.page(), "build/guarantees > docs/PROMISES.md writes it"


@each_crate
def test_each_call_says_what_it_does(crate):
    assert f"\n## {crate}\n" in PRINTED
    calls = [it for it in guarantees.promises_of(crate) if it.clauses]
    assert calls and [it.name for it in calls if not it.said.partition(" `")[0]] == []
    assert [it.name for it in calls for _, _, text, _ in it.clauses if not text] == []


@each_crate
def test_each_wrong_body_breaks_a_promise(crate):
    edits = {it.name for it in guarantees.edits_of(crate)}
    behind = [guarantees.edits_behind(crate, it.name) for it in guarantees.promises_of(crate) if it.clauses]
    assert edits or crate == "zs_job_bounds"
    assert sorted(edits.difference(*(names for each in behind for names in each))) == []


def test_the_tests_that_the_page_names_exist():
    texts = [guarantees.text_of(str(folder.relative_to(TOP))) for folder in guarantees.TESTS]
    tests = {name for text in texts for name in NAMED.findall(text)}
    section = re.split(r"\n##+ ", PAGE.split("\n## What tests alone show\n")[1])[0]
    named = [name for name in quoted(section) if TEST.fullmatch(name)]
    assert len(tests) > 100 and len(named) > 20
    assert [name for name in named if name not in tests] == []


def test_the_files_that_the_page_names_exist():
    homes = [TOP, TOP / "docs", *(folder / "tests" for folder in guarantees.TESTS)]
    assert [name for name in quoted(PAGE) if FILE.fullmatch(name) and "NAME" not in name
            and not any((home / name).is_file() for home in homes)] == []


def test_the_headline_imports_no_constant():
    assert re.findall(r"`[A-Z]+(?:_[A-Z]+)*`", PRINTED.split("\n## Files to believe\n")[1]) == []
