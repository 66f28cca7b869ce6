"""The tests that need no program and no proof. As a plugin of pytest this leaves out all others of its files."""
# What a test asks for that needs a program.
PROGRAMS = {"zsched", "population", "bounds", "refusals", "library"}
FILES = [f"tests/test_{it}.py" for it in ["rules", "guarantees", "documents"]]
WORDS = ["-m", "pytest", "-q", "-p", "no_program", *FILES]


def pytest_collection_modifyitems(config, items):
    left_out = [it for it in items if PROGRAMS & {*it.fixturenames}]
    config.hook.pytest_deselected(items=left_out)
    items[:] = [it for it in items if it not in left_out]
