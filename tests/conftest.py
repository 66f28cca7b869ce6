"""What all tests share: options, the built programs, the library, and the floors of tests/floors.txt."""
import collections
import compileall
import fcntl
import os
import pathlib
import shutil
import subprocess
import sys
import tempfile

sys.dont_write_bytecode = True

import hypothesis
import pytest

from support import TOP, built, floors

# In which a skipped test is a failure.
STRICT = [name for name in ["CI", "ZSCHED_GATE"] if os.environ.get(name)]
COUNTS = pytest.StashKey()

os.environ.setdefault("HYPOTHESIS_STORAGE_DIRECTORY", str(pathlib.Path(tempfile.gettempdir(), "zsched-hypothesis")))
hypothesis.settings.register_profile(
    "zsched", deadline=None, derandomize=True, database=None, suppress_health_check=list(hypothesis.HealthCheck))
hypothesis.settings.load_profile("zsched")


def pytest_addoption(parser):
    parser.addoption("--short", action="store_true", help="leave out the tests that are marked `full`")
    parser.addoption("--examples", type=int, default=1, metavar="N", help="run N times as many random examples")
    parser.addoption("--update", action="store_true", help="show how cases differ, and write those that you accept")


def pytest_configure(config):
    """Passes the number of examples on to support.examples, which tests call when they are loaded. Lets each tool begin
    in half the time: what it reads of tools/ is compiled once, and `python3` isn't a script that looks for one."""
    os.environ["ZSCHED_EXAMPLES"] = str(config.getoption("--examples"))
    if not hasattr(config, "workerinput"):
        compileall.compile_dir(TOP / "tools", quiet=2)
        room = tempfile.mkdtemp(prefix="zsched-python-")
        config.add_cleanup(lambda: shutil.rmtree(room))
        os.symlink(sys.executable, f"{room}/python3")
        os.environ["PATH"] = f"{room}:{os.environ['PATH']}"


@pytest.hookimpl(tryfirst=True)
def pytest_collection_modifyitems(config, items):
    """Counts the cases of each file before any is left out."""
    config.stash[COUNTS] = dict(collections.Counter(item.path.name for item in items))
    if config.getoption("--short"):
        left = [item for item in items if item.get_closest_marker("full")]
        config.hook.pytest_deselected(items=left)
        items[:] = [item for item in items if item not in left]


@pytest.hookimpl(optionalhook=True)
def pytest_testnodedown(node):
    node.config.stash[COUNTS] = getattr(node, "workeroutput", {}).get("counts", {})


def below_floors(config):
    """Yields what is wrong with the counts of the files that are run."""
    counts = config.stash.get(COUNTS, {})
    floor = {name: number for name, number in floors().items() if name.startswith("test_")}
    is_whole = any(pathlib.Path(word).is_dir() for word in config.args)
    names = {path.name for path in (TOP / "tests").glob("test_*.py")}
    whole = {pathlib.Path(word).name for word in config.args if "::" not in word}
    for name in sorted(names | floor.keys() if is_whole else whole):
        if name not in floor:
            yield f"tests/floors.txt has no number for {name}"
        elif counts.get(name, 0) < floor[name]:
            yield f"{name} has {counts.get(name, 0)} cases, and tests/floors.txt asks for {floor[name]}"


@pytest.hookimpl(trylast=True)
def pytest_sessionfinish(session):
    """Fails a run in which a file has fewer cases than its floor."""
    config = session.config
    if hasattr(config, "workeroutput"):
        config.workeroutput["counts"] = config.stash.get(COUNTS, {})
    elif not config.option.collectonly and (faults := list(below_floors(config))):
        session.exitstatus = session.exitstatus or pytest.ExitCode.TESTS_FAILED
        print("", *[f"floor: {fault}" for fault in faults], sep="\n")


@pytest.hookimpl(hookwrapper=True, tryfirst=True)
def pytest_runtest_makereport():
    """Makes a skip a failure, of a test and of a file."""
    report = (yield).get_result()
    if STRICT and report.skipped:
        reason = report.longrepr[2] if isinstance(report.longrepr, tuple) else report.longrepr
        report.outcome, report.longrepr = "failed", f"skipped, which is a failure under {STRICT[0]}: {reason}"
        vars(report).pop("wasxfail", None)


pytest_make_collect_report = pytest_runtest_makereport


def program(variable, crate):
    """The path of a built program, as a fixture: the one that a variable names, or the one of its crate."""
    @pytest.fixture(scope="session")
    def found():
        path = pathlib.Path(os.environ.get(variable) or built(crate))
        how = "./run --proved builds zsched, ./check all"
        assert os.access(path, os.X_OK), f"{path} isn't built ({how}), and {variable} names no other"
        return path
    return found


zsched, population = program("ZSCHED", "zsched"), program("ZSCHED_POPULATION", "zsched_population")
refusals, bounds = program("ZS_REFUSALS", "zs_refusals"), program("ZSCHED_BOUNDS", "zsched_bounds")


@pytest.fixture(scope="session")
def library():
    """The folder of the library, which one process builds if no variable names it."""
    if named := os.environ.get("ZSCHED_LIBRARY_DIR"):
        return pathlib.Path(named)
    with open(TOP / "tests" / "floors.txt", encoding="utf-8") as held:
        fcntl.flock(held, fcntl.LOCK_EX)
        for target in ["x86_64", "wasm"]:
            subprocess.run([TOP / "build" / "make-library", "--target", target], check=True, stdout=subprocess.DEVNULL)
    return TOP / "crates" / "zsched_c" / "out"
