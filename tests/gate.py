#!/usr/bin/env python3
"""The gate. Nothing is merged that doesn't pass it. docs/TESTING.md says what each part is for.

    ./check            all parts, over the programs that it proves and builds
    ./check --short    without the tests that need a JDK, Slurm, a browser or the like
    ./check --anew     repeats what earlier runs on this machine passed
    ./check NAME ..    over what was built last: proofs, programs, refusals, survivors, early, or a file of tests
                       (cases: test_cases.py)
    ./check quick      for the minutes between edits: the rules, promises and documents, in seconds; then it proves what
                       changed, and runs the plans unproved
    ./check --no-install ..  installs no Debian package that is missing. Else ./check does so, for quick and NAME those
                             of the gate alone, and ends with 127 if it can't

The last line is 'N passed, M failed'; the status is 0 if M is 0, and 1 if not. It is 2 for a wrong option, 3 if the
checkout can't be written, and 127 if a program or package is missing. If it doesn't pass, or is interrupted, it gives
back the programs that ./run built of these sources."""
import argparse
import contextlib
import ctypes
import os
import pathlib
import re
import shutil
import signal
import subprocess
import sys
import tempfile
import threading
import time

sys.dont_write_bytecode = True

import no_program
import programs
import quick
from support import TOP, built, floors
from toolchain import Unusable, sources_sum

# The checksum of all files with which the gate passed, and those of what it built and tested, for build/release.
PASSED = TOP / "out" / "passed"
COUNT = re.compile(r"(\d+) (passed|failed|errors?)\b")
# Variables under which a part would test another program, or other cases.
REDIRECTS = ["ZSCHED", "ZSCHED_POPULATION", "ZSCHED_BOUNDS", "ZSCHED_LIBRARY", "ZSCHED_LIBRARY_DIR", "ZSCHED_CHANGES",
             "ZS_REFUSALS", "ZS_CHOSEN", "PYTEST_ADDOPTS"]
# The minutes after which a part has failed, and the parts that have a name.
MINUTES = {"proofs": 170, "programs": 60, "refusals": 170, "survivors": 170, "early": 60, "tests": 60}
PARTS = [name for name in MINUTES if name != "tests"]
# The checksums of the sources of the programs that ./run shows as proved once the gate passed over them.
STAMPS = {name: TOP / "crates" / name / "out" / "proved" for name in ["zsched", "zsched_bounds"]}
# Where the programs of ./run are meanwhile: `rt ci` moves all of crates/*/out/ away, and gives back only what it made.
KEPT = TOP / "out" / "kept"
SIGNALS = [signal.SIGTERM, signal.SIGINT, signal.SIGHUP]
# The seconds in which an interrupted toolchain can give back what it set aside. If it can't, its next run does.
PATIENCE = 10


def below():
    """The processes below this one that have not ended, each with its parent."""
    parents = {}
    for path in pathlib.Path("/proc").glob("[0-9]*/stat"):
        with contextlib.suppress(OSError):
            state, parent = path.read_text(errors="replace").rpartition(")")[2].split()[:2]
            parents[int(path.parent.name)] = int(parent) if state != "Z" else 0
    found, more = set(), {os.getpid()}
    while more := {it for it, parent in parents.items() if parent in more} - found:
        found |= more
    return {it: parents[it] for it in found}


def interrupt():
    """Interrupts what the parts started, as Ctrl-C does, and waits for its end: `rt ci` then gives back what it set
    aside. It doesn't if another signal ends it, as a part would do that is interrupted itself."""
    end = time.monotonic() + PATIENCE
    for it, parent in below().items():
        with contextlib.suppress(ProcessLookupError):
            if parent != os.getpid():
                os.kill(it, signal.SIGINT)
    while time.monotonic() < end and any(parent != os.getpid() for parent in below().values()):
        time.sleep(0.05)


def end_all():
    """Ends every process below this one, also in a session of its own."""
    while left := below():
        for it in left:
            with contextlib.suppress(ProcessLookupError):
                os.kill(it, signal.SIGKILL)
        time.sleep(0.05)


def interrupted(number, _):
    """Ends all, gives programs back, and ends this process. More signals may come meanwhile: `timeout` sends two."""
    for it in SIGNALS:
        signal.signal(it, signal.SIG_IGN)
    try:
        print(f"check: interrupted, which takes up to {PATIENCE} s", file=sys.stderr, flush=True)
        interrupt()
        end_all()
        give_back()
    finally:
        os._exit(128 + number)


def keep():
    """Moves the programs of ./run, their stamps, and the quick gate's note to a folder that `rt ci` leaves alone."""
    for name, stamp in STAMPS.items():
        (KEPT / name).mkdir(parents=True, exist_ok=True)
        kept = [it for it in stamp.parent.glob("*") if it.name in [stamp.name, quick.NOTE.name]]
        for it in [*kept, *stamp.parent.glob("unproved-*"), *built(name).parent.glob(name)]:
            shutil.move(it, KEPT / name / it.name)


def give_back():
    """Gives back the programs of ./run that were built of the present sources, also those of a gate that was killed. If
    the toolchain gives no checksum, they stay for the next time."""
    if not KEPT.exists():
        return
    with contextlib.suppress(Unusable):
        for name, stamp in STAMPS.items():
            folder, total = KEPT / name, sources_sum(name)
            found, note = [folder / f"unproved-{total}", folder / quick.NOTE.name], folder / stamp.name
            if note.exists() and note.read_text() == f"{total}\n":
                found += [folder / name, note]
            for it in filter(pathlib.Path.exists, found):
                place = built(name) if it.name == name else stamp.with_name(it.name)
                place.parent.mkdir(parents=True, exist_ok=True)
                shutil.move(it, place)
        shutil.rmtree(KEPT)


def judged(name, lines, status, is_late=False):
    """How many cases of a part passed and failed, and why else it failed: its last line doesn't count what passed or
    implies another status, or fewer cases passed than its floor."""
    counts = {word.removesuffix("s"): int(number) for number, word in COUNT.findall(lines[-1] if lines else "")}
    passed, failed = counts.get("passed", 0), counts.get("failed", 0) + counts.get("error", 0)
    why, floor = [], floors().get(name, 1)
    if is_late:
        why.append(f"it was not done after {MINUTES[name]} minutes")
    elif not counts:
        why.append("its last line doesn't say how many passed")
    elif status and not failed:
        why.append(f"it ended with status {status}")
    if passed < floor:
        why.append(f"{passed} passed, and tests/floors.txt asks for {floor}")
    return passed, failed or int(bool(why)), why


class Part(threading.Thread):
    """A part that runs. Its output is shown at once, or at its end if it runs beside others. Another may read it."""

    def __init__(self, name, words, is_shown=True, reader=None, is_reader=False):
        super().__init__(daemon=True)
        self.name, self.is_shown, self.reader, self.is_late = name, is_shown, reader, False
        self.passed, self.failed, self.seconds, self.processor = 0, 1, 0, 0
        variables = {key: value for key, value in os.environ.items() if key not in REDIRECTS} | {"ZSCHED_GATE": "1"}
        self.process = subprocess.Popen(
            words, cwd=TOP, env=variables, text=True, errors="replace", start_new_session=True,
            stdin=subprocess.PIPE if is_reader else subprocess.DEVNULL, stdout=subprocess.PIPE,
            stderr=subprocess.STDOUT)
        self.start()

    def read(self, line=""):
        """Takes a line of another part's output, or its end."""
        with contextlib.suppress(OSError, ValueError):
            self.process.stdin.write(line)
            self.process.stdin.flush() if line else self.process.stdin.close()

    def stop(self):
        """Ends a part that takes too long, and its processes."""
        self.is_late = True
        with contextlib.suppress(ProcessLookupError):
            os.killpg(self.process.pid, signal.SIGKILL)

    def run(self):
        """Reads the part's output to its end, and judges it."""
        clock = threading.Timer(60 * MINUTES[self.name], self.stop)
        clock.start()
        begun, lines = time.monotonic(), []
        for line in self.process.stdout:
            lines.append(line.rstrip("\n"))
            if self.is_shown:
                print(line, end="", flush=True)
            if self.reader:
                self.reader.read(line)
        if self.reader:
            self.reader.read()
        _, status, used = os.wait4(self.process.pid, 0)
        clock.cancel()
        self.process.returncode = os.waitstatus_to_exitcode(status)
        self.seconds, self.processor = time.monotonic() - begun, used.ru_utime + used.ru_stime
        self.passed, self.failed, why = judged(self.name, lines, self.process.returncode, self.is_late)
        shown = [] if self.is_shown else [f"check: {self.name}", *lines]
        print("\n".join([*shown, *[f"check: {self.name} has failed: {it}" for it in why]]), flush=True)


def python(name, *words): return [sys.executable, str(TOP / "tests" / name), *words]


def run(given, files, running):
    """Runs the parts, and adds each to a list when it begins. What needs no proof runs beside the proofs, and so do the
    wrong bodies of each crate once it is proved."""
    is_whole, anew = not given.names, ["--anew"] * given.anew

    def begin(name, words, is_beside=is_whole, **more):
        if is_whole or name in given.names or files and name == "tests":
            if not is_beside:
                print(f"check: {name}", flush=True)
            running.append(Part(name, ["nice"] * is_beside + words, is_shown=not is_beside, **more))
            return running[-1]

    begin("survivors", python("survivors.py"))
    begin("early", ["env", "PYTHONPATH=tests", sys.executable, *no_program.WORDS])
    are_fed = is_whole or "proofs" in given.names
    reader = begin("refusals", python("refusals.py", *["--as-proved"] * are_fed, *anew), are_fed, is_reader=are_fed)
    if proofs := begin("proofs", python("proofs.py", *anew), is_beside=False, reader=reader):
        proofs.join()
    # The programs of `rt ci` are for newer processors. If a proof failed, the others would take long, and fail too.
    if not (proofs and proofs.failed) and (built_anew := begin("programs", python("programs.py"), is_beside=False)):
        built_anew.join()
    processes = os.environ.get("ZSCHED_PROCESSES", "auto")
    begin("tests", [sys.executable, "-m", "pytest", "-q", "-n", processes, *["--short"] * given.short, *files],
          is_beside=False)
    for part in running:
        part.join()


def table(parts, seconds):
    lines = [f"{'part':<12}{'seconds':>9}{'processor s':>13}{'passed':>8}{'failed':>8}"]
    lines += [f"{it.name:<12}{it.seconds:>9.0f}{it.processor:>13.0f}{it.passed:>8}{it.failed:>8}" for it in parts]
    return "\n".join([*lines, f"{'all':<12}{seconds:>9.0f}{sum(it.processor for it in parts):>13.0f}"])


def options_of(words):
    """The options of the command line, and the files of tests among them."""
    parser = argparse.ArgumentParser("check", "./check [--anew] [--short] [--no-install] [quick | NAME ..]", __doc__,
                                     formatter_class=argparse.RawDescriptionHelpFormatter)
    parser.add_argument("--anew", action="store_true", help="repeat what an earlier run passed")
    parser.add_argument("--short", action="store_true", help="leave out the tests that are marked `full`")
    parser.add_argument("names", nargs="*", metavar="NAME",
                        help=f"quick, {', '.join(PARTS)}, or files of tests")
    given = parser.parse_args(words)
    if "quick" in given.names and len(given.names) > 1:
        parser.error("quick goes alone")
    files = [f"tests/test_{name.removeprefix('test_').removesuffix('.py')}.py" for name in given.names
             if name not in ["quick", *PARTS]]
    if lacking := [name for name in files if not (TOP / name).exists()]:
        parser.error(f"there is no file {lacking[0]}")
    return given, files


def main(words):
    """Runs what the options select, and returns the exit status."""
    given, files = options_of(words)
    for command, what in [("rt", "the Rattle toolchain"), ("cc", "a C compiler")]:
        if shutil.which(command) is None:
            print(f"check: {what} (the command '{command}') isn't on this machine.", file=sys.stderr)
            return 127
    if not given.names or {"proofs", "programs", "quick"} & {*given.names}:
        try:
            with tempfile.TemporaryFile(dir=TOP / "crates") as room:
                os.posix_fallocate(room.fileno(), 0, 2**20)
        except OSError as fault:
            print(f"check: nothing can be written to {TOP}: {fault.strerror}", file=sys.stderr)
            return 3
    # PR_SET_CHILD_SUBREAPER: processes whose parent ended are below this one.
    ctypes.CDLL(None).prctl(36, 1)
    # `nohup` ignores one, a shell SIGINT in the background: they stay ignored, but `interrupt` needs parts that end.
    for it in SIGNALS:
        if signal.getsignal(it) != signal.SIG_IGN:
            signal.signal(it, interrupted)
        elif it == signal.SIGINT:
            signal.signal(it, lambda *_: None)
    try:
        return quick.main() if given.names == ["quick"] else gate(given, files)
    except Unusable as fault:
        print(f"check: {fault}", file=sys.stderr)
        return 127
    finally:
        end_all()
        give_back()


def tree_sum():
    """The checksum of all files for build/release, or None outside a git checkout, where no release can be made."""
    with contextlib.suppress(Unusable):
        return sources_sum("--all")


def changed(before):
    """What was changed while the gate ran: sources, or a built file that the tests ran."""
    if before != {name: sources_sum(name) for name in STAMPS}:
        return "sources"
    words = ["sha256sum", "--check", "--status", programs.BUILT]
    return "programs" if subprocess.run(words, cwd=TOP, check=False).returncode else ""


def gate(given, files):
    """Runs the parts, and returns the exit status."""
    is_whole, running = not given.names, []
    before, tree = [{name: sources_sum(name) for name in STAMPS}, tree_sum()]
    begun = time.monotonic()
    if is_whole or "proofs" in given.names:
        give_back()
        keep()
    if is_whole:
        for old in [*map(built, ["zsched_population", "zs_refusals", *STAMPS]), PASSED, *STAMPS.values()]:
            old.unlink(missing_ok=True)
    run(given, files, running)
    print(table(running, time.monotonic() - begun))
    passed, failed = sum(it.passed for it in running), sum(it.failed for it in running)
    if is_whole and not failed:
        if not (what := changed(before)):
            for name, stamp in STAMPS.items():
                stamp.write_text(f"{before[name]}\n")
            if not given.short and tree and tree == tree_sum():
                PASSED.parent.mkdir(exist_ok=True)
                PASSED.write_text(f"{tree}\n{programs.BUILT.read_text()}")
            quick.note({name: quick.total(crate) for name, crate in quick.CRATES.items()})
            shutil.rmtree(KEPT)
            if given.anew:
                print("check: each proof and each wrong body was tried in this run")
        else:
            failed += 1
            print(f"check: the {what} were changed while the gate ran")
    print(f"{passed} passed, {failed} failed")
    return 1 if failed or not passed else 0


if __name__ == "__main__":
    sys.exit(main(sys.argv[1:]))
