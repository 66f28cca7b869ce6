#!/usr/bin/env python3
"""The quick gate, for the minutes between edits.

First, in seconds, it runs the tests that need no program: rules, promises and documents. Then it proves each crate
whose files changed since it was last proved here, by `rt check`, runs the tests of the crates above by `rt try --test`,
and the plans on the program without proofs: no crate above a changed contract, no edit, no cut. The last line is
'N passed, M failed'. ./run --proved calls `quick.py --proved PROGRAM`, which counts all crates of the program as
proved."""
import concurrent.futures
import hashlib
import json
import os
import subprocess
import sys

sys.dont_write_bytecode = True

import no_program
from support import TOP
from toolchain import crates_of, sources_sum

CRATES = crates_of(TOP)
# The checksum of each crate's files when it was last proved here.
NOTE = TOP / "crates" / "zsched" / "out" / "checked.json"


def total(crate):
    """A checksum of the files that a check of a crate reads."""
    found = sorted(path for part in ["src", "specs", "proofs"] for path in (crate.folder / part).rglob("*"))
    files = [path for path in found if path.is_file()]
    return hashlib.sha256(b"\0".join(b"%s\0%s" % (str(path).encode(), path.read_bytes()) for path in files)).hexdigest()


def noted(): return json.loads(NOTE.read_text()) if NOTE.exists() else {}


def note(sums):
    NOTE.parent.mkdir(exist_ok=True)
    NOTE.write_text(json.dumps(noted() | sums))


def succeeds(name, words, folder, **more):
    """Whether a command succeeds. If it doesn't, the end of its output is printed."""
    ended = subprocess.run(words, cwd=folder, stdin=subprocess.DEVNULL, stdout=subprocess.PIPE, text=True,
                           stderr=subprocess.STDOUT, errors="replace", check=False, env={**os.environ, **more})
    lines = ended.stdout.splitlines()[-40:] if ended.returncode else []
    print(f"{name}: {'FAILED' if ended.returncode else 'passed'}", *lines, sep="\n", flush=True)
    return ended.returncode == 0


def proves(crate):
    before = total(crate)
    is_proved = succeeds(f"rt check, {crate.name}", ["rt", "check"], crate.folder)
    if is_proved and before == total(crate):
        note({crate.name: before})
    return is_proved


def runs_plans():
    """Whether the plans give their reports, on the program without proofs."""
    program = NOTE.with_name(f"unproved-{sources_sum('zsched')}")
    words = [sys.executable, "-m", "pytest", "-q", "-n", "auto", "tests/test_cases.py", "-k", "beside and as_it_is"]
    build = [sys.executable, "build/unproved.py", "zsched", program]
    is_built = program.exists() or succeeds("zsched without proofs", build, TOP)
    return is_built and succeeds("the plans", words, TOP, ZSCHED=str(program))


def main():
    """The tests that need no program, then proofs and tests, and plans beside them."""
    is_first = succeeds("rules, promises and documents", [sys.executable, *no_program.WORDS], TOP, PYTHONPATH="tests")
    changed = [crate for name, crate in CRATES.items() if noted().get(name) != total(crate)]
    above = [crate for crate in CRATES.values() if {*changed} & {crate, *crate.below}
             and any("#[test]" in path.read_text(encoding="utf-8") for path in crate.folder.glob("src/**/*.rt"))]
    with concurrent.futures.ThreadPoolExecutor(1) as beside:
        plans = beside.submit(runs_plans)
        results = [is_first, *[proves(crate) for crate in changed]]
        results += [succeeds(f"rt try --test, {crate.name}", ["rt", "try", "--test"], crate.folder) for crate in above]
        results.append(plans.result())
    print(f"{sum(results)} passed, {results.count(False)} failed")
    return 0 if all(results) else 1


if __name__ == "__main__":
    if sys.argv[1:2] == ["--proved"]:
        program = CRATES[sys.argv[2]]
        sys.exit(note({crate.name: total(crate) for crate in [*program.below, program]}))
    sys.exit(main())
