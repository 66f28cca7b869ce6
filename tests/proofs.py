#!/usr/bin/env python3
"""Runs `rt ci`: proofs, tests and edits of the crates, and the programs. The toolchain may skip what passed on this
machine over the same files; --anew repeats everything. `rt ci` passes if an edit doesn't apply or can't be read, or if
its rejection says nothing of a contract. This fails then, and if one of the files in crates/*/must-fail isn't reported
as rejected. It notes the libraries that were built, for build/make-library and `rt check`. The last line is 'N passed,
M failed'."""
import argparse
import re
import signal
import subprocess
import sys
import time

sys.dont_write_bytecode = True

from support import TOP
import toolchain

LAST = re.compile(r"(\d+) passed, (\d+) failed")
ANEW = "every proof and must-fail edit was done in this run"
REJECTED = re.compile(r"rt: must-fail (\S+): refused, as it must be")
BAD = re.compile(r"BAD EDIT|NOT TRIED|NOT REFUSED|\(only (because a proof file names|by a limit of the prover)")
# A step of a crate, which is shown with its time.
STEP = re.compile(r"rt: (?:\w+(?:: its tests are)? proved$|\w+ is kept|\w+: trying its must-fail edits)")


def edits():
    """The edits that have to be rejected: each file of crates/*/must-fail, but for texts about them."""
    found = [path for path in TOP.glob("crates/*/must-fail/**/*") if path.is_file() and path.suffix != ".md"]
    return {f"{path.relative_to(TOP / 'crates').parts[0]}/{path.name}" for path in found}


def judged(lines, status, wanted, is_anew=False):
    """How many proofs and edits passed and failed, by the output of `rt ci`, and why else than by what it counts."""
    last = LAST.match(lines[-1]) if lines else None
    passed, failed = (int(last[1]), int(last[2])) if last else (0, 1)
    missing = wanted - {found[1] for found in map(REJECTED.match, lines) if found}
    why = [f"{line[:300]}" for line in lines if line.startswith("rt: ") and BAD.search(line)]
    if not failed:
        lost = [name for name in sorted(missing) if not any(name in it for it in why)]
        why += [f"rt ci reports no result of the edit {name}" for name in lost]
    if not last or status and not failed:
        why.append(f"rt ci ended with status {status}, and its last line is {lines[-1] if lines else ''!r}")
    if is_anew and not failed and not any(ANEW in line for line in lines):
        why.append(f"rt ci doesn't say that {ANEW}")
    return passed, max(failed, len(why)), why


def main():
    words = argparse.ArgumentParser(description=__doc__)
    words.add_argument("--anew", action="store_true", help="repeat what an earlier run passed")
    is_anew = words.parse_args().anew
    wanted, lines, begun = edits(), [], time.monotonic()
    running = subprocess.Popen(["rt", "ci", *["--anew"] * is_anew], cwd=TOP, text=True, errors="replace",
                               stdout=subprocess.PIPE, stderr=subprocess.STDOUT)
    try:
        for line in running.stdout:
            lines.append(line.rstrip("\n"))
            at = f" ({time.monotonic() - begun:.0f} s)" if STEP.match(line) else ""
            if not LAST.match(line):
                print(lines[-1] + at, flush=True)
    finally:
        running.send_signal(signal.SIGTERM)
        running.wait()
    passed, failed, why = judged(lines, running.returncode, wanted, is_anew)
    if not failed:
        toolchain.stamp()
    print(*[f"proofs: {it}" for it in why], f"{passed} passed, {failed} failed", sep="\n")
    return 1 if failed else 0


if __name__ == "__main__":
    sys.exit(main())
