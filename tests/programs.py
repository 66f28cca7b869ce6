#!/usr/bin/env python3
"""Makes the libraries and the programs that the tests run and a release packs, of the crates that `rt ci` proved. The
checksums of these files go to out/built: the gate holds them to it when the tests have passed, and build/release later.
The last line is 'N passed, M failed'."""
import subprocess
import sys

sys.dont_write_bytecode = True

from support import TOP

BUILT = TOP / "out" / "built"
COMMANDS = [["build/make-library"], *(["build/make-library", "--target", it] for it in ["aarch64", "wasm"]),
            ["build/make-programs"]]


def main():
    BUILT.unlink(missing_ok=True)
    running = [subprocess.Popen(words, cwd=TOP, stdin=subprocess.DEVNULL, stdout=subprocess.PIPE, text=True)
               for words in COMMANDS]
    files = [line for it in running for line in it.communicate()[0].splitlines()]
    failed = sum(it.returncode != 0 for it in running)
    if not failed:
        BUILT.parent.mkdir(exist_ok=True)
        with open(BUILT, "wb") as noted:
            subprocess.run(["sha256sum", *files], cwd=TOP, check=True, stdout=noted)
    print(*files, f"{len(files)} passed, {failed} failed", sep="\n")
    return 1 if failed else 0


if __name__ == "__main__":
    sys.exit(main())
