"""Builds the program of a crate, or that of a library's tests, without any proof: unproved.py CRATE FILE.

The toolchain's `rt try` builds such a program, runs it and removes it. So `rt try` runs in a copy of the toolchain,
made of links, whose linker stores the program and then fails, and whose compiler leaves out checks at run time. No such
program has the section by which tools/zsched_tools/proved.py knows a proved one."""
import os
import pathlib
import signal
import subprocess
import sys
import tempfile

sys.dont_write_bytecode = True

import toolchain
from toolchain import TOP, Unusable

LINKER = """#!/bin/sh
"{kit}/toolchain/bin/ld.lld" "$@" || exit
while [ "$1" != -o ]; do shift; done
cp "$2" "{program}"
exit 1
"""
COMPILER = """#!/bin/bash
case " $* " in *" --extern-only "* | *" --undefined-only "*) exec -a llvm-nm "{kit}/toolchain/bin/clang" "$@" ;; esac
for word; do case "$word" in -fsanitize=address) ;; -O0) words+=({level}) ;; *) words+=("$word") ;; esac; done
exec "{kit}/toolchain/bin/clang" "${{words[@]}}"
"""


def build(folder, file, **variables):
    """Builds the program of the crate in a folder, or that of its tests if it is a library, into a file."""
    kit = toolchain.kit()
    file.parent.mkdir(exist_ok=True)
    words, level = (["--test"], "-O0") if (folder / "src" / "lib.rt").exists() else ([], "-O1")
    with tempfile.TemporaryDirectory() as room:
        copy, program = pathlib.Path(room, "kit"), pathlib.Path(room, "program")
        toolchain.linked_kit(copy, {
            "toolchain/bin/ld.lld": LINKER.format(kit=kit, program=program),
            "toolchain/bin/clang": COMPILER.format(kit=kit, level=level), "c/asan.a": "!<arch>\n",
            "bin/rattle": "#!/bin/sh\n"})
        with subprocess.Popen([copy / "bin/rt", "try", *words], cwd=folder, stdin=subprocess.DEVNULL, errors="replace",
                              stdout=subprocess.PIPE, stderr=subprocess.STDOUT,
                              env={**os.environ, "TMPDIR": room, **variables}) as running:
            try:
                said = running.communicate()[0]
            finally:
                # It ends what it started; a killed one wouldn't.
                running.terminate()
        if not program.exists():
            raise Unusable(said[-3000:])
        toolchain.replace(file, program)


if __name__ == "__main__":
    signal.signal(signal.SIGTERM, lambda number, _: sys.exit(128 + number))
    try:
        build(TOP / "crates" / sys.argv[1], pathlib.Path(sys.argv[2]).resolve())
    except (Unusable, OSError, subprocess.SubprocessError) as fault:
        sys.exit(str(fault))
