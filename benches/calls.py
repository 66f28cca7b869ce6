#!/usr/bin/env python3
"""Measures a call that doesn't fail in each language, beside other packages for retries that Debian has.

    python3 benches/calls.py [--root ROOT] [--count 20000] [LANGUAGE ..]

ROOT has the unpacked packages python3-tenacity, python3-backoff, golang-github-cenkalti-backoff-dev,
librust-backoff-dev, librust-instant-dev and node-promise-retry (dpkg -x FILE ROOT; / if they are installed).
ZSCHED_LIBRARY_DIR names the folder of the library, else that of build/make-library. The calls are those of the clients
in tests/clients and of rivals/. Prints a Markdown table: nanoseconds of a call, the best of 15 runs. Exit status: 0, 2
if an argument is wrong."""
import argparse
import os
import pathlib
import shutil
import subprocess
import sys
import tempfile

HERE = pathlib.Path(__file__).resolve().parent
TOP = HERE.parent
sys.dont_write_bytecode = True
sys.path[:0] = [str(TOP / "tests")]

from languages import CLEAN, LANGUAGES, built_library, request

POLICY = "((exponential(100) || spaced(5000)) && recurs(8)).whileInput(>= 500)"
RUNS, MADE = 15, TOP / "crates/zsched_c/out"
CARGO = """\
[package]
name = "rival"
version = "0.1.0"
edition = "2021"

[[bin]]
name = "rival"
path = "rival.rs"

[dependencies]
backoff = "0.4"
"""


def crates(root, room):
    """A folder with the crates of this machine and those of the root."""
    folder = room / "registry"
    folder.mkdir()
    for path in [*pathlib.Path("/usr/share/cargo/registry").glob("*"), *(root / "usr/share/cargo/registry").glob("*")]:
        (folder / path.name).unlink(missing_ok=True)
        (folder / path.name).symlink_to(path)
    return folder


def rival(language, root, room):
    """The words and variables of the program that measures the other packages of a language."""
    if language == "Python":
        return [sys.executable, HERE / "rivals/rival.py"], {"PYTHONPATH": root / "usr/lib/python3/dist-packages"}
    if language == "Node":
        return ["node", HERE / "rivals/rival.js"], {"NODE_PATH": root / "usr/share/nodejs"}
    if language == "Go":
        return ["go", "run", HERE / "rivals/rival.go"], {"GO111MODULE": "off", "GOPATH": root / "usr/share/gocode"}
    shutil.copy(HERE / "rivals/rival.rs", room)
    (room / "Cargo.toml").write_text(CARGO)
    places = {"crates-io.replace-with": "debian", "debian.directory": crates(root, room)}
    config = [word for name, place in places.items() for word in ["--config", f'source.{name}="{place}"']]
    return ["cargo", "run", "--quiet", "--release", "--offline", *config, "--"], {}


def others(language, root, count):
    """What the other packages of a language need, as a cell. Those that aren't there are left out."""
    if language == "Java":
        return "none in Debian"
    with tempfile.TemporaryDirectory(prefix="zsched-calls-") as room:
        words, variables = rival(language, root, pathlib.Path(room))
        ended = subprocess.run([*map(str, words), str(count)], cwd=room, capture_output=True, text=True, check=False,
                               env=CLEAN | {name: str(it) for name, it in variables.items()})
    return ", ".join(ended.stdout.splitlines()) or "not on this machine"


def ours(language, library, count):
    """The nanoseconds of a call of a language's client."""
    with tempfile.TemporaryDirectory(prefix="zsched-calls-") as room:
        client = LANGUAGES[language](pathlib.Path(room), built_library(library))
        return min(int(line) for line in client.says([request("good", POLICY, count)] * RUNS))


def main(given=None):
    """Parses the arguments, and prints the table."""
    words = argparse.ArgumentParser(description=__doc__, formatter_class=argparse.RawDescriptionHelpFormatter)
    words.add_argument("languages", nargs="*", metavar="LANGUAGE", help="Python, Rust, Go, Node or Java (all)")
    words.add_argument("--root", type=pathlib.Path, default="/")
    words.add_argument("--count", type=int, default=20_000)
    options = words.parse_args(given)
    library = pathlib.Path(os.environ.get("ZSCHED_LIBRARY_DIR") or MADE)
    print("| | zsched, ns | Others, ns |", "|---|---:|---|", sep="\n")
    for language in options.languages or ["Python", "Rust", "Go", "Node", "Java"]:
        found = others(language, options.root.absolute(), options.count)
        print(f"| {language} | {ours(language, library, options.count):,} | {found} |", flush=True)
    return 0


if __name__ == "__main__":
    sys.exit(main())
