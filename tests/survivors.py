#!/usr/bin/env python3
"""Plants each body that a test has to catch, in one copy of the crates, and sees that the test does.

CONTRIBUTING.md has the form of a survivor. The pairs after a `file:` change the body of one function; those that begin
before the file's first function add a field, which all survivors get. A number picks a body at run time. What catches
it has to pass without it. The last line is 'N passed, M failed'."""
import concurrent.futures
import os
import pathlib
import re
import shutil
import subprocess
import sys
import tempfile
import time
import types

sys.dont_write_bytecode = True

from support import TOP
from sections import sections_of
import unproved

FUNCTION = re.compile(r"^( *)(?:pub(?:\([^)]*\))? )?(?:const )?fn \w+", re.M)
CHOSEN = 'unsafe extern "C" {\n    pub(crate) safe fn zs_chosen() -> u64;\n}\n'


def survivor(number, section):
    """A body: its number, name and crate, what catches it, and the pairs of old and new texts after each `file:`."""
    pairs, said = [], {}
    for line in section.text.splitlines():
        word, _, text = line.partition(":")
        assert word in ["caught-by", "refused-by", "file", "old", "new"], f"{section.path}: {section.name}: {line}"
        said[word] = text.removeprefix(" ")
        if word == "file":
            pairs.append((said["file"], []))
        elif word == "new":
            pairs[-1][1].append((said["old"], said["new"]))
    return types.SimpleNamespace(number=number, name=section.name, crate=section.path.parent.name, pairs=pairs,
                                 caught_by=said["caught-by"])


def replaced(path, pairs):
    """The text of a file, and the text with each old one replaced by its new one."""
    text = new = path.read_text(encoding="utf-8")
    for old, other in pairs:
        assert new.count(old) == 1, f"this text is {new.count(old)} times in {path}: {old}"
        new = new.replace(old, other)
    return text, new


def add_fields(crates, survivors):
    """Adds the fields that survivors need, each once. Returns the changes of bodies that remain."""
    changes = [(it, crates / it.crate / file, tuple(pairs)) for it in survivors for file, pairs in it.pairs
               if file.startswith("src/")]
    fields = {(path, pairs) for _, path, pairs in changes
              if not FUNCTION.search(text := path.read_text(encoding="utf-8"), 0, text.index(pairs[0][0]))}
    for path, pairs in fields:
        path.write_text(replaced(path, pairs)[1], encoding="utf-8")
    return [change for change in changes if change[1:] not in fields]


def plant(crates, survivors):
    """Gives each changed function the bodies of all its survivors, among which a number picks at run time."""
    bodies = {}
    for it, path, pairs in add_fields(crates, survivors):
        text, new = replaced(path, pairs)
        # The body between the braces of the function around the first text, in the layout of `rt fmt`.
        head = list(FUNCTION.finditer(text, 0, text.index(pairs[0][0])))[-1]
        start = re.compile(rf"^{head[1]}(?:\{{|\S.* \{{)$", re.M).search(text, head.start()).end()
        end = re.compile(rf"^{head[1]}\}}$", re.M).search(text, start).start()
        assert new[:start] == text[:start] and new.endswith(text[end:]), f"{it.name} changes more than a body of {path}"
        arm = f"        {it.number} => {{{new[start:len(new) - len(text) + end]}}}\n"
        bodies[path, start, end] = bodies.get((path, start, end), "") + arm
    for (path, start, end), arms in sorted(bodies.items(), key=lambda it: -it[0][1]):
        text = path.read_text(encoding="utf-8")
        chosen = f"\n    match crate::chosen::zs_chosen() {{\n{arms}        _ => {{{text[start:end]}}}\n    }}\n"
        path.write_text(text[:start] + chosen + text[end:], encoding="utf-8")
    for folder in {crates / it.crate for it in survivors}:
        (folder / "c").mkdir()
        shutil.copy(TOP / "tests" / "chosen.c", folder / "c")
        (folder / "src" / "chosen.rt").write_text(CHOSEN)
        root = folder / "src" / "lib.rt"
        root.write_text(f"{root.read_text(encoding='utf-8')}\nmod chosen;\n", encoding="utf-8")


def fails(room, caught_by, number, seconds):
    """Whether a test fails with the body of this number, or isn't done after some seconds; and how long it took."""
    crate, _, name = caught_by.partition("::")
    words, begun = [sys.executable, "-m", "pytest", "-q", "-x", TOP / "tests" / caught_by], time.monotonic()
    if not crate.endswith(".py"):
        listed = subprocess.run([room / crate, "--list"], capture_output=True, text=True, check=True).stdout
        words = [room / crate, *re.findall(rf"^((?:\w+::)*{name}): test$", listed, re.M)]
        assert len(words) == 2, f"{crate} has no test {name}, or several"
    # `timeout` ends all that the test started, and has the status 124 then.
    status = subprocess.run(["timeout", str(seconds), *words], cwd=TOP, stdin=subprocess.DEVNULL, check=False,
                            stdout=subprocess.DEVNULL, stderr=subprocess.DEVNULL, env={
                                **os.environ, "ZS_CHOSEN": str(number), "ZSCHED": str(room / "zsched")}).returncode
    assert not crate.endswith(".py") or status in [0, 1, 124], f"pytest can't run {caught_by}: status {status}"
    return status != 0, time.monotonic() - begun


def judge(room, pool, survivors):
    """Plants the survivors, and returns for each whether it is caught."""
    shutil.copytree(TOP / "crates", room / "crates", ignore=shutil.ignore_patterns("out", "proofs", "*.edit"))
    subprocess.run(["cp", TOP / "crates.txt", TOP / "HANDLES", room], check=True)
    gates = room / "crates/zs_tests/src/tests/gates.rt"
    gates.write_text(re.sub(r"(TURNS: u64 = )[\d_]+", r"\g<1>3_000_000", gates.read_text()))
    plant(room / "crates", survivors)
    tests = sorted({it.caught_by for it in survivors})
    c_code = ",".join(it.parent.name for it in room.glob("crates/*/c"))
    list(pool.map(lambda it: unproved.build(room / "crates" / it, room / it, RT_ALLOW_C=c_code),
                  {"zsched" if ".py::" in it else it.partition("::")[0] for it in tests}))
    alone = dict(zip(tests, pool.map(lambda it: fails(room, it, 0, 300), tests)))
    assert not any(is_failing for is_failing, _ in alone.values()), f"some fail without a survivor too: {alone}"
    return list(pool.map(lambda it: fails(room, it.caught_by, it.number, 5 + 4 * alone[it.caught_by][1])[0], survivors))


def main(names):
    found = [it for path in sorted(TOP.glob("crates/*/survivors.txt")) for it in sections_of(path)]
    found = [it for it in found if it.name in names or not names]
    survivors = [survivor(*pair) for pair in enumerate(found, 1)]
    with tempfile.TemporaryDirectory() as room, concurrent.futures.ThreadPoolExecutor(2) as pool:
        caught = judge(pathlib.Path(room), pool, survivors)
    for it, is_caught in zip(survivors, caught):
        print(f"{it.crate}/{it.name}: {'' if is_caught else 'NOT '}caught by {it.caught_by}")
    print(f"{sum(caught)} passed, {caught.count(False)} failed")
    return 0 if caught and all(caught) else 1


if __name__ == "__main__":
    sys.exit(main(sys.argv[1:]))
