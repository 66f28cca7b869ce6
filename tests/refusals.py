#!/usr/bin/env python3
"""Tries the wrong bodies: the prover has to refuse each by the clause that its file names, and to prove its control.

CONTRIBUTING.md has the form of an edit. Edits of one crate are checked together, in bundles, never two of one function:
of the functions that their files name the prover says which of their own clauses failed. What a bundle leaves unclear
is tried alone. A bundle that passed on this machine is tried again only if something changed of what it read.

    refusals.py [CRATE ..]           the edits of these crates, or of all; CRATE/NAME: of an edit alone
    refusals.py --stated CRATE/NAME  the line `# refused:` for an edit, from a check of it alone
    refusals.py --as-proved          each crate when `rt ci`, whose lines are its standard input, has proved it, over
                                     what `rt ci` keeps of it for the crate's own wrong bodies
    refusals.py --anew               repeats what earlier runs passed

The libraries are those that were built last. The last line is 'N passed, M failed'."""
import argparse
import collections
import concurrent.futures
import contextlib
import functools
import hashlib
import importlib.machinery
import importlib.util
import os
import pathlib
import re
import shutil
import subprocess
import sys
import tempfile
import time
import types

sys.dont_write_bytecode = True

from support import TOP
from toolchain import crates_of, kit

CRATES = crates_of(TOP)
PARTS = ["src", "specs", "proofs"]
KEPT = pathlib.Path(os.environ.get("XDG_CACHE_HOME") or pathlib.Path.home() / ".cache") / "zsched-refusals"
# A goal that failed: in a proof by hand, in a note before the line of its function, in that line.
ANSWER = re.compile(r"\./proofs/(\S+)/\w+\.antt:\d+:\d+: error: `([^`]+)`: (.*)")
NOTE = re.compile(r"note: src/\S+: it is not proved that .*\(`([^`]+)`\)")
VERDICT = re.compile(r"fn (\S+): (proved|not proved|no proof)\b(.*)")
# A proof by hand names what the edit took away: that says nothing of a clause.
GONE = re.compile(r"has no field|is not in scope|has no `|was not admitted")


@functools.cache
def guarantees():
    """The module of build/guarantees, which knows the functions of a source."""
    loader = importlib.machinery.SourceFileLoader("guarantees", str(TOP / "build" / "guarantees"))
    module = importlib.util.module_from_spec(importlib.util.spec_from_loader("guarantees", loader))
    loader.exec_module(module)
    return module


def edit_of(source):
    """An edit: what its lines say, and its changes: the file, the old text, the new one, and that of its control."""
    said, changes, faults = collections.defaultdict(str), [], []
    for line in source.text.splitlines():
        word, _, text = line.partition(":")
        text = text.removeprefix(" ")
        if word == "new":
            changes.append([said["file"], said["old"], text, text])
        elif word == "# control":
            faults += ["its control is the source's own text"] * (changes[-1][1].split() == text.split())
            changes[-1][3], said[word] = text, "yes"
        elif word in ["file", "old", "# refused", "# because", "# no control"]:
            said[word] = text
        else:
            faults += [f"what is the line '{line}'?"] * (not line.startswith("# ") or bool(changes))
            said["says"] += line[2:]
    return types.SimpleNamespace(source=source, label=source.label, folder=source.folder, changes=changes,
                                 says=said["says"], refused=said["# refused"], because=said["# because"],
                                 has_control=bool(said["# control"]), no_control=said["# no control"], faults=faults)


def edits_of(crate): return [edit_of(it) for it in guarantees().edits_of(crate.name)]


class Unclear(Exception):
    """An edit that can't be applied, alone or after others."""


def applied(crate, edits, place=2):
    """The texts of the files that some edits change, each old text being in its file once."""
    texts = {}
    for file, old, *new in (change for it in edits for change in it.changes):
        text = texts.get(file) or (crate.folder / file).read_text(encoding="utf-8")
        if text.count(old) != 1:
            raise Unclear(f"this text is in {file} {text.count(old)} times: {old}")
        texts[file] = text.replace(old, new[place - 2])
    return texts


def go_together(crate, edits, place=2):
    """Whether edits can be applied in any order, so that each changes its own place."""
    try:
        return applied(crate, edits, place) == applied(crate, edits[::-1], place)
    except Unclear:
        return False


def touched(edit):
    """The functions that an edit changes, and those that name a type that it changes."""
    found, folder = set(guarantees().edited_functions(edit.source)), edit.folder
    for file, old, *_ in edit.changes:
        before = (folder / file).read_text(encoding="utf-8").partition(old)[0]
        for kind in re.findall(r"^(?:pub(?:\(\w+\))? )?(?:struct|enum) (\w+)(?:(?!^\}).)*\Z", before, re.M | re.S):
            text = guarantees().text_of(str((folder / "src").relative_to(TOP)))
            found |= {(of["of"] if of else "", head["name"]) for head, of, end in guarantees().functions_of(text)
                      if of and of["of"] == kind or re.search(rf"\b{kind}\b", text[head.start():end])}
    return found


def bundles_of(crate, edits, place=2):
    """The edits in bundles, never two of one function."""
    bundles = []
    for it in edits:
        own = touched(it)
        free = (pair for pair in bundles if not pair[0] & own and go_together(crate, [*pair[1], it], place))
        if pair := next(free, None) if own else None:
            pair[0].update(own)
            pair[1].append(it)
        else:
            bundles.append((own, [it]))
    return [edits for _, edits in bundles]


@functools.cache
def toolchain():
    """The toolchain's own module, which knows how to check a crate."""
    sys.path.append(str(kit() / "bin"))
    import rtlib
    return rtlib, {it.name: it for it in rtlib.crates_below(str(TOP / "crates"))}


def check(crate, texts, kept, functions=()):
    """Checks a copy of a crate with other texts, over what earlier checks left in `kept`: all of it, or some functions
    with those that they call. Returns the status and the lines."""
    rtlib, crates = toolchain()
    with tempfile.TemporaryDirectory(prefix="refusals-") as room:
        for part in PARTS:
            if (crate.folder / part).is_dir():
                shutil.copytree(crate.folder / part, pathlib.Path(room, part))
        for file, text in texts.items():
            pathlib.Path(room, file).write_text(text, encoding="utf-8")
        words = crates[crate.name].words(["--jobs", "1"], keeps=False)
        words += [word for name in functions for word in ["--only", name.removeprefix(f"{crate.name}::")]]
        ended = subprocess.run([*rtlib.guarded(), rtlib.RATTLE, "check", *words, "--incremental", kept], cwd=room,
                               stdin=subprocess.DEVNULL, stdout=subprocess.PIPE, stderr=subprocess.STDOUT, check=False,
                               text=True, errors="replace")
    return ended.returncode, ended.stdout.splitlines()


@functools.cache
def clauses_of(folder, function):
    """The labels of what a function ensures. The prover calls a method by its type, or type and trait, as TaskFuture,
    and any other function by its file or crate."""
    owner, name = function.split("::")[-2:]
    found = set()
    for path in (folder / "src").rglob("*.rt"):
        text = path.read_text(encoding="utf-8")
        for head, of, end in guarantees().functions_of(text):
            owners = [of["of"], f"{of['of']}{of['trait']}"] if of else [path.stem, folder.name]
            if head["name"] == name and owner in owners:
                found.update(re.findall(r"^ *ensures (\w+) \{", text[head.start():end], re.M))
    return found


def kind_of(goal, clauses):
    """What a failed goal is: a clause of its function, by its label, which that of a single one lacks, or its name."""
    clause = re.match(r"returns\b(?:.*-clause-(\w+)$)?", goal)
    return (clause[1] or (next(iter(clauses)) if len(clauses) == 1 else goal)) if clause else goal


def placed(home, goal):
    """The function of a goal, and its name there. In a cycle of calls it begins with the function, as `Outs::copy-`."""
    of_cycle = re.match(r"([\w:]+)-(returns\b.*)", goal)
    return (re.match(r"(?:[a-z_\d]+::)+", home)[0] + of_cycle[1], of_cycle[2]) if of_cycle else (home, goal)


def findings(crate, lines):
    """What a check says of each function: whether it is proved, and which of its goals failed: by a proof by hand, by
    search, and because a proof by hand names what is gone. `measure` is the goal that a loop ends."""
    is_proved, notes = {}, []
    hand, searched, gone = (collections.defaultdict(set) for _ in range(3))
    for line, after in zip(lines, [*lines[1:], ""]):
        if answer := ANSWER.match(line):
            name, goal = placed(f"{crate.name}::{answer[1].replace('/', '::')}", answer[2])
            (gone if GONE.search(answer[3]) or GONE.match(after.strip()) else hand)[name].add(goal)
        elif note := NOTE.match(line):
            notes.append(note[1])
        elif verdict := VERDICT.match(line):
            is_proved[verdict[1]] = verdict[2] == "proved"
            listed = re.search(r"`search` did not prove (`[^;]*)", verdict[3])
            notes += ["measure"] * (": expected a measure in " in verdict[3])
            for goal in [*notes, *(re.findall(r"`([^`]+)`", listed[1]) if listed else [])]:
                name, goal = placed(verdict[1], goal)
                searched[name].add(goal)
            notes = []
    return {name: types.SimpleNamespace(is_proved=it, hand=hand[name], searched=searched[name], gone=gone[name])
            for name, it in is_proved.items()}


def unfit(edit):
    """What an edit's file lacks: a reason for a refusal by no clause of the edited function, the request, a control."""
    yield from edit.faults
    function, _, kind = edit.refused.partition(" ")
    is_own = function.rpartition("::")[2] in {name for _, name in guarantees().edited_functions(edit.source)}
    if not (is_own and kind in clauses_of(edit.folder, function)) and not edit.because:
        yield f"{kind or 'nothing'} is no clause of a function that it edits, and no line '# because:' says why"
    if edit.source.is_asked:
        if not edit.says:
            yield "it doesn't begin with what the body does wrong"
        if edit.has_control == bool(edit.no_control):
            yield "it has to have lines '# control:', or a line '# no control:' that says why"


def refusal(edit, status, lines, found):
    """Why a check doesn't show that an edit is refused as its file says, or '' if it does."""
    function, _, kind = edit.refused.partition(" ")
    it = found.get(function)
    if status not in [0, 1] or not it:
        said = "; ".join(line for line in lines if "error" in line)[:300]
        return f"the check ended with status {status}, and says nothing of {function}: {said}"
    if it.is_proved:
        return f"{function} is proved"
    clear, clauses = it.hand | (set() if it.gone else it.searched), clauses_of(edit.folder, function)
    if kind in {kind_of(goal, clauses) for goal in clear}:
        return ""
    if it.gone:
        return f"proofs of {function} name what the edit took away ({', '.join(sorted(it.gone))})"
    return f"{kind or 'no clause'} isn't among the failed goals of {function}: {', '.join(sorted(clear)) or 'none'}"


def stated(crate, edit, found):
    """The functions that an edit changes and whose own goals failed, as lines `# refused:` that it may have."""
    own = {name for _, name in guarantees().edited_functions(edit.source)}
    for name, it in sorted(found.items(), key=lambda pair: pair[0].rpartition("::")[2] not in own):
        for goal in sorted(it.hand | it.searched):
            remark = " (names are gone)" * bool(it.gone and goal not in it.hand)
            yield f"# refused: {name} {kind_of(goal, clauses_of(crate.folder, name))}{remark}"


def key_of(crate, edits, what):
    """The checksum of all that a check of a bundle reads."""
    texts = sorted((it.label, it.source.text) for it in edits)
    total = hashlib.sha256(repr((what, crate.libraries, (kit() / "KIT-ID").read_bytes(), texts)).encode())
    files = [path for each in [crate, *crate.below] for part in PARTS for path in (each.folder / part).rglob("*.*t")]
    for path in [pathlib.Path(__file__), *sorted(files)]:
        total.update(f"\0{path.relative_to(TOP)}\0".encode() + path.read_bytes())
    return total.hexdigest()


def linked(one, other):
    """Gives what was proved a second name, as `rt ci` does: a check replaces such a file, and never writes into it."""
    return (os.link if one.endswith(".oantt") else shutil.copy2)(one, other)


def seed_of(crate, room):
    """The folder in a room of what the `rt ci` that runs here just proved of a crate, and begins the crate's own wrong
    bodies with. It is empty if there is none, or if it goes meanwhile: then the first check proves the same again."""
    for at in pathlib.Path(room).parent.glob(f"rt-edits-*/seed/*/Rattle-{crate.name}-*"):
        runner, seed = at.parents[2].name.split("-")[2], at.parents[1]
        if os.path.realpath(f"/proc/{runner}/cwd") == str(TOP):
            with contextlib.suppress(OSError, shutil.Error):
                return shutil.copytree(seed, f"{room}/seed", copy_function=linked)
            break
    return tempfile.mkdtemp(dir=room)


class Trial:
    """The bundles of a crate, one after the other: each check goes on from what the one before left."""

    def __init__(self, crate, is_anew, names=()):
        self.crate, self.is_anew, self.checks = crate, is_anew, 0
        self.room = tempfile.TemporaryDirectory(prefix="refusals-")
        self.kept = seed_of(crate, self.room.name)
        self.is_seeded = bool(os.listdir(self.kept))
        self.edits = [it for it in edits_of(crate) if not names or it.label in names]
        self.failed = {it.label: why for it in self.edits if (why := "; ".join(unfit(it)))}

    def checked(self, edits, place=2, functions=()):
        """What one check says with some edits in place: its status, its lines, and what it says of each function."""
        self.checks += 1
        status, lines = check(self.crate, applied(self.crate, edits, place), self.kept, functions)
        return status, lines, findings(self.crate, lines)

    def refused(self, edits):
        """Tries a bundle, and alone what it leaves unclear. Returns the reasons of what stays so."""
        try:
            said = self.checked(edits, functions=sorted({it.refused.partition(" ")[0] for it in edits}))
        except Unclear as why:
            return {edits[0].label: str(why)}
        unclear = {it.label: why for it in edits if (why := refusal(it, *said))}
        if len(edits) == 1:
            return unclear
        for label, why in unclear.items():
            print(f"{label} is tried alone, since {why}", flush=True)
        return {label: why for it in edits if it.label in unclear for label, why in self.refused([it]).items()}

    def proved(self, edits):
        """Tries the controls of some edits together, and alone if not all is proved. Returns why some aren't."""
        status, lines, found = self.checked(edits, 3)
        if status == 0:
            return {}
        if len(edits) > 1:
            return {label: why for it in edits for label, why in self.proved([it]).items()}
        said = [f"{name}: {', '.join(sorted(goals))}" for name, it in found.items()
                if not it.is_proved and (goals := it.hand | it.searched | it.gone)]
        return {edits[0].label: f"its control isn't proved: {'; '.join(said) or lines[-1:]}"}

    def tried(self, what, edits, call):
        """Tries a bundle unless it passed here before over the same files."""
        note = KEPT / key_of(self.crate, edits, what)
        if self.is_anew or not note.exists():
            failed = call(edits)
            self.failed |= failed
            if not failed:
                KEPT.mkdir(parents=True, exist_ok=True)
                note.touch()

    def run(self):
        """Tries all, and says how it went. Returns how many passed and failed."""
        begun, whole = time.monotonic(), [it for it in self.edits if it.label not in self.failed]
        with self.room:
            # The controls first: over what they leave, a bundle has little more to prove than what it changes. So each
            # stays in its place beside later ones.
            placed = []
            for edits in bundles_of(self.crate, [it for it in whole if it.has_control], 3):
                placed = bundles_of(self.crate, [*edits, *placed], 3)[0]
                self.tried("proved", placed, self.proved)
            for edits in bundles_of(self.crate, whole):
                self.tried("refused", edits, self.refused)
        print(*[f"{label}: {why}" for label, why in self.failed.items()],
              f"{self.crate.name}: {len(self.edits)} edits in {self.checks} checks, {time.monotonic() - begun:.0f} s"
              + ", over what rt ci proved" * self.is_seeded,
              sep="\n", flush=True)
        return len(self.edits) - len(self.failed), len(self.failed)


def proved_crates(lines):
    """The crates with edits, in the order in which they are named as proved. One with several wrong bodies of its own
    waits until `rt ci` names these, so that it has what it begins them with. If it tries none, the crate comes last."""
    early = []
    for named in filter(None, (re.match(r"(?:rt: )?(\w+)( proved| is kept|: trying|$)", line) for line in lines)):
        crate, edits = CRATES.get(named[1]), guarantees().edits_of(named[1])
        if crate and named[2] == " proved" and sum(it.is_asked for it in edits) > 1:
            early.append(crate)
        elif crate and edits:
            yield crate
    yield from early


def main():
    words = argparse.ArgumentParser(description=__doc__, formatter_class=argparse.RawDescriptionHelpFormatter)
    words.add_argument("--anew", action="store_true")
    words.add_argument("--as-proved", action="store_true")
    words.add_argument("--stated", action="store_true")
    words.add_argument("names", nargs="*", metavar="NAME")
    given = words.parse_args()
    edits = {it.label: it for crate in CRATES.values() for it in edits_of(crate)}
    if unknown := [it for it in given.names if it not in {*edits, *CRATES}]:
        words.error(f"there is no crate and no edit {unknown[0]}")
    labels = {*given.names} & {*edits}
    if given.stated:
        for it in sorted(labels):
            crate, edit = CRATES[edits[it].folder.name], edits[it]
            with tempfile.TemporaryDirectory(prefix="refusals-") as kept:
                status, lines = check(crate, applied(crate, [edit]), kept)
            print(it, f"status {status}", *stated(crate, edit, findings(crate, lines)), sep="\n", flush=True)
        return 0
    names = [it.partition("/")[0] for it in given.names]
    crates = proved_crates(sys.stdin if given.as_proved else names or CRATES)
    # It sets a handler of a signal, which the main thread alone can do.
    toolchain()[0].guarded()
    running = {}
    with concurrent.futures.ThreadPoolExecutor(2) as pool:
        # Each crate begins when it is named, while the names of others are yet to come.
        for crate in crates:
            if crate.name not in running:
                running[crate.name] = pool.submit(Trial(crate, given.anew, labels).run)
        passed, failed = map(sum, zip((0, 0), *(it.result() for it in running.values())))
    print(f"{passed} passed, {failed} failed")
    return 1 if failed or not passed else 0


if __name__ == "__main__":
    sys.exit(main())
