"""The bindings: one client in each language (tests/clients/) steps the same schedules, plans the same attempts, fails
with the same faults and retries by the same policies, in the same order. What only one binding has is tested by a
program in its language (tests/clients/only_in_*, inside_go_test.go, OnlyInJava.java; test_python*.py). The example
of each binding really waits."""
import email.utils
import fcntl
import http.server
import itertools
import json
import math
import pathlib
import random
import re
import shutil
import subprocess
import sys
import threading
import time

import pytest

import reference
from generator import filled, made_term
from histories import FALLS, KEEPS_LIST, History, histories, judge
from languages import (BINDINGS, CLEAN, CLIENTS, CPP, JNA, LANGUAGES, STRICT, WATCHED, are_kept, built_library, client,
                       go_variables, need, node, ran, request)
from support import TOP, rows
from test_library import BOUNDS

# Languages whose texts are bytes, UTF-8 or not.
BYTES = ["C", "C watched", "C++", "Go", "Node", "C on arm64", "Go on arm64", "Node on WebAssembly"]
# Debian's packages put the sources of crates here.
CRATES = pathlib.Path("/usr/share/cargo/registry")
FAULTS = {text.encode(): fault for text, fault in rows("faulty_texts.jsonl")}
# A policy, the code of the failures and how many there are; how it ends, and the milliseconds between attempts.
GROWING = "((exponential(4) || spaced(10)) && recurs(5)).whileInput(>= 500)"
RETRIES = [
    ("(exponential(10) && recurs(5))", 503, 3, "done", [10, 20, 40]),
    ("(spaced(30) && recurs(2))", 503, 99, "503", [30, 30]),
    (GROWING, 503, 4, "done", [4, 8, 10, 10]),
    (GROWING, 404, 99, "404", []),
    ("spaced(30).whileInput(!= 18446744073709551615)", 18446744073709551615, 9, "18446744073709551615", [])]
# The forms of a retry, and the languages that have each.
FORMS = {"retry": LANGUAGES, "later": ["Python", "Java", "Rust"], "loop": ["Python"], "later_loop": ["Python"]}
LIMITED = {"limited": ["Go", "Node", "Java", "Rust"], "limited_later": ["Python", "Java", "Rust"],
           "limited_loop": ["Python"], "limited_later_loop": ["Python"]}
GOOD = {"good": ["Python", "Go", "Node", "Java", "Rust"], "good_later": ["Python"]}
# Policies of which each attempt fails at once.
PROMISED = rows("promised.jsonl")
# A schedule; a jitter in percent, a least wait and the longest one in milliseconds; turns, each with the nanoseconds at
# which an attempt began and ended, its input and a draw; the line of the plans; how it was worked out by hand.
TURNS = rows("turns.jsonl")
# A policy, of which each attempt fails at once; the line of its attempts and its last begin; how it was worked out.
RESTARTS = [
    ("(spaced(10) && elapsed).whileOutput(_2 < 500)", "47 506000000",
     "steps at 1, 12, 23 .. ms: the 47th is 506 ms after the first; the one before it planned 496 + 10 ms"),
    ("elapsed.whileOutput(< 200)", "201 200000000", "steps at 1, 2, 3 .. ms: the 201st is 200 ms after the first"),
    ("(exponential(100) && recurs(5))", "6 3105000000", "1 + 100, 1 + 200, 1 + 400, 1 + 800, 1 + 1600 ms"),
    ("(fixed(7) && recurs(20))", "21 141000000", "the window begins at 1 ms: 1 + 20 * 7"),
    ("(linear(250) && elapsed).whileOutput(_2 < 1500)", "4 1503000000", "251 + 501 + 751: at 1504 ms 1503 have passed")]
# A policy, what happens in a retry by it, and what each language prints of it: null if it has no such thing.
ORDERS = rows("orders.jsonl")
# A schedule; how many steps are examined, the least and most milliseconds of an attempt, the jitter in percent, the
# longest least wait and the lateness in milliseconds; the numbers of zs_run_bounds; how they were worked out.
DRIVERS = [
    ("(spaced(100) && recurs(3))", [1000, 1, 5, 20, 0, 0], "4 4 1 4 100 1 300 1 321",
     "jitter alone lengthens no wait: 3 * 100, and four attempts of 5 ms"),
    ("(spaced(100) && recurs(3))", [1000, 1, 5, 20, 2000, 50], "4 4 1 4 2050 1 6150 1 6171",
     "each wait is at most 2000 ms, and 50 ms late"),
    ("(exponential(100) && recurs(5))", [1000, 1, 5000, 0, 0, 50], "6 6 1 6 1650 1 3350 1 33351",
     "3100 and 5 * 50 ms, and six attempts of 5 s"),
    ("(spaced(100) && recurs(2))", [1000, 1, 5, 0, 3600000, 0], "3 3 1 3 3600000 1 7200000 1 7200016",
     "each wait is an hour at most"),
    ("(spaced(400) && elapsed).whileOutput(_2 < 2000)", [1000, 1, 5000, 50, 0, 0], "11 2 1 11 400 1 2394 1 12400",
     "the 11th step has 10 * 201 ms at least; five waits in 1999 - 5 ms, and 400; 5000 + 1999 + 400 + 5000"),
    ("elapsed.whileOutput(< 200)", [1000, 1, 5000, 0, 0, 2 ** 64 - 1], "201 2 1 201 18446744073709551615 0 0 0 0",
     "any lateness: no bound of time, but of attempts")]
ANY_LATENESS = 1, 2 ** 64 - 1, 0, 0, 2 ** 64 - 1
# A policy, the code of all failures; a jitter in percent, a least wait in milliseconds, the code that isn't retried,
# 1 for a shared budget, and the longest least wait, an hour if it isn't there; how many attempts there are at least and
# most, and the least and most milliseconds of each wait. Jitter shortens waits, so elapsed passes more attempts.
OPTIONS = [
    ("(spaced(30) && recurs(2))", 7, [0, 0, 0, 0], 3, 3, 30, 30),
    ("(spaced(10) && recurs(2))", 7, [50, 60, 0, 0], 3, 3, 60, 60),
    ("(spaced(10) && recurs(2))", 7, [0, 0, 7, 0], 1, 1, 0, 0),
    ("(spaced(20) && elapsed).whileOutput(_2 < 200)", 7, [100, 0, 0, 0], 5, 201, 0, 20),
    ("(spaced(10) && recurs(2))", 7, [0, 9000000000000, 0, 0, 50], 3, 3, 50, 50)]
# The text of no schedule, and its message. What is set in a retry that fails at once, and what each language prints.
TEXTS_SAID, EDGES = rows("texts_said.jsonl"), rows("edges.jsonl")
# The languages that have the edges and the messages of wrong texts.
SHARED = ["C", "C++", "Go", "Java", "Node", "Python", "Rust"]
# The longest moment that a language's numbers have; longer ones are Infinity.
LONGEST = {"Node": 2 ** 53 - 1, "Node on WebAssembly": 2 ** 53 - 1}
# Policies with an end, of numbers N; and how many attempts a call of `guarded` makes at most.
GUARDED = ["((exponential(N) || spaced(N)) && recurs(6))", "(exponential(N, 3) && recurs(5))",
           "(fibonacci(N) && recurs(9))", "(spaced(N) && elapsed).whileOutput(_2 < 500)",
           "(linear(N) && elapsed).whileOutput(_2 < 5000)", "(identity && elapsed).whileOutput(_2 < 50)",
           "(fixed(N) && recurs(7))", "(exponential(N).whileInput(>= 503) && recurs(8))",
           "((spaced(N) && recurs(3)) andThenEither (linear(N) && recurs(3)))"]
MOST_GUARDED = 200
# How many tests the bindings for Go and Node have alone.
GO_TESTS, NODE_TESTS = 31, {"only_in_node.test.js": 25, "journal_only_in_node.test.js": 6}
MANY, TIMES, BYTES_A_STEP = 1_000_000, 1.5, 4


def named(*names):
    return [pytest.param(name, marks=[pytest.mark.full] * (name == "Java")) for name in names or LANGUAGES]


def ways(name):
    return ["program", "visits"] if name.startswith("C") else ["program", "stored"]


def says_bounds(client, name, *asked):
    """The lines of some requests, of which the clients in C print a fault as numbers too."""
    lines = client(name).says(request("bounds", *it) for it in asked)
    return [re.sub("^0 (.*) 0$", r"\1", line) for line in lines] if name.startswith("C") else lines


@pytest.mark.parametrize("name", named())
def test_all_schedules_are_stepped_as_the_reference_says(client, name):
    chosen = [it for it in histories() if name in BYTES or it.text.decode(errors="ignore").encode() == it.text]
    assert sum(it.is_flat for it in chosen) >= 2000
    for command in ways(name):
        judge(client(name), chosen, command, longest=LONGEST.get(name))


@pytest.mark.parametrize("name", named())
def test_faults_have_their_number_place_and_text(client, name):
    chosen = [History(text, [(1, 0)]) for text in FAULTS]
    assert [it.fault for it in chosen] == list(FAULTS.values())
    for command in ways(name):
        judge(client(name), chosen, command)
    asked = [("recurs(1)", 5, 0, 4, 0), ("forever.collectAll", 1, 0), ("(recurs(1) && recurs(2).collectAll)", 1, 0)]
    for command in ways(name):
        assert client(name).says(request(command, *it) for it in asked) == [
            f"{1 if command == 'visits' else '0,5,0'} {FALLS}", KEEPS_LIST, KEEPS_LIST]


@pytest.mark.parametrize("name", named("Go", "Node", "Rust", "Java"))
def test_the_state_of_another_schedule_is_a_fault(client, name):
    texts = ["(exponential(10) && recurs(3))", "(exponential(10) && recurs(4))", "recurs(3)"]
    pairs = [f"{first}\n{second}" for first in texts for second in texts if first != second]
    assert client(name).says(request("moved", pair) for pair in pairs) == ["9,0,the state of another program"] * 6


@pytest.mark.parametrize("name", named())
def test_outputs_of_any_length_are_whole(client, name):
    wide = "spaced(18446744073709551615)"
    for _ in range(7):
        wide = f"({wide} && {wide})"
    long = History(f"({wide} && linear(9))".encode(), [(3, 0), (5, 0), (8, 0)])
    assert len(long.steps[0]) > 256
    for command in ways(name):
        judge(client(name), [long], command, longest=LONGEST.get(name))


@pytest.mark.parametrize("name", named())
def test_the_library_has_the_version_of_this_tree(client, name):
    major, minor, patch = map(int, (TOP / "VERSION").read_text().split("."))
    assert client(name).says([request("version", "")]) == [str(1_000_000 * major + 1000 * minor + patch)]


@pytest.mark.parametrize("text, code, times, wanted, waits", RETRIES)
@pytest.mark.parametrize("name", named())
def test_a_retry_waits_as_its_policy_says(client, name, text, code, times, wanted, waits):
    ended, moments = client(name).retries(text, code, times)
    assert ended == wanted and are_kept(waits, moments)


@pytest.mark.parametrize("name", named())
def test_the_next_attempt_begins_as_worked_out_by_hand(client, name):
    asked = [request("plan", text, *given, *itertools.chain(*turns)) for text, given, turns, *_ in TURNS]
    assert client(name).says(asked) == [line for _, _, _, line, _ in TURNS]


@pytest.mark.parametrize("name", named())
def test_a_loop_over_restarts_keeps_its_bound_though_its_clock_is_set_back(client, name):
    found = client(name).says(request("restarted", text, 7, 3000, 1000) for text, *_ in RESTARTS)
    assert found == [line for _, line, _ in RESTARTS]
    bounds = client("C").says(request("bounds", text, 1000, *ANY_LATENESS) for text, *_ in RESTARTS)
    for line, promised in zip(found, bounds, strict=True):
        _, _, least, has_most, most, *_ = map(int, promised.split())
        assert has_most and least <= int(line.split()[0]) <= most


@pytest.mark.parametrize("name", named())
def test_a_retry_calls_its_hooks_in_order(client, name):
    wanted = {(text, what): lines[name.split()[0].rstrip("+")] for text, what, lines in ORDERS}
    wanted = {asked: line for asked, line in wanted.items() if line}
    assert client(name).says(request("order", *asked) for asked in wanted) == list(wanted.values())


@pytest.mark.parametrize("name", named(*SHARED))
def test_a_wrong_text_is_said_with_its_mark_and_what_to_write(client, name):
    found = client(name).says(request("said", text) for text, _ in TEXTS_SAID)
    assert [bytes.fromhex(it[1:]).decode() for it in found] == [message for _, message in TEXTS_SAID]


@pytest.mark.parametrize("name", named(*SHARED))
def test_edges_are_the_same_in_each_language(client, name):
    wanted = {(text, what): lines[name.split()[0].rstrip("+")] for text, what, lines in EDGES}
    wanted = {asked: line for asked, line in wanted.items() if line}
    assert client(name).says(request("edge", text, *what.split()) for text, what in wanted) == list(wanted.values())


def guarded_call(chance):
    """The request of a call by a random policy with random options, times and draws. A clock has its waits."""
    is_chosen, text = chance.choice([True, False]), "collectAll"
    while re.search(r"\d{5}|collectAll|size", text):
        form, nodes = chance.choice(GUARDED), chance.choice(range(1, 9))
        text = filled(chance, form) if is_chosen else made_term(chance, nodes)[0]
    endless = not is_chosen and re.search("exponential|fibonacci", text)
    deadlines, least = [1, 300, 5000] if endless else [0, 0, 0, 1, 300, 5000], chance.choice([0, 1, 5, 40])
    return ("guarded", text, chance.choice(range(10 ** 6)), chance.choice([0, 0, 10, 50, 100]),
            chance.choice([0, 0, 50, 3000]), chance.choice(deadlines), chance.choice([0, 0, 20, 1000]), least,
            least + chance.choice([0, 1, 50, 3000]), chance.choice([0, 0, 0, 1]))


def exceeds(call, line):
    """Which bounds of its guard a call passed, and which it reached."""
    attempts, wait, total, end, least, most, *limits = (int(it) if int(it) >= 0 else math.inf for it in line.split())
    *_, shortest, _, has_fallen = call
    found = {"most": (attempts, most), "least": (least, math.inf if attempts == MOST_GUARDED else attempts)}
    if not has_fallen:
        # An attempt counts as 1 ms or more, so the wait after a shorter one may be longer by that.
        wait, total = (wait, total) if shortest else (wait - 10 ** 6, total - 10 ** 6 * attempts)
        # All waits together are less than 1 ms above `total`, which follows from moments in whole milliseconds.
        total -= 10 ** 6
        # Python's times are whole microseconds, and Node's are no whole numbers.
        found |= {name: (time - 1000, 10 ** 6 * limit)
                  for name, time, limit in zip(["longest", "total", "longest_run"], [wait, total, end], limits)}
    return [name for name, (it, limit) in found.items() if it > limit], [
        name for name, (it, limit) in found.items() if it == limit]


@pytest.mark.parametrize("name", named(*SHARED))
def test_no_call_is_outside_the_bounds_of_its_guard(client, name):
    """Jitter, least waits, deadlines, late timers, slow attempts and clocks that fall, by chance."""
    chance = random.Random(7)
    calls = [guarded_call(chance) for _ in range(2000)]
    found = [exceeds(*it) for it in zip(calls, client(name).says(request(*it) for it in calls), strict=True)]
    assert [(call, passed) for call, (passed, _) in zip(calls, found) if passed] == []
    assert sum("most" in reached for _, reached in found) > 400


def forms(names):
    return [pytest.param(*it.values, command, marks=it.marks) for command in names for it in named(*names[command])]


@pytest.mark.parametrize("name, command", forms(LIMITED))
def test_an_attempt_ends_at_its_limit_and_none_begins_beside_it(client, name, command):
    """An attempt without a limit takes 5 s."""
    for times, wanted in [(2, "done"), (9, "503")]:
        line, = client(name).says([request(command, "(spaced(20) && recurs(2))", 503, times, 200)])
        ended, *words = line.split()
        begins, ends = ([int(it) / 1000 for it in words[place::2]] for place in [0, 1])
        assert ended == wanted and len(begins) == len(ends) == 3
        slow = [end - begin for begin, end in zip(begins, ends)][:times]
        # The limit of the first begins while a virtual machine loads what it needs.
        assert all(100 <= it < 4000 for it in slow), slow
        assert all(begin >= end + 19 for begin, end in zip(begins[1:], ends)), words


@pytest.mark.parametrize("name, command", forms(GOOD))
def test_a_call_that_does_not_fail_takes_no_longer_by_a_long_policy(client, name, command):
    """To compile its 255 nodes takes some hundred microseconds."""
    long = "recurs(9)"
    for _ in range(7):
        long = f"({long} && {long})"
    assert min(int(line) for line in client(name).says([request(command, long, 500)] * 5)) < 40_000


def least_moments(text):
    """The least milliseconds at which the attempts begin, by the reference: each counts as 1 millisecond."""
    schedule, pairs, known, begins = reference.read_schedule(text.encode()), [], {}, [0]
    while begins[-1] is not None:
        pairs.append((begins[-1] + 1, 7))
        begins.append(reference.step(schedule, reference.History(pairs, known, 0, len(pairs)))[1])
    return begins[:-1]


@pytest.mark.parametrize("name, command", forms(FORMS))
def test_what_fails_at_once_is_retried_within_the_bounds_of_its_policy(client, name, command):
    bounds = client("C").says(request("bounds", text, 1000) for text in PROMISED)
    lines = client(name).says(request(command, text, 7, 10 ** 6) for text in PROMISED)
    for text, line, promised in zip(PROMISED, lines, bounds, strict=True):
        _, _, least, _, most, longest, _, total, *_ = map(int, promised.split())
        ended, *moments = line.split()
        waits = [(int(after) - int(before)) / 1000 - 1 for before, after in zip(moments, moments[1:])]
        assert ended == "7" and least <= len(moments) <= most, text
        assert all(int(moment) >= 1000 * begin for moment, begin in zip(moments, least_moments(text))), text
        # A busy machine wakes late.
        assert max(waits) <= longest + 3000 and sum(waits) <= total + 3000, text


@pytest.mark.parametrize("text, code, options, least, most, shortest, longest", OPTIONS)
@pytest.mark.parametrize("name", named())
def test_options_of_a_retry(client, name, text, code, options, least, most, shortest, longest):
    line, = client(name).says([request("retry", text, code, 99, *options)])
    ended, *words = line.split()
    moments = [int(it) / 1000 for it in words if ":" not in it]
    hooked = [list(map(int, it.split(":"))) for it in words if ":" in it]
    assert ended == str(code) and least <= len(moments) <= most
    assert [number for number, _ in hooked] == list(range(1, len(moments)))
    assert all(shortest - 1 <= wait <= longest + 1 for _, wait in hooked)
    assert all(after - before >= wait - 1 for (_, wait), before, after in zip(hooked, moments, moments[1:]))
    assert not options[0] or sum(wait for _, wait in hooked) < 0.9 * longest * len(hooked) or shortest == longest


@pytest.mark.parametrize("name", named())
def test_calls_share_a_budget(client, name):
    """Of 10 tokens: a failed attempt takes one, another adds a half, and more than 5 have to be there for a retry."""
    lines = client(name).says(request("retry", "recurs(9)", 7, times, 0, 0, 0, 1)
                              for times in [99, 99, 0, 0, 0, 0, 0, 99])
    assert [sum(":" not in it for it in line.split()) - 1 for line in lines] == [5, 1, 1, 1, 1, 1, 1, 2]


@pytest.mark.parametrize("name", named())
def test_bounds_are_those_that_were_worked_out_by_hand(client, name):
    for place, more in enumerate([(), (1, 5000)]):
        found = says_bounds(client, name, *((text, 1000, *more) for text in BOUNDS))
        assert found == [it[place] for it in BOUNDS.values()]
    assert says_bounds(client, name, *((text, *given) for text, given, *_ in DRIVERS)) == [it[2] for it in DRIVERS]
    faults = says_bounds(client, name, ("recurs(1)", 9, 6, 5), *((text.decode(), 9) for text in FAULTS))
    wanted = ["10,0,no driver does this", *FAULTS.values()]
    if name.startswith("C"):
        wanted = [f"{number} {'0 ' * 9}{at}" for number, at, _ in (it.split(",") for it in wanted)]
    assert faults == wanted


@pytest.mark.full
@pytest.mark.parametrize("name", named("C", "C++", "Python", "Go", "Node", "Java", "Rust"))
def test_a_million_steps_take_flat_time_and_memory(client, name):
    policy = f"((exponential(100) || spaced(5000)) && recurs({2 * MANY})).whileInput(>= 500)"
    for _ in range(3):
        begun, spent, memory = time.monotonic(), [], []
        it = client(name)
        with subprocess.Popen(list(map(str, it.words)), env=CLEAN | it.variables, stdin=subprocess.PIPE,
                              stdout=subprocess.PIPE, text=True) as running:
            running.stdin.write(f"{request('many', policy, MANY)}\n")
            running.stdin.flush()
            for _ in range(10):
                assert running.stdout.readline() == "\n"
                status = pathlib.Path(f"/proc/{running.pid}/status").read_text()
                spent.append(time.monotonic() - begun)
                memory.append(int(re.search(r"VmRSS:\s+(\d+)", status)[1]))
        # The first tenth has the start of the program.
        tenths = [after - before for before, after in zip(spent, spent[1:])]
        grown = (memory[-1] - memory[4]) * 1024 / (MANY / 2)
        # Other programs make the machine slower now and then, and collectors of memory run when they like.
        if grown < BYTES_A_STEP and min(tenths[4:]) <= TIMES * min(tenths[:4]):
            return
    raise AssertionError(f"{name}: {tenths} s, {memory} KiB")


READY = "ready after 4 attempts\n"


@pytest.mark.parametrize("words", [["cc", "-std=c99"], ["cc", "-std=gnu17"], ["cc", "-std=gnu11", *WATCHED]],
                         ids=["c99", "gnu17", "watched"])
def test_the_example_in_c_waits_for_its_server(library, tmp_path, words):
    compiled = [*words, *STRICT, *built_library(library).flags[:2]]
    ran([*compiled, "-o", "example", BINDINGS / "c" / "example.c", library / "libzsched.a", "-lpthread"], tmp_path)
    assert ran(["./example"], tmp_path) == READY


@pytest.mark.parametrize("words", [["cc", "-std=c99"], ["cc", "-std=gnu17"], ["cc", "-std=gnu11", *WATCHED], CPP],
                         ids=["c99", "gnu17", "watched", "c++17"])
def test_the_loop_in_c_is_cancelled_draws_and_counts_in_a_program_of_two_files(library, tmp_path, words):
    need(words[0])
    (tmp_path / "second.c").write_text('#include "retry.h"\nint second(void);\nint second(void) { return 0; }\n')
    ran([*words, *STRICT, "-I", BINDINGS / "c", *built_library(library).flags[:2], "-o", "only", "second.c",
         CLIENTS / "only_in_c.c", "-x", "none", library / "libzsched.a", "-lpthread"], tmp_path)
    assert ran(["./only"], tmp_path) == ""


def test_the_loop_in_c_says_which_macro_it_needs_where_it_is_included_late(library, tmp_path):
    (tmp_path / "late.c").write_text('#include <stdio.h>\n#include "retry.h"\n')
    words = ["cc", "-fsyntax-only", *STRICT, "-I", BINDINGS / "c", *built_library(library).flags[:2], "late.c"]
    ended = subprocess.run([*words, "-std=c99"], cwd=tmp_path, capture_output=True, text=True, check=False)
    assert ended.returncode == 1 and "define _POSIX_C_SOURCE as 200809L" in ended.stderr
    ran([*words, "-std=c99", "-D_POSIX_C_SOURCE=200809L"], tmp_path)
    ran([*words, "-std=gnu99"], tmp_path)


def recipe(language, library, room):
    """The words and variables of the recipe of a journal in a language."""
    if language == "c":
        ran(["cc", "-std=gnu17", *STRICT, *built_library(library).flags[:2], "-o", "journal", BINDINGS / "c/journal.c",
             library / "libzsched.a"], room)
        return [room / "journal"], {}
    if language == "rust":
        folder, variables = crate(library, room)
        ran(["cargo", "build", "--quiet", "--offline", "--example", "journal"], folder, **variables)
        return [folder / "target/debug/examples/journal"], {}
    need("javac", JNA)
    ran(["javac", "-Xlint:all", "-Werror", "-cp", JNA, "-d", "classes", *BINDINGS.glob("java/zsched/*.java"),
         BINDINGS / "java/Journal.java"], room)
    return ["java", "-cp", f"{JNA}:{room / 'classes'}", f"-Djna.library.path={library}", "Journal"], {}


@pytest.mark.parametrize("language", ["c", "rust", pytest.param("java", marks=pytest.mark.full)])
def test_the_recipe_of_a_journal_loses_no_attempt(library, tmp_path, language):
    words, variables = recipe(language, library, tmp_path)
    file = tmp_path / "jobs" / "job"
    file.parent.mkdir()

    def says(what, status=0):
        given = [*map(str, words), str(file), what]
        ended = subprocess.run(given, env=CLEAN | variables, capture_output=True, text=True, check=False, timeout=60)
        assert ended.returncode == status, ended.stderr
        return ended.stdout.splitlines()

    for number in [1, 2, 3]:
        assert says("killed", 9) == ["attempt"]
        assert f"\nattempts {number}\n" in file.read_text()
        assert file.read_text().endswith(f"\nerror killed in attempt {number}\nend\n")
    faulty = f"zsched: journal {file}: "
    assert says("done") == says("done") == [f"{faulty}gave up after 3 attempts: killed in attempt 3"]
    file.unlink()
    assert says("busy") == [*["attempt"] * 3, "busy"]
    assert says("busy") == [f"{faulty}gave up after 3 attempts: busy"]
    kept = file.read_text()
    assert re.fullmatch(r"zsched journal 1\nschedule \(spaced\(10\) && recurs\(2\)\)\nstate \d+( \d+)+\nattempts 3\n"
                        r"ended \d+\nbegin none\nat \d+\nerror busy\nend\n", kept)
    wrong = {"": "empty", kept[:9]: "cut", kept[:-2]: "cut", "x": "no journal", "zsched journal 1\nend\n": "no journal",
             kept.replace("attempts 3", "attempts 03"): "no journal", kept.replace("ended", "begun"): "no journal",
             kept.replace("recurs(2)", "recurs(3)"): "another policy",
             kept.replace("journal 1", "journal 2"): "another version",
             re.sub(r"state \d+", "state 7", kept): "another version",
             re.sub(r"state .*", "state 7", kept): "another version"}
    for text, why in wrong.items():
        file.write_text(text)
        assert says("done") == [faulty + why] and file.read_text() == text
    file.unlink()
    assert says("done") == ["attempt", "done"] and not file.exists()
    if language != "java":
        assert not any(file.parent.iterdir())
        with open(f"{file}.lock", "w", encoding="utf-8") as held:
            fcntl.flock(held, fcntl.LOCK_EX)
            assert says("done") == [f"{faulty}in use"]
    # If the file can't be written, no attempt begins.
    pathlib.Path(f"{file}.new").mkdir()
    said, = says("done")
    assert said.startswith(faulty) and not file.exists()


def snippets(language):
    """The blocks of code on the page of a language, as they are printed."""
    page = BINDINGS / language / "README.md"
    found = re.findall(rf"^```{language}\n(.*?)^```", page.read_text(), re.DOTALL | re.MULTILINE)
    assert len(found) == 2
    return found


def test_the_page_in_c_is_followed_over_an_installed_library(library, tmp_path):
    ran([TOP / "build/install-library", "--library", library, "--destdir", tmp_path, "--prefix", "/usr"], tmp_path)
    include, archive = tmp_path / "usr/include", tmp_path / "usr/lib/libzsched.a"
    for code, wanted in zip(snippets("c"), ["504 after 4 attempts: gave up\n", ""], strict=True):
        (tmp_path / "readme.c").write_text(code)
        for compiler in [["cc", "-std=c99"], ["c++", "-x", "c++", "-std=c++17"]]:
            ran([*compiler, *STRICT, "-I", include, "-c", "-o", "readme.o", "readme.c"], tmp_path)
            ran(["cc", "-o", "readme", "readme.o", archive], tmp_path)
            begun = time.monotonic()
            assert ran(["./readme"], tmp_path) == wanted
        assert wanted or time.monotonic() - begun < 1


@pytest.mark.parametrize("language", ["c", "java", "rust"])
def test_the_default_policy_has_the_bounds_of_its_page(client, language):
    line, = client("C").says([request("bounds", "(exponential(100) && recurs(5))", 1000, 1, 5000, 100, 0, 0)])
    _, _, _, _, most, longest, _, total, *_ = map(int, line.split())
    wanted = f"at most {most} attempts, with waits of at most {longest / 1000:.1f} s, {total / 1000:.1f} s together"
    assert wanted in (BINDINGS / language / "README.md").read_text()


def module(library, folder):
    """A copy of the binding for Go with its tests, which lie in the folder of what they test, and its variables."""
    need("go")
    shutil.copytree(BINDINGS / "go", folder)
    for tests in CLIENTS.glob("*_go_test.go"):
        shutil.copy(tests, folder)
    return go_variables(built_library(library))


def test_the_example_in_go_waits_for_its_server_and_its_tests_pass(library, tmp_path):
    folder = tmp_path / "go"
    variables = module(library, folder)
    ran(["go", "vet", "./..."], folder, **variables)
    assert ran(["go", "test", "-v", "."], folder, **variables).count("\n--- PASS: ") == GO_TESTS
    ran(["go", "build", "-o", tmp_path / "example", "./example"], folder, **variables)
    assert ran(["./example"], tmp_path, LD_LIBRARY_PATH=library) == READY


# A job that fails once, and what Go's package of files then prints of each call for the disk.
JOB_IN_GO = """
package main

import (
    "context"
    "errors"

    zsched "github.com/zsched/zsched/bindings/go"
)

func main() {
    isBusy, retry := true, zsched.Retry{
        Schedule: zsched.MustCompile("(spaced(1) && recurs(2))"), Journal: zsched.NewJournal("job")}
    err := retry.Do(context.Background(), func(context.Context) error {
        println("attempt")
        if isBusy {
            isBusy = false
            return errors.New("busy")
        }
        return nil
    })
    if err != nil {
        panic(err)
    }
}
"""
PRINTED = {"file_posix.go": ("func (f *File) Sync() error {",
                             'info, _ := f.Stat(); println(f.name, info.Size() > 0, "is synced")'),
           "file.go": ("func Rename(oldpath, newpath string) error {", 'println(oldpath, "is renamed")'),
           "file_unix.go": ("func Remove(name string) error {", 'println(name, "is removed")')}


def test_a_journal_in_go_is_on_the_disk_before_an_attempt(library, tmp_path):
    """A job's calls are seen by a changed copy of Go's package, which replaces it in the build."""
    variables, place = module(library, tmp_path / "go"), tmp_path / "go" / "job" / "main.go"
    place.parent.mkdir()
    place.write_text(JOB_IN_GO)
    files = pathlib.Path(ran(["go", "env", "GOROOT"], tmp_path).strip(), "src/os")
    for name, (begin, line) in PRINTED.items():
        text = (files / name).read_text()
        assert text.count(begin) == 1
        (tmp_path / name).write_text(text.replace(begin, f"{begin} {line}"))
    (tmp_path / "overlay").write_text(json.dumps(
        {"Replace": {str(files / name): str(tmp_path / name) for name in PRINTED}}))
    ran(["go", "build", "-overlay", tmp_path / "overlay", "-o", tmp_path / "job-in-go", "./job"], tmp_path / "go",
        **variables)
    (tmp_path / "room").mkdir()
    ended = subprocess.run([tmp_path / "job-in-go"], cwd=tmp_path / "room", capture_output=True, text=True, check=True,
                           env=CLEAN | variables)
    written = ["job.new true is synced", "job.new is renamed", ". true is synced"]
    assert ended.stderr.splitlines() == [*written, "attempt", *written, *written, "attempt", "job is removed",
                                         ". true is synced", "job.lock is removed"]


class Busy(http.server.BaseHTTPRequestHandler):
    """A server that is busy twice, once with a time to wait in each form."""
    asked = 0

    def do_GET(self):
        Busy.asked += 1
        self.send_response(200 if Busy.asked % 3 == 0 else 503)
        after = ["ready", "1", email.utils.formatdate(time.time() - 9, usegmt=True)][Busy.asked % 3]
        self.send_header("Retry-After", after)
        self.end_headers()
        self.wfile.write(b"ready")

    def log_message(self, *_):
        pass


@pytest.fixture
def address():
    with http.server.ThreadingHTTPServer(("127.0.0.1", 0), Busy) as server:
        threading.Thread(target=server.serve_forever).start()
        yield f"http://127.0.0.1:{server.server_address[1]}/"
        server.shutdown()


def printed(name, language):
    """The programs that a binding's page shows, with nothing beside them."""
    return re.findall(rf"^```{language}\n(.*?)^```", (BINDINGS / name / "README.md").read_text(), re.M | re.S)


def test_the_page_in_go_fetches_as_printed_and_its_test_passes(library, tmp_path, address):
    variables, folder = module(library, tmp_path / "module"), tmp_path / "page"
    folder.mkdir()
    for name, text in zip(["main.go", "main_test.go"], printed("go", "go")):
        (folder / name).write_text(text)
    name = "github.com/zsched/zsched/bindings/go"
    (folder / "go.mod").write_text(f"module page\n\ngo 1.19\n\nrequire {name} v0.0.0\n\nreplace {name} => ../module\n")
    assert ran(["gofmt", "-l", "."], folder) == ""
    ran(["go", "test", "."], folder, **variables)
    begun = time.monotonic()
    assert ran(["go", "run", ".", address], folder, **variables) == "ready\n" and time.monotonic() - begun > 1


# The metrics of a page that is fetched after eight attempts failed.
METRICS_IN_GO = """
package main

import (
    "testing"

    "github.com/prometheus/client_golang/prometheus/testutil"
)

func TestACallIsCounted(t *testing.T) {
    TestABusyServerIsAskedAgain(t)
    retried := testutil.ToFloat64(attempts.WithLabelValues("fetch", "retried"))
    succeeded := testutil.ToFloat64(attempts.WithLabelValues("fetch", "succeeded"))
    if calls := testutil.CollectAndCount(seconds); retried != 8 || succeeded != 1 || calls != 1 {
        t.Error(retried, succeeded, calls)
    }
}
"""


def test_the_recipe_of_the_page_in_go_feeds_prometheus(library, tmp_path):
    binding, page = (tmp_path / "src" / name for name in ["github.com/zsched/zsched/bindings/go", "page"])
    variables = module(library, binding)
    page.mkdir()
    for name, text in zip(["main.go", "main_test.go", "metrics.go"], printed("go", "go"), strict=True):
        (page / name).write_text(text)
    assert ran(["gofmt", "-l", "."], page) == ""
    (page / "metrics_test.go").write_text(METRICS_IN_GO)
    packages = {"GOPATH": f"{tmp_path}:/usr/share/gocode", "GO111MODULE": "off"}
    ran(["go", "test", "-run", "TestACallIsCounted", "."], page, **variables, **packages)


def test_the_page_in_node_fetches_as_printed_and_its_test_passes(library, tmp_path, address):
    node(tmp_path, built_library(library))
    for name, text in zip(["page.js", "page.test.js"], printed("node", "js"), strict=True):
        (tmp_path / name).write_text(text)
    assert "# pass 1\n" in ran(["node", "--test", "page.test.js"], tmp_path)
    begun = time.monotonic()
    assert ran(["node", "page.js", address], tmp_path) == "ready\n" and time.monotonic() - begun > 1


def test_the_example_in_node_waits_for_its_server_and_its_tests_pass(library, tmp_path):
    node(tmp_path, built_library(library))
    recipe = BINDINGS / "node" / "example_journal.js"
    addon = {"ZSCHED_NODE": tmp_path / "node_modules/zsched/zsched.node", "ZSCHED_RECIPE": recipe}
    assert ran(["node", BINDINGS / "node" / "example.js"], tmp_path, **addon) == READY
    assert ran(["flock", "-n", "job.lock", "node", recipe, "job.journal"], tmp_path, **addon) == READY
    assert not (tmp_path / "job.journal").exists()
    for name, count in NODE_TESTS.items():
        shutil.copy(CLIENTS / name, tmp_path)
        assert f"# pass {count}\n" in ran(["node", "--test", name], tmp_path, **addon)


JOBS = {"job.py": """
import os, signal, sys
from zsched import Journal, retrying

@retrying("(exponential(100) && recurs(3))", journal=Journal("job.journal"))
def job():
    if len(sys.argv) > 1:
        os.kill(os.getpid(), signal.SIGKILL)
    raise ValueError("busy")

try:
    job()
except Exception as error:
    print(error)
""", "job.js": """
require(process.env.ZSCHED_RECIPE).run('job.journal', '(exponential(100) && recurs(3))', () => {
  if (process.argv.length > 2) {
    process.kill(process.pid, 'SIGKILL');
  }
  throw new Error('busy');
}).catch((error) => console.log(error.message));
"""}


def test_a_job_goes_on_in_another_language(library, tmp_path):
    """Of its four attempts one is killed in Python, one in Go and one in Node; the last fails in Python."""
    variables = module(library, tmp_path / "go")
    ran(["go", "test", "-c", "-o", tmp_path / "go-job", "."], tmp_path / "go", **variables)
    node(tmp_path, built_library(library))
    for name, text in JOBS.items():
        (tmp_path / name).write_text(text)
    variables |= {"PYTHONPATH": BINDINGS / "python", "ZSCHED_LIBRARY": library / "libzsched.so",
                  "ZSCHED_NODE": tmp_path / "node_modules/zsched/zsched.node", "ZSCHED_TEST_JOURNAL": "job.journal",
                  "ZSCHED_RECIPE": BINDINGS / "node/example_journal.js"}
    by = {"Python": [sys.executable, "-B", "job.py"], "Go": [tmp_path / "go-job"], "Node": ["node", "job.js"]}
    for number, (name, words) in enumerate(by.items(), 1):
        killed = {"ZSCHED_TEST_KILLED": "1"} if name == "Go" else {}
        ended = subprocess.run([*words, *["kill"] * (name != "Go")], cwd=tmp_path, capture_output=True, check=False,
                               env=CLEAN | {it: str(value) for it, value in (variables | killed).items()})
        found = (tmp_path / "job.journal").read_text()
        assert ended.returncode == -9 and f"\nattempts {number}\n" in found
        assert f"\nerror killed in attempt {number}\nend\n" in found
    assert ran(by["Python"], tmp_path, **variables) == "busy\n"
    for words in by.values():
        assert "gave up after 4 attempts: ValueError: busy\n" in ran(words, tmp_path, **variables)


def crate(library, tmp_path):
    """A copy of the binding for Rust with its tests, and the variables for its programs."""
    need("cargo")
    shutil.copytree(BINDINGS / "rust", tmp_path / "rust", ignore=shutil.ignore_patterns("target", "Cargo.lock"))
    (tmp_path / "rust" / "tests").mkdir()
    shutil.copy(CLIENTS / "only_in_rust.rs", tmp_path / "rust" / "tests")
    return tmp_path / "rust", {"ZSCHED_LIBRARY_DIR": library, "RUSTFLAGS": "-D warnings", "CARGO_INCREMENTAL": "0",
                               "CARGO_PROFILE_DEV_DEBUG": "0"}


def test_the_example_in_rust_waits_for_its_server_and_its_tests_pass(library, tmp_path):
    folder, variables = crate(library, tmp_path)
    cargo = ["cargo", "--quiet", "--offline"]
    assert ran([*cargo, "run", "--example", "retry"], folder, **variables) == READY
    said = ran([*cargo, "test"], folder, **variables)
    assert re.findall(r"\d+ passed", said) == ["0 passed", "21 passed", "11 passed"]
    ran([*cargo, "check", "--no-default-features"], folder, **variables)


@pytest.mark.full
def test_the_example_under_tokio_waits_for_its_server(library, tmp_path):
    if not any(CRATES.glob("tokio-1.*")):
        pytest.skip("tokio (of the package librust-tokio-dev) isn't on this machine")
    folder, variables = crate(library, tmp_path)
    places = {"crates-io.replace-with": "debian", "debian.directory": CRATES}
    words = [word for name, place in places.items() for word in ["--config", f'source.{name}="{place}"']]
    assert ran(["cargo", "run", "--quiet", "--offline", *words], folder / "tokio", **variables) == READY


@pytest.mark.full
def test_the_example_in_java_waits_for_its_server_and_its_test_and_page_pass(library, tmp_path):
    need("javac", JNA)
    pages = {"Fetch": "the page of a\n", "FetchTest": ""}
    for name, code in zip(pages, snippets("java"), strict=True):
        (tmp_path / f"{name}.java").write_text(code)
    sources = [*BINDINGS.glob("java/zsched/*.java"), BINDINGS / "java" / "Example.java", CLIENTS / "OnlyInJava.java",
               *(f"{name}.java" for name in pages)]
    ran(["javac", "-Xlint:all", "-Werror", "-cp", JNA, "-d", "classes", *sources], tmp_path)
    java = ["java", "-cp", f"{JNA}:classes"]
    for name, said in [("Example", READY), ("OnlyInJava", ""), *pages.items()]:
        assert ran([*java, f"-Djna.library.path={library}", name], tmp_path) == said
    assert ran([*java, "-Dzsched.library=/nowhere/libzsched.so", "OnlyInJava", "missing"], tmp_path) == ""
