"""The calls of the library from C: by tests/clients/client.c, which passes blocks of the stated lengths, changes words,
makes allocations fail and calls from several threads; also under sanitizers and valgrind."""
import ctypes
import random
import re
import signal
import subprocess

import pytest

from histories import History, histories, judge
from languages import STRICT, client, need, ran, request
from support import TOP, rows, run, tree

REFUSED = 250
UNDER_VALGRIND = 40
FORGED = 200
VALGRIND = ["valgrind", "--quiet", "--error-exitcode=9", "--leak-check=full", "--show-leak-kinds=all"]
# Schedules of the greatest depth.
DEEPEST = rows("deepest.jsonl")
# Of a schedule the numbers of struct zs_run_bounds for 1000 steps, the same for attempts of at most 5 s, and the
# reasons. A longest run is 1 ms more than these say: each end is before it, to the nanosecond.
BOUNDS = {
    # 100, 200, 400, 800, 1600
    "(exponential(100) && recurs(5))": ("6 6 1 6 1600 1 3100 0 0", "6 6 1 6 1600 1 3100 1 33101"),
    # 100, 200, 400, 800, 1600, 3200, and 5000 twice; any error may be below 500
    "((exponential(100) || spaced(5000)) && recurs(8)).whileInput(>= 500)":
        ("9 1 1 9 5000 1 16300 0 0", "9 1 1 9 5000 1 16300 1 61301"),
    # The sixth step has 5 * 401 ms at least, and the fifth 4 * 401, which is less than 2000. A run: 5000 + 1999 + 400 +
    # 5000.
    "(spaced(400) && elapsed).whileOutput(_2 < 2000)": ("6 2 1 6 400 1 2000 0 0", "6 2 1 6 400 1 2000 1 12400"),
    # 250, 500, 750, 1000, 1250
    "linear(250).whileOutput(< 1500)": ("6 6 1 6 1250 1 3750 0 0", "6 6 1 6 1250 1 3750 1 33751"),
    # 100, 200, 400, and 5000 four times; attempts of 5 s take at most 55700 ms up to the last step
    "(((exponential(100) && recurs(3)) andThenEither (spaced(5000) && recurs(4))).map(merge) && "
    "elapsed.whileOutput(< 60000))": ("8 2 1 8 5000 1 20700 0 0", "8 8 1 8 5000 1 20700 1 60701"),
    "spaced(1000).whileInput(!= 404)": 2 * ("1000 1 0 0 1000 0 0 0 0",)}
# The version of a state, and a policy's program, by crates/zs_c/specs/Program.antt and Code.antt.
POLICY = b"((exponential(100) || spaced(5000)) && recurs(8)).whileInput(>= 500)"
VERSION = 0x7a73746174650001
CODE = [14, 5, 500, 11, 8, 4, 12, 3, 2, 10, 100, 2, 5, 5000, 4, 8]


def test_histories_have_all_faults_of_texts_and_many_steps():
    assert {it.fault.partition(",")[0] for it in histories() if it.fault} == set("3 4 11 12 13 14 15 16".split())
    assert sum(len(it.steps) for it in histories() if it.is_flat) > 20_000
    assert sum(bool(it.steps) and not it.is_flat for it in histories()) > 100


# No step has no result, a step visits a part twice if that is reset, and a fault leaves the steps before it.
@pytest.mark.parametrize("command, text, numbers, wanted", rows("client_lines.jsonl"))
def test_a_request_has_its_line(client, command, text, numbers, wanted):
    assert client("C").says([request(command, text, *numbers)]) == [wanted]


def test_four_threads_with_small_stacks_may_call_at_once(client):
    judge(client("C"), histories()[::2], "program", "threads")


@pytest.mark.parametrize("command", ["program", "bounds"])
def test_each_allocation_may_fail(client, command):
    asked = [it for it in histories() if it.is_flat and len(it.pairs) < 6][:REFUSED]
    requests = [request("bounds", text, 5) for text in BOUNDS] if command == "bounds" else [it.request(command)
                                                                                            for it in asked]
    found = [int(line) for line in client("C").says(requests, "refuse")]
    assert len(found) == len(requests)
    assert sum(found) > 2 * len(found) and min(found) > 0


def test_a_failed_allocation_is_a_fault_of_a_faulty_text_too(client):
    asked = [it for it in histories() if it.weight == 0][:REFUSED]
    assert len(client("C").says([it.request("program") for it in asked], "refuse")) == len(asked) > 100


def test_valgrind_finds_no_error_and_no_lost_memory(client):
    need("valgrind")
    judge(client("C"), histories()[:UNDER_VALGRIND], "program", before=VALGRIND)
    assert len(client("C").says([request("bounds", text, 1000) for text in BOUNDS], before=VALGRIND)) == len(BOUNDS)


@pytest.mark.parametrize("name, count, before", [("C", 10, VALGRIND), ("C watched", 100, [])])
def test_a_forged_program_is_stepped_safely(client, name, count, before):
    need(*before[:1])
    texts = [it.text.decode() for it in histories() if it.is_flat and it.weight > 2][:FORGED]
    stepped = [int(line) for line in client(name).says([request("forged", it, count) for it in texts], before=before)]
    assert len(stepped) == FORGED and sum(stepped) > FORGED * count


def test_bounds_of_policies_are_those_that_were_worked_out_by_hand(client):
    asked = [("recurs(3)", 3), ("forever", 0), ("recurs(1)", 9, 7, 7), ("recurs(1)", 9, 0, 5), ("?", 9, 6, 5)]
    asked = [request("bounds", *it)
             for it in asked + [(text, 1000, *more) for more in [(), (1, 5000)] for text in BOUNDS]]
    wanted = ["0 3 4" + " 0" * 8, "0 0 1" + " 0" * 8, "0 2 2 1 2 0 1 0 1 15 0", *["10" + " 0" * 10] * 2]
    wanted += [f"0 {it[place]} 0" for place in [0, 1] for it in BOUNDS.values()]
    assert client("C").says(asked, "threads") == client("C watched").says(asked) == wanted


def test_a_text_that_has_no_bounds_is_refused_as_a_check_refuses_it(client):
    faults = [it for it in histories() if it.weight == 0]
    wanted = [it.fault.split(",") for it in faults]
    assert len(faults) > 300
    assert client("C").says(f"bounds .{it.text.hex()} 1000" for it in faults) == [f"{it[0]}{' 0' * 9} {it[1]}"
                                                                                  for it in wanted]


def test_the_deepest_schedules_need_no_more_stack_than_the_header_says(client):
    header, source = ((TOP / name).read_text() for name in ["include/zsched.h", "tests/clients/client.c"])
    for name, words in [("STACK", " {} KiB of stack are free"), ("BOUNDS_STACK", "for zs_bounds {} KiB")]:
        assert words.format(re.search(rf"define {name} .(\d+) . 1024", source)[1]) in header
    asked = [History(text.encode(), [(1, 5), (5, 7), (9, 9)]) for text in DEEPEST]
    judge(client("C"), asked, "program", "threads")
    found = client("C").says([request("bounds", text, 9) for text in DEEPEST], "threads")
    assert [line.split()[0] for line in found] == ["0"] * len(DEEPEST)


# Runs zs_bounds of each line in a thread of the default size.
THREADS = """
#include <pthread.h>
#include <stdio.h>
#include <string.h>
#include "zsched.h"
static void *work(void *line) {
    zs_driver driver = ZS_DRIVER;
    zs_run_bounds bounds = ZS_RUN_BOUNDS;
    uint64_t at;
    printf("%d\\n", (int)zs_bounds(line, strcspn(line, "\\n"), &driver, 9, &bounds, &at));
    return 0;
}
int main(void) {
    static char line[100000];
    pthread_t it;
    while (fgets(line, sizeof line, stdin))
        if (pthread_create(&it, 0, work, line) != 0 || pthread_join(it, 0) != 0)
            return 1;
    return 0;
}
"""


def test_a_program_of_musl_has_the_stack_that_the_header_says(library, tmp_path):
    """The same program without that option shows that the default is too little."""
    need("musl-gcc")
    (tmp_path / "threads.c").write_text(THREADS)
    option, = re.findall(r"(-Wl,-z,stack-size=\d+)\.", (TOP / "include/zsched.h").read_text())
    words = ["musl-gcc", "-static", "-I", TOP / "include", "threads.c", library / "libzsched.a", "-o"]
    given = "".join(f"{text}\n" for text in DEEPEST).encode()
    ran([*words, "with", option], tmp_path)
    ran([*words, "without"], tmp_path)
    assert run(str(tmp_path / "with"), given) == (0, b"0\n" * len(DEEPEST), b"")
    assert run(str(tmp_path / "without"), given)[0] == -signal.SIGSEGV


def test_go_has_the_stack_where_threads_have_little(client):
    asked, small = [request("bounds", text, 9) for text in DEEPEST], ["sh", "-c", 'ulimit -s 128; exec "$@"', "sh"]
    assert client("Go").says(asked, before=small) == client("Go").says(asked)


@pytest.mark.parametrize("page", ["include/zsched.h", "docs/LIBRARY.md", *(
    f"bindings/{it}/README.md" for it in ["c", "go", "java", "node", "python", "rust"])])
def test_each_page_says_how_much_stack_bounds_need(page):
    assert re.search(r"192 KiB|\(192 for `zs_bounds`\)", (TOP / page).read_text())


def test_long_texts_many_steps_and_many_words_are_taken(client):
    many_words = tree(400).replace("forever", "fixed(7)").encode()
    asked = [History(b"recurs(" + b" " * 100_000 + b"3)", [(5, 7)]), History(many_words, [(1, 0), (9, 0)])]
    judge(client("C"), asked, "program")
    steps = " ".join(f"{number} 0" for number in range(5000))
    line, = client("C").says([request("program", "recurs(9000)", steps)])
    assert line.split() == [f"0,{number},{number}" for number in range(5000)]


def cut_texts(write, whole):
    """Has a text written into rooms of all sizes: it is cut at the room's end, and its final 0 is there if it fits."""
    for size in range(len(whole) + 3):
        room = ctypes.create_string_buffer(b"-" * (len(whole) + 3), len(whole) + 3)
        write(room, ctypes.c_size_t(size))
        assert room.raw == (whole + b"\0")[:size].ljust(len(whole) + 3, b"-")


def test_each_number_of_the_header_has_a_text_that_is_cut_where_its_room_ends(library):
    calls = ctypes.CDLL(str(library / "libzsched.so"))
    calls.zs_strerror.argtypes = [ctypes.c_uint32, ctypes.c_uint64, ctypes.c_char_p, ctypes.c_size_t]
    calls.zs_strerror.restype = ctypes.c_size_t

    def text(number, at=0):
        room = ctypes.create_string_buffer(256)
        assert calls.zs_strerror(number, at, room, 256) == len(room.value)
        return room.value.decode()
    header = (TOP / "include" / "zsched.h").read_text()
    numbers = re.findall(r"^    ZS_\w+ = (\d+)", header, re.M)
    most = int(re.search(r"define ZS_TEXT_MOST (\d+)", header)[1])
    texts = [text(int(number), 23) for number in numbers if int(number) > 1]
    assert len(set(texts)) == len(numbers) - 2 and all(0 < len(it) for it in texts)
    assert all(len(text(int(number), 2 ** 64 - 1)) < most for number in numbers)
    assert [it for it in texts if "23" in it] == ["not UTF-8 at byte 23", "no term at byte 23",
                                                  "number too large at byte 23"]
    assert [text(number) for number in [0, 1, len(numbers), 2 ** 32 - 1]] == [""] * 4
    assert text(11, 2 ** 64 - 1) == "no term at byte 18446744073709551615"
    whole = b"number too large at byte 1234"
    cut_texts(lambda room, size: calls.zs_strerror(13, 1234, room, size), whole)
    assert calls.zs_strerror(13, 1234, None, 0) == len(whole)


def program_of(code, state=6):
    """The words of a program with this code, by their definition."""
    body, check = [len(code), state, *code], 0xcbf29ce484222325
    for word in body:
        check = (check * 0x9e3779b97f4a7c15 + word) % 2 ** 64
    return [0x7a73636865640003, check, *body]


def array(words):
    """Words and their number, as arguments of a call."""
    return (ctypes.c_uint64 * len(words))(*words), ctypes.c_size_t(len(words))


def test_a_program_is_the_words_that_its_definition_says(library):
    calls, at, wanted = ctypes.CDLL(str(library / "libzsched.so")), ctypes.c_uint64(), program_of(CODE)
    words, state = array([7] * (len(wanted) + 1)), array([7] * 12)
    assert calls.zs_compile(POLICY, ctypes.c_size_t(len(POLICY)), *words, ctypes.byref(at)) == 0
    assert (at.value, list(words[0])) == (0, [*wanted, 7])
    assert calls.zs_program_begin(*words, *state) == 0
    assert list(state[0]) == [VERSION, wanted[1], 0, 0, 0, 100, 100, 0, 0, 0, 0, 7]


def test_a_zeroed_program_and_one_with_a_byte_changed_are_rejected(library):
    calls, right, state = ctypes.CDLL(str(library / "libzsched.so")), program_of(CODE), array([7] * 11)
    wrong = [[], [0] * 20, [right[0]] + [0] * 19, [right[0], 0, 0, 0], [right[0], 9, 0, 9], program_of([]),
             program_of([], 0)]
    wrong += [[word ^ (0xa5 << bits if at == place else 0) for at, word in enumerate(right)]
              for place in range(len(right)) for bits in range(0, 64, 8)]
    assert {calls.zs_program_begin(*array(words), *state) for words in wrong} == {8} and list(state[0]) == [7] * 11
    assert calls.zs_program_begin(*array(right), *state) == 0


def test_a_step_of_a_forged_program_visits_at_most_1000_nodes(library):
    calls, state, told = ctypes.CDLL(str(library / "libzsched.so")), array([7] * 7), [array([0])[0], array([0])[0]]
    # Each of 30 resets, whose test passes always, steps its part twice.
    program = array(program_of([17, 0, 5, 0] * 30 + [1], 2))
    assert calls.zs_program_begin(*program, *state) == 0
    moment = ctypes.c_uint64(1)
    assert calls.zs_program_step(*program, *state, moment, moment, *told) == 1
    assert [it[0] for it in told] == [0, 1000]


def begun(library, text):
    """A text's program and its state, as arguments of calls, and the calls."""
    calls, program, state, at = ctypes.CDLL(str(library / "libzsched.so")), array([0] * 64), array([0] * 64), array([0])
    assert calls.zs_compile(text, ctypes.c_size_t(len(text)), *program, at[0]) == 0
    assert calls.zs_program_begin(*program, *state) == 0
    return calls, program, state


# A word of a state, what is added to it, and the number of the error: another version, and another program.
@pytest.mark.parametrize("place, more, wanted", [(0, 1, 18), (0, -1, 18), (0, 2 ** 63, 18), (1, 1, 9), (1, -1, 9)])
def test_a_state_of_another_version_or_program_is_rejected_and_nothing_changes(library, place, more, wanted):
    calls, program, state = begun(library, b"(spaced(30) && elapsed)")
    moment, numbers = ctypes.c_uint64(7), [array([5])[0], array([5])[0]]
    assert calls.zs_program_step(*program, *state, moment, moment, *numbers) == 0
    right = state[0][place]
    state[0][place] = right + more & 2 ** 64 - 1
    before, room = list(state[0]), ctypes.create_string_buffer(b"----")
    assert calls.zs_program_step(*program, *state, moment, moment, *numbers) == wanted
    assert calls.zs_plan(*program, *state, ctypes.byref(Turn(0, 9_000_000)), numbers[0]) == wanted
    assert calls.zs_output(*program, *state, room, ctypes.c_size_t(4), numbers[1]) == wanted
    assert (list(state[0]), room.value, [it[0] for it in numbers]) == (before, b"----", [0, 0])
    state[0][place] = right
    assert calls.zs_output(*program, *state, room, ctypes.c_size_t(4), numbers[1]) == 0 and numbers[1][0] == 5


def test_an_output_is_cut_where_its_room_ends_and_there_is_none_before_a_step(library):
    calls, program, state = begun(library, b"(spaced(30) && elapsed)")
    room, size = ctypes.create_string_buffer(b"----"), array([7])[0]
    assert calls.zs_output(*program, *state, room, ctypes.c_size_t(4), size) == 2
    assert (room.value, size[0]) == (b"----", 0)
    for step, whole in enumerate([b"(0,0)", b"(1,1000)"]):
        moment, words = ctypes.c_uint64(7 + 1000 * step), [array([0])[0], array([0])[0]]
        assert calls.zs_program_step(*program, *state, moment, moment, *words) == 0
        before = list(state[0])
        cut_texts(lambda room, size_of: calls.zs_output(*program, *state, room, size_of, size), whole)
        assert size[0] == len(whole) and list(state[0]) == before


class Turn(ctypes.Structure):
    """One failed attempt, as struct zs_turn."""
    _fields_ = [*[(name, ctypes.c_uint64) for name in ["size", "began", "ended", "input", "least", "longest"]],
                *[(name, ctypes.c_uint32) for name in ["percent", "draw"]]]

    def __init__(self, *numbers, **named):
        super().__init__(ctypes.sizeof(Turn), *numbers, **named)


def planner(library, text):
    """A call that plans the next attempt of a new loop after a turn: its number and its begin."""
    calls, program, state = begun(library, text)
    at = array([0])[0]
    return lambda turn: (calls.zs_plan(*program, *state, ctypes.byref(turn), at), at[0])


# Begins of spaced(30) after attempts of 5.9 ms and others, worked out by hand from the header.
@pytest.mark.parametrize("turn, wanted", [
    ({}, 35_000_000), ({"percent": 50, "draw": 2 ** 31}, 28_400_000),
    ({"percent": 100, "draw": 2 ** 32 - 1}, 5_900_001),
    ({"percent": 2 ** 32 - 1, "draw": 2 ** 32 - 1}, 5_900_001), ({"least": 100, "longest": 1000}, 105_900_000),
    ({"least": 2 ** 64 - 1, "longest": 60_000}, 60_005_900_000), ({"least": 20, "longest": 2 ** 64 - 1}, 35_000_000),
    ({"began": 40_000_000}, 70_000_000), ({"ended": 2 ** 64 - 1}, None),
    ({"least": 2 ** 64 - 1, "longest": 2 ** 64 - 1}, None)])
def test_a_turn_plans_what_the_header_says(library, turn, wanted):
    found = planner(library, b"spaced(30)")(Turn(**{"ended": 5_900_000} | turn))
    assert found == ((1, 0) if wanted is None else (0, wanted))


DRIVER = {"size": 64, "least": 1, "has_most": 0, "most": 0, "least_percent": 100, "most_percent": 100, "asked": 0,
          "late": 0}


def bounds_of(library, text, size=80, **driver):
    """The number that zs_bounds returns for 1000 steps, and the numbers of struct zs_run_bounds after its size."""
    calls, at, bounds = ctypes.CDLL(str(library / "libzsched.so")), ctypes.c_uint64(), array([size, *[7] * 9])[0]
    number = calls.zs_bounds(text, ctypes.c_size_t(len(text)), array((DRIVER | driver).values())[0],
                             ctypes.c_uint64(1000), bounds, ctypes.byref(at))
    assert bounds[0] == size and at.value == 0
    return number, list(bounds[1:])


# Bounds by hand: a step each 11 ms, each 6 and each 1, until 500 or 200 ms have passed.
@pytest.mark.parametrize("text, percent, most", [
    *[(b"(spaced(10) && elapsed).whileOutput(_2 < 500)", *it) for it in [(0, 47), (50, 85), (100, 501)]],
    (b"elapsed.whileOutput(< 200)", 0, 201), (b"(fixed(7) && recurs(20))", 30, 21)])
def test_a_loop_makes_no_more_attempts_than_its_bounds_say_whatever_its_clock_does(library, text, percent, most):
    driver = {"least_percent": 100 - percent, "asked": 60_000, "late": 2 ** 64 - 1}
    assert bounds_of(library, text, **driver)[1][2:4] == [1, most]
    random.seed(0)
    counts = []
    for run in range(200):
        plan, farthest, is_late = planner(library, text), 10 ** random.randrange(5, 12), run % 2
        number = attempts = 0
        while number == 0 and attempts <= most:
            turn, attempts = Turn(random.randrange(farthest), random.randrange(farthest), longest=60_000), attempts + 1
            turn.percent, turn.draw, turn.least = percent, 2 ** 32 - 1, 0
            if is_late:
                turn.draw, turn.least = random.getrandbits(32), random.choice([0, 1, 30, 2 ** 64 - 1])
            number, begin = plan(turn)
            assert begin == 0 if number else begin >= max(turn.began, turn.ended)
        assert number == 1 and attempts <= most
        counts.append(attempts)
    assert max(counts) == most


@pytest.mark.parametrize("size", [0, 1, 55, 57, 63, 65, 79, 81, 2 ** 64 - 1])
def test_a_struct_of_another_size_is_rejected_and_changes_nothing(library, size):
    assert bounds_of(library, b"recurs(2)")[0] == 0
    assert bounds_of(library, b"recurs(2)", size) == bounds_of(library, b"recurs(2)", **{"size": size}) == (17, [7] * 9)
    turn, (calls, program, state) = Turn(), begun(library, b"recurs(2)")
    turn.size, before, begin = size, list(state[0]), array([7])[0]
    assert (calls.zs_plan(*program, *state, ctypes.byref(turn), begin), begin[0]) == (17, 0)
    assert list(state[0]) == before


@pytest.mark.parametrize("driver", [{"least": 0}, {"has_most": 1}, {"has_most": 2}, {"least_percent": 101}])
def test_a_driver_that_cannot_be_has_no_bounds(library, driver):
    assert bounds_of(library, b"recurs(2)", **driver) == (10, [7] * 9)


# The most ms of an attempt, the nanoseconds of those of the first run, and when the last of them ends, by hand:
# 6 x 30 + 5 x 10, 4 x 30 + 10 + 20 + 40 ms. Of the third the first step is at 5 ms, and the 11th at 54, since that
# attempt ends at 54.999999 ms: 49 ms are less than 50, so there is a 12th.
@pytest.mark.parametrize("text, most, first, latest", [
    (b"(spaced(10) && recurs(5))", 30, [30_000_000] * 6, 230_000_000),
    (b"(exponential(10) && recurs(3))", 30, [30_000_000] * 4, 190_000_000),
    (b"(identity && elapsed).whileOutput(_2 < 50)", 5, [5_000_000, 4_999_999, *[5_000_000] * 10], 59_999_999)])
def test_each_attempt_in_time_ends_before_the_longest_run(library, text, most, first, latest):
    random.seed(0)
    number, bounds = bounds_of(library, text, has_most=1, most=most)
    assert (number, bounds[-2]) == (0, 1) and bounds[-1] == latest // 1_000_000 + 1
    for run in range(200):
        plan, number, begin, ended, takes = planner(library, text), 0, 0, 0, list(first)
        while number == 0:
            ended = begin + (random.choice([0, random.randrange(most * 1_000_000 + 1)]) if run else takes.pop(0))
            number, begin = plan(Turn(begin, ended))
        assert ended < bounds[-1] * 1_000_000
        assert run or (ended, takes) == (latest, [])


def test_the_header_is_one_of_cpp_too():
    need("c++")
    words = ["c++", "-x", "c++", "-std=c++11", *STRICT, "-fsyntax-only", "-I", TOP / "include", "-"]
    subprocess.run(words, input=b'#include "zsched.h"\n', check=True)
