"""What a schedule decides after the attempts of requests: by the library, or by the program.

The library, libzsched, steps the state of each request. Without it, and for a schedule with collectAll, whose state has
no fixed size, jobs of the program show the decisions: the job of an attempt k has the schedule (S || recurs(k - 1)), so
its attempts follow each other at once and end when those of the request did, and its step k returns what S decides
there. A run has thousands of such jobs, and equal decisions are made once."""
import ctypes
import itertools
import os
import re

from zsched_tools.command import Refused
from zsched_tools.program import CRATES, INSTALLED, LAST_MOMENT, MOST_ENTRIES, NoProgram, cut_plans, job_text, run_plan
from zsched_tools.reports import blocks_of
from zsched_tools.schedule_rules import MAX_DEPTH, MAX_WEIGHT, cause_of

# How many requests are run together.
TOGETHER = 10_000
TIMED, INPUTS = {"elapsed", "fixed", "windowed"}, {"identity", "whileInput"}
SONAME = "libzsched.so.2"
# A library that has no zs_plan is an older one, whose calls take other words.
_CALLS = ["zs_program_size", "zs_compile", "zs_program_begin", "zs_program_step", "zs_plan"]
_DONE = 1
_STEP = re.compile(rb"\.\.([0-9]+) \S+ [0-9]+\nstep ([0-9]+) out \S+ (?:next ([0-9]+)|done)\n")


def find_library():
    """The library that ZSCHED_LIBRARY names (empty: none), else the one of this tree or the installed one, or None."""
    named, installed = os.environ.get("ZSCHED_LIBRARY"), [INSTALLED.parent / "lib" / SONAME] if INSTALLED else []
    for path in [CRATES / "zsched_c" / "out" / "libzsched.so", *installed, SONAME] if named is None else [named]:
        try:
            library = ctypes.CDLL(str(path)) if path else None
            if library is not None and all(hasattr(library, name) for name in _CALLS):
                return library
        except OSError as fault:
            if named:
                raise NoProgram(f"ZSCHED_LIBRARY: {fault}") from None
    return None


class Program:
    """The program of a schedule, by the library, and steps of its states, which are arrays of words."""

    def __init__(self, library, schedule):
        text, sizes, at = schedule.encode(), [ctypes.c_size_t(), ctypes.c_size_t()], ctypes.byref(ctypes.c_uint64())
        length = ctypes.c_size_t(len(text))
        self.number = library.zs_program_size(text, length, *map(ctypes.byref, sizes), at)
        words, self.first = ((ctypes.c_uint64 * size.value)() for size in sizes)
        if not self.number:
            program = words, ctypes.c_size_t(len(words))
            library.zs_compile(text, length, *program, at)
            library.zs_program_begin(*program, self.first, ctypes.c_size_t(len(self.first)))
            self.next, self.visits, self.words = ctypes.c_uint64(), ctypes.c_uint64(), (*program, len(self.first))
            self.step = library.zs_program_step
            self.step.argtypes = [ctypes.c_void_p, ctypes.c_size_t] * 2 + [ctypes.c_uint64] * 2 + [
                ctypes.POINTER(ctypes.c_uint64)] * 2

    def begin(self):
        """A state before its first step."""
        return type(self.first).from_buffer_copy(self.first)

    def wait(self, state, moment, code):
        """Makes a step. Returns the wait after it, or None if the schedule is done."""
        program, length, size = self.words
        number = self.step(program, length, state, size, moment, code, self.next, self.visits)
        if number > _DONE:
            raise ChildProcessError(f"libzsched: a step failed with the number {number}")
        return None if number == _DONE else self.next.value - moment


class Decisions:
    """The decisions of a schedule: by its program, or by jobs if it has none."""

    def __init__(self, schedule, mode, zsched, library):
        self.schedule, self.mode, self.zsched, self.known = schedule, mode, zsched, {}
        words = set(re.findall("[A-Za-z]+", schedule))
        self.is_timed, self.has_inputs = bool(words & TIMED), bool(words & INPUTS)
        self.is_wrapped = cause_of(f"({schedule} || recurs(1))", "too big") is None
        program = library and Program(library, schedule)
        self.program = program if program and not program.number else None

    def run(self, askers):
        """Runs generators, each of a request: they yield the moment and the code of a step, and get the wait after it,
        or None if the schedule is done. Moments rise, from 1 on."""
        open_ones = [(asker, self.program.begin() if self.program else [], next(asker, None)) for asker in askers]
        while open_ones := [it for it in open_ones if it[2] is not None]:
            if self.program:
                waits = [self.program.wait(state, *step) for _, state, step in open_ones]
            else:
                waits = self._by_jobs([[*state, step] for _, state, step in open_ones])
            open_ones = [(asker, state if self.program else [*state, step], _send(asker, wait))
                         for (asker, state, step), wait in zip(open_ones, waits)]

    def _by_jobs(self, histories):
        """The waits after histories of moments and codes."""
        keys = [tuple((moment if self.is_timed else 0, code if self.has_inputs else 0) for moment, code in history)
                for history in histories]
        new = [key for key in dict.fromkeys(keys) if key not in self.known]
        jobs = [self._job(name, key) for name, key in enumerate(new)]
        blocks = (block for plan in (cut_plans(LAST_MOMENT, jobs)[0] if jobs else ())
                  for block in blocks_of(run_plan(self.zsched, plan)))
        for key, block in zip(new, blocks):
            step = next((it for it in _STEP.findall(block) if int(it[1]) == len(key)), None)
            if step is None:
                raise self._refused()
            self.known[key] = int(step[2]) - int(step[0]) if step[2] else None
        waits = [self.known[key] for key in keys]
        self.known = {} if self.is_timed else self.known
        return waits

    def _job(self, name, history):
        """The job whose step after the last attempt of a history is that of the schedule."""
        if len(history) >= MOST_ENTRIES:
            raise Refused(f"a request has more than {MOST_ENTRIES - 1} attempts: that needs the library libzsched, "
                          "which ZSCHED_LIBRARY names, and a schedule without collectAll")
        if self.is_timed and not self.is_wrapped:
            raise self._refused()
        text = f"({self.schedule} || recurs({len(history) - 1}))" if self.is_wrapped else self.schedule
        moments = [moment for moment, _ in history] if self.is_timed else range(1, len(history) + 1)
        word, other = ("err", "ok") if self.mode == "retry" else ("ok", "err")
        entries = [f'{{"ms":{after - before},"{word}":{code}}}'
                   for (before, after), (_, code) in zip(itertools.pairwise([0, *moments]), history)]
        return job_text(name, text, ",".join([*entries, f'{{"ms":1,"{other}":0}}']), self.mode)

    def _refused(self):
        return Refused(f"{MAX_WEIGHT - 2} parts and {MAX_DEPTH - 1} levels are the most of a schedule with "
                       f"{', '.join(sorted(TIMED))}, if the library libzsched isn't there or the schedule has "
                       "collectAll")


def _send(asker, wait):
    try:
        return asker.send(wait)
    except StopIteration:
        return None
