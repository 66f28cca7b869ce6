"""The calls of zsched.h, over ctypes."""
import ctypes
import functools
import os
import pathlib

SONAME = "libzsched.so.2"
MISSING = ("{fault}: the library is missing, which there is for Linux on x86-64 and arm64. Install libzsched2, or "
           "build it by build/make-library in a tree of zsched, and name the built libzsched.so in ZSCHED_LIBRARY")


class Sized(ctypes.Structure):
    """A struct whose first field is its size in bytes."""

    def __init__(self, *numbers: int) -> None:
        super().__init__(ctypes.sizeof(self), *numbers)


class Driver(Sized):
    """What a driver of a schedule may do: zs_driver."""
    _fields_ = [(name, ctypes.c_uint64) for name in ["size", "least_ms", "has_most", "most_ms", "least_percent",
                                                     "most_percent", "asked_ms", "late_ms"]]


class RunBounds(Sized):
    """What zs_bounds returns: zs_run_bounds."""
    _fields_ = [(name, ctypes.c_uint64) for name in ["size", "seen", "least", "has_most", "most", "longest_ms",
                                                     "has_total", "total_ms", "has_longest_run", "longest_run_ms"]]


class Turn(Sized):
    """One failed attempt of a loop: zs_turn."""
    _fields_ = [*((name, ctypes.c_uint64) for name in ["size", "began_ns", "ended_ns", "input", "least_ms",
                                                       "longest_ms"]),
                ("percent", ctypes.c_uint32), ("draw", ctypes.c_uint32)]


def _place() -> str:
    """Returns the library's path, or its name if the system must find it."""
    here = pathlib.Path(__file__).resolve().parent
    places = [here / "libzsched.so"]
    # Only the source tree has it elsewhere. What is above an installed package may be anyone's.
    if here.parts[-3:] == ("bindings", "python", "zsched"):
        places.append(here.parents[2] / "crates" / "zsched_c" / "out" / "libzsched.so")
    return os.environ.get("ZSCHED_LIBRARY", "") or next((str(it) for it in places if it.exists()), SONAME)


@functools.cache
def library() -> ctypes.CDLL:
    """Returns the library, with its calls' types. Raises OSError if it is missing, or is older."""
    named = _place()
    try:
        found = ctypes.CDLL(named)
    except OSError as fault:
        raise OSError(MISSING.format(fault=fault)) from None
    text, words, number = [ctypes.c_char_p, ctypes.c_size_t], [ctypes.c_void_p, ctypes.c_size_t], ctypes.c_uint64
    place, size = ctypes.POINTER(number), ctypes.POINTER(ctypes.c_size_t)
    types = {
        "zs_bounds": [*text, ctypes.POINTER(Driver), number, ctypes.POINTER(RunBounds), place],
        "zs_program_size": [*text, size, size, place],
        "zs_compile": [*text, *words, place],
        "zs_program_begin": [*words, *words],
        "zs_plan": [*words, *words, ctypes.POINTER(Turn), place],
        "zs_program_step": [*words, *words, number, number, place, place],
        "zs_output": [*words, *words, *text, size],
        "zs_strerror": [ctypes.c_uint32, number, *text],
        "zs_version": [],
    }
    for name, arguments in types.items():
        if not hasattr(found, name):
            raise OSError(f"{named}: it has no {name}, so it is of an older version")
        getattr(found, name).argtypes = arguments
        getattr(found, name).restype = ctypes.c_size_t if name == "zs_strerror" else ctypes.c_uint32
    return found
