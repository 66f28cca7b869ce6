"""Prints the nanoseconds of a call that doesn't fail by tenacity and by backoff, if they are there."""
import importlib
import sys
import time

COUNT = int(sys.argv[1])
DECORATORS = {
    "tenacity": lambda it: it.retry(stop=it.stop_after_attempt(9), wait=it.wait_exponential(0.1, max=5)),
    "backoff": lambda it: it.on_exception(it.expo, OSError, max_tries=9)}


def best(tried):
    found = []
    for _ in range(15):
        begun = time.perf_counter_ns()
        for number in range(COUNT):
            tried(number)
        found.append((time.perf_counter_ns() - begun) // COUNT)
    return min(found)


for name, decorator in DECORATORS.items():
    try:
        module = importlib.import_module(name)
    except ImportError:
        continue
    print(name, best(decorator(module)(lambda value: value)))
