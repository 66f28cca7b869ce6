"""What the tests of the binding for Python share: its module, and a clock that its sleeps advance."""
import datetime
import os
import sys

import pytest

from languages import BINDINGS

LARGEST = 2 ** 64 - 1
POLICY = "(exponential(10) && recurs(3))"


@pytest.fixture(scope="module", autouse=True)
def zsched(library):
    """The module, over the library."""
    os.environ["ZSCHED_LIBRARY"] = str(library / "libzsched.so")
    sys.path.insert(0, str(BINDINGS / "python"))
    import zsched
    return zsched


def ms(number):
    return datetime.timedelta(milliseconds=number)


class Clock:
    """A clock that only its sleeps advance, and the sleeps so far."""

    def __init__(self):
        self.seconds, self.slept = 100.0, []

    def __call__(self):
        return self.seconds

    def sleep(self, seconds):
        self.slept.append(round(seconds, 6))
        self.seconds += seconds

    async def sleep_async(self, seconds):
        self.sleep(seconds)

    def failing(self, times, error=OSError):
        """An effect that fails some times, each time after 5 ms."""
        left = times

        def effect(value="done"):
            nonlocal left
            self.seconds += 0.005
            left -= 1
            if left >= 0:
                raise error(f"{left} left")
            return value
        return effect


@pytest.fixture
def clock():
    return Clock()


@pytest.fixture
def retrying(zsched, clock):
    return lambda text, **more: zsched.retrying(text, clock=clock, **{"sleep": clock.sleep, **more})
