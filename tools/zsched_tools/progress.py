"""A line on a terminal that shows what a long command does, and its progress."""
import os
import sys
import threading
import time

from zsched_tools import command

FIRST, EVERY = 2.0, 1.0


def is_shown():
    """Whether standard error is a terminal, without --quiet."""
    return sys.stderr is not None and sys.stderr.isatty() and not command.is_quiet()


def write(line):
    """Replaces the line. An empty line removes it."""
    sys.stderr.write(f"{command.own(f'{chr(13)}{command.ESC}K')}{line}")
    sys.stderr.flush()


class Progress:
    """Counts finished items or bytes. The line is shown after two seconds, and then every second."""

    def __init__(self, tool, text_of):
        self.tool, self.text_of = tool, text_of
        self.done = 0
        self.next = time.monotonic() + FIRST if is_shown() else float("inf")
        self.is_shown = False

    def add(self, number):
        self.done += number
        if self.next != float("inf") and time.monotonic() >= self.next:
            self.next = time.monotonic() + EVERY
            self.is_shown = True
            write(f"{self.tool}: {self.text_of(self.done)}")

    def close(self):
        if self.is_shown:
            write("")
            self.is_shown = False


def waiting(name):
    """Counts the seconds for which a program runs, unless a Now is open."""
    found = Progress(os.path.basename(sys.argv[0]), lambda done: f"{name} runs, {done:.0f} s")
    found.next = found.next if not Now.opened else float("inf")
    return found


class Now:
    """Shows what a command does now, with the seconds since it began, as long as the context is open."""

    opened = 0

    def __init__(self, every=EVERY):
        self.every, self.words = every, ""
        self.begun = time.monotonic()
        self.stopped = threading.Event()
        self.thread = threading.Thread(target=self._show, daemon=True) if is_shown() else None

    def say(self, words):
        """Sets what the command does from now on."""
        self.words = words

    def __enter__(self):
        Now.opened += 1
        if self.thread:
            self.thread.start()
        return self

    def __exit__(self, *_):
        Now.opened -= 1
        self.stopped.set()
        if self.thread:
            self.thread.join()
            write("")

    def _show(self):
        while not self.stopped.wait(self.every):
            write(f"{time.monotonic() - self.begun:.0f} s: {self.words}")
