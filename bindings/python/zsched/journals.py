"""The state of one job in a file, so that it goes on after a restart. docs/LIBRARY.md has the file's format."""
import contextlib
import os
import re
import time
import typing

from .schedules import Schedule

VERSION, MOST_LETTERS = 1, 200
FORMS = {"schedule": ".*", "state": "[0-9]+(?: [0-9]+)*", "attempts": "[0-9]+", "ended": "[0-9]+",
         "begin": "[0-9]+|none", "at": "[0-9]+", "error": ".*"}
FORM = re.compile("".join(f"{name} (?P<{name}>{form})\n" for name, form in FORMS.items()) + "end\n", re.ASCII)


class JournalFault(Exception):
    """A journal can't be used, and is unchanged. `why` is one of "empty", "cut", "no journal", "another version",
    "another policy" and "in use"."""

    def __init__(self, file: str, why: str) -> None:
        super().__init__(f"zsched: journal {file}: {why}")
        self.file, self.why = file, why

    def __reduce__(self) -> tuple[typing.Any, ...]:
        return type(self), (self.file, self.why)


class GaveUp(Exception):
    """The job of a journal gave up, in an earlier call: after `attempts` attempts, the last with `error`, a text."""

    def __init__(self, file: str, attempts: int, error: str) -> None:
        super().__init__(f"zsched: journal {file}: gave up after {attempts} attempts: {error}")
        self.file, self.attempts, self.error = file, attempts, error

    def __reduce__(self) -> tuple[typing.Any, ...]:
        return type(self), (self.file, self.attempts, self.error)


class Journal:
    """The file of one job. The calls of a loop with it go on where the last one ended, after a restart too.

    Before each attempt the file has the state as if this attempt had failed at once, with the code `killed`. So an
    attempt in which the process is killed counts. A job that succeeds removes its file. One that gave up raises the
    last error, and each later call raises GaveUp, until the file is removed. A call raises JournalFault if the file
    isn't from this loop or another call has it, and OSError if it can't be written, before the attempt begins."""

    def __init__(self, file: str | os.PathLike[str], *, killed: int | None = None) -> None:
        self.file, self.killed = os.fspath(file), killed

    def refuse(self, text: str) -> None:
        """Raises ValueError if a policy reads codes and none is there for a killed attempt."""
        if self.killed is None and re.search("whileInput|identity", text):
            raise ValueError("zsched: the policy reads codes: say which one a killed attempt has, by killed=")


class Entry(typing.NamedTuple):
    """What a journal has of its job: the state after its last attempt, their number, when the last one ended and the
    next one begins, in nanoseconds from the begin of the first, and the nanoseconds that have passed since then."""
    schedule: Schedule
    attempts: int
    ended: int
    begin: int
    passed: int


class Opened:
    """A journal during a call, which keeps others out."""

    def __init__(self, journal: Journal) -> None:
        self.file, self.killed, self._lock = journal.file, journal.killed or 0, _locked(journal.file)

    def close(self) -> None:
        """Lets others in."""
        if not os.path.exists(self.file):
            with contextlib.suppress(FileNotFoundError):
                os.unlink(f"{self.file}.lock")
        self._lock.close()

    def read(self, schedule: Schedule) -> Entry | None:
        """Returns what the file has of a job by this schedule, or None if there is no file."""
        try:
            with open(self.file, "rb") as file:
                text = file.read().decode("latin-1")
        except FileNotFoundError:
            return None
        found = self._parsed(text)
        if found["schedule"] != schedule.text:
            raise JournalFault(self.file, "another policy")
        try:
            stored = schedule._with_state([int(it) for it in found["state"].split()])
        except (ValueError, OverflowError):
            raise JournalFault(self.file, "another version") from None
        attempts, ended, at = (int(found[name]) for name in ["attempts", "ended", "at"])
        if found["begin"] == "none":
            raise GaveUp(self.file, attempts, found["error"])
        return Entry(stored, attempts, ended, int(found["begin"]), ended + time.time_ns() - at)

    def _parsed(self, text: str) -> dict[str, str]:
        """Returns the values of the lines of a file, by their names."""
        head = f"zsched journal {VERSION}\n"
        if not text:
            raise JournalFault(self.file, "empty")
        if not text.startswith(head) and re.match("zsched journal [0-9]+\n", text):
            raise JournalFault(self.file, "another version")
        if not text.startswith(head[:len(text)]):
            raise JournalFault(self.file, "no journal")
        if not text.endswith("\nend\n"):
            raise JournalFault(self.file, "cut")
        if not (found := FORM.fullmatch(text, len(head))):
            raise JournalFault(self.file, "no journal")
        return found.groupdict()

    def write(self, schedule: Schedule, attempts: int, ended: int, begin: int | None, error: str) -> None:
        """Replaces the file, so that a crash leaves the old one or the new one."""
        values = {"schedule": schedule.text, "state": " ".join(map(str, schedule.state)), "attempts": attempts,
                  "ended": ended, "begin": "none" if begin is None else begin, "at": time.time_ns(),
                  "error": re.sub("[^ -~]", "?", error)[:MOST_LETTERS]}
        new, lines = f"{self.file}.new", "".join(f"{name} {value}\n" for name, value in values.items())
        try:
            with open(new, "wb") as file:
                file.write(f"zsched journal {VERSION}\n{lines}end\n".encode("ascii"))
                file.flush()
                os.fsync(file.fileno())
            os.replace(new, self.file)
        except BaseException:
            with contextlib.suppress(OSError):
                os.unlink(new)
            raise
        self._sync()

    def remove(self) -> None:
        """Removes the file, after success."""
        os.unlink(self.file)
        self._sync()

    def _sync(self) -> None:
        """Stores the names of the folder."""
        folder = os.open(os.path.dirname(self.file) or ".", os.O_RDONLY | os.O_DIRECTORY)
        try:
            os.fsync(folder)
        finally:
            os.close(folder)


def _locked(file: str) -> typing.IO[bytes]:
    """Returns the locked file that keeps other calls out."""
    # Systems that the library isn't for have no such module.
    import fcntl
    name = f"{file}.lock"
    while True:
        # It isn't left open if a call is dropped.
        found = open(name, "ab")
        try:
            fcntl.flock(found, fcntl.LOCK_EX | fcntl.LOCK_NB)
            # The call that had it before may have removed it.
            if os.path.exists(name) and os.path.samestat(os.fstat(found.fileno()), os.stat(name)):
                return found
        except FileNotFoundError:
            pass
        except BlockingIOError:
            raise JournalFault(file, "in use") from None
