"""The binding for Python: the state of a job in a file, over restarts, kills, full disks and other processes."""
import asyncio
import contextlib
import fcntl
import os
import re
import resource
import signal
import sys
import time

import pytest

from python_binding import Clock, clock, ms, retrying, zsched

POLICY = "(spaced(1000) && recurs(3))"
UNIX = 1_764_456_000_000_000_000


@pytest.fixture
def file(tmp_path):
    return tmp_path / "job"


def in_child(call):
    """Calls something in another process. Returns the signal or status with which it ends."""
    child = os.fork()
    if child == 0:
        # Nothing of the test runner may run there.
        try:
            call()
        except BaseException as error:
            os._exit(3 if type(error).__name__ == "JournalFault" else 4 if isinstance(error, OSError) else 5)
        os._exit(0)
    status = os.waitpid(child, 0)[1]
    return os.WTERMSIG(status) if os.WIFSIGNALED(status) else os.WEXITSTATUS(status)


def kill():
    os.kill(os.getpid(), signal.SIGKILL)


def failing(begun=None):
    """A job that notes each attempt in a file, and fails."""
    if begun is not None:
        with open(begun, "a") as noted:
            noted.write("+")
    raise OSError("busy")


def count(path):
    return len(path.read_text()) if path.exists() else 0


def text_of(file, **changes):
    """The values in the lines of a file."""
    lines = [line.partition(" ") for line in file.read_text().splitlines()]
    return {name: value for name, _, value in lines}


def test_the_file_has_the_bytes_of_its_format(zsched, retrying, clock, file, monkeypatch):
    monkeypatch.setattr(time, "time_ns", lambda: UNIX + round(1e9 * (clock.seconds - 100)))
    stepped, seen, done, replace = zsched.Schedule(POLICY), [], [], os.replace

    def synced(number):
        path = os.readlink(f"/proc/self/fd/{number}")
        is_whole = os.path.isdir(path) or open(path).read().endswith("\nend\n")
        done.append(f"{os.path.basename(path)} is {'synced' if is_whole else 'cut'}")
    monkeypatch.setattr(os, "fsync", synced)
    monkeypatch.setattr(os, "replace", lambda *names: (done.append("renamed"), replace(*names)))

    @retrying(POLICY, journal=zsched.Journal(file))
    def fetch():
        done.append("attempt")
        seen.append(file.read_bytes().decode())
        clock.seconds += 0.005
        raise OSError(5, "it\u00e9\n" + 300 * "x")

    def form(attempts, ended, begin, at, error):
        state = " ".join(map(str, stepped.state))
        return (f"zsched journal 1\nschedule {POLICY}\nstate {state}\nattempts {attempts}\nended {ended}\n"
                f"begin {begin}\nat {UNIX + at}\nerror {error}\nend\n")
    with pytest.raises(OSError):
        fetch()
    for number in range(1, 5):
        begun, killed = 1_005_000_000 * (number - 1), stepped
        stepped = zsched.Schedule.load(killed.save())
        begin = stepped._planned(begun, begun, 0, 0, 0, 0)
        assert seen[number - 1] == form(number, begun, "none" if begin is None else begin, begun,
                                        f"killed in attempt {number}")
        stepped = zsched.Schedule.load(killed.save())
        stepped._planned(begun, begun + 5_000_000, 0, 0, 0, 0)
    error = "OSError: [Errno 5] it??" + 300 * "x"
    assert file.read_text() == form(4, 3_020_000_000, "none", 3_020_000_000, error[:200])
    # The new file reaches the disk before it has the old one's name, and the folder after, both before an attempt.
    written = ["job.new is synced", "renamed", f"{file.parent.name} is synced"]
    assert done == [*written, "attempt", *written] * 4


@pytest.mark.parametrize("how", ["killed", "restarted"])
def test_a_job_that_kills_its_process_ends_after_its_attempts(zsched, file, tmp_path, how):
    """Without a journal, and with one that is written after attempts, it is tried for ever."""
    begun = tmp_path / "begun"

    @zsched.retrying(POLICY, journal=zsched.Journal(file))
    def job():
        with contextlib.suppress(OSError):
            failing(begun)
        kill() if how == "killed" else sys.exit()

    def call():
        with zsched.testing():
            job()
    ends = [in_child(call) for _ in range(6)]
    assert ends == [signal.SIGKILL if how == "killed" else 5] * 4 + [5] * 2 and count(begun) == 4
    with pytest.raises(zsched.GaveUp, match="gave up after 4 attempts: killed in attempt 4") as caught:
        call()
    assert (caught.value.attempts, caught.value.error, count(begun)) == (4, "killed in attempt 4", 4)


def test_a_job_that_gave_up_raises_its_error_now_and_on_each_call(zsched, file):
    job = zsched.retrying(POLICY, journal=zsched.Journal(str(file)))(failing)
    for _ in range(3):
        with zsched.testing(), pytest.raises(Exception) as caught:
            job()
        assert str(caught.value) == ("busy" if job.statistics.calls == 1 else
                                     f"zsched: journal {file}: gave up after 4 attempts: OSError: busy")
    assert job.statistics.retries == 3
    file.unlink()
    with zsched.testing(), pytest.raises(OSError):
        job()


@pytest.mark.parametrize("end", ["budget", "deadline", "not retried"])
def test_a_call_that_ends_by_another_reason_gave_up_too(zsched, file, end):
    options = {"budget": {"budget": zsched.Budget(1)}, "deadline": {"deadline": 0.5}, "not retried": {"on": EOFError}}
    job = zsched.retrying(POLICY, journal=zsched.Journal(file), **options[end])(failing)
    for kind in [OSError, zsched.GaveUp]:
        with zsched.testing(), pytest.raises(kind):
            job()


@pytest.mark.parametrize("form", ["function", "coroutine", "loop", "async for"])
def test_a_call_goes_on_where_the_last_process_was_killed(zsched, file, tmp_path, form):
    begun, by = tmp_path / "begun", zsched.retrying(POLICY, journal=zsched.Journal(file))
    numbers, slept = [], []

    def job():
        if count(begun) == 2:
            numbers.append(text_of(file)["attempts"])
            return "done"
        with contextlib.suppress(OSError):
            failing(begun)
        if count(begun) == 2:
            kill()
        raise OSError

    async def later():
        return job()

    def loop():
        for attempt in by:
            with attempt:
                return job()

    async def loop_later():
        async for attempt in by:
            with attempt:
                return job()

    def call():
        with zsched.testing():
            return {"function": by(job), "coroutine": lambda: asyncio.run(by(later)()), "loop": loop,
                    "async for": lambda: asyncio.run(loop_later())}[form]()
    assert in_child(call) == signal.SIGKILL and text_of(file)["error"] == "killed in attempt 2"
    assert call() == "done" and numbers == ["3"] and slept == []
    # A job that succeeded leaves nothing.
    assert sorted(tmp_path.iterdir()) == [begun]


@pytest.mark.parametrize("passed, wait", [(0.4, 0.6), (0, 1), (-86400, 1), (5, 0), (1e9, 0)])
def test_a_restart_waits_for_the_rest_or_the_whole_if_the_clock_was_set_back(zsched, retrying, clock, file, monkeypatch,
                                                                             passed, wait):
    monkeypatch.setattr(time, "time_ns", lambda: UNIX + round(1e9 * clock.seconds))

    def stopping(seconds):
        raise KeyboardInterrupt
    by = retrying(POLICY, journal=zsched.Journal(file), sleep=stopping)
    with pytest.raises(KeyboardInterrupt):
        by(clock.failing(9))()
    assert text_of(file)["attempts"] == "1"
    clock.seconds += passed
    assert by.with_(sleep=clock.sleep)(clock.failing(0))() == "done" and clock.slept == [wait] * (wait > 0)


def killing(number):
    """Kills this process at a line of the journal's writes, counted from 1, or at a removal."""
    left = number

    def trace(frame, event, _):
        nonlocal left
        if frame.f_code.co_filename.endswith("journals.py") and frame.f_code.co_name in ["write", "remove", "_sync"]:
            left -= event == "line"
            if left == 0:
                kill()
            return trace
        return None
    sys.settrace(trace)


def test_a_kill_at_each_step_of_a_write_loses_no_count_and_no_file(zsched, file, tmp_path, monkeypatch):
    begun, killed = tmp_path / "begun", 0
    job = zsched.retrying("(spaced(1000) && recurs(1))", journal=zsched.Journal(file))(failing)
    # It takes most of the time.
    monkeypatch.setattr(os, "fsync", lambda _: None)

    def call():
        with zsched.testing():
            job(begun)
    for step in range(1, 200):
        for path in tmp_path.iterdir():
            path.unlink()
        ended = in_child(lambda: (killing(step), call()))
        if ended != signal.SIGKILL:
            break
        killed += 1
        done, stored = count(begun), int(text_of(file)["attempts"]) if file.exists() else 0
        # Each attempt was stored before it began.
        assert done <= stored <= done + 1
        if stored < 2 or text_of(file)["begin"] != "none":
            with pytest.raises(OSError):
                call()
        with pytest.raises(zsched.GaveUp, match="gave up after 2 attempts"):
            call()
        assert 2 - (stored > done) <= count(begun) <= 2
    # Two attempts are stored before and after, by some twelve lines.
    assert ended == 4 and killed > 40


@pytest.mark.parametrize("times", [0, 1])
def test_a_full_disk_begins_no_attempt_and_leaves_the_file(zsched, file, tmp_path, times):
    """A file may have no more than some bytes, as on a full disk: from none to all but one."""
    begun, job = tmp_path / "begun", zsched.retrying(POLICY, journal=zsched.Journal(file))(failing)

    def call():
        with zsched.testing():
            job(begun)

    def limited(size):
        signal.signal(signal.SIGXFSZ, signal.SIG_IGN)
        resource.setrlimit(resource.RLIMIT_FSIZE, (size, size))
        call()

    def killed():
        with zsched.testing():
            zsched.retrying(POLICY, journal=zsched.Journal(file))(kill)()
    assert in_child(killed) == signal.SIGKILL
    before, most = file.read_bytes() if times else None, len(file.read_bytes()) - 1
    if not times:
        file.unlink()
    for size in [*range(0, most, 23), most]:
        assert in_child(lambda: limited(size)) == 4 and count(begun) == 0
        assert (file.read_bytes() if file.exists() else None) == before
        assert not (tmp_path / "job.new").exists()
    with pytest.raises(OSError, match="busy"):
        call()
    assert count(begun) == 4 - times


def test_two_processes_do_not_have_one_file_at_once(zsched, file, tmp_path, monkeypatch):
    entered = tmp_path / "entered"
    monkeypatch.setattr(os, "fsync", lambda _: None)

    @zsched.retrying(POLICY, journal=zsched.Journal(file))
    def outer():
        assert in_child(zsched.retrying(POLICY, journal=zsched.Journal(file))(failing)) == 3
        with pytest.raises(zsched.JournalFault) as caught:
            zsched.retrying(POLICY, journal=zsched.Journal(file))(failing)()
        assert (caught.value.why, str(caught.value)) == ("in use", f"zsched: journal {file}: in use")
        return "done"
    assert outer() == "done" and list(tmp_path.iterdir()) == []

    @zsched.retrying(POLICY, journal=zsched.Journal(file))
    def alone():
        os.close(os.open(entered, os.O_CREAT | os.O_EXCL))
        time.sleep(0.0005)
        entered.unlink()

    def often():
        for _ in range(100):
            with contextlib.suppress(zsched.JournalFault):
                alone()
    children = [os.fork() for _ in range(1)]
    if children[0] == 0:
        try:
            often()
        except BaseException:
            os._exit(1)
        os._exit(0)
    often()
    assert os.waitpid(children[0], 0)[1] == 0


@pytest.mark.parametrize("fault", ["hook", "write"])
def test_a_call_that_fails_beside_its_job_keeps_nobody_out(zsched, file, monkeypatch, fault):
    def fails(*_):
        raise EOFError
    by = zsched.retrying(POLICY, journal=zsched.Journal(file))

    def job():
        if fault == "write":
            monkeypatch.setattr(os, "replace", fails)
        raise OSError
    # The error has the frames of the call, and so its lock.
    with pytest.raises(EOFError) as caught:
        by.with_(on_event=fails if fault == "hook" else None)(job)()
    monkeypatch.undo()
    with zsched.testing():
        assert by(lambda: "done")() == "done" and caught


def test_a_lock_that_was_removed_meanwhile_keeps_nobody_out(zsched, file, monkeypatch):
    locks, flock = iter([True]), fcntl.flock

    def removing(*words):
        for _ in locks:
            os.unlink(f"{file}.lock")
        flock(*words)
    monkeypatch.setattr(fcntl, "flock", removing)
    by = zsched.retrying(POLICY, journal=zsched.Journal(file))

    def job():
        with pytest.raises(zsched.JournalFault, match="in use"):
            by(failing)()
        return "done"
    assert by(job)() == "done"


@pytest.mark.parametrize("change, why", [
    (lambda text: b"", "empty"), (lambda text: text[:9], "cut"), (lambda text: text[:-1], "cut"),
    (lambda text: text[:60], "cut"), (lambda text: text[:text.index(b"end")], "cut"),
    (lambda text: text.replace(b"journal 1", b"journal 2"), "another version"),
    (lambda text: text.replace(b"recurs(3)", b"recurs(4)"), "another policy"),
    (lambda text: text.replace(b"state ", b"state 1 "), "another version"),
    (lambda text: re.sub(rb"state \d", b"state 9", text), "another version"),
    (lambda text: text.replace(b"state ", b"state 99999999999999999999 "), "another version"),
    (lambda text: text.replace(b"attempts 1", b"attempts -1"), "no journal"),
    (lambda text: text.replace(b"attempts 1\n", b""), "no journal"), (lambda text: b"\0" * len(text), "no journal"),
    (lambda text: b"[1, 2]\n", "no journal"), (lambda text: text + b"end\n", "no journal")])
def test_a_file_that_is_not_of_this_loop_is_a_named_error_and_unchanged(zsched, file, change, why):
    job = zsched.retrying(POLICY, journal=zsched.Journal(file))(kill)
    assert in_child(job) == signal.SIGKILL
    changed = change(file.read_bytes())
    file.write_bytes(changed)
    with pytest.raises(zsched.JournalFault) as caught:
        zsched.retrying(POLICY, journal=zsched.Journal(file))(failing)()
    assert (caught.value.why, caught.value.file, file.read_bytes()) == (why, str(file), changed)


@pytest.mark.parametrize("policy", ["spaced(9).whileInput(>= 500)", "identity.whileOutput(>= 500)"])
def test_a_policy_that_reads_codes_needs_one_for_a_kill(zsched, file, policy):
    with pytest.raises(ValueError, match="say which one a killed attempt has, by killed="):
        zsched.retrying(policy, journal=zsched.Journal(file))
    for code, begin in [(503, True), (404, False)]:
        job = zsched.retrying(policy, journal=zsched.Journal(file, killed=code))(kill)
        assert in_child(job) == signal.SIGKILL and (text_of(file)["begin"] != "none") == begin
        file.unlink()
