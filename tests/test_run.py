"""./run at a terminal and over a socket. All else that it does is in tests/cases/run.txt."""
import os
import pty
import socket
import subprocess

import pytest

from support import ONE_JOB, ONE_REPORT, TOP

SAMPLE = (TOP / "examples" / "checkout.json.stdout").read_bytes()


@pytest.fixture
def ended(tmp_path, zsched):
    """Runs ./run in a small tree whose program counts as proved, with a file as standard input."""
    def run(given, words=""):
        commands = f'. "$TOP/tests/cases/run/tree/setup" && prove && ./run {words} <&{given}'
        found = subprocess.run(["bash", "-c", commands], cwd=tmp_path, stdout=subprocess.PIPE, stderr=subprocess.STDOUT,
                               pass_fds=[given], env={**os.environ, "TOP": str(TOP), "ZSCHED": str(zsched)}, timeout=60)
        return found.returncode, found.stdout
    return run


def test_the_sample_runs_at_a_terminal_and_a_named_file_too(ended):
    near, far = pty.openpty()
    assert ended(far) == (0, SAMPLE)
    assert ended(far, "one.json") == (0, ONE_REPORT)
    os.close(near)
    os.close(far)


def test_a_plan_is_read_from_a_socket(ended):
    near, far = socket.socketpair()
    with near, far:
        near.sendall(ONE_JOB)
        near.shutdown(socket.SHUT_WR)
        assert ended(far.fileno()) == (0, ONE_REPORT)
