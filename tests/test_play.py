"""zsched-play: what the server takes and rejects, its responses, runs that are stopped, and its page in a real browser.
What the page does with typed text is in test_page.py; the command line is in tests/cases/zsched-play.txt."""
import concurrent.futures
import contextlib
import http.client
import itertools
import json
import os
import re
import signal
import socket
import subprocess
import threading
import time
import urllib.parse
from unittest import mock

import pytest

from browser import inside, opened
from support import TOP, executable, rows, run, run_tool
from zsched_tools.play import command

TOOL = TOP / "tools" / "zsched-play"
PAGE = (TOP / "docs" / "play.html").read_text()
SERVED = PAGE.replace('data-engine="page"', 'data-engine="program"', 1)


def question(schedule="recurs(3)", horizon=1000, script=({"ms": 1, "err": 7},), schedules=()):
    jobs = [{"name": f"A{number}", "mode": "retry", "schedule": text, "script": list(script)}
            for number, text in enumerate(schedules or [schedule])]
    return json.dumps({"horizon": horizon, "jobs": jobs}).encode()


@contextlib.contextmanager
def served(zsched, **variables):
    words, pipe = [TOOL, "--port", "0", "--zsched", zsched], subprocess.PIPE
    with subprocess.Popen(words, stdout=pipe, stderr=pipe, text=True, env={**os.environ, **variables}) as server:
        try:
            yield server, server.stdout.readline().removeprefix("zsched-play: ").strip()
        finally:
            server.kill()


@pytest.fixture(scope="module")
def url(zsched, bounds):
    with served(zsched, ZSCHED_BOUNDS=str(bounds)) as (_, found):
        yield found


def request(url, method, path="/", body=None, **headers):
    """A response's status, headers and body. A header that is None isn't sent."""
    host = urllib.parse.urlsplit(url).netloc
    sent = {"Host": host, "Content_Length": None if body is None else len(body), **headers}
    with contextlib.closing(http.client.HTTPConnection(host, timeout=30)) as connection:
        connection.putrequest(method, path, skip_host=True, skip_accept_encoding=True)
        for name, value in sent.items():
            if value is not None:
                connection.putheader(name.replace("_", "-"), value)
        connection.endheaders(body)
        response = connection.getresponse()
        return response.status, response.headers, response.read()


def wanted(schedules, attempt=(1, None), waits=(0, 0), more=0, call=None):
    """What a page asks for, with whole waits, and up to so much more."""
    policies = [[it, 100, 100, more, attempt, call] for it in schedules]
    return json.dumps({"waits": [100, 100, *waits], "policies": policies})


def asked(url, text, path="/report"):
    status, _, body = request(url, "POST", path, text)
    assert status == 200, body
    return json.loads(body)


@pytest.mark.parametrize("path", sorted(TOP.glob("examples/*.json"))[:8], ids=lambda path: path.stem)
def test_the_report_is_that_of_the_program(url, path):
    found, report = asked(url, path.read_bytes()), path.with_name(f"{path.name}.stdout").read_text()
    assert found == {"report": report, "size": len(report), "bounds": []}


def test_the_page_says_what_holds_for_every_input(url):
    policy, said = "(exponential(100) && recurs(5))", "6 attempts, always; waits of at most "
    for attempt, waits, more, end in [([1, None], [0, 0], 0, "1.6 s, 3.1 s in all"),
                                      ([1, 5000], [0, 0], 0, "1.6 s, 3.1 s in all; ends within 33.1 s"),
                                      ([1, 5000], [50, 900], 0, "1.65 s, 5.45 s in all; ends within 35.45 s"),
                                      ([1, 5000], [50, 0], 2000, "3.65 s, 13.35 s in all; ends within 43.35 s")]:
        query = urllib.parse.quote(wanted([policy], attempt, waits, more))
        assert asked(url, question(policy), f"/report?{query}")["bounds"] == [said + end]
    query = urllib.parse.quote(wanted([policy], call=900))
    assert asked(url, question(policy), f"/report?{query}")["bounds"] == [
        f"{said}1.6 s, 3.1 s in all, both without the call's limit; ends within 900 ms by the call's limit"]
    for query in ["", "?", "?5", "?%7B%7D", "?" + 20000 * "[", "?" + urllib.parse.quote(wanted(["recurs"]))]:
        assert asked(url, question(policy), f"/report{query}")["bounds"] == []


@pytest.fixture(params=["", "unproved: "], ids=["proved", "unproved"])
def marked(request, bounds, tmp_path):
    """The program of bounds, proved or not, and what is said before its bounds."""
    words = ["objcopy", "--remove-section=.zsched.proved"] if request.param else ["strip", "-o"]
    subprocess.run([*words, *[bounds, tmp_path / "bounds"][::1 if request.param else -1]], check=True)
    return str(tmp_path / "bounds"), request.param


def test_bounds_of_an_unproved_program_say_so(zsched, marked):
    assert command.answer(command.Programs(zsched, marked[0]), question(), wanted([]))["proved"] is not bool(marked[1])


# The status of the program of bounds, or None without one, the policies, and what is said of them.
@pytest.mark.parametrize("name, status, schedules, said", [
    ("good", 0, ["recurs(3)"], ["4 attempts, always; no waits"]),
    ("failed", 4, ["recurs(3)"], []),
    ("without", None, ["recurs(3)"], []),
    ("of three policies", 0, ["recurs(0)", "recurs(1)", "recurs(2)"], 2 * ["4 attempts, always; no waits"])])
def test_bounds_are_left_out_if_there_are_none(zsched, tmp_path, name, status, schedules, said):
    line = ('{"policy":"","attempt":{"least":1,"most":null},"attempts":{"least":4,"most":4},"never_gives_up":false,'
            '"longest_wait":0,"every":0,"total_wait":0,"longest_run":null,"within":null,"steps_seen":4}')
    bounds = None if status is None else executable(tmp_path / "bounds",
                                                    f"cat > /dev/null\necho '{line}'\nexit {status}")
    programs = command.Programs(zsched, bounds)
    assert command.answer(programs, question(schedules=schedules), wanted(schedules))["bounds"] == said


# A schedule that is rejected, the place and size of the mark, and words of the cause or the help.
@pytest.mark.parametrize("schedule, at, size, word", rows("schedule_faults.jsonl"))
def test_a_fault_of_a_schedule_has_its_place(url, zsched, schedule, at, size, word):
    fault = asked(url, question(schedule))["fault"]
    assert run(zsched, question(schedule)) == (2, b"", f"zsched: {fault['text']}\n".encode())
    assert (fault["job"], fault["key"], fault["at"], fault["size"]) == (0, "schedule", at, size)
    assert word in fault["cause"] + fault["help"]


def test_a_place_in_a_schedule_counts_no_escapes(url):
    fault = asked(url, question().replace(b"recurs(3)", rb"(recurs(\u0033) \u0026 forever)"))["fault"]
    assert (fault["at"], fault["size"], fault["help"]) == (11, 1, "write &&")


@pytest.mark.parametrize("text, said, word", [
    (question(horizon=10**15), "plan: out of range", "milliseconds"), (b"", "plan is not JSON", "begins as"),
    (question(script=[{"ms": 0, "ok": 1}]), "job 0: script: an entry takes 0 ms", "1"),
    (b"\xff", "plan is not JSON", "UTF-8")])
def test_another_fault_has_its_cause(url, text, said, word):
    fault = asked(url, text)["fault"]
    assert (sorted(fault), fault["text"]) == (["cause", "help", "text"], said)
    assert word in fault["cause"] + fault["help"]


def test_a_long_report_is_cut(zsched):
    with mock.patch.multiple(command, LONGEST_REPORT=1000, LONGEST_SHOWN=500):
        found = command.answer(command.Programs(zsched), question("forever"))
    report = run(zsched, question("forever"))[1].decode()
    assert (found["size"], found["isCut"]) == (len(report), True)
    assert len(found["report"]) <= 500 and report.startswith(found["report"]) and found["report"].endswith("\n")


# Requests: method, path, body (or its number of spaces), headers, in which PORT is the server's, and the status.
@pytest.mark.parametrize("name, method, path, body, headers, status", rows("requests.jsonl"),
                         ids=lambda it: str(it)[:30])
def test_requests_that_are_taken_and_rejected(url, name, method, path, body, headers, status):
    body = b" " * body if isinstance(body, int) else body and body.encode()
    port = str(urllib.parse.urlsplit(url).port)
    headers = {name: it and it.replace("PORT", port) for name, it in headers.items()}
    found, said, _ = request(url, method, path, body, **headers)
    assert found == status and (status != 405 or said["Allow"] == ("GET, HEAD" if path == "/" else "POST"))


@pytest.mark.parametrize("method, path, wanted", [
    ("GET", "/?schedule=forever", SERVED), ("HEAD", "/", "")], ids=["GET", "HEAD"])
def test_the_page_loads_nothing_from_elsewhere_and_head_has_no_body(url, method, path, wanted):
    status, headers, body = request(url, method, path)
    assert (status, body.decode(), len(SERVED) - len(PAGE)) == (200, wanted, 3)
    assert headers["Content-Length"] == str(len(SERVED.encode()))
    assert headers["Content-Security-Policy"].startswith("default-src 'none'; script-src 'sha256-")
    assert re.search("script-src ([^;]*);", headers["Content-Security-Policy"])[1] in PAGE


@pytest.mark.parametrize("words, status", [
    ("BREW / HTTP/1.1", 501), ("GET /" + "a" * 70_000 + " HTTP/1.1", 414), ("GET / / HTTP/1.1", 400),
    ("GET / HTTP/1.1\r\n" + "a: b\r\n" * 200, 431),
    ("GET / HTTP/1.1\r\nHost: HOST\r\nOrigin: http://HOST\r\nOrigin: http://evil.example", 403)],
    ids=lambda it: str(it)[:20])
def test_each_error_has_the_headers_of_the_page(words, status, url):
    own = urllib.parse.urlsplit(url)
    with socket.create_connection((own.hostname, own.port), timeout=30) as line, line.makefile("rb") as file:
        line.sendall(f"{words.replace('HOST', own.netloc)}\r\n\r\n".encode())
        head = file.read().partition(b"\r\n\r\n")[0].decode()
    assert head.startswith(f"HTTP/1.0 {status} ") and "\nX-Content-Type-Options: nosniff\r" in head
    assert "\nContent-Security-Policy: default-src 'none'; script-src 'sha256-" in head


@contextlib.contextmanager
def sending(url, text):
    """A connection to a server on which some bytes were sent. OWN in them is the server's name."""
    own = urllib.parse.urlsplit(url)
    with socket.create_connection((own.hostname, own.port), timeout=30) as line:
        line.sendall(text.replace("OWN", own.netloc).replace("\n", "\r\n").encode())
        yield line


# What is sent, and the status of the response.
@pytest.mark.parametrize("text, status", [
    ("GET / HTTP/1.1\nHost: OWN\nHost: OWN\n\n", 421), ("GET / HTTP/1.1\nHost: OWN\nOrigin: http://OWN\n\n", 200),
    ("GET / HTTP/1.1\nHost: OWN\nOrigin: http://OWN\nOrigin: http://zsched.example\n\n", 403),
    ("GET / HTTP/1.1\nHost: OWN\nOrigin: OWN\n\n", 403), ("BREW / HTTP/1.1\nHost: OWN\n\n", 501),
    ("GET / HTTP/x\n\n", 400), ("GET / HTTP/3.0\n\n", 505), ("GET / <b> HTTP/1.1\n\n", 400), ("GET\n\n", 400),
    ("GET /\n\n", 421),
    (f"GET /{70000 * 'a'} HTTP/1.1\n", 414), (f"GET / HTTP/1.1\n{200 * 'A: b' + chr(10)}\n", 421),
    ("GET / HTTP/1.1\n" + 200 * "A: b\n" + "\n", 431)], ids=lambda it: str(it)[:40])
def test_each_response_says_what_a_browser_may_do_with_it(url, text, status):
    with sending(url, text) as line:
        head, _, body = b"".join(iter(lambda: line.recv(65536), b"")).partition(b"\r\n\r\n")
    assert head.split()[:2] == [b"HTTP/1.0", str(status).encode()]
    assert b"Content-Security-Policy: default-src 'none'; script-src 'sha256-" in head
    assert b"X-Content-Type-Options: nosniff" in head
    assert status == 200 or b"Content-Type: text/plain" in head and body.startswith(b"zsched-play: ")


def test_a_browser_that_goes_away_does_no_harm(url):
    with sending(url, "POST /report HTTP/1.1\nHost: OWN\nContent-Length: 100\n\n{"):
        pass
    assert request(url, "GET", "/")[0] == 200


def test_a_browser_runs_no_script_but_those_of_the_page():
    text = "<script>one()</script>"
    # printf %s 'one()' | openssl dgst -sha256 -binary | base64
    assert " script-src 'sha256-HR7iaask9daLMRRskMI++QeJtjWDOjyPA6lGzYGzKW4='; " in command.policy(text)
    assert " script-src 'none'; " in command.policy("")


@pytest.mark.parametrize("begin, piece", [("GET / HTTP/1.1\n", "A: b\n"), (
    "POST /report HTTP/1.1\nHost: OWN\nContent-Length: 10000\n\n", " ")], ids=["headers", "body"])
def test_a_request_that_is_slow_to_come_is_dropped(zsched, begin, piece):
    """Though each of its pieces comes in time."""
    with mock.patch.object(command, "PATIENCE", 2), in_process(zsched, "") as url, sending(url, begin) as line:
        line.settimeout(0.2)
        for number in range(150):
            with contextlib.suppress(TimeoutError):
                assert line.recv(100) == b""
                break
            with contextlib.suppress(BrokenPipeError):
                line.sendall(piece.encode())
    assert 2 < number < 149


def test_it_listens_on_this_machine_alone(url):
    with pytest.raises(ConnectionRefusedError):
        socket.create_connection(("127.0.0.2", urllib.parse.urlsplit(url).port), timeout=5)


@contextlib.contextmanager
def in_process(*programs):
    """A server in this process: its URL."""
    with command.Server(0, command.Programs(*map(str, programs[:2]), *programs[2:])) as server:
        thread = threading.Thread(target=server.serve_forever)
        thread.start()
        try:
            yield server.url()
        finally:
            server.shutdown()
            thread.join()


def fault_of_endless(zsched, seconds):
    """The fault of a plan without end, from a server with this patience."""
    with in_process(zsched, "", seconds) as url:
        return asked(url, question("forever", horizon=99999998))["fault"]


def test_a_plan_that_runs_too_long_is_killed_and_told(zsched):
    cause, help = "no report within 1 seconds, so zsched was stopped", "shorten the horizon, or lengthen the waits"
    assert fault_of_endless(zsched, 1) == {"field": "until", "cause": cause, "help": help}
    children = run(["ps", "-o", "args=", "--ppid", str(os.getpid())], b"")[1].decode().splitlines()
    assert (str(zsched) in children, command.SECONDS) == (False, 10)


def test_a_plan_that_takes_too_much_memory_is_told(zsched):
    with mock.patch.object(command, "MEMORY", 64 << 20):
        fault = fault_of_endless(zsched, 30)
    assert fault == {"field": "until", "cause": "out of memory (64 MB are given to it)", "help": command.SMALLER}


def test_a_plan_of_too_many_attempts_is_not_run():
    fault = command.answer(command.Programs("/nowhere"), question("forever", horizon=999999999999999))["fault"]
    assert fault["field"] == "until"
    assert fault["cause"].startswith("its attempts may be 1,000,000,000,000,000, more than 100,000,000: ")


def test_a_port_that_is_taken_is_told(zsched):
    with socket.create_server(("127.0.0.1", 0)) as taken:
        port = taken.getsockname()[1]
        ended = run_tool([TOOL, "--port", port, "--zsched", zsched])
    assert ended == (2, "", f"zsched-play: port {port}: Address already in use\n")


def noting(folder, *words):
    """A program that notes its process in a file, and then runs some words: its path, and that file."""
    return executable(folder / "program", f"echo $$ >> {folder}/noted\n" + "\n".join(words)), folder / "noted"


def noted(file, number):
    """The lines of a file when it has this number of them."""
    end = time.monotonic() + 30
    while len(lines := file.read_text().split() if file.exists() else []) < number:
        assert time.monotonic() < end, lines
        time.sleep(0.02)
    return lines


# What clients that stay connected have sent.
POST = "POST /report HTTP/1.1\nHost: OWN\nContent-Length: "
CONNECTED = {"nothing": "", "headers": "GET / HTTP/1.1\n", "body": POST + "9\n\n{",
             "plan": f"{POST}{len(question())}\n\n{question().decode()}"}


@pytest.mark.parametrize("number", [signal.SIGINT, signal.SIGTERM])
@pytest.mark.parametrize("name", CONNECTED)
def test_it_ends_at_once_whatever_is_connected(tmp_path, number, name):
    program, file = noting(tmp_path, "exec sleep 1000")
    with served(program) as (server, url), contextlib.ExitStack() as lines:
        for _ in range(3):
            lines.enter_context(sending(url, CONNECTED[name]))
        running = noted(file, 2 * (name == "plan"))
        server.send_signal(number)
        # A run takes up to 10 s, and a request up to 30.
        assert (server.wait(timeout=8), server.stderr.read()) == (0, "")
    assert [it for it in running if os.path.exists(f"/proc/{it}")] == []


# A library's code in which Ctrl-C becomes another error, as it can in one that waits for a thread.
LIBRARY = """import socketserver, time
def begin(self, request, address):
    try:
        time.sleep(1)
    except KeyboardInterrupt:
        raise RuntimeError("release unlocked lock")
socketserver.ThreadingMixIn.process_request = begin
"""


def test_it_ends_by_a_signal_within_a_library(tmp_path):
    (tmp_path / "sitecustomize.py").write_text(LIBRARY)
    program, _ = noting(tmp_path, "exit 0")
    with served(program, PYTHONPATH=str(tmp_path)) as (server, url), sending(url, ""):
        time.sleep(0.5)
        server.send_signal(signal.SIGINT)
        assert (server.wait(timeout=8), server.stderr.read()) == (0, "")


# At Python's end a thread can't begin. Ctrl-C ends each tool there.
AT_EXIT = """import atexit, signal
atexit.register(lambda: print(signal.getsignal(signal.SIGTERM) == signal.SIG_IGN, flush=True))
"""


def test_a_second_signal_changes_nothing(tmp_path):
    (tmp_path / "sitecustomize.py").write_text(AT_EXIT)
    program, _ = noting(tmp_path, "exit 0")
    with served(program, PYTHONPATH=str(tmp_path)) as (server, _):
        server.send_signal(signal.SIGINT)
        assert (server.wait(timeout=8), server.stdout.read(), server.stderr.read()) == (0, "True\n", "")


def test_two_plans_run_at_a_time(tmp_path):
    program, file = noting(tmp_path, "sleep 0.3", "echo end >> $(dirname $0)/noted", "echo polls 0")
    with in_process(program, "") as url, concurrent.futures.ThreadPoolExecutor() as pool:
        assert list(pool.map(lambda _: asked(url, question())["report"], range(6))) == 6 * ["polls 0\n"]
    most = list(itertools.accumulate(-1 if it == "end" else 1 for it in noted(file, 12)))
    assert (max(most), most[-1]) == (2, 0)


def test_a_plan_that_waits_too_long_for_its_turn_is_told(tmp_path):
    program, file = noting(tmp_path, "exec sleep 1000")
    with mock.patch.object(command, "PATIENCE", 1), in_process(program, "", 5) as url:
        lines = [sending(url, CONNECTED["plan"]) for _ in range(2)]
        with lines[0], lines[1]:
            noted(file, 2)
            fault = asked(url, question())["fault"]
    assert fault == {"cause": "other plans took more than 1 seconds; try again"}


def test_both_programs_have_limited_memory(tmp_path):
    words = "sleep 0.2\nulimit -v >> $(dirname $0)/noted"
    zsched, file = noting(tmp_path, words, "echo polls 0")
    (tmp_path / "bounds").mkdir()
    bounds, other = noting(tmp_path / "bounds", words)
    assert command.answer(command.Programs(zsched, bounds), question(), wanted(["forever"]))["bounds"] == []
    assert [it.read_text().split()[1] for it in (file, other)] == 2 * [str(command.MEMORY >> 10)]


def test_a_fault_of_a_long_plan_is_told_without_its_place(zsched):
    text = question("recur(3)").replace(b"{", b"{" + 10**6 * b" ", 1)
    assert command.answer(command.Programs(zsched), text) == {"fault": {"cause": "job 0: schedule: no term at byte 0"}}


@pytest.mark.full
def test_a_browser_shows_what_the_programs_give(zsched, marked):
    with served(zsched, ZSCHED_BOUNDS=marked[0]) as (_, url):
        document = opened(url)
    assert re.search(f">{marked[1]}for every input: 11 attempts, always", document)
    for name, words in [("engine", "comes from zsched itself"), ("report", "end failed 503 at 13540 polls 22"),
                        ("state", "gives up with 503 after 11 attempts, 13.54 s; longest wait 2 s")]:
        assert words in inside(document, name)
    assert 'class="fault shown"' not in document


@pytest.mark.full
def test_a_browser_shows_a_fault_as_the_program_tells_it(url):
    document = opened(f"{url}#{urllib.parse.urlencode({'a': 'recurs(3)', 'b': '(spaced(10) && recur(3))'})}")
    fault = re.search(r'<div class="fault shown" id="b-fault" role="alert">(.*?)</div><', document + "<", re.S)[1]
    assert fault.startswith("<strong class=\"\">there is no recur</strong><pre>")
    assert "(spaced(10) &amp;&amp; recur(3))\n" + " " * 15 + '<b class="">^^^^^</b>' in fault
    assert "did you mean recurs?" in document and "zsched: job 1: schedule: no term at byte 15" in document
