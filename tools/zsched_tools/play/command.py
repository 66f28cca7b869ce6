"""Serves a page on this machine. You type schedules and what their attempts do, and see the picture and the report, or
the fault with its place. It is docs/play.html, with reports by zsched. It loads and sends nothing elsewhere.

  zsched-play
  zsched-play --port 0 --json
  zsched-play --html play.html --title 'Policies of checkout'

The page of --html needs no server and no program: its reports are by its own evaluator. The page draws the pictures, so
there is no --svg: zsched-try and zsched-report have one."""
import bisect
import contextlib
import html
import http.server
import io
import itertools
import json
import re
import resource
import signal
import subprocess
import sys
import tempfile
import threading
import time
import urllib.parse
from dataclasses import replace

from zsched_tools import bounding, command, faults, hints, plan_size, program
from zsched_tools.words import one_line

ADDRESS = "127.0.0.1"
# The signals that end it. While it ends, they change nothing.
ENDS = (signal.SIGINT, signal.SIGTERM)
PORT = 8642
# The programs that run at a time, and the seconds and bytes that each may take.
RUNS, SECONDS, MEMORY = 2, 10, 1 << 30
SMALLER = "shorten the horizon, or lengthen the waits"
LONGEST_BODY = program.MAX_BYTES
LONGEST_REPORT = 8_000_000
MOST_ATTEMPTS = 10**8
LONGEST_SHOWN = 200_000
# A fault of a longer plan is shown without its place, which takes 2 s for each MB.
LONGEST_PLACED = 1_000_000
# The seconds in which a request must be read, wait for its turn, and take its response.
PATIENCE = 30
POLICY = ("default-src 'none'; script-src {}; style-src 'unsafe-inline'; img-src data:; "
          "connect-src 'self'; base-uri 'none'; form-action 'none'; frame-ancestors 'none'")
PATHS = {"/": ["GET", "HEAD"], "/report": ["POST"]}


def page(title="", engine="program"):
    """docs/play.html with a title, and with zsched in place of the page's evaluator."""
    found = hints.page().replace('data-engine="page"', f'data-engine="{engine}"', 1)
    return re.sub("(?<=<title>).*?(?=</title>)", lambda it: html.escape(one_line(title)) or it[0], found, count=1)


def policy(text):
    """What a browser may do with a page: run the scripts that it has, and no other."""
    return POLICY.format(hints.script_sources(text) or "'none'")


class Programs:
    """The programs that run for the page: some at a time, each in limited time and memory."""

    def __init__(self, zsched, bounds=None, seconds=SECONDS):
        self.zsched, self.bounds, self.seconds = zsched, bounds, seconds
        self.turns, self.lock, self.running = threading.BoundedSemaphore(RUNS), threading.Lock(), set()

    @contextlib.contextmanager
    def turn(self):
        """Waits until fewer than RUNS others have their turn; raises TimeoutError if that takes too long."""
        if not self.turns.acquire(timeout=PATIENCE):
            raise TimeoutError(f"other plans took more than {PATIENCE} seconds; try again")
        try:
            yield
        finally:
            self.turns.release()

    def run(self, path, given, options=()):
        """Runs a program on some bytes: its status, the output's beginning, its standard error, and the output's size.
        If it takes longer it is killed, and subprocess.TimeoutExpired is raised."""
        with tempfile.TemporaryFile() as output:
            with self.lock:
                child = subprocess.Popen([path, *options], stdin=subprocess.PIPE, stdout=output, stderr=subprocess.PIPE)
                self.running.add(child)
            with child:
                try:
                    resource.prlimit(child.pid, resource.RLIMIT_AS, (MEMORY, MEMORY))
                    _, errors = child.communicate(given, timeout=self.seconds)
                except subprocess.TimeoutExpired:
                    child.kill()
                    raise
                finally:
                    self.running.discard(child)
            size = output.seek(0, 2)
            output.seek(0)
            return child.returncode, output.read(LONGEST_REPORT + 1), errors, size

    def end(self):
        """Kills what runs, and lets nothing start after it."""
        self.lock.acquire()
        for child in (rest := [*self.running]):
            child.kill()
        for child in rest:
            child.wait()


def every_input(programs, asked):
    """The bounds of the policies, at most two, that a page asks for, with its driver, and whether zsched-bounds was
    proved. A policy is a schedule, two percentages of its waits, the longest time that is added to each, the durations
    of its attempts and the limit of its call, or none. If the program fails, the report is shown without bounds."""
    def run(*words, **more):
        return programs.run(*words, **more)[:3]

    def line(schedule, least, most, more, attempt, call):
        driver = bounding.Driver(attempt[1] and tuple(attempt), *read["waits"][2:]).with_late(more)
        [found] = bounding.run(path, [schedule], driver, (least, most), run)
        return replace(found, limit=call).line()
    path = programs.bounds
    try:
        read = json.loads(asked)
        found = [it and line(*it) for it in read["policies"][:2]] if path else []
        return {"bounds": found, "proved": bool(path) and program.is_proved(path)}
    except (OSError, ValueError, LookupError, TypeError, RecursionError, subprocess.TimeoutExpired):
        return {"bounds": []}


def answer(programs, plan, asked=""):
    """What the page shows for the bytes of a plan: the report and what holds for every input, or the fault."""
    try:
        with programs.turn():
            return reported(programs, plan, asked)
    except subprocess.TimeoutExpired:
        cause = f"no report within {programs.seconds} seconds, so zsched was stopped"
        return {"fault": {"field": "until", "cause": cause, "help": SMALLER}}
    except TimeoutError as fault:
        return {"fault": {"cause": str(fault)}}
    except OSError as fault:
        return {"fault": {"cause": f"{programs.zsched} could not be run: {fault.strerror or fault}"}}


def reported(programs, plan, asked):
    """The same, by the programs."""
    if many := plan_size.warning(plan, MOST_ATTEMPTS):
        return {"fault": {"field": "until", "cause": many, "help": SMALLER}}
    status, report, errors, size = programs.run(programs.zsched, plan)
    if status == 0 and size <= LONGEST_REPORT:
        program.check_report(programs.zsched, report)
    said = errors.decode(errors="replace").strip().removeprefix("zsched: ")
    if status == 2:
        return {"fault": placed(plan, said) if len(plan) <= LONGEST_PLACED else {"cause": said}}
    if status:
        first = said.partition("\n")[0] or f"status {status} and no report"
        cause = f"{first} ({MEMORY >> 20} MB are given to it)"
        return {"fault": {"field": "until", "cause": cause, "help": SMALLER}}
    return {**shown(report, size), **every_input(programs, asked)}


def placed(plan, said):
    """A fault of the program with its cause and its help; that of a schedule with its job and its place there."""
    read = faults.Plan(plan)
    found = faults.explained(read, said)
    at, size, cause, help_text = found.cause
    fault = {"text": said, "cause": cause, "help": help_text}
    if found.job is None or not said.startswith(f"job {found.job}: schedule: "):
        return fault
    schedule = next(itertools.islice(read.root.get("jobs").items(), found.job, None)).get("schedule")
    letters = range(len(schedule.string()) + 1)
    begin, end = (bisect.bisect_left(letters, place, key=schedule.place_in) for place in (at, at + size))
    return {**fault, "job": found.job, "key": "schedule", "at": begin, "size": max(1, end - begin)}


def shown(report, size):
    """The response for a report, whose end is left out if it is long."""
    if size > LONGEST_REPORT:
        return {"report": report[:report.rindex(b"\n", 0, LONGEST_SHOWN) + 1].decode(), "size": size, "isCut": True}
    return {"report": report.decode(), "size": size}


class Server(http.server.ThreadingHTTPServer):
    """Serves the page on this machine only. When it ends, it kills its runs, and waits for no connection."""

    def __init__(self, port, programs, title=""):
        self.programs, self.page = programs, page(title)
        self.policy = policy(self.page)
        super().__init__((ADDRESS, port), Handler)
        names = [ADDRESS, "localhost"]
        self.hosts = [f"{name}:{self.server_port}" for name in names] + (names if self.server_port == 80 else [])
        self.origins = [f"http://{it}" for it in self.hosts]

    def server_close(self):
        super().server_close()
        self.programs.end()

    def handle_error(self, request, client_address):
        """Ignores a connection that was closed; any other fault is reported in one line."""
        fault = sys.exc_info()[1]
        if not isinstance(fault, OSError):
            print(f"zsched-play: a request failed: {fault!r}", file=sys.stderr)

    def url(self):
        return f"http://{ADDRESS}:{self.server_port}/"


class Timed(io.RawIOBase):
    """What a client sends. It raises TimeoutError after PATIENCE seconds in all."""

    def __init__(self, connection):
        self.connection, self.end = connection, time.monotonic() + PATIENCE

    def readable(self):
        return True

    def readinto(self, buffer):
        if (rest := self.end - time.monotonic()) <= 0:
            raise TimeoutError
        self.connection.settimeout(rest)
        return self.connection.recv_into(buffer)


class Handler(http.server.BaseHTTPRequestHandler):
    """One request. A request that doesn't come from the page is rejected, with the reason."""

    def setup(self):
        super().setup()
        self.rfile = io.BufferedReader(Timed(self.connection))

    def version_string(self):
        """The name of the server in the responses."""
        return "zsched-play"

    def refusal(self):
        """The status and the text if the request is rejected, else None."""
        methods, is_post = PATHS.get(self.path.split("?")[0]), self.command == "POST"
        host, origin = self.headers.get_all("Host", []), self.headers.get_all("Origin", [])
        size = self.headers.get("Content-Length")
        is_number = re.fullmatch("[0-9]{1,18}", size or "")
        return next((said for is_wrong, *said in [
            (len(host) != 1 or host[0].lower() not in self.server.hosts, 421,
             "the Host of this request isn't this server's"),
            (methods is None, 404, "not found; the page is at /"),
            (self.command not in (methods or ()), 405,
             f"this method isn't allowed; allowed: {' and '.join(methods or ())}"),
            (len(origin) > 1 or any(it.lower() not in self.server.origins for it in origin), 403,
             "requests from pages of another origin aren't allowed"),
            (is_post and (size is None or "Transfer-Encoding" in self.headers), 411,
             "a plan needs its length in Content-Length"),
            (is_post and not is_number, 400, "the length of the plan is not a number"),
            (is_post and is_number and int(size) > LONGEST_BODY, 413, f"a plan is at most {LONGEST_BODY} bytes long"),
        ] if is_wrong), None)

    def do_GET(self):
        """Handles every method: sends the page, a report or an error. A rejected request's body is dropped."""
        if (refusal := self.refusal()) is not None:
            self.give(refusal[0], "text/plain; charset=utf-8", f"zsched-play: {refusal[1]}\n".encode())
            self.drop_body()
        elif self.command == "POST":
            plan = self.rfile.read(int(self.headers["Content-Length"]))
            asked = urllib.parse.unquote(self.path.partition("?")[2])
            self.give(200, "application/json", json.dumps(answer(self.server.programs, plan, asked)).encode())
        else:
            self.give(200, "text/html; charset=utf-8", self.server.page.encode())

    do_HEAD = do_POST = do_PUT = do_DELETE = do_PATCH = do_OPTIONS = do_TRACE = do_CONNECT = do_GET

    def send_error(self, code, message=None, explain=None):
        """An error that the class above finds, as all others are sent."""
        self.give(code, "text/plain; charset=utf-8", f"zsched-play: {message or explain}\n".encode(errors="replace"))

    def give(self, status, kind, body):
        self.connection.settimeout(PATIENCE)
        # For an older one no head would be sent.
        self.request_version = self.protocol_version
        self.send_response(status)
        self.send_header("Content-Type", kind)
        self.send_header("Content-Length", str(len(body)))
        self.send_header("Content-Security-Policy", self.server.policy)
        self.send_header("X-Content-Type-Options", "nosniff")
        self.send_header("Referrer-Policy", "no-referrer")
        self.send_header("Cache-Control", "no-store")
        if status == 405:
            self.send_header("Allow", ", ".join(PATHS[self.path.split("?")[0]]))
        self.end_headers()
        if self.command != "HEAD":
            self.wfile.write(body)
        self.wfile.flush()

    def drop_body(self):
        """Reads the body of a rejected request, up to a limit, so that the error arrives before the end."""
        size = self.headers.get("Content-Length", "0")
        left = min(int(size), 4 * LONGEST_BODY) if re.fullmatch("[0-9]{1,18}", size) else 0
        while left > 0:
            piece = self.rfile.read(min(left, 65536))
            left = left - len(piece) if piece else 0

    def log_message(self, format, *arguments):
        """Nothing is logged."""


def serve(given):
    if given.html:
        return command.write(given.html, page(given.title, "page"))
    programs = Programs(program.find(given.zsched), program.find_bounds(given.bounds))
    try:
        server = Server(given.port, programs, given.title)
    except OSError as fault:
        raise command.Refused(f"port {given.port}: {fault.strerror}") from fault

    def end(*_):
        """Lets another thread end the loop: an exception in this one could end in a library's handler."""
        for number in ENDS:
            signal.signal(number, signal.SIG_IGN)
        threading.Thread(target=server.shutdown, daemon=True).start()

    with server:
        for number in ENDS:
            signal.signal(number, end)
        paint = command.Paint(given.color, sys.stdout)
        found = {"url": server.url(), "zsched": programs.zsched, "bounds": programs.bounds}
        print(json.dumps(found) if given.json else f"zsched-play: {paint('strong', server.url())}", flush=True)
        server.serve_forever(0.1)


def arguments():
    words = command.parser("zsched-play", __doc__, "Ctrl-C ends it, with status 0. Status 2: a wrong argument, no "
                           "program, or a port that isn't free. Status 3: writing fails.")
    port = command.number(0, 65535, "{} is not a port: 0 to 65535")
    words.add_argument("--port", type=port, default=PORT, help=f"the port ({PORT}); 0 picks a free one")
    words.add_argument("--title", default="", help="the title of the page, in place of zsched's")
    form = words.add_mutually_exclusive_group()
    form.add_argument("--json", action="store_true", help="print the address and the programs as one object")
    form.add_argument("--html", metavar="FILE", help="write the page, and serve nothing; - is standard output")
    command.add_programs(words, True)
    return command.complete(words)


main = command.main(arguments, serve)
