#!/usr/bin/env python3
"""A real retry: a client calls a server on this machine until it is ready. It is busy at first."""
import http.server
import threading
import time
import urllib.error
import urllib.request

from zsched import Schedule, retrying

BUSY = 3
SCHEDULE = "((exponential(20) || spaced(100)) && recurs(5)).whileInput(= 503)"


class Server(http.server.BaseHTTPRequestHandler):
    """Sends the code 503 for the first requests, and then a text."""
    requests = 0

    def do_GET(self):
        """Serves one request."""
        Server.requests += 1
        self.send_response(503 if Server.requests <= BUSY else 200)
        self.end_headers()
        self.wfile.write(b"ready\n")

    def log_message(self, *_):
        """Prints nothing."""


def print_wait(event):
    """Prints what went wrong, and how long the client waits."""
    if event.wait is not None:
        milliseconds = 1000 * event.wait.total_seconds()
        print(f"attempt {event.attempt}: {event.error.code}, the next one in {milliseconds:.0f} ms")


@retrying(SCHEDULE, on=urllib.error.HTTPError, input_of=lambda error: error.code, on_event=print_wait)
def fetch(url):
    """Returns the server's text."""
    with urllib.request.urlopen(url) as response:
        return response.read().decode().strip()


def main():
    """Starts the server, calls it, and prints two steps of the schedule without sleep."""
    server = http.server.HTTPServer(("127.0.0.1", 0), Server)
    threading.Thread(target=server.serve_forever, daemon=True).start()
    begun = time.monotonic()
    print(fetch(f"http://127.0.0.1:{server.server_port}/"), f"after {Server.requests} attempts")
    waited = time.monotonic() - begun
    server.shutdown()
    assert waited >= 0.14, waited
    schedule = Schedule(SCHEDULE)
    print(schedule.after(0.005, 503), schedule.after(0.03, 404))


if __name__ == "__main__":
    main()
