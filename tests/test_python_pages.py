"""The binding for Python: its example, and the blocks of its pages."""
import contextlib
import http.server
import io
import re
import sys
import threading
import time
import urllib.error
import urllib.request

import pytest

from languages import BINDINGS, ran
from python_binding import zsched
from support import TOP


@contextlib.contextmanager
def flaky(*codes):
    """A server on this machine that responds with these codes in turn, then with the last one: its URL, and when it
    did."""
    moments = []

    class Handler(http.server.BaseHTTPRequestHandler):
        def do_GET(self):
            moments.append(time.monotonic())
            self.send_response(codes[min(len(moments), len(codes)) - 1])
            self.end_headers()
            self.wfile.write(b"ready")
    with http.server.HTTPServer(("127.0.0.1", 0), Handler) as server:
        threading.Thread(target=server.serve_forever, args=[0.01]).start()
        yield f"http://127.0.0.1:{server.server_port}/", moments
        server.shutdown()


def test_the_example_waits_for_its_server(library, tmp_path):
    said = ran([sys.executable, "-B", BINDINGS / "python" / "example.py"], tmp_path,
               ZSCHED_LIBRARY=library / "libzsched.so")
    assert "ready after 4 attempts\n" in said
    assert re.search("^attempt 3: 503, the next one in (79|80|81) ms$", said, re.M)


def blocks(page):
    return re.findall(r"```python\n(.*?)```", (TOP / page).read_text(), re.S)


def test_the_blocks_of_the_document_run_as_they_are_printed(zsched, tmp_path):
    service, check, journal = blocks("docs/LIBRARY.md")
    found = {}
    exec(service, found)
    with flaky(503, 503, 200) as (url, moments):
        assert found["fetch"](url) == b"ready"
    assert len(service.splitlines()) == 10 and len(moments) == 3 and moments[2] - moments[0] > 0.299
    with flaky(404) as (url, moments):
        with pytest.raises(OSError, match="404"):
            found["fetch"](url)
    assert len(moments) == 1
    exec(check, found)
    exec(journal, found)
    with flaky(503, 200, 404) as (url, moments), zsched.testing():
        assert found["call"](url, tmp_path / "job") == b"ready" and list(tmp_path.iterdir()) == []
        for kind in [urllib.error.HTTPError, zsched.GaveUp]:
            with pytest.raises(kind, match="HTTP Error 404"):
                found["call"](url, tmp_path / "job")
        assert len(moments) == 3
    # Too many attempts, too long, without a bound, and waits of an hour.
    for changes in [{"schedule": "(spaced(5000) && recurs(9))"}, {"schedule": "(spaced(50000) && recurs(2))"},
                    {"schedule": "spaced(1)"}, {"retry_after": len}]:
        with pytest.raises(AssertionError):
            exec(check, {"fetch": found["fetch"].with_(**changes)})


def test_the_block_of_the_first_page_runs_as_it_is_printed(zsched):
    block, found = *blocks("README.md"), {}
    with zsched.testing():
        exec(block, found)
        assert found["checkout"]() is None
    with pytest.raises(AssertionError):
        exec(block.replace("recurs(5)", "recurs(9)"), {})


@pytest.fixture
def readme(zsched, monkeypatch, capsys):
    """What the blocks of the page define, but for the one of another package. The first two requests fail."""
    errors = iter([OSError, OSError])

    @contextlib.contextmanager
    def opened(url, timeout):
        assert url == "http://example.org" and timeout == 5
        for error in errors:
            raise error
        yield io.BytesIO(b"ready")
    monkeypatch.setattr(urllib.request, "urlopen", opened)
    found = {}
    with zsched.testing():
        for block in blocks("bindings/python/README.md"):
            if "prometheus" not in block:
                exec(block, found)
    assert capsys.readouterr().out == "2 True\n"
    return found


def test_the_blocks_of_the_page_run_as_they_are_printed(readme, tmp_path):
    begun = time.monotonic()
    readme["test_fetch_gives_up_after_nine_attempts"]()
    assert time.monotonic() - begun < 0.1
    assert readme["fetch_once"]("http://example.org", str(tmp_path / "job")) == b"ready" and not [*tmp_path.iterdir()]


def test_the_recipe_of_the_page_feeds_prometheus(readme):
    client = pytest.importorskip("prometheus_client", reason="not on this machine (Debian: python3-prometheus-client)")
    recipe, = (it for it in blocks("bindings/python/README.md") if "prometheus" in it)
    exec(recipe, readme)
    assert readme["counted"]("http://example.org") == b"ready"
    said = client.generate_latest().decode()
    for name in ["attempts_total", "call_seconds_count"]:
        assert f'{name}{{end="succeeded",name="fetch"}} 1.0' in said


def test_pages_have_the_bounds_of_the_default_policy(zsched):
    found = zsched.retrying().bounds(late=0)
    longest, total = (f"{it.total_seconds():g} s" for it in [found.longest, found.total])
    page, document = ((TOP / it).read_text().replace("\n  ", " ").replace("\n", " ")
                      for it in ["bindings/python/README.md", "docs/LIBRARY.md"])
    assert (f"`{zsched.DEFAULT}`, with `jitter=1`: at most {found.most} attempts, waits of at most {longest}, "
            f"and {total} of waits together") in page
    assert f"`{zsched.DEFAULT}` with full jitter: at most {found.most} attempts, and {total} of waits." in document
