"""Pages in a real browser, chromium. It can reach no host but this machine."""
import json
import os
import re
import shutil
import subprocess
import tempfile

import pytest


def opened(address, width=1280, words=()):
    """A page's document after its scripts have run, in a window of a width."""
    chromium = shutil.which("chromium") or pytest.skip("chromium isn't installed (Debian: chromium)")
    with tempfile.TemporaryDirectory(ignore_cleanup_errors=True) as folder:
        said = [chromium, "--headless=new", "--no-sandbox", "--disable-gpu", "--disable-background-networking",
                "--no-first-run", "--host-resolver-rules=MAP * ~NOTFOUND , EXCLUDE 127.0.0.1",
                f"--user-data-dir={folder}", f"--window-size={width},900", "--virtual-time-budget=8000", *words,
                "--dump-dom", address]
        ended = subprocess.run(said, capture_output=True, check=False, timeout=180, env={**os.environ, "HOME": folder})
    assert ended.returncode == 0, ended.stderr[-500:]
    return ended.stdout.decode()


def framed(folder, addresses, widths, found):
    """What a function of a page returns for each of these pages, at each of these widths."""
    frames = "".join(f'<iframe width="{width}" height="2500" src="{it}"></iframe>' for width in widths
                     for it in addresses)
    (folder / "frames.html").write_text(f"""<!doctype html>{frames}<p id="found"></p><script>
onload = () => setTimeout(() => {{ document.getElementById("found").textContent = JSON.stringify(
  [...document.querySelectorAll("iframe")].map(frame => ({found})(frame.contentDocument))); }}, 3000);</script>""")
    return json.loads(inside(opened(f"file://{folder}/frames.html", 1700, ["--allow-file-access-from-files"]), "found"))


def inside(document, name):
    """The content of the element with an id, up to the first end tag of its kind."""
    found = re.search(rf'<(\w+) [^>]*\bid="{name}"[^>]*>(.*?)</\1>', document, re.S)
    return found[2] if found else ""
