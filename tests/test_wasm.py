"""The library's proved module, compiled further: WebAssembly and C give what the library gives, docs/play.html gives
what both give, and packages without a native file for a machine use them."""
import base64
import html
import json
import os
import pathlib
import re
import shutil
import urllib.parse

import pytest

import languages
from all_calls import cases
from browser import inside, opened
from histories import histories, judge
from languages import ARM_COMPILER, BINDINGS, CLIENTS, ON_ARM, STRICT, Client, Place, built_library, need, ran
from support import TOP, output_of, plans_with_reports, report_beside, run
from zsched_tools import hints
from zsched_tools.command import Refused

PAGE = TOP / "docs/play.html"
PYTHON = "/usr/bin/python3"
TRAP = (3, b"", b"memory access out of bounds\n")
# What compiles the library's C, and what runs it.
COMPILERS = {"gcc": [], "clang": [], ARM_COMPILER: ON_ARM, "x86_64-w64-mingw32-gcc": ["/usr/lib/wine/wine64"]}


def given(number):
    """The first cases, as standard input."""
    return b"".join(cases(5000)[:number])


@pytest.fixture(scope="module")
def wasm():
    """build/wasm.py, which needs the toolchain."""
    need("rt", "wasm-opt", "wasm2c")
    import wasm
    return wasm


@pytest.fixture(scope="module")
def lines(library, tmp_path_factory):
    """A function that returns the lines of the library for the first cases."""
    room = tmp_path_factory.mktemp("calls")
    ran(["cc", "-std=gnu11", "-O2", "-I", TOP / "include", "-o", "calls", CLIENTS / "calls.c",
         library / "libzsched.a"], room)
    found = run(str(room / "calls"), given(5000))[1].splitlines()
    assert len({line.split(b" ", 1)[0] for line in found}) > 8
    return lambda number: found[:number + 1]


def ran_cases(file, number, *words):
    """The status, lines and error of a library in WebAssembly for the first cases."""
    need("node")
    return run(["node", str(CLIENTS / "calls.js"), str(file), *words], given(number), seconds=300)


def test_webassembly_gives_what_the_library_gives(lines, library):
    status, output, errors = ran_cases(library / "wasm/zsched.wasm", 5000)
    assert (status, errors) == (0, b"") and output.splitlines() == lines(5000)


def test_a_refused_memory_is_reported_or_does_not_matter(lines, library, wasm, tmp_path):
    """A memory of 2 MiB, of which the stack, the data and the cases take half, can't grow."""
    file = wasm.linked(library / "wasm/module.o", tmp_path, stack=wasm.BEGIN // 2 - 40_000, most=wasm.BEGIN)
    status, output, errors = ran_cases(file, 5000)
    differ = [(one.split(), other.split()) for one, other in zip(output.splitlines(), lines(5000), strict=True)
              if one != other]
    assert (status, errors) == (0, b"") and len(differ) > 20
    assert all(b"5" in (one[0], one[3], one[14], one[18]) for one, _ in differ)


@pytest.mark.parametrize("kib", [4, 16, 64])
def test_a_stack_that_is_too_small_ends_in_a_trap(kib, lines, library, wasm, tmp_path):
    file = wasm.linked(library / "wasm/module.o", tmp_path, stack=kib << 10)
    assert ran_cases(file, 1000) == TRAP


def test_pointers_of_32_bits_are_refused_and_would_be_noticed(lines, library, wasm, tmp_path, monkeypatch):
    """The compiler refuses the module for them. With an instruction of the module replaced, it compiles it, nothing
    fails, and results are wrong."""
    monkeypatch.setattr(wasm, "TARGET", "wasm32")
    monkeypatch.setattr(wasm, "FLAGS", [it for it in wasm.FLAGS if it != "-Werror"])
    with pytest.raises(Refused, match="PtrToAddr result must be address width"):
        wasm.compiled(library / "wasm/module.bc", tmp_path)
    clang = wasm.clang
    monkeypatch.setattr(wasm, "clang", lambda *words, **more: clang(*words, **more).replace("ptrtoaddr", "ptrtoint"))
    file = wasm.linked(wasm.compiled(library / "wasm/module.bc", tmp_path), tmp_path)
    status, output, errors = ran_cases(file, 200, "32")
    assert (status, errors) == (0, b"")
    assert sum(one != other for one, other in zip(output.splitlines(), lines(200), strict=True)) > 100


def beside(page, library, number):
    """What page_beside.js prints of the first cases."""
    need("node")
    words = ["node", CLIENTS / "page_beside.js", page, BINDINGS / "node/calls.js", library / "wasm/zsched.wasm"]
    status, output, errors = run([str(it) for it in words], given(number), seconds=300)
    assert (status, errors) == (0, b"")
    return json.loads(output)


def test_the_page_gives_the_faults_bounds_and_steps_of_the_proved_module(library):
    found = beside(PAGE, library, 5000)
    assert found.pop("differ") == [] and found["cases"] > 4900 and found["faults"] > 500 and found["steps"] > 20_000


@pytest.mark.parametrize("before, after", [
    ("n++ < term.n ? m : null", "n++ <= term.n ? m : null"),
    ("wait: [early, n], stops", "wait: [early, n + 1n], stops"),
    ("more(x.wait[1], y.wait[1])", "less(x.wait[1], y.wait[1])"),
    ("no term at byte ${this.at}", "no term at byte ${this.end}")])
def test_a_page_that_is_wrong_is_noticed(before, after, library, tmp_path):
    text = PAGE.read_text()
    assert before in text
    (tmp_path / "wrong.html").write_text(text.replace(before, after))
    assert beside(tmp_path / "wrong.html", library, 500)["differ"]


def test_the_page_gives_the_same_in_a_browser(library, tmp_path):
    """With its policy for contents but for what the module and these scripts need."""
    scripts = [(BINDINGS / "node/calls.js").read_text().replace("module.exports", "globalThis.exported"),
               (CLIENTS / "page_beside.js").read_text()]
    module = base64.b64encode((library / "wasm/zsched.wasm").read_bytes()).decode()
    lines = given(1000).decode().splitlines()
    scripts.append(f"""const wasm = Uint8Array.from(atob("{module}"), (it) => it.charCodeAt(0));
document.body.innerHTML = '<pre id="found"></pre>';
document.getElementById("found").textContent = JSON.stringify(
  beside(exported.callsOf(wasm), {{ zsched, bounding }}, {json.dumps(lines)}));""")
    page = re.sub(r'content="default-src[^"]*"', 'content=""', PAGE.read_text())
    page = page.replace("</body>", "".join(f"<script>{{{it}}}</script>" for it in scripts) + "</body>")
    (tmp_path / "page.html").write_text(page)
    found = json.loads(html.unescape(inside(opened(f"file://{tmp_path}/page.html"), "found")))
    assert found.pop("differ") == [] and found["cases"] > 950


def released(module, room, *changes):
    """The page of a release over a module, with texts replaced."""
    text = output_of([TOP / "build/page", "--module", module])
    for before, after in changes:
        assert text.count(before) == 1
        text = text.replace(before, after)
    policy = hints.script_sources(text)
    (room / "play.html").write_text(re.sub("(?<=script-src )[^;]* (?='wasm-)", f"{policy} ", text, count=1))
    return room / "play.html"


def said_of(page, schedule):
    """What a page in a browser says of itself, of a schedule, and of the steps of its report."""
    document = opened(f"file://{page}#{urllib.parse.urlencode({'a': schedule, 'attempt': '5s'})}")
    bounds, *steps = re.findall("<small[^>]*>(.*?)</small>", re.search('id="state".*?id="shown"', document, re.S)[0])
    return inside(document, "engine"), bounds.partition(":")[0], *steps


POLICY = "(exponential(100) && recurs(5))"
SAME = "The proved module makes the same steps: 6 of the report's 6."
OTHER_STEP = "The proved module makes another step than A: step 6 out (3200,5) next 36300"
PROVED, UNPROVED = "by the proved module", "unproved"
OTHER_BOUNDS = "unproved, and not what the proved module says"


def test_the_page_of_a_release_shows_the_bounds_and_steps_of_the_proved_module(library, tmp_path):
    engine, *said = said_of(released(library / "wasm/zsched.wasm", tmp_path), POLICY)
    assert re.search("zsched's proved library, compiled further to WebAssembly.* Trusted beside its proof: ", engine)
    assert said == [PROVED, SAME]
    engine, *said = said_of(PAGE, POLICY)
    assert "proved library" not in engine and said == [UNPROVED]


@pytest.mark.parametrize("before, after, said", [
    ("more(x.wait[1], y.wait[1])", "less(x.wait[1], y.wait[1])", [OTHER_BOUNDS, SAME]),
    ("n++ < term.n ? m : null", "n++ <= term.n ? m : null", [PROVED, OTHER_STEP])])
def test_a_page_of_a_release_that_is_wrong_is_noticed(before, after, said, library, tmp_path):
    assert said_of(released(library / "wasm/zsched.wasm", tmp_path, (before, after)), POLICY)[1:] == tuple(said)


def test_a_wrong_module_in_the_page_is_noticed(library, wasm, tmp_path, monkeypatch):
    """It takes 99 for 100 percent; and one that is no module leaves a page that claims nothing."""
    clang = wasm.clang
    monkeypatch.setattr(wasm, "clang", lambda *words, **more: re.sub(r"(i128\b.*\b)100\b", r"\g<1>99", clang(
        *words, **more)))
    file = wasm.linked(wasm.compiled(library / "wasm/module.bc", tmp_path), tmp_path)
    assert said_of(released(file, tmp_path), POLICY)[1:] == (OTHER_BOUNDS, SAME)
    file.write_bytes(file.read_bytes()[:-1])
    engine, *said = said_of(released(file, tmp_path), POLICY)
    assert "proved library" not in engine and said == [UNPROVED]


def test_the_module_in_the_page_makes_each_step_of_the_proved_reports(library, tmp_path):
    need("node")
    asked = [["proving.stepsOf", report_beside(it).decode(),
              [job["schedule"] for job in json.loads(it.read_bytes())["jobs"]]] for it in plans_with_reports()]
    words = ["node", TOP / "tests/page_scripts.js", released(library / "wasm/zsched.wasm", tmp_path)]
    status, output, errors = run([str(it) for it in words], "".join(f"{json.dumps(it)}\n" for it in asked).encode())
    assert (status, errors) == (0, b"")
    found = [json.loads(it) for it in output.splitlines()]
    assert [it["wrong"] for it in found] == [None] * len(asked) and sum(it["made"] for it in found) > 1000


def compiled(compiler, library, room):
    """An object file of the library in C."""
    need(compiler)
    ran([compiler, "-std=gnu11", "-O1", "-c", "-o", "zsched.o", library / "wasm/zsched.c"], room)
    return room / "zsched.o"


@pytest.mark.parametrize("compiler", COMPILERS)
def test_the_library_in_c_gives_what_the_library_gives(compiler, lines, library, tmp_path):
    before = COMPILERS[compiler]
    need(*before[:1])
    ran([compiler, "-std=gnu11", "-I", TOP / "include", "-o", "calls.exe", CLIENTS / "calls.c",
         compiled(compiler, library, tmp_path), *["-static"] * bool(before), "-lpthread"], tmp_path)
    status, output, _ = run([*before, str(tmp_path / "calls.exe")], given(1000), seconds=300, environment={
        **os.environ, "WINEPREFIX": str(tmp_path / "wine"), "WINEDEBUG": "-all"})
    assert status == 0 and output.splitlines() == lines(1000)


@pytest.mark.parametrize("is_further", [False, True], ids=["the library", "the library in C"])
def test_no_length_above_32_bits_is_cut(is_further, library, tmp_path):
    made = compiled("gcc", library, tmp_path) if is_further else library / "libzsched.a"
    ran(["cc", *STRICT, "-I", TOP / "include", "-o", "long", CLIENTS / "long.c", made, "-lpthread"], tmp_path)
    assert ran(["./long"], tmp_path) == ""


def test_threads_may_call_the_library_in_c_at_once(library, tmp_path):
    """With as much stack as zsched.h says."""
    made = languages.c(tmp_path, Place(TOP / "include", library, [
        "-I", TOP / "include", compiled("gcc", library, tmp_path)]))
    asked = [it.request("program") for it in histories()[:300]]
    judge(made, histories()[:300], "program", "threads")
    assert made.says(asked, "threads") == made.says(asked)


def unpacked(language, end, name, library, room):
    """The files of a package, without a native library or addon in it; but it has this file that is tested."""
    words = [TOP / "build/packages", language, "--out", room / "made", "--library", library]
    made, = [it for it in output_of(words).split() if it.endswith(end)]
    shutil.unpack_archive(made, room / "files", "gztar")
    hidden = [it for form in ["libzsched.a", "zsched.node"] for it in (room / "files").rglob(form)]
    for it in hidden:
        it.unlink()
    folder, = (room / "files").iterdir()
    assert hidden and (folder / name).read_bytes() == (library / "wasm" / name).read_bytes()
    return folder


def test_a_source_distribution_without_an_archive_is_installed(library, tmp_path):
    folder = unpacked("python", ".tar.gz", "zsched.c", library, tmp_path)
    ran([PYTHON, "-m", "pip", "install", "--quiet", "--no-index", "--no-deps", "--no-build-isolation", "--target",
         "site", folder], tmp_path)
    assert b"zs_room" in (tmp_path / "site/zsched/libzsched.so").read_bytes()
    judge(Client([PYTHON, "-B", CLIENTS / "client.py"], {"PYTHONPATH": str(tmp_path / "site")}), [
        it for it in histories()[:300] if b"\n" not in it.text and it.text.isascii()], "program")


def test_a_module_of_go_is_built_without_its_archives(library, tmp_path):
    made = languages.go(tmp_path, built_library(library), "-tags", "zsched_source")
    assert b"Z_zschedZ_zs_plan" in pathlib.Path(*made.words).read_bytes()
    judge(made, histories()[:300], "program")


def test_a_package_of_node_without_an_addon_takes_webassembly(library, tmp_path):
    need("npm")
    folder = unpacked("node", ".tgz", "zsched.wasm", library, tmp_path)
    # As on a machine with another processor and system.
    (tmp_path / "mac.js").write_text("Object.defineProperty(process, 'platform', { value: 'darwin' });\n")
    ran(["npm", "install", "--offline", "--no-audit", "--no-fund", folder], tmp_path, npm_config_cache="cache",
        NODE_OPTIONS=f"--require {tmp_path / 'mac.js'}")
    shutil.copy(CLIENTS / "client.js", tmp_path)
    judge(Client(["node", tmp_path / "client.js"], {}), histories()[:300], "program", longest=2 ** 53 - 1)
