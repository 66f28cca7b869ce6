"""docs/play.html: its evaluator against the reference, its bounds against tests/bounds.py, its pictures; the file; and
the page in a real browser. What else its functions return are the cases in tests/cases/play-page.txt."""
import base64
import contextlib
import json
import random
import re
import shutil
import subprocess
import urllib.parse
import xml.etree.ElementTree

import pytest

import bounds
import faults
import generator
import reference
from browser import framed, inside, opened
from case_files import unpacked
from mistakes import MISTAKES, split
from reports import jobs_of
from support import TOP, examples, output_of, plan, plans_with_reports, run_here
from zsched_tools import drawn, hints, schedule_rules
from zsched_tools.outage import certificate
from zsched_tools.outage import command as outage
from zsched_tools.outage.scenario import read_scenario
from zsched_tools.place import FaultAt
from zsched_tools.policy import configs
from zsched_tools.policy.reading import Wrong
from zsched_tools.trying import command as trying

PAGE = TOP / "docs" / "play.html"
TEXT = PAGE.read_text()
EXAMPLES = json.loads(re.search(r'id="example-list">\n(.*?)</script>', TEXT, re.S)[1])
BACKOFF = (TOP / "examples" / "capped_backoff.json.stdout").read_text()
MOST_ATTEMPTS = 2100


@contextlib.contextmanager
def functions_of(path):
    """A function that calls those of a page, by their names."""
    node = shutil.which("node") or pytest.skip("node isn't installed (Debian: nodejs)")
    words, pipe = [node, TOP / "tests" / "page_scripts.js", path], subprocess.PIPE
    with subprocess.Popen(words, stdin=pipe, stdout=pipe) as child:
        def call(*words):
            child.stdin.write(f"{json.dumps(words)}\n".encode())
            child.stdin.flush()
            return json.loads(child.stdout.readline())
        yield call


@pytest.fixture(scope="module")
def page():
    with functions_of(PAGE) as call:
        yield call


def answer(page, text):
    """The status, report and fault's line of the page's evaluator for a plan."""
    status, report, fault = page("page.answer", base64.b64encode(text).decode())
    return status, report.encode(), fault.encode()


@pytest.mark.parametrize("text, wanted", faults.answers())
def test_the_evaluator_gives_each_fault_and_each_report_also_of_plans_at_the_limits(page, text, wanted):
    assert answer(page, text) == wanted


@pytest.mark.parametrize("part", range(8))
def test_the_evaluator_gives_what_the_reference_gives_on_random_plans(page, part):
    found = set()
    for seed in range(part, examples(2000), 8):
        text = generator.plan_of(seed)
        wanted = reference.answer(text, MOST_ATTEMPTS)
        assert answer(page, text) == wanted, f"seed {seed}"
        found.add(wanted[2].rstrip(b"0123456789\n"))
    assert len(found) > 20


def test_an_evaluator_that_counts_wrong_is_noticed(tmp_path):
    wrong = tmp_path / "wrong.html"
    wrong.write_text(TEXT.replace("n++ < term.n ? m : null", "n++ <= term.n ? m : null"))
    text = plan().replace(b"recurs(3)", b"recurs(0)")
    with functions_of(wrong) as call:
        assert answer(call, plan()) == reference.answer(plan())
        assert answer(call, text) != reference.answer(text)


RANDOM = [found[0] for seed in range(examples(400)) if (found := bounds.random_policy(seed))]
PLANNED = {job["schedule"] for path in plans_with_reports() for job in json.loads(path.read_bytes())["jobs"]}


@pytest.mark.parametrize("texts, least", [(RANDOM, 100), (sorted(PLANNED), 60)], ids=["random", "of the plans"])
def test_bounds_are_those_of_the_interval_run(page, texts, least, steps=120):
    short = [text for text in texts if len(text) < 2000]
    for text in short:
        durations, waits = (random.Random(text).choice(it) for it in (bounds.DURATIONS, bounds.WAITS))
        found = page("page.bounds", text, steps, durations, [None if it == bounds.MOST else it for it in waits])
        wanted = bounds.bounds(reference.read_schedule(text.encode()), durations, steps, waits)
        keys = {"longest": "longest_wait", "every": "every", "total": "total_wait", "run": "longest_run",
                "seen": "steps_seen"}
        assert {it: found[it] and int(found[it]) for it in [*keys, "least", "most"]} == {
            it: wanted[key] for it, key in keys.items()} | wanted["attempts"], (text, durations, waits)
        assert found["isEndless"] == wanted["never_gives_up"], text
        assert found["isCut"] == wanted["is_cut"], text
    assert len(short) > least


def wrong_schedules():
    """Schedules with a mistake: those of mistakes.tsv, names and symbols of others, and a good one that is changed."""
    good = "((exponential(100, 2) || spaced(2000)).map(_1) && identity.whileInput(>= 500)).resetWhen(_2 = 4).collectAll"
    yield from (json.loads(split(marked)[0])["jobs"][0]["schedule"] for _, marked, fault, _ in MISTAKES
                if fault.startswith("job 0: schedule: "))
    yield from (form.format(name) for name in hints.ZIO
                for form in ["{}(3)", "recurs(3).{}(5)", "(recurs(3) {} forever)"])
    yield from (form.format(it) for it in hints.SYMBOLS
                for form in ["(recurs(3) {} forever)", "forever.whileInput({} 5)"])
    for at in range(len(good)):
        yield from (good[:at] + more + good[at + size:] for size in [0, 1, 2]
                    for more in ["", *"().,;&|<=_1x5-é", "5s", "&& "])


def said_by_tools(text, fault, zsched):
    """What the tools say of a policy. `fault` is zsched's of its least draw, or None."""
    try:
        policy = drawn.Policy(text, zsched)
        draws = [policy.texts(it) for it in (drawn.LOW, drawn.HIGH, drawn.seeded(7, 3)) if policy.is_drawn]
        if fault is None:
            return ["A", *[f"is {policy.spelled}"][policy.spelled == text:], *draws]
        cause = policy.cause_at(drawn.LOW, schedule_rules.any_cause(policy.schedule(drawn.LOW), fault))
    except FaultAt as found:
        cause = found.cause
    return dict(zip(["at", "size", "cause", "help"], cause))


def test_a_policy_and_its_fault_are_as_the_tools_say(page, zsched):
    policies = (TOP / "tests" / "policies.txt").read_text().splitlines()
    # The tools take @NAME for a file.
    said = [(text, page("page.explained", text)) for text in [*policies, *wrong_schedules()] if text[:1] != "@"]
    for text, found in said:
        fault = found.pop("text", None) if isinstance(found, dict) else None
        assert found == said_by_tools(text, fault, zsched), text
    assert sum(isinstance(found, dict) for _, found in said) > 4000


def test_json_configs_are_read_as_zsched_policy_reads_them(page):
    """Those of three formats. A config that the tool rejects has no policies in the page."""
    paths = [it for it in unpacked("zsched-policy").glob("*/*.json") if it.parent.name != "json_that_ends_early"]
    for path in paths:
        try:
            lines = [configs.members(it, it.read()) for it in configs.policies_of(str(path))]
            wanted = [line for line in lines if line["format"] in ["grpc", "envoy", "temporal"]]
        except Wrong:
            wanted = {"fault": "not a policy"}
        assert page("asking.configsOf", json.loads(path.read_text())) == wanted, path
    assert len(paths) > 10


def test_the_plan_is_what_the_fields_say(page):
    fields = {"a": "spaced(7)", "b": "forever", "until": "2min", "start": "1s",
              "script": "1.5s err 503 x2, 35 ok 18446744073709551615"}
    script = [{"ms": 1500, "err": 503}] * 2 + [{"ms": 35, "ok": 18446744073709551615}]
    jobs = [{"name": name, "mode": "retry", "start": 1000, "schedule": schedule, "script": script}
            for name, schedule in [("A", "spaced(7)"), ("B", "forever")]]
    assert json.loads(page("page.plan", fields)["text"]) == {"horizon": 120000, "jobs": jobs}


def test_ten_examples_give_reports(page):
    assert [bool(jobs_of(page("page.report", example))) for example in EXAMPLES] == [True] * 10


def test_what_is_typed_never_becomes_markup(page):
    typed = 'recurs(3)"<script>alert(1)</script>\\'
    assert json.loads(page("page.plan", {"a": typed})["text"])["jobs"][0]["schedule"] == typed
    assert set(re.findall(r"innerHTML = (.*);", TEXT)) == {"drawn.svg", "curves"}


def test_in_an_outage_each_attempt_meets_the_service_as_it_is_at_its_begin(page):
    text = page("page.plan", {
        "world": "outage", "a": "(exponential(rand(50, 150)) || spaced(rand(1000,3000)))", "until": "3min",
        "b": "(spaced(500) && recurs(9))", "down": "5s..35s, 1min..70s", "spread": "70s"})["text"]
    jobs = jobs_of(reference.answer(text.encode(), MOST_ATTEMPTS)[1])
    attempts = [it for job in jobs for it in job.attempts if it.end is not None]
    for it in attempts:
        is_down = 5000 <= it.begin < 35000 or 60000 <= it.begin < 70000
        assert (it.how, it.value, it.end - it.begin) == (("err", 503, 50) if is_down else ("ok", 200, 40))
    assert [job["start"] for job in json.loads(text)["jobs"]] == [3500 * number for number in range(20)] * 2
    assert len(attempts) > 200 and sum(job.how == "failed" for job in jobs) > 1


@pytest.mark.parametrize("policy, cuts", [
    ("(exponential(100) && recurs(9)) jitter full", 0), ("spaced(rand(500, 900))", 0),
    ("(exponential(100) && recurs(20)) call 3500ms", 11), ("spaced(rand(50, 90)) attempt 30ms call 4s on 503", 20),
    ("spaced(150) call 5s", 8)])
def test_an_outage_with_a_capacity_is_that_of_zsched_outage(page, policy, cuts, zsched):
    fields = {"world": "outage", "a": policy, "until": "30s", "spread": "1s", "down": "0..2s", "capacity": "3",
              "seed": "5"}
    parts = {"horizon": 30000, "seed": 5, "clients": {"number": 20, "within": 1000}, "policies": {"a": policy},
             "windows": [{"from": 0, "to": 2000, "is": "down"}, {"from": 2000, "capacity": 3}]}
    scenario = read_scenario(json.dumps(parts).encode())
    [report] = outage.simulate(scenario, str(zsched), "a", 50, lambda share, words: None)[2]
    scenario = scenario.limited(scenario.policies["a"][0])
    theirs = [certificate._cut(it, scenario.limit_of(number))
              for number, it in enumerate(certificate.clients_in(report))]
    rows = page("page.rows", fields)
    ours = [[it["name"] for it in rows], [[int(it["begin"]) for it in row["attempts"]] for row in rows],
            [[int(it["end"]) - int(it["begin"]) for it in row["attempts"]] for row in rows],
            [(row["ending"]["how"], int(row["ending"]["at"])) for row in rows]]
    assert ours[1:] == [[[*it.begins] for it in theirs], [[*it.lengths] for it in theirs],
                        [(it.ending.how, it.ending.at) for it in theirs]]
    assert sum(map(len, ours[1])) > 100 and sum(how == "cut" for how, _ in ours[3]) == cuts


# Fields of the page, and the words of zsched-try for the same.
LIMITS = [
    ("exponential(100) call 3s attempt 200ms", {}, []),
    ("(exponential(100) && recurs(9)) call 1500ms", {"script": "40 err 503"}, ["--fails", "40 err 503"]),
    # An attempt ends at the limit, one would begin at it, one succeeds at it, and the schedule is done at it.
    ("spaced(60) call 340ms", {"script": "40 err 503"}, ["--fails", "40 err 503"]),
    ("spaced(60) call 300ms", {"script": "40 err 503"}, ["--fails", "40 err 503"]),
    ("spaced(60) call 140ms", {"script": "40 err 503, 40 ok 200"},
     ["--fails", "40 err 503", "--after", "1", "--then", "40 ok 200"]),
    ("(spaced(60) && recurs(1)) call 140ms", {"script": "40 err 503"}, ["--fails", "40 err 503"]),
    ("(spaced(60) && recurs(1)) call 139ms", {"script": "40 err 503"}, ["--fails", "40 err 503"]),
    ("(spaced(100) && recurs(3)) call 20ms", {"script": "40 err 503"}, ["--fails", "40 err 503"]),
    ("(spaced(100) && recurs(3)) jitter full call 1s attempt 50ms on 5xx", {"seed": "3"}, ["--seed", "3"]),
    # The horizon is before the limit, is the limit, and is after it.
    ("spaced(60) call 400ms", {"script": "40 err 503", "until": "399"}, ["--fails", "40 err 503", "--until", "399"]),
    ("spaced(60) call 400ms", {"script": "40 err 503", "until": "400"}, ["--fails", "40 err 503", "--until", "400"]),
    ("spaced(60) call 400ms", {"script": "40 err 503", "until": "401"}, ["--fails", "40 err 503", "--until", "401"]),
    ("(spaced(60) && recurs(2)) attempt 70ms", {"attempt": "20ms..5s"}, ["--attempt", "20ms..5s"]),
    ("(spaced(60) && recurs(2)) attempt 70ms call 1h", {"attempt": "20ms"}, ["--attempt", "20ms"]),
    ("(spaced(60) && recurs(2)) on 404 call 1s", {"script": "40 err 503"}, ["--fails", "40 err 503"]),
    ("recurs(1) call 1s", {"mode": "repeat", "script": "700 ok 1"}, ["--mode", "repeat", "--fails", "700 ok 1"])]


@pytest.mark.parametrize("policy, fields, words", LIMITS, ids=[f"{it[0]} {it[1].get('until', '')}" for it in LIMITS])
def test_limits_are_applied_as_zsched_try_applies_them(page, policy, fields, words, zsched, bounds, monkeypatch):
    monkeypatch.setenv("ZSCHED", str(zsched))
    monkeypatch.setenv("ZSCHED_BOUNDS", str(bounds))
    fields = {"a": policy, "script": "err 503", "until": "1min", **fields}
    status, output, errors = run_here(trying.main, ["zsched-try", policy, "--until", "1min", *words, "--json"])
    wanted = json.loads(output)["policies"][0]
    [found] = page("page.tried", fields)
    assert (found["how"], found["attempts"], *map(int, [found["end_ms"], found["total"], found["longest"]])) == tuple(
        wanted[it] for it in ["how", "attempts", "end_ms", "waited_ms", "longest_wait_ms"]), errors
    line = run_here(trying.main, ["zsched-try", policy, "--until", "1min", *words])[1].splitlines()[1]
    assert page("page.bounded", fields) == line.removeprefix("unproved: ")


def test_an_attempt_that_is_longer_than_its_limit_is_rejected_as_by_zsched_try(page):
    fields = {"a": "x: recurs(1) attempt 1s", "b": "y: recurs(2)", "script": "999 err 503, 1001 err 503"}
    fault = {"fault": '"1001 err 503" takes a time that the limit of x, 1 s, excludes', "field": "script"}
    assert page("page.tried", fields) == fault
    fields["a"] = "x: recurs(1) attempt 1001ms"
    assert [it["how"] for it in page("page.tried", fields)] == 2 * ["unfinished"]


def test_the_same_seed_gives_the_same_plan(page):
    fields = {"world": "outage", "a": "spaced(rand(1, 1000000))"}
    one, again, other = (page("page.plan", {**fields, "seed": seed})["text"] for seed in "112")
    numbers = {int(found) for found in re.findall(r"spaced\((\d+)\)", one)}
    assert one == again != other and len(numbers) > 15 and all(1 <= number <= 1000000 for number in numbers)


@pytest.mark.parametrize("width", [330, 1200])
@pytest.mark.parametrize("is_log", [False, True])
def test_nothing_is_outside_of_a_picture(page, width, is_log):
    reports = sorted(TOP.glob("examples/*.stdout"))
    assert len(reports) > 30
    for path in reports:
        svg = page("page.picture", path.read_text(), {"width": width, "isLog": is_log})
        root = xml.etree.ElementTree.fromstring(svg)
        height = float(root.get("height"))
        assert float(root.get("width")) == width
        for it in root.iter():
            x, y, wide, tall = (float(it.get(key, 0)) for key in ["x", "y", "width", "height"])
            assert 0 <= x <= x + wide <= width + 0.1 and 0 <= y <= y + tall <= height, (path.name, it.attrib)


# Attempts of 40 ms; a limit of the call cuts what begins later, and nothing is known if a part alone is drawn.
@pytest.mark.parametrize("policy, wanted", [
    ("(exponential(100) && recurs(3)) jitter full", [[0, 0], [40, 140], [80, 380], [120, 820]]),
    ("spaced(30) jitter 50% call 200ms", [[0, 0], [55, 85], [110, 170]]),
    ("(spaced(9) jitter full && fixed(25))", []), ("(exponential(100) && recurs(3))", [])])
def test_the_picture_shows_where_each_attempt_may_begin(page, policy, wanted, zsched, bounds):
    fields = {"a": policy, "script": "40 err 503"}
    assert page("page.draws", fields) == [[list(map(str, it)) for it in wanted]]
    words = [policy, "--fails", "40 err 503", "--until", "1s", "--zsched", zsched, "--bounds", bounds, "--html", "-"]
    known = re.search('"draws": (.*?\\]\\])', run_here(trying.main, ["zsched-try", *words])[1])
    assert (json.loads(known[1]) if known else []) == wanted


@pytest.mark.parametrize("said, end", [
    ("unproved: for every input: 2 attempts, always; no waits; ends within 1 min 1.5 s", ["61507", "unproved end"]),
    ("for every input: 2 attempts, always; no waits; ends within 80 ms", ["87", "proved end"]),
    ("for every input: never gives up; ends within 3 s by the call's limit", ["3007", "end by the call's limit"]),
    ("for every input: 2 attempts, always; no waits; no proved end", None), (None, None)])
def test_the_picture_shows_the_end_that_is_said(page, said, end):
    report = "job A retry\nattempt 1 7..9 err 503\nstep 1 out 0 done\nend failed 503 at 9 polls 2\npolls 2\n"
    [row] = page("(report, bounds) => asking.rowsOf(report, [{ call: null }], bounds)", report, [said])
    assert row.get("end") == (end and dict(zip(["at", "said"], end)))


@pytest.mark.full
def test_a_run_as_a_page_is_whole_from_360_to_1600_pixels(zsched, bounds, tmp_path):
    policies = {"draws": ["(exponential(100) && recurs(5)) jitter full", "cut: (spaced(500) && recurs(9)) call 2s"],
                "layers": ["one: (spaced(100) && recurs(1))", "--over", "two: recurs(1)", "--over", "three: recurs(1)"]}
    for name, words in policies.items():
        words = ["--attempt", "300ms", "--html", tmp_path / f"{name}.html", *words, "--zsched", zsched]
        assert run_here(trying.main, ["zsched-try", *words, "--bounds", bounds])[0] == 0
    found = framed(tmp_path, [f"{name}.html" for name in policies], [360, 400, 1280, 1600], """page => {
  const width = page.documentElement.clientWidth, all = style => [...page.querySelectorAll("main " + style)];
  const beyond = [...page.querySelectorAll("body *")].filter(it => it.getBoundingClientRect().right > width + 1);
  const places = [...new Set(all(".name").map(it => Number(it.getAttribute("x"))))];
  return [page.documentElement.scrollWidth <= width, beyond.length, ...["rect.draws", "path.proof", "path.claim"].map(
    it => all(it).length), places.map(it => it - places[0])]; }""")
    assert found == [[True, 0, 6, 2, 2, [0]], [True, 0, 0, 2, 0, [0, 12, 24]]] * 4


@pytest.mark.parametrize("name, begin, below", [("a-name-that-leaves-no-room", "a-name", 15), ("short", "short", 0)])
def test_a_verdict_in_a_narrow_picture_is_whole(page, name, begin, below):
    end = "attempt 1 0..40 err 503\nstep 1 out 0 done\nend failed 503 at 40 polls 2\n"
    svg = page("page.picture", f"job {name} retry\n{end}polls 2\n", {"width": 376})
    shown = re.findall(r'<text [^>]*y="([\d.]+)"[^>]*>([^<]*)', svg)
    [named] = [float(y) for y, words in shown if words.startswith(begin)]
    [verdict] = [float(y) for y, words in shown if words.startswith("gives up with 503 after 1 attempt, 40 ms")]
    assert verdict - named == below


def test_each_attempt_that_is_shown_has_a_title(page):
    attempts = [it for job in jobs_of(BACKOFF) for it in job.attempts]
    for begin, end, part in [(0, 10**15, {}), (12000, 30000, {"from": 12000, "to": 30000})]:
        svg = page("page.picture", BACKOFF, {"width": 1200, **part})
        titles = re.findall(r"<title>attempt \d+ of \S+: (\d+)\.\.", svg)
        assert list(map(int, titles)) == [it.begin for it in attempts if it.end >= begin and it.begin <= end]


def test_the_page_loads_nothing_from_elsewhere_and_says_what_its_evaluator_is():
    assert re.findall(r"https?:|//[a-z]|@import|url\(", TEXT.replace("// ", "")) == []
    assert set(re.findall(r'\b(?:src|href)="([^"]*)"', TEXT)) == {"data:,"}
    assert re.search("Content-Security-Policy\"\\s+content=\"default-src 'none'; ", TEXT)
    allowed = re.search("script-src ([^;]*);", TEXT)[1]
    assert allowed.count("'sha256-") == 7 and allowed == hints.script_sources(TEXT), "build/page writes it"
    assert re.findall(r"fetch\((.*?),", TEXT) == ["`/report?${query}`"]
    assert "a separate implementation of zsched, unproved and in" in TEXT


def test_every_field_has_a_label_and_a_place_for_its_fault():
    named = set(re.findall(r'<label for="(\w+)"', TEXT))
    defaults = re.search(r"const DEFAULTS = \{(.*?)\};", TEXT, re.S)[1]
    fields = set(re.findall(r'<(?:input|textarea|select) id="(\w+)"', TEXT))
    assert named == fields == set(re.findall(r'(\w+): "', defaults)) and len(named) == 17
    assert set(re.findall(r'id="(\w+)-fault"', TEXT)) == (named | {"plan"}) - {"world"}


@pytest.mark.parametrize("name", hints.PIECES)
def test_its_pieces_are_those_of_the_tools(name):
    found = re.search(rf'<(script|style)[^>]* id="{name}">\n(.*?)</\1>', TEXT, re.S)[2]
    assert found == hints.PIECES[name] and len(found) > 900, "build/page writes it"


def brightness(color):
    """The relative luminance of #rrggbb or #rgb, as the guidelines for accessible pages (WCAG) define it."""
    digits = color[1:] if len(color) == 7 else "".join(2 * digit for digit in color[1:])
    parts = [int(digits[at:at + 2], 16) / 255 for at in (0, 2, 4)]
    linear = [part / 12.92 if part <= 0.04045 else ((part + 0.055) / 1.055)**2.4 for part in parts]
    return sum(share * part for share, part in zip([0.2126, 0.7152, 0.0722], linear))


def test_letters_are_readable_on_each_ground_by_day_and_at_night():
    themes = [dict(re.findall(r"--(\w+): (#[0-9a-f]+);", block))
              for block in re.findall(r":root \{(.*?)\}", hints.PIECES["drawing-style"], re.S)]
    for colors in themes:
        light = {name: brightness(color) + 0.05 for name, color in colors.items()}
        for name in ["ink", "soft", "green", "red", "ok", "err"]:
            for ground in ["page", "band", "down"]:
                low, high = sorted([light[name], light[ground]])
                assert high / low >= (3 if name in ["ok", "err"] else 4.5), (name, ground, colors)
        # An area of errors is darker than one of successes, whatever the hue.
        assert light["ok"] / light["err"] >= 2
    assert len(themes) == 2 and "::placeholder { color: var(--soft); opacity: 1; }" in TEXT
    assert min(int(size) for size in re.findall(r"font(?:-size)?: (?:600 )?(\d+)px", TEXT)) >= 11


def shown(**fields): return opened(f"file://{PAGE}#{urllib.parse.urlencode(fields)}" if fields else f"file://{PAGE}")


@pytest.mark.full
def test_a_browser_shows_the_first_example():
    document = shown()
    assert "unproved and in JavaScript" in inside(document, "engine")
    assert re.findall('aria-pressed="true">(.*?)<', document) == ["Backoff with a cap"]
    said = inside(document, "state").replace("\n", "")
    assert "A: gives up with 503 after 11 attempts, 13.54 s; longest wait 2 s" in said
    # 100, 200, 400, 800, 1600, and 2000 five times.
    assert "unproved: for every input: 11 attempts, always; waits of at most 2 s, 13.1 s in all" in document
    assert "end failed 503 at 13540 polls 22" in inside(document, "report")
    assert re.search(r'<div id="picture"[^>]*><svg ', document) and 'class="fault shown"' not in document


@pytest.mark.full
def test_a_browser_says_what_holds_for_every_draw_with_late_timers_and_waits_on_request():
    """1.65 s after each of five failures, and six attempts of 5 s; of a part that is drawn nothing is said."""
    document = shown(a="(exponential(100) && recurs(5)) jitter full", b="(spaced(rand(1, 2)) && recurs(5))",
                     attempt="5s", late="50ms", asked="1600ms")
    assert re.findall("unproved: for every [^<]*", document) == [
        "unproved: for every draw and input and attempts of at most 5 s that begin up to 50 ms late and Retry-After of "
        "up to 1.6 s: 6 attempts, always; waits of at most 1.65 s, 8.25 s in all; ends within 38.25 s"]
    document = shown(a="(exponential(100) && recurs(5)) jitter +0..2s", attempt="5s", late="50ms")
    assert re.findall("late: 6 attempts[^<]*", document) == [
        "late: 6 attempts, always; waits of at most 3.65 s, 13.35 s in all; ends within 43.35 s"]
    assert '"soon" is not a duration' in inside(shown(a="recurs(3)", late="soon"), "late-fault")


@pytest.mark.full
def test_a_browser_shows_the_limits_of_a_policy():
    """Attempts of 200 ms end at 200, 500, 900, 1500 and 2500 ms, and the sixth would begin at 4100."""
    document = shown(a="exponential(100) call 3s attempt 200ms", script="err 503")
    assert "A: is ended by the call's limit after 5 attempts, 3 s; longest wait 800 ms" in inside(document, "state")
    assert "ends within 3 s by the call's limit" in document and "The plan and the report go on" in document
    assert document.count("<title>the limit of the call</title>") == 1 and "by the call's limit</td>" in document
    document = shown(a="exponential(100) call 3s", world="outage", down="0..1min", until="2min")
    assert "A: 0 of 200 clients are served, 200 give up (200 by the call's limit); 1000 attempts" in document
    assert "The report was checked: each of its 1000 attempts ends" in document


@pytest.mark.full
def test_a_browser_compares_two_policies_in_an_outage():
    document = shown(a="exponential(100)", b="spaced(1000)", world="outage", until="3min")
    served = "all 200 clients are served, the last at "
    assert re.search(rf"A: {served}.*B: {served}", document)
    assert re.search(r"each of its \d+ attempts ends as the service says for its moment", document)
    assert len(re.findall(r"attempts that begin in each 1 s</text>", document)) == 0
    assert len(re.findall(r'aria-label="[AB]: attempts that begin in each 1 s"', document)) == 2


@pytest.mark.full
def test_nothing_is_out_of_sight_from_360_to_1600_pixels(tmp_path):
    queries = ["", urllib.parse.urlencode({"a": "exponential(100)", "b": "fibonacci(100)", "world": "outage"}),
               urllib.parse.urlencode({"a": "(" * 300, "b": "recurs(1)" + ".collectAll" * 9})]
    found = framed(tmp_path, [f"file://{PAGE}#{query}" for query in queries], [360, 400, 1280, 1600], """page => {
  const width = page.documentElement.clientWidth;
  const beyond = [...page.querySelectorAll("body *")].filter(it => !it.closest("pre") && it.tagName !== "path"
    && it.getBoundingClientRect().right > width + 1).map(it => it.id || it.className || it.tagName);
  return [page.documentElement.scrollWidth <= width, page.querySelectorAll("svg").length > 0, beyond]; }""")
    assert found == [[True, True, []], [True, True, []], [True, False, []]] * 4


@pytest.mark.full
@pytest.mark.parametrize("schedule, until, labels", [
    ("(exponential(100) && recurs(12))", "20min", ["0 ms", "1 min", "2 min", "3 min"]),
    ("(exponential(1000, 10) && recurs(7))", "300d", ["0 ms", "5 d", "10 d"]),
    ("recurs(3)", "1s", ["0 ms", "1 ms"])])
def test_the_axis_of_waits_has_round_labels(schedule, until, labels):
    curves = inside(shown(a=schedule, until=until, script="5 err 7"), "curves")
    assert re.findall(r'text-anchor="end"[^>]*>([^<]*)</text>', curves) == labels


@pytest.mark.full
def test_faults_of_both_policies_are_shown_with_their_carets_and_no_plan_is_saved():
    assert ' id="save">' in shown(a="recurs(3)", b="two: forever", until="9")
    document = shown(a="recurs(3)..map(_1)", b="(spaced(10) && recur(3))")
    assert ' id="save" disabled="">' in document and '"ms": 1,' not in inside(document, "plan")
    assert "<strong class=\"\">a method is missing after the point</strong>" in document
    assert "<strong class=\"\">there is no recur</strong>" in document
    assert "(spaced(10) &amp;&amp; recur(3))\n" + " " * 15 + '<b class="">^^^^^</b>' in document
    assert re.search(r'<textarea id="b"[^>]* aria-invalid="true"', document)
    found = re.findall(r'<strong class="">(.*?)<', shown(a="(delays(1s) && recur(3))", b="spaced(rand(9, 5))"))
    assert found == ["there is no recur", "the first number is greater than the second"]


@pytest.mark.parametrize("is_report", [False, True], ids=["play.html", "zsched-report html"])
def test_a_page_runs_no_script_but_its_own(is_report, tmp_path):
    text = TEXT
    if is_report:
        (tmp_path / "r").write_text("job a retry\nattempt 1 0..5 ok 1\nend succeeded 1 at 5 polls 2\npolls 2\n")
        text = output_of([TOP / "tools" / "zsched-report", "html", tmp_path / "r"])
    text += '<script>document.title = "FORGED"</script><img src="data:," onerror="document.title = \'FORGED\'">'
    any_script = re.sub("script-src [^;]*", "script-src 'unsafe-inline'", text, count=1)
    for name, made, title in [("page", text, "zsched"), ("any", any_script, "FORGED")]:
        (tmp_path / f"{name}.html").write_text(made)
        assert title in re.search("<title>(.*?)</title>", opened(f"file://{tmp_path}/{name}.html"))[1]
