"""Inputs from elsewhere at the doors of the tools: no text of an input is more than a text in what they print, no input
ends a tool by a fault of its own, and no pipe or endless file is waited for or read for ever."""
import importlib
import json
import os
import re
import shutil
import signal
import subprocess
import time

import hypothesis
import pytest
from hypothesis import strategies

import samples
from support import ONE_JOB, TOP, examples, run_here, run_tool
from zsched_tools import command
from zsched_tools.drawing import cut_text

# What no output may have, on a line of its own or at all: codes of a terminal, the letters that turn a line, ends of
# lines, commands of a CI, and a result that isn't one.
CODES = "\x1b[2J\x07\x9b31m\u202e\u2066\u2028\x85\u200b\ufeff\U000e0041"
LINES = ["::error file=a,line=1::FORGED", "  ::add-mask::FORGED", "##[group]FORGED", "##vso[task.x]FORGED",
         "FORGED: for every input: 2 attempts, always"]
BAD = CODES + "".join(f"\r\n{line}" for line in LINES)
AT_BEGIN = "::error ::FORGED"
# In a format that has no escapes for ends of lines.
FLAT = CODES.replace("\x85", "").replace("\u2028", "") + "##[group]FORGED ##vso[task.x]FORGED"
FORGED = {"json": json.dumps, "yaml": json.dumps, "toml": lambda text: json.dumps(text.replace("\U000e0041", "")),
          "python": repr, "csv": lambda text: f'"{text}"', "ini": lambda text: FLAT, "properties": lambda text: FLAT,
          "java": lambda text: FLAT, "report": lambda text: FLAT}
SAMPLES = [pytest.param(*it, id=f"{it[0]}-{it[1].parent.name}-{it[1].name}") for it in samples.samples()]


def forged(text):
    """What an input made of an output: the lines that it began, and the letters that aren't printable."""
    yield from re.findall(r"(?m)^[ \t]*(?:::|FORGED).*|##\w*\[.*", text)
    yield from (hex(ord(letter)) for letter in set(text) if not letter.isprintable() and letter != "\n")


def main_of(tool):
    return importlib.import_module(f"zsched_tools.{tool.replace('try', 'trying')}.command").main


def run_on(tool, path, *more):
    return run_here(main_of(tool), [f"zsched-{tool}", *samples.command_of(tool, path), *more])


@pytest.fixture(autouse=True)
def programs(zsched, monkeypatch):
    """The program, no library, and the trace of a fault."""
    for name, value in {"ZSCHED": str(zsched), "ZSCHED_LIBRARY": "", "ZSCHED_TRACE": "1"}.items():
        monkeypatch.setenv(name, value)


def test_the_texts_would_be_seen():
    assert len(list(forged(BAD + "\n" + AT_BEGIN))) > 10 and not list(forged("\\u001b[2J :: \\u0023#[x\n"))
    assert all(list(forged(quote(BAD) if form in ("python", "csv") else FLAT)) for form, quote in FORGED.items()
               if form not in ("python",))


@pytest.mark.parametrize("tool, path", SAMPLES)
def test_no_value_of_a_file_is_more_than_a_text_in_what_is_printed(tool, path, tmp_path):
    form, text = samples.form_of(path), path.read_text("utf-8", "replace")
    shutil.copytree(path.parent, tmp_path, dirs_exist_ok=True, ignore=shutil.ignore_patterns("out"))
    made = tmp_path / f"made{path.suffix}"
    for begin, end in samples.places(form, text)[:examples(30)]:
        for bad in [BAD, AT_BEGIN]:
            made.write_text(samples.with_others(text, {(begin, end): FORGED[form](bad)}), "utf-8", newline="")
            status, output, errors = run_on(tool, made)
            assert not [*forged(output), *forged(errors)], (text[begin:end], output, errors)
            assert command.FAULT not in errors and status in (0, 1, 2), (text[begin:end], errors)


CONFIG = {"retryPolicy": {"maximumAttempts": 5, "initialInterval": "1s", BAD: 1, AT_BEGIN: 2}}
LONG = {"retryPolicy": {"maximumAttempts": 90, "initialInterval": "1s", BAD: 1, "nonRetryableErrorTypes": [BAD]}}


@pytest.mark.parametrize("words", [
    ["try", "@p.json"], ["try", "@p.json", "@q.json", "--json"], ["try", "@p.json", "--over", "@q.json"],
    ["try", "@p.json", "--require-attempts", "3"], ["try", f"{BAD}: recurs(1)"], ["try", "recurs(1)", BAD],
    ["try", f"recurs(1{BAD})"], ["try", f"@{BAD}"], ["try", f"@p.json#{BAD}"], ["try", f"@q.ini#{BAD}"],
    ["try", "--color", "always", f"recurs(1){BAD}"], ["try", "recurs(1)", "--fails", BAD],
    ["try", "recurs(1)", "--until", BAD], ["try", "recurs(1)", "--attempt", BAD], ["try", "recurs(1)", f"--{BAD}"],
    ["try", "recurs(1)", "--mode", BAD], ["try", "recurs(1)", "--seed", BAD], ["try", "recurs(1)", "--zsched", BAD],
    ["try", "recurs(1)", "--title", BAD, "--svg", "-"], ["try", "recurs(1)", "--svg", f"{BAD}/x"],
    ["try", "recurs(1)", "--plan", BAD], ["try", f"rand(1, {BAD})"], ["try", f"recurs(1) jitter {BAD}"],
    ["policy", "import", "p.json"], ["policy", "import", "p.json", "--name", BAD], ["policy", "import", BAD],
    ["policy", "import", "q.ini"], ["policy", "import", "q.ini", "--plain"], ["policy", BAD, "x"],
    ["policy", "diff", "@p.json", "@q.json"], ["policy", "diff", "@p.json", "@q.json", "--json"],
    ["policy", "diff", "recurs(1)", BAD], ["policy", "explain", "@p.json"], ["policy", "explain", BAD],
    ["explain", BAD], ["explain", "p.json", "--most", BAD], ["explain", f"bad{BAD.replace('/', '')}.json"],
    ["follows", "l.csv", "--schedule", BAD], ["follows", "l.csv", "--schedule", "@p.json"],
    ["follows", "l.csv", "--schedule", "recurs(0)", "--name", BAD],
    ["follows", "l.csv", "--schedule", "recurs(0)", "--endpoint", BAD], ["follows", BAD, "--schedule", "recurs(0)"],
    ["follows", "m.csv", "--schedule", "recurs(0)"], ["follows", "m.csv", "--schedule", "recurs(0)", "--json"],
    ["follows", "m.csv", "--schedule", "recurs(0)", "--tolerance", BAD],
    ["plan", "from", "l.csv", "--schedule", BAD], ["plan", "from", "m.csv", "--schedule", "recurs(0)"],
    ["plan", "from", "m.csv", "--schedule", "@p.json", "--windows"], ["plan", "from", BAD],
    ["plan", "from", "p.yaml"], ["plan", "from", "l.csv", "--until", BAD, "--schedule", "recurs(0)"],
    ["outage", "s.json", "--title", BAD], ["outage", "s.json", "--title", BAD, "--svg", "-"],
    ["outage", "s.json", "--title", BAD, "--html", "-"], ["outage", "s.json", "--title", BAD, "--json"],
    ["outage", "s.json", "--max-peak", BAD], ["outage", BAD], ["outage", "s.json", "-o", f"{BAD}/x"],
    ["report", "summary", BAD], ["report", "svg", "r", "--title", BAD], ["report", "html", "r", "--title", BAD],
    ["report", "svg", "r", "--job", BAD], ["report", "load", "r", "--svg", "-", "--title", BAD],
    ["report", "load", "r", "--every", BAD], ["report", BAD], ["report", "summary", f"bad{BAD.replace('/', '')}.json"],
    ["play", "--html", "-", "--title", BAD], ["play", "--port", BAD], ["play", "--zsched", BAD], ["play", BAD]],
    ids=lambda words: " ".join(words).replace(BAD, "BAD").encode("ascii", "ignore").decode())
def test_no_name_title_or_option_is_more_than_a_text_in_what_is_printed(words, tmp_path, monkeypatch):
    monkeypatch.chdir(tmp_path)
    for name, text in {
            "p.json": json.dumps(CONFIG), "q.json": json.dumps(LONG),
            "q.ini": f"[profile {FLAT}]\nretry_mode = standard\n",
            "l.csv": "request_id,timestamp,status\na,1,200\n",
            "m.csv": f'request_id,timestamp,status\n"{BAD}",1,503\n"{BAD}",9,503\n"{AT_BEGIN}",1,503\nc,99999,200\n',
            "p.yaml": json.dumps({"horizon": 9, "policies": {BAD: "recurs(1)"}, BAD: BAD}),
            "s.json": json.dumps({"horizon": 100, "clients": {"number": 2}, "policies": {"a": "recurs(1)"}}),
            "r": "job a retry\nattempt 1 0..5 ok 1\nend succeeded 1 at 5 polls 2\npolls 2\n",
            f"bad{BAD.replace('/', '')}.json": "{"}.items():
        (tmp_path / name).write_text(text, newline="")
    tool, *rest = words
    status, output, errors = run_here(main_of(tool), [f"zsched-{tool}", *rest])
    errors = re.sub(r"\x1b\[(?:1|1;31|36|2|0)m", "", errors) if "always" in rest else errors
    assert not [*forged(output), *forged(errors)], (output, errors)
    assert command.FAULT not in errors and status in (0, 1, 2, 3), errors
    # JSON keeps what it says.
    if "import" in words and output.startswith("{"):
        assert {BAD, AT_BEGIN} <= {*json.loads(output)["left_out"]} or FLAT.rstrip() in json.loads(output)["name"]


@pytest.mark.parametrize("encoding", ["ascii", "latin-1", "cp1252"])
def test_a_letter_that_an_encoding_lacks_is_escaped(encoding, tmp_path, zsched):
    (tmp_path / "p.json").write_text(json.dumps({"retryPolicy": {"maximumAttempts": 5, "\u00e9\u2192\U0001f600": 1}}))
    for words in [["policy", "import", "p.json"], ["try", "@p.json", "--json"], ["try", "@p.json"]]:
        ended = subprocess.run([TOP / "tools" / f"zsched-{words[0]}", *words[1:]], cwd=tmp_path, capture_output=True,
                               env={**os.environ, "PYTHONIOENCODING": encoding, "ZSCHED": str(zsched)}, check=True)
        assert b"\\u2192\\ud83d\\ude00" in ended.stdout + ended.stderr
        if words[-1] == "--json" or words[1] == "import":
            json.loads(ended.stdout.decode(encoding))


def test_annotations_of_a_ci_have_one_line_and_their_own_properties():
    def printed():
        return command.run("tool", lambda: command.annotation("warning", f"100 % {BAD}", file=f"a,b:c{BAD}", line=3))
    status, output, errors = run_here(printed, ["tool"])
    assert (status, errors, output.count("\n")) == (0, "", 1)
    assert output.startswith("::warning file=a%2Cb%3Ac\\u001b[2J") and ",line=3::100 %25 \\u001b[2J" in output
    assert "%0D%0A::error file=a,line=1::FORGED%0D%0A" in output and "##" not in output.replace("\\u0023#", "")


# Values of each format that are of another type than others, or at the ends of what there is.
LONG_NUMBER = "9" * 5000
OTHERS = {
    "json": ["null", "true", "[]", "{}", "[[1]]", "[null]", '[{}]', '{"a":[]}', "-1", "0", "1.5", "1e999", LONG_NUMBER,
             '""', '"x"', '"\\ud800"', '"9999-99-99"', '"0001-01-01T00:00:00Z"', '"2262-04-12T00:00:00Z"', '"1e400"',
             '"٣"', '{"seconds":"x"}', '{"key":{}}', "NaN"],
    "yaml": ["~", "true", "[]", "{}", "[[1]]", "-1", ".inf", ".nan", "0x1F", "0o17", "1_000", "2001-01-01", LONG_NUMBER,
             '""', "!!binary aGk=", "!!set {a}", "&a [*a]", "*b", "{<<: [1]}", "? [a]", "|", '"\\uD800"', "٣"],
    "toml": ["true", "[]", "{}", "[[1]]", "-1", "1.5", "inf", "nan", "2001-01-01", "07:32:00", "0x" + "f" * 5000,
             LONG_NUMBER, '""', "1_000", "1979-05-27T07:32:00Z", "[{}]", "{a.b.c = 1}"],
    "python": ["None", "[]", "{}", "()", "(1,)", "'x'", "1j", "...", "b'x'", "(lambda: 0)", "-1", "10**40", "1e308*10",
               "x[0]", "f(x)", "f'{x}'", "(yield)", "not 1", "{**{}}", "[*x]", "True", "1 if x else 2", "x.y.z", "1/0",
               "2**-1", "1e400", "A0"],
    "csv": ["", '""', "x", "-1", "1.5", "1e9", "NaN", "0", "9" * 20, LONG_NUMBER, "0001-01-01T00:00:00Z",
            "9999-12-31T23:59:59Z", "1677-09-21T00:12:43Z", "2001-02-30T00:00:00Z", "2001-01-01T00:00:00+99:99", "٣",
            "1" * 19, "٢٠٢٦-١١-٢٦T10:00:00Z", '"a""b"', "true"],
    "java": ["null", "1", "-1", "1.5", "\"x\"", "x.y()", "Duration.ofDays(1)", "0x1F", LONG_NUMBER, "'c'", "1e9", "()"],
    "ini": ["", "x", "-1", "1.5", LONG_NUMBER, "[a]", "=", "٣", "true", "'", '"'],
    "properties": ["", "x", "-1", "1.5", LONG_NUMBER, "a[0]", "٣", "true", "\\", "\\u00", "1e9", "PT"],
    "report": ["", "x", "-1", "0", LONG_NUMBER, "()", "[", "(1,2)", "Left(1)", "٣", "running"]}


@pytest.mark.parametrize("tool, path", SAMPLES)
def test_no_value_of_another_type_is_a_fault_of_the_tool(tool, path, tmp_path_factory):
    form, text = samples.form_of(path), path.read_text("utf-8", "replace")
    room = tmp_path_factory.mktemp("room")
    shutil.copytree(path.parent, room, dirs_exist_ok=True, ignore=shutil.ignore_patterns("out"))
    places = samples.places(form, text)
    one = strategies.tuples(strategies.sampled_from(places), strategies.sampled_from(OTHERS[form]))

    @hypothesis.settings(max_examples=examples(25))
    @hypothesis.given(strategies.lists(one, min_size=1, max_size=2))
    def check(changes):
        made = room / f"made{path.suffix}"
        made.write_text(samples.with_others(text, dict(changes)), "utf-8", newline="")
        status, _, errors = run_on(tool, made) if tool != "outage" else (0, "", scenario_fault(made))
        assert command.FAULT not in errors and status in (0, 1, 2), (changes, errors)
    check()


SPAN = ('{"spanId":"a","parentSpanId":"b","traceId":"c","name":"d","startTimeUnixNano":"1","endTimeUnixNano":"2"'
        "%s}")
SPANS = '{"resourceSpans":[{"scopeSpans":[{"spans":[' + SPAN + "]}]}]}"
JAEGER = '{"data":[{"traceID":"t","spans":[{"spanID":"s","operationName":"o","startTime":1,"duration":1%s}]}]}'
LOG = "request_id,begin,%s,status\na,%s,200\n"
PLAN = '{"horizon":9,"policies":{"a":"recurs(1)"}}'


@pytest.mark.parametrize("name, text, said", [
    ("l.csv", LOG % ("end", "0001-01-01T00:00:00Z,0001-01-01T00:00:01Z"),
     'l.csv:2: column begin: "0001-01-01T00:00:00Z" is before the year 1678; Go and .NET write 0001-01-01 for a moment '
     "that is missing"),
    ("l.csv", "request_id,end,duration_s,status\na,1700-01-01T00:00:00Z,3000000000,200\n",
     "l.csv:2: column end: this attempt begins before the year 1678"),
    ("l.json", SPANS % ',"spanId":{}', "l.json: a span has spanId {}, which is not a text"),
    ("l.json", SPANS % ',"parentSpanId":["a"]', 'l.json: a span has parentSpanId ["a"], which is not a text'),
    ("l.json", SPANS % ',"name":[]', "l.json: a span has name [], which is not a text"),
    ("l.json", SPANS % ',"attributes":[{"key":{}}]', None),
    ("l.json", JAEGER % ',"tags":[{"key":{}}]', None),
    ("l.json", JAEGER % ',"operationName":{}', "l.json: a span has name {}, which is not a text"),
    ("l.json", JAEGER % ',"traceID":[]', "l.json: a span has traceId [], which is not a text"),
    ("p.toml", f"a = {'9' * 5000}", "p.toml:1:5: this number is longer than any number of a plan"),
    ("p.toml", f"horizon = 0x{'f' * 5000}\npolicies.a = 'recurs(1)'",
     "p.toml:1:11: this number is longer than any number of a plan"),
    ("p.yaml", f"horizon: {'9' * 5000}\npolicies: {{a: recurs(1)}}",
     "p.yaml:1:10: this number is too large for any reader of JSON"),
    ("p.json", '{"resilience4j.retry":{"instances":{"a":{"baseConfig":[1]}},"configs":{"b":{}}}}',
     "p.json:1:55: a: there is no config this for this baseConfig")],
    ids=lambda it: it and it[-40:].strip())
def test_what_was_a_fault_of_a_tool_is_an_error_with_its_place(name, text, said, tmp_path, monkeypatch):
    monkeypatch.chdir(tmp_path)
    (tmp_path / name).write_text(text)
    tool, words = ("policy", ["import", name]) if name == "p.json" else ("plan", ["from", name]) if (
        name[0] == "p") else ("follows", [name, "--schedule", "recurs(1)"])
    status, _, errors = run_here(main_of(tool), [f"zsched-{tool}", *words])
    first = errors.splitlines()[-1 if said is None else 0]
    assert (status, first) == (command.REFUSED, f"zsched-{tool}: {said}") if said else command.FAULT not in errors


def scenario_fault(path):
    """The fault of reading a scenario, which isn't run here."""
    from zsched_tools.outage.scenario import read_scenario
    from zsched_tools.place import FaultAt
    try:
        read_scenario(path.read_bytes())
    except (FaultAt, command.Refused):
        pass
    except Exception as fault:
        return f"{command.FAULT}: {fault!r}"
    return ""


def test_a_fault_of_a_tool_ends_with_3_and_a_line_and_shows_its_trace_if_asked(monkeypatch):
    def work():
        print("half of a result")
        raise KeyError("\x1b[2J")
    line = "zsched-x: a fault of this tool: KeyError('\\x1b[2J'); ZSCHED_TRACE=1 shows where\n"
    for trace, rest in [("", ""), ("1", "Traceback (most recent call last):\n")]:
        monkeypatch.setenv("ZSCHED_TRACE", trace)
        status, _, errors = run_here(lambda: command.run("zsched-x", work), ["zsched-x"])
        assert status == command.FAILED and errors.startswith(line + rest) and (trace or errors == line)
    monkeypatch.setenv("ZSCHED_TRACE", "")
    monkeypatch.setattr("zsched_tools.trying.command.count", None)
    monkeypatch.setattr("zsched_tools.trying.command.work", work)
    assert run_here(main_of("explain"), ["zsched-explain", "--most"])[0] == command.REFUSED


@pytest.mark.parametrize("words", [["try", "@p.yaml"], ["policy", "import", "p.yaml"], ["plan", "from", "p.yaml"],
                                   ["follows", "p.yaml", "--schedule", "recurs(1)"], ["outage", "p.yaml"],
                                   ["explain", "p.yaml"], ["report", "summary", "p.yaml"]], ids=lambda it: it[0])
def test_a_pipe_without_a_writer_is_an_error_after_some_seconds(words, tmp_path, monkeypatch):
    monkeypatch.chdir(tmp_path)
    monkeypatch.setattr(command, "PATIENCE", 0.2)
    os.mkfifo("p.yaml")
    status, output, errors = run_here(main_of(words[0]), [f"zsched-{words[0]}", *words[1:]])
    assert (status, output) == (command.REFUSED, "")
    assert errors.startswith(f"zsched-{words[0]}: p.yaml: no program writes into this pipe\n")


def test_a_pipe_whose_writer_is_slow_is_read(tmp_path, zsched):
    text = ONE_JOB.decode()
    status, output, errors = run_tool(["bash", "-c", f'{TOP}/tools/zsched-explain <(sleep 1; echo "$TEXT")'],
                                      folder=tmp_path, TEXT=text, ZSCHED=str(zsched))
    assert (status, errors) == (0, "") and output.endswith(": no fault\n")


@pytest.mark.parametrize("words", [["plan", "from", "z.csv", "--schedule", "recurs(1)"], ["outage", "z.csv"],
                                   ["follows", "z.csv", "--schedule", "recurs(1)"]], ids=lambda it: it[0])
def test_a_file_without_an_end_is_an_error(words, tmp_path, monkeypatch):
    monkeypatch.chdir(tmp_path)
    monkeypatch.setattr(command, "MOST_BYTES", 1 << 22)
    os.symlink("/dev/zero", "z.csv")
    status, output, errors = run_here(main_of(words[0]), [f"zsched-{words[0]}", *words[1:]])
    assert (status, output) == (command.REFUSED, "")
    assert errors == f"zsched-{words[0]}: z.csv: the file has more than {1 << 22} bytes: cut it\n"


def test_a_file_that_needs_too_much_work_is_an_error(tmp_path, monkeypatch):
    monkeypatch.chdir(tmp_path)
    monkeypatch.setattr(command, "WORK", 0.02)
    (tmp_path / "p.json").write_text(json.dumps({"a": [CONFIG] * 2000}))
    (tmp_path / "p.yaml").write_text(json.dumps({"policies": {f"a{number}": "recurs(1)" for number in range(5000)}}))
    (tmp_path / "p.toml").write_text(f"a = {{{'a.' * 20_000}a = 1}}")
    (tmp_path / "s.json").write_text(json.dumps({
        "horizon": 9, "clients": {"starts": [*range(50_000)]}, "policies": {"a": "@p.json#a"}}))
    for name, *words in [["p.json", "policy", "import"], ["p.json", "try", "@p.json#a"], ["p.yaml", "plan", "from"],
                         ["p.toml", "plan", "from"], ["s.json", "outage"]]:
        more = [] if words[0] == "try" else [name]
        status, _, errors = run_here(main_of(words[0]), [f"zsched-{words[0]}", *words[1:], *more])
        assert status == command.REFUSED
        assert errors == (f"zsched-{words[0]}: {name}: the file needs more than 0.02 s of the processor to be read: "
                          "cut out the part with the policies\n")


def test_a_limit_of_work_goes_on_after_one_inside_of_it():
    begin = time.process_time()
    with pytest.raises(command.Refused, match="outer"), command.limited(signal.ITIMER_VIRTUAL, 0.3, "outer"):
        while time.process_time() < begin + 5:
            with command.limited(signal.ITIMER_VIRTUAL, 5, "inner"):
                sum(range(10_000))


@pytest.mark.parametrize("number", ["1e99999", "1e-99999", "1E+9999", "0x_", "0x_L"])
def test_a_number_of_a_source_that_is_none_or_too_long_is_an_error(number, tmp_path, monkeypatch):
    monkeypatch.chdir(tmp_path)
    (tmp_path / "a.scala").write_text(f"import zio._\nval a = Schedule.recurs({number})\n")
    assert run_here(main_of("policy"), ["zsched-policy", "import", "a.scala"]) == (
        command.REFUSED, "",
        "zsched-policy: a.scala:2:25: a: this is not a number that can be known without running the source\n")


@pytest.mark.parametrize("words, said", [
    (["try", "recurs(\udc80)"], "byte 7: this is not UTF-8"),
    (["policy", "explain", "a: @\udc80"], "byte 4: this is not UTF-8"),
    (["follows", "l.csv", "--schedule", "\udc80"], "--schedule:1:1: this is not UTF-8"),
    (["outage", "s.json"], "s.json:1:60: a\\u0000b: no file has such a name")], ids=lambda it: it[0])
def test_a_text_that_is_not_utf_8_or_no_name_of_a_file_is_an_error(words, said, tmp_path, monkeypatch):
    monkeypatch.chdir(tmp_path)
    (tmp_path / "l.csv").write_text("request_id,timestamp,status\na,1,200\n")
    scenario = {"horizon": 9, "clients": {"number": 2}, "policies": {"a": "@a\0b"}}
    (tmp_path / "s.json").write_text(json.dumps(scenario))
    status, _, errors = run_here(main_of(words[0]), [f"zsched-{words[0]}", *words[1:]])
    assert (status, errors.splitlines()[0]) == (command.REFUSED, f"zsched-{words[0]}: {said}")


def test_a_long_title_of_a_picture_is_cut_at_once():
    with command.limited(signal.ITIMER_VIRTUAL, 5, "as long as the square of its length"):
        assert cut_text("x" * 30_000, 11, 500) == cut_text("x" * 500, 11, 500)
