"""What becomes of each setting of a policy: one pair of configs for each that an import reads, in `settings.jsonl`, and
each cell of FORMATS' table of settings and tools."""
import ast
import importlib
import json
import re
import shutil
import sys

import pytest

from support import TOP, output_of, rows
from zsched_tools.policy import configs
from zsched_tools.settings import WORDS

PAIRS = rows("settings.jsonl")
PAGE = (TOP / "docs" / "FORMATS.md").read_text()
MEMBERS = {name: word for word, (name, _) in WORDS.items()}
# The functions that read a format, and their constants.
READERS = {"services": {"_grpc": "grpc", "_envoy": "envoy", "_envoy_others": "envoy", "_istio": "istio",
                        "_temporal": "temporal", "_job": "kubernetes", "_probe": "kubernetes",
                        "_retrier": "stepfunctions", "aws": "aws"},
           "celery_tasks": {"policy_of": "celery", "_of_calls": "celery", "OPTIONS": "celery"},
           "java_source": {"_settings": "resilience4j", "_annotation": "spring", "_backoff": "spring",
                           "_ERRORS": "spring"},
           "libraries": {"resilience": "resilience4j", "spring": "spring", "_gateway": "gateway", "_polly": "polly",
                         "FIRST": "spring", "FACTOR": "spring", "MOST": "spring", "COUNT": "spring",
                         "RESILIENCE_ERRORS": "resilience4j", "SPRING_ERRORS": "spring"},
           "python_source": {"_Tenacity": "tenacity", "_backoff": "backoff", "_botocore": "aws", "_urllib3": "urllib3"}}
# Other words in these: values, strategies, tables around settings, members of results, names of defaults, and what says
# nothing of retries.
OTHERS = set("""kind percent proportional full added mixed parts like ok tokens from_ms up_to_ms budget jitter_function
    grpc envoy istio aws polly name value data true retr legacy standard adaptive rate constant linear exponential
    decorrelated expo fibo full_jitter random_jitter Exception None Job OnFailure SERVER_ERROR DynamoDB
    retrypolicy retrybackoff retrythrottling backoff route routes args template spec jobtemplate range attempt wait
    max_delay max_attempt_number wait_chain wait_combine wait_exponential wait_exponential_jitter wait_fixed
    wait_incrementing wait_none wait_random random_jitter scheduletoclose starttoclose
    DEFAULT_MAX_ATTEMPTS DEFAULT_BACKOFF_MAX max_backoff DefaultJobBackOff MaxJobBackOff num_retries
    selector manualselector ttlsecondsafterfinished managedby resetheaders dict
    httpget exec tcpsocket initialdelayseconds terminationgraceperiodseconds fields NONE eta build ms
    """.lower().replace("_", "").split())


# A price of a budget, and the end of two names.
NO_SETTINGS = {("aws", "retry"), ("temporal", "timeout")}


def plain(name): return re.sub("[^a-z]", "", name.lower())


def words_of(node):
    """The words that a function or a constant has, without the texts of documentation and of messages."""
    out = {id(it.value) for it in ast.walk(node) if isinstance(it, ast.Expr)} | {
        id(part) for it in ast.walk(node) if isinstance(it, ast.JoinedStr) for part in ast.walk(it)}
    return {it.value for it in ast.walk(node) if isinstance(it, ast.Constant) and isinstance(it.value, str)
            and id(it) not in out and re.fullmatch("[A-Za-z_]{2,40}", it.value)}


def read_settings(module, text):
    """The settings that a module reads: each format with a word that is no other one."""
    for node in ast.parse(text).body:
        name = node.targets[0].id if isinstance(node, ast.Assign) else getattr(node, "name", None)
        if form := READERS[module].get(name):
            yield from ((form, plain(word)) for word in words_of(node) if plain(word) not in OTHERS)


def without_pair(module, text):
    """The settings that a module reads and that have no pair of configs."""
    paired = {(form, plain(name)) for form, setting, *_ in PAIRS for name in re.split(r"[. ]", setting)}
    return sorted(set(read_settings(module, text)) - paired - NO_SETTINGS)


@pytest.mark.parametrize("module", READERS)
def test_each_setting_that_an_import_reads_has_a_pair(module):
    text = (TOP / "tools" / "zsched_tools" / "policy" / f"{module}.py").read_text()
    assert without_pair(module, text) == []
    name = list(READERS[module])[0]
    planted = re.sub(rf"(?m)^((?:def|class) {name}\b(?s:.*?)\n    )(?=\w+.* = |names = |def )",
                     r'\1never = "brandnewsetting"\n    ', text, count=1)
    assert without_pair(module, planted) == [(READERS[module][name], "brandnewsetting")], "a new one isn't found"


def members_of(path):
    policies = configs.policies_of(str(path))
    policy = configs.read(str(path), next((it for it in policies if it.name == "x"), policies[0]))
    return vars(policy) | policy.left_out | {"left_out": policy.left_out}


def command(capsys, tool, *words):
    """Runs a command in this process: its status, standard output and standard error."""
    sys.argv[:] = [tool, *map(str, words)]
    module = {"try": "trying"}.get(tool.removeprefix("zsched-"), tool.removeprefix("zsched-"))
    status = importlib.import_module(f"zsched_tools.{module}.command").main()
    return (status or 0, *capsys.readouterr())


@pytest.mark.parametrize("form, setting, member, ending, text, one, other", PAIRS,
                         ids=[f"{form} {setting}" for form, setting, *_ in PAIRS])
def test_diff_finds_a_setting_that_differs(form, setting, member, ending, text, one, other, tmp_path, capsys, programs):
    """It differs in the member that the pair names, and in nothing else but the schedule and its draws."""
    paths = [tmp_path / f"{name}.{ending}" for name in "ab"]
    for path, value in zip(paths, (one, other)):
        path.write_text(value.join(text.rsplit("@", 1)))
    found = list(map(members_of, paths))
    differ = {name for name in WORDS_AND_MORE if found[0].get(name) != found[1].get(name)}
    assert differ - {"draws", "jitter", "waits", "left_out"} <= {member} and member in differ, differ
    names = [f"@{path}#x" if form == "resilience4j" else f"@{path}" for path in paths]
    status, output, _ = command(capsys, "zsched-policy", "diff", *names)
    lines = [line for line in output.splitlines() if line[:3] not in ("A  ", "B  ", "   ")]
    assert status == 1 and lines != ["no difference"]
    if member not in ("waits", "draws"):
        assert any(" in A, " in line and line.endswith(" in B") for line in lines), lines
    assert command(capsys, "zsched-policy", "diff", names[0], names[0])[0] == 0


WORDS_AND_MORE = ["waits", "draws", "jitter", *MEMBERS, "left_out"]
# The texts of a policy with and without a setting: words after a schedule, or a source of tenacity or backoff.
PLAIN = "(spaced(100) && recurs(3))"
TENACITY = "from tenacity import *\n\n\n@retry(wait=wait_fixed(0.1), {})\ndef a(): pass\n"
BACKOFF = "import backoff\n\n\n@backoff.on_exception(backoff.constant, Exception, interval=0.1, {})\ndef a(): pass\n"
# Waits that aren't drawn, unlike those of a mesh, which has the settings that are tried with it.
STEADY = "retryPolicy: {{initialInterval: 100ms, backoffCoefficient: 1, maximumAttempts: 4{}}}\n"
ZIO = "import zio._\nobject A {{ val a = Schedule.spaced(100.millis){} && Schedule.recurs(3) }}\n"
SAMPLES = {
    "schedule": [PLAIN, "(spaced(300) && recurs(3))"], "draws": [PLAIN, f"{PLAIN} jitter 1/4..1/2"],
    "call": [PLAIN, f"{PLAIN} call 200ms"], "attempt": [PLAIN, f"{PLAIN} attempt 3ms"],
    "on": [PLAIN, f"{PLAIN} on 404"], "asked": [PLAIN, f"{PLAIN} asked 30s"],
    "budget": [PLAIN, PLAIN + ' budget {"like": "grpc", "tokens": 9}'], "parallel": [PLAIN, f"{PLAIN} parallel 3"],
    "mode": [PLAIN, f"{PLAIN} mode repeat"],
    "which errors": [TENACITY.format("stop=stop_after_attempt(4)"),
                     TENACITY.format("stop=stop_after_attempt(4), retry=retry_if_exception_type(OSError)")],
    "stop_after_delay": [TENACITY.format("stop=stop_after_attempt(4)"),
                         TENACITY.format("stop=stop_after_attempt(4) | stop_after_delay(100)")],
    "jitter": [BACKOFF.format("jitter=None, max_tries=4"),
               TENACITY.replace("wait_fixed(0.1)", "wait_incrementing(0.1, 0.1)" + 2 * " + wait_random(0, 0.1)").format(
                   "stop=stop_after_attempt(4)")],
    "max_time": [BACKOFF.format("jitter=None, max_tries=4"), BACKOFF.format("jitter=None, max_tries=4, max_time=100")],
    "reraise": [TENACITY.format(f"stop=stop_after_attempt(4){more}") for more in ("", ", reraise=x")],
    "waitForReady": [STEADY.format(""), STEADY.format(", waitForReady: true")],
    "resultPredicate": [STEADY.format(""), STEADY.format(", resultPredicate: isEmpty")],
    "retry_priority": [STEADY.format(""), STEADY.format(", retry_priority: {name: x}")],
    "delayed": [ZIO.format(""), ZIO.format(".delayed(slower)")],
    "any other": [TENACITY.format(f"stop=stop_after_attempt(4){more}") for more in ("", ", sleep=x")]}
LOG = "request_id,timestamp,duration_ms,status\n" + "".join(
    f"a,{1000 + 110 * number},10,503\n" for number in range(4)) + "b,900000,10,200\n"
TABLE = re.search(r"(?m)^\| Setting \| try: run (?:.*\n)+?\n", PAGE)[0].splitlines()
TOOLS = ["run", "bound", "layers", "outage", "follows", "plan", "page"]
CELLS = [(name, tool, cell.strip(" `")) for line in TABLE[2:] for names, *cells in [line.strip("| ").split(" | ")]
         for name in SAMPLES if re.search(rf"`{name}`|^{name}\b", names) for tool, cell in zip(TOOLS, cells)]


@pytest.fixture
def programs(zsched, bounds, monkeypatch):
    """The programs that commands in this process take."""
    monkeypatch.setenv("ZSCHED", str(zsched))
    monkeypatch.setenv("ZSCHED_BOUNDS", str(bounds))
    monkeypatch.setattr(sys, "argv", [])


def run_of(tool, policy, folder, capsys, *allowed):
    """A command with a check that the policy passes, if it is applied: status, what it says of the policy, errors."""
    if tool in ("run", "bound"):
        check = ["--max-end", "1d"] if tool == "run" else ["--require-waits", "1d", "--allow-unproved"]
        status, output, errors = command(capsys, "zsched-try", policy, *check, *allowed)
        return status, output.splitlines()[tool == "bound"], errors
    if tool == "layers":
        return command(capsys, "zsched-try", "recurs(1)", "--over", policy, "--max-end", "1d", *allowed)
    if tool == "outage":
        (folder / "outage.json").write_text(json.dumps({
            "horizon": "1min", "clients": {"number": 3}, "windows": [{"from": 0, "to": 250, "is": "down"}],
            "policies": {"one": policy}}))
        return command(capsys, "zsched-outage", folder / "outage.json", "--max-gave-up", "3", *allowed)
    (folder / "log.csv").write_text(LOG)
    if tool == "follows":
        words = ["--schedule", policy, "--tolerance", "20", *allowed]
        return command(capsys, "zsched-follows", folder / "log.csv", *words)
    if tool == "page":
        line = command(capsys, "zsched-policy", "import", policy[1:])[1].strip() if policy[0] == "@" else policy
        explained, jobs = on_page(line)
        return 0, jobs, "".join(it for it in explained if isinstance(it, str) and it.startswith("leaves out"))
    return command(capsys, "zsched-plan", "from", folder / "log.csv", "--schedule", policy)


def on_page(text):
    """What the page says of a policy, and the jobs of a run in which each attempt fails with 503."""
    words = [shutil.which("node") or pytest.skip("node isn't installed (Debian: nodejs)"),
             TOP / "tests" / "page_scripts.js", TOP / "docs" / "play.html"]
    calls = [["page.explained", text], ["page.rows", {"a": text, "script": "err 503", "until": "1min"}]]
    printed = output_of(words, input="".join(f"{json.dumps(it)}\n" for it in calls).encode())
    return list(map(json.loads, printed.splitlines()))


@pytest.mark.parametrize("name, tool, cell", CELLS, ids=[f"{name}, {tool}" for name, tool, _ in CELLS])
def test_a_cell_of_the_table_is_what_the_tool_does(name, tool, cell, tmp_path, capsys, programs):
    found = []
    for number, text in enumerate(SAMPLES[name]):
        if text.startswith(("from", "import", "retryPolicy")):
            path = tmp_path / f"{number}.{'scala' if 'zio' in text else 'yaml' if text[0] == 'r' else 'py'}"
            path.write_text(text)
            text = f"@{path}"
        found.append(text)
    without, has = found
    status, output, errors = run_of(tool, has, tmp_path, capsys)
    setting = "sleep" if name == "any other" else name
    if cell == "applied":
        before = run_of(tool, without, tmp_path, capsys)
        assert (status, output) != before[:2] and f"{setting} isn't applied" not in errors
    elif cell == "fails":
        assert status == 1 and f"{setting} isn't applied" in errors
        assert run_of(tool, has, tmp_path, capsys, "--allow-left-out", setting)[0] == 0
    elif cell == "--windows":
        assert status == 2 and "--windows" in errors
    else:
        assert status == 0 and cell in ("named", "earlier", "nothing") and f"{setting} isn't applied" not in errors
        if cell == "named" and tool == "page":
            assert errors != run_of(tool, without, tmp_path, capsys)[2]
        assert cell != "named" or ("leaves out" if tool == "page" else f"leaves out {setting}: ") in errors


def test_the_table_has_each_setting_and_each_tool():
    assert {name for name, *_ in CELLS} == set(SAMPLES) and len(CELLS) == len(SAMPLES) * len(TOOLS)
    assert {*WORDS} <= set(SAMPLES)
    listed = re.search(r"(?m)^\| `format` \| File (?:.*\n)+?\n", PAGE)[0]
    assert {form for form, *_ in PAIRS} | {"format"} == set(re.findall(r"(?m)^\| `(\w+)`", listed))


@pytest.mark.parametrize("form, setting, member", [it[:3] for it in PAIRS if it[2] in MEMBERS])
def test_the_page_says_which_setting_is_which_word(form, setting, member):
    row = re.search(rf"(?m)^\| `{form}` \| (`(?:call|attempt|on|budget|parallel|mode|which errors)`: .*) \|$", PAGE)[1]
    listed = dict(it.split(": ") for it in row.split("; "))
    names = {plain(it) for it in listed[f"`{MEMBERS[member]}`"].split(", ")}
    assert plain(setting.partition(".")[0]) in names | {"awsretrymode", "mode"}
