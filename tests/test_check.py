"""`zsched-policy check` and `diff` over a repository of forty services in five formats, which a test makes: the status
and the findings of each change, each seen to be missed by a tool that is wrong."""
import json
import os
import re
import shutil
import subprocess
import time

import jsonschema
import pytest

from case_files import unpacked
from support import TOP, executable, output_of, rows, run_here, run_tool
from zsched_tools import bounding
from zsched_tools.bounding import Driver
from zsched_tools.drawn import Policy
from zsched_tools.outage import command as outage
from zsched_tools.policy import checking, configs, limits, profiles, reading, saying, services, walking
from zsched_tools.policy.command import main
from zsched_tools.trying import command as trying

ENVOY = """virtual_hosts:
- name: {name}
  routes:
  - match: {{prefix: /}}
    route:
      cluster: {name}
      timeout: 20s
      retry_policy: {{retry_on: 5xx, num_retries: {retries}, per_try_timeout: 1s}}
"""
GRPC = """{{"methodConfig": [{{"name": [{{"service": "{name}"}}], "timeout": "9s", "retryPolicy": {{
  "maxAttempts": 4, "initialBackoff": "0.1s", "maxBackoff": "1s", "backoffMultiplier": 2,
  "retryableStatusCodes": ["UNAVAILABLE"], "perAttemptRecvTimeout": "1s"}}}}]}}
"""
JOB = """apiVersion: batch/v1
kind: Job
metadata: {{name: {name}}}
spec:
  backoffLimit: 2
  template: {{spec: {{restartPolicy: Never}}}}
"""
PYTHON = """import tenacity as t


@t.retry(wait=t.wait_exponential(multiplier=0.1, max=2), stop=t.stop_after_attempt(5))
def {name}():
    pass
"""
# What Istio generates for each sidecar.
SIDECAR = """virtual_hosts:
- name: reviews
  routes:
  - match: {prefix: /}
    route:
      timeout: 0s
      retry_policy:
        retry_on: connect-failure,refused-stream,unavailable,cancelled,retriable-status-codes
        num_retries: 2
        retry_host_predicate: [{name: envoy.retry_host_predicates.previous_hosts}]
        host_selection_retry_max_attempts: "5"
        retriable_status_codes: [503]
"""
POLLY = """{"retry": {"MaxRetryAttempts": 3, "Delay": "00:00:01", "DelayGenerator": "slower"}, "hedging": {"Delay": 1}}
"""
# It makes any wait that a service asks for.
URLLIB3 = "from urllib3 import Retry\n\nit = Retry(total=3, status_forcelist=[503])\n"
# Of each of the kinds, eight services; those of Resilience4j are in one file.
SPRING = "resilience4j.retry:\n  instances:\n" + "".join(
    f"    svc{number}: {{maxAttempts: 4, waitDuration: 200ms}}\n" for number in range(24, 32))
CONFIG = """leave_out = ["*/testdata/*"]

[[limits]]
attempts = 6
wait = "20s"
end = "1min"
attempt = "2s"

[[limits]]
path = "jobs/*"
waits = "30s"
attempt = "5s"

[[limits]]
name = "svc39"
attempts = 5
load = { clients = 1000, within = "1s", attempts = 5000 }

[[layers]]
names = ["svc32", "svc08", "edge/svc00.yaml#svc00"]
attempts = 120
by_product = true
end = "10min"
"""


def made(top):
    """The repository, in a checkout, which is returned."""
    for number in range(40):
        folder, ending, text = [("edge", "yaml", ENVOY), ("rpc", "json", GRPC), ("jobs", "yml", JOB), ("", "", ""),
                                ("workers", "py", PYTHON)][number // 8]
        if text:
            put(top / folder / f"svc{number:02}.{ending}", text.format(name=f"svc{number:02}", retries=3))
    put(top / "shop" / "application.yaml", SPRING)
    put(top / "shop" / "testdata" / "broken.yaml", "retry_policy: {num_retries: [\n")
    put(top / "deploy.yaml", "image: {a: {b\n")
    put(top / "README.md", "retry_policy: {num_retries: 3}\n")
    put(top / "built" / "all.yaml", ENVOY.format(name="old", retries=900))
    put(top / ".gitignore", "built/\n")
    put(top / ".zsched.toml", CONFIG)
    (top / "link.yaml").symlink_to("edge/svc00.yaml")
    subprocess.run(["git", "init", "-q", top], check=True)
    return top


def put(path, text):
    path.parent.mkdir(parents=True, exist_ok=True)
    path.write_text(text)


def change(name, one, other):
    """A change of a text in a file of the repository."""
    def made(top):
        text = (top / name).read_text()
        assert text.count(one) == 1
        (top / name).write_text(text.replace(one, other))
    return made


def add(text): return lambda top: put(top / ".zsched.toml", CONFIG + text)


def both(*changes): return lambda top: [it(top) for it in changes]


OVER = change("edge/svc07.yaml", "num_retries: 3", "num_retries: 50")
# The cap comes after the draw, so a part alone is drawn.
ARGUED = change("shop/application.yaml", "svc24: {maxAttempts: 4, waitDuration: 200ms}",
                "svc24: {maxAttempts: 4, waitDuration: 200ms, enableExponentialBackoff: true, enableRandomizedWait: "
                "true, exponentialMaxWaitDuration: 300ms}")
IGNORE = '\n[[ignore]]\npath = "edge/*"\nname = "svc07"\nreason = "goes in May"\n'
# A change of the repository, the status, and each finding: its rule, place and policy, a part of its text, and why it
# is ignored.
CHANGES = {
    "nothing": (lambda top: None, 0, []),
    "a limit is exceeded": (OVER, 1, [("limit", "edge/svc07.yaml:8:21", "svc07", "by the call's own limit", None),
                                      ("limit", "edge/svc07.yaml:8:21", "svc07", "up to 51 attempts", None)]),
    "a policy is unproved": (ARGUED, 1, [("limit", "shop/application.yaml:3:12", "svc24", "is unproved", None)] * 3),
    "one is ignored with a reason": (both(OVER, add(IGNORE)), 0, [
        ("limit", "edge/svc07.yaml:8:21", "svc07", "by the call's own limit", "goes in May"),
        ("limit", "edge/svc07.yaml:8:21", "svc07", "up to 51 attempts", "goes in May")]),
    "one is ignored and has no finding": (add(IGNORE), 1, [
        ("fits-nothing", ".zsched.toml:25", None, "[[ignore]] of path edge/* and name svc07", None)]),
    "a file is unreadable": (change("edge/svc03.yaml", "num_retries: 3", "num_retries: ["), 1, [
        ("unreadable", "edge/svc03.yaml:8:51", None, "not YAML", None)]),
    "a policy is unreadable": (change("rpc/svc09.json", '"maxAttempts": 4, ', ""), 1, [
        ("unreadable", "rpc/svc09.json:1:84", "svc09", "no maxAttempts", None)]),
    "a policy's draws have no room": (lambda top: put(top / "a.json", json.dumps({
        "MaxRetryAttempts": 300, "Delay": "00:00:01", "BackoffType": "Linear", "UseJitter": True})), 1, [
            ("unreadable", "a.json:1:1", "polly", "240", None)]),
    "a schedule is too big": (lambda top: put(top / "a.scala", "import zio._\nobject A {\n  val deep = Schedule.forever"
                                              + ".collectAll" * 70 + "\n}\n"), 1, [
        ("unreadable", "a.scala:3:724", "deep", "deeper than 64", None)]),
    "one is removed": (lambda top: (top / "workers/svc39.py").unlink(), 1, [
        ("fits-nothing", ".zsched.toml:14", None, "[[limits]] of name svc39", None)]),
    "a layer is removed": (lambda top: (top / "rpc/svc08.json").unlink(), 1, [
        ("fits-nothing", ".zsched.toml:19", None, "no policy has the name svc08", None)]),
    "a layer makes more calls": (change("edge/svc00.yaml", "num_retries: 3", "num_retries: 6"), 1, [
        ("limit", ".zsched.toml:19", None, "up to 140 attempts", None),
        ("limit", "edge/svc00.yaml:8:21", "svc00", "up to 7 attempts", None)]),
    "a product isn't accepted": (change(".zsched.toml", "by_product = true", ""), 1, [
        ("limit", ".zsched.toml:19", None, "of layers is unproved (by_product = true accepts it)", None)]),
    "a load is exceeded": (change(".zsched.toml", "attempts = 5000 }", "attempts = 3000 }"), 1, [
        ("limit", "workers/svc39.py:4:2", "svc39", "up to 5000 attempts", None)]),
    "no pattern fits": (change(".zsched.toml", "*/testdata/*", "*/data/*"), 1, [
        ("fits-nothing", ".zsched.toml:1", None, 'leave_out "*/data/*"', None),
        ("unreadable", "shop/testdata/broken.yaml:2:1", None, "not YAML", None)]),
    "a setting isn't applied": (change("jobs/svc16.yml", "backoffLimit: 2", "backoffLimit: 2\n  parallelism: 3"), 1, [
        ("not-applied", "jobs/svc16.yml:1:1", "svc16", "parallel isn't applied: 3", None)]),
    "settings that add nothing": (both(
        lambda top: put(top / "edge/istio.yaml", SIDECAR),
        lambda top: put(top / "aws.ini", "[profile a]\nmax_attempts = 3\n"),
        change("jobs/svc16.yml", "backoffLimit: 2", "backoffLimit: 2\n  completions: 1")), 0, []),
    "attempts that the client may have": (lambda top: put(top / "aws.ini", "[profile a]\nretry_mode = legacy\n"), 1, [
        ("not-applied", "aws.ini:1:1", "a", "DynamoDB isn't applied: its own waits, and ten attempts", None)]),
    "two settings that may add": (lambda top: put(top / "polly.json", POLLY), 1, [
        ("not-applied", "polly.json:1:11", "polly",
         "DelayGenerator isn't applied: slower; hedging isn't applied: {Delay: 1}; no limit holds over that", None)]),
    "a service may ask for any wait": (lambda top: put(top / "workers/http.py", URLLIB3), 1, [
        ("limit", "workers/http.py:3:6", "it", "wait 20 s is not proved: no limit of each wait", None),
        ("limit", "workers/http.py:3:6", "it", "end 1 min is not proved: no limit of the whole call", None)]),
    "a service asks for short waits": (both(
        lambda top: put(top / "workers/http.py", URLLIB3),
        change(".zsched.toml", 'attempt = "2s"\n', 'attempt = "2s"\nasked = "15s"\n')), 0, []),
    "a service asks for longer waits": (both(
        lambda top: put(top / "workers/http.py", URLLIB3),
        change(".zsched.toml", 'attempt = "2s"\n', 'attempt = "2s"\nasked = "25s"\n')), 1, [
        ("limit", "workers/http.py:3:6", "it", "wait 20 s is not proved: waits of up to 25 s", None),
        ("limit", "workers/http.py:3:6", "it", "end 1 min is not proved: a call of up to 1 min 23 s", None)]),
    "a setting is allowed": (both(
        change("jobs/svc16.yml", "backoffLimit: 2", "backoffLimit: 2\n  parallelism: 3"),
        change(".zsched.toml", 'attempt = "5s"', 'attempt = "5s"\nallow_left_out = ["parallel"]')), 0, []),
    "a setting is allowed that none has": (change(".zsched.toml", 'attempt = "5s"', 'attempt = "5s"\nallow_left_out = '
                                                                                    '["parallel"]'), 1, [
        ("fits-nothing", ".zsched.toml:9", None, 'allow_left_out "parallel"', None)]),
    "an end is the call's": (both(OVER, change(".zsched.toml", "attempts = 6", "attempts = 60\nby_call_limit = true")),
                             0, []),
    "no limit": (lambda top: (top / ".zsched.toml").write_text('leave_out = ["*/testdata/*"]\n'), 1, [
        ("nothing", ".zsched.toml:1", None, "no policy has a limit", None)]),
    "no policy": (lambda top: [shutil.rmtree(top / it) for it in ("edge", "rpc", "jobs", "shop", "workers")]
                  and (top / ".zsched.toml").unlink(), 1, [("nothing", ".:1", None, "no policy", None)])}


@pytest.fixture
def programs(zsched, bounds, monkeypatch):
    monkeypatch.setenv("ZSCHED", str(zsched))
    monkeypatch.setenv("ZSCHED_BOUNDS", str(bounds))
    monkeypatch.setenv("GIT_CEILING_DIRECTORIES", "/")
    monkeypatch.delenv("GITHUB_ACTIONS", raising=False)


@pytest.fixture
def repository(programs, monkeypatch, tmp_path):
    monkeypatch.chdir(tmp_path)
    return made(tmp_path)


def found_in(output):
    """The findings of a check, as in CHANGES."""
    return [(it["rule"], f"{it['path']}:{it['line']}" + (f":{it['column']}" if it["column"] else ""), it["policy"],
             it["text"], it["ignored"]) for it in json.loads(output)["findings"]]


def is_as_wanted(status, output, wanted, findings):
    found = found_in(output) if output else []
    return status == wanted and bool(output) and len(found) == len(findings) and all(
        one[3] in it[3] and one[:3] + one[4:] == it[:3] + it[4:] for one, it in zip(findings, found))


@pytest.mark.parametrize("name", CHANGES)
def test_a_change_has_its_status_and_its_findings(name, repository):
    make, wanted, findings = CHANGES[name]
    make(repository)
    status, output, errors = run_here(main, ["zsched-policy", "check", "--json"])
    assert is_as_wanted(status, output, wanted, findings), (status, found_in(output) if output else errors)
    known = json.loads(output)
    if name == "nothing":
        assert len(known["policies"]) == 40 and len({it["format"] for it in known["policies"]}) == 5
        assert known["files"] == {"searched": 34, "with_policies": 33, "not_understood": [], "left_out": {
            "another type of file": 3, "a link or no file": 1, "leave_out */testdata/*": 1}}


# What is wrong in a tool, in which file, its right and its wrong text, and a change of which it then says otherwise.
PLANTS = [
    ("no limit is compared", "checking.py", "        yield from self._over(it.limits, it.bounds, it.policy)\n",
     "        return\n", "a limit is exceeded"),
    ("what is argued counts as proved", "checking.py", "allow_unproved=self.given.allow_unproved, **{",
     "allow_unproved=True, **{", "a policy is unproved"),
    ("an entry without a reason ignores", "limits.py", "                return entry.reason\n",
     "                return None\n", "one is ignored with a reason"),
    ("what is ignored needn't be there", "limits.py", "(*self.limits, *self.ignored) if not it.used)",
     "self.limits if not it.used)", "one is ignored and has no finding"),
    ("a file that can't be read is passed over", "checking.py", "        except Refused as refused:\n",
     "        except Refused as refused:\n            return\n", "a file is unreadable"),
    ("a policy that can't be read is passed over", "checking.py", "        except (Wrong, FaultAt) as wrong:\n",
     "        except (Wrong, FaultAt) as wrong:\n            return\n", "a policy is unreadable"),
    ("an entry may fit nothing", "checking.py", "if self.is_whole else ():", "if False else ():", "one is removed"),
    ("a name of layers may be missing", "checking.py", "        if len(found) != 1:\n", "        if len(found) > 1:\n",
     "a layer is removed"),
    ("calls at the bottom of layers aren't compared", "checking.py", 'known = {"attempts": entry.attempts, "end"',
     'known = {"attempts": None, "end"', "a layer makes more calls"),
    ("a product is proved", "checking.py", 'bounds.is_product and not known.get("by_product")', "False",
     "a product isn't accepted"),
    ("a load is that of one client", "checking.py", "most * load.clients > load.attempts", "most > load.attempts",
     "a load is exceeded"),
    ("what isn't applied is passed over", "checking.py",
     '        yield from self._not_applied([it.policy], it.limits.get("allow_left_out", []), "bound")\n', "",
     "a setting isn't applied"),
    ("an end by the call's limit is proved", "checking.py", 'known.get("by_call_limit") or self', "True or self",
     "a limit is exceeded"),
    ("nothing to check is fine", "checking.py", "        elif self.policies and not (", "        elif False and not (",
     "no limit"),
    ("no policy is fine", "checking.py", "        if not self.policies and not self.findings:\n", "        if False:\n",
     "no policy"),
    ("files that git ignores are read", "walking.py", '             "--exclude-standard", "--deduplicate"]',
     '             "--deduplicate"]', "nothing")]


@pytest.mark.parametrize("name, file, right, wrong, changed", PLANTS, ids=[it[0] for it in PLANTS])
def test_a_tool_that_is_wrong_is_found(name, file, right, wrong, changed, repository, tmp_path_factory):
    tools = tmp_path_factory.mktemp("planted") / "tools"
    shutil.copytree(TOP / "tools", tools)
    (tools.parent / "docs").symlink_to(TOP / "docs")
    path = tools / "zsched_tools" / "policy" / file
    assert path.read_text().count(right) == 1
    path.write_text(path.read_text().replace(right, wrong))
    make, wanted, findings = CHANGES[changed]
    make(repository)
    status, output, errors = run_tool([tools / "zsched-policy", "check", "--json"], folder=repository)
    assert "Traceback" not in errors and "fault of this tool" not in errors and "internal error" not in output
    assert not is_as_wanted(status, output, wanted, findings)


# What code hosts read of SARIF, by its documents (from memory): the keys to each value, and what it is here.
READ = [
    (("$schema",), "https://json.schemastore.org/sarif-2.1.0.json"), (("version",), "2.1.0"),
    (("runs", 0, "tool", "driver", "name"), "zsched-policy"),
    (("runs", 0, "tool", "driver", "version"), (TOP / "VERSION").read_text().strip()),
    (("runs", 0, "tool", "driver", "rules", 1, "id"), "limit"),
    (("runs", 0, "tool", "driver", "rules", 1, "shortDescription", "text"), checking.RULES["limit"]),
    (("runs", 0, "columnKind"), "unicodeCodePoints"),
    (("runs", 0, "results", 1, "ruleId"), "limit"), (("runs", 0, "results", 1, "ruleIndex"), 1),
    (("runs", 0, "results", 1, "level"), "error"),
    (("runs", 0, "results", 1, "message", "text"), "svc07: attempts 6 is not proved: up to 51 attempts"),
    (("runs", 0, "results", 1, "locations", 0, "physicalLocation", "artifactLocation", "uri"), "edge/svc07.yaml"),
    (("runs", 0, "results", 1, "locations", 0, "physicalLocation", "region", "startLine"), 8),
    (("runs", 0, "results", 1, "locations", 0, "physicalLocation", "region", "startColumn"), 21),
    (("runs", 0, "results", 1, "suppressions", 0, "kind"), "external"),
    (("runs", 0, "results", 1, "suppressions", 0, "justification"), "goes in May")]


@pytest.mark.parametrize("is_ignored", [False, True])
def test_sarif_has_what_code_hosts_read(is_ignored, repository, monkeypatch):
    both(OVER, add(IGNORE) if is_ignored else add(""))(repository)
    monkeypatch.chdir(repository / "edge")
    status, output, _ = run_here(main, ["zsched-policy", "check", "--sarif", "../found.sarif", ".."])
    assert status == (0 if is_ignored else 1) and output.startswith("place  ")
    tree = json.loads((repository / "found.sarif").read_text())
    for keys, value in READ if is_ignored else READ[:-2]:
        found = tree
        for key in keys:
            found = found[key]
        assert found == value, keys
    assert len(tree["runs"][0]["results"]) == 2 and ("suppressions" in tree["runs"][0]["results"][0]) == is_ignored


def test_github_gets_an_annotation_of_each_finding_that_is_not_ignored(repository, monkeypatch):
    both(OVER, ARGUED, add('\n[[ignore]]\nname = "svc24"\nreason = "goes in May"\n'))(repository)
    monkeypatch.setenv("GITHUB_ACTIONS", "true")
    status, output, _ = run_here(main, ["zsched-policy", "check"])
    assert status == 1 and [line for line in output.splitlines() if line.startswith("::")] == [
        f"::error file=edge/svc07.yaml,line=8,col=21,title=zsched-policy limit::svc07: {it}" for it in [
            "end 1 min is not proved: a call of up to 20 s by the call's own limit (by_call_limit = true accepts it)",
            "attempts 6 is not proved: up to 51 attempts"]]
    assert "::" not in run_here(main, ["zsched-policy", "check", "--json"])[1]


def test_the_table_has_a_line_for_each_policy_and_the_places_of_findings(repository):
    both(OVER, add(IGNORE), lambda top: (top / "workers/svc39.py").unlink())(repository)
    status, output, errors = run_here(main, ["zsched-policy", "check"])
    lines = [re.split("  +", line) for line in output.splitlines()]
    assert status == 1 and lines[0][:3] == ["place", "policy", "what it does"] and len(lines) == 39 + 1 + 3
    assert lines[8] == ["edge/svc07.yaml:8:21", "svc07", "up to 50 retries after 25 to 250 ms, each drawn from 0",
                        "1 to 51", "250 ms", "12.025 s", "20 s by its limit"]
    assert lines[-3:] == [["39 policies in 32 files; 1 finding, 2 ignored"], [
        "33 files searched, 0 unreadable; 1 left out: a link or no file; 3 left out: another type of file; 1 left out: "
        "leave_out */testdata/*"], ["0 files mention retries and aren't understood"]]
    assert errors.splitlines() == [
        "zsched-policy: edge/svc07.yaml:8:21: svc07: end 1 min is not proved: a call of up to 20 s by the call's own "
        "limit (by_call_limit = true accepts it); ignored: goes in May",
        "zsched-policy: edge/svc07.yaml:8:21: svc07: attempts 6 is not proved: up to 51 attempts; ignored: goes in May",
        "zsched-policy: .zsched.toml:14: [[limits]] of name svc39 fits nothing: remove or mend it"]


def test_an_unproved_program_satisfies_no_limit(repository, bounds, tmp_path_factory, monkeypatch):
    path = tmp_path_factory.mktemp("unproved") / "zsched-bounds"
    output_of(["objcopy", "--remove-section=.zsched.proved", bounds, path])
    monkeypatch.setenv("ZSCHED_BOUNDS", str(path))
    status, output, errors = run_here(main, ["zsched-policy", "check", "edge", "--require-attempts", "9"])
    assert status == 1 and output.count("unproved: 1 to 4") == 8 and errors.count("zsched-bounds is unproved") > 8
    assert run_here(main, ["zsched-policy", "check", "edge", "--allow-unproved"])[::2] == (0, "")


def test_readme_shows_a_check_as_it_is(programs, bounds, tmp_path, monkeypatch):
    """With an unproved program, as a newcomer has it; with a proved one only that mark is missing."""
    words, shown = re.search(r"\$ tools/(zsched-policy check .*)\n(?:.*takes the programs.*\n)((?s:.*?))```", (
        TOP / "README.md").read_text()).groups()
    monkeypatch.chdir(TOP)
    status, *found = run_here(main, words.split())
    assert status == 1 and [re.split("  +", it) for it in "".join(found).splitlines()] == [
        re.split("  +", it.replace("unproved: ", "")) for it in shown.splitlines()]
    path = tmp_path / "zsched-bounds"
    output_of(["objcopy", "--remove-section=.zsched.proved", bounds, path])
    assert run_here(main, [*words.split(), "--bounds", str(path)]) == (1, found_out(shown), found_error(shown))


def found_out(text): return "".join(it for it in text.splitlines(True) if not it.startswith("zsched-policy: "))
def found_error(text): return "".join(it for it in text.splitlines(True) if it.startswith("zsched-policy: "))


# The limits of a command line, and files and folders that are named: the words, the status, and parts of what is said.
WORDS = [
    (["--require-attempts", "3"], 1, "svc00: attempts 3 is not proved: up to 4 attempts"),
    (["--require-wait", "100ms"], 1, "svc00: wait 100 ms is not proved: waits of up to 175 ms"),
    (["--require-waits", "100ms"], 1, "svc00: waits 100 ms is not proved: waits of up to 275 ms in all"),
    (["--require-end", "4s"], 1, "svc00: end 4 s is not proved: a call of up to 4.275 s"),
    (["jobs", "--require-end", "40s"], 1, "svc16: end 40 s is not proved: a call of up to 45 s"),
    (["jobs", "--require-end", "40s", "--attempt", "1s"], 0, ""),
    (["jobs", "edge/svc00.yaml"], 0, ""),
    (["deploy.yaml"], 1, "deploy.yaml:2:1: not YAML"),
    (["README.md"], 0, ""),
    (["--config", "jobs/none.toml"], 3, "jobs/none.toml: No such file"),
    (["none"], 3, "none: No such file"),
    (["--allow-left-out", "delay"], 2, "--allow-left-out delay: no policy with a limit leaves that out"),
    (["--require-end", "soon"], 2, "soon")]


@pytest.mark.parametrize("words, wanted, said", WORDS, ids=[" ".join(it[0]) for it in WORDS])
def test_words_of_the_command_line(words, wanted, said, repository):
    status, _, errors = run_here(main, ["zsched-policy", "check", *words])
    assert status == wanted and said in errors and bool(said) == bool(errors), (status, errors)


# A .zsched.toml that is wrong, the line and column, and what is said.
FAULTS = [
    ("limits = 3", "1:10", "limits is not a list"), ("[limits]\nend = '3s'", "1:1", "limits is not a list"),
    ("[[limit]]", "1:1", "unknown key limit"), ("[[limits]]\nattempt = '0s'", "1:1", "attempt is 0"),
    ("[[limits]]\nname = 'a'", "1:1", "limits has no limit"), ("[[limits]]\nend = 'soon'", "2:7", "duration"),
    ("[[limits]]\nattempts = '3'", "2:12", "attempts is not a whole number"),
    ("[[limits]]\nattempts = -3", "2:12", "attempts is not a whole number"),
    ("[[limits]]\nload = { clients = 3 }", "2:8", "load has no within"),
    ("[[limits]]\nload = { clients = 3, within = '0s', attempts = 3 }", "2:8", "within is 0"),
    ("[[limits]]\nby_call_limit = 'yes'", "2:17", "by_call_limit is neither true nor false"),
    ("[[limits]]\nallow_left_out = 'x'", "2:18", "allow_left_out is not a list"),
    ("[[layers]]\nnames = ['a']\nend = '3s'", "1:1", "layers needs two names"),
    ("[[layers]]\nnames = ['a', 'b']", "1:1", "layers needs two names or more, outermost first, and attempts or end"),
    ("[[ignore]]\nname = 'a'", "1:1", "ignore needs a reason"), ("[[ignore]]\nreason = 'a'", "1:1", "a path or a name"),
    ("leave_out = 'x'", "1:13", "leave_out is not a list"), ("leave_out = [3]", "1:13", "leave_out is not a text"),
    ("[[limits]]\nend = 30", "2:7", 'write end = "30s", or "30ms"'), ("[[limits]]\nend = 30", "2:7", "end has no unit"),
    ("[[limits]]\nwait = ' 1.5 '", "2:8", "wait has no unit"),
    ("[[limits]]\nend = 'any'", "2:7", '"any" is not a duration'),
    ("[[limits]]\nload = { clients = 3, within = 10, attempts = 3 }", "2:8", "within has no unit"),
    ("a = = 3", "1:5", "not TOML"), ("[[limits]]\nend = '99999999999d'", "2:7", "above")]


@pytest.mark.parametrize("text, place, said", FAULTS, ids=[it[0] for it in FAULTS])
def test_a_file_of_limits_that_is_wrong_is_an_error_at_its_place(text, place, said, repository):
    (repository / ".zsched.toml").write_text(text + "\n")
    status, _, errors = run_here(main, ["zsched-policy", "check"])
    assert status == 2 and errors.startswith(f"zsched-policy: .zsched.toml:{place}: ") and said in errors, errors


@pytest.mark.parametrize("program, file, text", rows("foreign.jsonl"), ids=[it[0] for it in rows("foreign.jsonl")])
def test_a_config_of_another_program_has_no_policy(program, file, text, tmp_path):
    """No reader takes it for that of its own program, whose units and defaults are others."""
    (tmp_path / file).write_text(text)
    assert [(it.form, it.name) for it in configs.policies_of(str(tmp_path / file))] == []


# What makes each a policy: the name of a file, a place, or the group of an API; and a change with which there is none.
PLACES = [
    ("application.yaml", "app.retry: {delay: 100, max-attempts: 3}", "spring", "app", "micronaut: {}\napp"),
    ("bootstrap-dev.properties", "a.retry.max-attempts=3\n", "spring", "a.retry", "quarkus.a.retry"),
    ("a.json", '{"spring": {"a": {"retry": {"maxAttempts": 3}}}}', "spring", "spring", "autumn"),
    ("a.yaml", "spring.cloud.gateway: {default-filters: [Retry=3]}", "gateway", "gateway", "filters"),
    ("a.yaml", "routes: [{id: a, filters: [Retry=3]}]", "gateway", "routes", "rules"),
    ("a.yaml", "apiVersion: batch/v1\nkind: Job\nspec: {}", "kubernetes", "batch/v1", "batch.volcano.sh/v1alpha1"),
    ("a.yaml", "apiVersion: apps/v1\nkind: Deployment\nspec: {template: {spec: {containers: [{livenessProbe: {}}]}}}",
     "kubernetes", "apps/v1", "serving.knative.dev/v1"),
    ("a.yaml", "apiVersion: v1\nkind: List\nitems: [{apiVersion: batch/v1, kind: Job, spec: {}}]", "kubernetes",
     "batch/v1", "kueue.x-k8s.io/v1"),
    ("a.yaml", "apiVersion: v1\nkind: Pod\nspec: {containers: [{livenessProbe: {}}]}", "kubernetes", "containers",
     "sidecars"),
    ("a.yaml", "apiVersion: networking.istio.io/v1\nkind: VirtualService\nspec: {http: [{retries: {attempts: 3}}]}",
     "istio", "networking.istio.io", "gateway.solo.io"),
    ("a.yaml", "http: [{retries: {attempts: 3}}]", "istio", "attempts", "numRetries: 3, attempts"),
    ("a.yaml", "route: {retry_policy: {num_retries: 3}}", "envoy", "route:", "mapping:"),
    ("a.yaml", "retry_policy: {num_retries: 3}", "envoy", "retry_policy", "prefix: /\nretry_policy"),
    ("a.yaml", "a: {retryPolicy: {maximumAttempts: 3}}", "temporal", "a:", "apiVersion: a.dev/v1\nkind: A\na:"),
    ("a.yaml", "resilience4j.retry.instances.a: {maxRetryAttempts: 3}", "resilience4j", "resilience4j",
     "apiVersion: a.dev/v1\nkind: A\nresilience4j")]


@pytest.mark.parametrize("file, text, form, right, wrong", PLACES, ids=[f"{it[2]} {it[3]}" for it in PLACES])
def test_a_policy_is_what_its_file_says_it_is(file, text, form, right, wrong, tmp_path):
    found = []
    for changed in (text, text.replace(right, wrong)):
        (tmp_path / file).write_text(changed)
        found.append([it.form for it in configs.policies_of(str(tmp_path / file))])
    assert found == [[form], []]


# An expression of a document, one of the profile that is asked for, and whether the document counts there.
EXPRESSIONS = [
    (None, "prod", True), ("prod", None, False), ("prod", "prod", True), ("prod", "dev", False),
    ("prod", "prod & cloud", True), ("prod & cloud", "prod", False), ("cloud & prod", "prod & cloud & eu", True),
    ("!dev", "prod", True), ("!dev", "dev", False), ("!dev", "!dev", True), ("prod", "!dev", False),
    ("!dev", None, False), ("prod | dev", "dev", True), ("prod,dev", "test", False), ("prod", "prod,dev", False),
    ("prod,dev,test", "prod | dev", True), ("(prod | dev) & eu", "prod & eu", False),
    ("prod", "(prod | dev) & eu", False), ("(prod | dev) & eu", "(prod | dev) & eu", True)]


@pytest.mark.parametrize("document, profile, wanted", EXPRESSIONS)
def test_a_document_counts_in_a_profile_in_which_it_is_active(document, profile, wanted):
    assert profiles.Layer(None, document).counts(profile) == wanted


@pytest.mark.parametrize("text", [
    "spring.config.activate.on-profile: prod", "spring: {config: {activate.onProfile: [prod]}}",
    "spring.profiles: prod", "spring.profiles: prod\nspring.profiles.include: more",
    "spring: {profiles: prod, profiles.active: more}",
    "spring: {profiles: prod}\nspring.config.import: more", "spring.config.activate.on-cloud-platform: prod"])
def test_a_document_says_its_profile_in_these_ways(text, tmp_path):
    (tmp_path / "a.yaml").write_text(f"a.retry: {{maxAttempts: 3}}\n---\n{text}\nspring.a.retry: {{maxAttempts: 3}}\n")
    assert [it.name for it in configs.policies_of(str(tmp_path / "a.yaml"))] == ["spring.a.retry (prod)"]


def test_a_policy_of_a_profile_is_checked_at_its_own_place(programs, tmp_path, monkeypatch):
    monkeypatch.chdir(tmp_path)
    before = "resilience4j.retry.instances.inventory: {max-attempts: 3, wait-duration: 2s}\n"
    put(tmp_path / "application.yaml", before)
    put(tmp_path / "application-prod.yaml", "# More.\nresilience4j.retry.instances.inventory.max-attempts: 7\n")
    put(tmp_path / "many.yaml", before + "---\nspring.config.activate.on-profile: prod\n" + before.replace("3", "9"))
    output = run_here(main, ["zsched-policy", "check", "--json", "--require-waits", "4s", "--allow-unproved"])[1]
    assert [it[1:3] for it in found_in(output)] == [("application-prod.yaml:2:54", "inventory (prod)"),
                                                    ("many.yaml:4:41", "inventory (prod)")]
    assert json.loads(output)["files"]["searched"] == 3 and len(json.loads(output)["policies"]) == 4


def test_lines_that_part_documents_of_properties_part_no_settings(tmp_path):
    put(tmp_path / "a.properties", "resilience4j.retry.configs.default.max-attempts=3\n#---\n"
        "resilience4j.retry.instances.a.base-config=default\n")
    assert [it.read().waits for it in configs.policies_of(str(tmp_path / "a.properties"))] == [
        "(spaced(500) && recurs(2))"] * 2


def test_profiles_with_more_values_than_a_file_may_have_are_refused(tmp_path, monkeypatch):
    put(tmp_path / "application.yaml", "a: 1\n" + "".join(
        f"---\nspring.profiles: p{number}\na: {number}\n" for number in range(9)))
    assert configs.policies_of(str(tmp_path / "application.yaml")) == []
    # The base has 2 values and each profile 4: three times 38 are more than 100.
    monkeypatch.setattr(profiles, "_MOST", 100)
    with pytest.raises(configs.Unread, match="application.yaml:9:1: the file has more than 100 values with those of"):
        configs.policies_of(str(tmp_path / "application.yaml"))


def test_a_file_beside_one_of_a_profile_is_named_if_it_is_wrong(tmp_path, monkeypatch):
    monkeypatch.chdir(tmp_path)
    put(tmp_path / "application.yaml", "a: [\n")
    put(tmp_path / "application-prod.yaml", "resilience4j.retry.instances.a: {max-attempts: 7}\n")
    with pytest.raises(configs.Unread, match="^application-prod.yaml:1: application.yaml:2:1: not YAML: expected"):
        configs.policies_of("application-prod.yaml")


def test_a_file_beside_one_of_a_profile_is_not_read_by_a_link(tmp_path):
    put(tmp_path / "application-prod.yaml", "resilience4j.retry.instances.a.max-attempts: 7\n")
    put(tmp_path / "other.yaml", "resilience4j.retry.instances.a.wait-duration: 9s\n")
    (tmp_path / "application.yaml").symlink_to("other.yaml")
    found, = configs.policies_of(str(tmp_path / "application-prod.yaml"))
    assert (found.name, configs.policy_of(found).waits) == ("a (prod)", "(spaced(500) && recurs(6))")


def samples():
    """Each file of a case, each of settings.jsonl, and three with no key of retries."""
    for path in sorted(unpacked("zsched-policy").glob("*/*.*")):
        yield path.name, path.read_text(errors="replace")
    for number, (_, _, _, ending, text, one, _) in enumerate(rows("settings.jsonl")):
        yield f"{number}.{ending}", one.join(text.rsplit("@", 1))
    yield "gateway.yaml", "routes: [{id: pay, filters: [Retry=3]}]\n"
    yield "application-prod.yaml", "spring.kafka.retry.topic.delay: 9s\n"
    yield "virtual.yaml", "kind: VirtualService\nspec: {http: [{route: [{destination: {host: a}}]}]}\n"


def test_each_file_in_which_a_policy_is_found_looks_as_if_it_had_one(tmp_path):
    missed, found, marked = [], 0, 0
    for name, text in samples():
        (tmp_path / name).write_text(text)
        try:
            policies = configs.policies_of(str(tmp_path / name))
        except configs.Unread:
            continue
        found += bool(policies)
        marked += walking.has_mark(name, text)
        missed += [text] if policies and not walking.has_mark(name, text) else []
    assert missed == [] and found > 200 and marked < found + 30


@pytest.mark.parametrize("name", ["_NAMES", "_KIND", "_FILTERS", *walking._SOURCES])
def test_each_mark_is_needed(name, tmp_path, monkeypatch):
    """Without it a file with a policy is missed."""
    never = re.compile("(?!)")
    if name == "_NAMES":
        monkeypatch.setattr(walking, "_KEY", never)
    elif name in walking._SOURCES:
        monkeypatch.setitem(walking._SOURCES, name, ((), never))
    else:
        monkeypatch.setattr(walking, name, (never, never) if name == "_FILTERS" else never)
    with pytest.raises(AssertionError):
        test_each_file_in_which_a_policy_is_found_looks_as_if_it_had_one(tmp_path)


def test_a_file_that_is_named_twice_is_read_once(repository):
    output = run_here(main, ["zsched-policy", "check", "edge", ".", "edge/svc00.yaml", "--json"])[1]
    assert json.loads(output)["files"]["searched"] == 34 and len(json.loads(output)["policies"]) == 40


def test_the_limits_of_another_repository_are_not_taken(repository):
    edge = repository / "edge"
    assert limits.find([edge]) == ".zsched.toml"
    subprocess.run(["git", "init", "-q", edge], check=True)
    assert limits.find([edge]) is None and limits.find([edge, "jobs"]) == ".zsched.toml"


def test_a_folder_without_git_is_read_as_it_is(repository, monkeypatch, capsys):
    def files():
        return sorted(walking.files_of(".", pytest.fail))
    before = files()
    (repository / ".git" / "HEAD").write_text("ref: refs/heads/main\n")
    (repository / ".git" / "config").write_text("[core]\n\trepositoryformatversion = 99\n")
    assert files() == sorted([*before, "built/all.yaml"])
    assert "git lists no files of ., so all are read: fatal: " in capsys.readouterr().err
    shutil.rmtree(repository / ".git")
    assert files() == sorted([*before, "built/all.yaml"]) and not capsys.readouterr().err
    (repository / "no" / "git").mkdir(parents=True)
    monkeypatch.setenv("PATH", executable(repository / "no" / "git" / "x", "").removesuffix("/x"))
    assert walking.folder_of_checkout(".") == str(repository)


# A change of the repository beside it as it was: the status, and lines.
DIFFERENCES = {
    "nothing": (lambda top: None, 0, ["policies in both: 40, without a difference: 40"]),
    "one is changed": (OVER, 1, ["edge/svc07.yaml#svc07", "policies in both: 40, without a difference: 39"]),
    "one is removed": (lambda top: (top / "workers/svc39.py").unlink(), 1, [
        "only in A: workers/svc39.py#svc39", "policies in both: 39, without a difference: 39"]),
    "one is added": (lambda top: put(top / "edge" / "svc40.yaml", ENVOY.format(name="svc40", retries=3)), 1, [
        "only in B: edge/svc40.yaml#svc40", "policies in both: 40, without a difference: 40"]),
    "one of a file is added": (
        lambda top: put(top / "shop" / "application.yaml", SPRING + "    svc40: {maxAttempts: 4}\n"), 1,
        ["only in B: shop/application.yaml#svc40"]),
    "one is unreadable": (change("edge/svc03.yaml", "num_retries: 3", "num_retries: ["), 2, [
        "only in A: edge/svc03.yaml#svc03"]),
    "errors are changed": (change("edge/svc02.yaml", "retry_on: 5xx", "retry_on: gateway-error"), 1, [
        "edge/svc02.yaml#svc02", "   the errors that are retried: 0,5xx in A, 0,502,503,504 in B"]),
    "a setting is changed": (change("edge/svc02.yaml", "timeout: 20s", "timeout: 19s"), 1, [
        "edge/svc02.yaml#svc02", "   the limit of the call: 20 s in A, 19 s in B"])}


@pytest.mark.parametrize("name", DIFFERENCES)
def test_folders_are_compared_policy_by_policy(name, repository, tmp_path_factory):
    other = tmp_path_factory.mktemp("other") / "repository"
    shutil.copytree(repository, other, symlinks=True)
    make, wanted, lines = DIFFERENCES[name]
    make(other)
    status, output, errors = run_here(main, ["zsched-policy", "diff", str(repository), str(other)])
    assert status == wanted and [it for it in lines if it not in output.splitlines()] == [], (status, output, errors)


def test_files_are_compared_policy_by_policy(repository):
    put(repository / "new.yaml", SPRING + "    svc40: {maxAttempts: 4}\n")
    for words in [["shop/application.yaml", "new.yaml"], ["@shop/application.yaml#*", "@new.yaml#*"]]:
        status, output, _ = run_here(main, ["zsched-policy", "diff", *words])
        assert (status, output) == (1, "only in B: svc40\npolicies in both: 8, without a difference: 8\n")
    status, output, _ = run_here(main, ["zsched-policy", "diff", "--json", *words])
    assert status == 1 and json.loads(output) == {"changed": {}, "only_in_a": [], "only_in_b": ["svc40"], "equal": 8}
    assert run_here(main, ["zsched-policy", "diff", "new.yaml", "recurs(3)"])[0] == 2


def cost(folder, files):
    """The processor time of a check of so many files, a fifth of which have a policy."""
    for number in range(files):
        put(folder / f"f{number}.yaml", ENVOY.format(name=f"p{number}", retries=3 + number % 7) if number % 5 == 0 else
            "".join(f"key{line}: {{a: [1, 2, 3], b: text of a line}}\n" for line in range(50)))
    begin = time.process_time() + sum(os.times()[2:4])
    assert run_here(main, ["zsched-policy", "check", str(folder), "--require-attempts", "99", "--json"])[0] == 0
    return time.process_time() + sum(os.times()[2:4]) - begin


def test_twice_as_many_files_cost_about_twice_as_much(programs, tmp_path):
    for more in range(3):
        small, large = (cost(tmp_path / f"{more}-{files}", files) for files in (200, 400))
        if large < 3 * small:
            return
    raise AssertionError((small, large))


@pytest.mark.parametrize("right, wrong, name", [
    ("for side, names in only.items()", "for side, names in [*only.items()][:1]", "one is added"),
    ("for side, names in only.items()", "for side, names in [*only.items()][1:]", "one is removed"),
    (" and not list(_settings(one, other))", "", "a setting is changed"),
    ("    if not (is_one_whole and is_other_whole):\n", "    if False:\n", "one is unreadable"),
    ("    if changed:\n", "    if False:\n", "one is changed")])
def test_a_comparison_that_is_wrong_is_found(right, wrong, name, repository, tmp_path_factory):
    tools, other = (tmp_path_factory.mktemp("planted") / it for it in ("tools", "repository"))
    shutil.copytree(TOP / "tools", tools)
    (tools.parent / "docs").symlink_to(TOP / "docs")
    path = tools / "zsched_tools" / "policy" / "comparing.py"
    assert path.read_text().count(right) == 1
    path.write_text(path.read_text().replace(right, wrong))
    shutil.copytree(repository, other, symlinks=True)
    make, wanted, lines = DIFFERENCES[name]
    make(other)
    status, output, errors = run_tool([tools / "zsched-policy", "diff", repository, other])
    assert "fault of this tool" not in errors and (status != wanted or set(lines) - set(output.splitlines()))


# Of each format a file with two policies that can't be read and one that makes too many attempts, and the lines and the
# columns of all three, counted by hand.
WRONG_FILES = {
    "a.scala": ("""import zio._
object A {
  val a = Schedule.exponential(1.second, 1.5)
  val b = Schedule.recurs(limitOf(config)) && Schedule.spaced(1.second)
  val c = Schedule.recurs(50)
}
""", [(3, 20), (4, 27), (5, 11)]),
    "a.ts": ("""import { Schedule } from "effect"
export const a = Schedule.recurs(limitOf(config))
export const b = Schedule.spaced(slow())
export const c = Schedule.recurs(50)
""", [(2, 34), (3, 34), (4, 18)]),
    "a.py": ("""import tenacity as t


@t.retry(stop=t.stop_after_attempt(MOST))
def a(): pass


@t.retry(before=é, wait=slowly(3))
def b(): pass


@t.retry(stop=t.stop_after_attempt(50))
def c(): pass
""", [(4, 36), (8, 25), (12, 2)]),
    "a.yaml": ("""resilience4j.retry.instances:
  a: {maxAttempts: none}
  b: {maxAttempts: 3, waitDuration: soon}
  c: {maxAttempts: 50}
""", [(2, 20), (3, 37), (4, 6)]),
    "a.json": ("""{"methodConfig": [
  {"name": [{"service": "a"}], "retryPolicy": {"maxAttempts": 4}},
  {"name": [{"service": "b"}], "retryPolicy": {"maxAttempts": 4, "initialBackoff": "soon", "maxBackoff": "1s",
    "backoffMultiplier": 2, "retryableStatusCodes": ["UNAVAILABLE"]}},
  {"name": [{"service": "c"}], "retryPolicy": {"maxAttempts": 5, "initialBackoff": "1s", "maxBackoff": "1s",
    "backoffMultiplier": 2, "retryableStatusCodes": ["UNAVAILABLE"]}}]}
""", [(2, 47), (3, 84), (5, 47)]),
    "A.java": ("""class A {
  IntervalFunction a = IntervalFunction.of(config.wait());
  IntervalFunction b = IntervalFunction.ofRandomized(1, 2, 3, 4, 5);
  RetryConfig c = RetryConfig.custom().maxAttempts(50).intervalFunction(IntervalFunction.of(500)).build();
}
""", [(2, 24), (3, 24), (4, 19)]),
    "a.properties": ("""resilience4j.retry.instances.a.maxAttempts=none
  resilience4j.retry.instances.b.waitDuration = soon
resilience4j.retry.instances.c.maxAttempts=50
""", [(1, 44), (2, 49), (3, 1)]),
    "config.ini": ("""[default]
retry_mode = often
[profile b]
max_attempts = none
[profile c]
retry_mode = standard
max_attempts = 50
""", [(2, 14), (4, 16), (5, 1)])}
# What SARIF 2.1.0 asks of the findings: places are whole numbers from 1, and these keys have to be there.
SARIF = {
    "required": ["version", "runs"], "properties": {"version": {"const": "2.1.0"}, "runs": {"type": "array", "items": {
        "required": ["tool", "results"], "properties": {
            "tool": {"required": ["driver"], "properties": {"driver": {"required": ["name"]}}},
            "results": {"type": "array", "items": {
                "required": ["message", "locations"], "properties": {
                    "ruleId": {"type": "string"}, "ruleIndex": {"type": "integer", "minimum": 0},
                    "level": {"enum": ["none", "note", "warning", "error"]},
                    "message": {"required": ["text"], "properties": {"text": {"type": "string"}}},
                    "locations": {"type": "array", "items": {"properties": {"physicalLocation": {
                        "required": ["artifactLocation", "region"], "properties": {
                            "artifactLocation": {"required": ["uri"], "properties": {"uri": {
                                "type": "string", "pattern": "^[!-~]+$"}}},
                            "region": {"required": ["startLine"], "properties": {
                                "startLine": {"type": "integer", "minimum": 1},
                                "startColumn": {"type": "integer", "minimum": 1}}}}}}}}}}}}}}}}


def outputs_of(words, monkeypatch):
    """The findings of a check by its three outputs, each a line, a column and a text, and its status."""
    command = ["zsched-policy", "check", *words]
    monkeypatch.setenv("GITHUB_ACTIONS", "true")
    ran = [run_here(main, [*command, *more]) for more in (["--json"], ["--sarif", "-"], [])]
    assert all(it[0] == ran[0][0] and "fault of this tool" not in it[2] for it in ran), ran
    sarif = json.loads(ran[1][1])
    jsonschema.Draft202012Validator(SARIF).validate(sarif)
    regions = [(it["locations"][0]["physicalLocation"]["region"], it["message"]["text"])
               for run in sarif["runs"] for it in run["results"]]
    notes = [re.fullmatch(r"::error file=[^,]*,line=(\d+)(?:,col=(\d+))?,title=[^:]*::(.*)", it).groups()
             for it in ran[2][1].splitlines() if it.startswith("::")]
    return ran[0][0], [
        [(it["line"], it["column"], f"{it['policy']}: {it['text']}" if it["policy"] else it["text"])
         for it in json.loads(ran[0][1])["findings"]],
        [(it["startLine"], it.get("startColumn"), text) for it, text in regions],
        [(int(line), column and int(column), text) for line, column, text in notes]]


@pytest.mark.parametrize("name", WRONG_FILES)
def test_each_format_has_findings_at_places_in_all_outputs(name, programs, monkeypatch, tmp_path):
    text, places = WRONG_FILES[name]
    monkeypatch.chdir(tmp_path)
    put(tmp_path / name, text)
    status, outputs = outputs_of([name, "--require-attempts", "3"], monkeypatch)
    found = outputs[0]
    assert status == 1 and outputs == [found] * 3 and [it[:2] for it in found] == places, found
    assert found == sorted(found) and "attempts 3 is not proved: up to 5" in found[-1][2]


def test_the_place_of_a_file_s_fault_is_a_line_and_a_column(programs, monkeypatch, tmp_path):
    """Also in a file whose name isn't UTF-8."""
    monkeypatch.chdir(tmp_path)
    for name, text in [("t.ts", 'import { Schedule } from "effect"\nconst a = (Schedule.recurs(3)\n'),
                       (os.fsdecode(b"\xff.py"), "import tenacity\nx = é(:\n"), ("a.json", '{"maxAttempts": é}'),
                       ("a.yaml", "retry_policy: {num_retries: é]\n")]:
        put(tmp_path / name, text)
    status, outputs = outputs_of([".", "--require-attempts", "3"], monkeypatch)
    assert status == 1 and outputs == [outputs[0]] * 3 and [it[:2] for it in outputs[0]] == [
        (1, 17), (1, 30), (2, 11), (2, 7)]
    assert outputs[0][2][2] == "not TypeScript: ( isn't closed"


@pytest.mark.parametrize("fault, said", [
    (TypeError("a\nb"), "internal error, please report: TypeError('a\\nb'); ZSCHED_TRACE=1 shows where"),
    (RecursionError(), "the input is nested too deeply"), (MemoryError(), None), (KeyboardInterrupt(), None)])
@pytest.mark.parametrize("place, line, policy", [((reading, "read_json"), "1", None),
                                                 ((services, "_grpc"), "1:84", "svc09")])
def test_a_fault_of_a_tool_in_one_file_is_a_finding_of_it(place, line, policy, fault, said, repository, monkeypatch):
    """The findings of the other files are there all the same, and those of the file's other policies."""
    OVER(repository)
    for path in sorted(repository.glob("rpc/*"))[:-1]:
        path.unlink()
    (repository / "rpc/svc15.json").rename(repository / "rpc/svc09.json")
    change("rpc/svc09.json", "svc15", "svc09")(repository)
    (repository / ".zsched.toml").write_text("[[limits]]\nattempts = 6\n")

    def broken(*_):
        raise fault
    monkeypatch.setattr(*place, broken)
    monkeypatch.setenv("ZSCHED_TRACE", "1")
    status, output, errors = run_here(main, ["zsched-policy", "check", "--json", "edge", "rpc"])
    if said is None:
        assert status == (3 if isinstance(fault, MemoryError) else 130) and not output
        return
    assert status == 1 and ("in broken" in errors) == isinstance(fault, TypeError), errors
    over = "attempts 6 is not proved: up to 51 attempts"
    assert found_in(output) == [("limit", "edge/svc07.yaml:8:21", "svc07", over, None),
                                ("unreadable", f"rpc/svc09.json:{line}", policy, said, None)]
    assert len(json.loads(output)["policies"]) == 8


# Policies, and what a reader of docs/SEMANTICS.md says of them: retries, least and greatest wait, attempts, end.
SENTENCES = [
    ("delays(25, 75, 175, 250, 250) jitter full call 3s",
     "up to 5 retries after 25 to 250 ms, each drawn from 0; at most 6 attempts, within 3 s by the call's limit"),
    ("recurs(3)", "up to 3 retries at once; at most 4 attempts"), ("recurs(0)", "no retries; at most 1 attempt"),
    ("forever", "retries without end at once"),
    ("spaced(1000)", "retries without end after 1 s"),
    ("exponential(100)", "retries without end after 100 ms and longer"),
    ("(exponential(100) || spaced(800))", "retries without end after 100 to 800 ms"),
    ("(exponential(100) && recurs(5)) jitter 20%",
     "up to 5 retries after 120 ms to 1.92 s, each drawn from 66 % of it; at most 6 attempts"),
    ("(spaced(100) && recurs(3)) jitter +0..20%",
     "up to 3 retries after 120 ms, each drawn from 83 % of it; at most 4 attempts"),
    ("((spaced(9) jitter full && recurs(2)) andThenEither recurs(1))",
     "up to 3 retries after 0 to 9 ms, each drawn from 0; at most 4 attempts"),
    ("(spaced(rand(50, 100)) && recurs(3))",
     "unproved: up to 3 retries after 100 ms, each drawn from 50 % of it; at most 4 attempts"),
    ("(fixed(100) && recurs(3)) jitter full", "up to 3 retries after at most 100 ms, each drawn; at most 4 attempts"),
    ("(spaced(100) && recurs(3)).whileInput(>= 500)", "up to 3 retries after at most 100 ms; at most 4 attempts"),
    ("(spaced(900) || (spaced(90) && recurs(2)).whileInput(= 7)).whileOutput(_1 < 5)",
     "up to 5 retries after at most 900 ms; at most 6 attempts"),
    ("(fixed(1000) && recurs(3))", "up to 3 retries after at most 1 s; at most 4 attempts"),
    ("(spaced(400) && elapsed.whileOutput(< 2000))", "up to 5 retries after 400 ms; at most 6 attempts"),
    ("(((spaced(900) && elapsed.whileOutput(< 5000)) andThenEither spaced(10)) && recurs(3))",
     "up to 3 retries after at most 900 ms; at most 4 attempts"),
    ("(recurs(2) andThenEither (spaced(9) && elapsed.whileOutput(< 5)))",
     "up to 3 retries after at most 9 ms; at most 4 attempts"),
    ("spaced(7).whileInput(!= 404)", "retries without a proved limit after at most 7 ms"),
    ("linear(7).whileInput(!= 404)", "retries without a proved limit, the first 600000 after at most 1 h 10 min"),
    ("(spaced(1000) && recurs(3)) on 429 attempt 2s", "up to 3 retries after 1 s; at most 4 attempts, within 11 s"),
    ("(spaced(1000) && recurs(1)) asked 30s", "up to 1 retry after at most 30 s; at most 2 attempts"),
    ("((recurs(200) && spaced(5)) andThenEither (recurs(1) && spaced(9)))",
     "up to 201 retries after at most 9 ms; at most 202 attempts")]


def said(text, zsched, bounds):
    policy = Policy(text, str(zsched), is_undrawn_allowed=True)
    driver = Driver(policy.timeout and (1, policy.timeout), asked=policy.asked or 0)
    return saying.each(str(zsched), [policy], bounding.of_policies(str(bounds), [policy], [driver]))[0]


@pytest.mark.parametrize("text, sentence", SENTENCES, ids=[it[0] for it in SENTENCES])
def test_a_policy_in_one_sentence(text, sentence, zsched, bounds):
    assert said(text, zsched, bounds) == sentence


@pytest.mark.parametrize("text, name, value", [
    ("(spaced(100) && recurs(3)).whileInput(>= 500)", "_UNSTEADY", re.compile("(?!)")),
    ("(spaced(400) && elapsed.whileOutput(< 2000))", "_LIMIT", re.compile("(?!)")),
    ("(((spaced(900) && elapsed.whileOutput(< 5000)) andThenEither spaced(10)) && recurs(3))", "_UNSTEADY",
     re.compile("fixed")),
    ("(recurs(2) andThenEither (spaced(9) && elapsed.whileOutput(< 5)))", "_LIMIT", re.compile("&& elapsed.*")),
    ("((recurs(200) && spaced(5)) andThenEither (recurs(1) && spaced(9)))", "MOST_WAITS", 300),
    ("(exponential(100) && recurs(5)) jitter 20%", "LOW", saying.HIGH)])
def test_a_sentence_that_says_too_much_is_found(text, name, value, zsched, bounds, monkeypatch):
    monkeypatch.setattr(saying, name, value)
    assert said(text, zsched, bounds) != dict(SENTENCES)[text]


def test_explain_a_note_and_a_picture_have_the_sentence(repository):
    sentence = "up to 3 retries after 25 to 175 ms, each drawn from 0; at most 4 attempts, within 4.275 s"
    text = "@edge/svc00.yaml"
    assert run_here(main, ["zsched-policy", "explain", text])[1].splitlines()[0] == sentence
    status, _, errors = run_here(trying.main, ["zsched-try", text, "--svg", "a.svg"])
    assert status == 0 and f"zsched-try: {text}: {sentence}\n" in errors
    assert f"<title>svc00: {sentence}</title>" in (repository / "a.svg").read_text()


@pytest.mark.parametrize("words", [["check"], ["check", "--json"], ["check", "--sarif", "-"], ["diff", "edge", "."]])
def test_names_of_files_and_policies_are_only_texts(words, repository, monkeypatch):
    """No line begins a command of a CI but the tool's own, and no letter isn't printable."""
    put(repository / "a\n::error ::FORGED\x1b[2J.yaml", ENVOY.format(name='"b\\n::add-mask::FORGED\\e"', retries=90))
    put(repository / "c\n::warning ::FORGED.yaml", "retry_policy: {num_retries: [\n")
    monkeypatch.setenv("GITHUB_ACTIONS", "true")
    status, output, errors = run_here(main, ["zsched-policy", *words])
    assert status != 0 and "FORGED" in output + errors
    own = r"::error file=(?:a%0A|c%0A|edge)[^\n]*\n" if words == ["check"] else "(?!)"
    for text in (re.sub(own, "", output), errors):
        assert all(letter.isprintable() or letter == "\n" for letter in text)
        assert not re.search("(?m)^ *::|##", text)


def test_each_policy_of_a_file_where_a_policy_may_stand(repository):
    each, names = "@shop/application.yaml#*", [f"svc{number}" for number in range(24, 32)]
    status, output, errors = run_here(trying.main, ["zsched-try", each + " call 3s", "recurs(1)"])
    assert status == 0 and [it.split()[0] for it in output.splitlines()[::2]] == [
        *(each.replace("*", it) for it in names), "recurs(1)"] and errors.count(" call 3s is (spaced(200) && ") == 8
    assert output.count("ends within 3 s by the call's limit") == 8
    assert run_here(main, ["zsched-policy", "explain", each])[1].count("up to 3 retries after 200 ms") == 8
    for tool, words in [(trying.main, ["zsched-try", "recurs(1)", "--over", each]),
                        (main, ["zsched-policy", "diff", "recurs(1)", each]),
                        (main, ["zsched-policy", "export", "--to", "zio", each])]:
        status, output, errors = run_here(tool, words)
        assert status == 2 and not output and "@FILE#NAME" in errors, errors
    assert "no policy" in run_here(trying.main, ["zsched-try", "@.zsched.toml#*"])[2]
    # The only one of a file.
    assert run_here(main, ["zsched-policy", "diff", "@edge/svc00.yaml#*", "@edge/svc00.yaml"])[0] == 0


def test_each_policy_of_a_file_in_a_scenario(repository):
    scenario = {"horizon": "1min", "clients": {"number": 10}, "policies": {"all": "@shop/application.yaml#*"}}
    put(repository / "it.json", json.dumps(scenario))
    status, output, errors = run_here(outage.main, ["zsched-outage", "it.json", "--json"])
    assert status == 0, errors
    assert [it["name"] for it in json.loads(output)["policies"]] == [f"all-svc{number}" for number in range(24, 32)]
    scenario["policies"]["all-svc24"] = "recurs(1)"
    put(repository / "it.json", json.dumps(scenario))
    status, _, errors = run_here(outage.main, ["zsched-outage", "it.json"])
    assert status == 2 and "two policies have the name all-svc24" in errors


def test_a_schedule_that_the_program_rejects_leaves_the_others(zsched):
    policies = [Policy(it, str(zsched)) for it in ("recurs(2)", "exponential(1, 0)", "spaced(7)", "recurs(1).map(_1)")]
    one, two, three, four = saying.waits_of(str(zsched), policies)
    assert one == ([0, 0], [0, 0]) and three == ([7] * 100, [7] * 100)
    assert (two.what, four.what) == ("the factor is 0", "_1 of a number")
