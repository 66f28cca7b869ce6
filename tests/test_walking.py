"""Which files `zsched-policy check` and `diff` search: a policy that they don't see is a finding or is counted."""
import codecs
import json
import os
import re

import pytest

from support import executable, run_here
from test_check import ENVOY, put
from zsched_tools.policy import configs, reading, walking
from zsched_tools.policy.command import main

GOOD, BAD = ENVOY.format(name="good", retries=3), ENVOY.format(name="bad", retries=50)
TENACITY = "@{0}retry(stop={0}stop_after_attempt(50))\ndef bad():\n    pass\n"
# Files that break a limit of six attempts, and a part of what is said of them.
HIDDEN = {
    "UTF-16, as PowerShell writes it": ("bad.yaml", BAD.encode("utf-16"), "the text is not UTF-8"),
    "UTF-16, big end first": ("bad.yaml", codecs.BOM_UTF16_BE + BAD.encode("utf-16-be"), "the text is not UTF-8"),
    "UTF-16 without its mark": ("bad.yml", BAD.encode("utf-16-le"), "not YAML"),
    "UTF-32": ("bad.yaml", BAD.encode("utf-32"), "the text is not UTF-8"),
    "Latin-1": ("bad.yaml", f"{BAD}# é\n".encode("latin-1"), "the text is not UTF-8"),
    "after 2.4 MB": ("bad.yaml", (f"# {'x' * 97}\n" * 24_000 + BAD).encode(), "more than 2000000 bytes"),
    "escapes of JSON": ("bad.json", rb'{"route": {"retry\u0050olicy": {"num\u0052etries": 50}}}', "up to 51 attempts"),
    "escapes of YAML": ("bad.yaml", rb'route: {"retry\x50olicy": {num_retries: 50}}', "up to 51 attempts"),
    "an import in two lines": ("bad.py", ("from \\\n tenacity import *\n\n\n" + TENACITY.format("")).encode(),
                               "50 attempts"),
    "an import after another statement": ("bad.py", ("x = 1;import tenacity as t\n" + TENACITY.format("t.")).encode(),
                                          "50 attempts"),
    "letters that Python takes for others": ("bad.py", ("import ｔenacity as t\n" + TENACITY.format("t.")).encode(),
                                             "50 attempts"),
    "the SDKs' config": (".aws/config", b"[profile bad]\nmax_attempts = 50\nretry_mode = standard\n", "50 attempts"),
    "an adapter of requests": (
        "bad.py", b"from requests.adapters import HTTPAdapter\n\nbad = HTTPAdapter(max_retries=50)\n", "51 attempts"),
    "a builder in Java": (
        "Bad.java", b"class Bad { RetryConfig bad = RetryConfig.custom().maxAttempts(50).build(); }\n", "50 attempts"),
    "a profile of Spring Boot": (
        "application.yaml", b"resilience4j.retry.instances.bad: {max-attempts: 3}\n---\n"
        b"spring.config.activate.on-profile: prod\nresilience4j.retry.instances.bad: {max-attempts: 50}\n",
        "50 attempts"),
    "an adapter of an unknown number": (
        "bad.py", b"from requests.adapters import HTTPAdapter\n\n\ndef bad(n):\n    return HTTPAdapter(1, 1, n)\n",
        "n is not a number that can be known")}


@pytest.fixture
def room(zsched, bounds, monkeypatch, tmp_path):
    """A folder with a good policy, in which commands run."""
    monkeypatch.setenv("ZSCHED", str(zsched))
    monkeypatch.setenv("ZSCHED_BOUNDS", str(bounds))
    monkeypatch.setenv("GIT_CEILING_DIRECTORIES", "/")
    monkeypatch.delenv("GITHUB_ACTIONS", raising=False)
    put(tmp_path / "here/good.yaml", GOOD)
    monkeypatch.chdir(tmp_path / "here")
    return tmp_path / "here"


def checked(*words): return run_here(main, ["zsched-policy", "check", "--require-attempts", "6", *words])


@pytest.mark.parametrize("name", HIDDEN)
def test_a_policy_is_found_however_its_file_is_written(name, room):
    path, data, said = HIDDEN[name]
    assert checked()[0] == 0
    (room / path).parent.mkdir(exist_ok=True)
    (room / path).write_bytes(data)
    status, output, errors = checked()
    assert status == 1 and said in errors and f"zsched-policy: {path}" in errors, (status, output, errors)
    other = room.parent / "other"
    put(other / "good.yaml", GOOD)
    status, output, errors = run_here(main, ["zsched-policy", "diff", str(other), str(room)])
    assert status == (1 if "attempts" in said else 2) and "bad" in output + errors, (status, output, errors)


def test_a_retry_that_belongs_to_the_source_is_no_second_policy(tmp_path):
    text = ("from requests.adapters import HTTPAdapter\nfrom urllib3 import Retry\n\n\ndef made():\n"
            "    retries = Retry(total=5)\n    return (HTTPAdapter(max_retries=retries), HTTPAdapter(),\n"
            "            HTTPAdapter(max_retries=Retry(2)), HTTPAdapter(max_retries=0))\n")
    put(tmp_path / "a.py", text)
    assert [(it.name, it.line) for it in configs.policies_of(str(tmp_path / "a.py"))] == [("retries", 6), ("made", 8)]


# Of each language of the table a file that mentions retries, the line, and the word as it is there.
MENTIONS = [
    ("a.go", "package a\n\nfunc f() { retry.Do(g, retry.Attempts(3)) }\n", 3, "retry.Do"),
    ("a.go", "b := backoff.NewExponentialBackOff()\n", 1, "backoff.NewExponentialBackOff"),
    ("a.cs", "Policy.Handle<E>()\n  .WaitAndRetryAsync(3, n => TimeSpan.FromSeconds(n));\n", 2, "WaitAndRetryAsync"),
    ("a.rs", "use backon::Retryable;\n", 1, "backon"), ("a.rb", "  retry_on Timeout, attempts: 5\n", 1, "retry_on"),
    ("a.js", "const r = require('p-retry');\n", 1, "p-retry"), ("a.mjs", "f({retries: 5})\n", 1, "retries"),
    ("a.ts", "proxyActivities({retry: {maximumAttempts: 50}})\n", 1, "retry"),
    ("a.php", "public $tries = 5;\n", 1, "tries"), ("a.kt", "@Retry(name = \"x\")\n", 1, "@Retry"),
    ("a.gradle", "retry { maxRetries = 3 }\n", 1, "maxRetries"),
    ("a.py", "import stamina\n\n\n@stamina.retry(on=E, attempts=5)\ndef f(): pass\n", 4, "@stamina.retry"),
    ("a.py", "f(max_retries=5)\n", 1, "max_retries"),
    ("a.tf", "  maximum_retry_attempts = 2\n", 1, "maximum_retry_attempts"),
    ("a.service", "[Service]\nRestart=always\nRestartSec=100ms\n", 3, "RestartSec"),
    ("a.conf", "proxy_next_upstream_tries 3;\n", 1, "proxy_next_upstream_tries"),
    ("a.xml", "<property name=\"maxAttempts\" value=\"3\"/>\n", 1, "maxAttempts"),
    ("a.yaml", "data:\n  application.yaml: |\n    resilience4j.retry:\n      instances: {a: {maxAttempts: 50}}\n", 3,
     "retry"),
    ("workflow.yaml", "main:\n  retry: {max_retries: 50, backoff: {initial_delay: 2, max_delay: 60}}\n", 2, "retry"),
    ("a.toml", "[http]\nmax-retries = 5\n", 2, "max-retries"),
    ("a.json", '{"retry_policy": {"n": 3}}\n', 1, "retry_policy")]
# Files that have such words, and no policy.
NONE = [("a.json", '{"retry": "Wiederholen", "retries": "Versuche"}\n'), ("a.yaml", "retries: 0\n"),
        ("a.txt", "retry: 3\n"), ("a.py", "def retry(f): return f\nmax_retries = None\n"),
        ("a.rb", "begin\nrescue\n  retry\nend\n"),
        ("a.js", "retry(f)\n"), ("a.service", "Restart=on-failure\n"), ("a.yaml", "on_retry: f\nno_retries_here: 3\n")]


@pytest.mark.parametrize("name, text, line, word", MENTIONS)
def test_a_file_that_mentions_retries_is_counted_and_named(name, text, line, word, room):
    put(room / name, text)
    status, output, _ = checked("--list")
    said = "\n1 file mentions retries and isn't understood"
    assert status == 0 and output.endswith(f"{said}:\n  {name}:{line}: {word}\n"), output
    assert checked()[1].endswith(f"{said} (--list names them)\n")
    assert json.loads(checked("--json")[1])["files"]["not_understood"] == [{"path": name, "line": line, "word": word}]
    status, _, errors = checked("--strict")
    assert status == 1 and errors.startswith(f"zsched-policy: {name}:{line}: {word} is a word of retries, and no ")


@pytest.mark.parametrize("text, line", [
    (f"{GOOD}---\nkind: Middleware\nspec:\n  retry: {{attempts: 40}}\n", 12),
    (f"spec: {{retry: {{attempts: 40}}}}\n--- # b\n{GOOD}", 1), (f"{GOOD}---\n{GOOD}---\na: 1\n", None)])
def test_a_document_without_a_policy_is_counted_beside_one_that_has_it(text, line, room):
    put(room / "good.yaml", text)
    found = json.loads(checked("--json")[1])["files"]["not_understood"]
    assert found == ([{"path": "good.yaml", "line": line, "word": "retry"}] if line else [])


@pytest.mark.parametrize("name, text", NONE)
def test_a_file_without_a_value_for_such_a_word_is_not_counted(name, text, room):
    put(room / name, text)
    assert checked("--strict")[1].endswith("\n0 files mention retries and aren't understood\n")


def test_each_language_of_the_table_has_a_file_that_shows_it():
    table = [line.split("\t") for line in (
        walking.pathlib.Path(walking.__file__).with_name("mentions.tsv")).read_text().splitlines()]
    assert len(table) > 10
    for language, endings, words in table:
        assert any(walking.ending_of(it[0]) in endings.split() for it in MENTIONS), language
        assert all(re.fullmatch(r"[@\w][\w.]*[*=]*", it) and it == it.lower() and "_" not in it for it in words.split())


def test_a_file_that_is_known_and_has_its_policy_is_not_counted(room):
    put(room / "a.ts", 'import { Schedule } from "effect"\n\nconst a = Schedule.recurs(3)\n')
    assert checked("--strict")[1].endswith("\n0 files mention retries and aren't understood\n")


@pytest.mark.parametrize("has_git", [True, False])
def test_a_folder_that_cannot_be_listed_is_a_finding(has_git, room, monkeypatch):
    put(room / "private/bad.yaml", BAD)
    if has_git:
        said = ("echo \"warning: could not open directory 'private/': Permission denied\" >&2\n"
                "printf 'good.yaml\\0'")
        executable(room.parent / "git", said)
        monkeypatch.setenv("PATH", f"{room.parent}:{os.environ['PATH']}")
    else:
        listed = os.scandir
        monkeypatch.setattr(os, "scandir", lambda path: listed(path) if "private" not in path else listed("/no/folder"))
    status, _, errors = checked()
    why = "Permission denied" if has_git else "No such file or directory"
    place = "private" if has_git else "/no/folder"
    assert status == 1 and errors == f"zsched-policy: {place}:1: this folder can't be listed: {why}\n"
    (room / ".zsched.toml").write_text(f'leave_out = ["{place}*"]\n')
    assert checked()[0] == (0 if has_git else 1)


def test_a_file_whose_kind_cannot_be_known_is_a_finding(room, monkeypatch):
    state = os.lstat

    def refused(path, **more):
        if str(path).endswith("bad.yaml"):
            raise PermissionError(13, "Permission denied", path)
        return state(path, **more)
    put(room / "bad.yaml", BAD)
    monkeypatch.setattr(os, "lstat", refused)
    status, _, errors = checked()
    assert (status, errors) == (1, "zsched-policy: bad.yaml:1: Permission denied\n")


def test_a_file_that_is_too_long_to_search_is_a_finding(room, monkeypatch):
    monkeypatch.setattr(walking, "MOST_BYTES", 1000)
    put(room / "bad.yaml", BAD + "#" * 1000)
    status, _, errors = checked()
    assert status == 1 and "bad.yaml:1: the file has more than 1000 bytes, so it wasn't searched" in errors
    put(room / ".zsched.toml", 'leave_out = ["bad.yaml"]\n')
    assert checked()[0] == 0


def test_a_comparison_of_nothing_is_no_yes(room):
    (room / "good.yaml").unlink()
    put(room / "other/a.go", MENTIONS[0][1])
    status, output, errors = run_here(main, ["zsched-policy", "diff", ".", "other"])
    assert (status, output) == (1, "policies in both: 0, without a difference: 0\n")
    assert errors.endswith("zsched-policy: neither . nor other has a policy, so nothing was compared\n")
    assert "zsched-policy: other: 1 file with words of retries and without a policy that is known" in errors


def test_each_kind_of_file_that_is_read_can_mention_retries():
    """A file with another ending is searched only if it is named."""
    assert [it for it in reading.KINDS if it not in walking._words()] == []
