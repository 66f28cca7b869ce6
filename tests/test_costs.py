"""How costs grow from n to 2n: those of each pattern of the tools and of the page on repeated letters, words and
brackets, and those of each reader of files on each kind of nesting and repetition. A cost is time of the processor, and
only the ratio of two counts."""
import json
import re
import subprocess

import pytest

import costs
from support import TOP
from zsched_tools import call_log, plan_size
from zsched_tools.command import Refused
from zsched_tools.drawn import Policy
from zsched_tools.explain import command as explain
from zsched_tools.outage.scenario import read_scenario
from zsched_tools.place import FaultAt
from zsched_tools.plan import policy_file, policy_plan
from zsched_tools.policy import configs
from zsched_tools.policy.reading import Wrong

PATTERNS = list(costs.patterns())
# Their text is a file of the tools, not an input.
OWN = [r"<script(?: id=[^>]*)?>(.*?)</script>"]


@pytest.mark.parametrize("place, compiled, method", PATTERNS, ids=[f"{it[0]}-{it[2]}" for it in PATTERNS])
def test_a_pattern_costs_no_more_than_its_text_is_long(place, compiled, method):
    is_text = isinstance(compiled.pattern, str)
    pattern = compiled.pattern if is_text else compiled.pattern.decode("latin-1")
    if place.startswith("hints.py:") and pattern in OWN:
        return
    for context in costs.contexts(pattern, compiled.flags & ~re.UNICODE):
        assert costs.grows(compiled, method, context) is None, (pattern, context)


@pytest.mark.parametrize("pattern, method, is_dear", [
    (r"\s*x", "search", True), (r"x\s*y", "search", False), (r"(\w+)\s*=", "search", True), (r" *+x", "match", False),
    (r"\[\s*([^\]]*?)\s*\]", "fullmatch", True), (r"\[([^\]]*+)\]", "fullmatch", False), (r"jitter +\(", "sub", False),
    (r"/\*[^;]*;", "finditer", True), (r"(?:a|b)*c", "match", False), (r"(.+?)\s+ok", "fullmatch", True)])
def test_a_dear_pattern_is_found(pattern, method, is_dear):
    found = [costs.grows(re.compile(pattern), method, it) for it in costs.contexts(pattern)]
    assert any(found) == is_dear, (pattern, found)


LITERAL = re.compile(r"(?:(?<=[(,=:\[!&|?{};\n])|(?<=return)|(?<==>))\s*/(?![*/])"
                     r"((?:[^/\\\n\[]|\\.|\[(?:[^\]\\\n]|\\.)*\])+)/([dgimsuyv]*)")


def patterns_of_page():
    """The patterns of the page's scripts, each with its flags and the texts on which it is tried."""
    page = (TOP / "docs" / "play.html").read_text()
    text = "\n".join(re.findall(r"<script(?![^>]*json)[^>]*>\n(.*?)</script>", page, re.S))
    for pattern, flags in LITERAL.findall(text):
        python = re.sub(r"\(\?<(?=[a-z])", "(?P<", pattern.replace(r"\/", "/"))
        for name, letters in {"L": "A-Za-z", "N": "0-9", "M": "", "P": "!-/", "S": "$"}.items():
            python = python.replace(rf"\p{{{name}}}", letters)
        yield pattern, flags, costs.contexts(python)


def test_a_pattern_of_the_page_costs_no_more_than_its_text_is_long():
    given = {"patterns": [*patterns_of_page(), [r" *(a+)$", "", costs.contexts(r" *(a+)$")]],
             "ratio": costs.MOST_RATIO, "units": costs.MOST_UNITS, "long": costs.LONG}
    assert len(given["patterns"]) > 80
    ended = subprocess.run(["node", TOP / "tests" / "page_costs.js"], input=json.dumps(given), capture_output=True,
                           text=True, check=True)
    *found, planted = json.loads(ended.stdout)
    assert planted[0] == r" *(a+)$" and found == []


# What each reader of files does with a text; what it returns doesn't matter, and neither does an error of the input.
def imported(name):
    return lambda path, text: [it.read() for it in configs.policies_of(written(path / name, text))]


def written(path, text):
    path.write_text(text)
    return str(path)


READERS = {"json": imported("a.json"), "yaml": imported("a.yaml"), "properties": imported("a.properties"),
           "ini": imported("a.ini"), "python": imported("a.py"), "java": imported("a.java"),
           "toml": lambda _, text: policy_plan.plan_of(policy_file.read_toml(text), 1, call_log.Notes()),
           "plan of yaml": lambda _, text: policy_plan.plan_of(policy_file.read_yaml(text), 1, call_log.Notes()),
           "policy": lambda _, text: Policy(text, "none"),
           "scenario": lambda _, text: read_scenario(text.encode()),
           "plan": lambda _, text: (explain.repeated_key(text.encode()), plan_size.warning(text.encode()))}
RETRY = "@retry(wait={}, stop=stop_after_attempt(3))\ndef f(): pass\n"
HEAD = "from tenacity import *\n"
SPRING = "resilience4j.retry.instances.a{}.maxAttempts={}\n"


def lines(form):
    """A text of a line for each number."""
    return lambda n: "".join(form.format(it) for it in range(n))


def around(begin, inner, end):
    return lambda n: begin * n + inner + end * n


# Of each reader: texts by a number n, and the greatest n, unless the reader accepts less.
NESTINGS = {
    "json": [(around("[", "1", "]"), 400), (around('{"a":', "1", "}"), 400), (around('{"retryPolicy":', "1", "}"), 400),
             (lambda n: json.dumps({f"k{it}": {"maximumAttempts": 3} for it in range(n)}), 400),
             (lambda n: json.dumps([{"route": {"retryPolicy": {"numRetries": 1}}}] * n), 400),
             (lambda n: json.dumps({"route": {f"r{it}": {"retryPolicy": {"numRetries": 1}} for it in range(n)}}), 1600),
             (lambda n: json.dumps({"retryPolicy": {"maximumAttempts": 3} | {f"k{it}": 1 for it in range(n)}}), 4000),
             (lambda n: json.dumps({"methodConfig": [{"name": [{"service": f"s{it}"}], "retryPolicy": {
                 "maxAttempts": 3, "initialBackoff": "1s", "maxBackoff": "9s", "backoffMultiplier": 2,
                 "retryableStatusCodes": ["UNAVAILABLE"]}} for it in range(n)]}), 200),
             (lambda n: '{"a":"' + "\\\\u00e9" * n + '"}', 4000), (lambda n: '{"a":1}' + " " * n, 60_000)],
    "yaml": [(around("[", "1", "]"), 400), (around("{a: ", "1", "}"), 400), (lines("a{0}: &a{0} 1\n"), 1000),
             (lambda n: "".join(f"{' ' * it}a:\n" for it in range(n)), 100), (lines("- a: 1\n"), 1000),
             (lambda n: "a: &a {x: 1}\nb: {<<: [" + "*a, " * n + "*a]}", 1000), (lines("---\na: 1\n"), 1000),
             (lambda n: "a: " + "x " * n, 30_000), (lambda n: "- " * n + "1", 100), (lambda n: "\n" * n, 60_000),
             (lambda n: "a: |\n" + "  x\n" * n, 4000), (lines("k{}: {{maximumAttempts: 3}}\n"), 400)],
    "properties": [(lambda n: "".join(SPRING.format(it, 3) for it in range(n)), 200),
                   (lambda n: SPRING.format(0, 3) + "b" + ".a" * n + "=1", 1000),
                   (lambda n: SPRING.format(0, 3) + "b=" + "1,\\\\\n" * n, 4000),
                   (lambda n: SPRING.format(0, 3) + "".join(f"b[{it}]=1\n" for it in range(n)), 4000),
                   (lambda n: SPRING.format(0, 3) + "b" + " " * n + "c", 30_000), (lambda n: "\\\\" * n, 30_000)],
    "ini": [(lambda n: "[" + " " * n, 30_000), (lambda n: "[" + " " * n + "]", 30_000),
            (lines("[profile p{}]\n"), 2000),
            (lambda n: "k = x" + " " * n + "y", 30_000), (lines("k{} = 1\n"), 4000),
            (lines("[profile p{}]\nmax_attempts = 3\n"), 300), (lambda n: "k = " + "a ; " * n, 15_000)],
    "python": [(lambda n: HEAD + RETRY.format("(" * n + "wait_fixed(1)" + ")" * n), 100),
               (lambda n: HEAD + RETRY.format("+".join(["wait_fixed(1)"] * n)), 100),
               (lambda n: HEAD + RETRY.format(f"wait_fixed({'-' * n}1)"), 40),
               (lambda n: HEAD + "A0=wait_fixed(1)\n" + "".join(f"A{it + 1}=A{it}+A{it}\n" for it in range(n))
                + RETRY.format(f"A{n}"), 40),
               (lambda n: HEAD + "A0=wait_random(0, 1)\n" + "".join(
                   f"A{it + 1}=A{it}+wait_fixed(1)\n" for it in range(n)) + RETRY.format(f"A{n}"), 40),
               (lambda n: HEAD + "A0=1\n" + "".join(f"A{it + 1}=A{it}+A{it}\n" for it in range(n))
                + RETRY.format(f"wait_fixed(A{n})"), 18),
               (lambda n: HEAD + RETRY.format("wait_fixed(1)") * n, 200), (lambda n: HEAD + RETRY.format(
                   f"wait_chain(*[wait_fixed(1)] * {n})"), 50), (lambda n: HEAD + "x = a" + ".b()" * n, 80),
               (lambda n: HEAD + "@retry(retry=x)\ndef f(): pass\n" * n, 200),
               (lambda n: HEAD + "x = [" + "1," * n + "]", 4000)],
    "java": [(lambda n: "x=IntervalFunction.of(1)\n" * n, 1000), (lambda n: "x=IntervalFunction.of(1);\n" * n, 1000),
             (lambda n: "x=IntervalFunction.of(1);" + "/*" * n, 20_000), (lambda n: "IntervalFunction.of(" * n, 3000),
             (lambda n: "x=IntervalFunction.of(" + "(1)" * n, 10_000), (lambda n: "a" * n + "=", 60_000),
             (lambda n: "maxAttempts(" * n + "IntervalFunction.of(1)", 4000), (lambda n: "{" * n, 60_000),
             (lambda n: "x=RetryConfig.custom()" + ".a()" * n + ".build()", 10_000),
             (lambda n: "x=RetryConfig.custom().maxAttempts(3).build()\n" * n, 1000),
             (lambda n: "RetryConfig.custom().a(" * n + ")" * n, 90), (lambda n: "RetryConfig.custom(" * n, 3000),
             (lambda n: "f=IntervalFunction.of(1);" + "x=RetryConfig.custom().intervalFunction(f).build();" * n, 800),
             (lambda n: "x0=RetryConfig.custom().build();" + "".join(
                 f"x{it + 1}=RetryConfig.from(x{it}).build();" for it in range(n)), 100),
             (lambda n: "@Retryable " * n, 2000), (lambda n: "@Retryable(" * n, 3000),
             (lambda n: "@Retryable @A x " * n, 1500),
             (lambda n: "@Retryable(value={" + "A.class," * n + "}) void f()", 5000),
             (lambda n: "@Retryable(" + "a=1," * n + ") void f()", 5000),
             (lambda n: "x=\"RetryConfig.custom()" * n, 4000),
             (lambda n: 'RetryConfig."""' + '\\"' * n, 30_000), (lambda n: "RetryConfig" + "<" * n, 60_000),
             (lambda n: "A=1;" * n + "x=RetryConfig.custom().maxAttempts(A).build();" * n, 500),
             (lambda n: "fun a() {" + "x = 1; if (a) { RetryConfig.custom().build() }\n" * n + "}", 800)],
    "toml": [(lambda n: "a=" + "[" * n + "]" * n, 200), (lambda n: f"[{'a.' * n}a]", 20_000),
             (lambda n: "a=" + "{a=" * n + "1" + "}" * n, 200), (lines("[[jobs]]\nname='a{}'\n"), 1000),
             (lines("[a.b{}]\n"), 2000), (lambda n: "a." * n + "a=1", 20_000),
             (lambda n: "a=[" + "1," * n + "]", 20_000),
             (lambda n: f"jobs=[{{name='a',schedule='recurs(1)',script='{'1 ok 1,' * n}1 ok 1'}}]", 900),
             (lambda n: f"script='{' ' * n}x'\n[policies]\na='recurs(1)'", 30_000), (lines("a{}=1\n"), 4000),
             (lambda n: "".join(f"[[jobs]]\nname='{chr(0x4e00 + it)}'\nschedule='recurs(1)'\n" for it in range(n)),
              1000)],
    "plan of yaml": [(lambda n: "jobs: [" + "{name: é}," * n + "]", 400),
                     (lambda n: "ticks: [" + "1," * n + "1]", 1000),
                     (lambda n: f"script: '{' ' * n}x'\npolicies: {{a: recurs(1)}}", 20_000)],
    "policy": [(lambda n: "(" + " " * n, 60_000), (lambda n: "jitter" + " " * n, 60_000),
               (lambda n: "a" * n + ")", 60_000),
               (lambda n: " " * n + "jitter", 60_000), (lambda n: "delays(" + " " * n, 60_000),
               (lambda n: "spaced(1)" + " jitter full" * n, 4000), (lambda n: "(spaced(1) jitter full && " * n, 2000),
               (lambda n: "rand(1, 2) " * n, 4000), (lambda n: "spaced(1)" + ".map(size)" * n + " jitter full", 4000),
               (lambda n: "(" * n + "spaced(1)" + " && elapsed.whileOutput(< 1))" * n + " jitter full", 1500),
               (lambda n: "spaced(1)" + ".whileInput(< 1)" * n + " jitter full", 3000),
               (lambda n: "a" * n + ":", 60_000),
               (lambda n: "(" * n + ")" * n + " jitter full", 20_000), (lambda n: " " * n + "a: recurs(1)", 60_000)],
    "scenario": [(around("[", "1", "]"), 100),
                 (lambda n: json.dumps({"horizon": 9, "clients": {"starts": [0] * n}, "policies": {"a": "recurs(1)"}}),
                  2000),
                 (lambda n: json.dumps({"horizon": 9, "clients": {"number": 1}, "policies": {
                     f"p{it}": "recurs(1)" for it in range(n)}}), 500),
                 (lambda n: json.dumps({"horizon": 9, "clients": {"number": 1}, "policies": {"a": "recurs(1)"},
                                        "windows": [{"from": it, "to": it + 1, "is": "down"} for it in range(n)]}),
                  500)],
    "plan": [(lambda n: json.dumps({f"k{it}": 1 for it in range(n)}), 20_000),
             (lambda n: '{"a":1' + ',"a":1' * n + "}", 20_000),
             (lambda n: '{"horizon":9,"jobs":[{"mode":"retry","script":[{"ms":1,"ok":1}],"schedule":"'
              + "(" * n + "forever" + " && forever)" * n + '"}]}', 1000)]}


@pytest.mark.parametrize("reader, number, most", [
    pytest.param(reader, number, most, id=f"{reader}-{number}")
    for reader, made in NESTINGS.items() for number, (_, most) in enumerate(made)])
def test_a_reader_costs_no_more_than_its_file_is_long(reader, number, most, tmp_path):
    read, make = READERS[reader], NESTINGS[reader][number][0]

    def accepts(n):
        try:
            read(tmp_path, make(n))
        except (FaultAt, Refused, Wrong, ValueError, RecursionError):
            return False
        return True
    # The most that is accepted, if less is: what is refused must be refused as fast.
    while most > 20 and accepts(10) and not accepts(most):
        most = most * 3 // 4
    most -= most % 2
    assert costs.ratio(lambda n: accepts(n), most, 3) <= costs.MOST_RATIO, costs.ratio(lambda n: accepts(n), most, 9)
