"""Waits of the libraries that Debian has, beside those that the tools draw for the same policy: 10,000 are in their
range, and their quartiles are the same but for 2 % of it. Settings of docs/POLICIES.md, beside the packages'."""
import inspect
import json
import os
import pathlib
import random
import re
import statistics
import subprocess
import time
import types

import pytest

from support import TOP
from zsched_tools import drawn
from zsched_tools.policy import configs
from zsched_tools.program import LAST_MOMENT, cut_plans, job_text, run_plan
from zsched_tools.reports import attempts_in, blocks_of
from zsched_tools.trials import waits_between

RUNS = 10_000
JOBS = {job["name"]: job["schedule"] for job in json.loads((TOP / "examples/policies.json").read_text())["jobs"]}
GO = """package main
import ("fmt"; "math/rand"; "github.com/cenkalti/backoff")
func main() {
    rand.Seed(7)
    it := backoff.NewExponentialBackOff()
    for run := 0; run < %d; run++ {
        it.Reset()
        for wait := 0; wait < %d; wait++ { fmt.Println(it.NextBackOff().Seconds()) }
    }
}
"""


def runs_of(count, wait):
    """The waits of a library: of each run the first `count`, in seconds, as `wait` returns the one with a number."""
    random.seed(7)
    return [[wait(number) for number in range(1, count + 1)] for _ in range(RUNS)]


def by_tenacity(text):
    """A strategy's waits, and its policy as zsched-policy reads it in a source."""
    from tenacity import wait
    strategy = eval(text, vars(wait).copy())
    source = f"import tenacity\nfrom tenacity.wait import *\n@tenacity.retry(wait={text}, stop={{}})\ndef f(): pass\n"
    return (lambda count: runs_of(count, lambda number: strategy(types.SimpleNamespace(attempt_number=number))),
            source.replace("{}", "tenacity.stop_after_attempt(COUNT)"))


def by_backoff(text):
    """The waits of a decorator, and its policy in a source."""
    import backoff

    def runs(count):
        waits = []
        decorated = eval(f"backoff.on_exception({text}, max_tries={count + 1}, logger=None)", {"backoff": backoff})
        sleep, time.sleep = time.sleep, waits.append
        try:
            random.seed(7)
            for _ in range(RUNS):
                with pytest.raises(ZeroDivisionError):
                    decorated(lambda: 1 / 0)()
        finally:
            time.sleep = sleep
        return [waits[at:at + count] for at in range(0, len(waits), count)]
    return runs, f"import backoff\n@backoff.on_exception({text}, max_tries=COUNT)\ndef f(): pass\n"


def by_botocore(mode):
    from botocore import retryhandler
    from botocore.retries import standard
    if mode == "legacy":
        return (lambda count: runs_of(count, lambda number: retryhandler.delay_exponential("rand", 2, number)),
                "[default]\nretry_mode = legacy\nmax_attempts = COUNT\n")
    # Its draws are those of the module's `random`, as they were when it was read.
    delays = standard.ExponentialBackoff(random=random.random)
    return (lambda count: runs_of(count, lambda number: delays.delay_amount(
        types.SimpleNamespace(attempt_number=number))), "[default]\nretry_mode = standard\nmax_attempts = COUNT\n")


def by_dynamodb():
    from botocore import retryhandler
    config = json.loads(pathlib.Path("/usr/lib/python3/dist-packages/botocore/data/_retry.json").read_text())
    delay = config["retry"]["dynamodb"]["__default__"]["delay"]
    delays = retryhandler.create_exponential_delay_function(delay["base"], delay["growth_factor"])
    assert config["retry"]["dynamodb"]["__default__"]["max_attempts"] == 10
    return lambda count: runs_of(count, lambda number: delays(attempts=number)), JOBS["aws-dynamodb"]


def by_celery():
    from celery.utils.time import get_exponential_backoff_interval
    return (lambda count: runs_of(count, lambda number: get_exponential_backoff_interval(1, number - 1, 600, True)),
            JOBS["celery-backoff"].replace("recurs(3)", "recurs(11)") + " jitter full")


def by_celery_task(options):
    """The waits of a task with some options, and its policy in a source: `max_retries` is one less than attempts."""
    import celery
    from celery.exceptions import Retry

    def run(task, count):
        for number in range(count + 1):
            task.push_request(retries=number, called_directly=False, args=(), kwargs={})
            try:
                task.run()
            except Retry as retry:
                yield retry.when
            except OSError:
                assert number == count
            finally:
                task.pop_request()

    def runs(count):
        app = celery.Celery("test", set_as_current=False)
        task = eval(f"app.task({options}, max_retries={count})", {"app": app})(failing)
        sent = types.SimpleNamespace(apply_async=lambda: None, args=(), kwargs={})
        task.signature_from_request = lambda *_, **__: sent
        random.seed(7)
        return [list(run(task, count)) for _ in range(RUNS)]

    def failing():
        raise OSError
    return runs, f"import celery\napp = celery.Celery()\n@app.task({options}, max_retries=COUNT - 1)\ndef f(): pass\n"


def by_urllib3(factor):
    """The waits of Retry, and its policy in a source, with more retries than waits."""
    from urllib3.util.retry import Retry

    def run(count):
        retry, waits = Retry(total=count, backoff_factor=factor), []
        for _ in range(count):
            retry = retry.increment("GET", "/", error=OSError())
            waits.append(retry.get_backoff_time())
        return waits
    return (lambda count: [run(count)] * RUNS), f"import urllib3\nit = urllib3.Retry(COUNT, backoff_factor={factor})\n"


def by_cenkalti(room):
    """The package's Go, compiled where it is."""
    def runs(count):
        (room / "main.go").write_text(GO % (RUNS, count))
        given = {"GOPATH": "/usr/share/gocode", "GO111MODULE": "off", "HOME": os.environ["HOME"]}
        found = subprocess.run(["/usr/bin/go", "run", "main.go"], cwd=room, env=given, check=True, capture_output=True,
                               text=True)
        waits = list(map(float, found.stdout.split()))
        return [waits[at:at + count] for at in range(0, len(waits), count)]
    return runs, JOBS["cenkalti"] + " jitter 50%"


def drawn_by_tools(zsched, text, count, room):
    """The least and the greatest wait with each number, and the waits of 10,000 clients, in milliseconds."""
    if re.match(r"import |\[default]", text):
        path = room / ("app.py" if text.startswith("import ") else "config.ini")
        path.write_text(text.replace("COUNT", str(count + 1)))
        read = configs.policy_of_file(str(path), None)
        text = read.draws or read.waits
    policy, entries = drawn.Policy(text, zsched), ",".join(['{"ms":1,"err":0}'] * count + ['{"ms":1,"ok":0}'])
    sources = [drawn.LOW, drawn.HIGH, *(drawn.seeded(7, client) for client in range(RUNS * policy.is_drawn))]
    jobs = [job_text(f"c{number}", policy.schedule(it), entries) for number, it in enumerate(sources)]
    low, high, *all_ = (waits_between(attempts_in(block)) for plan in cut_plans(LAST_MOMENT, jobs)[0]
                        for block in blocks_of(run_plan(zsched, plan)))
    assert len(low) == len(high) == count, text
    return low, high, all_ or [low] * RUNS


# Each with the number of waits, and the first of which the quartiles are compared: Celery's are whole seconds.
LIBRARIES = {
    "tenacity, with a cap that all waits after the first can reach": (
        lambda _: by_tenacity("wait_exponential_jitter(initial=1, max=3, jitter=2)"), 4, 1),
    "tenacity, with a cap": (lambda _: by_tenacity("wait_exponential_jitter(initial=0.5, max=20, jitter=4)"), 8, 1),
    "tenacity, with a jitter above the cap": (
        lambda _: by_tenacity("wait_exponential_jitter(initial=1, max=1.5, jitter=2)"), 3, 1),
    "tenacity, without a cap": (lambda _: by_tenacity("wait_exponential_jitter(jitter=0.25)"), 5, 1),
    "tenacity, a sum": (lambda _: by_tenacity("wait_exponential(max=5) + wait_random(0, 2)"), 5, 1),
    "tenacity, a range": (lambda _: by_tenacity("wait_random(1, 2.5)"), 3, 1),
    "tenacity, full": (lambda _: by_tenacity("wait_random_exponential(multiplier=0.5, max=10, min=2)"), 7, 1),
    "tenacity, nothing random": (lambda _: by_tenacity("wait_exponential(multiplier=2, min=3, max=30)"), 7, 1),
    "tenacity, steps": (lambda _: by_tenacity("wait_incrementing(start=1, increment=0.75, max=3)"), 5, 1),
    "backoff, full": (lambda _: by_backoff("backoff.expo, Exception, max_value=20"), 7, 1),
    "backoff, added": (lambda _: by_backoff("backoff.expo, Exception, jitter=backoff.random_jitter, factor=3"), 5, 1),
    "backoff, fibonacci": (lambda _: by_backoff("backoff.fibo, Exception, jitter=None, max_value=6"), 7, 1),
    "botocore, standard": (lambda _: by_botocore("standard"), 6, 1),
    "botocore, legacy": (lambda _: by_botocore("legacy"), 6, 1),
    "botocore, DynamoDB": (lambda _: by_dynamodb(), 9, 1),
    "Celery": (lambda _: by_celery(), 11, 7),
    "Celery, a task": (lambda _: by_celery_task(
        "autoretry_for=(OSError,), retry_backoff=100, retry_backoff_max=1000"), 6, 1),
    "Celery, without jitter": (lambda _: by_celery_task(
        "autoretry_for=(OSError,), retry_backoff=2.7, retry_jitter=False, retry_backoff_max=50"), 7, 1),
    "Celery, a delay": (lambda _: by_celery_task("autoretry_for=(OSError,), default_retry_delay=9"), 3, 1),
    "Celery, a countdown": (lambda _: by_celery_task("autoretry_for=(OSError,), retry_kwargs={'countdown': 7}"), 3, 1),
    "urllib3": (lambda _: by_urllib3(1), 11, 1), "urllib3, steps below a second": (lambda _: by_urllib3(0.3), 11, 1),
    "urllib3, one wait": (lambda _: by_urllib3(7), 1, 1), "urllib3, no waits": (lambda _: by_urllib3(0), 3, 1),
    "cenkalti": (by_cenkalti, 15, 1)}


@pytest.mark.parametrize("name", LIBRARIES)
def test_waits_are_drawn_as_the_library_draws_them(name, zsched, tmp_path):
    make, count, first = LIBRARIES[name]
    runs, text = make(tmp_path)
    ours, theirs = drawn_by_tools(str(zsched), text, count, tmp_path), runs(count)
    assert len(theirs) == RUNS
    for number, (low, high, mine, real) in enumerate(zip(*ours[:2], zip(*ours[2]), zip(*theirs), strict=True), 1):
        real = [1000 * wait for wait in real]
        assert low - 1 <= min(real) and max(real) <= high + 1, (number, low, min(real), max(real), high)
        for one, other in zip(*map(statistics.quantiles, (mine, real))) if number >= first else ():
            assert abs(one - other) <= max(1, 0.02 * (high - low)), (number, low, high, one, other)


def test_urllib3_waits_as_long_as_a_service_asks_and_retries_what_its_list_names(tmp_path):
    from urllib3 import HTTPResponse
    from urllib3.util import retry
    slept, sleep = [], time.sleep
    for words, asked in [("", LAST_MOMENT), (", respect_retry_after_header=False", None)]:
        (tmp_path / "app.py").write_text(text := f"from urllib3 import Retry\nit = Retry(4, backoff_factor=9{words})\n")
        policy = configs.policy_of_file(str(tmp_path / "app.py"), None)
        exec(text, names := {})
        time.sleep = slept.append
        try:
            after = names["it"].increment("GET", "/", error=OSError()).increment("GET", "/", error=OSError())
            after.sleep(HTTPResponse(headers={"Retry-After": "3600"}, status=503))
        finally:
            time.sleep = sleep
        assert policy.asked == asked and after.is_retry("GET", 503, has_retry_after=True) == bool(asked)
    assert slept == [3600, 18] and retry.Retry.RETRY_AFTER_STATUS_CODES == {413, 429, 503}
    (tmp_path / "app.py").write_text("from urllib3 import Retry\nit = Retry(4, status_forcelist={500, 429})\n")
    policy = configs.policy_of_file(str(tmp_path / "app.py"), None)
    real = retry.Retry(4, status_forcelist={500, 429})
    ours, theirs = ([it for it in range(1, 600) if retries(it)] for retries in (
        policy.retries, lambda status: real.is_retry("GET", status, has_retry_after=True)))
    assert ours == theirs == [413, 429, 500, 503]
    only = [it for it in ours if not real.is_retry("GET", it)]
    assert policy.left_out == {"which errors": {"only with Retry-After": list(map(str, only))}} and only == [413, 503]
    assert policy.retries(0) and not real.is_retry("POST", 500)


def in_file(path, *patterns):
    """Whether a file of a package has each of these, with any space between words."""
    text = re.sub(r"\s+", " ", pathlib.Path(path).read_text())
    return [it for it in patterns if not re.search(it, text)] == []


def defaults_of(what):
    return {name: it.default for name, it in inspect.signature(what).parameters.items()}


def tenacity_defaults():
    import tenacity
    given, wait = defaults_of(tenacity.BaseRetrying), defaults_of(tenacity.wait_exponential)
    return (given["stop"] is tenacity.stop_never and type(given["wait"]) is tenacity.wait_none
            and (wait["multiplier"], wait["exp_base"], wait["min"]) == (1, 2, 0))


def botocore_defaults():
    from botocore.retries import quota, standard
    backoff, checker = standard.ExponentialBackoff, standard.RetryQuotaChecker
    return (standard.DEFAULT_MAX_ATTEMPTS, backoff._BASE, backoff._MAX_BACKOFF, checker._RETRY_COST,
            quota.RetryQuota.INITIAL_CAPACITY) == (3, 2, 20, 5, 500)


def celery_defaults():
    from celery import Task
    return (Task.max_retries, Task.default_retry_delay) == (3, 180) and in_file(
        f"{PYTHON}/celery/app/autoretry.py", r"'retry_backoff_max', 600\)", r"'retry_jitter', True ?\)")


def backoff_defaults():
    import backoff
    expo = defaults_of(backoff.expo)
    return (expo["base"], expo["factor"], defaults_of(backoff.on_exception)["jitter"]) == (2, 1, backoff.full_jitter)


def urllib3_defaults():
    from urllib3.util.retry import Retry
    given = defaults_of(Retry)
    return (given["total"], given["backoff_factor"], given["respect_retry_after_header"],
            Retry.DEFAULT_BACKOFF_MAX) == (10, 0, True, 120)


def node_waits():
    """The waits of node-retry's defaults."""
    found = subprocess.run(["/usr/bin/node", "-p", "JSON.stringify(require('/usr/share/nodejs/retry').timeouts())"],
                           capture_output=True, check=True, text=True)
    return json.loads(found.stdout) == [1000 * 2**number for number in range(10)]


def grpc_defaults():
    return in_file(f"{GOCODE}/google.golang.org/grpc/backoff/backoff.go", r"BaseDelay: 1\.0 \* time\.Second",
                   r"Multiplier: 1\.6,", r"Jitter: 0\.2,", r"MaxDelay: 120 \* time\.Second") and in_file(
        f"{GOCODE}/google.golang.org/grpc/stream.go", r"dur = time\.Duration\(grpcrand\.Int63n\(int64\(cur\)\)\)")


def cenkalti_defaults():
    return in_file(f"{GOCODE}/github.com/cenkalti/backoff/exponential.go", "DefaultInitialInterval = 500 . time.Milli",
                   "DefaultRandomizationFactor = 0.5 ", "DefaultMultiplier = 1.5 ", "DefaultMaxInterval = 60 . time.S",
                   "DefaultMaxElapsedTime = 15 . time.Minute")


PYTHON, GOCODE = "/usr/lib/python3/dist-packages", "/usr/share/gocode/src"
# The jobs of docs/POLICIES.md whose settings a package of Debian has, and what compares them.
CHECKED = {"aws-standard": botocore_defaults, "aws-dynamodb": by_dynamodb, "grpc-connect": grpc_defaults,
           "celery-retry": celery_defaults, "celery-backoff": celery_defaults, "tenacity": tenacity_defaults,
           "tenacity-exponential": tenacity_defaults, "tenacity-max": tenacity_defaults,
           "backoff-expo": backoff_defaults, "cenkalti": cenkalti_defaults, "p-retry": node_waits,
           "urllib3": urllib3_defaults}
PAGE = dict(re.findall(r"^- Job `([^`]*)`.*\n- (.*)", (TOP / "docs/POLICIES.md").read_text(), re.M))


@pytest.mark.parametrize("job", JOBS)
def test_a_policy_is_that_of_debians_package_or_from_memory(job):
    named = re.match(r"Debian: (\S+) ([0-9.]+[0-9])", PAGE[job])
    assert (named is not None) == (job in CHECKED), PAGE[job]
    assert named or PAGE[job].startswith("From memory, not checked: "), PAGE[job]
    if named:
        version = subprocess.check_output(["dpkg-query", "-Wf", "${Version}", named[1]], text=True)
        assert version.startswith(named[2]) and CHECKED[job](), (named[0], version)
