"""Policies in the configuration of services: gRPC, Envoy, Istio, Temporal, Kubernetes, AWS Step Functions and SDKs.

docs/POLICIES.md has their defaults. From memory, not checked, but for the AWS SDKs (tests/test_draws.py):

- gRPC 1.64 (gRFC A6): the n-th wait is drawn 20 % above or below it. A maxAttempts above 5 counts as 5.
- Envoy 1.30: the n-th wait is drawn from 0 to base * (2^n - 1), at most max_interval, which is ten times the base if it
  isn't set.
- Temporal 1.24: maximumAttempts counts the first attempt, and 0 is no limit.
- Kubernetes, a Job: from 1.27 or so on there is a cap of 10 minutes. A probe begins periodSeconds after the one
  before, and failureThreshold counts those that fail, one after another.
- AWS Step Functions: the n-th wait of a retrier is IntervalSeconds * BackoffRate^(n-1), at most MaxDelaySeconds, and
  with the JitterStrategy FULL drawn from 0. Each retrier of a state counts its own retries; TimeoutSeconds limits an
  attempt.
- The errors of Envoy's retry_on. An empty one retries what a request's header names.
- Istio 1.22: its defaults, also of retryOn; the waits are Envoy's.
- AWS SDKs (botocore 1.29): drawn from 0 to 2^(n-1) s; standard cuts that to 20 s, legacy has 5 attempts and is the mode
  if none is set."""
import functools
import itertools
from fractions import Fraction

from zsched_tools.hints import TABLE
from zsched_tools.policy.fields import (Fields, Found, default, duration, items, keys_of, made, named, number, part,
                                        plain, text_of, texts, timeouts, value_of, whole)
from zsched_tools.policy.reading import Node
from zsched_tools.policy.spelling import Draws, exponential, growing
from zsched_tools.settings import ERRORS, codes_of, listed_codes

CODES = TABLE["grpc"]
# The errors that the words of Envoy's retry_on name, 0 for no response; some name only a part of these.
PARTS = ["connect-failure", "refused-stream", "reset-before-request", "http3-post-connect-failure"]
RETRY_ON = {"5xx": "5xx 0", "gateway-error": "502 503 504 0", "reset": "0", "retriable-4xx": "409",
            **dict.fromkeys(PARTS, "0"),
            **{name.lower().replace("_", "-"): name for name in (
                "CANCELLED", "DEADLINE_EXCEEDED", "INTERNAL", "RESOURCE_EXHAUSTED", "UNAVAILABLE")}}
ENVOY = {"numretries", "retryon", "retrybackoff", "pertrytimeout", "ratelimitedretrybackoff", "retriablestatuscodes",
         "retriableheaders", "retryhostpredicate"}
TEMPORAL = {"backoffcoefficient", "maximumattempts", "maximuminterval", "nonretryableerrortypes"}
ACTIVITY = {"starttoclosetimeout", "scheduletoclosetimeout"}
PROBES = ["livenessprobe", "readinessprobe", "startupprobe"]
FULL = {"kind": "full"}
# The keys around a retry_policy of Envoy, ROUTES those of a route, and around a container; groups of APIs of Kubernetes
# that have containers.
OF_ENVOY = {"staticresources", "typedconfig"}
ROUTES = {"route", "routes", "routeconfig", "typedperfilterconfig", "virtualhosts"}
BARE = {"retrypolicy", "name", "match", "domains", "cluster", "timeout", "idletimeout", "hedgepolicy"}
CONTAINERS = {"containers", "initcontainers", "ephemeralcontainers"}
WORKLOADS = {"", "apps", "batch", "extensions"}
# The documents of Istio that have policies, as `tables` has them.
ISTIO = "networking.istio.io", "VirtualService"
FILTER = "networking.istio.io", "EnvoyFilter"


def document_of(node):
    """The group of the API and the kind of a table that is a document of Kubernetes, or None."""
    version, kind = (text_of(part(node, name)) for name in ("apiversion", "kind"))
    return (version.rpartition("/")[0], kind) if version and kind else None


def tables(node, path=(), document=None):
    """Each table of a tree, as the keys and tables around it and its own, outermost first; and the group and kind of
    the nearest document of Kubernetes that it is a part of, or None."""
    if node.is_table():
        document = document_of(node) or document
        yield path, document
    items = node.data.items() if node.is_table() else enumerate(node.data) if isinstance(node.data, list) else ()
    for key, value in items:
        yield from tables(value, (*path, (key, value)), document)


def find(root):
    """The policies of a tree. A document of Kubernetes has none but those of its own kind."""
    for path, document in tables(root, (("", root),)):
        if document is None:
            yield from _find_grpc(path[-1][1])
        if _is_envoy(path, document):
            policy, is_route = part(path[-1][1], "retrypolicy"), len(path) == 1 or _is_below(path, ROUTES)
            limit = default("envoy", "timeout") if document is None and is_route else 0
            read = functools.partial(_envoy, policy, path, limit)
            yield Found.at("envoy", _envoy_name(path), policy, read)
        if document in (None, ISTIO):
            yield from _find_istio(path)
        if document is None:
            yield from _find_temporal(path)
            yield from _retriers(path[-1][1], path)
        yield from _find_kubernetes(path, document)


def _find_grpc(node):
    entries = part(node, "methodconfig")
    for entry in entries.data if entries is not None and isinstance(entries.data, list) else []:
        if (found := part(entry, "retrypolicy", "hedgingpolicy")) is not None:
            read = functools.partial(_grpc, found, entry, node)
            yield from (Found.at("grpc", name, found, read) for name in _methods(entry))


def _is_envoy(path, document):
    """Whether a table has a retry_policy of Envoy: a route, a virtual host, or another part of Envoy's config or of an
    EnvoyFilter. A file may be such a table, if it has no key that isn't Envoy's."""
    node = path[-1][1]
    if document not in (None, FILTER) or not keys_of(part(node, "retrypolicy")) & ENVOY:
        return False
    places = ROUTES | (OF_ENVOY if document is None else {"value"})
    return _is_below(path, places) or len(path) == 1 and keys_of(node) <= BARE


def _is_below(path, keys):
    return any(plain(str(key)) in keys for key, _ in path)


def _find_istio(path):
    """The policy of a table `retries`, or the usual one of a route of a VirtualService that has none."""
    node, keys, read = path[-1][1], keys_of(path[-1][1]), None
    if plain(str(path[-1][0])) == "retries" and keys & {"attempts", "pertrytimeout", "retryon", "backoff"}:
        read = functools.partial(_istio, node, path[-2][1]) if "numretries" not in keys else None
    elif [key for key, _ in path[-3:-1]] == ["spec", "http"] and "route" in keys and part(node, "retries") is None:
        if text_of(part(path[-4][1], "kind")) == "VirtualService":
            read = functools.partial(_istio, node.having({}), node)
    if read:
        name = next(filter(None, (_name_of(it) for _, it in reversed(path))), "istio")
        yield Found.at("istio", name, node, read)


def _find_temporal(path):
    node, keys, key = path[-1][1], keys_of(path[-1][1]), plain(str(path[-1][0]))
    around = path[-2][1] if len(path) > 1 else Node({}, 1)
    if keys & ACTIVITY:
        policy = part(node, "retrypolicy", "retry", "retryoptions") or node.having({})
        yield Found.at("temporal", label(path, "temporal"), policy, functools.partial(_temporal, policy, node))
    elif not keys_of(around) & ACTIVITY and "minimuminterval" not in keys and (
            keys & TEMPORAL or (keys, key) == ({"initialinterval"}, "retrypolicy")):
        yield Found.at("temporal", label(path, "temporal"), node, functools.partial(_temporal, node, around))


def _find_kubernetes(path, document):
    """The probes of a container and the retries of a Job, if the API is one of Kubernetes, or none is said."""
    node, group = path[-1][1], document and document[0]
    if group is None or group in WORKLOADS and _is_below(path, CONTAINERS):
        for word in PROBES:
            if (probe := part(node, word)) is not None and probe.is_table():
                name = f"{label(path, 'container')}/{word.removesuffix('probe')}"
                yield Found.at("kubernetes", name, probe, functools.partial(_probe, probe))
    if group in (None, "batch") and text_of(part(node, "kind")) in ("Job", "CronJob") and part(node, "spec"):
        yield Found.at("kubernetes", _name_of(node) or "job", node, functools.partial(_job, node))


def _name_of(node):
    """The name of a table, or of its metadata."""
    meta = part(node, "metadata")
    return text_of(part(node, "name", "activitytype", "workflowtype")) or text_of(part(meta, "name", "generatename"))


def label(path, form):
    """The name of a policy: that of the nearest table that has one, or else the nearest key that isn't a usual one."""
    usual = {"retrypolicy", "retry", "retries", "retryoptions", "options", "spec", "config", "policy", "backoff", ""}
    names = (_name_of(node) or (key if isinstance(key, str) and plain(key) not in usual else None)
             for key, node in reversed(path))
    return next(filter(None, names), form)


def _methods(entry):
    """The names of the methods and services of an entry."""
    names = part(entry, "name")
    texts_of = [[text_of(part(it, key)) for key in ("service", "method")]
                for it in (names.data if names is not None and isinstance(names.data, list) else [])]
    return ["/".join(filter(None, it)) or "default" for it in texts_of] or ["default"]


def _code(node):
    text = str(node.data).upper()
    text = CODES[int(text)] if text.isdigit() and len(text) < 3 and int(text) < len(CODES) else text
    if text not in CODES:
        raise node.wrong(f"{named(node)} is not a status code of gRPC")
    return text


def _grpc(policy, entry, config):
    fields, around = Fields(policy), Fields(entry)
    if around.take("retrypolicy") is None:
        raise policy.wrong("a hedgingPolicy begins attempts beside those that run, which no schedule does")
    around.take("name")
    reads = {"maxAttempts": whole, "initialBackoff": duration, "maxBackoff": duration, "backoffMultiplier": number}
    found = {name: fields.get(read, plain(name)) for name, read in reads.items()}
    codes = fields.take("retryablestatuscodes")
    listed = codes is not None and isinstance(codes.data, list) and codes.data
    for name, value in {**found, "list of retryableStatusCodes": listed}.items():
        if not value:
            raise policy.wrong(f"the policy has no {name}, which gRPC needs")
    count, first, most, factor = found.values()
    if count < 2:
        raise policy.wrong("maxAttempts must be at least 2")
    timeout, deadline = fields.get(duration, "perattemptrecvtimeout"), around.get(duration, "timeout")
    more, throttling = {"maxAttempts above 5": count} if count > 5 else {}, part(config, "retrythrottling")
    tokens, ratio = (part(throttling, name) for name in ["maxtokens", "tokenratio"])
    budget = throttling and {"like": "grpc", "tokens": tokens and whole(tokens), "ok": ratio and float(number(ratio))}
    waits = exponential(first * 6 / 5, factor, most * 6 / 5)
    return made(waits, min(count, 5) - 1, {**fields.left_out(), **around.left_out(), **more},
                {"kind": "proportional", "percent": 20}, timeout=timeout, deadline=deadline, budget=budget,
                on=listed_codes(map(_code, codes.data)))


def _envoy_name(path):
    """The name of a policy: that of its route, its cluster, its match, its virtual host or its document."""
    for _, node in reversed(path):
        match = part(node, "match")
        names = [part(node, "name"), match and part(part(node, "route"), "cluster"), part(match, "prefix", "path"),
                 part(part(node, "metadata"), "name")]
        if found := next(filter(text_of, names), None):
            return found.data
    return "envoy"


def envoy_waits(base, most):
    """Waits of 1, 3, 7, 15 .. times the base, which is a whole number of milliseconds, and at least 1."""
    base = max(1, int(base))
    return growing((base * (2**number - 1) for number in itertools.count(1)),
                   base * 10 if most is None else max(base, int(most)))


def _envoy_others(path):
    """The settings beside a policy that aren't carried over: those of its route, or of each route of its virtual host
    that has no other policy."""
    node, others = path[-1][1], ("timeout", "idletimeout", "hedgepolicy", "maxstreamduration")
    found = {name: value_of(it) for name, it in node.data.items() if plain(name) in others[1:]}
    for it, _ in tables(part(node, "routes") or Node({}, 1), path):
        if it != path and part(it[-1][1], "retrypolicy") is None and it[-1][0] == "route":
            found |= {f"{_envoy_name(it)}: {name}": value_of(value) for name, value in it[-1][1].data.items()
                      if plain(name) in others}
    return found


def _envoy_errors(words, codes):
    """The errors of the words of Envoy's retry_on, and the words that have none, or name a part of one."""
    found, left_out = [], []
    for word in words:
        listed = codes if word == "retriable-status-codes" else RETRY_ON.get(word, word).split()
        found += filter(codes_of, listed)
        left_out += [word] if not any(map(codes_of, listed)) or word in PARTS else []
    # The parts of what has no response, if another word names the whole.
    if any("0" in RETRY_ON.get(it, "").split() and it not in PARTS for it in words):
        left_out = [it for it in left_out if it not in PARTS]
    return listed_codes(found), {ERRORS: left_out or "none is named"} if left_out or not words else {}


def _envoy(policy, path, limit):
    """The Policy of a retry_policy. `limit` is that of the call if the route has none, in milliseconds."""
    fields = Fields(policy)
    usual = Node({"base_interval": Node(f"{default('envoy', 'base_interval')}ms", 1)}, 1)
    back_off = Fields(fields.take("retrybackoff") or usual)
    base, most = back_off.get(duration, "baseinterval"), back_off.get(duration, "maxinterval")
    if base is None:
        raise back_off.wrong("retry_back_off has no base_interval")
    retries = fields.take("numretries")
    retries = part(retries, "value") if retries is not None and retries.is_table() else retries
    timeout, words = fields.get(duration, "pertrytimeout"), fields.get(texts, "retryon", default=[])
    limited = Fields(fields.take("ratelimitedretrybackoff") or Node({}, 1))
    asked = limited.get(duration, "maxinterval", default=None)
    if limited.found and asked is None:
        asked = Fraction(default("envoy", "rate_limited_retry_back_off.max_interval"))
    on, errors = _envoy_errors(words, [str(whole(it)) for it in fields.get(items, "retriablestatuscodes", default=[])])
    left_out = {**fields.left_out(), **back_off.left_out("retry_back_off."),
                **limited.left_out("rate_limited_retry_back_off."), **_envoy_others(path), **errors}
    count = default("envoy", "num_retries") if retries is None else whole(retries)
    # That of all attempts together; 0 is none.
    deadline = Fields(path[-1][1]).get(duration, "timeout", default=Fraction(limit))
    return made(envoy_waits(base, most), count, left_out, FULL, timeout=timeout, deadline=deadline, asked=asked, on=on)


def _istio(retries, route):
    fields = Fields(retries)
    count, base = (fields.get(read, name, default=default("istio", name))
                   for read, name in [(whole, "attempts"), (duration, "backoff")])
    timeout = fields.get(duration, "pertrytimeout")
    on, errors = _envoy_errors(fields.get(texts, "retryon", default=default("istio", "retryOn", texts)), [])
    return made(envoy_waits(base, None), count, {**fields.left_out(), **errors}, FULL, timeout=timeout, on=on,
                deadline=Fields(route).get(duration, "timeout"))


def _temporal(policy, around):
    fields, beside = Fields(policy), timeouts(around)
    first, factor, times = (default("temporal-activity", it, Fraction)
                            for it in ["Initial Interval", "Backoff Coefficient", "Maximum Interval"])
    first = fields.get(duration, "initialinterval") or first
    factor = fields.get(number, "backoffcoefficient") or factor
    most = fields.get(duration, "maximuminterval") or first * times
    if factor < 1 or most < first:
        raise policy.wrong("backoffCoefficient must be at least 1" if factor < 1
                           else "maximumInterval must be at least initialInterval")
    attempts = fields.get(whole, "maximumattempts", default=0)
    timeout, deadline = (beside.get(duration, f"{name}timeout") for name in ["starttoclose", "scheduletoclose"])
    left_out = {**fields.classes("nonretryableerrortypes"), **fields.left_out(), **beside.left_out()}
    return made(exponential(first, factor, most), attempts - 1 if attempts else None, left_out, timeout=timeout,
                deadline=deadline)


def _job(node):
    spec = part(node, "spec")
    spec = spec if text_of(part(node, "kind")) == "Job" else part(part(spec, "jobtemplate"), "spec")
    if spec is None:
        raise node.wrong("the CronJob has no jobTemplate with a spec")
    fields = Fields(spec)
    names = ["backoffLimit", "DefaultJobBackOff", "MaxJobBackOff"]
    retries, first, most = (default("kubernetes-job", name) for name in names)
    retries = fields.get(whole, "backofflimit", default=retries)
    if retries >= 2**31:
        raise fields.found["backofflimit"].wrong(f"backoffLimit is more than {2**31 - 1}")
    deadline = 1000 * fields.get(whole, "activedeadlineseconds", default=0)
    pod = part(part(fields.take("template"), "spec"), "restartpolicy")
    parallel = fields.get(whole, "parallelism", default=1)
    left_out = {name: it for name, it in fields.left_out().items() if (plain(name), it) != ("completions", "1") and (
        plain(name) not in ("selector", "manualselector", "ttlsecondsafterfinished", "managedby"))}
    left_out |= {"restartPolicy": "OnFailure"} if text_of(pod) == "OnFailure" else {}
    return made(exponential(first, 2, most), retries, left_out, deadline=Fraction(deadline),
                parallel=parallel if parallel != 1 else None)


def _probe(node):
    fields = Fields(node)
    period, timeout, count, successes = (
        fields.get(whole, plain(name), default=default("kubernetes-probe", name), least=1)
        for name in ["periodSeconds", "timeoutSeconds", "failureThreshold", "successThreshold"])
    period, timeout = (it if name in fields.found else it // 1000 for it, name in [
        (period, "periodseconds"), (timeout, "timeoutseconds")])
    for name in ("httpget", "exec", "tcpsocket", "grpc", "initialdelayseconds", "terminationgraceperiodseconds"):
        fields.take(name)
    more = {"successThreshold": successes} if successes != 1 else {}
    return made(f"(fixed({period * 1000}) && recurs({count - 1}))", None, {**fields.left_out(), **more},
                timeout=Fraction(timeout * 1000))


def _retriers(node, path):
    """The retriers of a state of AWS Step Functions."""
    retriers = part(node, "retry")
    found = [it for it in retriers.data if "errorequals" in keys_of(it)] if retriers is not None and isinstance(
        retriers.data, list) else []
    for it in found:
        yield Found.at("stepfunctions", label(path, "state"), it, functools.partial(_retrier, it, node, len(found) - 1))


def _retrier(node, state, others):
    fields = Fields(node)
    job, seconds = "step-functions", fields.get(whole, "intervalseconds", default=None, least=1)
    first = default(job, "IntervalSeconds") if seconds is None else 1000 * seconds
    retries = fields.get(whole, "maxattempts", default=default(job, "MaxAttempts"))
    factor = fields.get(number, "backoffrate", default=default(job, "BackoffRate", Fraction), least=1)
    most, jitter = fields.get(whole, "maxdelayseconds", default=None, least=1), fields.take("jitterstrategy")
    word = "NONE" if jitter is None else str(jitter.data)
    if word not in ("NONE", "FULL"):
        raise jitter.wrong(f"{named(jitter)} is not NONE or FULL")
    errors = fields.get(texts, "errorequals")
    timeout = Fields(state).get(whole, "timeoutseconds", default=0)
    beside = {name: value_of(it) for name, it in state.data.items() if plain(name) in (
        "heartbeatseconds", "timeoutsecondspath", "heartbeatsecondspath")}
    left_out = {**fields.left_out(), **beside, **({"other retriers": others} if others else {})}
    left_out |= {ERRORS: errors} if errors != ["States.ALL"] else {}
    return made(exponential(first, factor, None if most is None else most * 1000), retries, left_out,
                FULL if word == "FULL" else None, timeout=Fraction(timeout * 1000))


def find_aws(root):
    """The policies of an AWS config file, or of the variables of its environment."""
    for section, node in root.data.items():
        if keys_of(node) & ({"maxattempts", "retrymode"} if section else {"awsmaxattempts", "awsretrymode"}):
            name = section.removeprefix("profile ").strip().strip("\"'") or "environment"
            yield Found.at("aws", name, node, functools.partial(aws, node))


def aws(node):
    """The policy of a section, or of variables."""
    fields = Fields(node)
    asked = fields.take("retrymode", "awsretrymode", "mode")
    mode = "legacy" if asked is None else asked.data.lower()
    if mode not in ("legacy", "standard", "adaptive"):
        raise asked.wrong(f"{named(asked)} is not legacy, standard or adaptive")
    dynamo = {"waits of DynamoDB": "shorter ones"} if fields.found.keys() & {"maxattempts", "awsmaxattempts"} else {
        "DynamoDB": "its own waits, and ten attempts"}
    left_out = {"legacy": dynamo, "adaptive": {"rate": "that of a client"}}.get(mode, {})
    budget = None if mode == "legacy" else {"like": "aws", "tokens": 500, "retry": 5, "ok": 1}
    usual, most = (default("aws-standard", it) for it in ["DEFAULT_MAX_ATTEMPTS", "max_backoff"])
    attempts = fields.get(whole, "maxattempts", "awsmaxattempts", default=5 if mode == "legacy" else usual, least=1)
    left_out |= {"retry_mode": "not set: legacy in botocore, standard in newer SDKs"} if asked is None else {}
    left_out |= {name: it for name, it in fields.left_out().items() if "retr" in name.lower()}
    most = None if mode == "legacy" else most
    drawn = exponential(1000, 2)
    draws = Draws(drawn, "full", most) if most and attempts > 1 and drawn.at(attempts - 1) > most else None
    return made(exponential(1000, 2, most), attempts - 1, left_out, FULL, draws=draws, budget=budget)
