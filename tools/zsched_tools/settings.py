"""A policy as every tool has it: its schedule and its settings, each of which a tool applies or names.

docs/FORMATS.md has the words for settings, and what each tool does with each."""
import itertools
import json
import re
import sys
from dataclasses import dataclass, field

from zsched_tools import command, hints
from zsched_tools.command import Refused
from zsched_tools.durations import milliseconds
from zsched_tools.hints import TABLE
from zsched_tools.place import Cause, FaultAt
from zsched_tools.program import LAST_MOMENT
from zsched_tools.words import duration

# Each word for a setting, with the member of Policy that has it and what it is.
WORDS = {"call": ("deadline", "the limit of the call"), "attempt": ("timeout", "the limit of an attempt"),
         "on": ("on", "the errors that are retried"), "asked": ("asked", "the longest wait that a service may ask for"),
         "budget": ("budget", "the budget of retries"), "parallel": ("parallel", "the number that run side by side"),
         "mode": ("mode", "the mode")}
_TYPED = re.compile(rf"(?<=[\s)])({'|'.join(WORDS)})(?![A-Za-z(]) *"
                    r"(\{[^{}]*\}|[^\s,{}]+(?: *, *[^\s,{}]+)*|)")
ERRORS = "which errors"
# What restricts: it can only mean fewer attempts, shorter ones or shorter waits, for example by a condition of a retry.
# `retry_mode` is that of an AWS config that doesn't say it, of which the greatest one is taken; waitForReady lets an
# attempt wait for its connection, within the attempt's own limit, where it would fail.
EARLIER = {ERRORS, "budget", "stop_after_delay", "max_time", "jitter", "HeartbeatSeconds", "soft_time_limit"} | set(
    "retriable_request_headers retriableRequestHeaders methods maxRequestMessageBytes maxResponseMessageBytes "
    "waitForReady idle_timeout idleTimeout max_stream_duration maxStreamDuration heartbeatTimeout HeartbeatSecondsPath "
    "TimeoutSecondsPath CircuitBreaker circuitBreaker Timeout enabled retry_mode".split()) | {"waits of DynamoDB"}
# What adds answers that are retried, or says by which rule a late `fixed` goes on. Bounds hold for every answer and by
# either rule, but a run has its own answers.
OF_RUNS = {"resultPredicate", "retryOnResultPredicate", "retriable_headers", "retriableHeaders", "fixed"}
# Where an attempt goes.
WHERE = set("retry_host_predicate retryHostPredicate host_selection_retry_max_attempts hostSelectionRetryMaxAttempts "
            "retry_priority retryPriority retryRemoteLocalities retryIgnorePreviousHosts".split())
# The errors of HTTP as gRPC sees them, and those of gRPC as gateways show them (both from memory); 0 is no response.
GRPC_OF_HTTP = {0: 14, 400: 13, 401: 16, 403: 7, 404: 12, 429: 14, 502: 14, 503: 14, 504: 14}
HTTP_OF_GRPC = {1: 499, 3: 400, 4: 504, 5: 404, 6: 409, 7: 403, 8: 429, 9: 400, 10: 409, 11: 400, 12: 501, 14: 503,
                16: 401}
UNAVAILABLE = TABLE["grpc"].index("UNAVAILABLE")
# Where an attempt goes, and names of what is called or written after a decision.
IDLE = WHERE | {"maxAttempts above 5"} | set(
    "reraise before after before_sleep retry_error_cls retry_error_callback on_backoff on_giveup on_success "
    "raise_on_giveup logger backoff_log_level giveup_log_level eventConsumerBufferSize failAfterMaxAttempts "
    "rate_limited_retry_back_off.reset_headers basedOnPreviousValue raise_on_status raise_on_redirect "
    "remove_headers_on_redirect history writableStackTraceEnabled consumeResultBeforeRetryAttempt recover label "
    "OnRetry onRetry".split())
# What each tool applies beside the schedule, and what else can't make it pass a wrong policy: `EARLIER` can't where all
# limits are greatest ones. Every other setting is refused, and so is every name in left_out.
APPLIED = {"layers": {"call", "attempt", "on"},
           **dict.fromkeys(["run", "follows"], {"call", "attempt", "on", "mode"}),
           **dict.fromkeys(["bound", "outage"], {"call", "attempt", "on", "asked", "mode"}),
           "plan": {"on", "mode"}, "export": {"on"}}
HARMLESS = {tool: IDLE | more for tool, more in {
    **dict.fromkeys(APPLIED, set()), "run": EARLIER, "layers": EARLIER, "bound": EARLIER | OF_RUNS | {"mode"}}.items()}


@dataclass
class Policy:
    """A policy of a config, or a typed one. `waits` is the schedule of its greatest waits, `draws` its text with random
    ones, or None, and `jitter` their range in a config. Times are milliseconds; None is no limit. `timeout` is the
    limit of an attempt, `deadline` that of the call. `on` has the errors that are retried, as words; none is all.
    `asked` is the longest wait that is honoured if a service asks for it, the last moment if it is any; `budget` is one
    of retries, as in a scenario, `parallel` how many run side by side, `mode` is retry or repeat, None is retry.
    `left_out` has each other setting by its name, with its whole value, and `notes` say what of the source is not
    there, at its place."""
    waits: str = ""
    draws: str | None = None
    jitter: dict | None = None
    name: str = ""
    timeout: int | None = None
    deadline: int | None = None
    on: tuple = ()
    asked: int | None = None
    budget: dict | None = None
    parallel: int | None = None
    left_out: dict = field(default_factory=dict)
    mode: str | None = None
    notes: tuple = ()

    def take_mode(self, mode):
        """Takes the mode that an option or a text says, if it says one."""
        if mode:
            self.mode = mode
            self.left_out.pop("mode", None)

    def given(self):
        """The text of each setting that has another value than without it, by its word."""
        found = {word: getattr(self, name) for word, (name, _) in WORDS.items()}
        return {word: value_text(word, value) for word, value in found.items() if value and value != "retry"}

    def typed(self):
        """The settings in the words in which they are typed."""
        return "".join(f" {word} {value.replace(' ', '')}" for word, value in self.given().items())

    def refused(self, tool):
        """What a tool doesn't apply and what may change its result: each name, with its whole value."""
        found = {**{word: value for word, value in self.given().items() if word not in APPLIED[tool]}, **self.left_out}
        return {name: value for name, value in found.items() if name not in HARMLESS[tool]}

    def limits(self):
        """The settings as members of an object of JSON."""
        return {"limits": {"attempt_ms": self.timeout, "call_ms": self.deadline}, "retries_on": list(self.on),
                "asked_ms": self.asked, "budget": self.budget, "parallel": self.parallel, "mode": self.mode or "retry",
                "left_out": self.left_out}

    @property
    def failing(self):
        """The error with which attempts fail if nothing else is said: 503, or gRPC's UNAVAILABLE."""
        ranges = list(map(codes_of, self.on))
        return UNAVAILABLE if ranges and all(1 <= most < len(TABLE["grpc"]) for _, most in ranges) else 503

    def seen(self, code):
        """An error of what a call calls, as this policy sees it: gRPC has other ones for those of HTTP, and HTTP."""
        is_grpc = self.failing == UNAVAILABLE
        if not self.on or is_grpc == (1 <= code < len(TABLE["grpc"])):
            return code
        return (GRPC_OF_HTTP if is_grpc else HTTP_OF_GRPC).get(code, 2 if is_grpc else 500)

    def retries(self, code):
        return not self.on or any(least <= code <= most for least, most in map(codes_of, self.on))


def codes_of(word):
    """The least and the greatest error code that a word names: 503, 5xx, or a name of gRPC. None if it names none."""
    if word in TABLE["grpc"]:
        return (TABLE["grpc"].index(word),) * 2
    if re.fullmatch("[1-9]xx", word):
        return 100 * int(word[0]), 100 * int(word[0]) + 99
    return (int(word),) * 2 if re.fullmatch("0|[1-9][0-9]{0,18}", word) else None


def listed_codes(words):
    """Words for error codes, each once, in the order of the codes; those that another one includes are left out."""
    ranges = {codes_of(it): it for it in words}
    return tuple(ranges[it] for it in sorted(ranges) if not any(
        other != it and other[0] <= it[0] and it[1] <= other[1] for other in ranges))


def around(on):
    """What is before and after a schedule that retries only some errors."""
    tests = [f".whileInput(= {least})" if least == most else f".whileInput(>= {least}).whileInput(< {most + 1})"
             for least, most in map(codes_of, on)]
    if len(tests) < 2:
        return "", "".join(tests)
    text = "identity" + tests[-1]
    for it in reversed(tests[:-1]):
        text = f"(identity{it} || {text})"
    return "(", f" && {text}).map(_1)"


def value_text(word, value):
    """The value of a setting in words: without spaces those in which it is typed."""
    if word in ("call", "attempt", "asked"):
        return duration(value) if value < LAST_MOMENT else "any"
    return ",".join(value) if word == "on" else value if word == "mode" else json.dumps(value)


def shown_value(value):
    """A value of a config in one line."""
    if isinstance(value, dict):
        return "{" + ", ".join(f"{name}: {shown_value(it)}" for name, it in value.items()) + "}"
    return f"[{', '.join(map(shown_value, value))}]" if isinstance(value, (list, tuple)) else str(value)


def _read(word, text):
    """The value of a typed setting. A ValueError has what is wrong."""
    if word == "on":
        words = [it.strip() for it in text.split(",")]
        if wrong := next((it for it in words if codes_of(it) is None), None):
            raise ValueError(hints.said("no_code", text=wrong))
        return listed_codes(words)
    if word == "parallel":
        if not re.fullmatch("[1-9][0-9]{0,8}", text):
            raise ValueError(hints.said("takes_one", word=word))
        return int(text)
    if word == "mode":
        if text not in ("retry", "repeat"):
            raise ValueError(hints.said("no_mode"))
        return text
    if word == "budget":
        value = json.loads(text)
        if not isinstance(value, dict) or "like" not in value:
            raise ValueError(hints.said("no_budget"))
        return value
    if text == "any":
        return LAST_MOMENT if word == "asked" else None
    if not (found := milliseconds(text)):
        raise ValueError(hints.said("no_limit"))
    return found


def take(text):
    """The settings that are typed in a policy's text, and the text with spaces in their place. FaultAt has a fault."""
    found = {}
    for it in _TYPED.finditer(text):
        word, value = it.groups()
        at, size = it.start(1), it.end() - it.start(1)
        try:
            if word in found:
                raise ValueError(hints.said("set_twice", word=word))
            found[word] = _read(word, value)
        except ValueError as fault:
            what = hints.said("no_budget") if isinstance(fault, json.JSONDecodeError) else str(fault)
            raise FaultAt(Cause(at, size, what, hints.said("write", text=TABLE["settings"][word]))) from None
    blank = _TYPED.sub(lambda it: " " * len(it[0]), text).rstrip() if found else text
    return {WORDS[word][0]: value for word, value in found.items()}, blank


def add_allowed(parser):
    """Adds the option that lets checks pass over what a tool doesn't apply."""
    parser.add_argument("--allow-left-out", action="append", default=[], metavar="NAME",
                        help="let checks pass although this setting of a policy isn't applied; again for another one")


def not_covered(allowed, policies, *tools):
    """What checks of tools don't cover of policies, a line for each: whatever a tool doesn't apply and may add attempts
    or waits, unless it is allowed. A name that no policy leaves out is rejected."""
    found = [(it, {name: value for tool in tools for name, value in it.refused(tool).items()}) for it in policies]
    names = dict.fromkeys(itertools.chain(*(refused for _, refused in found), *(it.left_out for it in policies)))
    for name in allowed:
        if name not in names:
            what = ", ".join(names) or "nothing"
            raise Refused(f"--allow-left-out {name}: no policy leaves that out; left out: {what}")
    found = [(policy, {name: it for name, it in refused.items() if name not in allowed}) for policy, refused in found]
    return [f"{policy.text}: " + "; ".join(f"{name} isn't applied: {shown_value(it)}" for name, it in refused.items())
            + "; no check passes over that without" + "".join(f" --allow-left-out '{name}'" for name in refused)
            for policy, refused in found if refused]


def tell_left_out(tool, policy, parts):
    """Writes what these parts of a tool don't apply of a policy, which --quiet doesn't hide, and what changes nothing
    in them."""
    refused = {name: value for part in parts for name, value in policy.refused(part).items()}
    idle = {name: value for name, value in policy.left_out.items() if name not in refused}
    lines = [", ".join(f"{name}: {shown_value(value)}" for name, value in it.items()) for it in (refused, idle)]
    if refused:
        print(f"{tool}: {policy.text} leaves out {lines[0]}", file=sys.stderr, flush=True)
    if idle:
        command.note(f"{policy.text} leaves out {lines[1]}, which changes no limit here", tool)
