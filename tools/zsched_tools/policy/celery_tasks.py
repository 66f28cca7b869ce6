"""Policies of Celery's tasks in Python source: options of @app.task and @shared_task, and attributes of a Task's class.

tests/test_draws.py compares them with Debian's package, Celery 5.2: a task with autoretry_for and retry_backoff waits
retry_backoff * 2^(n-1) s, at most retry_backoff_max, drawn from 0 in whole seconds by retry_jitter; else it waits
default_retry_delay, or the countdown of its retry. A retry is a new message: it begins when a worker takes it."""
import ast

from zsched_tools.policy.fields import default, made
from zsched_tools.policy.spelling import constant, exponential, nearest
from zsched_tools.settings import ERRORS

OPTIONS = ("autoretry_for", "dont_autoretry_for", "retry_kwargs", "retry_backoff", "retry_backoff_max", "retry_jitter",
           "max_retries", "default_retry_delay", "time_limit", "soft_time_limit")
# What says nothing of retries.
IDLE = set("bind name base queue ignore_result serializer typing track_started priority throws acks_late "
           "store_errors_even_if_ignored".split())


def options_of(source, node):
    """What makes a decorator or a class a task that retries: where it is, its options by their names, and the calls of
    `self.retry` in it. Nothing of another node."""
    if isinstance(node, ast.ClassDef) and any(source.called(it).split(".")[-1] == "Task" for it in node.bases):
        given = {it.targets[0].id: it.value for it in node.body
                 if isinstance(it, ast.Assign) and isinstance(it.targets[0], ast.Name) and it.targets[0].id in OPTIONS}
        if "autoretry_for" in given:
            yield node, given, []
    for it in getattr(node, "decorator_list", []):
        if source.called(it).split(".")[-1] in ("task", "shared_task", "periodic_task"):
            names = {word.arg for word in it.keywords} if isinstance(it, ast.Call) else set()
            if "celery" not in source.known:
                source.known["celery"] = any("celery" in row for row in source.rows)
            calls = _retries_in(node) if source.known["celery"] else []
            if "autoretry_for" in names or source.known["celery"] and (calls or names & {*OPTIONS}):
                yield it, None, calls


def _retries_in(node):
    """The calls of `retry` of a function's first argument."""
    first = node.args.args[0].arg if isinstance(node, ast.FunctionDef) and node.args.args else None
    return [it for it in ast.walk(node) if isinstance(it, ast.Call) and isinstance(it.func, ast.Attribute)
            and it.func.attr == "retry" and isinstance(it.func.value, ast.Name) and it.func.value.id == first]


def policy_of(source, node, given, calls):
    """The policy of a task's options; those of a decorator are read here."""
    if given is None:
        given = source.arguments(node) if isinstance(node, ast.Call) else {}
    given = {name: it for name, it in given.items() if name not in IDLE}
    automatic, more = "autoretry_for" in given, _members(source, given.pop("retry_kwargs", None))
    errors = {name: source.whole(given.pop(name)) for name in ("autoretry_for", "dont_autoretry_for") if name in given}
    is_any = errors.get("autoretry_for", "").strip("(), []") == "Exception" and len(errors) == 1
    first = int(_number(source, given.pop("retry_backoff", None), 0))
    most = _number(source, given.pop("retry_backoff_max", None), default("celery-backoff", "retry_backoff_max") // 1000)
    is_drawn = _number(source, given.pop("retry_jitter", None), 1)
    wait = _number(source, given.pop("default_retry_delay", None),
                   default("celery-retry", "default_retry_delay") // 1000)
    retries = given.pop("max_retries", None)
    timeout = _number(source, given.pop("time_limit", None), 0) * 1000
    left_out = {name: source.whole(it) for name, it in given.items()}
    left_out |= {ERRORS: errors} if errors and not is_any else {}
    left_out |= {"retry": source.whole(calls[0])} if automatic and calls else {}
    more |= {} if automatic else _of_calls(source, calls)
    retries = more.pop("max_retries", retries)
    wait = _number(source, more.pop("countdown", None), wait)
    left_out |= {f"retry_kwargs.{name}": source.whole(it) for name, it in more.items()}
    is_endless = isinstance(retries, ast.Constant) and retries.value is None
    retries = None if is_endless else int(_number(source, retries, default("celery-retry", "max_retries")))
    if automatic and first:
        jitter = {"kind": "full"} if is_drawn else None
        return made(exponential(first * 1000, 2, int(most) * 1000), retries, left_out, jitter, timeout=timeout)
    return made(constant(nearest(wait * 1000)), retries, left_out, timeout=timeout)


def _number(source, node, usual):
    """A number or a truth value, or the usual one if there is none."""
    is_truth = isinstance(node, ast.Constant) and isinstance(node.value, bool)
    return int(node.value) if is_truth else source.option(node, usual)


def _members(source, node):
    """The values of a dict by their names."""
    if node is None:
        return {}
    if isinstance(node, ast.Call) and source.called(node) == "dict" and not node.args:
        return {it.arg: it.value for it in node.keywords}
    keys = [getattr(it, "value", None) for it in node.keys] if isinstance(node, ast.Dict) else [None]
    if None in keys:
        raise source.wrong(node, f"{source.shown(node)} can't be known without running the source")
    return dict(zip(keys, node.values))


def _of_calls(source, calls):
    """What the calls of `self.retry` say of waits and of their number, which must be one thing."""
    found = [{it.arg: it.value for it in call.keywords if it.arg in ("countdown", "eta", "max_retries")}
             for call in calls]
    if len({tuple((name, source.whole(it)) for name, it in given.items()) for given in found}) > 1:
        raise source.wrong(calls[1], f"{source.shown(calls[1])} retries otherwise than line {calls[0].lineno}")
    if any("eta" in given for given in found):
        raise source.wrong(calls[0], f"{source.shown(calls[0])} can't be known without running the source")
    return found[0] if found else {}
