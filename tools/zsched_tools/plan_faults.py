"""What is wrong with a plan: with the document, its shape, its keys and its ranges; with a job, its shape, its keys,
its mode, its name, its schedule and its script; with a value or a key of either."""
import operator
import re
from fractions import Fraction

from zsched_tools import schedule_rules, schedule_text
from zsched_tools.durations import in_milliseconds
from zsched_tools.hints import DOCUMENT_KEYS, ENTRY_KEYS, JOB_KEYS, near
from zsched_tools.place import Cause, line_of
from zsched_tools.positions import MAX_WHOLE, W, run_of
from zsched_tools.program import LAST_MOMENT, MOST_ENTRIES, MOST_JOBS
from zsched_tools.words import listed, shown

TIMES = ("horizon", "ticks", "start", "ms")
_A = {"object": "an object", "list": "a list", "text": "a text", "number": "a number", "true": "true", "false": "false",
      "null": "null"}
_OWNERS = [("the plan", DOCUMENT_KEYS), ("a job", JOB_KEYS), ("an entry of a script", ENTRY_KEYS)]
_SAMPLES = {"horizon": "60000", "jobs": "[ .. ]", "name": '"poll-queue"', "mode": '"retry"', "schedule": '"recurs(3)"',
            "script": '[{"ms": 5, "ok": 1}]', "ms": "5"}
# Keys of other tools with the meaning of these.
_ALIASES = {
    "horizon": ["until", "end", "limit", "duration", "timeout", "length", "time"],
    "ticks": ["moments", "times", "clock"],
    "workers": ["threads", "parallelism", "concurrency"],
    "grain": ["batch", "chunk"],
    "jobs": ["tasks", "plan", "list"],
    "name": ["id", "title", "label", "job"],
    "mode": ["type", "kind", "driver"],
    "schedule": ["policy", "retry", "repeat", "backoff", "cron"],
    "start": ["begin", "delay", "offset", "after", "at"],
    "script": ["attempts", "entries", "steps", "effect", "runs", "results"],
    "ms": ["duration", "millis", "time", "takes", "length", "milliseconds", "delay"],
    "ok": ["success", "value", "result", "succeeded"],
    "err": ["fail", "failure", "failed", "code", "exception", "failwith"],
}
MAX_TICKS = 1000000
_FRAME = '{"horizon": 60000, "jobs": [ .. ]}'
_WHOLES = re.compile(run_of(f"(?:0|[1-9][0-9]{{0,18}}+){W},{W}"))


def over(node, what, help=""):
    """A cause whose place is a whole value."""
    return Cause(node.at, node.end - node.at if node.kind not in ("object", "list") else 1, what, help)


def not_of_kind(node, kind, what, help=""):
    """The cause if a value isn't of the kind, else None."""
    return None if node.kind == kind else over(node, f"{what} is {_A[node.kind]}, but must be {_A[kind]}", help)


def meant_for(key, known):
    """The known key that another key may mean, or None."""
    plain = key.lower()
    return next((meant for meant in known if plain in _ALIASES[meant]), None) or near(key, known)


def missing(node, key, where, known):
    """The cause if an object lacks a key."""
    absent = Cause(node.at, 1, f'{where} has no "{key}"', f'write "{key}": {_SAMPLES[key]}')
    return misnamed(node, key, where, known) or absent


def misnamed(node, key, where, known):
    """The cause at a key of the object that may mean this missing key, or None."""
    for name, _ in node.members():
        said = name.string()
        if said not in known and meant_for(said, [key]):
            return over(name, f'{where} has no "{key}", but this key', f'write "{key}"')
    return None


def unknown_keys(node, where, known):
    """The causes of the unknown keys of an object."""
    return (over(name, f'{where} has no key "{shown(said)}"', _key_help(said, where, known))
            for name, _ in node.members() if (said := name.string()) not in known)


def _key_help(said, where, known):
    for owner, keys in _OWNERS:
        if said in keys:
            return f'"{said}" is a key of {owner}'
    if meant := meant_for(said, known):
        return f'did you mean "{meant}"?'
    if said.lower() in ("retries", "attempts", "maxretries", "max_retries", "max_attempts"):
        return "a schedule counts: recurs(N), joined by && to the one that waits"
    if said.startswith(("//", "#", "_", "$")) or said.lower() in ("comment", "description", "note"):
        return "leave it out: a plan has no comments"
    return f"{where} takes {listed(known)}; remove this one"


def not_whole(node, key):
    """The cause if the value of a key isn't a whole number, else None."""
    if node.whole() is not None:
        return None
    subject = "this tick" if key == "ticks" else f'"{key}"'
    what = f"{subject} is {_A[node.kind]}" if node.kind != "number" else f"{subject} is no whole number"
    return over(node, what, _whole_help(node, key))


def _whole_help(node, key):
    """What to write in place of a value that is no whole number."""
    if node.kind == "number":
        return _number_help(node.source, key)
    if node.kind == "text":
        said = node.string()
        if key in TIMES and re.match(r"\s*-\s*[0-9]", said):
            return "a time has no sign"
        if key in TIMES and in_milliseconds(said):
            return in_milliseconds(said).replace(":", ", without quotes:", 1)
        if re.fullmatch(r"0|[1-9][0-9]{0,18}", said.strip()):
            return f"write {said.strip()}, without quotes"
        return "write a whole number" + (", as 1: a code represents a cause" if key in ("ok", "err") else "")
    if node.kind == "null":
        return "write a whole number" + ("" if key in ("horizon", "ticks", "ms") else ", or leave the key out")
    return {"true": "write 1", "false": "write 0"}.get(node.kind, "write a whole number")


def _number_help(source, key):
    """What to write in place of a number that isn't whole."""
    if source.startswith("-"):
        return "write 0" if source == "-0" else "a number of a plan has no sign"
    if re.fullmatch(r"[0-9]+", source):
        return f"the greatest number is {MAX_WHOLE}"
    value = Fraction(source) if re.fullmatch(r"[0-9]{1,20}(\.[0-9]{1,20})?([eE][+-]?[0-9]{1,2})?", source) else None
    if value is None:
        return "write only digits, without point and exponent"
    if value.denominator == 1 and value <= MAX_WHOLE:
        return f"write {value}: only digits, without point and exponent"
    if key in TIMES and (value * 1000).denominator == 1 and value < 10**12:
        return f"times are whole milliseconds: write {value * 1000} if these are seconds"
    return "write only digits, without point and exponent"


def out_of_range(node, key, least, most, help=""):
    """The cause if a whole number is out of its range, else None."""
    if least <= node.whole() <= most:
        return None
    return over(node, f'"{key}" is {node.whole()}, and may be {least} to {most}', help)


def first(causes):
    """The first cause of these, or None."""
    return next(filter(None, causes), None)


def plan_shape(plan):
    """The causes if a plan isn't an object with `jobs` and one of `horizon` and `ticks`, each of the right kind."""
    if plan.kind != "object":
        yield not_of_kind(plan, "object", "the plan", f"write {_FRAME}" + (
            ", with the jobs in its list" if plan.kind == "list" else ""))
        return
    jobs, horizon, ticks = plan.get("jobs"), plan.get("horizon"), plan.get("ticks")
    if not jobs and len({name.string() for name, _ in plan.members()} & set(JOB_KEYS)) > 1:
        yield Cause(plan.at, 1, "this is one job, and no plan", f"put it into the list of {_FRAME}")
    if not horizon and not ticks:
        yield missing(plan, "horizon", "the plan", DOCUMENT_KEYS)
    if not jobs:
        yield missing(plan, "jobs", "the plan", DOCUMENT_KEYS)
    if horizon and ticks:
        yield over(ticks, 'the plan has "ticks" and "horizon"', "leave one out: the last tick is the horizon of ticks")
    for key in ("horizon", "workers", "grain"):
        value = plan.get(key)
        yield value and not_whole(value, key)
    if ticks:
        yield not_of_kind(ticks, "list", '"ticks"', "write [0, 10, 20]")
        yield from (not_whole(tick, "ticks") for tick in ticks.items(_WHOLES))
    yield jobs and not_of_kind(jobs, "list", '"jobs"', 'write [ {"name": .., ..}, .. ]: each job has its name inside')


def plan_ranges(plan):
    """The causes of a number out of range, each or None."""
    workers, grain, horizon, ticks = (plan.get(key) for key in ("workers", "grain", "horizon", "ticks"))
    yield workers and out_of_range(workers, "workers", 1, 64, "the number of workers never changes a report")
    yield grain and out_of_range(grain, "grain", 1, 10000, "the grain never changes a report")
    too_many = next((job for number, job in enumerate(plan.get("jobs").items()) if number == MOST_JOBS), None)
    yield too_many and Cause(too_many.at, 1, f"this is one job more than {MOST_JOBS}", "make plans of fewer jobs")
    help = "moments are milliseconds from the beginning of the plan, as 60000 for a minute"
    yield horizon and out_of_range(horizon, "horizon", 0, LAST_MOMENT, help)
    yield ticks and _tick_cause(ticks)


def _tick_cause(ticks):
    """The cause of an invalid list of ticks, or None."""
    parts = ticks.source[1:-1].split(",")
    if not parts[0].strip():
        return over(ticks, "there are no ticks", "write at least one moment, as [0]")
    moments = list(map(int, parts))
    falls = list(map(operator.ge, moments, moments[1:]))
    if True in falls:
        number, help = falls.index(True) + 1, "write the ticks in their order, each once"
        what = f"this tick is not later than the one before it, {moments[number - 1]}"
    elif len(moments) > MAX_TICKS:
        number, help = MAX_TICKS, "a horizon has a tick at each millisecond"
        what = f"this is one tick more than {MAX_TICKS}"
    elif moments[-1] > LAST_MOMENT:
        number, help = len(parts) - 1, "moments are milliseconds from the beginning of the plan"
        what = f"the last tick is {moments[-1]}, and may be at most {LAST_MOMENT}"
    else:
        return None
    begin, part = ticks.at + 1 + sum(map(len, parts[:number])) + number, parts[number]
    return Cause(begin + len(part) - len(part.lstrip()), len(part.strip()), what, help)


MAX_NAME = 64
_MODES = {"retry": ["error", "onerror", "fail", "backoff"],
          "repeat": ["loop", "poll", "forever", "periodic", "schedule", "cron"]}
_ENTRY = '{"ms": 5, "ok": 1}'


def _entry_run(ms, known=""):
    """A run of entries that are written in the plainest way, with this pattern for the number at ms."""
    timed, ended = f'"ms"{W}:{W}{ms}{W}', f'"(?:ok|err)"{W}:{W}(?:0|[1-9][0-9]{{0,18}}+){W}'
    return re.compile(run_of(rf"\{{{W}(?:{timed},{W}{ended}|{ended},{W}{timed})}}{W},{W}"))


_SHAPED = _entry_run("(?:0|[1-9][0-9]{0,18}+)")
_TIMED = _entry_run("[1-9][0-9]{0,18}+")


def job_shape(job):
    """The causes if a job isn't an object with all required keys, each of the right kind, down to its entries."""
    if job.kind != "object":
        help = 'write {"name": .., "mode": .., "schedule": .., "script": [ .. ]}'
        yield not_of_kind(job, "object", "the job", help)
        return
    for key in ("name", "mode", "schedule", "script"):
        if not job.get(key):
            yield missing(job, key, "the job", JOB_KEYS)
    for key in ("name", "mode", "schedule"):
        yield not_of_kind(job.get(key), "text", f'"{key}"', _text_help(job.get(key), key))
    start, script = job.get("start"), job.get("script")
    yield start and not_whole(start, "start")
    yield not_of_kind(script, "list", '"script"', f"write [ {_ENTRY} ]")
    yield from map(_entry_cause, script.items(_SHAPED))


def _text_help(node, key):
    """What to write in place of a value that is no text."""
    if key == "schedule" and node.kind == "object":
        return 'write the schedule as one text, as "(exponential(100) && recurs(5))"'
    if key == "schedule" and node.kind == "list":
        delays = [item.whole() for item in node.items()]
        if not 1 <= len(delays) <= 4 or None in delays:
            return 'write one text; docs/RECIPES.md has "A list of delays"'
        *firsts, last = [f"(recurs(1) && spaced({delay}))" for delay in delays]
        whole = "".join(f"({it} andThenEither " for it in firsts) + last + ")" * len(firsts)
        return f'write "{whole}"'
    if key == "name" and node.kind == "number":
        return f'write "{shown(node.source)}"'
    examples = {"name": '"poll-queue"', "mode": '"retry" or "repeat"', "schedule": '"recurs(3)"'}
    return f"write {examples[key]}"


def _entry_cause(entry):
    """The cause of an entry of a wrong shape, or None."""
    if entry.kind != "object":
        return not_of_kind(entry, "object", "the entry", f"write {_ENTRY}")
    ms, ok, err = (entry.get(key) for key in ENTRY_KEYS)
    if not ms:
        return missing(entry, "ms", "the entry", ENTRY_KEYS)
    if not ok and not err:
        return first(misnamed(entry, key, "the entry", ENTRY_KEYS) for key in ("ok", "err")) or Cause(
            entry.at, 1, 'the entry has neither "ok" nor "err"', 'write "ok": 1 for a success, "err": 1 for an error')
    if ok and err:
        return over(entry, 'the entry has "ok" and "err"', "leave one out: an attempt ends in one way")
    return first(value and not_whole(value, key) for key, value in zip(ENTRY_KEYS, (ms, ok, err)))


def job_keys(job):
    """The causes of keys that aren't in the table, of a job and its entries."""
    yield from unknown_keys(job, "a job", JOB_KEYS)
    for entry in job.get("script").items(_SHAPED):
        yield from unknown_keys(entry, "an entry", ENTRY_KEYS)


def mode(job):
    """The mode is one of the two."""
    node = job.get("mode")
    said = node.string()
    like = next((of for of, words in _MODES.items() if said.lower() in words), None)
    meant = near(said.strip(), list(_MODES)) or like
    both = 'write "retry" (again after each error) or "repeat" (again after each success)'
    return over(node, f'there is no mode "{shown(said)}"', f'did you mean "{meant}"?' if meant else both)


def name(job):
    """A name has 1 to 64 bytes of the allowed ones."""
    node = job.get("name")
    said = node.string()
    better = re.sub(r"[^A-Za-z0-9._-]+", "-", said[:MAX_NAME + 1]).strip("-")[:MAX_NAME]
    help = f'write "{better}"' if better else "write a name of letters, digits, - _ and ."
    if not said:
        return over(node, "the name is empty", help)
    if odd := re.search(r"[^A-Za-z0-9._-]", said):
        at = node.place_in(odd.start())
        what = "a name can't contain a space" if odd[0] == " " else f"a name can't contain {shown(odd[0])}"
        return Cause(at, node.place_in(odd.end()) - at, what, f"{help}: letters, digits, - _ and . are allowed")
    return over(node, f"the name has {len(said)} bytes, and at most {MAX_NAME} are allowed", help)


def same_name(jobs, job):
    node, text = job.get("name"), job.document.text
    said = node.string()
    # A job whose text has neither the name nor an escape isn't parsed.
    first_one = next(other.get("name") for other in jobs.items() if (said in (source := other.source) or "\\" in source)
                     and other.get("name").string() == said)
    line = line_of(text, first_one.at)
    taken = set(re.findall(rf'"{re.escape(said[:58])}-([0-9]++)"', text))
    free = next(f"{said[:58]}-{number}" for number in range(2, 10002) if str(number) not in taken)
    return over(node, f"the job of line {line} has this name too", f'write another name, as "{free}"')


def script_fault(job, cause):
    script = job.get("script")
    if cause == "empty":
        return over(script, "the script is empty", f"write an entry for each attempt, as [ {_ENTRY} ]")
    if cause.startswith("more than"):
        extra = next(entry for number, entry in enumerate(script.items()) if number == MOST_ENTRIES)
        return Cause(extra.at, 1, f"this is one entry more than {MOST_ENTRIES}", "remove it: the last entry repeats")
    for entry in script.items(_TIMED):
        ms = entry.get("ms")
        if ms.whole() == 0:
            return over(ms, "this attempt takes 0 ms", "write 1 or more: an attempt takes time")
    return None


def schedule_fault(job, cause):
    """The cause of a schedule's fault, at its place in the plan."""
    node = job.get("schedule")
    text = node.string()
    found = schedule_text.cause_of(text, cause) or schedule_rules.cause_of(text, cause)
    if not found:
        return over(node, "the fault is in this schedule")
    at = node.place_in(found.at)
    return found._replace(at=at, size=node.place_in(found.at + found.size) - at)


# The cause of each fault of a document, and of a job: by the plan, and by the list of jobs and the job.
DOCUMENT_FAULTS = {"wrong shape": lambda plan: first(plan_shape(plan)),
                   "out of range": lambda plan: first(plan_ranges(plan)),
                   "unknown key": lambda plan: first(unknown_keys(plan, "the plan", DOCUMENT_KEYS))}
JOB_FAULTS = {"wrong shape": lambda _, job: first(job_shape(job)), "unknown key": lambda _, job: first(job_keys(job)),
              "out of range": lambda _, job: mode(job), "bad name": lambda _, job: name(job),
              "name used before": same_name}
