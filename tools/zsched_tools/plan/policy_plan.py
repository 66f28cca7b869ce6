"""A policy file's values as those of a plan: durations and scripts in words, names that a plan
allows, and the defaults of the file for a job's keys."""
import re

from zsched_tools.durations import exact_milliseconds
from zsched_tools.hints import JOB_KEYS
from zsched_tools.place import Cause, FaultAt
from zsched_tools.plan.placed import Raw, Value, key
from zsched_tools.policy.reading import LONGEST
from zsched_tools.program import MOST_ENTRIES
from zsched_tools.words import shown

LONGEST_NAME = 64
DEFAULTS = ("mode", "start", "script")
_ALLOWED = re.compile(rf"[A-Za-z0-9._-]{{1,{LONGEST_NAME}}}")
_ATTEMPT = re.compile(r"(.*\S)\s++(ok|err)\s++([0-9]{1,19})(?:\s*+[x×]\s*+([0-9]{1,4}))?")
_AN_ATTEMPT = "write 40 err 503 or 35ms ok 200, and x3 for three"


def whole(length, unit, place, notes):
    """A length of time as whole milliseconds, for an attempt: 1 at least. A change is noted."""
    rounded = int(2 * length + 1) // 2
    if rounded < 1:
        notes.add("short", place, f"{unit} became 1 ms, the least that an attempt takes")
        return 1
    if rounded != length:
        notes.add("rounded", place, f"{unit} became {rounded} ms")
    return rounded


class Names:
    """Names that a plan allows, made from any texts. No name is returned twice. `taken` are those in use."""

    def __init__(self, notes):
        self.notes, self.taken, self.numbers = notes, set(), {}

    def clean(self, said, place):
        """The name of a text."""
        plain = re.sub(r"[^A-Za-z0-9._-]+", "-", said).strip("-")[:LONGEST_NAME] or "job"
        name, number = plain, self.numbers.get(plain, 1)
        while name in self.taken:
            number = self.numbers[plain] = number + 1
            name = f"{plain[:LONGEST_NAME - 1 - len(str(number))]}-{number}"
        self.taken.add(name)
        if name != said:
            self.notes.add("name", place, f'the name "{shown(said)}" became {name}')
        return name


def is_allowed(name):
    return _ALLOWED.fullmatch(name) is not None


def duration(value, notes=None):
    """A duration in words or with a fraction as whole milliseconds; other values are unchanged.
    With `notes` it is that of an attempt, which takes 1 at least."""
    if isinstance(value.data, bool) or not isinstance(value.data, (int, str)):
        return value
    if (length := exact_milliseconds(str(value.data))) is None:
        return value
    if notes is None:
        return value if length.denominator != 1 else value._replace(data=int(length))
    unit = f"{value.data} ms" if isinstance(value.data, (int, Raw)) else shown(value.data)
    return value._replace(data=whole(length, unit, value.at, notes))


def _entries_in_words(value, notes):
    """The entries of a script as `40 err 503 x3, 35 ok 200`."""
    if len(value.data) > LONGEST:
        raise FaultAt(Cause(value.at, 1, f"this script has more than {LONGEST} characters"))
    found, begin = [], 0
    for part in value.data.split(","):
        at, size = value.part(begin, begin + len(part))
        words = _ATTEMPT.fullmatch(part.strip())
        length = words and exact_milliseconds(words[1])
        if length is None:
            raise FaultAt(Cause(at, size, f'"{shown(part.strip())}" is not an attempt', _AN_ATTEMPT))
        _, outcome, code, times = words.groups()
        if not 1 <= int(times or 1) <= MOST_ENTRIES - len(found):
            raise FaultAt(Cause(at, size, f"a script has 1 to {MOST_ENTRIES} attempts"))
        ms = whole(length, words[1] + ("" if re.search("[a-zµ]", words[1]) else " ms"), at, notes)
        entry = {key("ms", at): Value(ms, at), key(outcome, at): Value(int(code), at)}
        found += [Value(entry, at)] * int(times or 1)
        begin += len(part) + 1
    return value._replace(data=found, inside=None)


def script(value, notes):
    """A script as entries with whole milliseconds; what is no script is unchanged."""
    if isinstance(value.data, str) and not isinstance(value.data, Raw):
        return _entries_in_words(value, notes)
    if not isinstance(value.data, list):
        return value
    entries = []
    for entry in value.data:
        if isinstance(entry.data, dict) and "ms" in entry.data:
            names = {name: duration(item, notes) if name == "ms" else item for name, item in entry.data.items()}
            entry = entry._replace(data=names)
        entries.append(entry)
    return value._replace(data=entries)


def _job(value, defaults, names):
    """A job with the defaults, whole durations and a name that a plan allows."""
    if not isinstance(value.data, dict):
        return value
    given = {**value.data, **{name: it for name, it in defaults.items() if name not in value.data}}
    if "start" in given:
        given["start"] = duration(given["start"])
    if "script" in given:
        given["script"] = script(given["script"], names.notes)
    name = given.get("name")
    if name is not None and type(name.data) is str and not is_allowed(name.data):
        given["name"] = Value(names.clean(name.data, name.at), name.at)
    order = {name: number for number, name in enumerate(JOB_KEYS)}
    return value._replace(data=dict(sorted(given.items(), key=lambda item: order.get(item[0], len(order)))))


def _jobs(listed, defaults, notes):
    """The jobs of a list, of which no two may have one name. `defaults` has the values of keys that a job lacks."""
    names, found = Names(notes), set()
    for job in listed:
        name = job.data.get("name") if isinstance(job.data, dict) else None
        if name is None or type(name.data) is not str:
            continue
        if name.data in found:
            what = f'a job before it is named "{shown(name.data)}" too'
            raise FaultAt(Cause(name.at, 1, what, "write another name"))
        found.add(name.data)
        if is_allowed(name.data):
            names.taken.add(name.data)
    return [_job(job, defaults, names) for job in listed]


def _policy_jobs(policies):
    """A job for each name of the table `policies`, whose values are schedules."""
    if not isinstance(policies.data, dict):
        raise FaultAt(Cause(policies.at, 1, "policies must be a table of names and schedules",
                            "write a line for each, as payments: recurs(3)"))
    return [Value({key("name", name.at): Value(str(name), name.at, name.at),
                   key("schedule", name.at): schedule}, name.at)
            for name, schedule in policies.data.items()]


def plan_of(root, until, notes):
    """The plan of a file. If it has neither horizon nor ticks, `until` is the horizon."""
    if not isinstance(root.data, dict):
        raise FaultAt(Cause(root.at, 1, "the file must be a table of keys", "write horizon: 60000"))
    if not {"jobs", "policies"} & set(root.data):
        raise FaultAt(Cause(root.at, 1, 'the file has no "jobs" and no "policies"',
                            "write policies: {checkout: recurs(3)}; zsched-policy import reads configs of other "
                            "programs"))
    given = {name: value for name, value in root.data.items() if name not in DEFAULTS}
    defaults = {key("mode", root.at): Value("retry", root.at)}
    defaults.update((name, value) for name, value in root.data.items() if name in DEFAULTS)
    listed = _policy_jobs(given["policies"]) if "policies" in given else []
    jobs = given.pop("jobs", Value([], root.at) if given.pop("policies", None) else None)
    if jobs is not None and isinstance(jobs.data, list):
        jobs = jobs._replace(data=_jobs(listed + jobs.data, defaults, notes))
    if "horizon" in given:
        given["horizon"] = duration(given["horizon"])
    elif "ticks" not in given:
        given[key("horizon", root.at)] = Value(until, root.at)
    if jobs is not None:
        given[key("jobs", jobs.at)] = jobs
    return root._replace(data=given)
