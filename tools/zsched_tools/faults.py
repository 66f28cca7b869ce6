"""The place of the fault that the program reports, and what is wrong there, by the rules of docs/FORMATS.md."""
import functools
import itertools
import re
from typing import NamedTuple

from zsched_tools import json_reading
from zsched_tools.place import Cause
from zsched_tools.plan_faults import DOCUMENT_FAULTS, JOB_FAULTS, schedule_fault, script_fault
from zsched_tools.positions import Document
from zsched_tools.program import MAX_BYTES


class Explained(NamedTuple):
    """A fault's Cause, in the text of its plan. The number and the name of its job are None if it is in no job."""
    text: str
    cause: Cause
    job: int | None = None
    name: str | None = None


class Plan:
    """A plan's bytes as a text, and what the scan found so far. `no_utf8` is the first place that isn't UTF-8."""

    def __init__(self, data):
        self.data = data
        try:
            self.text, self.no_utf8 = data.decode(), None
        except UnicodeDecodeError as bad:
            self.text, self.no_utf8 = data.decode(errors="replace"), len(data[:bad.start].decode())

    @functools.cached_property
    def no_json(self):
        """The Cause if the text is not JSON, else None."""
        return json_reading.fault_of(self.text)

    @functools.cached_property
    def root(self):
        """The value of the text, if it is JSON."""
        return Document(self.text).root()


def explained(plan, fault):
    """The place and the cause of a fault, from a Plan and the program's message without 'zsched: '."""
    data, text = plan.data, plan.text
    if fault.startswith("plan is longer than"):
        at = len(data[:MAX_BYTES].decode(errors="ignore"))
        what = f"{MAX_BYTES} bytes end here, and a plan has no more"
        return Explained(text, Cause(at, 0, what, "make plans of fewer jobs"))
    if fault == "plan is not JSON":
        if plan.no_utf8 is not None:
            return Explained(text, json_reading.no_utf8(data, text, plan.no_utf8))
        found = plan.no_json or _unknown(0)
        return Explained(text, json_reading.other_text(text, found.at) or found)
    root, of_job = plan.root, re.fullmatch(r"job (\d+): (?:(\w+): )?(.+)", fault)
    if not of_job:
        found = DOCUMENT_FAULTS.get(fault.removeprefix("plan: "))
        return Explained(text, found and found(root) or _unknown(root.at))
    number, part, cause = of_job.groups()
    job = next(itertools.islice(root.get("jobs").items(), int(number), None))
    of_part = {"schedule": schedule_fault, "script": script_fault}.get(part)
    found = of_part(job, cause) if of_part else JOB_FAULTS[cause](root.get("jobs"), job)
    name = job.get("name") if job.kind == "object" else None
    name = name.string() if name and name.kind == "text" else None
    return Explained(text, found or _unknown(job.at), int(number), name)


def _unknown(at):
    """The Cause of a fault that these rules don't find."""
    return Cause(at, 1, "the fault is in here")
