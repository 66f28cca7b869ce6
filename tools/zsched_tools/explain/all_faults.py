"""All faults of a plan, one after another: each fault found is mended in a copy, and the program runs on the copy.

A job with a fault becomes one without a fault, and a key or a number of the document is removed or replaced. The
replacement has the same number of lines, so line numbers in causes remain those of the plan."""
import itertools
import json

from zsched_tools.faults import Plan, explained

_GOOD = {"workers": "1", "grain": "1", "horizon": "0", "ticks": "[0]"}


class Mended:
    """A plan's text with pieces of it replaced, in order: each from one place to another, by a text."""

    def __init__(self, text):
        self.text = text
        self.pieces = []

    def replace(self, begin, end, text):
        """Replaces a piece, between places of the mended text; pieces inside of it are dropped. Returns True."""
        begin, end = self.place(begin), self.place(end - 1) + 1
        text += "\n" * self.text.count("\n", begin, end)
        self.pieces = sorted([it for it in self.pieces if it[1] <= begin or it[0] >= end] + [(begin, end, text)])
        return True

    def made(self):
        parts, here = [], 0
        for begin, end, text in self.pieces:
            parts += [self.text[here:begin], text]
            here = end
        return "".join([*parts, self.text[here:]])

    def place(self, at):
        """The place of the plan for a place of the mended text. A place in what was put in is that of the piece."""
        moved = 0
        for begin, end, text in self.pieces:
            if at < begin + moved:
                break
            if at < begin + moved + len(text):
                return begin
            moved += len(text) - (end - begin)
        return at - moved


def all_faults(refusal, data, most):
    """The faults of a plan's bytes, at most `most`, as pairs of the program's line and an Explained. `refusal` runs the
    program on bytes and returns its status and line. A fault that hides all others is the last."""
    mended = None
    for _ in range(most):
        plan = Plan(mended.made().encode() if mended else data)
        status, line = refusal(plan.data)
        if status != 2:
            return
        found = explained(plan, line.strip().removeprefix("zsched: "))
        if plan.no_utf8 is None and mended is None:
            mended = Mended(plan.text)
        if mended is None:
            yield line, found
            return
        at = mended.place(found.cause.at)
        yield line, found._replace(text=mended.text, cause=found.cause._replace(at=at))
        if "plan is" in line or not _mend(mended, plan, found):
            return


def _mend(mended, plan, found):
    """Mends a fault that was found in a Plan, which is the mended text so far. Returns whether that is possible."""
    if found.job is not None:
        job = next(itertools.islice(plan.root.get("jobs").items(), found.job, None))
        good = {"name": f"mended.{found.job}", "mode": "retry", "schedule": "forever", "script": [{"ms": 1, "ok": 1}]}
        return mended.replace(job.at, job.end, json.dumps(good))
    if plan.root.kind != "object":
        return False
    members = list(plan.root.members())
    for number, (name, value) in enumerate(members):
        if name.at == found.cause.at and name.string() not in [*_GOOD, "jobs"]:
            # The member goes with the comma after it, or before it if it is the last one.
            begin, end = name.at, plan.text.find(",", value.end) + 1
            if number == len(members) - 1:
                comma = plan.text.rfind(",", 0, begin)
                is_after = comma >= 0 and not plan.text[comma + 1:begin].strip()
                begin, end = comma if is_after else begin, value.end
            return mended.replace(begin, end, "")
        if value.at <= found.cause.at < value.end and name.string() in _GOOD:
            return mended.replace(value.at, value.end, _GOOD[name.string()])
    return False
