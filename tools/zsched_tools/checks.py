"""What the options --max-.. and --require-.. ask of policies, and which of it doesn't hold, in words."""
import sys

from zsched_tools import bounding, command
from zsched_tools.attempts import time
from zsched_tools.settings import not_covered
from zsched_tools.words import duration, plural

# What --require-end takes for the limit of the call in a policy's config.
OWN = "@"
# The limits of every run, as options and .zsched.toml name them.
LIMITS = "attempts", "wait", "waits", "end"


def end(word):
    """The time that --require-end takes."""
    return OWN if word == OWN else time(0)(word)


def exceeded(given, policy, found):
    """The limits of a run that it exceeds, in words. None is a run that can't be drawn."""
    if found is None:
        if any(getattr(given, name) is not None for name in ("max_wait", "max_end", "max_attempts")):
            yield "no run is drawn, so no --max-.. holds for it"
        return
    has_end = found.how != "unfinished" and not (policy.is_cut and found.how in ("failed", "finished"))
    if given.max_wait is not None and found.longest > given.max_wait:
        yield f"longest wait {duration(found.longest)}, over --max-wait {duration(given.max_wait)}"
    if given.max_end is not None and not (has_end and found.at <= given.max_end):
        words = "end at" if has_end else "no end up to"
        yield f"{words} {duration(found.at)}, over --max-end {duration(given.max_end)}"
    if given.max_attempts is not None and not (has_end and found.attempts <= given.max_attempts):
        more = "" if has_end else " and more"
        yield f"{found.attempts} attempts{more}, over --max-attempts {given.max_attempts}"


def not_proved(given, bounds, policy, *policies, before="--require-"):
    """The required bounds of a policy that aren't proved, in words; of layers those of the whole. `before` is what is
    before the name of each."""
    every, total = bounds.limits()
    no_wait = "no limit " + (f"after the first {plural(bounds.seen, 'wait')}" if bounds.has_first() else "of each wait")
    for name, found, known, words, without in [
            ("attempts", bounds.most, bounds.most, "up to {}", "no limit of attempts"),
            ("wait", bounds.every, every, "waits of up to {}", no_wait),
            ("waits", bounds.total, total, "waits of up to {} in all", "no limit of waits"),
            ("end", bounds.run, bounds.call(), "a call of up to {}", "no limit of the whole call")]:
        limit = getattr(given, f"require_{name}")
        limit, (latest, is_cut) = (policy.deadline, (None, False)) if limit == OWN else (limit, bounds.latest())
        if name == "end" and limit is not None and is_cut and latest <= limit:
            if given.allow_unproved:
                continue
            shown = f"{words.format(bounding.rounded(latest))}, by the call's limit (--allow-unproved accepts it)"
        elif limit is not None and (found is None or found > limit):
            shown = without if None in (found, known) else words.format(
                plural(found, "attempt") if name == "attempts" else bounding.rounded(found))
        elif limit is not None and not given.allow_unproved and (
                not bounds.is_proved or name == "attempts" and bounds.is_product):
            is_argued = any(it.is_argued for it in (policy, *policies))
            what = "what holds for draws of a part" if is_argued else (
                "the product of the attempts of layers" if bounds.is_proved else "zsched-bounds")
            shown = f"{what} is unproved (--allow-unproved accepts it)"
        else:
            continue
        yield f"{before}{name} {limit if name == 'attempts' else duration(limit)} is not proved: {shown}"


def covered(tool, given, policies, *parts):
    """Says what checks don't cover, if there are any. Returns the status."""
    checks = [name for name, value in vars(given).items() if name[:4] in ("max_", "requ") and value is not None]
    asked = {"max_": parts[0], "requ": parts[-1]}
    lines = not_covered(given.allow_left_out, policies, *dict.fromkeys(asked[it[:4]] for it in checks))
    sys.stdout.flush()
    for line in lines if checks else ():
        print(f"{tool}: {line}", file=sys.stderr)
    return command.NO if checks and lines else 0
