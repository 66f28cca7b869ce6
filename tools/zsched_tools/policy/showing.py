"""What a check of policies found: as a table, as an object of JSON, as SARIF, and as annotations of GitHub."""
import json
import os
import sys
import urllib.parse

from zsched_tools import bounding, command
from zsched_tools.policy import saying, walking
from zsched_tools.policy.checking import RULES
from zsched_tools.settings import shown_value
from zsched_tools.trials import every_input
from zsched_tools.words import plural, shown, table

HEAD = ["place", "policy", "what it does", "attempts", "longest wait", "all waits", "end", "not applied"]
SCHEMA = "https://json.schemastore.org/sarif-2.1.0.json"


def _row(it):
    latest, is_cut = it.bounds.latest()
    end = "–" if latest is None else bounding.rounded(latest) + " by its limit" * is_cut
    left_out = ", ".join(f"{name}: {shown(shown_value(value))}" for name, value in it.policy.refused("bound").items())
    return [f"{it.path}:{it.found.line}:{it.found.column}", it.found.name,
            saying.retries_of(it.policy, it.bounds, it.waits), bounding.mark(it.bounds) + it.bounds.cells()[0],
            *it.bounds.cells()[1:], end, left_out]


def show(check, given):
    """Prints the table, then how many files were searched, and on standard error what is wrong."""
    paint = command.Paint(given.color, sys.stdout)
    cells = [HEAD, *map(_row, check.policies)] if check.policies else []
    most = len(HEAD) if any(row[-1] for row in cells[1:]) else len(HEAD) - 1
    rows = list(table([row[:most] for row in cells], most)) if cells else []
    for number, line in enumerate(rows):
        broken = [] if number == 0 else check.policies[number - 1].broken
        print(paint("faint" if number == 0 else "bad" if any(it.reason is None for it in broken) else "", line))
    print(*_summary(check, given), sep="\n")
    sys.stdout.flush()
    for it in check.findings:
        if it.reason is not None:
            command.note(f"{it.words()}; ignored: {it.reason}", "zsched-policy")
    for it in check.wrong():
        print(f"zsched-policy: {it.words()}", file=sys.stderr)


def _summary(check, given):
    """How many policies and files there are, and which limits hold."""
    without = sum(not check.has_limit(it) for it in check.policies)
    wrong, ignored = len(check.wrong()), len(check.findings) - len(check.wrong())
    yield f"{_many(len(check.policies), 'policy', 'policies')} in {plural(check.with_policies, 'file')}" + (
        f", {without} without a limit" * bool(without)) + f"; {_many(wrong, 'finding')}" + f", {ignored} ignored" * (
        ignored > 0)
    left = "".join(f"; {count} left out: {rule}" for rule, count in sorted(check.files.items()))
    unread = len({it.path for it in check.findings if it.rule == "unreadable" and it.name is None})
    yield f"{plural(check.searched, 'file')} searched, {unread} unreadable{left}"
    number = len(check.mentions)
    where = " (--list names them)" if number and not given.list else ":" * bool(number)
    yield _many(number, "file mentions retries and isn't", "files mention retries and aren't") + f" understood{where}"
    if given.list:
        yield from (f"  {shown(path, 400)}:{it.line}: {shown(it.word)}" for path, it in check.mentions.items())


def _many(number, one, many=None):
    return f"{number} {one if number == 1 else many or one + 's'}"


def as_object(check):
    """All as one object of JSON."""
    return {"policies": [{
        "path": it.path, "line": it.found.line, "column": it.found.column, "name": it.found.name,
        "format": it.found.form, "schedule": it.policy.waits, "drawn": it.policy.draws,
        "sentence": saying.sentence(it.policy, it.bounds, it.waits), "for_every_input": every_input(it.bounds),
        "holds_for": it.driver.members(), **it.policy.limits(),
        "limits_asked": {key: list(value) if isinstance(value, tuple) else value for key, value in it.limits.items()}}
        for it in check.policies],
        "findings": [{"rule": it.rule, "path": it.path, "line": it.line, "column": it.column, "policy": it.name,
                      "text": it.text, "ignored": it.reason} for it in check.findings],
        "files": {"searched": check.searched, "with_policies": check.with_policies, "left_out": check.files,
                  "not_understood": [{"path": path, "line": it.line, "word": it.word}
                                     for path, it in check.mentions.items()]}}


def _in_checkout(path, top):
    """The path of a file from the folder of the checkout, with slashes."""
    return os.path.relpath(os.path.abspath(path), top).replace(os.sep, "/")


def sarif(check):
    """The findings as SARIF 2.1.0. Paths are those from the folder of the checkout."""
    top, rules = walking.folder_of_checkout("."), list(RULES)

    def result(it):
        region = {"startLine": it.line, **({"startColumn": it.column} if it.column else {})}
        uri = urllib.parse.quote(os.fsencode(_in_checkout(it.path, top)))
        found = {"ruleId": it.rule, "ruleIndex": rules.index(it.rule), "level": "error",
                 "message": {"text": it.what()},
                 "locations": [{"physicalLocation": {"artifactLocation": {"uri": uri}, "region": region}}]}
        return found if it.reason is None else found | {
            "suppressions": [{"kind": "external", "justification": it.reason}]}
    driver = {"name": "zsched-policy", "version": command.version(),
              "rules": [{"id": name, "shortDescription": {"text": text}} for name, text in RULES.items()]}
    return json.dumps({"$schema": SCHEMA, "version": "2.1.0", "runs": [
        {"tool": {"driver": driver}, "columnKind": "unicodeCodePoints", "results": list(map(result, check.findings))}]},
        indent=1) + "\n"


def annotate(check):
    """Prints the findings as annotations, if GitHub runs this."""
    if os.environ.get("GITHUB_ACTIONS") == "true":
        top = walking.folder_of_checkout(".")
        for it in check.wrong():
            column = {"col": it.column} if it.column else {}
            command.annotation("error", it.what(), file=_in_checkout(it.path, top), line=it.line, **column,
                               title=f"zsched-policy {it.rule}")
