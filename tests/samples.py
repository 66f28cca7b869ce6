"""Small inputs of the tools, from tests/cases: each with the command that reads it and its format. `with_others` makes
inputs of them in which one or some values are others of the same format."""
import re

from case_files import unpacked

MOST_BYTES, MOST_OF_A_KIND = 2500, 12
_FORMS = {"json": "json", "jsonl": "json", "yaml": "yaml", "yml": "yaml", "toml": "toml", "csv": "csv", "tsv": "csv",
          "py": "python", "java": "java", "ini": "ini", "env": "ini", "properties": "properties", "report": "report"}
LOG = ["--schedule", "recurs(3)", "--errors-from", "1"]
# A value in a text of a format: what is in quotes, or a word.
_VALUE = {"csv": r"[^,;\t\n]+", "report": r"[^ \n]+", "ini": r"[^=\s\[\]][^=\n\[\]]*", "properties": r"[^=:\s][^=:\n]*"}
_WORD = r""""(?:[^"\\\n]|\\.)*"|'[^'\n]*'|[\w.+%-]+"""


def words(tool, path):
    """The words of the command that reads a file."""
    return {"policy": ["import", path], "follows": [path, *LOG], "plan": ["from", path], "explain": [path],
            "outage": [path], "report": ["from-lines" if path.suffix == ".jsonl" else "summary", path]}[tool]


def _is_log(path):
    return path.suffix in (".csv", ".tsv", ".jsonl") or (path.suffix == ".json" and path.parts[-3] == "zsched-follows")


def samples():
    """Pairs of a tool and a file."""
    for tool in ["policy", "follows", "plan", "explain", "outage", "report"]:
        files = sorted(unpacked(f"zsched-{tool}").glob("*/*.*"))
        files = [it for it in files if it.suffix[1:] in _FORMS and it.stat().st_size < MOST_BYTES
                 and places(form_of(it), it.read_text("utf-8", "replace"))]
        for suffix in sorted({it.suffix for it in files}):
            yield from ((tool, it) for it in [it for it in files if it.suffix == suffix][:MOST_OF_A_KIND])


def form_of(path):
    return _FORMS[path.suffix[1:]]


def command_of(tool, path):
    """The words after the tool's name."""
    more = LOG if tool == "plan" and _is_log(path) else []
    return [*words(tool, path), *more]


def places(form, text):
    """The places of the values of a text."""
    return [it.span() for it in re.finditer(_VALUE.get(form, _WORD), text)]


def with_others(text, others):
    """The text with other values at some places, which are apart."""
    for (begin, end), value in sorted(others.items(), reverse=True):
        text = text[:begin] + value + text[end:]
    return text
