"""The texts of faults, which docs/play.html has too, and what the user may have meant: similar words, and names of ZIO
that a plan spells differently."""
import base64
import difflib
import functools
import hashlib
import json
import pathlib
import re

_HERE = pathlib.Path(__file__).resolve()
PAGES = [_HERE.parents[2] / "docs" / "play.html", _HERE.parents[1] / "play.html"]
DOCUMENT_KEYS = ["horizon", "ticks", "workers", "grain", "jobs"]
JOB_KEYS = ["name", "mode", "schedule", "start", "script"]
ENTRY_KEYS = ["ms", "ok", "err"]


@functools.cache
def page():
    """docs/play.html, in the tree or in the package."""
    return next(place for place in PAGES if place.is_file()).read_text(encoding="utf-8")


def script_sources(text):
    """The scripts that the policy of a page allows: those that its text has, by their hashes."""
    found = re.findall(r"<script(?: id=[^>]*)?>(.*?)</script>", text, re.S)
    hashes = [base64.b64encode(hashlib.sha256(it.encode()).digest()).decode() for it in found]
    return " ".join(f"'sha256-{it}'" for it in hashes)


# What is built into docs/play.html, by the ids of its elements: the texts of faults, and what they are about; and the
# script and the style of pictures, which reports have too.
PIECES = {name: _HERE.with_name(file).read_text(encoding="utf-8") for name, file in [
    ("texts", "texts.json"), ("drawing", "drawing.js"), ("drawing-style", "drawing.css")]}
TABLE = json.loads(PIECES["texts"])


def said(name, **values):
    """A text of the table with its values; another text as it is."""
    return re.sub(r"\{([a-z_]+)\}", lambda found: str(values.get(found[1], TABLE["texts"].get(found[1], found[0]))),
                  TABLE["texts"].get(name, name))


BARE_LEAVES, NUMBERED_LEAVES, METHODS, OPERATORS, COMPARISONS = (
    said(name).split(", ") for name in ["bare", "numbered", "methods", "operators", "comparisons"])
LEAVES = BARE_LEAVES + NUMBERED_LEAVES

# What to write for names of ZIO and other words that a schedule doesn't have, and for symbols, the longest first.
ZIO, SYMBOLS = ({name: said(help) for help, names in TABLE[key] for name in names.split()}
                for key in ["zio", "symbols"])
_IN_ANY_CASE = {name.lower(): help for name, help in ZIO.items()}


def near(word, words):
    """The word of `words` that is most similar to this one, or None if no word is similar."""
    if len(word) > 40:
        return None
    plain = {known.lower(): known for known in words}
    found = difflib.get_close_matches(word.lower().replace("_", "").replace("-", ""), plain, 1, 0.65)
    return plain[found[0]] if found else None


def zio(word):
    """What to write for a name of ZIO, in capitals or not; also for one that ends in ZIO or M, whose function is an
    effect. None if the word is no such name."""
    if word.lower() in _IN_ANY_CASE:
        return _IN_ANY_CASE[word.lower()]
    base = re.sub(r"(ZIO|M)$", "", word)
    return ZIO["run"] if base != word and (base in ZIO or base in METHODS) else None
