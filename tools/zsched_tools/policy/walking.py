"""The files of folders in which policies may be: those of git, where there is a checkout. Each is searched for a key, a
call or an import that a reader of policies knows, and for the words of retries in other languages."""
import bisect
import functools
import os
import pathlib
import re
import shutil
import stat
import subprocess
import unicodedata
from typing import NamedTuple

from zsched_tools import command
from zsched_tools.command import Unread
from zsched_tools.policy import libraries, limits, profiles, reading, services
from zsched_tools.words import shown

# The keys of which each policy in a config has one, as `reading.plain` has them; and a filter of Spring's gateway.
_NAMES = {"methodconfig", "retrypolicy", "retries", "resilience4j", "maxretryattempts", "backofftype", "usejitter",
          "retrymode", "awsretrymode", "awsmaxattempts", "errorequals", *services.PROBES, *services.ACTIVITY,
          *services.TEMPORAL, *libraries.COUNT, *libraries.FACTOR, *libraries.MOST}
_KEY = re.compile(rf"(?<![a-z0-9])(?:{'|'.join(sorted(_NAMES))})[\"'\]]*+(?:\[[0-9]++\])?(?:\s*+[:=.]|[ \t])")
_KINDS = ("job", "virtualservice")
_KIND = re.compile(r"(?<![a-z0-9])kind[\"']?\s*+[:=]\s*+[\"']?(?:(?:cron)?job|virtualservice)\b")
_FILTERS = re.compile(r"(?<![a-z0-9])(?:default)?filters\b"), re.compile(r"(?<![a-z0-9])retry\b")
# How a source shows that it uses a library: words of which it has one, and a pattern.
_PYTHON = ("tenacity", "backoff", "botocore", "aiobotocore", "celery", "urllib3", "requests")
_SOURCES = {"python": ((*_PYTHON, "autoretry_for"), re.compile(
    rf"(?:^|[;:])[^\S\n]*+(?:from|import)\b[^\n]*\b(?:{'|'.join(_PYTHON)})\b|\bautoretry_for\b", re.M)),
    "java": (("RetryConfig", "IntervalFunction", "Retryable"), re.compile(
        r"\b(?:RetryConfig|IntervalFunction|Retryable)\b")),
    "typescript": (("effect",), re.compile(r"[\"']effect(?:/Schedule)?[\"']")),
    "scala": (("zio", "retry"), re.compile(
        r"(?:^|;)[^\S\n]*+import\b[^;\n]*\b(?:zio|retry)\b|\bzio\.Schedule\.", re.M))}
# Why a file isn't searched.
ENDING, NO_FILE = "another type of file", "a link or no file"
# Files of this name have no ending, and the SDKs of AWS read them in this folder.
_AWS = ".aws", ("config", "credentials")
_YAML = ("yaml", "yml")
# What git says of a folder that it can't list.
_UNLISTED = re.compile(r"warning: could not open directory '(.*)': (.*)")
# A file is searched up to this size.
MOST_BYTES = 1 << 26
# A letter of ASCII as an escape of JSON, YAML or Python, and the end of a line that goes on.
_ESCAPE, _JOINED = re.compile(r"\\(?:x|u00|U000000)([2-7][0-9A-Fa-f])"), re.compile(r"\\\r?\n")
# What has to follow a word of the table that ends with =: a number, a list, a table, a reference, or lines below.
_VALUE = r"[\"']?[^\S\n]*+[:=][^\S\n]*+(?:[\"']?[1-9.$]|[\[{&*]|(?:#[^\n]*+)?$)"


class Mention(NamedTuple):
    """Where a file mentions retries: the line, from 1, and the word as it is there."""
    line: int
    word: str


@functools.cache
def _words():
    """For the ending of a file's name, the words by which its language shows that it retries, without - and _ and
    capitals, and their pattern. In the table a word may go on where it has a *, and has a value where it has a =."""
    found = {}
    table = pathlib.Path(__file__).with_name("mentions.tsv").read_text(encoding="utf-8")
    for _, endings, words in (line.split("\t") for line in table.splitlines()):
        for ending in endings.split():
            found.setdefault(ending, []).extend(words.split())
    return {ending: ({it.rstrip("*=") for it in words}, re.compile(
        rf"(?<!\w)({'|'.join(map(_form, words))})", re.M)) for ending, words in found.items()}


def _form(word):
    name = re.escape(word.rstrip("*="))
    return name + ("\\w*+" if "*" in word else "(?!\\w)") + f"(?={_VALUE})" * word.endswith("=")


def ending_of(path):
    return os.path.basename(path).rpartition(".")[2].lower()


def is_known(path):
    """Whether a reader of policies knows files of this name."""
    folder, name = os.path.split(os.path.abspath(path))
    return ending_of(path) in reading.KINDS or os.path.basename(folder) == _AWS[0] and name in _AWS[1]


@functools.lru_cache(maxsize=1)
def _plain(text):
    return text.lower().replace("-", "").replace("_", "")


def has_mark(path, text):
    """Whether a file may have a policy that a reader knows."""
    kind = reading.kind_of(path, text)
    if kind in _SOURCES:
        words, form = _SOURCES[kind]
        return any(it in text for it in words) and form.search(_JOINED.sub(" ", text)) is not None
    text = _plain(text)
    return profiles.is_of_profile(path) or any(it in text for it in _NAMES) and _KEY.search(text) is not None or (
        any(it in text for it in _KINDS) and _KIND.search(text) is not None) or (
        "filters" in text and all(form.search(text) for form in _FILTERS))


def mention(path, text, lines=()):
    """The first place at which a file mentions retries, or None. The file has policies at these lines, and then only a
    document of YAML counts that has none of them."""
    words, form = _words().get(ending_of(path), ((), None))
    plain = _plain(text)
    if not any(it in plain for it in words):
        return None
    rows, at, line = text.split("\n"), 0, 0
    begins = [number for number, row in enumerate(rows, 1) if row.startswith("---")] if ending_of(path) in _YAML else []
    known = {bisect.bisect(begins, it) for it in lines}
    for found in form.finditer(plain):
        line, at, name = line + plain.count("\n", at, found.start()), found.start(), found[1]
        if bisect.bisect(begins, line + 1) not in known:
            spelled = re.search("[-_]*".join(map(re.escape, name)), rows[line], re.I)
            return Mention(line + 1, spelled[0] if spelled else name)
    return None


def text_of(path):
    """The text of a file for a search: without the zeros of UTF-16 and UTF-32, and with letters for their escapes. What
    isn't UTF-8 has replacements."""
    data = command.read(path, MOST_BYTES + 1)
    if len(data) > MOST_BYTES:
        raise Unread(path, f"the file has more than {MOST_BYTES} bytes, so it wasn't searched; leave_out says that it "
                           "has no policy")
    text = data.replace(b"\0", b"").decode("utf-8-sig", "replace")
    text = _ESCAPE.sub(lambda it: chr(int(it[1], 16)), text) if "\\" in text else text
    # Python reads names so.
    return text if text.isascii() else unicodedata.normalize("NFKC", text)


def _by_git(folder, refuse):
    """The files of a folder that git has or would add, or None without a checkout."""
    if shutil.which("git") is None:
        return None
    words = ["git", "-c", "core.fsmonitor=false", "-C", folder, "ls-files", "-z", "--cached", "--others",
             "--exclude-standard", "--deduplicate"]
    ended = subprocess.run(words, stdin=subprocess.DEVNULL, capture_output=True, check=False,
                           env=os.environ | {"LC_ALL": "C"})
    said = ended.stderr.decode(errors="replace").splitlines()
    if ended.returncode and b"not a git repository" not in ended.stderr:
        command.note(f"git lists no files of {folder}, so all are read: {shown(said[0] if said else '', 200)}",
                     "zsched-policy")
    if ended.returncode:
        return None
    for line in said:
        found = _UNLISTED.fullmatch(line)
        refuse(os.path.normpath(os.path.join(folder, found[1])) if found else folder, found[2] if found else line)
    return [os.fsdecode(it) for it in ended.stdout.split(b"\0") if it]


def _by_hand(folder, refuse):
    for where, folders, names in os.walk(folder, onerror=lambda it: refuse(os.path.normpath(it.filename), it.strerror)):
        folders[:] = [it for it in folders if it != ".git"]
        yield from (os.path.relpath(os.path.join(where, it), folder) for it in names)


def files_of(folder, refuse):
    """The files of a folder, in the order of their names. `refuse` is called with the path of each folder in it that
    can't be listed, and with the reason."""
    found = _by_git(folder, refuse)
    for name in sorted(_by_hand(folder, refuse) if found is None else found):
        yield name if folder == "." else os.path.join(folder, name)


def rule_of(path, config):
    """Why a file of a folder isn't searched, or None. OSError says that it can't be known."""
    try:
        is_file = stat.S_ISREG(os.lstat(path).st_mode)
    except (FileNotFoundError, NotADirectoryError):
        is_file = False
    if not is_file:
        return NO_FILE
    if (pattern := config.left_out(path)) is not None:
        return f"leave_out {pattern}"
    is_searched = is_known(path) or ending_of(path) in _words() and os.path.basename(path) != limits.NAME
    return None if is_searched else ENDING


def folder_of_checkout(folder):
    """The folder of the checkout that has a folder, or the folder itself."""
    ended = shutil.which("git") and subprocess.run(["git", "-C", folder, "rev-parse", "--show-toplevel"],
                                                   stdin=subprocess.DEVNULL, capture_output=True, check=False)
    return os.fsdecode(ended.stdout.rstrip(b"\n")) if ended and not ended.returncode else os.path.abspath(folder)
