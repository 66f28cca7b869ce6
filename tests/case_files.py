"""The cases of commands, of which tests/cases/TOOL.txt has those of a tool.

A case is a line `== NAME`, and below it are its files, each below a line `-- FILE --`. A file that begins with `#!` is
executable. What can't be in such a text, for example bytes that aren't UTF-8 or a last line without its end, is a file
tests/cases/TOOL/NAME/FILE instead."""
import atexit
import functools
import pathlib
import re
import shutil
import tempfile

import sections
from support import TOP

FOLDER = TOP / "tests" / "cases"
PART = re.compile(r"^-- (\S+) --\n", re.M)
# The order of a case's files: `cmd` comes first, then what it reads, and then what it has to give.
ORDER = ["cmd", None, "stdin", "status", "stdout", "stderr", "out"]


def rank(name):
    """The place of a file of this name among the files of its case."""
    first = name.split("/")[0]
    return ORDER.index(first if first in ORDER else None)


def is_text(data):
    """Whether a file can be in the text of its case."""
    try:
        text = data.decode()
    except UnicodeDecodeError:
        return False
    is_whole = text.endswith("\n") or not text
    return is_whole and not re.search("[\r\0\ufeff]", text) and not any(it.search(text) for it in [PART, sections.HEAD])


def joined(files):
    """The text of a case that has these files by their names."""
    parts = sorted(files.items(), key=lambda it: rank(it[0]))
    return "".join(f"-- {name} --\n{data.decode()}" for name, data in parts)


class Case:
    """A case: its name, its place, and the bytes of each of its files."""

    def __init__(self, section):
        tool = section.path.stem
        self.section, self.name, self.beside = section, f"{tool}/{section.name}", FOLDER / tool / section.name
        self.place = f"{section.path.relative_to(TOP)}:{section.line}"
        before, *rest = PART.split(section.text)
        names = rest[::2]
        if before or "cmd" not in names or len(names) > len({*names}):
            raise sections.Unreadable(f"{self.place}: a case begins with a line '-- FILE --', has a file 'cmd', and no "
                                      "file twice; a line '== NAME' begins another case")
        self.parts = {name: text.encode() for name, text in zip(names, rest[1::2])}

    @property
    def files(self):
        """All its files: those of its text, and those that are beside it."""
        found = {str(it.relative_to(self.beside)): it.read_bytes() for it in self.beside.rglob("*") if it.is_file()}
        return self.parts | found

    def text(self, name):
        """What is in one of its files."""
        return self.files[name].decode()

    def unpack(self, room):
        """Writes what it reads to a new folder."""
        shutil.copytree(self.beside, room) if self.beside.is_dir() else room.mkdir(parents=True)
        for name, data in self.parts.items():
            if rank(name) < len(ORDER) - 1:
                (room / name).parent.mkdir(parents=True, exist_ok=True)
                (room / name).write_bytes(data)
                (room / name).chmod(0o755 if data.startswith(b"#!") else 0o644)
        shutil.rmtree(room / "out", ignore_errors=True)

    def put(self, name, data):
        """Gives one of its files other bytes. Without any, it has no such file."""
        self.parts.pop(name, None)
        (self.beside / name).unlink(missing_ok=True)
        if data and is_text(data):
            self.parts[name] = data
        elif data:
            (self.beside / name).parent.mkdir(parents=True, exist_ok=True)
            (self.beside / name).write_bytes(data)
        texts = {it.name: it.text for it in sections.sections_of(self.section.path)}
        self.section.path.write_bytes(sections.joined(texts | {self.section.name: joined(self.parts)}))


@functools.cache
def cases():
    """All cases, by their names, as TOOL/NAME."""
    found = [Case(it) for path in sorted(FOLDER.glob("*.txt")) for it in sections.sections_of(path)]
    return {it.name: it for it in found}


@functools.cache
def unpacked(tool):
    """A folder with a folder for each case of a tool, for those who read files."""
    room = pathlib.Path(tempfile.mkdtemp(prefix="zsched-cases-"))
    atexit.register(shutil.rmtree, room)
    for name, case in cases().items():
        if name.startswith(f"{tool}/"):
            case.unpack(room / name)
    return room / tool
