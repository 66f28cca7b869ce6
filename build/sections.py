"""Files that hold several texts, each below a line `== NAME`: cases of a command, wrong bodies of a crate."""
import dataclasses
import pathlib
import re

HEAD = re.compile(r"^== ([\w.]+)\n", re.M)


class Unreadable(ValueError):
    """A file that isn't of this form. The text says where, and why not."""


@dataclasses.dataclass(frozen=True)
class Section:
    """One of the texts: its file, its name, the number of the line with this name, and what is below it."""
    path: pathlib.Path
    name: str
    line: int
    text: str


def sections_of(path):
    """The sections of a file, in their order."""
    text = path.read_bytes().decode()
    before, *rest = HEAD.split(text)
    if before or not text.endswith("\n"):
        raise Unreadable(f"{path}: it begins with a line '== NAME', and its last line has an end")
    found, line = [], 1
    for name, below in zip(rest[::2], rest[1::2]):
        if name in [it.name for it in found]:
            raise Unreadable(f"{path}:{line}: there are two sections '{name}'")
        found.append(Section(path, name, line, below))
        line += 1 + below.count("\n")
    return found


def joined(texts):
    """The bytes of a file that has these texts by their names."""
    return "".join(f"== {name}\n{text}" for name, text in texts.items()).encode()
