"""The tables of ZIO's schedules, Effect's and those of cats-retry: what is written here for each constructor and
operator. The import and the export go by them, and docs/RECIPES.md shows them."""
import pathlib
import re
from typing import NamedTuple

HERE = pathlib.Path(__file__).parent


class Row(NamedTuple):
    """A row of the table: the part of it, its spellings, the text here, and what is to say of it."""
    part: str
    names: str
    text: str
    said: str

    def spellings(self):
        return re.findall("`([^`]+)`", self.names)

    def reason(self):
        """The words of a row without links and marks."""
        return re.sub(r"\[([^][]*)\]\([^()]*\)|`", r"\1", self.said.removeprefix("left out: "))


def rows(library="zio"):
    part = ""
    for line in (HERE / f"{library}.tsv").read_text(encoding="utf-8").splitlines():
        if line.startswith("# "):
            part = line[2:]
        else:
            names, text, said = line.split("\t")
            yield Row(part, names, text.strip("`"), said)
