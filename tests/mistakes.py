"""Plans with one mistake each, from mistakes.tsv. A line has a part of a plan, the name of the mistake, the text of
that part, the program's line, and a word of the help. The sign » marks the place of the mistake, and isn't part of
the plan. In a text ␊ is a line end, ␉ a tab, ⟨8b⟩ the byte 8b, and ⟨9×x⟩ is x nine times."""
import pathlib
import re

PLAN = '{\n  "horizon": 1000,\n  "jobs": [\n    %s\n  ]\n}\n'
JOB = PLAN % """{
      "name": "poll-queue",
      "mode": "repeat",
      "schedule": "recurs(3)",
      "script": [{"ms": 5, "ok": 1}]
    }"""
# What the text of each part is put into, at the place of %s.
WHOLE = {
    "plan": "%s", "jobs": PLAN, "document": '{\n  %s,\n  "jobs": []\n}\n',
    "name": JOB.replace('"poll-queue"', "%s"), "mode": JOB.replace('"repeat"', "%s"),
    "schedule": JOB.replace('"recurs(3)"', "%s"), "script": JOB.replace('[{"ms": 5, "ok": 1}]', "%s"),
    "member": JOB.replace("1}]", "1}],\n      %s"),
}


def written_out(text):
    """A text of the table as it is in the plan. A byte that isn't UTF-8 is a surrogate."""
    text = text.replace("␊", "\n").replace("␉", "\t")
    text = re.sub("⟨(..)⟩", lambda found: bytes.fromhex(found[1]).decode(errors="surrogateescape"), text)
    return re.sub(r"⟨(\d+)×(.+?)⟩", lambda found: found[2] * int(found[1]), text)


def split(marked):
    """The bytes of a plan without its sign, and the line and the column of the sign."""
    before, after = marked.split("»")
    data = (before + after).encode(errors="surrogateescape")
    return data, before.count("\n") + 1, len(before) - before.rfind("\n")


LINES = pathlib.Path(__file__).with_suffix(".tsv").read_text(encoding="utf-8").split("\n")[:-1]
# The name of each mistake, the plan with its sign, the program's line, and a word of the help.
MISTAKES = [(name, WHOLE[part].replace("%s", written_out(text)), fault, word)
            for part, name, text, fault, word in (line.split("\t") for line in LINES)]
