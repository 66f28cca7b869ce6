"""zsched-plan: files of other forms as plans. What it prints, and its faults, are in tests/cases/zsched-plan.txt."""
import json
from unittest import mock

import pytest

from mistakes import MISTAKES
from support import TOP
from zsched_tools import call_log
from zsched_tools.command import Refused
from zsched_tools.place import FaultAt
from zsched_tools.plan import importing, placed, policy_file, policy_plan

EXAMPLES = sorted(TOP.glob("examples/*.json"))


def from_yaml(text):
    notes = call_log.Notes()
    return placed.Written(policy_plan.plan_of(policy_file.read_yaml(text), 1, notes)), list(notes.lines())


@pytest.mark.parametrize("path", EXAMPLES, ids=lambda path: path.stem)
def test_a_plan_in_json_is_one_in_yaml(path):
    written, notes = from_yaml(path.read_text())
    assert (json.loads(written.text), notes) == (json.loads(path.read_text()), [])


WRONG = [(name, marked) for name, marked, fault, _ in MISTAKES
         if fault.startswith("job 0: schedule: ") and "\\" not in marked and marked.replace("»", "").isascii()]


@pytest.mark.parametrize("name, marked", WRONG, ids=[name for name, _ in WRONG])
def test_a_wrong_schedule_in_yaml_has_the_place_that_it_has_in_json(zsched, name, marked):
    before, text = marked.partition("»")[0], marked.replace("»", "")
    with pytest.raises(Refused) as caught:
        importing.check(importing.Source("p.yaml", text), from_yaml(text)[0], str(zsched))
    assert str(caught.value).startswith(f"p.yaml:{before.count(chr(10)) + 1}:{len(before) - before.rfind(chr(10))}: ")


def test_yaml_of_too_many_values_is_rejected():
    tenfold = [f"{after}: &{after} [{','.join([f'*{name}'] * 10)}]\n" for name, after in zip("abcdefghi", "bcdefghij")]
    with mock.patch.object(policy_file, "MOST_VALUES", 1000), pytest.raises(FaultAt) as caught:
        policy_file.read_yaml("a: &a 1\n" + "".join(tenfold))
    assert caught.value.cause.what == "the file has more than 1000 values"
