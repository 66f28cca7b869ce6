"""Plans that were changed at random, by slips of the hand and as a hostile user does: the program gives the report or
the one fault that tests/reference.py gives. `pytest tests/test_faults.py --examples 100` tries 300,000 plans."""
import re

import pytest

import faults
import generator
import reference
import reports
from support import ONE_JOB, equal_jobs, plans_with_reports, recut, run

PLANS = 3000
# What limits a program, since a plan may not use up the machine.
LIMITED = ["prlimit", f"--as={2 << 30}", "--core=0"]
SEEDS = [ONE_JOB, equal_jobs("abcdefg", 2, 3)[0]] + [
    file.read_bytes() for file in plans_with_reports() if file.stat().st_size < 20000]


def changed_plan(chance):
    """A plan of the repository or of the generator, changed once or twice, and another cut."""
    text = generator.any_plan(chance) if generator.seldom(chance, 3) else chance.choice(SEEDS)
    text = generator.mutated(chance, text, chance.choice([1, 1, 1, 2])) if len(text) < 200000 else text
    return text, chance.choice([1, 2, 7, 64]), chance.choice([1, 3, 10000])


def ends_well(status, output, errors):
    """Whether a run that may be long ends as the program promises, or was ended since it took long."""
    if status == 0:
        return errors == b"" and reports.jobs_of(output)
    return status is None or output == b"" and re.fullmatch(faults.lines()[status], errors)


@pytest.mark.parametrize("chunk", generator.chunks(PLANS))
def test_a_changed_plan_has_the_report_or_the_fault_of_the_reference(chunk, zsched):
    def agrees(words):
        text, *cut = words
        try:
            wanted = reference.answer(text, 300 if text.count(b"collectAll") < 3 else 8)
        except reference.TooManyAttempts:
            assert ends_well(*run([*LIMITED, zsched], text, seconds=1))
            return
        assert run(zsched, text) == wanted
        if wanted[0] == 0:
            assert run(zsched, recut(text, *cut)) == wanted
    generator.hold(chunk, agrees, generator.made(changed_plan))
