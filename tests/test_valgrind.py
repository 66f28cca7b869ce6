"""The program under valgrind on a dozen plans and on many jobs, each cut in several ways: by memcheck, and if there are
several workers by helgrind and drd. The rounds of the jobs with 998 nodes start threads.

Each report has to be the right one. memcheck has to name no error and no lost memory. helgrind and drd may name only
reads of a queue's places by the queue itself, as docs/TESTING.md explains."""
import xml.etree.ElementTree

import pytest

from languages import need
from support import TOP, equal_jobs, heavy_jobs, job, plan, recut, report_beside, run
from zsched_tools import proved

pytestmark = pytest.mark.full

PLANS = ["a_done_part_goes_on_again", "attempts_end_at_listed_ticks", "backoff_with_a_cap_on_tries", "collected_inputs",
         "collected_pairs_sides_and_lists", "fixed_runs_behind", "no_jobs", "resets_over_resets", "seven_jobs",
         "seven_jobs_on_listed_ticks", "thirteen_jobs", "windows_wait_when_behind"]
# The workers and grains under which each plan runs. Without a second worker no thread is started.
CUTS = [(1, 1), (2, 1), (4, 100), (64, 10)]
HEAVY_CUTS = [(2, 1), (4, 3), (4, 20), (64, 10)]
CASES = [("invalid", 1, 1), *[(name, *cut) for name in [*PLANS, "250 jobs"] for cut in CUTS],
         *[("heavy jobs", *cut) for cut in HEAVY_CUTS]]
LEAKS = ["--leak-check=full", "--show-leak-kinds=all"]


def case(name, workers, grain):
    """A plan, with the status and the report of its run. There are several batches of 250 jobs under each grain."""
    if name == "invalid":
        return plan([job(schedule="(recurs(1) && recurs(2)")]), (2, b"")
    if name in PLANS:
        path = TOP / "tests" / "plans" / f"{name}.json"
        return recut(path.read_bytes(), workers, grain), (0, report_beside(path))
    text, report = heavy_jobs(workers, grain) if name == "heavy jobs" else equal_jobs(
        [f"job{number}" for number in range(250)], workers, grain)
    return text, (0, report)


def is_of_queue(error):
    """Whether an error is an access of a queue to its places, which another thread wrote without a lock."""
    place = error.findtext("stack/frame/fn") or ""
    return error.findtext("kind") in ["Race", "ConflictingAccess"] and place.startswith("crossbeam_queue::")


def with_names(program):
    """The program before `strip`, whose names say whose access an error is. The system loads the same of both."""
    whole = TOP / "crates" / "zsched" / "out" / "zsched"
    is_same = whole.exists() and len({proved.checksum(it.read_bytes()) for it in (whole, program)}) == 1
    return whole if is_same else program


@pytest.mark.parametrize("tool, name, workers, grain", [
    (tool, name, workers, grain) for tool in ["memcheck", "helgrind", "drd"] for name, workers, grain in CASES
    if tool == "memcheck" or workers > 1 or name == "invalid"])
def test_a_run_has_no_error(tool, name, workers, grain, zsched, tmp_path):
    need("valgrind")
    text, wanted = case(name, workers, grain)
    words = ["valgrind", "-q", f"--tool={tool}", *(LEAKS if tool == "memcheck" else []), "--xml=yes"]
    words += [f"--xml-file={tmp_path / 'errors'}", with_names(zsched)]
    assert run(words, text, seconds=300)[:2] == wanted
    errors = xml.etree.ElementTree.parse(tmp_path / "errors").getroot().iter("error")
    assert [error.findtext("kind") for error in errors if not is_of_queue(error)] == []
