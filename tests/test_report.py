"""zsched-report: what holds for all reports and their pieces. What it prints is in tests/cases/zsched-report.txt."""
import collections
import io
import json
import os
import random
import re
import subprocess
import sys

import pytest

from generator import made_plan
from report_samples import KNOWN, NEVER, REPORTS, RETRIED, RUNNING, WAITING, long_report, wide_report
from reports import jobs_of
from support import TOP, examples, rows, run
from zsched_tools import command, load, progress
from zsched_tools.command import Refused
from zsched_tools.report import lines
from zsched_tools.report.summary import Options, write_summary
from zsched_tools.words import duration

TOOL = TOP / "tools" / "zsched-report"
# Runs a command inside of itself, and then prints its peak memory. (What a parent gets includes the parent's memory.)
_INSIDE = """import os, resource, runpy, sys
try:
    runpy.run_path(f"{os.path.dirname(sys.argv[1])}/zsched_tools/__main__.py", run_name="__main__")
finally:
    memory = next(line.split()[1] for line in open("/proc/self/status") if line.startswith("VmHWM:"))
    print("measured", memory, sum(resource.getrusage(resource.RUSAGE_SELF)[:2]), file=sys.stderr)
"""


def measured(tool, *words, out):
    """Runs a command with its output to a file: its status, its peak memory in kilobytes, its processor seconds."""
    with open(out, "wb") as file:
        words = [sys.executable, "-c", _INSIDE, str(tool), *map(str, words)]
        ended = subprocess.run(words, stdout=file, stderr=subprocess.PIPE, text=True, check=False)
    _, memory, time = ended.stderr.splitlines()[-1].split()
    return ended.returncode, int(memory), float(time)


def outcome(work):
    """The lines that a function writes, and the error if it rejects its text."""
    written, fault = [], None
    try:
        work(written.append)
    except Refused as refused:
        fault = str(refused)
    return "".join(f"{line}\n" for line in written), fault


def json_lines(text):
    """The JSON lines of a report, and the error."""
    return outcome(lambda write: lines.write_lines(io.BytesIO(text.encode("latin-1")), write))


def lines_of(text):
    """The same lines, from the records of the tests' reader."""
    found = []
    for job in jobs_of(text):
        head, waits = {"job": job.name, "mode": job.mode}, [None, *job.waits]
        found += [{"type": "attempt", **head, "attempt": number, "begin": it.begin, "end": it.end,
                   "outcome": it.how or "running", "value": it.value, "waited": waited, "out": it.out, "next": it.next}
                  for number, (it, waited) in enumerate(zip(job.attempts, waits), 1)]
        value = int(job.value) if job.how in ("succeeded", "failed") else None
        found.append({"type": "end", **head, "ending": job.how, "value": value,
                      "out": job.value if job.how == "finished" else None, "at": job.at, "polls": job.polls})
    found.append({"type": "total", "polls": sum(job.polls for job in jobs_of(text))})
    return "".join(json.dumps(it, separators=(",", ":")) + "\n" for it in found)


def summed_up(text, every=100, **options):
    table = outcome(lambda write: write_summary(io.BytesIO(text.encode()), write, Options(**options)))
    return table, list(load.read(io.BytesIO(text.encode()), every).rows())


@pytest.mark.parametrize("path", KNOWN, ids=lambda path: path.stem)
def test_a_report_is_made_again_from_its_json_lines_byte_for_byte(path):
    text = path.read_text()
    made, fault = json_lines(text)
    assert fault is None and outcome(lambda write: lines.write_report(io.StringIO(made), write)) == (text, None)


# Texts that aren't reports, and the beginning of the error.
@pytest.mark.parametrize("text, beginning", rows("no_reports.jsonl"), ids=lambda it: it[:40])
def test_another_text_is_rejected_with_the_line(text, beginning):
    assert json_lines(text)[1].startswith(beginning)


@pytest.mark.parametrize("text", REPORTS, ids=range(6))
def test_a_report_that_is_cut_or_has_a_line_removed_or_repeated_is_rejected(text):
    kept = text.splitlines(keepends=True)
    for at in range(len(kept)):
        before = "".join(kept[:at])
        assert at == 0 or json_lines(before)[1].startswith(f"ends after line {at}, but ")
        for end in range(1, len(kept[at])):
            assert json_lines(before + kept[at][:end])[1].startswith(f"line {at + 1} is cut")
        assert json_lines(before + "".join(kept[at + 1:]))[1] and json_lines(before + kept[at] + "".join(kept[at:]))[1]


def test_a_long_report_takes_little_memory_and_time(tmp_path):
    (report := tmp_path / "report").write_text(long_report(50_000))
    out = tmp_path / "lines"
    status, kilobytes, seconds = measured(TOOL, "lines", report, out=out)
    assert (status, out.read_bytes().count(b"\n")) == (0, 50_002)
    assert kilobytes < 40_000 and seconds < 10


@pytest.mark.parametrize("form", [["lines"], ["summary", "--one-line"], ["load"]], ids=lambda form: form[0])
def test_a_form_takes_little_memory_and_time(form, tmp_path):
    (report := tmp_path / "report").write_text(text := wide_report(800, 60))
    start = measured(TOOL, "from-lines", os.devnull, out=os.devnull)[2]
    status, kilobytes, seconds = measured(TOOL, *form, report, out=os.devnull)
    assert status == 0 and kilobytes < 60_000
    # It takes over one second a megabyte on the slowest machine that was seen.
    assert seconds - start < 3 * len(text) / 1e6


@pytest.mark.parametrize("is_terminal, first, shown", [
    (True, 0, r"\r\x1b\[Ktool: \d+ bytes(\r\x1b\[K.*)*\r\x1b\[K"), (False, 0, ""), (True, 60, "")])
def test_a_long_command_shows_its_progress_on_a_terminal(is_terminal, first, shown, monkeypatch):
    monkeypatch.setattr(progress.sys, "stderr", command.Border(terminal := io.StringIO()))
    monkeypatch.setattr(terminal, "isatty", lambda: is_terminal, raising=False)
    monkeypatch.setattr(progress, "FIRST", first)
    monkeypatch.setattr(progress, "EVERY", 0)
    found = progress.Progress("tool", lambda done: f"{done} bytes")
    write_summary(io.BytesIO(wide_report(300, 3).encode()), lambda _: None, progress=found)
    assert re.fullmatch(shown, terminal.getvalue())


def repeated(chance, text, jobs):
    """A report of `jobs` jobs, each with the lines of one of a report's."""
    parts = ("\n" + text[:text.rindex("polls ", 0, -1)]).split("\njob ")[1:]
    bodies = [part.partition(" ")[2].rstrip("\n") + "\n" for part in parts]
    made = "".join(f"job r{number} {chance.choice(bodies)}" for number in range(jobs))
    return f"{made}polls {sum(map(int, re.findall(r'^end .* polls (.*)$', made, re.M)))}\n"


TWO_POLICIES = (TOP / "examples" / "two_policies.json.stdout").read_text()
# Reports of all forms, the last ones of jobs with equal lines.
TEXTS = {path.stem: path.read_text() for path in KNOWN} | dict(enumerate([
    *REPORTS, wide_report(8, 4), long_report(40), "polls 0\n",
    *[repeated(random.Random(3), text, 50) for text in [RETRIED, RUNNING, WAITING, NEVER, TWO_POLICIES]]]))


@pytest.mark.parametrize("name", TEXTS)
def test_json_lines_have_the_attempts_and_the_endings_of_a_report(name):
    assert json_lines(TEXTS[name]) == (lines_of(TEXTS[name]), None)


def changed(chance):
    """A report with a character changed; or one of equal jobs in which a line is removed or repeated, or another one
    follows it: once, or in each job that has it."""
    if chance.random() < 0.5:
        text = chance.choice([*REPORTS, wide_report(8, 4), long_report(40)])
        at = chance.randrange(len(text))
        return text[:at] + chance.choice("0123456789\n ejaosdk.,(%") + text[at + chance.randrange(3):]
    text = repeated(chance, chance.choice([RETRIED, WAITING, NEVER, RUNNING]), 8).splitlines(keepends=True)
    line, what = chance.choice([*text, "polls 3\n", "job x retry\n"]), chance.randrange(4)
    places = [at for at, it in enumerate(text) if it == line] or [chance.randrange(len(text))]
    for at in reversed(places[:chance.choice([1, 9])]):
        text[at:at + 1] = [[], [line, line], [text[at], "polls 3\n"], [text[at]]][what]
    return "".join(text)


def test_changed_reports_are_rejected_or_give_their_lines():
    """The reader of the tests compares fewer lines with each other, so it rejects fewer texts."""
    chance, errors = random.Random(5), []
    for _ in range(examples(1400)):
        text = changed(chance)
        found, error = json_lines(text)
        if error is None:
            assert found == lines_of(text), text
        errors.append(error)
    assert len(errors) // 10 < errors.count(None) < len(errors) // 2


def figures_of(text, every):
    """The cells of the summary, job by job, and the rows of the load, from the attempts of each job."""
    cells, steps = [], collections.defaultdict(lambda: [0] * 5)
    for job in jobs_of(text):
        last, waits = job.attempts[-1] if job.attempts else None, list(job.waits)
        if last and last.end is not None:
            waits.append(job.at - last.end)
        for begin in [it.begin for it in job.attempts]:
            steps[begin // every][0] += 1
            steps[begin // every][3] += 1
        for it in [it for it in job.attempts if it.end is not None]:
            steps[it.end // every][1 if it.how == "ok" else 2] += 1
            steps[it.end // every][3] -= 1
        if last:
            steps[job.attempts[0].begin // every][4] += 1
        if last and job.how != "unfinished":
            steps[job.at // every][4] -= 1
        busy = sum((job.at if it.end is None else it.end) - it.begin for it in job.attempts)
        hows = [it.how for it in job.attempts]
        ending = f"{job.how} {job.value or ''}".strip()
        cells.append([job.name, job.mode, ending if len(ending) <= 30 else f"{ending[:28]}..", duration(job.at),
                      *map(str, [len(hows), hows.count("ok"), hows.count("err")]),
                      *map(duration, [busy, sum(waits), max(waits, default=0)])])
    rows, running, open_ = [], 0, 0
    for step in range(min(steps, default=0), max(steps, default=-1) + 1):
        begun, ok, err, changed, joined = steps[step]
        running, open_ = running + changed, open_ + joined
        rows.append([step * every, begun, ok, err, running, open_ - running])
    return cells, rows


def test_summary_and_load_are_those_of_the_attempts(zsched):
    texts = [*REPORTS, long_report(500), *(path.read_text() for path in KNOWN)]
    for seed in range(examples(20)):
        texts.append(run(zsched, json.dumps(made_plan(random.Random(seed))).encode())[1].decode())
        texts.append(repeated(random.Random(seed), texts[-1], 40))
    for number, text in enumerate(it for it in texts if len(it) < 60_000):
        latest = max(map(int, re.findall(r" at (\d+) polls", text)), default=0)
        every = latest // 1000 + [1, 7, 50, 1000, 10**6][number % 5]
        ((table, _), rows), (cells, wanted) = summed_up(text, every), figures_of(text, every)
        assert [re.split(r"\s{2,}", line) for line in table.splitlines()[1:len(cells) + 1]] == cells, text
        assert rows == wanted, text
        assert json_lines(text) == (lines_of(text), None), text


@pytest.mark.parametrize("sort", [None, "name", "end", "attempts"])
def test_the_table_has_the_order_of_the_option(sort):
    texts = [wide_report(300, 2), repeated(random.Random(1), RETRIED, 9), repeated(random.Random(2), TWO_POLICIES, 40)]
    for text in texts:
        jobs = jobs_of(text)
        key = {"name": lambda job: job.name, "end": lambda job: job.at, "attempts": lambda job: -len(job.attempts)}
        names = [job.name for job in (sorted(jobs, key=key[sort]) if sort else jobs)]
        table = summed_up(text, sort=sort)[0][0].splitlines()
        assert [line.split()[0] for line in table[1:len(jobs) + 1]] == names
