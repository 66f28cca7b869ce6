"""The picture of a run of zsched-try, as a file or a page: beside one draw where each attempt may begin, and when each
call ends at the latest."""
import io
import itertools
import re
from dataclasses import replace

from zsched_tools import command, program
from zsched_tools.attempts import entries_of, mode_of
from zsched_tools.crowd import Crowd, crowd_of, draw_crowd, note_of
from zsched_tools.drawn import HIGH, LOW
from zsched_tools.load import Load
from zsched_tools.program import LAST_MOMENT, cut_plans, job_text
from zsched_tools.report.page import load_page, page
from zsched_tools.reports import attempts_in, blocks_of, whole_block
from zsched_tools.trials import entries_text, job_names

# The words by which a wait depends on more than its number and its draw, if a part alone is drawn.
_UNSTEADY = re.compile("elapsed|fixed|windowed|identity|whileInput")


def draws_of(given):
    """Of each policy the first and the last moment at which each attempt begins, in all draws; nothing if none is drawn
    or if a draw may have other effects than longer waits."""
    drawn = [it for it in given.read if it.is_drawn and not it.undrawn and it.driven() is not None
             and (it.is_whole or not _UNSTEADY.search(it.spelled))]
    jobs = [job_text(f"{end}{number}", policy.schedule(source), entries_text(entries_of(given, policy)),
                     mode_of(given, policy))
            for number, policy in enumerate(drawn) for end, source in [("low", LOW), ("high", HIGH)]]
    zsched = program.find(given.zsched)
    found = [[int(it[0]) for it in attempts_in(block)] for plan in cut_plans(given.until, jobs)[0]
             for block in blocks_of(program.run_plan(zsched, plan))] if jobs else []
    ranges = {id(policy): [(low, max(low, high)) for low, high in zip(*both) if high < (policy.deadline or LAST_MOMENT)]
              for policy, both in zip(drawn, zip(found[::2], found[1::2]))}
    return [ranges.get(id(policy), ()) for policy in given.read]


def end_of(bounds):
    """The latest end of a call and what says so, or None."""
    latest, is_cut = bounds.latest() if bounds else (None, False)
    if latest is None or bounds.is_endless and not is_cut:
        return None
    return latest, "end by the call's limit" if is_cut else "proved end" if bounds.is_proved else "unproved end"


def draw(given, report, limits, notes, more):
    """Draws a run, if a picture or a page is asked for. `limits` has the moment at which a limit ends each job, or
    None, `notes` are the lines above it, and `more` has what else is known of each job's row."""
    if any(limits):
        # Each job has its own horizon, and a report has one.
        each = [crowd_of(io.BytesIO(whole_block(it)), []) for it in blocks_of(report)]
        rows = [replace(row, limit=limit) for row, limit in zip(itertools.chain(*(it.rows for it in each)), limits)]
        crowd = Crowd(rows, len(rows), Load(1))
    else:
        crowd = crowd_of(io.BytesIO(report), [])
    rows = [replace(row, **known) for row, known in zip(crowd.rows, more)]
    crowd = crowd._replace(rows=rows)
    if given.svg:
        command.write(given.svg, "".join(f"{line}\n" for line in draw_crowd(crowd, given.title, notes=notes)))
    if given.html:
        has_rows = len(rows) == crowd.jobs
        command.write(given.html, "".join(page(rows, given.title, notes=notes) if has_rows else
                                          load_page(crowd.load, given.title, note_of(crowd))))
