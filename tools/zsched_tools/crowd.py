"""The jobs of a report as a picture: rows, or their load if they are too many."""
from typing import NamedTuple

from zsched_tools import picture
from zsched_tools.command import Refused
from zsched_tools.drawing import View
from zsched_tools.load import Load
from zsched_tools.reports import Attempt, records
from zsched_tools.strip import draw_strip
from zsched_tools.words import plural


class Crowd(NamedTuple):
    """The jobs of a report that are drawn: the rows of at most MOST_JOBS jobs, the number of all, and their load."""
    rows: list
    jobs: int
    load: Load


def crowd_of(file, chosen, progress=None):
    """The jobs of a report, a binary file, that are drawn: the chosen ones, or all."""
    rows, attempts, jobs, load, missing = [], [], 0, Load(1), set(chosen)
    for job, record in records(file, progress):
        if job is None or chosen and job.name not in chosen:
            continue
        missing.discard(job.name)
        load = load.take(record).fitted()
        if isinstance(record, Attempt):
            attempts += [record] * (jobs < picture.MOST_JOBS)
            continue
        if jobs < picture.MOST_JOBS:
            rows.append(picture.Row(job, attempts, record))
            attempts = []
        jobs += 1
    if missing:
        raise Refused(f"has no job {min(missing)}")
    return Crowd(rows, jobs, load)


def draw_crowd(crowd, title, view=View(), notes=()):
    """The picture of a report's jobs, or of their load if they are too many for rows, in lines of SVG."""
    if crowd.jobs <= picture.MOST_JOBS:
        return picture.draw(crowd.rows, title, view, notes=notes)
    return draw_strip(crowd.load, title, note_of(crowd), view)


def note_of(crowd):
    """The line above the load of jobs that are too many for rows."""
    room = f"a picture has room for the rows of {picture.MOST_JOBS}"
    return f"{plural(crowd.jobs, 'job')}; {room}: choose some with --job NAME"
