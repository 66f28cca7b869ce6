"""The command zsched-report: converts a report to other forms."""
import argparse
import contextlib
import gc
import os
import re
import sys

from zsched_tools import command, load
from zsched_tools.command import Refused
from zsched_tools.crowd import crowd_of, draw_crowd, note_of
from zsched_tools.drawing import View
from zsched_tools.durations import duration_argument
from zsched_tools.picture import MOST_JOBS
from zsched_tools.progress import Progress
from zsched_tools.report.lines import write_lines, write_report
from zsched_tools.report.page import load_page, page
from zsched_tools.report.summary import SORTS, Options, write_summary
from zsched_tools.reports import as_text
from zsched_tools.strip import draw_strip

TOOL = "zsched-report"
DESCRIPTION = """A report of zsched in other forms.

  zsched < plan.json | zsched-report summary
  zsched < plan.json | zsched-report load --every 1s
  zsched < plan.json > whole.report && zsched-report svg whole.report > whole.svg"""
EPILOG = """Exit status: 0; 2 if the report or an option is rejected, with the file and the line on standard error; 3 if
reading or writing fails. If summary, load, svg or html rejects a report, it has written nothing.
If the reader of standard output closes it (`| head`), it ends by SIGPIPE, without a message. docs/FORMATS.md describes
reports."""
LINES = """Writes a report as JSON lines: an object of type attempt for each attempt with its step, one of type end
for each job, and one of type total at the end. `next` is null if the schedule is done, `out` is null if the schedule
wasn't stepped, `waited` is the time since the end of the attempt before. Numbers are whole, at most 2^64 - 1: a program
that reads them as 64-bit floats loses their last digits. Lines are written while the report is read, so its length
doesn't matter. If the report is rejected, the lines before the fault are written, the status is 2, and there is no line
of type total.

  zsched < plan.json | zsched-report lines > whole.jsonl"""
FROM_LINES = """Writes the report of JSON lines, with the same bytes that `lines` read. Lines that form no report are
rejected; as with `lines`, the part before the fault is written.

  zsched-report from-lines whole.jsonl > whole.report"""
SUMMARY = """Writes a table with a line a job: its ending, the moment of the ending, its attempts, the number that
succeeded (ok) and failed (err), the time that its attempts took (busy), the time between them (waited) and the longest
wait. An attempt that runs or a wait that continues at the horizon counts up to it. The lines below are the most
attempts at once, with the first such moment, and the times within which 50, 95 and 99 of 100 jobs ended. A job's time
is that from its first attempt to its end; an unfinished job takes longer than all others.

  zsched < plan.json | zsched-report summary"""
LOAD = """Writes a table with a line for each step of time: the number of attempts that began, succeeded (ok) and failed
(err) in it, the number of attempts that run and of jobs that wait for their next attempt at its end. The first line is
the first step in which something begins, the last line the last step in which something begins or ends. A step includes
its first moment and not its last.

  zsched < plan.json | zsched-report load --every 100ms"""
SVG = """Writes a picture: jobs from top to bottom, time from left to right. Rest the pointer on an attempt to see its
data. Attempts that are too near each other share a striped block. If there are more than 16 jobs, a strip with their
load is below them; if there are more than 200, only the load is drawn. The picture is 1240 pixels wide, and a narrower
window scrolls: on a phone the page of `html` is better.

  zsched < plan.json | zsched-report svg > whole.svg"""
HTML = """Writes the picture of `svg` as a page with a time axis that zooms. The page loads nothing from other hosts.

  zsched < plan.json | zsched-report html > whole.html"""


def _with_source(given, work):
    """Calls `work` with the given binary file or standard input. An error of the input gets the name of the file."""
    is_file = given.file not in (None, "-")
    source = command.opened(given.file) if is_file else contextlib.nullcontext(command.standard_input())
    try:
        with source as binary:
            return work(binary, _progress(is_file and os.fstat(binary.fileno()).st_size))
    except Refused as refused:
        is_plan = re.match(r"""line 1 .*: '\{('|.*"(horizon|ticks|jobs)")""", str(refused))
        hint = "; this is a plan, and zsched writes its report" if is_plan else ""
        raise Refused(f"{given.file or 'standard input'}: {refused}{hint}") from None


def _progress(size):
    """The progress line of a report that is read: a share of its size, if that is known."""
    if not size:
        return Progress(TOOL, lambda done: f"{done // 10**6} MB read")
    return Progress(TOOL, lambda done: f"{done // 10**6} of {size // 10**6} MB read, {100 * done // size} %")


def _lines(given):
    # On a terminal the lines leave no room for a progress line.
    _with_source(given, lambda file, progress: write_lines(
        file, print, None if sys.stdout.isatty() else progress))


def _load(given):
    found = _with_source(given, lambda file, progress: load.read(file, given.every, progress))
    if given.svg:
        command.write(given.svg, "".join(f"{line}\n" for line in draw_strip(found, given.title)))
    if given.svg != "-":
        sys.stdout.writelines(f"{line}\n" for line in (load.csv if given.csv else load.text)(found))


def _draw(given, is_page):
    crowd = _with_source(given, lambda file, progress: crowd_of(file, given.job, progress))
    if given.sort:
        crowd.rows.sort(key=lambda row: SORTS[given.sort](row.job, len(row.attempts), row.ending))
    view = View(given.first, given.last, given.log)
    if not is_page:
        pieces = (f"{line}\n" for line in draw_crowd(crowd, given.title, view))
    elif crowd.jobs <= MOST_JOBS:
        pieces = page(crowd.rows, given.title, view)
    else:
        pieces = load_page(crowd.load, given.title, note_of(crowd), view)
    sys.stdout.writelines(pieces)


def _step(word):
    if (found := duration_argument(word)) == 0:
        raise argparse.ArgumentTypeError("a step of time takes at least 1 ms")
    return found


def _add_summary(one):
    one.add_argument("--sort", choices=list(SORTS), help="the table's order: by the moment of the end, by name, or the "
                     "most attempts first; else that of the report")
    one.add_argument("--one-line", action="store_true", help="only the figures below the table, in one line")
    one.add_argument("--within", metavar="TIME", type=duration_argument,
                     help="say how many jobs succeeded or finished within this time from their first attempt, as 5s")


def _add_load(one):
    one.add_argument("--every", metavar="TIME", type=_step, default=load.SECOND,
                     help="the length of a step, such as 250ms, 1s or 5min (1s)")
    one.add_argument("--title", default="", help="the text above the picture")
    one.add_argument("--csv", action="store_true", help="comma-separated values, with moments in milliseconds")
    one.add_argument("--svg", metavar="FILE", help="a picture; - is standard output, without the table")


def _add_picture(one):
    one.add_argument("--title", default="", help="the text above the picture")
    one.add_argument("--job", metavar="NAME", action="append", default=[], help="draw this job; may be repeated")
    one.add_argument("--sort", choices=list(SORTS), help="the order of the rows: by the moment of the end, by "
                     "name, or the most attempts first; else that of the report")
    one.add_argument("--from", dest="first", metavar="TIME", type=duration_argument,
                     help="the first moment drawn, as 1.5s")
    one.add_argument("--to", dest="last", metavar="TIME", type=duration_argument, help="the last moment drawn, as 2min")
    one.add_argument("--log", action="store_true", help="a logarithmic axis, if some times are much longer than others")


_ADDED = {"summary": _add_summary, "load": _add_load, "svg": _add_picture, "html": _add_picture}


def _arguments():
    parser, forms = command.forms(TOOL, DESCRIPTION, EPILOG, "FORM")
    for name, work, about, short in [
            ("lines", _lines, LINES, "JSON lines"),
            ("from-lines", lambda given: _with_source(given, lambda file, _: write_report(
                as_text(file), print)), FROM_LINES, "the report again, from JSON lines"),
            ("summary", lambda given: _with_source(given, lambda file, progress: write_summary(
                file, print, Options(given.sort, given.one_line, given.within), progress)),
             SUMMARY, "a table with a line a job"),
            ("load", _load, LOAD, "a table with a line for each step of time"),
            ("svg", lambda given: _draw(given, False), SVG, "a picture"),
            ("html", lambda given: _draw(given, True), HTML, "a page with the picture, that zooms")]:
        one = forms.add_parser(name, description=about, help=short)
        what = "JSON lines" if name == "from-lines" else "the report"
        one.add_argument("file", metavar="FILE", nargs="?", help=f"{what}; standard input by default")
        _ADDED.get(name, lambda one: None)(one)
        one.set_defaults(work=work)
    return parser


def _work(given):
    """Writes the form. There are no reference cycles, and the search for them takes a quarter of the time."""
    gc.disable()
    given.work(given)


main = command.main(_arguments, _work)
