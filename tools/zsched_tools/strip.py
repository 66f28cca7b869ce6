"""Draws the load of many jobs as a strip of bars, below the rows of a picture or in place of them."""
from zsched_tools.drawing import (NEAREST_LABELS, PATTERNS, SMALL_SIZE, STYLE, TITLE_SIZE, WIDTH, Scale, View, cut_text,
                                  labels, opening, path, place, rectangle, round_numbers, step_between_labels, steps_to,
                                  text, text_width, titled, view_within)
from zsched_tools.load import Load
from zsched_tools.words import duration

# In pixels: the height of the bars of attempts, that of running and waiting, and that of the words above each.
BARS, LINES, WORDS = 56, 40, 18
HEIGHT = BARS + LINES + 2 * WORDS + 8
# The factor of the bars' heights in a picture that has only the strip.
ALONE = 3
FEWEST_ROWS, MOST_BARS = 17, 200
LEFT = 24


def load_of_rows(rows, scale):
    """The load of a picture's rows, in at most MOST_BARS steps."""
    found = Load(step_between_labels(max(1, scale.last - scale.first), NEAREST_LABELS * MOST_BARS))
    for row in rows:
        for record in [*row.attempts, row.ending]:
            found.take(record)
    return found


def _shown(load, first, last):
    """The rows of a load between two moments, the most attempts of one, and the most that run and wait at its end."""
    first, last = first // load.every, last // load.every
    rows = [row for row in load.clamped(first, last).rows() if first <= row[0] // load.every <= last]
    most = max([max(row[1], row[2] + row[3]) for row in rows], default=0)
    return rows, most, max([row[4] + row[5] for row in rows], default=0)


def strip(load, scale, top, times=1):
    """The strip of a load, from a height on: the attempts that ended in each step, and what runs and waits at its end.
    `times` is a factor of the bars' heights. If it isn't 1, the heights have an axis at the left."""
    rows, most, open_ = _shown(load, scale.first, scale.last)
    base, floor = _lines(top, times)
    every = duration(load.every)
    for foot, unit, greatest in [(base, times * BARS / max(1, most), most),
                                 (floor, times * LINES / max(1, open_), open_)] if times > 1 else ():
        for number in (it for it in steps_to(greatest) if it <= greatest):
            yield path(f"M{place(scale.left)} {place(foot - number * unit)}H{place(scale.right)}", "grid")
            yield text(scale.left - 5, foot - number * unit + 4, f"{number:,}", "legend", "end")
    yield _words(f"attempts in each {every}: those that ended, ok above err; a line: those that began; most: {most}",
                 f"in {every}: ok above err; line: begun; most: {most}", scale, top + WORDS - 5)
    yield from _bars(rows, load.every, scale, base, times * BARS / max(1, most))
    yield path(f"M{place(scale.left)} {place(base)}H{place(scale.right)}", "edge")
    yield _words(f"at its end: attempts that run, and above them jobs that wait; most: {open_}",
                 f"at its end: waiting above running; most: {open_}", scale, base + WORDS - 5)
    yield from _levels(rows, load.every, scale, floor, times * LINES / max(1, open_))
    yield path(f"M{place(scale.left)} {place(floor)}H{place(scale.right)}", "edge")


def _lines(top, times):
    """The heights of the two lines at the bottom of the bars."""
    base = top + WORDS + times * BARS
    return base, base + WORDS + times * LINES


def _words(long, short, scale, base):
    """What a part of the strip shows, in long words if they fit, else in short ones."""
    has_room = text_width(long, SMALL_SIZE) <= scale.right - scale.left
    return text(scale.left, base, long if has_room else short, "axis")


def _places(moment, every, scale):
    """The left and the right end of a step's bar, with a gap before the next one."""
    left, right = max(scale.left, scale.at(max(moment, scale.first))), scale.at(moment + every)
    return left, max(left + 0.5, right - 0.4)


def _bars(rows, every, scale, base, unit):
    """The bars of the attempts that ended in each step, with the step's figures as titles."""
    for moment, begun, ok, err, running, waiting in rows:
        if not begun + ok + err:
            continue
        left, right = _places(moment, every, scale)
        yield "<g>" + titled(f"{duration(moment)} .. {duration(moment + every)}: {begun} begun, {ok} ok, {err} err; "
                             f"at the end {running} running, {waiting} waiting")
        if err:
            yield rectangle(left, base - err * unit, right, base, "err")
        if ok:
            yield rectangle(left, base - (err + ok) * unit, right, base - err * unit, "ok")
        yield path(f"M{place(left)} {place(base - begun * unit)}H{place(right)}", "edge") + "</g>"


def _levels(rows, every, scale, base, unit):
    """The bars of what runs and what waits at the end of each step."""
    for moment, *_, running, waiting in rows:
        (left, right), level = _places(moment, every, scale), base - (running + waiting) * unit
        if running:
            yield rectangle(left, base - running * unit, right, base, "running")
        if waiting:
            yield rectangle(left, level, right, base - running * unit, "hatch")
            yield path(f"M{place(left)} {place(level)}H{place(right)}", "edge")


def _moments_of(load, view):
    """The first and the last moment that a load's picture shows."""
    first, last = load.steps() or (0, 0)
    return view_within(first * load.every, (last + 1) * load.every, view)


def draw_strip(load, title, note=None, view=View(), width=None):
    """The load as a separate picture, in lines of SVG. Without a width it is a file, as wide as a picture of rows.
    With a width it is a part of a page."""
    is_file, width = width is None, width or WIDTH
    first, last = _moments_of(load, view)
    least = -(-(-(-last // load.every) - first // load.every) // MOST_BARS)
    load = load.coarser(next(number for number in round_numbers() if number >= least))
    moments = _moments_of(load, view)
    left = LEFT + text_width(f"{max(_shown(load, *moments)[1:]):,}", SMALL_SIZE)
    scale = Scale(*moments, left, width - LEFT, load.every if view.is_log else None)
    found, base = labels(scale)
    top = 16 + (30 if title else 0) + (20 if note else 0) + (18 if base else 0)
    middle, floor = _lines(top, ALONE)
    bottom = floor + 8
    yield from opening(width, bottom + 34, title or "Load of a report of zsched", STYLE, is_file, PATTERNS)
    if title:
        yield text(LEFT, 27, cut_text(title, TITLE_SIZE * 1.1, width - 2 * LEFT), "title")
    if note:
        yield text(LEFT, top - 6 - (18 if base else 0), note, "legend")
    if base:
        yield text(LEFT, top - 6, f"time since moment {base} ms", "axis")
    for moment, label in found:
        at = scale.at(moment)
        x = place(at)
        # The line doesn't cross the words above the bars.
        yield path(f"M{x} {place(top + WORDS)}V{place(middle)}M{x} {place(middle + WORDS)}V{place(bottom)}", "grid")
        yield text(at, bottom + 16, label, "axis", "start" if at < 60 else "end" if at > width - 60 else "middle")
    yield from strip(load, scale, top, ALONE)
    yield "</svg>"
