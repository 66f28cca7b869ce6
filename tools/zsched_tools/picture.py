"""A report as a picture: jobs from top to bottom, time from left to right. Its shapes are single attempts, blocks of
many, and the marks of endings. Both shape and colour show an outcome: an attempt that succeeded is tall and round, one
that failed is low and square."""
from dataclasses import dataclass, replace

from zsched_tools import strip
from zsched_tools.drawing import (PATTERNS, SMALL_SIZE, STYLE, TITLE_SIZE, WIDTH, Scale, View, cut_text, labels,
                                  opening, path, place, rectangle, shown_moments, text, text_width, titled, view_within)
from zsched_tools.reports import Attempt, Ending, Job
from zsched_tools.words import duration, ending_text, plural, shown

MOST_JOBS, LONGEST_RESULT = 200, 24
# In pixels.
MARGIN, AFTER_PLOT, WIDEST_NAME, WIDEST_VERDICT, WAIT_SIZE = 16, 34, 250, 380, 11
# In pixels: an attempt of at least the width ALONE has a separate shape, and every shape is at least NARROWEST wide.
# Narrow attempts that are nearer than NEAR share a block, up to the width BLOCK. A shape is cut for the next one, but
# not below the width LEAST.
ALONE, NARROWEST, NEAR, BLOCK, LEAST = 4.0, 3.0, 1.5, 12.0, 0.8
# The end of a call that is proved has a whole line. The styles are those of draws and ends.
END_STYLES = {"proved end": "proof"}
MORE_STYLE = """
.draws{fill:#8a6fc1;fill-opacity:.2}
.proof{stroke:#087456;stroke-width:2}.claim{stroke:#b8304a;stroke-width:2;stroke-dasharray:5 3}
@media(prefers-color-scheme:dark){.proof{stroke:#37c29b}.claim{stroke:#f0808f}}"""
# In pixels: how far the name of a row is to the right for each layer over it.
DEEPER = 14
FAILED_HEIGHT = 0.56


@dataclass(slots=True)
class Shape:
    """What is drawn as one: an attempt, or a block of many."""
    left: float
    right: float
    is_narrow: bool
    first: Attempt
    last: Attempt
    count: int
    failed: int


def shapes_of(attempts, scale):
    """The shapes of a job's attempts, from left to right."""
    found = []
    for attempt in attempts:
        if attempt.begin > scale.last or (attempt.end is not None and attempt.end < scale.first):
            continue
        left, right = scale.at(attempt.begin), scale.right if attempt.end is None else scale.at(attempt.end)
        is_narrow = right - left < ALONE and attempt.end is not None
        if is_narrow:
            right = max(right, left + NARROWEST)
        failed, last = int(attempt.outcome == "err"), found[-1] if found else None
        if last is not None and is_narrow and last.is_narrow and left - last.right < NEAR and left - last.left < BLOCK:
            last.last, last.right, last.count, last.failed = attempt, right, last.count + 1, last.failed + failed
        else:
            found.append(Shape(left, right, is_narrow, attempt, attempt, 1, failed))
    for shape, after in zip(found, found[1:]):
        shape.right = max(min(shape.right, after.left), shape.left + LEAST)
    # The last shape ends with the plot, or a little after it if it would be too narrow to see.
    for shape in found[-1:]:
        shape.right = max(min(shape.right, scale.right), shape.left + NARROWEST)
    return found


def shape_title(shape, name):
    """The text of a shape: the number of its attempts, or number, moments, outcome, wait and step of its attempt."""
    attempt = shape.first
    if shape.count > 1:
        return (f"attempts {attempt.number} to {shape.last.number} of {name}: {attempt.begin}..{shape.last.end} ms, "
                f"{shape.count - shape.failed} ok, {shape.failed} err")
    words = f"attempt {attempt.number} of {name}: {attempt.begin} ms .., still running at the horizon"
    if attempt.end is not None and attempt.outcome == "running":
        words = f"attempt {attempt.number} of {name}: {attempt.begin}..{attempt.end} ms, cut by the call's limit"
    elif attempt.end is not None:
        words = (f"attempt {attempt.number} of {name}: {attempt.begin}..{attempt.end} ms, {attempt.outcome} "
                 f"{attempt.value}; took {duration(attempt.end - attempt.begin)}")
    if attempt.waited is not None:
        words += f", waited {duration(attempt.waited)}"
    if attempt.out is not None:
        step = "done" if attempt.next is None else f"next {attempt.next}"
        words += f"; step: out {shown(attempt.out, 60)}, {step}"
    return words


def draw_shape(shape, middle, height, name):
    """A shape at the middle of its row. A block of many is tall if no attempt failed, low if all failed. In a mixed
    one the lower part shows the share that failed, the upper part the share that succeeded."""
    title, left, right = shape_title(shape, name), shape.left, shape.right
    if not shape.is_narrow and right - left > ALONE:
        right -= 0.6
    top, bottom = middle - height / 2, middle + height / 2
    low, share = bottom - height * FAILED_HEIGHT, shape.failed / shape.count
    if shape.first.outcome == "running":
        yield rectangle(left, top, right, bottom, "running", title)
    elif shape.count == 1 and shape.failed:
        yield rectangle(left, low, right, bottom, "err", title)
    elif shape.count == 1:
        yield rectangle(left, top, right, bottom, "ok", title, min(3, (right - left) / 2))
    else:
        if 0 < share < 1:
            top, bottom = low - max(1, (low - top) * (1 - share)), low + max(1, (bottom - low) * share)
        ok = [rectangle(left, top, right, low if share else bottom, "ok")] if share < 1 else []
        err = [rectangle(left, low, right, bottom, "err")] if share else []
        many = rectangle(left, low if share == 1 else top, right, bottom, "many")
        yield f"<g>{titled(title)}" + "".join([*ok, *err, many]) + "</g>"


def mark(how, x, y, size):
    """How a job ended: a tick in a disc (succeeded), a square in a disc (finished), a cross in a square (failed)."""
    half = size * 0.5
    if how == "failed":
        yield rectangle(x - size, y - size, x + size, y + size, "err")
        yield path(f"M{place(x - half)} {place(y - half)}l{place(size)} {place(size)}"
                   f"m0 {place(-size)}l{place(-size)} {place(size)}", "sign")
        return
    yield f'<circle class="ok" cx="{place(x)}" cy="{place(y)}" r="{place(size)}"/>'
    if how == "succeeded":
        yield path(f"M{place(x - half)} {place(y)}l{place(size * 0.4)} {place(size * 0.45)}"
                   f"l{place(size * 0.65)} {place(size * -0.9)}", "sign")
    else:
        yield rectangle(x - size * 0.4, y - size * 0.4, x + size * 0.4, y + size * 0.4, "hole")


@dataclass(slots=True)
class Row:
    """A job with all its attempts. `limit` is the moment at which its call ends, `draws` has the first and the last
    moment at which each attempt begins, whatever is drawn, `end` the latest end of the call and what says so, and
    `depth` is the number of layers over it."""
    job: Job
    attempts: list
    ending: Ending
    limit: int | None = None
    draws: tuple = ()
    end: tuple | None = None
    depth: int = 0

    def limited(self):
        """The job up to the limit of its call, if it goes on then: an attempt that runs is cut."""
        moment = self.limit
        if moment is None or moment > self.ending.at or moment == self.ending.at and self.ending.how != "unfinished":
            return self
        attempts = [it for it in self.attempts if it.begin < moment]
        if attempts and (attempts[-1].end is None or attempts[-1].end > moment):
            attempts[-1] = replace(attempts[-1], end=moment, outcome="running", value=None, out=None)
        return replace(self, attempts=attempts, ending=replace(self.ending, how="cut", value=None, out=None, at=moment))

    def verdict(self, base):
        """How the job ended, in words, and when, counted from a base."""
        when = ("+" if base else "") + duration(max(0, self.ending.at - base))
        many = plural(len(self.attempts), "attempt") if self.attempts else "never began"
        if self.ending.how == "unfinished":
            return f"unfinished at {when} · {many}"
        if self.ending.how == "cut":
            return f"ended by the call's limit at {when} · {many}"
        return f"{ending_text(self.ending.how, self.ending.result(), LONGEST_RESULT)} · {many} · {when}"


class Layout:
    """The places of everything: rows by their number, the plot from left to right, and the texts next to it."""

    def __init__(self, rows, head, view=View()):
        count = max(1, len(rows))
        self.row = 40 if count <= 6 else 30 if count <= 16 else 20
        self.size = 13 if self.row >= 30 else SMALL_SIZE
        self.style = "large" if self.row >= 30 else "small"
        self.bar = self.row * 0.42
        names = max([text_width(row.job.name, self.size) + DEEPER * row.depth for row in rows], default=0)
        self.name_room = min(WIDEST_NAME, names) + 1
        self.left = MARGIN + self.name_room + 60
        verdicts = max([text_width(row.verdict(0), self.size) for row in rows], default=0)
        self.verdict_room = min(WIDEST_VERDICT, verdicts) + 1
        self.right = WIDTH - MARGIN - self.verdict_room - AFTER_PLOT
        self.horizon = next((row.ending.at for row in rows if row.ending.how == "unfinished"), None)
        # The unit of a logarithmic axis is the time of the shortest first attempt.
        firsts = [row.attempts[0] for row in rows if row.attempts and row.attempts[0].end is not None]
        unit = max(1, min((it.end - it.begin for it in firsts), default=1)) if view.is_log else None
        cuts = [row.ending.at for row in rows if row.ending.how == "cut"]
        moments = shown_moments([row.attempts for row in rows], max(cuts, default=None) if self.horizon is None else
                                self.horizon)
        moments = _with_draws(rows, *moments)
        self.scale = Scale(*(view_within(*moments, view) if rows else moments), self.left, self.right, unit)
        self.labels, self.base = labels(self.scale)
        self.shapes = [shapes_of(row.attempts, self.scale) for row in rows]
        self.waits = [list(waits_of(row, shapes, self.scale)) for row, shapes in zip(rows, self.shapes)]
        self.top = 34 + head + (18 if self.base else 0)
        self.bottom = self.top + count * self.row
        self.foot = self.bottom + (24 + strip.HEIGHT if count >= strip.FEWEST_ROWS else 6)

    def middle(self, number):
        """The height of a row's attempts."""
        return self.top + (number + 0.5) * self.row


def _with_draws(rows, first, last):
    """The moments of a picture, with those at which attempts may begin, and with the ends that are at most four times
    as far."""
    last = max([last, *(most for row in rows for _, most in row.draws)])
    return first, max([last, *(row.end[0] for row in rows if row.end and row.end[0] - first <= 4 * (last - first))])


def draw_bands(layout, count, right):
    """The grey backgrounds of every other row."""
    for number in range(0, count, 2):
        top = layout.top + number * layout.row
        yield rectangle(8, top, right, top + layout.row, "band")


def draw_grid(layout, count):
    """The moments' lines, their labels below many rows, and the horizon."""
    for moment, label in layout.labels:
        x = layout.scale.at(moment)
        yield path(f"M{place(x)} {place(layout.top - 5)}V{place(layout.bottom)}", "grid")
        if count > 16:
            yield text(x, layout.bottom + 16, label, "axis", "middle")
    if layout.horizon is not None and layout.scale.first <= layout.horizon <= layout.scale.last:
        x = layout.scale.at(layout.horizon)
        title = f"horizon, {layout.horizon} ms"
        yield path(f"M{place(x)} {place(layout.top)}V{place(layout.bottom)}", "horizon", title)


def waits_of(row, shapes, scale):
    """The waits of a job that are long enough to be seen: the two ends, and the length, which is None for a wait that
    continues at the horizon. A wait that begins or ends outside of the picture is drawn to its edge."""
    before = [it for it in row.attempts if it.end is not None and it.end < scale.first][-1:]
    after = [it for it in row.attempts if it.begin > scale.last][:1]
    ends = [(scale.left, scale.left, it, it) for it in before]
    ends += [(shape.left, shape.right, shape.first, shape.last) for shape in shapes]
    ends += [(scale.right, scale.right, it, it) for it in after]
    for (_, left, _, last), (right, _, first, _) in zip(ends, ends[1:]):
        if right - left >= 2:
            yield left, right, first.begin - last.end
    last = row.attempts[-1] if row.attempts else None
    if row.ending.how in ("unfinished", "cut") and last is not None and last.end is not None and shapes:
        right = scale.right if row.ending.how == "unfinished" else scale.at(row.ending.at)
        if shapes[-1].last is last and right - shapes[-1].right >= 8:
            yield shapes[-1].right, right, None


def draw_row(layout, number, row):
    """A job's attempts, and how it ended."""
    middle, shapes, waits = layout.middle(number), layout.shapes[number], layout.waits[number]
    yield from draw_draws(layout, middle, row)
    # The time between attempts, with its length if there is room.
    for left, right, time in waits:
        if time is None:
            yield path(f"M{place(right - 5)} {place(middle - 4)}l5 4l-5 4", "arrow")
        elif layout.row >= 30 and text_width(duration(time), WAIT_SIZE) + 8 < right - left:
            yield text((left + right) / 2, middle - 5, duration(time), "wide", "middle")
    if waits:
        yield path("".join(f"M{place(left)} {place(middle)}H{place(right)}" for left, right, _ in waits), "wait")
    for shape in shapes:
        yield from draw_shape(shape, middle, layout.bar, row.job.name)
    if row.ending.how == "cut" and row.ending.at <= layout.scale.last:
        x = place(layout.scale.at(row.ending.at))
        yield path(f"M{x} {place(middle - layout.bar)}V{place(middle + layout.bar)}", "horizon", "the call's limit")
    elif shapes and row.ending.how not in ("unfinished", "cut") and shapes[-1].last is row.attempts[-1]:
        size = min(layout.bar * 0.6, 7)
        yield from mark(row.ending.how, shapes[-1].right + size + 3, middle, size)
    verdict = cut_text(row.verdict(layout.base), layout.size, layout.verdict_room)
    style = {"failed": "bad", "cut": "bad", "unfinished": "open"}.get(row.ending.how, "good")
    full = ending_text(row.ending.how, row.ending.result(), 200)
    title = f"{row.job.name}: {full} at {row.ending.at} ms, {plural(row.ending.polls, 'poll')}"
    base = middle + layout.size * 0.35
    yield text(layout.right + AFTER_PLOT, base, verdict, f"{layout.style} {style}", title=title)


def draw_draws(layout, middle, row):
    """Where each attempt of a job may begin, and the end of its call."""
    scale, height = layout.scale, layout.bar * 0.8
    for number, (least, most) in enumerate(row.draws, 1):
        if scale.at(most) - scale.at(least) >= 1:
            yield rectangle(scale.at(least), middle - height, scale.at(most), middle + height, "draws",
                            f"attempt {number} of {row.job.name} begins from {duration(least)} to {duration(most)}")
    if row.end and scale.first <= row.end[0] <= scale.last:
        moment, words = row.end
        x = place(scale.at(moment))
        yield path(f"M{x} {place(middle - layout.bar)}V{place(middle + layout.bar)}", END_STYLES.get(words, "claim"),
                   f"{words} of {row.job.name}, {duration(moment)}")


def legend(layout, rows):
    """What the shapes mean: a drawing and its words, for each in the picture. Returns the elements and their height."""
    elements, left, height = [], float(MARGIN), 22
    for draw, words in legend_entries(layout, rows):
        width = 22 + text_width(words, SMALL_SIZE)
        if left + width > WIDTH - MARGIN:
            left, height = float(MARGIN), height + 22
        middle = layout.foot + height - 4
        elements += [*draw(left, middle), text(left + 22, middle + 4, words, "legend")]
        left += width + 20
    return elements, height + 12


def legend_entries(layout, rows):
    """The entries of the legend: how each is drawn at a place, and its words."""
    outcomes = {attempt.outcome for row in rows for attempt in row.attempts}
    is_many = any(shape.count > 1 for shapes in layout.shapes for shape in shapes)
    for is_there, words, *parts in [
            ("ok" in outcomes, "attempt ok", ("ok", -7, 7, 3)), ("err" in outcomes, "attempt err", ("err", -1, 7, 0)),
            ("running" in outcomes, "attempt still running", ("running", -7, 7, 0)),
            (is_many, "many attempts", ("ok", -7, -1, 0), ("err", -1, 7, 0), ("many", -7, 7, 0))]:
        if is_there:
            yield (lambda x, y, parts=parts: [rectangle(x, y + top, x + 16, y + bottom, style, corner=corner)
                                              for style, top, bottom, corner in parts]), words
    if any(layout.waits):
        yield lambda x, y: [path(f"M{place(x)} {place(y)}h16", "wait")], "waiting"
    for how, words in [("succeeded", "retry succeeded"), ("failed", "failed"), ("finished", "repeat finished")]:
        if how in {row.ending.how for row in rows}:
            yield (lambda x, y, how=how: mark(how, x + 8, y, 6)), words
    if any(row.draws for row in rows):
        yield lambda x, y: [rectangle(x, y - 7, x + 16, y + 7, "draws")], "where an attempt may begin"
    for what in dict.fromkeys(row.end[1] for row in rows if row.end):
        ends = [row.end[0] for row in rows if row.end and row.end[1] == what]
        away = [duration(it) for it in ends if it > layout.scale.last]
        words = what + f", {', '.join(away[:3])}: outside of this picture" * bool(away)
        style = END_STYLES.get(what, "claim")
        yield lambda x, y, style=style: [path(f"M{place(x + 8)} {place(y - 8)}v16", style)], words
    if layout.horizon is not None:
        is_shown = layout.scale.first <= layout.horizon <= layout.scale.last
        words = f"horizon, {duration(layout.horizon)}" + ("" if is_shown else ", outside of this picture")
        yield lambda x, y: [path(f"M{place(x + 8)} {place(y - 8)}v16", "horizon")], words


def draw(rows, title, view=View(), is_file=True, notes=()):
    """The picture of some jobs as SVG, in lines: for a file, or inside of a page. The notes are below its title."""
    head, rows = 30 if title else 0, [row.limited() for row in rows]
    layout = Layout(rows, head + 18 * len(notes), view)
    entries, height = legend(layout, rows)
    yield from opening(WIDTH, layout.foot + height, title or "Timeline of a report of zsched",
                       STYLE + MORE_STYLE * any(row.draws or row.end for row in rows), is_file, PATTERNS)
    if title:
        yield text(MARGIN, 27, cut_text(title, TITLE_SIZE * 1.1, WIDTH - 2 * MARGIN), "title")
    for number, note in enumerate(notes, 1):
        yield text(MARGIN, head + 18 * number, cut_text(note, SMALL_SIZE, WIDTH - 2 * MARGIN), "legend", title=note)
    if rows:
        yield from draw_jobs(layout, rows)
    else:
        yield text(MARGIN, layout.middle(0) + 4, "a report without jobs", "legend")
    yield from entries
    yield "</svg>"


def draw_jobs(layout, rows):
    """All jobs, with the axis. Names and moments are separate groups, which a page shows at all times."""
    yield from draw_bands(layout, len(rows), WIDTH - 8)
    yield from draw_grid(layout, len(rows))
    for number, row in enumerate(rows):
        yield from draw_row(layout, number, row)
    if len(rows) >= strip.FEWEST_ROWS:
        yield from strip.strip(strip.load_of_rows(rows, layout.scale), layout.scale, layout.bottom + 24)
    yield '<g id="names">'
    yield rectangle(0, layout.top, layout.left - 2, layout.bottom, "page")
    yield from draw_bands(layout, len(rows), layout.left - 2)
    for number, row in enumerate(rows):
        base = layout.middle(number) + layout.size * 0.35
        name = cut_text(row.job.name, layout.size, layout.name_room - DEEPER * row.depth)
        yield text(MARGIN + DEEPER * row.depth, base, name, layout.style,
                   title=row.job.name if name != row.job.name else None)
        yield text(layout.left - 10, base, row.job.mode, "mode", "end")
    yield '</g><g id="moments">'
    # The labels of the moments above the rows.
    yield rectangle(0, layout.top - 24 - (18 if layout.base else 0), WIDTH, layout.top, "page")
    if layout.base:
        yield text(layout.left, layout.top - 28, f"time since moment {layout.base} ms", "axis")
    for moment, label in layout.labels:
        x = layout.scale.at(moment)
        yield path(f"M{place(x)} {place(layout.top - 5)}V{place(layout.top)}", "grid")
        yield text(x, layout.top - 10, label, "axis", "middle")
    yield path(f"M{place(layout.left)} {place(layout.top)}H{place(layout.right)}", "edge")
    yield "</g>"
