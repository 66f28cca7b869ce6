"""The load of policies as a picture: a panel a policy, all with one time axis and one height for the same load. The
windows of the service are shaded. An outcome is shown by its colour and by its place: ok is above err.

A page has the picture in two widths, of which it shows the one that fits, and the table, in one file."""
from zsched_tools.drawing import (Scale, cut_text, escaped, labels, opening, path, place, rectangle, steps_to, text,
                                  text_width)
from zsched_tools.outage.curve import headline, policy_lines, state_words, table
from zsched_tools.outage.scenario import DOWN, THOUSAND
from zsched_tools.words import WIDTH, duration, shown

MARGIN, PANEL, GAP = 16, 120, 34
# The room above a panel for the policy and the title of its loads, and above the loads for what the service does.
HEAD_ROOM, WORDS = 50, 18
SMALL, LETTERS, TITLE = 11, 12, 14
# A picture has no more columns than this; of more seconds some share one.
MOST_COLUMNS = 600

STYLE = """svg{color-scheme:light dark;--ink:#1f2933;--soft:#52606d;--page:#fff;--grid:#d9dee4;--edge:#7b8794;
--ok:#0a8f6a;--err:#8f1d3f;--run:#6b4fb0;--down:#f9dfe2;--slow:#fbeecb;--full:#e4e9f7}
@media(prefers-color-scheme:dark){svg{--ink:#e6eaee;--soft:#aab4be;--page:#14181d;--grid:#343c45;--edge:#7b8794;
--ok:#62dcb6;--err:#cf4a60;--run:#b39bea;--down:#45222a;--slow:#433719;--full:#262f4a}}
text{font-family:"DejaVu Sans",Verdana,Geneva,sans-serif;fill:var(--ink);font-size:12px}
.title{font-size:14px;font-weight:bold}.name{font-weight:bold}.soft{fill:var(--soft);font-size:11px}
.page{fill:var(--page)}.grid{stroke:var(--grid);fill:none}.edge{stroke:var(--edge);fill:none}
.ok{fill:var(--ok)}.err{fill:var(--err)}.begun{fill:none;stroke:var(--ink);stroke-width:1.3}
.running{fill:none;stroke:var(--run);stroke-width:1.3;stroke-dasharray:4 3}
.capacity{fill:none;stroke:var(--ink);stroke-width:1.3;stroke-dasharray:1 3}
.down{fill:var(--down)}.slow{fill:var(--slow)}.full{fill:var(--full)}"""

PAGE_HEAD = """<!doctype html>
<html lang="en">
<meta charset="utf-8">
<meta name="viewport" content="width=device-width">
<meta http-equiv="Content-Security-Policy" content="default-src 'none'; style-src 'unsafe-inline'">
<title>{title}</title>
<style>
:root{{color-scheme:light dark;--ink:#1f2933;--soft:#52606d;--page:#fff;--grid:#d9dee4}}
@media(prefers-color-scheme:dark){{:root{{--ink:#e6eaee;--soft:#aab4be;--page:#14181d;--grid:#343c45}}}}
body{{margin:0 auto;max-width:1240px;padding:12px;font:15px/1.45 system-ui,sans-serif}}
body{{color:var(--ink);background:var(--page)}}svg{{display:block;width:100%;height:auto}}.wide{{display:none}}
@media(min-width:800px){{.wide{{display:block}}.narrow{{display:none}}}}.narrow{{max-width:560px}}
.table{{overflow-x:auto}}table{{border-collapse:collapse;margin:12px 0;font-variant-numeric:tabular-nums}}
th,td{{padding:3px 0 3px 14px;border-bottom:1px solid var(--grid);text-align:right;white-space:nowrap}}
tr:first-child>th+th{{white-space:normal;overflow-wrap:anywhere;min-width:8ch;vertical-align:bottom}}
th:first-child{{padding-left:0;text-align:left;font-weight:normal;white-space:pre-wrap}}
p{{color:var(--soft);max-width:70ch}}.policy{{color:var(--ink);margin:4px 0;overflow-wrap:anywhere}}
@media(max-width:500px){{table{{font-size:12px}}th,td{{padding-left:8px}}}}
</style>
"""
NOTE = """<p>A panel shows one policy; all have the same time and the same height for the same load. Areas are the
attempts that ended in a second, ok above err; the line is those that began in it, the dashed line those that run at its
end, a dotted line the most that the service serves. The run of each policy is the report of a plan, which the program
confirmed for every client that is certified.</p>
"""


class Layout:
    """The places of everything: panels from top to bottom, seconds from left to right."""

    def __init__(self, scenario, figures, width):
        self.scenario, self.figures, self.width = scenario, figures, width
        last = max(it.curve.last for it in figures.values()) + 1
        self.every = -(-last // MOST_COLUMNS)
        self.columns = {name: columns(it.curve.rows(), self.every) for name, it in figures.items()}
        self.most = max(max(row[1], row[2] + row[3], row[4]) for rows in self.columns.values() for row in rows)
        self.steps = steps_to(self.most)
        self.left = MARGIN + max(text_width(f"{step:,}", SMALL) for step in self.steps) + 8
        self.scale = Scale(0, last * THOUSAND, self.left, width - MARGIN)
        self.title = _wrapped(headline(scenario), width - 2 * MARGIN)
        self.top = 26 + 18 * len(self.title)
        # The foot of the last panel's plot.
        self.bottom = self.panel(len(figures) - 1) + PANEL

    def panel(self, number):
        return self.top + number * (HEAD_ROOM + WORDS + PANEL + GAP - 20) + HEAD_ROOM + WORDS


def columns(rows, every):
    """The rows of a curve, some seconds as one: of each load the greatest."""
    rows = list(rows)
    groups = [rows[first:first + every] for first in range(0, len(rows), every)]
    return [(group[0][0], *map(max, list(zip(*group))[1:])) for group in groups]


def _wrapped(words, room):
    """The lines of the title, cut at its words."""
    lines = [""]
    for part in words.split(" "):
        longer = f"{lines[-1]} {part}".lstrip()
        if lines[-1] and text_width(longer, 1.15 * TITLE) > room:
            lines.append(part)
        else:
            lines[-1] = longer
    return lines


def _windows(layout, top):
    """The shaded windows, what the service does in each if there is room for it, and a line at the attempts that it
    serves in a second, if loads are as high as that: what is below the loads, and what is above them."""
    below, above, names = [], [], []
    for window in (it for it in layout.scenario.windows if it.begin < layout.scale.last):
        left, right = layout.scale.at(window.begin), layout.scale.at(window.end)
        words = f"{state_words(window)} from {window.begin} ms" + (
            f" to {window.end} ms" if window.end <= layout.scenario.horizon else "")
        style = "down" if window.state == DOWN else "full" if window.capacity is not None else "slow"
        below.append(rectangle(left, top - WORDS, right, top + PANEL, style, words))
        served = (window.capacity or 0) * THOUSAND / window.per
        if 0 < served <= layout.steps[-1]:
            above.append(path(f"M{place(left)} {place(_height(layout, top, served))}H{place(right)}", "capacity"))
        words = cut_text(state_words(window), SMALL, right - left - 8)
        names += [text(left + 4, top - 5, words, "soft")] * (len(words) > 1)
    return below, above + names


def _grid(layout, top):
    """The lines of a panel with their loads, and those of the moments."""
    for step in layout.steps:
        y = _height(layout, top, step)
        yield path(f"M{place(layout.left)} {place(y)}H{place(layout.scale.right)}", "grid")
        yield text(layout.left - 6, y + 4, f"{step:,}", "soft", "end")
    for moment, _ in labels(layout.scale)[0]:
        x = layout.scale.at(moment)
        yield path(f"M{place(x)} {place(top)}V{place(top + PANEL)}", "grid")


def _height(layout, top, load):
    return top + PANEL * (1 - load / layout.steps[-1])


def _area(layout, top, rows, low, high):
    """The outline of an area between two loads of each second."""
    def edge(load, seconds):
        for row in seconds:
            sides = [layout.scale.at(row[0] * THOUSAND), layout.scale.at((row[0] + layout.every) * THOUSAND)]
            for x in sides if seconds is rows else reversed(sides):
                yield f"{place(x)} {place(_height(layout, top, load(row)))}"
    return "M" + "L".join([*edge(high, rows), *edge(low, rows[::-1])]) + "Z"


def _line(layout, top, rows, load):
    """A line through a load of each second, in steps."""
    steps = [f"M{place(layout.left)} {place(_height(layout, top, load(rows[0])))}"]
    for row in rows:
        right = layout.scale.at((row[0] + layout.every) * THOUSAND)
        steps.append(f"V{place(_height(layout, top, load(row)))}H{place(right)}")
    return "".join(steps)


def _panel(layout, number, name):
    """A policy's panel: the shaded windows, what ended in each second, and the lines of what began and what runs."""
    top, rows, figures = layout.panel(number), layout.columns[name], layout.figures[name]
    (short, _), (height, _) = [peak or (0, 0) for peak in figures.peaks[:2]]
    served, count = len(figures.times), figures.clients
    words = "all served" if served == count else f"{served:,} of {count:,} served"
    words += f", the last at {duration(figures.last_success)}" if served == count else ""
    verdict = [f"{figures.attempts:,} attempts", f"peak {height:,} a second, {short:,} in 100 ms", words]
    room = layout.width - MARGIN - layout.left
    called, policy = cut_text(name, LETTERS, room / 3), shown(figures.text, 10 * WIDTH)
    yield text(layout.left, top - WORDS - 37, called, "name", title=name)
    begin = layout.left + 1.15 * text_width(called, LETTERS) + 8
    yield text(begin, top - WORDS - 37, cut_text(policy, SMALL, layout.width - MARGIN - begin), "soft", title=policy)
    words = "; ".join(verdict)
    while text_width(words, SMALL) > room and "; " in words:
        words = words.rpartition("; ")[0]
    yield text(layout.left, top - WORDS - 21, words, "soft", title="; ".join(verdict))
    axis = "attempts in each second" + (f", the most of {layout.every} seconds" if layout.every > 1 else "")
    yield text(MARGIN, top - WORDS - 5, axis, "soft")
    below, above = _windows(layout, top)
    yield from below
    yield from _grid(layout, top)
    yield path(_area(layout, top, rows, lambda row: 0, lambda row: row[3]), "err")
    yield path(_area(layout, top, rows, lambda row: row[3], lambda row: row[2] + row[3]), "ok")
    yield path(_line(layout, top, rows, lambda row: row[4]), "running")
    yield path(_line(layout, top, rows, lambda row: row[1]), "begun")
    yield from above
    yield path(f"M{place(layout.left)} {place(top + PANEL)}H{place(layout.scale.right)}", "edge")


def _legend(layout):
    """What the colours and lines mean, and the height of its foot."""
    left, base, found = float(MARGIN), layout.bottom + 44, []
    styles = {"begun": "begun", "ok": "ended ok", "err": "ended err", "running": "running", "capacity": "capacity"}
    if not any('"capacity"' in it for it in _windows(layout, layout.top)[1]):
        del styles["capacity"]
    for style, words in styles.items():
        width = 24 + text_width(words, SMALL)
        if left + width > layout.width - MARGIN:
            left, base = float(MARGIN), base + 18
        is_line = style in ("begun", "running", "capacity")
        found += [path(f"M{place(left)} {place(base - 4)}h18", style) if is_line else
                  rectangle(left, base - 10, left + 18, base + 1, style), text(left + 24, base, words, "soft")]
        left += width + 18
    return found, base + MARGIN


def draw_curves(scenario, figures, width=960, is_file=True):
    """The picture as SVG, in lines: for a file, or inside of a page."""
    layout = Layout(scenario, figures, width)
    legend, height = _legend(layout)
    yield from opening(width, height, headline(scenario), STYLE, is_file)
    for number, words in enumerate(layout.title):
        yield text(MARGIN, 26 + 18 * number, words, "title")
    for number, name in enumerate(figures):
        yield from _panel(layout, number, name)
    for moment, label in labels(layout.scale)[0]:
        yield text(layout.scale.at(moment), layout.bottom + 16, label, "soft", "middle")
    yield from legend
    yield "</svg>"


def curve_page(scenario, figures):
    """The page, in pieces."""
    yield PAGE_HEAD.format(title=escaped(headline(scenario)))
    for style, width in [("wide", 920), ("narrow", 360)]:
        yield f'<div class="{style}">\n'
        for line in draw_curves(scenario, figures, width, is_file=False):
            yield f"{line}\n"
        yield "</div>\n"
    rows, each = [*table(scenario, figures)], range(1, len(figures) + 1)
    # A narrow window has room for the columns of two policies.
    for style, columns in [("wide", each), *(("narrow", [it]) for it in each)] if len(each) > 2 else [("", each)]:
        yield f'<div class="table {style}"><table>\n'
        for number, cells in enumerate(rows):
            mark = "th" if number == 0 else "td"
            yield f'<tr><th scope="row">{escaped(cells[0])}</th>'
            yield "".join(f"<{mark}>{escaped(cells[it])}</{mark}>" for it in columns) + "</tr>\n"
        yield "</table></div>\n"
    notes = [f"{name}: {it.note()}" for name, it in figures.items() if it.uncertified]
    for line in [*policy_lines(figures), *notes]:
        yield f'<p class="policy">{escaped(line)}</p>\n'
    yield NOTE + "</html>\n"
