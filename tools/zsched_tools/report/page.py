"""A picture as a page whose axis of time zooms. It is self-contained, and makes no requests to the network.

The page contains the picture of a file. If scripts run, they draw it again at the width of the window, with the code of
docs/play.html."""
import json

from zsched_tools import hints, picture
from zsched_tools.drawing import WIDTH, View, escaped
from zsched_tools.report.lines import item_of, report_lines
from zsched_tools.strip import draw_strip

# The widths in which the load of many jobs is drawn, and the margin next to it.
LOAD_WIDTHS = (330, 760, WIDTH)
BESIDE = 24

HEAD = """<!doctype html>
<html lang="en">
<meta charset="utf-8">
<meta name="viewport" content="width=device-width, initial-scale=1">
<meta http-equiv="Content-Security-Policy" content="default-src 'none'; {scripts}style-src 'unsafe-inline'">
<title>{title}</title>
<style>
{style}
body{{margin:0;font:14px system-ui,"DejaVu Sans",sans-serif;color:var(--ink);background:var(--page)}}
h1{{font-size:17px;margin:10px 12px 0}}p{{margin:8px 12px 0;overflow-wrap:anywhere}}
label{{display:flex;gap:4px;align-items:center}}small{{color:var(--soft)}}
header{{position:sticky;top:0;background:var(--page);padding:8px 12px 0;z-index:1}}
header div{{display:flex;flex-wrap:wrap;gap:4px;align-items:center;margin-bottom:6px}}
button{{font:inherit;min-width:2.5em;padding:2px 8px;color:inherit;background:var(--band)}}
button{{border:1px solid var(--line);border-radius:5px}}
main{{padding:0 12px 12px;overflow-x:auto}}main>svg{{display:block}}
</style>
"""
TOOLS = """<header>
<div>
<button id="in" aria-label="shorter time">+</button>
<button id="out" aria-label="longer time">−</button>
<button id="back" aria-label="earlier">‹</button>
<button id="forth" aria-label="later">›</button>
<button id="all">whole time</button>
<label><input type="checkbox" id="log"> logarithmic</label>
<small>Ctrl and the wheel zoom too. Rest the pointer on an attempt to see its data.</small>
</div>
<div id="axis" aria-hidden="true"></div>
</header>
"""
VIEW = """"use strict";
const main = document.querySelector("main"), the = id => document.getElementById(id);
const first = JSON.parse(the("view").textContent);
const rows = drawing.rowsOf(the("report").textContent).map((row, number) => drawing.known(row, first.rows?.[number]));
let view = {}, drawn;
the("log").checked = first.isLog;
function draw() {
  const width = Math.max(280, main.clientWidth - 24), isLog = the("log").checked;
  drawn = drawing.picture(rows, { ...view, width, isLog, hasLoad: rows.length > 16 });
  main.innerHTML = drawn.svg;
  the("axis").innerHTML = drawn.axis;
  main.firstChild.style.marginTop = `${-drawn.top}px`;
}
function zoom(times, around, moved) {
  const [from, to] = drawing.zoomed(drawn, times, around, moved);
  view = { from, to };
  draw();
}
the("in").onclick = () => zoom(0.5, 0.5, 0);
the("out").onclick = () => zoom(2, 0.5, 0);
the("back").onclick = () => zoom(1, 0.5, -0.5);
the("forth").onclick = () => zoom(1, 0.5, 0.5);
the("all").onclick = () => { view = {}; draw(); };
the("log").onchange = draw;
addEventListener("resize", draw);
main.addEventListener("wheel", event => {
  if (!event.ctrlKey) return;
  event.preventDefault();
  zoom(event.deltaY < 0 ? 0.8 : 1.25, (event.clientX - 12 - drawn.left) / (drawn.right - drawn.left), 0);
}, { passive: false });
draw();
const since = moment => moment === undefined ? undefined : moment - Number(drawn.base);
view = { from: since(first.from), to: since(first.to) };
draw();
"""


def _head(title, scripts=""):
    name = escaped(title or "Timeline of a report of zsched")
    allowed = f"script-src {hints.script_sources(scripts)}; " if scripts else ""
    yield HEAD.format(title=name, style=hints.PIECES["drawing-style"], scripts=allowed)
    if title:
        yield f"<h1>{escaped(title)}</h1>\n"


def _known(row):
    """What a page knows of a row beside its report. The limit of a call counts from its first attempt, the others of
    draws are moments."""
    limit = row.limit and row.limit - row.attempts[0].begin
    found = {"limit": limit, "draws": row.draws, "end": row.end, "depth": row.depth}
    return {key: value for key, value in found.items() if value}


def page(rows, title, view=View(), notes=()):
    """The page of some jobs, in pieces, with the notes above the picture."""
    scripts = f"<script>\n{hints.PIECES['drawing']}</script>\n<script>\n{VIEW}</script>\n"
    yield from _head(title, scripts)
    yield from (f"<p>{escaped(note)}</p>\n" for note in notes)
    yield TOOLS + '<main tabindex="0">\n'
    for line in picture.draw(rows, title, view, is_file=False):
        yield f"{line}\n"
    yield '</main>\n<script type="text/plain" id="report">\n'
    for row in rows:
        for number, record in enumerate([*row.attempts, row.ending]):
            yield from (f"{line}\n" for line in report_lines(item_of(row.job, record), is_open=number > 0))
    known = list(map(_known, rows))
    shown = {"from": view.first, "to": view.last, "isLog": view.is_log, "rows": known if any(known) else None}
    options = json.dumps({key: value for key, value in shown.items() if value is not None})
    yield f'</script>\n<script type="application/json" id="view">{options}</script>\n'
    yield f"{scripts}</html>\n"


def _style_of_widths():
    """Shows the widest picture that fits. The patterns have the same names in all pictures, so all use those of the
    first picture. They stay visible if that picture is hidden."""
    yield "<style>main>div{visibility:hidden;height:0;overflow:hidden}pattern{visibility:visible}\n"
    for width, wider in zip(LOAD_WIDTHS, [*LOAD_WIDTHS[1:], None]):
        bounds = [f"(min-width:{width + BESIDE}px)"] if width > LOAD_WIDTHS[0] else []
        bounds += [f"(max-width:{wider + BESIDE - 1}px)"] if wider else []
        yield f"@media{'and'.join(f' {it} ' for it in bounds)}{{.w{width}{{visibility:visible;height:auto}}}}\n"
    yield "</style>\n"


def load_page(load, title, note, view=View()):
    """The page of a load, in pieces, in each of some widths. It doesn't zoom."""
    yield from _head(title)
    yield from _style_of_widths()
    yield f'<main tabindex="0">\n<p><small>{escaped(note)}</small></p>\n'
    for width in LOAD_WIDTHS:
        yield f'<div class="w{width}">\n'
        for line in draw_strip(load, "", view=view, width=width):
            yield f"{line}\n"
        yield "</div>\n"
    yield "</main>\n</html>\n"
