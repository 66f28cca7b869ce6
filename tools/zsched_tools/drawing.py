"""Elements of a picture in SVG, how wide a text is, and the time axis: the places of moments, and those with labels."""
import html
import itertools
import math
from typing import NamedTuple

from zsched_tools.command import Refused
from zsched_tools.words import DAY, HOUR, MINUTE, duration, one_line

# In pixels: the width of a picture that is a file, and the sizes of letters.
WIDTH, TITLE_SIZE, SMALL_SIZE = 1240, 16, 11
# Widths of DejaVu Sans, in parts of the text's size. Verdana's are nearly the same, those of other fonts smaller.
_WIDTHS = {0.33: "ijlIJ .,:;'|·", 0.42: "frt-()[]/", 0.56: "cszLF_", 0.8: "wDGHNOQU+", 1.0: "mMW%@…"}
_WIDTH_OF = {letter: width for width, letters in _WIDTHS.items() for letter in letters}
NEAREST_LABELS = 90
LONGEST_LABEL = 12
_STEPS = [1, 2, 5, 10, 20, 50, 100, 200, 500, *(unit * it for unit in [1000, MINUTE] for it in [1, 2, 5, 10, 15, 30]),
          *(HOUR * it for it in [1, 2, 3, 6, 12])]

STYLE = """svg{color-scheme:light dark}text{font-family:"DejaVu Sans",Verdana,Geneva,sans-serif;fill:#1f2933}
.title{font-size:16px;font-weight:bold}.large{font-size:13px}.small,.axis,.legend,.mode,.wide{font-size:11px}
.axis,.legend,.mode,.wide{fill:#616e7c}
.page{fill:#fff}.band{fill:#f5f7fa}.grid{stroke:#d9dee4}.edge{stroke:#7b8794}
.horizon{stroke:#52606d;stroke-dasharray:6 3 1 3}
.ok{fill:#0a8f6a}.err{fill:#8f1d3f}.good{fill:#087456}.bad{fill:#b8304a}.open{fill:#616e7c}
.running{fill:url(#running);stroke:#8a6fc1}.hatch{fill:#e2dbf0}.line{stroke:#8a6fc1;stroke-width:3}
.many{fill:url(#many)}.stripe{fill:#fff;fill-opacity:.55}
.wait,.arrow{fill:none;stroke:#7b8794}.wait{stroke-dasharray:2 3}
.sign{fill:none;stroke:#fff;stroke-width:1.6}.hole{fill:#fff}
@media(prefers-color-scheme:dark){text{fill:#e4e7eb}.axis,.legend,.mode,.wide{fill:#a3afbb}
.page,.hole{fill:#14191f}.band{fill:#1d252e}.grid{stroke:#3e4c59}.edge,.horizon,.wait,.arrow{stroke:#9aa5b1}
.ok{fill:#62dcb6}.err{fill:#cf4a60}.good{fill:#37c29b}.bad{fill:#f0808f}.open{fill:#a3afbb}
.hatch{fill:#2f2844}.line{stroke:#a48cd8}.running{stroke:#a48cd8}.stripe{fill:#14191f}.sign{stroke:#14191f}}"""

PATTERNS = ('<pattern id="running" width="6" height="6" patternUnits="userSpaceOnUse" patternTransform="rotate(45)">'
            '<rect class="hatch" width="6" height="6"/><path class="line" d="M0 0V6"/></pattern>'
            '<pattern id="many" width="3" height="3" patternUnits="userSpaceOnUse">'
            '<rect class="stripe" width="1" height="3"/></pattern>')


def text_width(text, size):
    """How wide a text is drawn at most, in pixels."""
    return size * sum(_WIDTH_OF.get(it, 0.7 if it.isupper() else 0.645) for it in text)


def cut_text(text, size, room):
    """The text, or as much of its beginning as there is room for, with an ellipsis."""
    if text_width(text, size) <= room:
        return text
    # No letter is narrower than a pixel, and a text of a policy has 65,536.
    text = text[:max(0, int(room))]
    while text and text_width(text + "…", size) > room:
        text = text[:-1]
    return text + "…"


def place(pixels):
    """A coordinate: at most one digit after the point."""
    return f"{pixels:.1f}".removesuffix(".0")


def opening(width, height, label, style, is_file=True, patterns=""):
    """The first lines of a picture: its size, its styles, and its background. It is as large as it was drawn: a narrow
    window scrolls, letters stay readable."""
    kind, height = 'xmlns="http://www.w3.org/2000/svg" ' if is_file else "", place(height)
    yield (f'<svg {kind}width="{width}" height="{height}" viewBox="0 0 {width} {height}" role="img" '
           f'aria-label="{escaped(label)}">')
    yield f"<style>{style}</style>" + (f"\n<defs>{patterns}</defs>" if patterns else "")
    yield f'<rect class="page" width="{width}" height="{height}"/>'


def rectangle(left, top, right, bottom, style, title=None, corner=0.0):
    """A filled rectangle of one of the styles."""
    rounded = f' rx="{place(corner)}"' if corner else ""
    box = f'x="{place(left)}" y="{place(top)}" width="{place(right - left)}" height="{place(bottom - top)}"'
    return f'<rect class="{style}" {box}{rounded}' + (f">{titled(title)}</rect>" if title else "/>")


def path(steps, style, title=None):
    """A line of one of the styles."""
    return f'<path class="{style}" d="{steps}"' + (f">{titled(title)}</path>" if title else "/>")


def text(left, base, words, style, anchor="start", title=None):
    """A text on its base line; `anchor` says which end of it, or its middle, is at `left`."""
    anchored = "" if anchor == "start" else f' text-anchor="{anchor}"'
    titles = titled(title) if title else ""
    return f'<text class="{style}" x="{place(left)}" y="{place(base)}"{anchored}>{escaped(words)}{titles}</text>'


def titled(words):
    """The text that is shown while the pointer rests on an element."""
    return f"<title>{escaped(words)}</title>"


def escaped(words):
    """A text within a picture or a page: in one line, and without marks."""
    return html.escape(one_line(words))


class View(NamedTuple):
    """The time that a picture shows: its first and last moment, None for a default; whether its axis is logarithmic."""
    first: int | None = None
    last: int | None = None
    is_log: bool = False


def view_within(first, last, view):
    """The moments of a view; `first` and `last` are the defaults."""
    first, last = first if view.first is None else view.first, last if view.last is None else view.last
    if first >= last and view != View(is_log=view.is_log):
        raise Refused(f"has nothing from {first} ms to {last} ms: --from must be before --to")
    return first, last


def round_numbers(unit=1):
    """1, 2, 5, 10, 20 and so on, times a unit."""
    return (unit * many * 10**power for power in itertools.count() for many in [1, 2, 5])


def steps_to(most):
    """Round numbers for the lines of an axis, from 0 to the first that isn't under the most: at most five."""
    step = next(step for step in round_numbers() if 4 * step >= most)
    return [step * number for number in range(max(1, -(-most // step)) + 1)]


class Scale:
    """Moments from `first` to `last`, drawn from the pixel `left` to the pixel `right`. With a `unit` the axis is
    logarithmic: equal ratios of the time since `first` are equally long, from about a unit of time on."""

    def __init__(self, first, last, left, right, unit=None):
        self.first, self.last = first, max(last, first + 1)
        self.left, self.right = left, right
        self.unit = unit
        self.whole = math.log1p((self.last - first) / unit) if unit else self.last - first

    def at(self, moment):
        """The pixel of a moment. A moment before the first has the first's pixel, one after the last has the last's."""
        time = min(max(moment, self.first), self.last) - self.first
        return self.left + (self.right - self.left) * (math.log1p(time / self.unit) if self.unit else time) / self.whole


def step_between_labels(time, room):
    """The least sensible step that leaves room between two labels."""
    least = time * NEAREST_LABELS / room
    return next(step for step in itertools.chain(_STEPS, round_numbers(DAY)) if step >= least)


def labels(scale):
    """The moments that get a label, with the labels; and the moment that they count from, or 0. Labels that
    would be long count from the first moment."""
    if scale.unit:
        return _labels_of_times(scale)
    step = step_between_labels(scale.last - scale.first, scale.right - scale.left)
    moments = range(-(-scale.first // step) * step, scale.last + 1, step)
    plain = [duration(moment) if moment else "0" for moment in moments]
    if scale.first == 0 or max(map(len, plain), default=0) <= LONGEST_LABEL:
        return list(zip(moments, plain)), 0
    base = scale.first
    moments = range(base, scale.last + 1, step)
    return [(moment, f"+{duration(moment - base)}") for moment in moments], base


def _labels_of_times(scale):
    """The same on a logarithmic axis: moments that count from the first one."""
    found = [(scale.first, "0" if scale.first == 0 else "+0 ms")]
    for time in [*_STEPS, *itertools.islice(round_numbers(DAY), 36)]:
        moment = scale.first + time
        if moment <= scale.last and scale.at(moment) - scale.at(found[-1][0]) >= NEAREST_LABELS * 2 // 3:
            found.append((moment, duration(time) if scale.first == 0 else f"+{duration(time)}"))
    return found, scale.first


def shown_moments(attempts, horizon):
    """The first and the last moment that a picture of some jobs' attempts shows. The time before the first attempt is
    left out if it would take more than a quarter of the width. So is the horizon if they would have less."""
    first = min([listed[0].begin for listed in attempts if listed], default=0)
    lasts = [listed[-1] for listed in attempts if listed]
    last = max([attempt.begin if attempt.end is None else attempt.end for attempt in lasts], default=0)
    if horizon is not None and (first == last or horizon - first <= 4 * (last - first)):
        last = max(last, horizon)
    if 4 * first < last:
        first = 0
    return first, last
