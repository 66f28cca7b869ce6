"""How cost grows against the jobs, the attempts of one job, the nodes of a schedule and the workers: the plans, the fit
of an exponent, the tables and the picture."""
import math
from typing import Callable, NamedTuple

import plans

ATTEMPTS = 1_000_000
STEPS_OF_NODES = 1000
JOBS_OF_WORKERS = 10_000
GRAIN_OF_WORKERS = 10


class Axis(NamedTuple):
    """What grows: its name, its sizes in rising order, and a function that makes the plan of a size."""
    name: str
    sizes: list
    plan: Callable


class Point(NamedTuple):
    """A size, and the run of each program at it."""
    size: int
    runs: list


class Line(NamedTuple):
    """A line of a panel: its name, and its pairs of a size and a value."""
    name: str
    values: list


class Panel(NamedTuple):
    """A picture of lines: its title, the texts of a size and of a value, and its lines."""
    title: str
    value: Callable
    lines: list


def up_to(most, least=10):
    """1, 2 and 5 times each power of ten, from the least to the most."""
    found = [step * 10 ** power for power in range(len(str(most))) for step in [1, 2, 5]]
    return [size for size in found if least <= size <= most]


def axes(divisor=1, attempts=ATTEMPTS):
    """What is measured. The divisor divides the greatest numbers of jobs and attempts; a decade of each remains."""
    def of_jobs(count):
        return plans.jobs_at_once(count, 1, 1)

    def of_attempts(count):
        return plans.steps_of("forever", count)

    def of_nodes(count):
        return plans.steps_of(plans.balanced((count + 1) // 2), max(1, STEPS_OF_NODES // divisor))

    def of_workers(count):
        return plans.jobs_at_once(max(1, JOBS_OF_WORKERS // divisor), count, GRAIN_OF_WORKERS)

    return [
        Axis("jobs", up_to(max(100, 10_000 // divisor)), of_jobs),
        Axis("attempts of one job", up_to(max(1000, attempts // divisor), 100), of_attempts),
        Axis("nodes of a schedule", [1, 3, 5, 11, 21, 51, 101, 201, 501, 999], of_nodes),
        Axis("workers", [1, 2, 4, 8, 16, 32, 64], of_workers),
    ]


def exponent(values):
    """The exponent of a line to two places: the slope of its logarithms by least squares, over the upper decade."""
    last = max(size for size, _ in values)
    logs = [(math.log(size), math.log(value)) for size, value in values if size * 10 >= last]
    middle_x = sum(x for x, _ in logs) / len(logs)
    middle_y = sum(y for _, y in logs) / len(logs)
    spread = sum((x - middle_x) ** 2 for x, _ in logs)
    slope = sum((x - middle_x) * (y - middle_y) for x, y in logs) / spread
    return round(slope, 2) + 0.0  # The sum is never -0.0.


# The quantities of a run, and their titles.
QUANTITIES = {
    "processor": (lambda run: run.processor * 1000, "processor ms"),
    "wall": (lambda run: run.wall * 1000, "wall ms"),
    "memory": (lambda run: run.memory / 1e6, "peak MB"),
}


def lines_of(names, points, quantity):
    """A line for each program."""
    value = QUANTITIES[quantity][0]
    return [Line(name, [(point.size, value(point.runs[place])) for point in points])
            for place, name in enumerate(names)]


def table(name, names, points):
    """The Markdown table of an axis: a row for each size."""
    heads = [f"{program}, {title}" for _, title in QUANTITIES.values() for program in names]
    rows = [f"| {name} | {' | '.join(heads)} |", "|" + "---:|" * (1 + len(heads))]
    for point in points:
        cells = [f"{value(run):.1f}" for value, _ in QUANTITIES.values() for run in point.runs]
        rows.append(f"| {point.size:,} | {' | '.join(cells)} |")
    return "\n".join(rows)


def table_of_exponents(names, measured):
    """The Markdown table of the exponents of all lines."""
    heads = [f"{program}, {quantity}" for quantity in ["processor", "memory"] for program in names]
    rows = [f"| Against | {' | '.join(heads)} |", "|---|" + "---:|" * len(heads)]
    for axis, points in measured:
        cells = [f"{exponent(line.values):.2f}"
                 for quantity in ["processor", "memory"] for line in lines_of(names, points, quantity)]
        rows.append(f"| {axis.name} | {' | '.join(cells)} |")
    return "\n".join(rows)


# ---- the picture

COLUMN, ROW = 300, 240
LEFT, TOP, WIDTH, HEIGHT = 62, 62, 205, 140
COLORS = ["#1f4e9c", "#c2571a", "#7da0d6", "#e3a27c"]
DASHES = ["", "", "4 3", "4 3"]
CAPTION = "The number beside a name is the line's exponent, fitted by least squares over the upper decade of its sizes."


def size_text(size):
    """A size as a short text."""
    return f"{size}" if size < 1000 else f"{size // 1000}k" if size < 10 ** 6 else f"{size // 10 ** 6}M"


def milliseconds(value):
    """A time as a text."""
    return f"{value:g} ms" if value < 1000 else f"{value / 1000:g} s"


def megabytes(value):
    """A size of memory as a text."""
    return f"{value:g} MB" if value < 1000 else f"{value / 1000:g} GB"


def panels(names, measured):
    """The panels: time above, memory below. The panel of the workers shows wall time too, which they are to reduce."""
    times, memories = [], []
    for axis, points in measured:
        lines = lines_of(names, points, "processor")
        if axis.name == "workers":
            walls = lines_of([f"{name}, wall" for name in names], points, "wall")
            lines = lines + walls
        times.append(Panel(f"Processor time against {axis.name}", milliseconds, lines))
        memories.append(Panel(f"Peak memory against {axis.name}", megabytes, lines_of(names, points, "memory")))
    return [times, memories]


def decades(values):
    """The powers of ten around these values: the least and the greatest exponent, which differ."""
    low, high = math.floor(math.log10(min(values))), math.ceil(math.log10(max(values)))
    return low, max(high, low + 1)


def place(value, ends, length):
    """The place of a value on an axis of this length."""
    return (math.log10(value) - ends[0]) / (ends[1] - ends[0]) * length


def drawn_line(line, number, ends_x, ends_y):
    """A line with its points."""
    spots = [(LEFT + place(size, ends_x, WIDTH), TOP + HEIGHT - place(value, ends_y, HEIGHT))
             for size, value in line.values]
    path = " ".join(f"{x:.1f},{y:.1f}" for x, y in spots)
    dots = "".join(f'<circle cx="{x:.1f}" cy="{y:.1f}" r="2" fill="{COLORS[number]}"/>' for x, y in spots)
    return (f'<polyline points="{path}" fill="none" stroke="{COLORS[number]}" stroke-width="1.6" '
            f'stroke-dasharray="{DASHES[number]}"/>{dots}')


def grid(ends_x, ends_y, text_of_value):
    """The frame of a panel, and a thin line with its text for each power of ten."""
    parts = [f'<rect x="{LEFT}" y="{TOP}" width="{WIDTH}" height="{HEIGHT}" fill="none" stroke="#888"/>']
    for power in range(ends_x[0], ends_x[1] + 1):
        x = LEFT + place(10 ** power, ends_x, WIDTH)
        parts.append(f'<line x1="{x:.1f}" y1="{TOP}" x2="{x:.1f}" y2="{TOP + HEIGHT}" stroke="#ddd"/>')
        parts.append(f'<text x="{x:.1f}" y="{TOP + HEIGHT + 14}" text-anchor="middle">{size_text(10 ** power)}</text>')
    for power in range(ends_y[0], ends_y[1] + 1):
        y = TOP + HEIGHT - place(10 ** power, ends_y, HEIGHT)
        parts.append(f'<line x1="{LEFT}" y1="{y:.1f}" x2="{LEFT + WIDTH}" y2="{y:.1f}" stroke="#ddd"/>')
        parts.append(f'<text x="{LEFT - 6}" y="{y + 4:.1f}" text-anchor="end">{text_of_value(10 ** power)}</text>')
    return parts


def drawn_panel(panel):
    """A panel, its title, and the exponent of each line."""
    ends_x = decades([size for line in panel.lines for size, _ in line.values])
    ends_y = decades([value for line in panel.lines for _, value in line.values])
    parts = [f'<text x="{LEFT}" y="16" font-weight="bold">{panel.title}</text>']
    for number, line in enumerate(panel.lines):
        x, y = LEFT + number % 2 * 112, 34 + number // 2 * 15
        label = f"{line.name}: {exponent(line.values):.2f}"
        parts.append(f'<text x="{x}" y="{y}" fill="{COLORS[number]}">{label}</text>')
    parts += grid(ends_x, ends_y, panel.value)
    parts += [drawn_line(line, number, ends_x, ends_y) for number, line in enumerate(panel.lines)]
    return "\n".join(parts)


def picture(rows):
    """The panels as an SVG document."""
    width, height = COLUMN * max(map(len, rows)), ROW * len(rows) + 24
    parts = [f'<svg xmlns="http://www.w3.org/2000/svg" viewBox="0 0 {width} {height}" '
             f'width="{width}" height="{height}" font-family="sans-serif" font-size="11">',
             "<title>Cost against size, both on logarithmic scales, with the exponent of each line</title>",
             f'<rect width="{width}" height="{height}" fill="white"/>']
    for down, row in enumerate(rows):
        for across, panel in enumerate(row):
            parts.append(f'<g transform="translate({across * COLUMN} {down * ROW + 6})">\n{drawn_panel(panel)}\n</g>')
    parts.append(f'<text x="{LEFT}" y="{height - 10}">{CAPTION}</text>')
    return "\n".join(parts) + "\n</svg>\n"
