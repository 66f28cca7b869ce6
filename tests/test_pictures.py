"""The pictures and pages of zsched-report: where things are, and that no figure is missing. Their words are in
tests/cases/zsched-report.txt."""
import math
import re
from xml.etree import ElementTree

import pytest

from report_samples import COARSE, GREATEST, REPORTS, RUNNING, WAITING, long_report, wide_report
from support import run_here
from zsched_tools.drawing import Scale
from zsched_tools.report import command
from zsched_tools.report.page import LOAD_WIDTHS

SVG = "{http://www.w3.org/2000/svg}"
PICTURES = [
    *REPORTS, "polls 0\n", wide_report(50, 6), wide_report(200, 9), long_report(5_000),
    "job a retry\nattempt 1 0..5 ok 1\nend succeeded 1 at 5 polls 2\npolls 2\n",
    RUNNING.replace("nightly-export", "W" * 64), RUNNING.replace("at 10000", "at 999999999999999"),
    GREATEST.replace("attempt 1 18446744073709551514..", "attempt 1 0..")]
each_picture = pytest.mark.parametrize("text", PICTURES, ids=range(len(PICTURES)))


def output(*words, text):
    status, found, errors = run_here(command.main, ["zsched-report", *words], text.encode())
    assert (status, errors) == (0, "")
    return found


def drawn_by(*words, text):
    """The picture that the command draws, read as XML."""
    return ElementTree.fromstring(output(*words, text=text))


def classed(root, kind, style): return [it for it in root.iter(SVG + kind) if it.get("class") == style]
def titles(root): return [it.text for it in root.iter(f"{SVG}title") if it.text.startswith("attempt")]
def bars(root): return [it for it in root.iter(f"{SVG}rect") if it.find(f"{SVG}title") is not None]
def begun(root): return [int(it) for one in root.iter(f"{SVG}title") for it in re.findall(r"(\d+) begun, ", one.text)]


def path_places(steps):
    x = y = 0.0
    for letter, rest in re.findall(r"([MHVlmhv])([^MHVlmhv]*)", steps):
        values = list(map(float, re.findall(r"-?[0-9.]+", rest)))
        for at in range(0, len(values), 2 if letter in "Mlm" else 1):
            if letter in "Mlm":
                x, y = values[at] + x * (letter != "M"), values[at + 1] + y * (letter != "M")
            elif letter in "Hh":
                x = values[at] + x * (letter == "h")
            else:
                y = values[at] + y * (letter == "v")
            yield x, y


def corners(element, size):
    """The places that an element covers, by its numbers alone. A text counts as 0.55 of its size a letter."""
    x, y, width, height, r = (float(element.get(name, "0")) for name in ["x", "y", "width", "height", "r"])
    kind = element.tag.removeprefix(SVG)
    if kind == "rect":
        return [(x, y), (x + width, y + height)]
    if kind == "circle":
        x, y = float(element.get("cx")), float(element.get("cy"))
        return [(x - r, y - r), (x + r, y + r)]
    if kind == "text":
        width = 0.55 * size * len(element.text)
        left = x - {"middle": width / 2, "end": width}.get(element.get("text-anchor"), 0)
        return [(left, y - size), (left + width, y + size / 4)]
    return path_places(element.get("d")) if kind == "path" else []


def check_nothing_outside(root):
    """No element extends beyond a picture."""
    _, _, width, height = map(float, root.get("viewBox").split())
    sizes = re.findall(r"([.\w,]+)\{[^}]*font-size:(\d+)px", root.find(f"{SVG}style").text)
    sizes = {name: float(size) for names, size in sizes for name in names.replace(".", "").split(",")}
    in_patterns = list(root.iterfind(f"{SVG}defs//*"))
    for element in [it for it in root.iterfind(".//*") if it not in in_patterns]:
        size = max([sizes.get(style, 0) for style in element.get("class", "").split()], default=0)
        for x, y in corners(element, size):
            assert 0 <= x <= width and 0 <= y <= height, ElementTree.tostring(element)


@each_picture
@pytest.mark.parametrize("words, least", [([], 89), (["--log"], 60)], ids=["plain", "log"])
def test_nothing_is_outside_of_a_picture_and_labels_are_apart(text, words, least):
    root = drawn_by("svg", "--title", "A title & <more>", *words, text=text)
    check_nothing_outside(root)
    places = sorted({float(it.get("x")) for it in classed(root, "text", "axis") if it.text[0] != "t"})[len(words):]
    assert all(right - left >= least for left, right in zip(places, places[1:]))


@pytest.mark.parametrize("text", [*REPORTS, wide_report(50, 3)], ids=range(7))
def test_each_attempt_that_has_room_has_a_title(text):
    assert len(titles(drawn_by("svg", text=text))) == text.count("\nattempt ")


def test_attempts_that_are_near_each_other_share_a_block():
    form = re.compile(r"attempts (\d+) to (\d+) of hammer: \d+\.\.\d+ ms, 0 ok, (\d+) err")
    root = drawn_by("svg", text=long_report(5_000))
    found = [tuple(map(int, form.fullmatch(title).groups())) for title in titles(root)]
    assert len(found) < 120 and sum(number for _, _, number in found) == 5_000
    assert [first for first, _, _ in found[1:]] == [last + 1 for _, last, _ in found[:-1]]


def test_outcomes_have_different_shapes():
    drawn = bars(drawn_by("svg", text=COARSE))
    [ok], [err] = ({float(bar.get("height")) for bar in drawn if bar.get("class") == style} for style in ["ok", "err"])
    assert err < 0.6 * ok and {bar.get("class") for bar in drawn if bar.get("rx")} == {"ok"}


@pytest.mark.parametrize("form", ["svg", "html"])
def test_of_more_than_200_jobs_the_load_is_drawn_with_all_figures(form):
    out = output(form, "--title", "T & U", text=wide_report(201, 2))
    assert "201 jobs; a picture has room for the rows of 200: choose some with --job NAME" in out
    assert "T &amp; U" in out and "service-007" not in out
    # 201 jobs, each with an attempt that fails and one that succeeds.
    figures = re.findall(r": (\d+) begun, (\d+) ok, (\d+) err; at the end (\d+) running, (\d+) waiting<", out)
    drawn = len(LOAD_WIDTHS) if form == "html" else 1
    assert [sum(int(row[at]) for row in figures) for at in range(3)] == [drawn * count for count in (402, 201, 201)]
    assert figures[-1][3:] == ("0", "0")


def test_the_jobs_that_are_chosen_by_name_are_drawn():
    root = drawn_by("svg", "--job", "service-200", "--job", "service-007", text=wide_report(201, 2))
    assert {title.split(" of ")[1].split(":")[0] for title in titles(root)} == {"service-007", "service-200"}
    assert begun(root) == []


@each_picture
def test_a_page_has_the_picture_and_its_report_and_no_network_address(text):
    made = output("html", "--title", "A & B", text=text)
    assert re.findall(r"://|src=|href|@import|url\((?!#)", made) == []
    assert "<title>A &amp; B</title>" in made and output("svg", "--title", "A & B", text=text).split("\n", 1)[1] in made
    held = re.search(r'<script type="text/plain" id="report">\n(.*?)</script>', made, re.S)[1]
    assert held == (text[:text.rindex("polls ", 0, -1)] if text.count("\n") > 1 else "")


@pytest.mark.parametrize("jobs", [20, 201])
@pytest.mark.parametrize("words, least, most", [
    (["--from", "300", "--to", "899"], 300, 900), (["--to", "899", "--log"], 0, 900), (["--log"], 0, 10**9)])
def test_a_part_of_time_has_its_load_alone(jobs, words, least, most):
    text = wide_report(jobs, 2)
    root = drawn_by("svg", *words, text=text)
    wanted = [it for it in re.findall(r"^attempt \d+ (\d+)", text, re.M) if least <= int(it) < most]
    assert sum(begun(root)) == len(wanted)
    check_nothing_outside(root)


@pytest.mark.parametrize("text", [wide_report(300, 4), RUNNING, GREATEST, "polls 0\n"], ids=range(4))
def test_the_picture_of_a_load_has_all_attempts_and_nothing_outside(text):
    root = drawn_by("load", "--svg", "-", "--every", "50ms", "--title", "A & B", text=text)
    assert sum(begun(root)) == text.count("\nattempt ")
    check_nothing_outside(root)


def test_the_page_of_a_load_has_a_picture_for_each_width_of_a_window():
    out = output("html", "--title", "T & U", text=wide_report(201, 2))
    drawn = [ElementTree.fromstring(it.replace("<svg", f"<svg xmlns={SVG[1:-1]!r}", 1))
             for it in re.findall("<svg.*?</svg>", out, re.S)]
    assert [int(root.get("width")) for root in drawn] == list(LOAD_WIDTHS)
    for root in drawn:
        check_nothing_outside(root)
    # At each width of a window one of them is shown, the widest that fits.
    rules = re.findall(r"@media(.*?)\{\.w(\d+)\{", out)
    for window in (360, 400, 783, 784, 1263, 1264, 1600):
        shown = [int(width) for limits, width in rules
                 if all(window >= int(it) for it in re.findall(r"min-width:(\d+)", limits))
                 and all(window <= int(it) for it in re.findall(r"max-width:(\d+)", limits))]
        assert shown == [max(it for it in LOAD_WIDTHS if it + 24 <= window)], window
    # The bars of each picture are filled by the patterns of the first one, which most windows hide.
    assert "pattern{visibility:visible}" in out


def test_no_line_of_the_grid_crosses_the_words_of_a_load():
    root = drawn_by("svg", text=wide_report(201, 2))
    words = [float(it.get("y")) for it in root.iter(f"{SVG}text") if ":" in "".join(it.itertext())]
    grid = "".join(path.get("d") for path in classed(root, "path", "grid"))
    lines = re.findall(r"M\S+ ([\d.]+)V([\d.]+)", grid)
    assert words and lines
    assert not [y for above, below in lines for y in words if float(above) < y < float(below)]


def test_equal_ratios_are_equally_long_on_a_logarithmic_axis():
    left = [float(bar.get("x")) for bar in bars(drawn_by("svg", "--log", text=RUNNING))]
    scale = Scale(0, 10000, left[0], left[0] + 1000, 700)
    assert [round(scale.at(moment)) for moment in (0, 700, 2100, 4900)] == [
        round(left[0] + 1000 * number / math.log2(1 + 10000 / 700)) for number in (0, 1, 2, 3)]
    plain = [float(bar.get("x")) for bar in bars(drawn_by("svg", text=RUNNING))]
    assert left[1] - left[0] > 2 * (plain[1] - plain[0])


def test_a_picture_is_dark_if_that_is_preferred_and_has_no_small_letter():
    text = output("svg", text=WAITING)
    assert "@media(prefers-color-scheme:dark){text{fill:#e4e7eb}" in text
    assert min(int(size) for size in re.findall(r"font-size:(\d+)px", text)) >= 11


@pytest.mark.parametrize("text", [WAITING, wide_report(201, 2)], ids=["rows", "load"])
@pytest.mark.parametrize("words", [["svg"], ["load", "--svg", "-", "--every", "50ms"]], ids=["svg", "load"])
def test_a_picture_of_a_file_is_as_large_as_it_was_drawn(words, text):
    root = drawn_by(*words, text=text)
    assert ["0", "0", root.get("width"), root.get("height")] == root.get("viewBox").split()
    assert root.get("style") is None
