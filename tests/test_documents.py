"""The documents: links have targets, what they name exists, the plans shown have the reports shown, the figures of
docs/POLICIES.md are those of its plan, and lines of prose have at most 100 columns, in comments of the crates too."""
import json
import pathlib
import re

import pytest
import yaml

from reports import jobs_of
from support import TOP, run, run_tool
from zsched_tools.words import duration

PAGES = sorted({page for form in ["*.md", "*/README.md", "docs/*.md", "benches/**/*.md", "crates/*/README.md"]
                for page in TOP.glob(form)})
FOLDERS = ("benches/", "build/", "crates/", "docs/", "examples/", "tests/", "tools/", "zs_")
README = (TOP / "README.md").read_text()
FORMATS = (TOP / "docs" / "FORMATS.md").read_text()


def links_of(page):
    """The targets of a page's links to files and headings."""
    return [it for it in re.findall(r"\]\(([^)\s]+)\)", page.read_text()) if "://" not in it]


def names_in(page):
    """The names of the repository in a page's backquotes; capitals are any name. A crate's page also names the crate's
    files."""
    folders = (*FOLDERS, "src/", "specs/") if page.parent.parent.name == "crates" else FOLDERS
    words = " ".join(re.findall(r"`([^`\n]+)`", page.read_text())).split()
    return [word for word in words if word.startswith(folders) and re.fullmatch(r"[\w./-]+/[\w.-]+", word)
            and not re.search("[A-Z]{3}", word)]


def with_some(found_in):
    """The pages in which something is found, as the parameter of a test that looks at it."""
    return pytest.mark.parametrize("page", filter(found_in, PAGES), ids=lambda page: str(page.relative_to(TOP)))


def test_pages_have_links_and_name_files():
    for found_in, least, pages in [(links_of, 200, 20), (names_in, 150, 15)]:
        found = [len(found_in(page)) for page in PAGES]
        assert sum(found) > least and len([it for it in found if it]) > pages, found_in


def anchor_of(title): return re.sub(r"[^a-z0-9_ -]", "", title.lower()).replace(" ", "-")


def anchors_of(page):
    outside = re.sub(r"^```.*?^```$", "", page.read_text(), flags=re.MULTILINE | re.DOTALL)
    return {anchor_of(title) for title in re.findall(r"^#+ (.*)$", outside, re.MULTILINE)}


@with_some(links_of)
def test_links_lead_to_files_and_headings(page):
    lost = []
    for target in links_of(page):
        name, _, anchor = target.partition("#")
        path = page.parent / name if name else page
        if not (path.exists() and (not anchor or anchor in anchors_of(path))):
            lost.append(target)
    assert lost == []


@with_some(names_in)
def test_files_that_a_page_names_exist(page):
    assert [name for name in names_in(page) if not any(place.exists() for place in [
        TOP / name, page.parent / name, TOP / "crates" / name, TOP / "crates" / f"{name}.antt"])] == []


def words_in(place):
    paths = [place] if place.is_file() else [it for it in place.rglob("*.*t") if "out" not in it.parts]
    return {word for path in paths for word in re.findall(r"\w+", f"{path} {path.read_text()}")}


def test_each_name_of_architecture_is_in_a_file_that_its_section_links_to():
    page = (TOP / "docs" / "ARCHITECTURE.md").read_text().split("\n## Where things are")[0]
    drawn = set(re.findall(r"\w+_\w+", " ".join(re.findall(r"^```text\n(.*?)```", page, re.M | re.S))))
    assert len(drawn) > 25 and drawn - words_in(TOP / "crates") == set()
    for section in re.split(r"\n(?=##)", re.sub(r"^```.*?^```$", "", page, flags=re.M | re.S)):
        known = {"zs_job_bounds"}
        for name, link in re.findall(r"\[(.*?)\]\((\.\./crates/.*?)\)", section, re.S):
            known |= (words := words_in(TOP / "docs" / link))
            assert name[0] != "`" or {*re.findall(r"\w+", name)} & words, name
        named = " ".join(re.findall(r"`([\w:]+(?:\{[\w, ]+\})?)`", section.partition("\n")[2]))
        assert set(re.findall(r"\w+", named)) - known == set()


def test_the_readme_names_commands_that_exist():
    named = set(re.findall(r"`\.?/?((?:tools/[a-z-]+)|run|check)\b", README))
    assert len(named) >= 7
    assert [name for name in sorted(named) if not (TOP / name).is_file()] == []


def test_a_new_operator_has_the_files_of_a_leaf():
    section = (TOP / "CONTRIBUTING.md").read_text().split("## A new operator")[1].split("\n## ")[0]
    named = {folder + name for folder, rest in re.findall(r"^\d\. `(\w.*?/)`: ((?:.*\n)+?)(?=\d\. |\n)", section, re.M)
             for name in re.findall(r"`(\w[\w/.]*\.\w+)`", rest.partition("; ")[0])}
    forms = ["crates/zs_*/[sp]*/**/*.rt", "crates/zs_*/[sp]*/**/*.antt", "docs/*", "tests/*.*", "tools/**/*.*"]
    paths = {path for form in forms for path in TOP.glob(form) if path.suffix != ".pyc"} - {pathlib.Path(__file__)}
    assert named | {"docs/play.html"} == {str(path.relative_to(TOP)) for path in paths if all(
        re.search(rf"(?i)\b{leaf}\b", path.read_text()) for leaf in ["linear", "windowed"])}


def test_the_readme_shows_the_sample(zsched):
    plan, report = re.search(r"```json\n(.*?)```\n```console\n\$.*?\n(job .*?)```", README, re.DOTALL).groups()
    sample = TOP / "examples" / "checkout.json"
    assert json.loads(plan) == json.loads(sample.read_bytes())
    assert report == sample.with_suffix(".json.stdout").read_text()
    assert run(zsched, plan.encode()) == (0, report.encode(), b"")


def test_formats_shows_a_plan_and_its_report_also_as_json_lines(zsched):
    plan, report, shown = (re.search(form, FORMATS, re.DOTALL)[1] for form in [
        r"```json\n(.*?)```", r"```text\n(job .*?)```", r'```json\n(\{"type".*?)```'])
    whole = f"{report}polls {report.split()[-1]}\n".encode()
    assert run(zsched, plan.encode()) == (0, whole, b"")
    assert run_tool([TOP / "tools" / "zsched-report", "lines"], whole) == (0, shown, "")


@pytest.mark.parametrize("page, shown", [("docs/TESTING.md", "tests/cases/zsched-policy.txt"),
                                         ("CONTRIBUTING.md", "crates/zs_agenda/wrong.txt")])
def test_the_case_and_the_edit_that_pages_show_are_in_their_files(page, shown):
    text = re.search(r"```text\n(== .*?)```", (TOP / page).read_text(), re.S)[1]
    assert f"\n{text}== " in (TOP / shown).read_text()


HEAD, *SECTIONS = (TOP / "docs" / "POLICIES.md").read_text().split("\n## ")
JOBS = json.loads((TOP / "examples" / "policies.json").read_text())["jobs"]
RAN = jobs_of((TOP / "examples" / "policies.json.stdout").read_bytes())
TITLES = [section.split("\n")[0] for section in SECTIONS]


def test_the_table_of_policies_has_the_figures_of_the_report():
    """Attempts, the end, and the longest wait between two attempts."""
    rows = re.findall(r"^(\| \[.*\|)(?:[^|]*\|){3}$", HEAD, re.MULTILINE)
    assert rows == [f"| [{title}](#{anchor_of(title)}) | {len(job.attempts)} | {job.how} at {duration(job.at)} "
                    f"| {duration(max(job.waits))} |" for title, job in zip(TITLES, RAN, strict=True)]
    assert [job["name"] for job in JOBS] == [job.name for job in RAN]


@pytest.mark.parametrize("section, job", list(zip(SECTIONS, JOBS)), ids=TITLES)
def test_a_policy_has_its_schedule_and_the_part_of_each_setting(section, job):
    assert re.search(r"^- Job `(.*?)`: `(.*)`$", section, re.M).groups() == (job["name"], job["schedule"])
    settings = re.findall(r"^\| `[^`]+`.* \| .+ \| `(.+)` \|$", section, re.MULTILINE)
    assert len(settings) >= 2
    assert [part for part in settings if part not in job["schedule"]] == []
    assert re.search(r"\n- (Debian: \S+ \d+\.\d+|From memory, not checked: )", section)


# The pages that are written by hand: the text of the promises is in comments of code.
PROSE = tuple(page for page in PAGES if TOP / "benches" not in page.parents and page.name != "PROMISES.md")
CODE = tuple(sorted(it for end in ("rt", "antt") for it in TOP.glob(f"crates/*/[sp]*/**/*.{end}")))
# How a line of prose begins in a file of each kind.
BEGINS = {".md": "", ".rt": r"\s*//[/!]? ?", ".antt": r"\s*-- ?"}
WIDTH = 100


def prose(files):
    """The lines of pages and the comments of code, without samples, each with its place."""
    for file in files:
        is_sample, form = False, re.compile(BEGINS[file.suffix] + "(.*)")
        for number, line in enumerate(map(form.fullmatch, file.read_text().splitlines()), 1):
            is_sample ^= bool(line and line[1].startswith("```"))
            if line and not is_sample:
                yield f"{file.relative_to(TOP)}:{number}", line[0]


def test_lines_have_100_columns_except_for_tables_and_code():
    lines = list(prose(PROSE + CODE))
    assert len(lines) > 10_000
    assert [where for where, line in lines
            if len(line) > WIDTH and not re.search(r"^\||`[^`]{60,}`|\]\([^)]{50,}\)", line)] == []


@pytest.mark.parametrize("path", sorted((TOP / ".github").glob("*/*.yml")), ids=lambda it: it.stem)
def test_the_forms_and_workflows_of_a_code_host_are_whole(path):
    found = yaml.safe_load(path.read_text())
    if "body" in found:
        fields = {it["id"]: it["attributes"] for it in found["body"]}
        assert found.keys() >= {"name", "description"} and len(fields) == len(found["body"])
        assert all(it["label"] for it in fields.values())
    elif "jobs" in found:
        steps = [step for job in found["jobs"].values() for step in job["steps"]]
        assert all((TOP / step["run"]).exists() for step in steps if "run" in step) and any("run" in it for it in steps)
    else:
        assert path.stem == "config"
