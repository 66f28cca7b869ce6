"""The library and the programs of a release on other machines than this one, by an emulator of the processor, and in a
root without a C library: they run there, and say what they say here."""
import json
import os
import re
import shutil

import pytest

import languages

from histories import histories, judge
from languages import ARM_COMPILER, BINDINGS, CLIENTS, ON_ARM, STRICT, Place, built_library, client, need, ran
from refuser import Refuser, refuser
from support import ONE_JOB, TOP, heavy_jobs, output_of, plans_with_reports, recut, report_beside, run
from support import population as lines_of

# The models of processors of common virtual machines, without SSE4.
OLD = ["qemu64", "kvm64"]
READY = "ready after 4 attempts\n"
FULL, CLOSED = ["sh", "-c", 'exec "$@" > /dev/full', "sh"], ["sh", "-c", 'exec "$@" 0< /', "sh"]
# Longer than a program reads an argument.
LONG = "9" * 100_000


def old(model):
    """What runs a program on an older processor of x86-64."""
    need("qemu-x86_64")
    return ["qemu-x86_64", "-cpu", model]


@pytest.mark.parametrize("model", OLD)
def test_the_programs_run_on_a_plain_processor(model, zsched, bounds, population):
    for path in plans_with_reports():
        assert run([*old(model), str(zsched)], path.read_bytes()) == (0, report_beside(path), b""), path
    for program in [bounds, population]:
        given = (TOP / "crates" / program.name.replace("-", "_") / "stdin").read_bytes()
        wanted = (TOP / "crates" / program.name.replace("-", "_") / "stdout").read_bytes()
        assert run([*old(model), str(program)], given) == (0, wanted, b"")


@pytest.mark.parametrize("model", OLD)
def test_the_library_runs_on_a_plain_processor(model, library, client, tmp_path):
    ran(["cc", *STRICT, *built_library(library).flags[:2], "-o", "example", BINDINGS / "c" / "example.c",
         library / "libzsched.a", "-lpthread"], tmp_path)
    assert ran([*old(model), "./example"], tmp_path) == READY
    judge(client("C"), histories()[:1000], "program", before=old(model))


def other(kind, program):
    """What runs another program than this one: that of arm64, or the static one."""
    found = program.parent / kind / program.name
    if kind == "aarch64":
        need(ON_ARM[0])
        return [*ON_ARM, str(found)]
    return [str(found)]


KINDS = pytest.mark.parametrize("kind", ["aarch64", "static"])


@KINDS
@pytest.mark.parametrize("cut", [None, (2, 1), (7, 3), (64, 1)])
def test_each_plan_has_its_report(cut, kind, zsched):
    for path in plans_with_reports():
        text = recut(path.read_text(), *cut) if cut else path.read_bytes()
        assert run(other(kind, zsched), text) == (0, report_beside(path), b""), path


@KINDS
@pytest.mark.parametrize("words", [[], ["--attempt", "20ms..5s", "--late", "any", "--steps", "100"], ["--help"],
                                   ["--version"], ["--nope"], [""], ["--steps", LONG], ["--steps"]])
def test_bounds_are_those_of_here(words, kind, bounds):
    lines = [it.text for it in histories() if b"\n" not in it.text][:1000]
    wanted = run([str(bounds), *words], b"\n".join(lines))
    assert len(wanted[1]) + len(wanted[2]) > 15
    assert run([*other(kind, bounds), *words], b"\n".join(lines)) == wanted


@KINDS
@pytest.mark.parametrize("workers, grain", [(1, 1), (3, 2), (64, 1)])
def test_a_population_has_the_report_of_here(workers, grain, kind, population, tmp_path):
    text = lines_of([f"j{number}" for number in range(300)], workers, grain)
    reports = []
    for jobs in [[], ["--jobs", "0..100"], ["--jobs", "100..300"]]:
        reports.append(run([str(population), *jobs], text))
        assert reports[-1][0] == 0 and run([*other(kind, population), *jobs], text) == reports[-1]
    for name, report in zip("abc", reports):
        (tmp_path / name).write_bytes(report[1])
    for words in [["--check", "b", "c"], ["--check", "./" * 1000 + "b", "c"], ["--check", "c", "b"],
                  ["--check", "nowhere"], ["--nope"], ["--jobs", LONG]]:
        wanted = run([str(population), *words], text, cwd=tmp_path)
        assert (wanted[0] == 0) is (words[-1] == "c")
        assert run([*other(kind, population), *words], text, cwd=tmp_path) == wanted


@KINDS
@pytest.mark.parametrize("broken", [FULL, CLOSED])
def test_a_broken_stream_is_reported_as_here(broken, kind, zsched, bounds, population):
    for program, text in [(zsched, ONE_JOB), (bounds, b"forever"), (population, lines_of("a", 1, 1))]:
        wanted = run([*broken, str(program)], text)
        assert wanted[0] == 3 and wanted[2]
        assert run([*broken, *other(kind, program)], text) == wanted


def test_each_allocation_of_a_run_on_arm64_may_fail(zsched, refuser, tmp_path):
    need(ARM_COMPILER)
    there, text = Refuser(tmp_path, ARM_COMPILER, ON_ARM), recut(ONE_JOB, 3, 1)
    wanted = [ended for _, ended in refuser.each(zsched, text)]
    assert [ended for _, ended in there.each(other("aarch64", zsched)[-1], text)] == wanted
    assert len(wanted) > 20 and {ended[0] for ended in wanted} == {0, 4}


def test_each_allocation_of_1000_schedules_on_arm64_may_fail(client):
    asked = [it.request("program") for it in histories()[:1000]]
    assert client("C on arm64").says(asked, "refuse") == client("C").says(asked, "refuse")


@pytest.mark.parametrize("before, compiler", [([], ["gcc"]), ([], ["musl-gcc", "-static"]), (ON_ARM, [ARM_COMPILER])])
def test_blocks_of_the_heap_are_aligned_keep_their_bytes_and_may_be_refused(before, compiler, tmp_path):
    need(*before[:1], compiler[0])
    ran([*compiler, *STRICT, "-o", "heap", CLIENTS / "heap.c", TOP / "build/heap.c"], tmp_path)
    assert ran([*before, "./heap"], tmp_path) == ""


def test_an_image_has_the_static_programs_alone(zsched, bounds, population, tmp_path):
    """Three lines make it, `FROM scratch`; this does as they say. The folder has no C library and no device."""
    first, copied, begun = (TOP / "build/Dockerfile").read_text().splitlines()
    *names, place = copied.removeprefix("COPY ").split()
    programs = {"zsched": zsched, "zsched-bounds": bounds, "zsched-population": population}
    assert (first, names, place) == ("FROM scratch", [*programs], "/")
    for name, path in programs.items():
        shutil.copy(path.parent / "static" / path.name, tmp_path / name)
        assert "INTERP" not in output_of(["objdump", "-p", tmp_path / name])
    root = [*["unshare", "-r"] * (os.getuid() != 0), "/usr/sbin/chroot", str(tmp_path)]
    for path in plans_with_reports():
        words = [*root, *json.loads(begun.removeprefix("ENTRYPOINT "))]
        assert run(words, path.read_bytes()) == (0, report_beside(path), b""), path
    for name, path in programs.items():
        assert run([*root, f"/{name}", "--version"], ONE_JOB) == run([str(path), "--version"], ONE_JOB)


def test_a_static_program_ends_in_order_without_memory(zsched):
    text, report = heavy_jobs(3, 1)
    ended = [run(["sh", "-c", f'ulimit -v {kib}; exec "$@"', "sh", *other("static", zsched)], text)
             for kib in [*range(500, 8000, 500), 32_000]]
    whys = [(4, b"", b"zsched: out of memory\n"), (4, b"", b"zsched: no thread\n")]
    assert all(it in whys for it in ended[:-1]) and ended[-1] == (0, report, b"")


@pytest.mark.parametrize("compiler", ["cc", "musl-gcc"])
def test_one_shared_library_serves_each_c_library(compiler, library, tmp_path):
    need(compiler)
    place = Place(TOP / "include", library, ["-I", TOP / "include", library / "libzsched.so"])
    built = languages.c(tmp_path, place, compiler=(compiler, "-std=gnu11"))
    needed = re.findall(r"NEEDED +(\S+)", output_of(["objdump", "-p", *built.words]))
    assert sorted(needed) == ["libc.so" if compiler == "musl-gcc" else "libc.so.6", "libzsched.so.2"]
    judge(built, histories()[:1000], "program")
