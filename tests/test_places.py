"""Where each language finds the library, and by whose word: the table of docs/LIBRARY.md. Each library here does
nothing, and its version says in which place it is. Strangers' libraries are where a program might look untold."""
import pathlib
import re
import shutil
import subprocess
import zipfile

import pytest

import languages
from languages import BINDINGS, CLEAN, CLIENTS, JNA, UNWANTED, Place, need, ran, request
from support import TOP

ABI = (TOP / "include" / "zsched.abi").read_text()
SONAME, = re.findall(r"^soname (\S+)", ABI, re.M)
PYTHON = "/usr/bin/python3"
NAMED, OWN, TREE, SYSTEM, STRANGER = 1, 2, 3, 4, 666
FILES = ["libzsched.a", "libzsched.so"]


def library(folder, number):
    """Makes the library with this version in a folder, and returns the folder."""
    folder.mkdir(parents=True, exist_ok=True)
    calls = [f"unsigned {name}(void) {{ return {number * (name == 'zs_version')}; }}\n"
             for name in re.findall(r"^function (\S+)", ABI, re.M)]
    (folder / "calls.c").write_text("".join(calls))
    ran(["cc", "-fPIC", "-c", "calls.c"], folder)
    ran(["ar", "rcs", "libzsched.a", "calls.o"], folder)
    for name in ["libzsched.so", SONAME]:
        ran(["cc", "-shared", f"-Wl,-soname,{SONAME}", "-o", name, "calls.o"], folder)
    return folder


@pytest.fixture
def made(tmp_path):
    """Makes the library with a version, in a separate folder."""
    return lambda number: library(tmp_path / f"library-{number}", number)


def plant(room, depth=3):
    """Puts a stranger's library beside a folder and above it, and returns another folder from which to start."""
    stranger = library(room.parent / "stranger", STRANGER)
    for number, top in enumerate([room / "started", room, *room.parents][:depth + 2]):
        for place in [top, top / "crates/zsched_c/out"][number > 1:]:
            place.mkdir(parents=True, exist_ok=True)
            for name in [*FILES, SONAME]:
                shutil.copy(stranger / name, place)
    return room / "started"


def version(client, folder, **variables):
    """The version that a client prints, or what it says on standard error, started from a folder."""
    ended = subprocess.run([str(it) for it in client.words], input=f"{request('version', '')}\n", cwd=folder, text=True,
                           capture_output=True, check=False, env=CLEAN | client.variables | variables)
    return int(ended.stdout) if ended.returncode == 0 else ended.stderr


def installed(room, files=()):
    """The client in Python, over the package in a folder as `pip install --target` makes it, with a library or none."""
    package = room / "zsched"
    shutil.copytree(BINDINGS / "python" / "zsched", package, ignore=UNWANTED)
    for path in files:
        shutil.copy(path, package)
    return languages.Client([PYTHON, "-B", CLIENTS / "client.py"], {"PYTHONPATH": str(room)})


@pytest.mark.parametrize("variables, has_own, wanted", [
    (["ZSCHED_LIBRARY", "LD_LIBRARY_PATH"], True, NAMED), (["LD_LIBRARY_PATH"], True, OWN),
    (["LD_LIBRARY_PATH"], False, SYSTEM), ([], False, "the library is missing")])
def test_python_looks_in_its_own_folder_then_the_system_does(tmp_path, made, variables, has_own, wanted):
    room = tmp_path / "a" / "deps"
    start = plant(room)
    client = installed(room, [made(OWN) / "libzsched.so"] * has_own)
    places = {"ZSCHED_LIBRARY": made(NAMED) / "libzsched.so", "LD_LIBRARY_PATH": made(SYSTEM)}
    found = version(client, start, **{name: str(places[name]) for name in variables})
    assert found == wanted or str(wanted) in str(found)


@pytest.mark.parametrize("folder", ["", "/app", "/a/b", "/a/b/c/d", "/bindings/python"])
@pytest.mark.parametrize("named", ["", "/lib/named.so"])
def test_python_finds_its_library_in_any_folder(folder, named, monkeypatch):
    """Also near the root, where there are no three folders above the package."""
    monkeypatch.setenv("ZSCHED_LIBRARY", named)
    asked, source = [], (BINDINGS / "python/zsched/calls.py").read_text()
    monkeypatch.setattr(pathlib.Path, "exists", lambda it: asked.append(str(it)))
    scope = {"__file__": f"{folder}/zsched/calls.py", "__name__": "calls"}
    exec(compile(source, "calls.py", "exec"), scope)
    assert scope["_place"]() == (named or SONAME)
    inside = ["/crates/zsched_c/out/libzsched.so"] * (folder == "/bindings/python")
    assert asked == ([] if named else [f"{folder}/zsched/libzsched.so", *inside])


def test_python_in_the_tree_takes_the_library_of_the_tree(tmp_path, made):
    library(tmp_path / "crates/zsched_c/out", TREE)
    client = installed(tmp_path / "bindings/python")
    assert version(client, tmp_path, LD_LIBRARY_PATH=str(made(SYSTEM))) == TREE


def test_an_sdist_has_its_archive_and_takes_none_from_above(tmp_path, made):
    room = tmp_path / "a" / "zsched-1"
    plant(room)
    (room / "libzsched.a").unlink()
    shutil.copytree(BINDINGS / "python", room, ignore=UNWANTED, dirs_exist_ok=True)
    for words, wanted in [({}, f"there is no {room}/libzsched.a"), ({"ZSCHED_LIBRARY_DIR": str(made(NAMED))}, "")]:
        ended = subprocess.run([PYTHON, "setup.py", "--quiet", "build_py", "--build-lib", "built"], cwd=room,
                               check=False, capture_output=True, text=True, env=CLEAN | words)
        assert wanted in ended.stderr and (ended.returncode == 0) is not bool(wanted)
    assert (room / "built/zsched/libzsched.so").exists()


def linked(folder, room, **variables):
    """The folder from which the crate in a folder links its library, or what the build says."""
    need("rustc")
    room.mkdir()
    ran(["rustc", "-o", "build", BINDINGS / "rust/build.rs"], room, CARGO_MANIFEST_DIR=folder)
    ended = subprocess.run([room / "build"], capture_output=True, text=True, check=False,
                           env=CLEAN | {"TARGET": "x86_64-unknown-linux-gnu"} | variables)
    found = re.findall("native=(.*)", ended.stdout)
    return pathlib.Path(found[0]).resolve() if found else ended.stderr


def test_rust_looks_in_its_own_folder_and_in_no_folder_above(tmp_path, made):
    crate, tree = tmp_path / "registry/src/zsched-1", tmp_path / "bindings/rust"
    plant(crate)
    for name in FILES:
        (crate / name).unlink()
    tree.mkdir(parents=True)
    assert f"there is no {crate}/libzsched.a" in linked(crate, tmp_path / "1")
    assert linked(crate, tmp_path / "2", ZSCHED_LIBRARY_DIR=str(made(NAMED))) == made(NAMED)
    assert linked(tree, tmp_path / "3") == tmp_path / "crates/zsched_c/out"
    shutil.copy(made(OWN) / "libzsched.a", crate)
    assert linked(crate, tmp_path / "4") == crate


def test_go_takes_the_archive_of_the_module_unless_a_variable_names_another(tmp_path, made):
    need("go")
    room = tmp_path / "a" / "service"
    start = plant(room)
    shutil.copytree(BINDINGS / "go", room / "module", ignore=UNWANTED)
    for path in [made(OWN) / "libzsched.a", TOP / "include/zsched.h"]:
        shutil.copy(path, room / "module")
    shutil.copy(CLIENTS / "client.go", start)
    module = "github.com/zsched/zsched/bindings/go"
    (start / "go.mod").write_text(f"module client\n\ngo 1.19\n\nrequire {module} v0.0.0\n"
                                  f"replace {module} => ../module\n")
    for name in FILES:
        (start / name).unlink()
    for number, flags in [(OWN, ""), (NAMED, f"-L{made(NAMED)}")]:
        (made(NAMED) / "libzsched.so").unlink(missing_ok=True)
        ran(["go", "build", "-o", f"answers-{number}", "."], start, GOPROXY="off", CGO_LDFLAGS=flags,
            GOFLAGS="-mod=mod -buildvcs=false", GOCACHE=tmp_path / "cache")
        client = languages.Client([start / f"answers-{number}"], {})
        assert version(client, start, LD_LIBRARY_PATH=str(made(SYSTEM))) == number


def test_node_takes_the_addon_of_the_package_unless_a_variable_names_another(tmp_path, made):
    room = tmp_path / "a" / "service"
    start = plant(room)
    languages.node(room, Place(TOP / "include", made(OWN), []))
    addon = room / "node_modules/zsched/zsched.node"
    client = languages.Client(["node", "-p", f"require('{addon.parent}').version()"], {})
    for number in [STRANGER, NAMED]:
        library(tmp_path / f"linked-{number}", number)
        ran(["./build", tmp_path / f"{number}.node"], addon.parent, ZSCHED_LIBRARY_DIR=tmp_path / f"linked-{number}",
            CPATH=TOP / "include")
    for folder in [start, room]:
        shutil.copy(tmp_path / f"{STRANGER}.node", folder / "zsched.node")
    assert version(client, start, LD_LIBRARY_PATH=str(made(SYSTEM))) == OWN
    assert version(client, start, ZSCHED_NODE=str(tmp_path / f"{NAMED}.node")) == NAMED
    addon.unlink()
    assert "can't be loaded on linux" in version(client, start)


@pytest.mark.full
def test_java_takes_the_library_of_the_jar_unless_a_property_names_another(tmp_path, made):
    need("javac", JNA)
    room = tmp_path / "a" / "service"
    start = plant(room)
    sources = sorted(BINDINGS.glob("java/zsched/*.java"))
    for name, has_own in [("with.jar", True), ("without.jar", False)]:
        ran(["javac", "-cp", JNA, "-d", room / name[:-4], *sources], room)
        with zipfile.ZipFile(room / name, "w") as jar:
            for path in (room / name[:-4]).rglob("*.class"):
                jar.write(path, path.relative_to(room / name[:-4]))
            if has_own:
                jar.write(made(OWN) / "libzsched.so", "linux-x86-64/libzsched.so")
    ran(["javac", "-cp", f"{JNA}:{room / 'with.jar'}", "-d", "client", CLIENTS / "Client.java"], room)

    def found(name, *options):
        words = ["java", "-cp", f"{JNA}:{room / name}:{room / 'client'}", *options, "Client"]
        return version(languages.Client(words, {}), start, LD_LIBRARY_PATH=system)
    system = str(made(SYSTEM))
    assert found("with.jar") == OWN
    assert found("without.jar") == SYSTEM
    assert found("with.jar", f"-Djna.library.path={made(NAMED)}") == NAMED
    assert found("with.jar", f"-Dzsched.library={made(NAMED)}/libzsched.so", "-Djna.library.path=.") == NAMED
    system = ""
    assert "zsched: the jar has the library for Linux on x86-64" in found("without.jar")


def test_c_takes_what_the_linker_is_told_and_what_the_system_has(tmp_path, made):
    room = tmp_path / "a" / "service"
    start = plant(room)
    flags = ["-I", TOP / "include", "-L", made(NAMED), "-lzsched"]
    client = languages.c(room, Place(TOP / "include", made(SYSTEM), flags))
    assert version(client, start) == SYSTEM
    assert f"{SONAME}: cannot open shared object file" in version(client, start, LD_LIBRARY_PATH="")
    (room / "static").mkdir()
    flags = ["-I", TOP / "include", made(NAMED) / "libzsched.a"]
    assert version(languages.c(room / "static", Place(TOP / "include", made(SYSTEM), flags)), start) == NAMED
