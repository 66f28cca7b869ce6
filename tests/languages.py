"""The clients of the library in tests/clients/, one for each language: how each is built over a library, and what it
prints.

A client is built in an empty folder, of copies of its source and of its language's binding, with no variable of this
process but those that compilers need. tests/clients/client.c documents its requests and lines."""
import fcntl
import functools
import json
import os
import pathlib
import shutil
import subprocess
import sys
from typing import NamedTuple

import pytest

from support import TOP, output_of

BINDINGS, CLIENTS = TOP / "bindings", TOP / "tests" / "clients"
STRICT = ["-Wall", "-Wextra", "-Werror", "-pedantic", "-O2"]
# What checks at run time that nothing is read or written beside what is given.
WATCHED = ["-g", "-fsanitize=address,undefined", "-fno-sanitize-recover=all"]
CPP = ("c++", "-x", "c++", "-std=c++17")
WRAPPED = ["-Wl,--wrap=malloc,--wrap=realloc,--wrap=free", "-lpthread"]
JNA = pathlib.Path("/usr/share/java/jna.jar")
# Run a program of arm64, with the C library of Debian's cross compiler, and compile one.
ON_ARM, ARM_COMPILER = ["qemu-aarch64", "-L", "/usr/aarch64-linux-gnu"], "aarch64-linux-gnu-gcc"
UNWANTED = shutil.ignore_patterns("__pycache__", "target", "Cargo.lock", "*.node", "example*")
CLEAN = {name: os.environ[name]
         for name in ["PATH", "HOME", "CARGO_HOME", "RUSTUP_HOME", "NODE_INCLUDE"] if name in os.environ}


def need(*tools):
    """Skips the test if one of these commands or files isn't on this machine."""
    missing = [str(it) for it in tools if not (os.path.exists(it) if "/" in str(it) else shutil.which(it))]
    if missing:
        pytest.skip(f"not on this machine: {', '.join(missing)}")


def ran(words, room, **variables):
    """The output of a command that has to succeed, in a folder and with few variables."""
    return output_of(words, cwd=room, env=CLEAN | {name: str(it) for name, it in variables.items()})


class Place(NamedTuple):
    """The folders of the header and of the library, and what links a program in C with it."""
    include: pathlib.Path
    library: pathlib.Path
    flags: list


class Client(NamedTuple):
    words: list
    variables: dict

    def says(self, requests, *more, before=()):
        """The lines that it prints of these requests, with more words after and before its own."""
        words = [str(it) for it in [*before, *self.words, *more]]
        ended = subprocess.run(words, input="".join(f"{it}\n" for it in requests), capture_output=True, text=True,
                               check=False, timeout=900, env=CLEAN | self.variables)
        assert ended.returncode == 0, f"{words}: {ended.returncode}: {ended.stdout[-500:]}{ended.stderr[-3000:]}"
        return ended.stdout.splitlines()

    def retries(self, text, code, times):
        """How a retry ended, and the milliseconds at which its attempts began."""
        line, = self.says([request("retry", text, code, times)])
        ended, *moments = line.split()
        return ended, [int(it) / 1000 for it in moments]


def request(command, text, *numbers):
    return " ".join([command, f".{text.encode().hex()}", *map(str, numbers)])


def are_kept(waits, moments):
    """Whether these are the milliseconds between attempts, but for what a step's moment leaves out and a busy machine
    adds."""
    gaps = [after - before for before, after in zip(moments, moments[1:])]
    return len(gaps) == len(waits) and all(wait - 1 <= gap < wait + 3000 for gap, wait in zip(gaps, waits))


def built_library(folder):
    """The place of the library that build/make-library made in a folder."""
    return Place(TOP / "include", folder, ["-I", TOP / "include", folder / "libzsched.a"])


def c(room, place, *more, compiler=("cc", "-std=gnu11")):
    need(compiler[0])
    for source in [CLIENTS / "client.c", BINDINGS / "c" / "retry.h"]:
        shutil.copy(source, room)
    ran([*compiler, *STRICT, *more, "-o", "client", "client.c", "-x", "none", *place.flags, *WRAPPED], room)
    return Client([room / "client"], {"LD_LIBRARY_PATH": str(place.library)})


def python(_, place):
    return Client([sys.executable, "-B", CLIENTS / "client.py"],
                  {"ZSCHED_LIBRARY": str(place.library / "libzsched.so"), "PYTHONPATH": str(BINDINGS / "python")})


def go_variables(place):
    """The variables with which Go finds the library and uses no network."""
    return {"CGO_CFLAGS": f"-I{place.include}", "CGO_LDFLAGS": f"-L{place.library}",
            "LD_LIBRARY_PATH": str(place.library), "GOPROXY": "off", "GOFLAGS": "-mod=readonly -buildvcs=false"}


def go(room, place, *words, **variables):
    """The client in Go, over the packaged module as a proxy of modules has it, with the library in it."""
    need("go")
    module, name = "github.com/zsched/zsched/bindings/go", f"v{(TOP / 'VERSION').read_text().strip()}"
    proxy = room / "proxy" / module / "@v"
    proxy.mkdir(parents=True)
    shutil.copy(BINDINGS / "go" / "go.mod", proxy / f"{name}.mod")
    (proxy / f"{name}.info").write_text(json.dumps({"Version": name}))
    packed = output_of([TOP / "build/packages", "go", "--out", room, "--library", place.library]).strip()
    shutil.move(packed, proxy / f"{name}.zip")
    (room / "client").mkdir()
    shutil.copy(CLIENTS / "client.go", room / "client")
    (room / "client" / "go.mod").write_text(f"module client\n\ngo 1.19\n\nrequire {module} {name}\n")
    ran(["go", "build", *words, "-o", room / "answers", "."], room / "client", GOPROXY=f"file://{room / 'proxy'}",
        GONOSUMDB="*", GOMODCACHE=room / "cache", GOFLAGS="-mod=mod -modcacherw", **variables)
    return Client([room / "answers"], {})


def node(room, place):
    need("node", pathlib.Path(os.environ.get("NODE_INCLUDE", "/usr/include/node"), "node_api.h"))
    package = room / "node_modules" / "zsched"
    shutil.copytree(BINDINGS / "node", package, ignore=UNWANTED)
    ran(["./build"], package, ZSCHED_LIBRARY_DIR=place.library, CPATH=place.include)
    shutil.copy(CLIENTS / "client.js", room)
    # Little memory for what it drops.
    return Client(["node", "--max-semi-space-size=1", room / "client.js"], {})


def node_on_webassembly(room, place):
    """The same over the library in WebAssembly, with no addon."""
    need("node")
    shutil.copytree(BINDINGS / "node", room / "node_modules/zsched", ignore=UNWANTED)
    shutil.copy(place.library / "wasm/zsched.wasm", room / "node_modules/zsched")
    shutil.copy(CLIENTS / "client.js", room)
    return Client(["node", "--max-semi-space-size=1", room / "client.js"], {})


def java(room, place, jar=None):
    """The client in Java, over the classes of the binding, or a jar with the library in it. It has little memory."""
    need("javac", JNA)
    classes = jar or room / "classes"
    if not jar:
        ran(["javac", "-Xlint:all", "-Werror", "-cp", JNA, "-d", classes,
             *sorted(BINDINGS.glob("java/zsched/*.java"))], room)
    path = f"{JNA}:{classes}"
    ran(["javac", "-Xlint:all", "-Werror", "-cp", path, "-d", "client", CLIENTS / "Client.java"], room)
    found = [] if jar else [f"-Djna.library.path={place.library}"]
    return Client(["java", "-XX:+UseSerialGC", "-Xmx16m", "-cp", f"{path}:{room / 'client'}", *found, "Client"], {})


def rust(room, place, crate=BINDINGS / "rust"):
    """The client in Rust, over the binding, or over a crate with the library in it, without a place."""
    need("cargo")
    shutil.copytree(crate, room / "zsched", ignore=UNWANTED)
    (room / "src").mkdir()
    shutil.copy(CLIENTS / "client.rs", room / "src" / "main.rs")
    (room / "Cargo.toml").write_text('[package]\nname = "client"\nversion = "0.1.0"\nedition = "2021"\n\n'
                                     '[dependencies]\nzsched = { path = "zsched" }\n')
    ran(["cargo", "build", "--quiet", "--offline", "--release"], room, RUSTFLAGS="-D warnings",
        **({"ZSCHED_LIBRARY_DIR": place.library} if place else {}))
    return Client([room / "target" / "release" / "client"], {})


def on_arm(client):
    """The same client on arm64, by an emulator."""
    need(ON_ARM[0])
    return Client([*ON_ARM, *client.words], client.variables)


def c_on_arm(room, place):
    return on_arm(c(room, built_library(place.library / "aarch64"), compiler=(ARM_COMPILER, "-std=gnu11")))


def go_on_arm(room, place):
    need(ARM_COMPILER)
    return on_arm(go(room, place, GOARCH="arm64", CGO_ENABLED="1", CC=ARM_COMPILER))


LANGUAGES = {"C": c, "C watched": lambda room, place: c(room, place, *WATCHED),
             "C++": lambda room, place: c(room, place, compiler=CPP), "Python": python, "Go": go, "Node": node,
             "Java": java, "Rust": rust, "C on arm64": c_on_arm, "Go on arm64": go_on_arm,
             "Node on WebAssembly": node_on_webassembly}


@pytest.fixture(scope="session")
def client(library, tmp_path_factory):
    """The client of a language over the library, by its name. Of all processes of a run one builds it."""
    base = tmp_path_factory.getbasetemp()
    folder = (base.parent if "PYTEST_XDIST_WORKER" in os.environ else base) / "clients"

    def built(name):
        folder.mkdir(exist_ok=True)
        room, noted = folder / name.replace(" ", "-"), folder / f"{name}.json"
        with open(f"{room}.lock", "w", encoding="utf-8") as held:
            fcntl.flock(held, fcntl.LOCK_EX)
            if not noted.exists():
                shutil.rmtree(room, ignore_errors=True)
                room.mkdir()
                noted.write_text(json.dumps(LANGUAGES[name](room, built_library(library)), default=str))
            return Client(*json.loads(noted.read_text()))
    return functools.cache(built)
