"""Compiles the library's proved module further, to WebAssembly and to C. It is what the toolchain makes of the proved
crates for x86-64, and the verdict names that alone: no proof covers what is done here, and the files in wasm/."""
import os
import pathlib
import re
import tempfile

from library_files import FUNCTIONS, ran
from toolchain import TOP, kit, replace

MADE = ["zsched.wasm", "zsched.c", "module.bc", "module.o"]
SOURCES = [pathlib.Path(__file__), TOP / "include/zsched.h", *sorted(TOP.glob("build/wasm/*.c"))]
# The toolchain's own, for the oldest WebAssembly that copies whole blocks.
FLAGS = ["-c", "-O3", "--no-default-config", "-Werror", "-Wno-override-module", "-mcpu=lime1", "-ffreestanding",
         *(word for it in ["-expand-div-rem-bits=64", "-no-trap-after-noreturn", "-disable-machine-licm",
                           "-disable-postra-machine-licm", "-sink-common-insts=false"] for word in ["-mllvm", it])]
FEATURES = ["memory64", "bulk-memory", "sign-ext", "mutable-globals", "nontrapping-float-to-int"]
# Pointers have 64 bits, as in the module: with 32, 981 of 1000 results were wrong, and nothing said so.
TARGET = "wasm64"
# LLVM's products and shifts of 128 bits.
WIDE = "/usr/lib/llvm-14/lib/clang/14.0.6/lib/wasi/libclang_rt.builtins-{}.a"
# Bytes of the stack, and those of the memory as it begins and at most.
STACK, BEGIN, MOST = 1 << 20, 1 << 21, 1 << 32


def clang(*words, name="clang"):
    return ran([name, *words], executable=kit() / "toolchain" / "bin" / "clang")


def compiled(module, room):
    """The module's object file for WebAssembly."""
    lines = clang("-x", "ir", module, "-S", "-emit-llvm", "-O0", "-Xclang", "-disable-llvm-passes", "-o", "-")
    head = clang(f"--target={TARGET}", "-S", "-emit-llvm", "-o", "-", "-x", "c", os.devnull)
    for form in [r"^target datalayout = .*$", r"^target triple = .*$"]:
        lines = re.sub(form, re.search(form, head, re.M)[0], lines, flags=re.M)
    (room / "module.ll").write_text(re.sub(r' "(target-cpu|target-features|tune-cpu)="[^"]*"', "", lines))
    clang(f"--target={TARGET}", *FLAGS, "-x", "ir", room / "module.ll", "-o", room / "module.o")
    return room / "module.o"


def linked(made, room, stack=STACK, most=MOST):
    """The library with a memory of 32 bits. The stack ends at address 0, so that one too many is found."""
    clang(f"--target={TARGET}", *FLAGS, "-o", room / "heap.o", TOP / "build/wasm/heap.c")
    clang(f"-m{TARGET}", "--no-entry", "--stack-first", "--gc-sections", "--strip-all", "-z", f"stack-size={stack}",
          f"--initial-memory={BEGIN}", f"--max-memory={most}", *(f"--export={it}" for it, _ in FUNCTIONS),
          "--export=zs_room", "-o", room / "wide.wasm", made, room / "heap.o", WIDE.format(TARGET), name="wasm-ld")
    ran(["wasm-opt", *(f"--enable-{it}" for it in FEATURES), "--memory64-lowering", room / "wide.wasm", "-o",
         room / "zsched.wasm"])
    return room / "zsched.wasm"


def as_c(library, room):
    """The library in one file of C."""
    ran(["wasm2c", library, "--module-name=zsched", "-o", room / "module.c"])
    text = (TOP / "build/wasm/calls.c").read_text().replace("BEGIN", str(BEGIN))
    for it in [room / "module.c", room / "module.h", pathlib.Path("/usr/include/wasm-rt.h"), TOP / "include/zsched.h"]:
        text = text.replace(f'#include "{it.name}"\n', it.read_text(), 1)
    # Only tables of functions need it, and Windows lacks it.
    return text.replace("#include <alloca.h>\n", "")


def make(module, folder):
    """Makes the files of MADE in a folder, of the module's bytes."""
    folder.mkdir(parents=True, exist_ok=True)
    with tempfile.TemporaryDirectory(prefix="zsched-wasm-") as room:
        room = pathlib.Path(room)
        (room / "module.bc").write_bytes(module)
        (room / "zsched.c").write_text(as_c(linked(compiled(room / "module.bc", room), room), room))
        for name in MADE:
            replace(folder / name, room / name)
