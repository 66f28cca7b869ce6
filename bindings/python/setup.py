"""Links libzsched.so of the archive libzsched.a, or compiles it of zsched.c where there is none, and puts it into the
wheel.

So the wheel is for this machine's platform, and for every Python 3."""
import os
import pathlib
import platform
import subprocess
import sys

from setuptools import setup
from setuptools.command.build_py import build_py
from setuptools.dist import Distribution

try:
    from setuptools.command.bdist_wheel import bdist_wheel
except ImportError:
    # setuptools before 70.1
    from wheel.bdist_wheel import bdist_wheel

HERE = pathlib.Path(__file__).resolve().parent
NAME, SOURCE = "libzsched.a", "zsched.c"
# The folder of each machine's archive.
MACHINES = {("linux", "x86_64"): "", ("linux", "aarch64"): "aarch64"}
# It has no soname, so that no other module gets this one in place of the system's, and names no C library, so that it
# works with glibc and musl.
FLAGS = ["-shared", "-nostdlib", "-s", "-Wl,-z,noexecstack,-z,relro,-z,now"]


def found(below, made, name):
    """Returns a file of the library: the one in the folder that ZSCHED_LIBRARY_DIR names, else the one of the sdist,
    else, in the source tree, the one that build/make-library made there."""
    named = os.environ.get("ZSCHED_LIBRARY_DIR")
    path = (pathlib.Path(named) if named else HERE / below) / name
    # What is above an unpacked sdist may be anyone's.
    if not named and not path.exists() and HERE.parts[-2:] == ("bindings", "python"):
        path = HERE.parents[1] / "crates" / "zsched_c" / "out" / made / name
    return path


def words():
    """Returns the words by which the compiler makes the library: of this machine's archive, else of the source, which
    is the proved module, compiled further."""
    below = MACHINES.get((sys.platform, platform.machine()))
    archive, source = found(below or "", below or "", NAME), found("", "wasm", SOURCE)
    if below is not None and archive.exists():
        return [*FLAGS, "-Wl,--whole-archive", archive, "-Wl,--no-whole-archive", "-lgcc"]
    if source.exists():
        return ["-shared", "-fPIC", "-O2", "-pthread", source]
    raise SystemExit(f"zsched: there is no {archive}, which is for Linux on x86-64 and arm64, and no {source}: build "
                     "one by build/make-library, or name its folder in ZSCHED_LIBRARY_DIR")


class WithLibrary(build_py):
    """Builds the modules, with the library in their folder."""

    def run(self):
        """Builds the modules, then the library."""
        super().run()
        out = pathlib.Path(self.build_lib) / "zsched" / "libzsched.so"
        subprocess.run([os.environ.get("CC", "cc"), "-o", out, *words()], check=True)


class OfThisMachine(bdist_wheel):
    """A wheel for this platform and every Python 3: the modules call the library by ctypes."""

    def get_tag(self):
        """Returns the three tags in the wheel's name: Python, ABI and platform, of which there may be two."""
        return "py3", "none", self.plat_name if "." in (self.plat_name or "") else super().get_tag()[2]


class WithMachineCode(Distribution):
    """A distribution that holds machine code."""

    def has_ext_modules(self):
        """Returns True, so that the wheel is tagged for a platform."""
        return True


setup(cmdclass={"build_py": WithLibrary, "bdist_wheel": OfThisMachine}, distclass=WithMachineCode)
