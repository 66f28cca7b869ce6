"""The files of the library as they are installed: headers, library, pkg-config and CMake."""
import pathlib
import re
import subprocess
import sys

TOP = pathlib.Path(__file__).resolve().parent.parent
sys.path.insert(0, str(TOP / "tools"))

from zsched_tools.command import Refused, version

MADE = TOP / "crates" / "zsched_c" / "out"
ABI = (TOP / "include" / "zsched.abi").read_text(encoding="utf-8")
SONAME = re.search(r"^soname (\S+)$", ABI, re.M)[1]
# The soname's number, which the Debian package of the shared library has too.
NUMBER = SONAME.rpartition(".")[2]
FUNCTIONS = re.findall(r"^function (\S+) (\S+)$", ABI, re.M)
# The headers, each where it is installed and where it is in the tree.
HEADERS = {"zsched.h": "include/zsched.h", "zsched/retry.h": "bindings/c/retry.h"}
# How C is compiled, and what is no part of a program: the names of its compilers.
C = ["-O2", "-Wall", "-Wextra", "-Werror"]
SECTIONS = ["--remove-section=.comment", "--remove-section=.note"]
PC = """\
prefix={prefix}
libdir=${{prefix}}/{libdir}
includedir=${{prefix}}/include

Name: zsched
Description: Retries by schedules of ZIO 2's kind
Version: {version}
Libs: -L${{libdir}} -lzsched
Cflags: -I${{includedir}}
"""
CONFIG = """\
# zsched::zsched is the shared library, zsched::static the archive.
get_filename_component(_zsched_prefix "${{CMAKE_CURRENT_LIST_DIR}}/{up}" ABSOLUTE)
foreach(_zsched_kind "zsched;SHARED;libzsched.so" "static;STATIC;libzsched.a")
  list(GET _zsched_kind 0 _zsched_name)
  list(GET _zsched_kind 1 _zsched_type)
  list(GET _zsched_kind 2 _zsched_file)
  if(NOT TARGET zsched::${{_zsched_name}})
    add_library(zsched::${{_zsched_name}} ${{_zsched_type}} IMPORTED)
    set_target_properties(zsched::${{_zsched_name}} PROPERTIES
      IMPORTED_LOCATION "${{_zsched_prefix}}/{libdir}/${{_zsched_file}}"
      INTERFACE_INCLUDE_DIRECTORIES "${{_zsched_prefix}}/include")
  endif()
endforeach()
"""
CONFIG_VERSION = """\
# Versions that begin with the same number serve one another; before 1 the second number counts too.
set(PACKAGE_VERSION "{version}")
if(PACKAGE_FIND_VERSION_MAJOR EQUAL {major} AND PACKAGE_FIND_VERSION_MINOR EQUAL {minor}
   AND NOT PACKAGE_FIND_VERSION VERSION_GREATER PACKAGE_VERSION)
  set(PACKAGE_VERSION_COMPATIBLE TRUE)
  if(PACKAGE_FIND_VERSION VERSION_EQUAL PACKAGE_VERSION)
    set(PACKAGE_VERSION_EXACT TRUE)
  endif()
endif()
"""


def ran(words, **more):
    """Runs a program, and returns its output. Raises Refused if the program fails."""
    try:
        ended = subprocess.run([str(it) for it in words], capture_output=True, text=True, check=False, **more)
    except FileNotFoundError:
        raise Refused(f"{words[0]} isn't on this machine") from None
    if ended.returncode:
        raise Refused(f"{words[0]}: {(ended.stderr or ended.stdout).strip()[-900:]}")
    return ended.stdout


def symbols():
    """The version script of the shared library: its functions, each with the version that exports it."""
    text, before = "", ""
    for node in sorted({node for _, node in FUNCTIONS}):
        names = " ".join(f"{name};" for name, its in FUNCTIONS if its == node)
        text += f"{node} {{ global: {names}{'' if before else ' local: *;'} }}{before};\n"
        before = f" {node}"
    return text


def made_library(folder=MADE):
    """The shared library and the archive that build/make-library made."""
    found = [folder / "libzsched.so", folder / "libzsched.a"]
    for path in found:
        if not path.exists():
            raise Refused(f"{path} is missing: build/make-library makes it")
    return found


def put(place, data, mode=0o644):
    """Writes a file, and makes its folders."""
    place.parent.mkdir(parents=True, exist_ok=True)
    place.write_bytes(data.encode() if isinstance(data, str) else data)
    place.chmod(mode)


def put_shared(root, libdir, shared):
    """The shared library under its full name, and a link with its soname."""
    name = f"libzsched.so.{version()}"
    put(root / libdir / name, shared.read_bytes())
    link(root / libdir / SONAME, name)


def put_development(root, prefix, libdir, archive):
    """The files for building programs: headers, archive, the linker's link, and those for pkg-config and CMake."""
    base = root / prefix.strip("/")
    for name, source in HEADERS.items():
        put(base / "include" / name, (TOP / source).read_bytes())
    put(base / libdir / "libzsched.a", archive.read_bytes())
    link(base / libdir / "libzsched.so", SONAME)
    put(base / libdir / "pkgconfig" / "zsched.pc", PC.format(prefix=prefix, libdir=libdir, version=version()))
    folder = base / libdir / "cmake" / "zsched"
    up = "/".join([".."] * (2 + len(pathlib.PurePath(libdir).parts)))
    major, minor, _ = version().split(".")
    put(folder / "zschedConfig.cmake", CONFIG.format(up=up, libdir=libdir))
    put(folder / "zschedConfigVersion.cmake", CONFIG_VERSION.format(version=version(), major=major, minor=minor))


def link(place, target):
    """Makes a link, and replaces an earlier file."""
    place.parent.mkdir(parents=True, exist_ok=True)
    place.unlink(missing_ok=True)
    place.symlink_to(target)
