"""The common parts of the Debian packages, whose fields are in build/control: dates, changelog, and the build."""
import datetime
import gzip
import os
import pathlib
import re
import tempfile
import textwrap

from library_files import TOP, put, ran
from toolchain import MACHINES
from zsched_tools.command import Refused, version

LIBC = {"libc.so.6", "libm.so.6", "libpthread.so.0", "libdl.so.2", "ld-linux-x86-64.so.2", "ld-linux-aarch64.so.1"}
# What the description of a package for a machine says of its tests.
TESTED = {"x86_64": "", "aarch64": "${Newline}An emulator alone tested it on arm64."}
MAINTAINER = f"{os.environ.get('DEBFULLNAME', 'zsched')} <{os.environ.get('DEBEMAIL', 'zsched@localhost')}>"


def newest():
    """The date of the newest release in CHANGELOG.md, whose version must be that of VERSION, and the texts of the first
    lines: those of that release, or of what isn't released."""
    first, *parts = (TOP / "CHANGELOG.md").read_text().split("\n## ")[1:]
    part = parts[0] if first.startswith("[Unreleased]\n") else first
    heading = re.match(r"(\S+) \((\d+-\d+-\d+)\)\n", part)
    if heading is None or heading[1] != version():
        raise Refused(f"CHANGELOG.md: the newest heading isn't that of version {version()}: {part.splitlines()[0]}")
    day = datetime.datetime.fromisoformat(heading[2]).replace(tzinfo=datetime.timezone.utc)
    return day, [" ".join(line.split()) for line in re.findall(r"^- (.+(?:\n  .+)*)", first, re.M)]


def moment():
    """The date of all files, in seconds: SOURCE_DATE_EPOCH, or that of the newest release."""
    try:
        return int(os.environ.get("SOURCE_DATE_EPOCH", newest()[0].timestamp()))
    except ValueError as fault:
        raise Refused(fault) from fault


def version_in_python():
    """The version of the package for Python: 0.4.0.dev0 in a tree that isn't released."""
    return re.search('^__version__ = "(.*)"$', (TOP / "bindings/python/zsched/__init__.py").read_text(), re.M)[1]


def changelog():
    """Debian's changelog: the first part of CHANGELOG.md. Its version is that of the package for Python, with ~git for
    .dev0."""
    day, lines = newest()
    of_packages = version_in_python().replace(".dev0", "~git")
    items = "\n".join(textwrap.fill(line, 78, initial_indent="  * ", subsequent_indent="    ") for line in lines)
    return (f"zsched ({of_packages}) unstable; urgency=medium\n\n{items}\n\n"
            f" -- {MAINTAINER}  {day.strftime('%a, %d %b %Y %H:%M:%S +0000')}\n")


def libc_of(path):
    """The least version of the C library that the program needs: the first for arm64 if it names none. A need of
    another library is an error."""
    headers = ran(["objdump", "-p", path])
    needed = set(re.findall(r"^ +NEEDED +(\S+)", headers, re.M))
    if not needed:
        return "2.17"
    if others := needed - LIBC:
        raise Refused(f"{path}: it needs libraries other than the C library: {', '.join(sorted(others))}")
    if not (versions := re.findall(r"\bGLIBC_(\d+)\.(\d+)", headers)):
        raise Refused(f"{path}: it names no version of the C library")
    return "{}.{}".format(*max((int(major), int(minor)) for major, minor in versions))


def zipped(data):
    """The bytes, compressed by gzip without date and name."""
    return gzip.compress(data.encode() if isinstance(data, str) else data, 9, mtime=0)


def built(root, name, given, libc="", is_proved=True):
    """Builds a package of the files below a root that need this version of the C library, and returns its path. The
    options say where it is made, and whether its description says that it is unproved."""
    kind = "proved" if is_proved and not given.unproved else "unproved"
    put(root / "usr/share/doc" / name / "copyright", (TOP / "build/copyright").read_bytes())
    put(root / "usr/share/doc" / name / "changelog.gz", zipped(changelog()))
    files = sorted(it.relative_to(root) for it in (root / "usr").rglob("*") if it.is_file() and not it.is_symlink())
    put(root / "DEBIAN/md5sums", ran(["md5sum", *files], cwd=root))
    with tempfile.TemporaryDirectory() as room:
        put(pathlib.Path(room, "debian/control"), (TOP / "build/control").read_bytes())
        put(pathlib.Path(room, "debian/changelog"), changelog())
        put(root / "DEBIAN/control", ran(["dpkg-gencontrol", f"-p{name}", f"-P{root}", f"-DMaintainer={MAINTAINER}",
                                          f"-Vlibc={libc}", f"-Vkind={kind}", f"-Vtested={TESTED[given.target]}", "-O"],
                                         cwd=room,
                                         env={**os.environ, "DEB_HOST_ARCH": MACHINES[given.target].debian}))
    for file in [root, *root.rglob("*")]:
        if file.is_dir():
            file.chmod(0o755)
        os.utime(file, (moment(), moment()), follow_symlinks=False)
    said = ran(["dpkg-deb", "-Zxz", "--root-owner-group", "--build", root, f"{given.out}/"],
               env={**os.environ, "LC_ALL": "C", "SOURCE_DATE_EPOCH": str(moment())})
    return pathlib.Path(re.search("in '(.*)'", said)[1])
