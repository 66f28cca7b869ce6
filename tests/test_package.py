"""The library's interface, and the packages of the library and its bindings, each as its registry's client unpacks it,
for the client of its language. Cases of make-deb, make-library, install-library and release are files in
tests/cases/."""
import contextlib
import hashlib
import os
import pathlib
import re
import shutil
import subprocess

import pytest

import languages
from languages import BINDINGS, CLEAN, CLIENTS, JNA, Client, Place, are_kept, need, ran, request
from support import TOP, output_of

VERSION = (TOP / "VERSION").read_text().strip()
# The version of the package for Python.
OF_PYTHON = re.search('__version__ = "(.*)"', (BINDINGS / "python/zsched/__init__.py").read_text())[1]
# That of Debian's packages: that of a tree that isn't released sorts before the next release.
OF_DEBIAN = OF_PYTHON.replace(".dev0", "~git")
HEADER, ABI = ((TOP / "include" / name).read_text() for name in ["zsched.h", "zsched.abi"])
SONAME = re.search(r"^soname (\S+)", ABI, re.M)[1]
DEBS = [f"libzsched{SONAME.rpartition('.')[2]}", "libzsched-dev", "python3-zsched"]
PYTHON = "/usr/bin/python3"
# Where Debian's packages put Maven's plugins (libmaven-compiler-plugin-java and so on), and those that compile.
MAVEN = pathlib.Path("/usr/share/maven-repo")
PLUGINS = [MAVEN / f"org/apache/maven/plugins/maven-{name}-plugin" for name in ["compiler", "resources"]]
# What a library without the name of a C library may take of one. `nm` prints a U before each.
OF_ANY_C_LIBRARY = {"U", "malloc", "realloc", "free", "memcpy", "memmove", "memset"}
POLICY = "((exponential(40) || spaced(100)) && recurs(5)).whileInput(>= 500)"


def test_functions_and_soname_are_those_of_the_library(library):
    for folder in [library, library / "aarch64"]:
        assert set(output_of(["nm", "-D", "--undefined-only", folder / "libzsched.so"]).split()) <= OF_ANY_C_LIBRARY
        assert "NEEDED" not in output_of(["objdump", "-p", folder / "libzsched.so"])
    told = output_of(["nm", "-D", "--defined-only", "--with-symbol-versions", library / "libzsched.so"])
    names = sorted(re.findall(r"^\w+ T (\w+)@@(\S+)$", told, re.M))
    assert [f"function {name} {node}" for name, node in names] == re.findall(r"^function .*", ABI, re.M)
    assert {words.split()[2].partition("@")[0] for words in told.splitlines()} == {it for pair in names for it in pair}
    assert re.findall(r"SONAME +(\S+)", output_of(["objdump", "-p", library / "libzsched.so"])) == [SONAME]
    archive = output_of(["nm", "--extern-only", "--defined-only", library / "libzsched.a"])
    for text, form in [(HEADER, r"^(?:enum )?\w+ (zs_\w+)\("), (archive, r"^\w+ \w (\w+)$")]:
        assert sorted(re.findall(form, text, re.M)) == [name for name, _ in names]


@pytest.mark.parametrize("name, form", [
    ("python/pyproject.toml", r'^Source = "https://(.*)"'), ("rust/Cargo.toml", r'^repository = "https://(.*)"'),
    ("java/pom.xml", r"^  <url>https://(.*)</url>"), ("go/go.mod", r"^module (.*)/bindings/go$"),
    ("node/package.json", r'^  "repository": "github:(.*)"')])
def test_a_package_names_the_repository_in_which_it_is(name, form):
    found, = re.findall(form, (BINDINGS / name).read_text(), re.M)
    assert found.removeprefix("github.com/") == "zsched/zsched"


def test_a_program_has_the_types_of_the_package_for_node(tmp_path):
    need("tsc")
    declared, program = [shutil.copy(it, tmp_path / it.name)
                         for it in [BINDINGS / "node/zsched.d.ts", CLIENTS / "typed.ts"]]
    names = {*re.findall(r"^(?:export \w+ |  (?:readonly |get )?)(\w+).*[^,]$", declared.read_text(), re.M)}
    names -= {"constructor", "private"}
    assert len(names) > 40 and names <= set(re.findall(r"\w+", program.read_text()))
    ran(["tsc", "--noEmit", "--strict", "--target", "es2020", "--lib", "es2020,dom", program], tmp_path)


def test_a_program_has_the_types_of_the_package_for_python(tmp_path):
    need("mypy")
    text = (BINDINGS / "python/zsched/__init__.py").read_text()
    names = re.findall(r'"(\w+)"', text.split("__all__")[1].split("]")[0])
    assert len(names) > 10 and set(names) <= set(re.findall(r"\w+", (CLIENTS / "typed.py").read_text()))
    blocks = re.findall(r"```python\n(.*?)```", (BINDINGS / "python/README.md").read_text(), re.S)
    # That package may not be there.
    page = "\n\n".join(it for it in blocks if "prometheus" not in it)
    assert "statistics" in page and "with_" in page and "bounds" in page
    (tmp_path / "page.py").write_text(page)
    # The oldest Python that the package is for.
    version = re.search(r'requires-python = ">=(.*)"', (BINDINGS / "python/pyproject.toml").read_text())[1]
    for older in [[], ["--python-version", version]]:
        ran(["mypy", "--strict", "--cache-dir", tmp_path / "cache", *older, CLIENTS / "typed.py", "page.py",
             BINDINGS / "python/zsched"], tmp_path, MYPYPATH=BINDINGS / "python")


def refused(words, room, **variables):
    """What a command that has to fail says."""
    ended = subprocess.run([str(it) for it in words], cwd=room, capture_output=True, text=True, check=False,
                           env=CLEAN | {name: str(it) for name, it in variables.items()})
    assert ended.returncode != 0
    return ended.stdout + ended.stderr


@pytest.mark.parametrize("variables", [{"CGO_ENABLED": "0"}, {"GOOS": "darwin", "GOARCH": "arm64"}])
def test_a_build_in_go_says_what_it_needs(tmp_path, variables):
    need("go")
    shutil.copytree(BINDINGS / "go", tmp_path / "go")
    said = refused(["go", "build", "."], tmp_path / "go", **variables)
    assert re.findall(r"undefined: (\w+)", said) == ["zsched_needs_cgo_and_a_C_compiler"]


def test_a_crate_for_another_machine_says_for_which_it_is(tmp_path):
    need("rustc")
    ran(["rustc", "-o", "build", BINDINGS / "rust/build.rs"], tmp_path, CARGO_MANIFEST_DIR=tmp_path)
    for machine, folder in [("x86_64", tmp_path), ("aarch64", tmp_path / "aarch64")]:
        folder.mkdir(exist_ok=True)
        assert "and there is no" in refused(["./build"], tmp_path, TARGET=f"{machine}-unknown-linux-musl")
        (folder / "libzsched.a").touch()
        for target in ["gnu", "musl"]:
            said = ran(["./build"], tmp_path, TARGET=f"{machine}-unknown-linux-{target}")
            assert "link-lib=static=zsched\n" in said and str(folder) == re.search("native=(.*?)/?\n", said)[1]
            assert ("cargo:rustc-link-arg=-Wl,-z,stack-size=262144\n" in said) is (target == "musl")
    for target in ["aarch64-apple-darwin", "riscv64gc-unknown-linux-gnu", "x86_64-pc-windows-msvc"]:
        said = refused(["./build"], tmp_path, TARGET=target)
        assert f"zsched: libzsched.a is for Linux on x86-64 and arm64, and it is not for {target}" in said
        assert "in ZSCHED_LIBRARY_DIR" not in said


@pytest.mark.full
def test_the_bundle_for_maven_central_has_its_layout_and_sums(root):
    need("javac", JNA)
    made = packages(root, "java")
    bundle = root.folder / "bundle"
    shutil.unpack_archive(made[-2], bundle, "zip")
    found = {str(it.relative_to(bundle)): it.read_bytes() for it in bundle.rglob("*") if it.is_file()}
    names = [f"io/github/zsched/zsched/{VERSION}/zsched-{VERSION}{end}"
             for end in ["-javadoc.jar", "-sources.jar", ".jar", ".pom"]]
    assert sorted(found) == sorted(name + end for name in names for end in ["", ".md5", ".sha1"])
    for name in names:
        for kind in ["md5", "sha1"]:
            assert found[f"{name}.{kind}"].decode() == hashlib.new(kind, found[name]).hexdigest()
    pom = (BINDINGS / "java/pom.xml").read_text()
    for field in ["name", "description", "url", "licenses", "developers", "scm", "connection", "developerConnection"]:
        assert f"<{field}>" in pom


class Root:
    """An empty folder with a root, in which packages are installed."""

    def __init__(self, folder, library):
        self.folder, self.made, self.path = folder, library, folder / "root"
        self.path.mkdir()

    def debs(self, *names):
        """Installs these Debian packages, and has ldconfig find the library: the place of the library."""
        need("dpkg-deb", "dpkg")
        packages = made_debs(self.folder / "packages", self.made)
        for name in ["var/lib/dpkg/info", "var/lib/dpkg/updates", "etc"]:
            (self.path / name).mkdir(parents=True)
        (self.path / "var/lib/dpkg/status").write_text("")
        # The packages below, as libc6, are those of this machine.
        self.dpkg("--force-depends", "--install", *[it for it in packages if it.name.partition("_")[0] in names])
        folder = next(self.path.rglob(SONAME)).parent
        (self.path / "etc/ld.so.conf").write_text(f"/{folder.relative_to(self.path)}\n")
        ran(["/sbin/ldconfig", "-r", self.path], self.folder)
        found = ran(["/sbin/ldconfig", "-r", self.path, "-p"], self.folder)
        assert f"{SONAME} (libc6,x86-64) => /{folder.relative_to(self.path)}" in found
        return self.place(folder)

    def place(self, folder):
        """The place of the installed library in a folder."""
        if not (folder / "pkgconfig").exists():
            return Place(None, folder, [])
        need("pkg-config")
        flags = ran(["pkg-config", "--cflags", "--libs", "zsched"], self.folder, PKG_CONFIG_LIBDIR=folder / "pkgconfig",
                    PKG_CONFIG_SYSROOT_DIR=self.path)
        return Place(self.path / "usr/include", folder, flags.split())

    def dpkg(self, *words):
        ran(["dpkg", f"--root={self.path}", "--force-not-root", "--force-script-chrootless", "--log=/dev/null",
             *words], self.folder, PATH=f"{os.environ['PATH']}:/sbin")

    def purge(self):
        """Removes the packages again; nothing of them may remain."""
        if (self.path / "var/lib/dpkg").exists():
            status = (self.path / "var/lib/dpkg/status").read_text()
            self.dpkg("--force-depends", "--purge", *re.findall(r"^Package: (\S+)", status, re.M))
        return [it for it in self.path.rglob("*zsched*") if "var/lib/dpkg" not in str(it)]


def made_debs(folder, library, target="x86_64"):
    folder.mkdir()
    words = [TOP / "build/make-library-debs", "--out", folder, "--library", library, "--target", target]
    env = {**os.environ, "DEBEMAIL": "zsched@example.org"}
    return [pathlib.Path(line) for line in output_of(words, env=env).split()]


def install(root):
    output_of([TOP / "build/install-library", "--library", root.made, "--destdir", root.path, "--prefix", "/usr"])
    return root.path / "usr/lib"


@pytest.fixture
def root(tmp_path, library):
    return Root(tmp_path, library)


def python(root):
    place = root.debs(DEBS[0], DEBS[2])
    return Client([PYTHON, "-B", CLIENTS / "client.py"],
                  {"PYTHONPATH": str(root.path / "usr/lib/python3/dist-packages"),
                   "LD_LIBRARY_PATH": str(place.library)})


def packages(root, language):
    """The packages of a binding, with the library in them."""
    return [pathlib.Path(line) for line in output_of(
        [TOP / "build/packages", language, "--out", root.folder / "packages", "--library", root.made]).split()]


def pip(root, package):
    """The client in Python, over a package that pip installs into an empty folder."""
    ran([PYTHON, "-m", "pip", "install", "--quiet", "--no-index", "--no-deps", "--no-build-isolation", "--target",
         "site", package], root.folder)
    assert (root.folder / "site/zsched/py.typed").exists()
    return Client([PYTHON, "-B", CLIENTS / "client.py"], {"PYTHONPATH": str(root.folder / "site")})


def wheel(root):
    """The wheel, which has to keep auditwheel's rules for its tag: versions of the C library, and no other library."""
    made, *_ = packages(root, "python")
    client, tags = pip(root, made), ["manylinux_2_17_x86_64", "musllinux_1_1_x86_64"]
    # An unreleased tree says so, so that pip takes it over a release.
    symbols = re.findall(r" ZSCHED_(\S+)$", (TOP / "include/zsched.abi").read_text(), re.M)
    assert OF_PYTHON in [VERSION, *(f"{it}.dev0" for it in symbols)]
    assert made.name == f"zsched-{OF_PYTHON}-py3-none-{'.'.join(tags)}.whl"
    metadata = next(root.folder.glob("site/zsched-*/METADATA")).read_text()
    assert metadata.count("\nClassifier: ") >= 5 and "\nAuthor: " in metadata
    said = next(root.folder.glob("site/zsched-*/WHEEL")).read_text()
    assert f"Root-Is-Purelib: false\n{''.join(f'Tag: py3-none-{it}{chr(10)}' for it in tags)}" in said
    library = root.folder / "site/zsched/libzsched.so"
    headers = output_of(["objdump", "-p", library])
    assert "NEEDED" not in headers and "GLIBC" not in headers
    assert re.search(r"STACK .*\n.* flags rw-$", headers, re.M)
    assert set(output_of(["nm", "-D", "--undefined-only", library]).split()) <= OF_ANY_C_LIBRARY
    return client


def crate(root):
    """The client in Rust, over the crate as cargo packages it again, without the toolchain."""
    need("cargo")
    shutil.unpack_archive(packages(root, "rust")[0], root.folder, "gztar")
    folder = root.folder / f"zsched-{VERSION}"
    ended = subprocess.run(["cargo", "package", "--offline", "--allow-dirty"], cwd=folder, capture_output=True,
                           text=True, check=False, env={**CLEAN, "CARGO_TARGET_DIR": str(root.folder / "made")})
    assert ended.returncode == 0 and "warning" not in ended.stderr, ended.stderr
    shutil.unpack_archive(root.folder / f"made/package/zsched-{VERSION}.crate", root.folder / "registry", "gztar")
    return languages.rust(root.folder, None, root.folder / "registry" / folder.name)


def npm(root):
    """The client in JavaScript, over the package that npm installs. Elsewhere an error says for which machines."""
    need("npm")
    ran(["npm", "install", "--offline", "--no-audit", "--no-fund", *packages(root, "node")], root.folder,
        npm_config_cache="cache")
    said = refused(["node", "-e", "require('zsched')"], root.folder, ZSCHED_NODE="/nowhere")
    assert "Error: zsched: /nowhere can't be loaded on linux on x64. The package has it for Linux on x64 and" in said
    shutil.copy(CLIENTS / "client.js", root.folder)
    return Client(["node", root.folder / "client.js"], {})


def maven(root):
    """The same, compiled by Maven with the jar and the POM in a repository beside Debian's packages."""
    need("mvn", *PLUGINS)
    # Links to packages that aren't installed have no target, and aren't needed.
    with contextlib.suppress(shutil.Error):
        shutil.copytree(MAVEN, root.folder / "repository")
    made = packages(root, "java")
    place = root.folder / "repository/io/github/zsched/zsched" / VERSION
    place.mkdir(parents=True)
    for path in [made[0], made[-1]]:
        shutil.copy(path, place)
    (root.folder / "src/main/java").mkdir(parents=True)
    shutil.copy(CLIENTS / "Client.java", root.folder / "src/main/java")
    needed = f"<groupId>io.github.zsched</groupId><artifactId>zsched</artifactId><version>{VERSION}</version>"
    pom = made[-1].read_text().replace("<artifactId>zsched<", "<artifactId>client<")
    pom = pom.replace("<dependencies>", f"<dependencies><dependency>{needed}</dependency>")
    (root.folder / "pom.xml").write_text(pom)
    ran(["mvn", "--offline", "--quiet", "-Dmaven.repo.local=repository", "compile"], root.folder)
    return Client(["java", "-cp", f"{JNA}:{made[0]}:{root.folder / 'target/classes'}", "Client"], {})


INSTALLED = {
    "C": lambda root: languages.c(root.folder, root.debs(*DEBS[:2])), "Python": python, "wheel": wheel,
    "sdist": lambda root: pip(root, packages(root, "python")[-1]), "crate": crate, "npm": npm,
    "Go": lambda root: languages.go(root.folder, languages.built_library(root.made)), "Maven": maven,
    "jar": lambda root: languages.java(root.folder, None, packages(root, "java")[0]),
    "C++": lambda root: languages.c(root.folder, root.place(install(root)), compiler=languages.CPP)}


@pytest.mark.parametrize("name", [
    pytest.param(it, marks=[pytest.mark.full] * (it in ["jar", "Maven"])) for it in INSTALLED])
def test_a_client_of_what_is_installed_retries_and_steps(name, root):
    client = INSTALLED[name](root)
    for text, code, times, wanted, waits in [(POLICY, 503, 3, "done", [40, 80, 100]), (POLICY, 404, 9, "404", []),
                                             ("(spaced(30) && recurs(2))", 503, 9, "503", [30, 30])]:
        ended, moments = client.retries(text, code, times)
        assert ended == wanted and are_kept(waits, moments)
    assert client.says([request("program", POLICY, 7, 503, 50, 404)]) == ["0,47,((40,0),0) 1,0,((80,1),1)"]
    if name != "C++":
        assert root.purge() == []


def machine_code(path, folder):
    """The bytes of each file with machine code in a package, by its name and the processor in its header."""
    shutil.unpack_archive(path, folder, "zip" if path.suffix in (".whl", ".jar", ".zip") else "gztar")
    found = {it.relative_to(folder): it.read_bytes() for it in folder.rglob("*") if it.is_file()}
    found = {name: data for name, data in found.items() if data.startswith((b"\x7fELF", b"!<arch>\n"))}
    return {("/".join(name.parts[-2:]), {62: "x86_64", 183: "aarch64"}[data[data.index(b"\x7fELF") + 18]]): data
            for name, data in found.items()}


INSIDE = f"zsched-{VERSION}/libzsched.a", "aarch64/libzsched.a"


@pytest.mark.parametrize("language, place, x86_64, aarch64", [
    ("python", 2, f"zsched-{OF_PYTHON}/libzsched.a", INSIDE[1]), ("rust", 0, *INSIDE),
    ("node", 0, "package/zsched.node", "aarch64/zsched.node"),
    ("go", 0, f"go@v{VERSION}/libzsched.a", f"go@v{VERSION}/libzsched_arm64.a"),
    pytest.param("java", 0, "linux-x86-64/libzsched.so", "linux-aarch64/libzsched.so", marks=pytest.mark.full)])
def test_a_package_has_the_tested_library_for_each_machine(language, place, x86_64, aarch64, root):
    made = packages(root, language)
    found = machine_code(made[place], root.folder / "inside")
    assert found.keys() == {(x86_64, "x86_64"), (aarch64, "aarch64")}
    for (name, _), data in found.items():
        tested = root.made / ("aarch64" if name == aarch64 else "") / "libzsched.a"
        assert data == tested.read_bytes() or not name.endswith(".a")
    if language == "python":
        for number, machine in enumerate(["x86_64", "aarch64"]):
            for tag in made[number].stem.split("-")[-1].split("."):
                words = ["--platform", tag, "--only-binary=:all:", "--target", tag]
                ran([PYTHON, "-m", "pip", "install", "--no-index", "--no-deps", *words, made[number]], root.folder)
            assert machine_code(made[number], root.folder / f"in-{machine}").keys() == {
                ("zsched/libzsched.so", machine)}


@pytest.mark.parametrize("target", ["x86_64", "aarch64"])
def test_a_package_has_the_programs_that_are_tested(target, zsched, population, bounds, tmp_path):
    programs = {"zsched": zsched, "zsched-population": population, "zsched-bounds": bounds}
    words = ["--whole", "--target", target, "--out", tmp_path]
    for name, path in programs.items():
        words += [f"--{name.removeprefix('zsched-')}", path]
    package = output_of([TOP / "build/make-deb", *words]).strip()
    assert output_of(["dpkg-deb", "-f", package, "Architecture"]) == {"x86_64": "amd64\n", "aarch64": "arm64\n"}[target]
    output_of(["dpkg-deb", "-x", package, tmp_path / "root"])
    for name, path in programs.items():
        tested = path.parent / ("aarch64" if target == "aarch64" else "") / path.name
        assert (tmp_path / "root/usr/bin" / name).read_bytes() == tested.read_bytes()


@pytest.mark.parametrize("target, architecture", [("x86_64", "amd64"), ("aarch64", "arm64")])
def test_debian_packages_are_the_same_bytes_again_and_lintian_has_nothing_to_say(target, architecture, tmp_path,
                                                                                 library):
    need("dpkg-deb", "lintian")
    packages, again = (made_debs(tmp_path / name, library, target) for name in ["first", "again"])
    assert [it.name for it in packages] == [f"{name}_{OF_DEBIAN}_{architecture if name in DEBS[:2] else 'all'}.deb"
                                            for name in DEBS]
    assert [it.read_bytes() for it in again] == [it.read_bytes() for it in packages]
    assert output_of(["lintian", "--allow-root", "--fail-on", "error,warning", *packages]) == ""
    for package in packages:
        ran(["dpkg-deb", "-x", package, "root"], tmp_path)
        for line in output_of(["dpkg-deb", "--info", package, "md5sums"]).splitlines():
            total, name = line.split("  ")
            assert hashlib.md5((tmp_path / "root" / name).read_bytes()).hexdigest() == total, name
    assert (tmp_path / f"root/usr/lib/{target}-linux-gnu/{SONAME}").exists()
    assert (tmp_path / f"root/usr/lib/python3/dist-packages/zsched-{OF_PYTHON}.dist-info/METADATA").exists()
    for wanted in re.findall(r" (\S+)$", output_of(["dpkg-deb", "--info", packages[0], "symbols"]), re.M)[1:]:
        ran(["dpkg", "--compare-versions", OF_DEBIAN, "ge", wanted], tmp_path)
    assert (tmp_path / "root/usr/include/zsched/retry.h").read_bytes() == (BINDINGS / "c/retry.h").read_bytes()
    needs = [output_of(["dpkg-deb", "-f", package, "Depends"]).strip() for package in packages]
    assert re.fullmatch(r"libc6 \(>= 2\.\d+\)", needs[0])
    assert needs[1:] == [f"{DEBS[0]} (= {OF_DEBIAN})", f"python3 (>= 3.10), {DEBS[0]} (>= {OF_DEBIAN})"]
