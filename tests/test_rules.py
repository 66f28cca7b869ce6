"""CONTRIBUTING's rules for code, over the product's crates: each violation is shown by file and line. Exceptions are
the names of the request's surface, read from the tests that compile it, and those of the header for C."""
import ast
import json
import re
import subprocess
import sys
import types

import pytest

from support import TOP

LISTED = re.findall(r"^(\w+)[\w ]*:(.*)", (TOP / "crates.txt").read_text().partition("# Laws and tests.")[0], re.M)
PRODUCT, SEEN = [crate for crate, _ in LISTED], {crate: seen.split() for crate, seen in LISTED}
FILES = {str(path.relative_to(TOP)): path.read_text() for crate in PRODUCT for part in ["src", "specs"]
         for path in sorted((TOP / "crates" / crate / part).rglob("*.*t"))}
# In the layout of `rt fmt`: a function with an empty body, one without a body, or one with a body.
FUNCTION = re.compile(r'^( *)(pub )?(?:pub\(crate\) )?(?:const |unsafe |extern "C" )*fn (\w+)(?:.*\{\}$|'
                      r"(?:(?!\1\{?\}$).*[^{\n]\n)*?.*;$|(?s:.*?)^\1\{?\}$)", re.M)
# A type, with its body; another item, without; or a field.
ITEM = re.compile(r"^( *)pub (?!use|mod)(?:(?:struct|enum|trait) (\w+)(?=([^;{]*(?:;|\{(?s:.*?)^\1\})))|"
                  r'(?:(?:const |unsafe |extern "C" |fn |static |type )+(\w+)[^{;]*|(\w+): .*))', re.M)
LONG_CLAUSE = re.compile(r"^( +)(?:requires|ensures|invariant)\b.*\n(?:\1(?: +\S|\}).*\n){2}", re.M)
PARTICIPLE = re.compile("(?!need|speed|exceed|succeed|proceed)(?:[a-z]+ed|(?:un)?(?:begun|bound|built|cut|drawn|found|"
                        "given|held|kept|known|left|lost|made|met|seen|sent|spent|taken|told|written))")
FORMS = "Term|Out|Kind|Pick|Func|Cmp|Plain|Counted|Modifier|Pairing|Infix|State|Leaf|Node|Form"
DEFAULT = re.compile(rf"^( *)(?:{FORMS})::.*\n(?:(?:\1.*)?\n)*?\1(?=_ =>)", re.M)


def words_of(text): return set(re.findall(r"\w+", re.sub(r"(?m)^\s*//.*", "", text)))


COMPILED = "\n".join(path.read_text() for path in TOP.glob("crates/zs*tests/src/tests/surface.rt"))
SURFACE = words_of(COMPILED + (TOP / "include" / "zsched.h").read_text())
# Its functions: those that are called by a value or a type, and those that are imported.
CALLED = words_of(" ".join(re.findall(r"(?m)(?:\.|::)\w+\(|^use zs_\w+::[^;]*;", COMPILED)))


def place(path, text, at): return f"{path}:{text.count(chr(10), 0, at) + 1}"


def functions(files):
    """The functions, apart from laws, each with the comment before it."""
    return [types.SimpleNamespace(at=place(path, text, it.start()), is_public=it[2], name=it[3], text=it[0],
                                  comment=text[:it.start()].rpartition("\n\n")[2])
            for path, text in files.items() if path.endswith(".rt") and not path.endswith("/laws.rt")
            for it in FUNCTION.finditer(text)]


def count_parameters(text):
    text = text[text.index("fn "):].replace("->", "")
    while (less := re.sub(r"<[^<>]*>|\[[^][]*\]", "", text)) != text:
        text = less
    inside = re.match(r"fn \w+\(((?:[^()]|\([^()]*\))*)\)", text)[1]
    return sum(bool(it.strip()) for it in re.sub(r"\([^()]*\)", "", inside).split(","))


# The name of an item that a crate defines, public or not, or of a public field.
NAMED = re.compile(r'(?m)^ *(?:pub(?:\(crate\))? )?(?:(?:const |unsafe |extern "C" )*'
                   r"(?:fn|struct|enum|trait|type|const|static) (\w+)|(?<=\) )(\w+): )")


def taken(files, crate, other):
    """The words of a crate that may be names of another one. A name of its own is, only if it is imported."""
    text = "\n".join(text for path, text in files.items() if path.startswith(f"crates/{other}/"))
    imported = words_of(" ".join(re.findall(rf"(?m)\buse (?:Rattle\.)?{crate}\b[^;\n]*", text)))
    return words_of(text) - {it[1] or it[2] for it in NAMED.finditer(text)} | imported


def unused(files):
    """Public items that no other crate uses, and that no used item of the same crate names."""
    for crate in PRODUCT:
        used = SURFACE.union(*(taken(files, crate, other) for other in PRODUCT if other != crate))
        items = [(place(path, text, it.start()), it[2] or it[4] or it[5], it[3] or it[0])
                 for path, text in files.items() if path.startswith(f"crates/{crate}/") and path.endswith(".rt")
                 and not path.endswith("/laws.rt") for it in ITEM.finditer(text)]
        for _ in items:
            used.update(*(words_of(text) for _, name, text in items if name in used))
        yield from (f"{where} {name}" for where, name, _ in items if name not in used)


def unexported(files):
    """Public types and functions that their crate doesn't export, and that no definition of another crate names."""
    for crate in PRODUCT:
        inside, lib = f"crates/{crate}/src/", files.get(f"crates/{crate}/src/lib.rt", "")
        names = words_of(" ".join([*re.findall(r"(?m)^pub use [^;]*;", lib), *(
            it for path, text in files.items() if not path.startswith(f"crates/{crate}/")
            for it in re.findall(rf"(?m)^use Rattle\.{crate}\.specs\.declared\..*", text))]))
        for path, text in files.items():
            for it in ITEM.finditer(text) if path.startswith(inside) else []:
                types_before = re.findall(r"(?m)^impl(?:<[^>]*>)? (?:[\w:<>', ]+ for )?(\w+)", text[:it.start()])
                name = it[2] or it[4]
                if name and (types_before[-1] if it[1] and types_before else name) not in names:
                    yield f"{place(path, text, it.start())} {name}"


def limits_again(files):
    """Limits written again where their constant can be seen, and those of definitions in files that can see these."""
    number = re.compile(r"(const MAX_\w+: \w+ = |^max_\w+ = )?(?<![\w.])(\d[\d_]{4,})\b(?! bytes)", re.M)
    found = [(path.split("/")[1], (path[-3:], it[2].replace("_", "")), it[1],
              place(path, text, it.end()) if path.endswith(".rt") else path)
             for path, text in files.items() for it in number.finditer(text)]
    return [f"{where} {value[1]}" for crate, value, _, where in found
            if any(value == other and is_limit and where != at and (crate == named or named in SEEN[crate])
                   for named, other, is_limit, at in found)]


def constants_named(files):
    """Constants of the code that a definition or a contract names."""
    return [f"{place(path, text, it.start())} {it[0]}" for path, text in files.items()
            for it in re.finditer(r"\buse .*\.TheConstants.*", text)]


# Each rule: what breaks it in some files, and a text that does.
RULES = {
    "a function has at most 50 lines": (
        lambda files: [it.at for it in functions(files) if it.text.count("\n") >= 50], "fn f() {" + "\n" * 50 + "}"),
    "a function has at most 7 parameters": (
        lambda files: [it.at for it in functions(files) if it.name not in CALLED and count_parameters(it.text) > 7],
        "fn f<A, B>(a: (A, B), b: A, c: A, d: A, e: A, f: A, g: A, h: A) {}\n"),
    "no function's name is a bare participle": (
        lambda files: [f"{it.at} {it.name}" for it in functions(files)
                       if PARTICIPLE.fullmatch(it.name) and it.name not in CALLED], "    fn merged(self) {\n    }\n"),
    "a public function has a contract and a line of comment": (
        lambda files: [it.at for it in functions(files) if it.is_public and not (
            "///" in it.comment and re.search("\n +(requires|ensures) ", it.text))], "/// Does it.\npub fn f() {}\n"),
    "what no other crate uses is pub(crate)": (unused, "pub enum Unheard {\n    Of,\n}\n"),
    "what a crate doesn't export is pub(crate)": (unexported, "pub fn begin()\n{}\n"),
    "a clause has at most two lines": (
        lambda files: [it.at for it in functions(files) if it.name not in CALLED and LONG_CLAUSE.search(it.text)],
        "fn f()\n    ensures a { b\n        → c\n        → d }\n{}\n"),
    "each form is written out": (
        lambda files: [place(*it, at.end()) for it in files.items() for at in DEFAULT.finditer(it[1])],
        "    Term::Map(s, _) => {\n        f(s)\n    }\n    _ => g(),\n"),
    "a limit is one constant, and one definition": (
        limits_again, "const MAX_A: u64 = 10_000;\nconst MAX_B: u64 = 10000;\n"),
    "a definition names no constant of the code": (
        constants_named, "use Rattle.zs_run.specs.declared.reading.TheConstants.{MAX_BYTES}\n"),
    "a line of specs has at most 100 columns": (
        lambda files: [place(*it, at.start()) for it in files.items() if it[0].endswith(".antt")
                       for at in re.finditer(".{101,}", it[1])], "-" * 101),
    "a file of src has at most 400 lines": (
        lambda files: [path for path in files if path.endswith(".rt") and files[path].count("\n") > 400], "\n" * 401)}


@pytest.mark.parametrize("rule", RULES)
def test_a_rule_holds_and_finds_what_breaks_it(rule):
    check, text = RULES[rule]
    assert any(check({"crates/zs_run/src/a.rt": text, "crates/zs_run/specs/A.antt": text})), "it finds nothing"
    assert not (found := "\n".join(check(FILES))), found


def long_lines(files):
    """The files with a line of more than 100 columns, other than an import of one name."""
    return [path for path, text in files.items() if re.search(r"(?m)^(?!use [^,\n]*$).{101,}", text)]


def test_a_line_of_proofs_has_at_most_100_columns_unless_its_file_is_listed():
    """A listed file that has no such line any more fails too, so the list only gets shorter."""
    assert long_lines({"one": "use " + "-" * 97 + "\n", "two": "-" * 101}) == ["two"]
    proofs = {str(path.relative_to(TOP)): path.read_text() for path in (TOP / "crates").glob("*/proofs/**/*.antt")}
    listed = (TOP / "tests" / "long_lines.txt").read_text().splitlines()[1:]
    assert sorted(long_lines(proofs)) == listed


def test_a_name_of_the_using_crate_is_no_use():
    files = {"crates/zs_drive/src/a.rt": "pub fn finish() {}\n", "crates/zs_run/src/b.rt": "fn finish() {\n}\n"}
    assert list(unused(files)) == ["crates/zs_drive/src/a.rt:1 finish"]
    for use in ["use zs_drive::finish;\n", "ghost use Rattle.zs_drive.specs.declared.a.{finish};\n"]:
        assert not list(unused({**files, "crates/zs_run/src/c.rt": use}))


MODULES = {".".join(path.relative_to(TOP / "tools").with_suffix("").parts).removesuffix(".__init__"): path.read_text()
           for path in (TOP / "tools" / "zsched_tools").rglob("*.py")}


def imported(text):
    """The names that a module imports anywhere, also inside of functions, each with what may be a module in it."""
    for node in ast.walk(ast.parse(text)):
        if isinstance(node, ast.Import):
            yield from (it.name for it in node.names)
        elif isinstance(node, ast.ImportFrom):
            yield from [node.module, *(f"{node.module}.{it.name}" for it in node.names)]


def import_cycles(modules):
    """Those modules of a table of texts that import themselves through others, and those between two of such."""
    left = {name: set(imported(text)) & modules.keys() - {name} for name, text in modules.items()}
    # Modules that import none that is left, or that none imports, are in no cycle.
    while idle := {it for it in left if not left[it] & left.keys() or not any(it in found for found in left.values())}:
        left = {name: it for name, it in left.items() if name not in idle}
    return sorted(left)


def test_no_module_of_the_tools_imports_itself_through_others():
    assert import_cycles(MODULES) == [] and len(MODULES) > 60
    planted = {"zsched_tools.words": "\ndef late():\n    from zsched_tools import place\n"}
    with_cycle = import_cycles(MODULES | {name: MODULES[name] + text for name, text in planted.items()})
    assert {"zsched_tools.words", "zsched_tools.place"} <= set(with_cycle)


def lint(*words):
    return subprocess.run([sys.executable, "-m", "pycodestyle", f"--config={TOP}/setup.cfg", *words],
                          capture_output=True, text=True).stdout


def test_python_is_as_pycodestyle_wants_it(tmp_path):
    pytest.importorskip("pycodestyle", reason="pycodestyle isn't installed (Debian: pycodestyle)")
    (tmp_path / "wide.py").write_text(f"it = '{'-' * 114}'\n")
    assert lint(tmp_path / "wide.py").endswith("E501 line too long (121 > 120 characters)\n")
    files = [it for part in ["benches", "bindings", "build", "tests", "tools"] for it in (TOP / part).rglob("*")
             if it.is_file() and TOP / "tests/cases" not in it.parents]
    scripts = [it for it in files if it.suffix == ".py" or re.match(rb"#!.*python", it.read_bytes()[:40])]
    assert len(scripts) > 100 and lint(*scripts) == ""


def test_a_table_of_rows_names_the_test_that_reads_it():
    tables = sorted((TOP / "tests").glob("*.jsonl"))
    assert len(tables) > 20
    for path in tables:
        name, _, columns = json.loads(path.read_text(encoding="utf-8").partition("\n")[0]).partition(": ")
        assert columns and f'rows("{path.name}")' in (TOP / "tests" / name).read_text(), path.name
