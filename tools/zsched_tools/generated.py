"""Completions for bash, zsh and fish, and a manual page. They are made from the parser of a command, as its help is."""
import argparse
import re

# The names of arguments that are files or folders.
FILES = {"FILE", "PATH", "LOG", "PLAN", "PLAN.json", "SCENARIO.json", "MANIFEST | PART"}
FOLDERS = {"FOLDER", "DIR"}


class Generate(argparse.Action):
    """The option that prints one of the forms and ends the command."""

    def __call__(self, parser, namespace, values, option_string=None):
        print("\n".join(FORMS[values](parser)))
        parser.exit()


def _parsers(parser):
    """Each parser with the word that chooses it: that of the command itself, chosen by none, and those of its parts."""
    return [("", parser), *((word, one) for it in parser._actions if isinstance(it, argparse._SubParsersAction)
                            for word, one in it.choices.items())]


def _arguments(parser):
    return [it for it in parser._actions if not it.option_strings and not isinstance(it, argparse._SubParsersAction)]


def _version(parser):
    """The version that the option --version prints."""
    return next(it for it in parser._actions if isinstance(it, argparse._VersionAction)).version.split(" ")[-1]


def _options(parser): return [it for it in parser._actions if it.option_strings]
def _formatter(parser): return parser.formatter_class(parser.prog, width=80)
def _help(parser, action): return _formatter(parser)._expand_help(action) if action.help else ""


# A text as each form has it. In a manual page no line of it is a command.
def _zsh_text(text): return re.sub(r"([][:\\])", r"\\\1", text).replace("'", "'\\''")
def _fish_text(text): return "'" + re.sub(r"(['\\])", r"\\\1", text) + "'"
def _roff(text): return re.sub(r"^([.'])", r"\\&\1", text.replace("\\", "\\e").replace("-", "\\-"), flags=re.M)


def _kind(action):
    """What an argument takes: "" (nothing), files, folders, its choices, or any text."""
    if action.nargs == 0:
        return ""
    name = action.metavar or action.dest
    return "files" if name in FILES else "folders" if name in FOLDERS else "choices" if action.choices else "text"


def _words(parser):
    """The words that choose a part of a command, each with its help."""
    return [(it.dest, it.help) for action in parser._actions if isinstance(action, argparse._SubParsersAction)
            for it in action._choices_actions]


def bash(parser):
    name, words = "_" + parser.prog.replace("-", "_"), " ".join(word for word, _ in _words(parser))
    yield from [f"# Completions of {parser.prog} for bash.", f"{name}() {{",
                "  local word=${COMP_WORDS[COMP_CWORD]} before=${COMP_WORDS[COMP_CWORD - 1]}",
                '  local part="" it words files="" flags',
                '  for it in "${COMP_WORDS[@]:1:COMP_CWORD-1}"; do',
                f'    [ -n "$part" ] || [[ " {words} " != *" $it "* ]] || part=$it', "  done",
                '  case "$part $before" in']
    found = {"files": "compgen -f", "folders": "compgen -d", "text": ":"}
    for part, one in _parsers(parser):
        for option in filter(_kind, _options(one)):
            places = " | ".join(f'"{part} {flag}"' for flag in option.option_strings)
            made = found.get(_kind(option)) or f'compgen -W "{" ".join(option.choices)}"'
            yield f'    {places}) mapfile -t COMPREPLY < <({made} -- "$word"); return ;;'
    yield from ["  esac", "  case $part in"]
    for part, one in _parsers(parser):
        flags = " ".join(flag for option in _options(one) for flag in option.option_strings)
        files = "yes" if any(_kind(it) == "files" for it in _arguments(one)) else ""
        yield f'    "{part}") flags="{flags}" words="{"" if part else words}" files={files} ;;'
    yield from ["  esac", "  [[ $word != -* ]] || { words=$flags && files=; }",
                '  mapfile -t COMPREPLY < <(compgen ${files:+-f} -W "$words" -- "$word")', "}",
                f"complete -o filenames -F {name} {parser.prog}"]


def _zsh_specs(parser):
    """The options and arguments of a parser, as _arguments of zsh takes them."""
    found = {"files": "_files", "folders": "_files -/", "text": " "}
    for option in _options(parser):
        flags = option.option_strings
        takes = ""
        if _kind(option):
            values = f"({' '.join(option.choices)})" if option.choices else found[_kind(option)]
            takes = f":{_zsh_text(option.metavar or option.dest)}:{values}"
        for flag in flags:
            yield f"'({' '.join(flags)}){flag}[{_zsh_text(_help(parser, option))}]{takes}'"
    for number, one in enumerate(_arguments(parser), 1):
        place = "*" if one.nargs in ("+", "*") else number
        yield f"'{place}:{_zsh_text(one.metavar or one.dest)}:{found.get(_kind(one), ' ')}'"


def zsh(parser):
    yield f"#compdef {parser.prog}"
    if not (words := _words(parser)):
        yield " \\\n  ".join(["_arguments", *_zsh_specs(parser)])
        return
    described = " ".join(f'{word}\\:"{_zsh_text(help)}"' for word, help in words)
    yield from ["local state", " \\\n  ".join(
        ["_arguments -C", *_zsh_specs(parser), f"'1:part:(({described}))'", "'*::argument:->after'"]),
        "case $state$words[1] in"]
    for word, one in _parsers(parser)[1:]:
        yield " \\\n    ".join([f"after{word}) _arguments", *_zsh_specs(one)]) + " ;;"
    yield "esac"


def fish(parser):
    head, words = f"complete -c {parser.prog}", _words(parser)
    yield from [f"# Completions of {parser.prog} for fish.", f"{head} -f"]
    for word, help in words:
        yield f"{head} -n __fish_use_subcommand -a {word} -d {_fish_text(help)}"
    for word, one in _parsers(parser):
        when = f" -n '__fish_seen_subcommand_from {word}'" if word else " -n __fish_use_subcommand" if words else ""
        for option in _options(one):
            flags = "".join(f" -{'l' if it.startswith('--') else 's'} {it.lstrip('-')}" for it in option.option_strings)
            values = {"": "", "files": " -r -F", "folders": " -x -a '(__fish_complete_directories)'"}.get(
                _kind(option), f" -x -a {_fish_text(' '.join(option.choices or []))}")
            yield f"{head}{when}{flags}{values} -d {_fish_text(_help(one, option))}"
        if any(_kind(it) == "files" for it in _arguments(one)):
            yield f"{head}{when} -F"


def _paragraphs(*texts):
    """The paragraphs of texts. One with columns or indented lines stays as it is."""
    for number, paragraph in enumerate(it for text in texts if text for it in text.strip("\n").split("\n\n")):
        is_fixed = re.search(r"^ |\S {2,}", paragraph, re.MULTILINE)
        yield from [*([".PP"] if number else []),
                    *([".nf", _roff(paragraph), ".fi"] if is_fixed else [_roff(paragraph)])]


def _listed(parser):
    """The arguments and options of a parser, each with its help."""
    for one in [*_arguments(parser), *_options(parser)]:
        name = (one.metavar or one.dest) if _kind(one) else ""
        flags = [f"\\fB{_roff(flag)}\\fR" for flag in one.option_strings]
        yield from [".TP", " ".join(filter(None, [", ".join(flags), f"\\fI{_roff(name)}\\fR" if name else ""])),
                    _roff(_help(parser, one))]


def man(parser):
    about, formatter = parser.description or "", _formatter(parser)
    first = re.match(r"(.*?)(?:\.(?:\s|$)|:\n)", about, re.DOTALL)[1].replace("\n", " ")
    rest, *status = re.split(r"^exit status[:,] ", parser.epilog or "", flags=re.MULTILINE | re.IGNORECASE)
    formatter.add_usage(None, parser._actions, parser._mutually_exclusive_groups, prefix="")
    yield from [f'.TH {parser.prog.upper()} 1 "" "zsched {_version(parser)}"', ".SH NAME",
                f"{_roff(parser.prog)} \\- {_roff(first[0].lower() + first[1:])}",
                ".SH SYNOPSIS", ".nf", _roff(formatter.format_help().strip()), ".fi", ".SH DESCRIPTION",
                *_paragraphs(about, rest.strip())]
    for word, one in _parsers(parser)[1:]:
        yield from [f".SH {word.upper()}", *_paragraphs(one.description), *_listed(one)]
    yield from [".SH OPTIONS", *_listed(parser)]
    if status:
        yield from [".SH EXIT STATUS", *_paragraphs(*status)]
    yield from [".SH SEE ALSO", ".BR zsched (1)"]


FORMS = {"bash": bash, "zsh": zsh, "fish": fish, "man": man}
