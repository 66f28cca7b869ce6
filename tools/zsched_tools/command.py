"""How a command reads, writes and ends: what each exit status means, rejected input, and failures of the machine."""
import argparse
import codecs
import contextlib
import errno
import functools
import io
import itertools
import json
import os
import pathlib
import re
import secrets
import shutil
import signal
import sys
import time
import traceback

from zsched_tools.hints import near
from zsched_tools.words import WIDTH, one_line, shown, wrapped

# The exit statuses of all commands. 0 is yes. A process that SIGPIPE ends has the status 141 in a shell.
NO, REFUSED, FAILED, INTERRUPTED = 1, 2, 3, 130
MOST_COLUMNS = 120
# The limits of a file without another one: its bytes, and the seconds until a pipe has a writer, and of work.
MOST_BYTES, PATIENCE, WORK = 1 << 31, 10, 30
_PIECE = 1 << 20
# Options that had another name before.
_RENAMED = {"--require-most": "--require-attempts", "--require-total": "--require-waits", "--max-total": "--max-end"}
_OF_OUTPUT = (errno.ENOSPC, errno.EFBIG, errno.EDQUOT)
ESC, FAULT = "\x1b[", "a fault of this tool"
_colored, _quiet = ["auto"], [False]
# The timer and the end of each limit that is running, those around others first.
_ends = []
_CODES = {"bad": "1;31", "good": "32", "help": "36", "faint": "2", "strong": "1"}
_HERE = pathlib.Path(__file__).resolve()
# Is around what a tool itself tells a terminal or a CI. No input can have it.
_OWN = secrets.token_hex(16)


# What an encoding doesn't have is written as JSON's escape too.
codecs.register_error("json", lambda fault: (json.dumps(fault.object[fault.start:fault.end])[1:-1], fault.end))


class Refused(Exception):
    """Input or a program that is rejected. The lines have the place: a file, a line."""

    def __str__(self):
        return "\n".join(map(str, self.args))


class Unread(Refused):
    """A file that is rejected: its path, what is wrong, and the line and the column, from 1, where they are known."""

    def __init__(self, path, what, line=None, column=None):
        super().__init__(f"{':'.join(str(it) for it in (path, line, column) if it is not None)}: {what}")
        self.path, self.what, self.line, self.column = path, what, line, column


class Border:
    """Standard output or standard error, through which all texts go. No text of an input is more than a text there:
    each is on one line, has no letter that isn't printable, and starts no command of a CI."""

    def __init__(self, stream):
        self.stream, self.is_begin = stream, True
        if isinstance(stream, io.TextIOWrapper):
            stream.reconfigure(errors="json")

    def __getattr__(self, name):
        return getattr(self.stream, name)

    def write(self, text):
        """Writes a text in one line, or the end of a line alone, as `print` does."""
        if text == "\n":
            self.is_begin = True
            return self.stream.write(text)
        pieces = text.split(_OWN)
        for number, piece in enumerate(pieces[::2]):
            pieces[2 * number] = one_line(piece, self.is_begin)
            self.is_begin = self.is_begin and not piece.strip(" ")
        return self.stream.write("".join(pieces))

    def writelines(self, pieces):
        """Writes the pieces of a document, whose ends of lines are its own."""
        for it in (it for piece in pieces for it in piece.splitlines(True)):
            self.write(it.removesuffix("\n"))
            if it.endswith("\n"):
                self.write("\n")


def own(text):
    """What a tool itself tells a terminal or a CI, within a text that it prints."""
    return f"{_OWN}{text}{_OWN}"


def annotation(word, text, **properties):
    """Prints an annotation that GitHub shows: error, warning or notice, at a file and a line."""
    escapes = {letter: f"%{ord(letter):02X}" for letter in "%\r\n"}
    of_property = str.maketrans(escapes | {letter: f"%{ord(letter):02X}" for letter in ":,"})
    given = ",".join(f"{name}={one_line(str(it).translate(of_property))}" for name, it in properties.items())
    print(own(f"::{word} {given}::{one_line(text.translate(str.maketrans(escapes)), False)}"))


@contextlib.contextmanager
def bordered():
    """Makes a Border of standard output, and one of standard error."""
    before = sys.stdout, sys.stderr
    sys.stdout, sys.stderr = (it if it is None or isinstance(it, Border) else Border(it) for it in before)
    try:
        yield
    finally:
        sys.stdout, sys.stderr = before


def run(tool, work):
    """Does a command's work and returns its exit status: that of the work (None is 0), 2 if the input is rejected or a
    program isn't there, 3 if reading, writing or a program failed, or by a fault of the tool, 130 if the user
    interrupted it. Each of these has one line on standard error. If the reader of standard output closes it, the
    process ends by SIGPIPE, as `yes`. Ctrl-C is an exception in the work, so that it can clean up."""
    with bordered():
        return _status_of(tool, work)


def _status_of(tool, work):
    if sys.stdout is None:
        return _told(tool, FAILED, "standard output is closed")
    before = signal.getsignal(signal.SIGINT)
    try:
        try:
            signal.signal(signal.SIGINT, signal.default_int_handler)
            status = work() or 0
            sys.stdout.flush()
            return status
        finally:
            signal.signal(signal.SIGINT, before)
    except Refused as refused:
        return _told(tool, REFUSED, *refused.args)
    except RecursionError:
        return _told(tool, REFUSED, "the input is nested too deeply")
    except BrokenPipeError:
        sys.stderr.flush()
        _drop_output()
        signal.signal(signal.SIGPIPE, signal.SIG_DFL)
        return os.kill(os.getpid(), signal.SIGPIPE)
    except OSError as failure:
        _drop_output()
        place = failure.filename or ("standard output" if failure.errno in _OF_OUTPUT else "")
        return _told(tool, FAILED, f"{shown(str(place), WIDTH)}{': ' if place else ''}{failure.strerror or failure}")
    except MemoryError:
        return _told(tool, FAILED, "out of memory")
    except KeyboardInterrupt:
        return _told(tool, INTERRUPTED, "interrupted")
    except Exception as fault:
        _drop_output()
        return _told(tool, FAILED, f"{FAULT}: {fault!r}; ZSCHED_TRACE=1 shows where", *trace_of(fault))


def trace_of(fault):
    """The lines that show where in a tool a fault is, if they are asked for."""
    return "".join(traceback.format_exception(fault)).splitlines() if os.environ.get("ZSCHED_TRACE") else []


def _drop_output():
    """Redirects standard output, unless it is in memory, to /dev/null: Python flushes it once more at exit."""
    with contextlib.suppress(io.UnsupportedOperation):
        os.dup2(os.open(os.devnull, os.O_WRONLY), sys.stdout.fileno())


def version():
    for folder in _HERE.parents[1:3]:
        file = folder / "VERSION"
        if file.is_file():
            return file.read_text().strip()
    return "unknown"


def print_version(tool):
    """Prints what --version prints, and returns the exit status."""
    return run(tool, lambda: print(tool, version()))


class Formatter(argparse.RawDescriptionHelpFormatter):
    """Help in the width of the terminal."""

    def __init__(self, prog, width=None):
        super().__init__(prog, width=width or min(shutil.get_terminal_size().columns, MOST_COLUMNS) - 2)

    def _fill_text(self, text, width, indent):
        return "\n".join(wrapped(text, width))


class Short(argparse.Action):
    """The option that prints the first example, the first paragraph and the options."""

    def __call__(self, parser, *_):
        example = re.search(r"^ +(?:\$ )?(zsched[- ].*)", parser.description, re.M)
        print(*[f"for example: {example[1]}\n"] if example else [])
        parser.description, parser.epilog = parser.description.partition("\n\n")[0], "--help says more."
        parser.print_help()
        parser.exit()


class Parser(argparse.ArgumentParser):
    """The parser of a command, or of a part of it. Of a wrong command line it says what is wrong first."""

    def __init__(self, **texts):
        super().__init__(formatter_class=Formatter, add_help=False, **texts)
        self.add_argument("-h", action=Short, nargs=0, help="show an example and the options")
        self.add_argument("--help", action="help", help="show all that is to say, with examples")

    def parse_known_args(self, args=None, namespace=None):
        args = sys.argv[1:] if args is None else args
        has_parts = any(it.nargs == argparse.PARSER for it in self._actions)
        for word in itertools.takewhile(lambda it: it != "--" and (it[:1] == "-" or not has_parts), args):
            option = re.match(r"--[a-z][a-z-]*(?==|\Z)|-[A-Za-z](?=[A-Za-z]*\Z)|", word)[0]
            if option and not any(it.startswith(option) for it in self._option_string_actions):
                meaning = meant(_RENAMED.get(option, option), self._option_string_actions)
                self.error(f"there is no option {option}{meaning}")
        return super().parse_known_args(args, namespace)

    def _print_message(self, message, file=None):
        """Prints a help or a version, whose ends of lines are its own."""
        (file or sys.stderr).writelines([message or ""])

    def error(self, message):
        """Exits with status 2, after what is wrong and how the command is used."""
        if found := re.search(r"invalid choice: '(.*)' \(choose from (.*)\)", message):
            message += meant(found[1], re.findall(r"[\w-]+", found[2]))
        formatter = Formatter(self.prog)
        formatter.add_usage(None, [it for it in self._actions if not it.option_strings], [])
        usage = formatter.format_help().rstrip().split("\n")
        print(f"{self.prog}: {message}", *usage[:-1], f"{usage[-1]}; {self.prog} -h lists the options", sep="\n",
              file=sys.stderr)
        self.exit(REFUSED)


def meant(word, words):
    """The question whether one of some words is meant, if it is similar."""
    plain = {it.lstrip("-"): it for it in words}
    found = near(word.lstrip("-"), plain)
    return f": did you mean {plain[found]}?" if found else ""


def parser(tool, about, epilog=None):
    """The parser of a command."""
    return Parser(prog=tool, description=about, epilog=epilog)


def add_version(parser):
    """Adds --version and --generate to a command's options."""
    from zsched_tools.generated import FORMS, Generate
    parser.add_argument("--version", action="version", version=f"{parser.prog} {version()}")
    parser.add_argument("--generate", action=Generate, choices=list(FORMS), metavar="FORM",
                        help="print completions for bash, zsh or fish, or the manual page (man)")


def complete(parser):
    """The parser of a command, with the options that all commands have."""
    _add_common(parser, "auto", False)
    add_version(parser)
    return parser


def _add_common(parser, color, is_quiet):
    """Adds the options that a command and each of its parts have, with these values if they aren't given."""
    parser.add_argument("--color", choices=["auto", "always", "never"], default=color, metavar="WHEN",
                        help="colours: auto (on a terminal, unless NO_COLOR is set), always or never")
    parser.add_argument("--quiet", action="store_true", default=is_quiet, help="write no notes to standard error")


def add_programs(parser, has_bounds=False):
    parser.add_argument("--zsched", metavar="PATH", help="the program (ZSCHED, the built or the installed one)")
    if has_bounds:
        parser.add_argument("--bounds", metavar="PATH", help="zsched-bounds (ZSCHED_BOUNDS, the built or installed)")


def script(parser, work):
    """Runs a script whose command line the parser reads. Returns its exit status."""
    add_version(parser)
    return run(parser.prog, lambda: work(parser.parse_args()))


def main(arguments, work):
    """The main function of a command: `arguments` makes its parser, `work` gets the parsed command line. Help and the
    version are written as in `run`."""
    def started():
        parser, text = arguments(), io.StringIO()

        def parsed():
            try:
                with contextlib.redirect_stdout(text):
                    given = parser.parse_args()
            except SystemExit as ended:
                if ended.code:
                    raise
                return sys.stdout.stream.write(text.getvalue()) and None
            _colored[0], _quiet[0] = given.color, given.quiet
            return work(given)
        return run(parser.prog, parsed)
    return started


class Paint:
    """Paints texts for a stream, if the choice and the stream allow it."""

    def __init__(self, choice, stream):
        is_wanted = stream.isatty() and not os.environ.get("NO_COLOR") and os.environ.get("TERM") != "dumb"
        self.is_on = choice == "always" or (choice == "auto" and is_wanted)

    def __call__(self, style, text):
        """The text in a style: bad, good, help, faint or strong."""
        return f"{own(f'{ESC}{_CODES[style]}m')}{text}{own(f'{ESC}0m')}" if self.is_on and text else text


class Part(Parser):
    """The parser of a part of a command, with the options of the whole."""

    def __init__(self, **texts):
        super().__init__(**texts)
        _add_common(self, argparse.SUPPRESS, argparse.SUPPRESS)


def forms(tool, description, epilog, metavar):
    """The parser of a command of several forms, and what adds a form, by `add_parser`."""
    whole = complete(parser(tool, description, epilog))
    return whole, whole.add_subparsers(required=True, metavar=metavar,
                                       parser_class=lambda **texts: Part(**{"epilog": epilog} | texts))


def number(least, most, words):
    """A reader of whole numbers of the command line. `words` say what is wrong with another one."""
    def read(word):
        if word.isascii() and word.isdigit() and len(word) <= 20 and least <= int(word) <= most:
            return int(word)
        raise argparse.ArgumentTypeError(words.format(word))
    return read


@contextlib.contextmanager
def new_folder(path):
    """A folder that gets its name after all files in it are written, and that is removed if something fails before;
    None without a path."""
    if path is None:
        yield None
        return
    folder = pathlib.Path(path)
    if folder.exists() and (not folder.is_dir() or any(folder.iterdir())):
        raise Refused(f"{folder}: exists, and isn't an empty folder")
    making = folder.with_name(folder.name + ".partial")
    if making.exists():
        raise Refused(f"{making}: exists: another run writes it, or an interrupted one left it (then remove it)")
    making.mkdir()
    try:
        yield making
        os.rename(making, folder)
    finally:
        shutil.rmtree(making, ignore_errors=True)


def is_quiet():
    return _quiet[0]


def note(text, tool=None):
    """Writes a line on standard error about a run that goes on, unless --quiet is given."""
    if not is_quiet() and sys.stderr is not None:
        print(f"{tool or os.path.basename(sys.argv[0])}: {text}", file=sys.stderr, flush=True)


def standard_input():
    """The bytes of standard input, as a file. If it is a terminal, a line on standard error says so."""
    if sys.stdin is None:
        raise OSError("standard input is closed")
    if sys.stdin.isatty() and sys.stderr is not None:
        tool = os.path.basename(sys.argv[0])
        print(f"{tool}: reads standard input, a terminal; Ctrl-D ends it", file=sys.stderr, flush=True)
    return sys.stdin.buffer


def read(path, most=None):
    """The bytes of a file, at most `most`; - is standard input. Without `most` a file that has more than MOST_BYTES is
    rejected."""
    name, data = "standard input" if path == "-" else path, io.BytesIO()
    with naming(name), contextlib.nullcontext(standard_input()) if path == "-" else opened(path) as file:
        left = MOST_BYTES + 1 if most is None else most
        while left > 0 and (piece := file.read(min(left, _PIECE))):
            left -= data.write(piece)
    if most is None and left == 0:
        raise Refused(f"{name}: the file has more than {MOST_BYTES} bytes: cut it")
    return data.getvalue()


@contextlib.contextmanager
def limited(timer, seconds, what, refused=Refused):
    """Ends what is inside by Refused, with these words, after some seconds: of time, or of the processor's. A limit
    around this one goes on after it."""
    def end(*_):
        raise refused(what)
    number, clock = {signal.ITIMER_REAL: (signal.SIGALRM, time.monotonic),
                     signal.ITIMER_VIRTUAL: (signal.SIGVTALRM, time.process_time)}[timer]
    before = signal.signal(number, end)
    _ends.append((timer, clock() + seconds))
    signal.setitimer(timer, seconds)
    try:
        yield
    finally:
        signal.setitimer(timer, 0)
        signal.signal(number, before)
        _ends.pop()
        if around := [it - clock() for other, it in _ends if other == timer]:
            signal.setitimer(timer, around[-1]) if around[-1] > 0 else before()


def opened(path):
    """A file, opened to be read."""
    with limited(signal.ITIMER_REAL, PATIENCE, "no program writes into this pipe", functools.partial(Unread, path)):
        try:
            return open(path, "rb")
        except ValueError:
            raise Unread(path, "no file has such a name") from None


def budget(path):
    """The limit of work for a file of policies, whose reader is inside."""
    return limited(signal.ITIMER_VIRTUAL, WORK, f"the file needs more than {WORK} s of the processor to be read: cut "
                   "out the part with the policies", functools.partial(Unread, path))


def write(path, data):
    """Writes a text or bytes to a file, or a text to standard output, which is -."""
    if path == "-":
        return sys.stdout.writelines([data])
    with naming(path), open(path, "wb") as file:
        file.write(data.encode() if isinstance(data, str) else data)


@contextlib.contextmanager
def naming(path):
    """Gives errors of reading and writing the name of this file, if they have none."""
    try:
        yield
    except OSError as failure:
        if failure.errno is not None and failure.filename is None:
            failure.filename = str(path)
        raise


def _told(tool, status, first, *more):
    """Writes why a command ends, in lines. Returns its status, also if standard error can't be written."""
    if sys.stderr is not None:
        paint = functools.partial(Paint(_colored[0], sys.stderr), "bad")
        with contextlib.suppress(OSError):
            print(*map(paint, [f"{tool}: {first}", *more]), sep="\n", file=sys.stderr)
    return status
