"""The command zsched-explain: runs the program on a plan, and shows the place of its fault in the plan."""
import contextlib
import json
import sys

from zsched_tools import command, faults, place, plan_size, program
from zsched_tools.explain import all_faults
from zsched_tools.words import WIDTH, shown

ABOUT = """Runs zsched on a plan, and shows where the plan's fault is.

  zsched-explain plan.json

The first line on standard error is zsched's. If the plan is rejected, these follow:
  - the place as FILE:LINE:COLUMN, counted from 1; a column is a character
  - the line, cut if it is long
  - what is wrong there, and what to write instead, if that is known
  - the name of the job
If the plan is accepted, standard output gets 'FILE: no fault'. zsched itself writes the report.

With --all the later faults are shown too: the command mends each fault in a copy and runs the copy. A plan that may
have more than 1000000 attempts gets a warning. It is run with a clock of one moment, on which it has the same faults. A
plan whose workers take longer than one would gets a warning too."""
STATUSES = """exit status:
  0  the plan has no fault
  2  the plan is rejected, an option is wrong, or zsched isn't found
  3  reading or writing failed, or zsched did: no memory, no thread, a signal"""
TOOL = "zsched-explain"
MOST_FAULTS = 10


def words():
    found = command.parser(TOOL, ABOUT, STATUSES)
    found.add_argument("plan", nargs="?", default="-", metavar="PLAN.json",
                       help="the plan's file; standard input by default, or if it is -")
    command.add_programs(found)
    found.add_argument("--all", action="store_true", help="show all faults of the plan, not only the first")
    count = command.number(1, 10000, "{} isn't a number from 1 to 10000")
    found.add_argument("--most", type=count, default=MOST_FAULTS, metavar="N",
                       help=f"how many faults --all shows at most ({MOST_FAULTS})")
    return command.complete(found)


def _explain(taken):
    name, paint = "standard input" if taken.plan == "-" else taken.plan, command.Paint(taken.color, sys.stderr)
    zsched = program.find(taken.zsched)
    data = command.read(taken.plan, program.MAX_BYTES + 1)
    many = plan_size.warning(data)
    for found in [many, plan_size.workers_warning(data), repeated_key(data)]:
        plan_size.warn(TOOL, found, taken.color)
    status, line = outcome(zsched, plan_size.with_one_tick(data) if many else data)
    if status != command.REFUSED or not taken.all:
        return tell(name, data, status, line, paint)
    count, most = 0, taken.most
    # The program runs with a clock of one moment.
    refused = all_faults.all_faults(lambda text: outcome(zsched, plan_size.with_one_tick(text)), data, most + 1)
    for count, (line, found) in enumerate(refused, 1):
        if count <= most:
            print(paint("bad", line.strip()), *place.fault_lines(name, found, paint), sep="\n", file=sys.stderr)
    shown_faults = f"{min(count, most)} fault{'s' * (count > 1)}"
    print(shown_faults + "; there are more: --most N shows N" * (count > most), file=sys.stderr)
    return command.REFUSED


def repeated_key(data):
    """The warning for a plan's bytes in which an object has a key twice, else None."""
    found = []

    def read(pairs):
        seen = set()
        found.extend(key for key, _ in pairs if not found and (key in seen or seen.add(key)))
    with contextlib.suppress(ValueError, RecursionError):
        json.loads(data, object_pairs_hook=read)
    return f'an object has the key "{shown(found[0])}" twice, and the last one counts' if found else None


def outcome(zsched, data, seconds=None):
    """The status and the line of the program on a plan's bytes. After `seconds` subprocess.TimeoutExpired is raised."""
    status, _, errors = program.report_of(zsched, data, None, seconds)
    return status, errors.decode(errors="replace")


def tell(name, data, status, line, paint=place.unpainted):
    """Writes the explanation of the program's status and line on a plan's bytes. Returns the status."""
    if status == command.REFUSED:
        found = faults.explained(faults.Plan(data), line.strip().removeprefix("zsched: "))
        said = [paint("bad", line.rstrip())] if line.strip() else []
        print(*said, *place.fault_lines(name, found, paint), sep="\n", file=sys.stderr)
    elif status:
        raise ChildProcessError(program.failure(status, line.encode()))
    else:
        print(f"{shown(name, WIDTH)}: no fault")
    return status


main = command.main(words, _explain)
