"""What each attempt of policies does: the options that zsched-try and zsched-policy diff have."""
import argparse
import re

from zsched_tools import command
from zsched_tools.bounding import Driver
from zsched_tools.command import Refused
from zsched_tools.durations import duration_argument
from zsched_tools.program import LAST_MOMENT
from zsched_tools.trials import MOST_AFTER
from zsched_tools.words import duration


def time(least):
    """A parser of durations of at least `least` milliseconds."""
    def read(word):
        found = duration_argument(word)
        if not least <= found <= LAST_MOMENT:
            raise argparse.ArgumentTypeError(f'"{word}" is not from {least} to {LAST_MOMENT} ms')
        return found
    return read


def _entry(word):
    """An attempt, as `40 err 503` or `1.5s ok 200`."""
    found = re.fullmatch(r"(.*\S)\s++(ok|err)\s++([0-9]{1,20})", word.strip())
    if found is None or int(found[3]) >= 2**64:
        raise argparse.ArgumentTypeError(f'"{word}" is not an attempt: write a duration, ok or err, and a number, as '
                                         '"40 err 503"')
    return time(1)(found[1]), found[2], int(found[3])


def _durations(word):
    """The least and the greatest duration of attempts, as `5s` or `20ms..5s`."""
    least, _, most = word.rpartition("..")
    found = time(1)(least or "1"), time(1)(most)
    if found[0] > found[1]:
        raise argparse.ArgumentTypeError(f'"{word}" has a least duration that is longer than the greatest one')
    return found


def count(most):
    """A reader of whole numbers up to a greatest."""
    return command.number(0, most, f'"{{}}" is not a whole number up to {most}')


def _percentages(word):
    """The least and the greatest percentage of each wait, as `80..120%`."""
    found = re.fullmatch(r"([0-9]{1,9})\.\.([0-9]{1,9})%", word)
    if found is None or int(found[1]) > int(found[2]):
        raise argparse.ArgumentTypeError(f'"{word}" is not a range of percentages: write 80..120%')
    return int(found[1]), int(found[2])


def driver_of(given, policy):
    """What runs a policy in service, by the options, or the limit of an attempt in its config."""
    asked = (policy.asked or 0) if given.asked is None else given.asked
    attempt = given.attempt or (policy.timeout and (1, policy.timeout))
    attempt = attempt and tuple(min(it, policy.timeout or it) for it in attempt)
    return Driver(attempt, given.late, asked, given.wait, given.steps)


def mode_of(given, policy):
    """Whether a policy that was read retries or repeats. Layers retry."""
    return "retry" if getattr(given, "over", None) else policy.mode or "retry"


def entries_of(given, policy):
    """The entries of the script of a policy. Its attempts take as long as its own limit, whatever others have."""
    limits = driver_of(given, policy).attempt
    longest = limits and limits[1]
    for option, entry in [("--fails", given.fails), ("--then", given.then)]:
        if entry and limits and not limits[0] <= entry[0] <= longest:
            what = "--attempt" if given.attempt else f"the limit of {policy.text}, {duration(longest)},"
            raise Refused(f"an attempt of {option} takes {duration(entry[0])}, which {what} excludes")
    failing = ("err", policy.failing) if mode_of(given, policy) == "retry" else ("ok", 200)
    first = given.fails or (longest or 40, *failing)
    if given.after is None:
        if given.then:
            raise Refused("--then needs --after N, the number of attempts before it")
        return [first]
    return [first] * given.after + [given.then or (longest or 35, "ok", 200)]


def limits_of(given):
    """The limit of the call of each policy, None if it is after the horizon."""
    return [it.deadline if it.deadline and it.deadline <= given.until else None for it in given.read]


def add_attempts(parser):
    """Adds the options of what each attempt does, and of the programs, to a command's."""
    parser.add_argument("--mode", choices=["retry", "repeat"],
                        help="runs again after each error (retry) or after each success (repeat); as the policy says, "
                             "or else retry")
    parser.add_argument("--fails", type=_entry, metavar="ATTEMPT",
                        help="each attempt: '40 err 503', under repeat '40 ok 200'")
    parser.add_argument("--after", type=count(MOST_AFTER), metavar="N", help="how many attempts end as --fails says")
    parser.add_argument("--then", type=_entry, metavar="ATTEMPT", help="each attempt after these: '35 ok 200'")
    add_driver(parser, " It is also that of the attempts of this run, unless --fails or --then say another")
    parser.add_argument("--until", type=time(0), default=time(0)("1d"), metavar="TIME", help="the horizon: 1d")
    parser.add_argument("--seed", type=count(2**64 - 1), default=0, metavar="N", help="of random waits (0)")
    command.add_programs(parser, True)


def add_driver(parser, more=""):
    """Adds the options of what runs policies in service. `more` is what --attempt says beside that."""
    parser.add_argument("--attempt", type=_durations, metavar="TIME",
                        help=f"the greatest duration of an attempt: 5s; with the least one: 20ms..5s.{more}")
    parser.add_argument("--wait", type=_percentages, metavar="RANGE",
                        help="between which percentages of the policy's waits a service waits, for every input: "
                             "80..120%%")
    parser.add_argument("--steps", type=command.number(1, 2**64 - 1, '"{}" is not a whole number from 1 on'),
                        metavar="N", help="how many steps zsched-bounds looks at: more limit longer policies, and take "
                                          "longer, without an end for a number that is too great")
    parser.add_argument("--late", type=lambda it: None if it == "any" else time(0)(it), default=0, metavar="TIME",
                        help="how late an attempt may begin after its wait, for every input: 50ms, or any time: any")
    parser.add_argument("--asked", type=time(0), metavar="TIME",
                        help="the longest wait that is honoured if the service asks for it, as by Retry-After, for "
                             "every input: 30s")
