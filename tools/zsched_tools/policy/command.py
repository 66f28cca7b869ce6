"""The command zsched-policy: the policies of configs, as schedules, as code and in words, checked and compared."""
import json
import sys

from zsched_tools import bounding, checks, command, program
from zsched_tools.attempts import add_attempts, add_driver, count, driver_of, time
from zsched_tools.command import NO, REFUSED, Paint, Refused, note
from zsched_tools.drawn import HIGH, Policy, policies_of
from zsched_tools.place import Cause, FaultAt, tell_policy
from zsched_tools.policy import checking, comparing, configs, exporting, limits, saying, showing
from zsched_tools.policy.explaining import explained
from zsched_tools.policy.vocabulary import WORDS
from zsched_tools.settings import add_allowed
from zsched_tools.words import shown

TOOL = "zsched-policy"
DESCRIPTION = """Finds the retry policies in the config of another program, and prints each as a schedule.

  zsched-policy import service.yaml
  zsched-try @service.yaml#checkout

Says what differs between two policies, and what one does.

  zsched-policy diff @service.yaml#checkout '(exponential(100) && recurs(5))'
  zsched-policy explain '(exponential(100) && recurs(5))'"""
IMPORT = """Finds the retry policies in FILE, and prints a line of JSON for each.

  zsched-policy import service.yaml

  grpc          a gRPC service config (JSON): methodConfig with a retryPolicy
  envoy         a route's or a virtual host's retry_policy (YAML, JSON), also in an EnvoyFilter of Istio
  istio         the retries of a VirtualService, and those that a route without them has (YAML)
  temporal      a RetryPolicy, or the options of an activity (JSON, YAML)
  kubernetes    a Job or a CronJob, and probes of containers (YAML)
  stepfunctions the retriers of a state machine of AWS (JSON, YAML)
  resilience4j  resilience4j.retry (YAML, properties), or RetryConfig and calls of IntervalFunction (Java and Kotlin
                source, which is never run)
  spring        settings of Spring Retry, or Spring Boot's retries (YAML, properties, JSON), below spring. or in a file
                application* or bootstrap*; or @Retryable, also that of Spring 7 (Java and Kotlin source)
  gateway       Retry filters of Spring Cloud Gateway (YAML, properties)
  polly         RetryStrategyOptions of Polly 8 (JSON)
  aws           an AWS config (INI), AWS_MAX_ATTEMPTS and AWS_RETRY_MODE (lines of NAME=VALUE), or botocore's
                Config(retries=..) (Python source)
  celery        @app.task, @shared_task and classes of Task (Python source)
  tenacity      @retry, Retrying and AsyncRetrying (Python source, which is never run)
  backoff       @on_exception and @on_predicate (Python source)
  urllib3       Retry, also that of requests, and HTTPAdapter(max_retries=3) (Python source)
  zio           schedules of ZIO 2 (Scala source, which is never run); docs/RECIPES.md has the tables for all three
  effect        schedules of Effect (TypeScript source)
  cats          policies of cats-retry (Scala source)

A profile of Spring Boot that changes a policy or adds one, in a document or in application-PROFILE.yaml, is merged
over the settings before it, and named: inventory (prod).
A document with apiVersion and kind has only policies of its own API, so those of Gloo aren't taken for Istio's.
The end of the file's name says what it is (.json, .yaml, .yml, .properties, .py, .java, .kt, .scala, .ts, .ini,
.env), or else its text does.
A line has these keys:

  name, format        of the policy
  schedule            its waits, with the number of retries
  attempt_timeout_ms  the limit of one attempt, or null
  deadline_ms         the limit of the whole call, or null
  drawn               the policy with its random waits, as zsched-try takes it, or null
  retries_on          the errors that are retried, as "503", "5xx" or "UNAVAILABLE"; none is all
  asked_ms            the longest wait that is honoured if a service asks for it, or null; 999999999999999 is any
  budget              a budget of retries, as zsched-outage has it, or null
  parallel            the number of attempts that run side by side, or null
  jitter              null, or the range of random waits; the schedule has the greatest value of each
  left_out            the other settings, each with its whole value
  mode                retry or repeat, if a source says which

The jitter's kind: full, from 0 to the wait; proportional, a middle value and `percent` of it below or above; added, a
least value and up to `up_to_ms`, or up to `percent` of it, above; decorrelated, by Polly's formula; mixed, a sum of
`parts`. YAML needs PyYAML (Debian: python3-yaml)."""
EPILOG = """Exit status: 0; 1 if there is no policy, or none of that name; 2 if the file or an option is wrong, with the
line on standard error; 3 if reading or writing fails."""
ABOUT = """Says what differs between two policies: in the attempts that --fails, --after and --then describe, and for
every input, which zsched-bounds proves.

  $ zsched-policy diff 'recurs(3)' '(spaced(50) && recurs(2))'
  A  recurs(3)
     failed 503 after 4 attempts, 160 ms (waited 0 ms, longest wait 0 ms)
     for every input: 4 attempts, always; no waits
  B  (spaced(50) && recurs(2))
     failed 503 after 3 attempts, 220 ms (waited 100 ms, longest wait 50 ms)
     for every input: 3 attempts, always; waits of at most 50 ms, 100 ms in all
  here B makes 1 attempt fewer, waits 100 ms more, has a longest wait that is 50 ms longer and ends 60 ms later
  the first difference: attempt 2 begins at 40 ms, and in B at 90 ms
  for every input B makes fewer attempts than A
  the limits of B for every input: at least 3 attempts (A: at least 4 attempts), 1 attempt fewer, a wait that is 50 ms
  longer and 100 ms more of waits in all

If neither the attempts nor the limits differ, some thousand short histories are searched for one that tells A and B
apart: inputs and durations at and beside each number of both texts.

A and B are schedules, or texts that zsched-try takes, as @FILE#NAME and `spaced(1000) jitter full`.

Two files or two folders are compared policy by policy, those of one name, and of a folder those of one path:

  zsched-policy diff before.yaml after.yaml
  zsched-policy diff ../main/services services"""
DIFF_EPILOG = """Exit status: 0 if the canonical spelling, jitter and each setting are equal, also those that are left
out, with their whole values; 1 if not, if only one of two files or folders has a policy, or if neither has any; 2 if a
policy, a file or an option is wrong, or if there is no zsched; 3 if a program or writing fails."""

EXPLAIN = """Says what a policy does, a line for each part, and which parts never act; or what a word of policies does.

  $ zsched-policy explain '(exponential(100) && recurs(5)).whileOutput(_1 < 10000)'
  up to 5 retries after 100 ms to 1.6 s; at most 6 attempts
  (exponential(100, 2) && recurs(5)).whileOutput(_1 < 10000)
  for every input: 6 attempts, always; waits of at most 1.6 s, 3.1 s in all

  .whileOutput(_1 < 10000)  as long as the wait of exponential(100, 2) is less than 10 s: never acts
    &&                      both, at the later moment, until one is done
      exponential(100, 2)   again after 100 ms, 200 ms, 400 ms ..
      recurs(5)             again at once, 5 times

A part never acts if it changes no moment and no end, whatever the inputs, durations and draws; `as a whole` says that
the parts below it go with it. That follows from limits that zsched-bounds proves: here six attempts are both the least
with the test and the most without it. Without zsched-bounds the parts alone are explained.

  zsched-policy explain resetWhen"""
CHECK = """Checks all policies of a repository, each for every input: those of each file that git has in a FOLDER, in
all formats that `import` knows, and those of each FILE.

  zsched-policy check --require-end 30s --attempt 5s

Prints a line for each policy, and how many files were searched and left out. A file of a folder is searched if its name
ends as that of a config or a source; without git all such files are. It is read if its text has a key, a call or an
import that `import` knows. What can't be read is a finding. A file that mentions retries, but in which no policy is
known, is counted: for example Go, C# and Terraform have no reader. --list names these files, and with --strict each is
a finding. Limits are in .zsched.toml, beside or above all places:

  leave_out = ["testdata/*"]        files that aren't searched; * fits slashes too

  [[limits]]                        of all policies
  attempts = 6                      the most attempts
  end = "30s"                       of the whole call; attempts take up to `attempt`, or their own limit
  attempt = "5s"
  asked = "30s"                     the longest wait that a service asks for, as by Retry-After

  [[limits]]                        of those with this path and this name, whose limits replace those before
  path = "payments/*"
  name = "checkout"
  wait = "1s"                       the longest wait
  waits = "3s"                      all waits together
  load = { clients = 1000, within = "10s", attempts = 3000 }
  by_call_limit = true              accept an end that is the call's own limit
  allow_left_out = ["DelayGenerator"]

  [[layers]]                        each attempt of one is a whole call of the next
  names = ["checkout", "mesh.yaml#ratings"]
  attempts = 36                     a product, which isn't proved
  by_product = true                 accept it
  end = "1min"

  [[ignore]]
  path = "legacy/*"
  reason = "goes in May"

What fits nothing in .zsched.toml is an error, if its folder is checked as a whole."""
CHECK_EPILOG = """Exit status: 0; 1 if a policy breaks a limit or it isn't proved, if a file, a folder or a policy that
looks like one can't be read, if a part of .zsched.toml fits nothing, or if there is no policy or no limit; 2 if
.zsched.toml or an option is wrong, or if a program isn't there; 3 if a program, reading or writing fails. In a run of
GitHub's actions each finding is an annotation too."""
EXPORT = """Writes a policy as code.

  $ zsched-policy export '(exponential(100) && recurs(5)) jitter 20%' --to zio
  import zio._

  val policy = (Schedule.exponential(100.millis) && Schedule.recurs(5)).jittered

What the library can't say is an error at its place. A rule that is this project's own is noted in the code."""
EXPLAIN_EPILOG = """Exit status: 0; 2 if the policy or an option is wrong, or if there is no zsched; 3 if a program or
writing fails."""


def _explain(given):
    """Prints a policy in words, or each of a file, or a word with an example; returns the status."""
    zsched = program.find(given.zsched)
    if given.policy in WORDS:
        line, given.policy = WORDS[given.policy]
        print(line, f"for example {given.policy}", "", sep="\n")
    try:
        for number, policy in enumerate(policies_of(given.policy, zsched, is_undrawn_allowed=True)):
            policy.check(zsched)
            policy.show(TOOL, "bound")
            if number:
                print()
            path, driver = program.find_bounds(given.bounds), driver_of(given, policy)
            bounds = bounding.of_policies(path, [policy], [driver]) if path else None
            if bounds:
                print(*saying.each(zsched, [policy], bounds))
            print(*explained(policy, path, driver, *bounds or ()), sep="\n")
    except FaultAt as fault:
        tell_policy(f"{TOOL}: ", given.policy, fault.cause, Paint(given.color, sys.stderr))
        return REFUSED
    return 0


def _import(given):
    """Prints the policies of a file; returns the status."""
    with command.budget(given.file):
        return _import_within(given)


def _import_within(given):
    policies = configs.policies_of(given.file)
    chosen = [it for it in policies if given.name in (None, it.name)]
    if not chosen:
        name = f" {shown(given.name)}" if given.name is not None else ""
        print(f"{TOOL}: {given.file}: no policy{name}; {configs.names_of(policies)}", file=sys.stderr)
        return command.NO
    status = 0
    for found in chosen:
        try:
            policy = configs.read(given.file, found)
            line = configs.members(found, policy)
            print(policy.waits if given.plain else json.dumps(line, ensure_ascii=False, separators=(",", ":")))
        except Refused as refused:
            sys.stdout.flush()
            print(f"{TOOL}: {refused}", file=sys.stderr)
            status = command.REFUSED
    return status


def _check(given):
    """Checks all policies of folders and files; returns the status."""
    path = given.config or limits.find(given.places)
    config = limits.read(path) if path else limits.Config(".")
    given.zsched, found = program.find(given.zsched), program.find_bounds(given.bounds)
    if found is None:
        raise Refused("check needs zsched-bounds, which is neither built (./run builds it) nor installed; --bounds "
                      "PATH or ZSCHED_BOUNDS names one")
    asked = {it: getattr(given, f"require_{it}") for it in checks.LIMITS}
    asked |= {"attempt": given.attempt, "by_call_limit": given.allow_unproved or None}
    given.bounds, given.limits = found, {key: it for key, it in asked.items() if it is not None}
    check = checking.Check(config, given)
    check.walk(given.places)
    check.prove()
    check.finish()
    if given.sarif:
        command.write(given.sarif, showing.sarif(check))
    if given.json:
        print(json.dumps(showing.as_object(check)))
    elif given.sarif != "-":
        showing.show(check, given)
        showing.annotate(check)
    return NO if check.wrong() else 0


def _export(given):
    """Prints a policy as code; returns the status."""
    zsched = program.find(given.zsched)
    try:
        policy = Policy(given.policy, zsched)
        Policy("".join(it.spelled for it in policy.pieces if it.draw != ""), zsched).check(zsched)
        policy.show(TOOL, "export")
        _refuse_draws(policy)
        try:
            code, notes = exporting.TARGETS[given.to](policy.name or "policy", "".join(
                it.spelled for it in policy.pieces))
        except FaultAt as fault:
            raise FaultAt(policy.cause_at(HIGH, fault.cause) if not policy.is_drawn and not policy.begin
                          else Cause(0, len(given.policy), fault.cause.what)) from None
    except FaultAt as fault:
        tell_policy(f"{TOOL}: ", given.policy, fault.cause, Paint(given.color, sys.stderr))
        return REFUSED
    for it in notes:
        note(it, TOOL)
    sys.stdout.writelines([code])
    return 0


def _refuse_draws(policy):
    """Rejects what no library draws, at its place: what is added to waits, and random numbers."""
    rows = [("what is added to each wait can't be written there", lambda it: it.draw == "" and "+" in it.spelled),
            ("random numbers can't be written there", lambda it: it.draw and it.share is None)]
    for what, is_refused in rows:
        if (found := next(filter(is_refused, policy.pieces), None)) is not None:
            spaces = len(found.spelled) - len(found.spelled.lstrip(" ")) if found.draw == "" else 0
            # The text of a file's policy is not the one that was given.
            raise FaultAt(Cause(0, len(policy.text), what) if policy.waits else
                          Cause(policy.begin + found.at + spaces, found.size - spaces, what))


def _add_check(forms):
    """Adds the form `check` to the command's."""
    given = forms.add_parser("check", description=CHECK, epilog=CHECK_EPILOG, help="the policies of a repository")
    given.add_argument("places", metavar="FOLDER|FILE", nargs="*", default=["."], help="where they are (.)")
    given.add_argument("--config", metavar="FILE", help="the limits (.zsched.toml of the folder, or of one above)")
    for name, read, words in [
            ("attempts", count(2**63 - 1), "the most attempts"), ("wait", time(0), "the longest wait"),
            ("waits", time(0), "the most of all waits"), ("end", time(0), "the latest end of a call")]:
        given.add_argument(f"--require-{name}", type=read, metavar="N" if name == "attempts" else "TIME",
                           help=f"{words} of each policy, whatever .zsched.toml says")
    given.add_argument("--attempt", type=time(1), metavar="TIME", help="the longest duration of an attempt")
    given.add_argument("--allow-unproved", action="store_true",
                       help="accept what a zsched-bounds says that ./run built unproved, and ends by a call's limit")
    add_allowed(given)
    given.add_argument("--list", action="store_true", help="name the files that mention retries and aren't understood")
    given.add_argument("--strict", action="store_true", help="make a finding of each of these")
    given.add_argument("--json", action="store_true", help="print one object")
    given.add_argument("--sarif", metavar="FILE", help="write the findings as SARIF; - is standard output")
    command.add_programs(given, True)
    given.set_defaults(work=_check)


def _arguments():
    parser, forms = command.forms(TOOL, DESCRIPTION, EPILOG, "COMMAND")
    given = forms.add_parser("import", description=IMPORT, help="the policies of a config, as schedules")
    given.add_argument("file", metavar="FILE", help="the config; - is standard input")
    given.add_argument("--name", metavar="NAME", help="only the policy with this name")
    given.add_argument("--plain", action="store_true", help="only the schedule of each policy")
    given.set_defaults(work=_import)
    _add_check(forms)
    given = forms.add_parser("diff", description=ABOUT, epilog=DIFF_EPILOG, help="what differs between two policies")
    given.add_argument("policies", metavar="A", help="a schedule, a file or a folder")
    given.add_argument("other", metavar="B", help="another one")
    add_attempts(given)
    given.add_argument("--json", action="store_true", help="print one object")
    given.set_defaults(work=comparing.compared)
    given = forms.add_parser("explain", description=EXPLAIN, epilog=EXPLAIN_EPILOG, help="a policy in words")
    given.add_argument("policy", metavar="POLICY", help="a schedule, a text that zsched-try takes, or a word of one")
    add_driver(given)
    command.add_programs(given, True)
    given.set_defaults(work=_explain)
    given = forms.add_parser("export", description=EXPORT, epilog=EXPLAIN_EPILOG, help="a policy as code")
    given.add_argument("policy", metavar="POLICY", help="a schedule, or a text that zsched-try takes")
    given.add_argument("--to", required=True, choices=list(exporting.TARGETS), help="the library")
    command.add_programs(given)
    given.set_defaults(work=_export)
    return parser


main = command.main(_arguments, lambda given: given.work(given))
