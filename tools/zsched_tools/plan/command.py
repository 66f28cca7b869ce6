"""The command zsched-plan: converts other files to a plan."""
from zsched_tools import call_log, command
from zsched_tools.plan import importing

TOOL = "zsched-plan"
DESCRIPTION = """Converts a log of calls (CSV, JSON) or a policy file (YAML, TOML) to a plan.

  zsched-plan from log.csv --schedule '(exponential(100) && recurs(5))' > plan.json"""
EPILOG = """Exit status: 0; 2 if a file or an option is rejected, with the file and the line on standard error; 3 if
reading or writing fails."""


def _arguments():
    parser, forms = command.forms(TOOL, DESCRIPTION, EPILOG, "FORM")
    given = forms.add_parser("from", description=importing.ABOUT, epilog=importing.EPILOG,
                             help="a log (CSV) or a policy file (YAML, TOML) as a plan")
    given.add_argument("file", metavar="FILE", help="the file; the end of its name says what it is. - is standard "
                       "input: a log with --schedule, else a policy file")
    given.add_argument("-o", dest="out", metavar="PLAN", help="the plan's file (standard output)")
    given.add_argument("--until", type=importing.until, metavar="TIME",
                       help="the horizon, if the file has no horizon (1h; 1h after the end of a log)")
    log = given.add_argument_group("for a log")
    log.add_argument("--schedule", metavar="POLICY", help="the policy of each job; a log needs it")
    log.add_argument("--mode", choices=["retry", "repeat"], help="(as the policy says, or else retry)")
    form = log.add_mutually_exclusive_group()
    form.add_argument("--windows", action="store_true", help="a scenario for zsched-outage, not a plan")
    form.add_argument("--by-attempt", action="store_true", help="the k-th attempt of a job ends as the k-th in the log")
    call_log.add_options(log)
    command.add_programs(given)
    return parser


main = command.main(_arguments, importing.convert)
