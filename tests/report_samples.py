"""Reports for the tests of zsched-report: those of its cases, and long ones."""
from case_files import cases
from support import TOP

RETRIED, RUNNING, COARSE, NEVER, WAITING, GREATEST = REPORTS = [
    cases()[f"zsched-report/{name}"].text("report") for name in [
        "a_retry_that_succeeds", "an_attempt_that_runs_at_the_horizon", "steps_of_a_coarse_clock",
        "a_job_that_never_begins", "a_wait_at_the_horizon_and_a_failed_repeat", "the_greatest_numbers"]]
KNOWN = sorted([*TOP.glob("examples/*.stdout"), *TOP.glob("tests/plans/*.stdout")])
assert len(KNOWN) > 70


def long_report(attempts):
    """A retry of `attempts` attempts, one each ten milliseconds, all of which fail."""
    lines = "".join(f"attempt {at + 1} {10 * at}..{10 * at + 7} err 503\n"
                    f"step {at + 1} out ({10 * at},{at}) next {10 * at + 10}\n" for at in range(attempts))
    end = f"done\nend failed 503 at {10 * attempts - 3} polls {2 * attempts}\npolls {2 * attempts}\n"
    return "job hammer retry\n" + lines.removesuffix(f"next {10 * attempts}\n") + end


def wide_report(jobs, attempts):
    """Retries that start apart, each with `attempts` attempts and growing waits."""
    lines = []
    for job in range(jobs):
        begins = [37 * job + (30 + job) * number + 50 * number * (number + 1) for number in range(attempts)]
        lines.append(f"job service-{job:03} retry")
        for number, (begin, after) in enumerate(zip(begins, begins[1:]), 1):
            lines += [f"attempt {number} {begin}..{begin + 30 + job} err 503",
                      f"step {number} out {100 * number} next {after}"]
        lines += [f"attempt {attempts} {begins[-1]}..{begins[-1] + 50} ok {job}",
                  f"end succeeded {job} at {begins[-1] + 50} polls {2 * attempts}"]
    return "\n".join([*lines, f"polls {2 * attempts * jobs}", ""])
