"""zsched-outage: its runs against the decision of one event after another, budgets, draws, the certificate, files and
pictures. What the command prints, and its faults, are the cases in tests/cases/zsched-outage.txt."""
import io
import json
import math
import multiprocessing
import os
import re
import sys
import time
from statistics import NormalDist
from unittest import mock

import pytest
from hypothesis import given, settings
from hypothesis import strategies as st

import reference
from browser import framed
from case_files import cases
from reports import jobs_of
from support import TOP, draw, examples, job, plan, run, run_here
from zsched_tools import drawn, program
from zsched_tools.command import Border
from zsched_tools.drawing import text_width
from zsched_tools.outage import certificate, command, curve, panels, scenario, search, world
from zsched_tools.outage.world import DENIED, Bucket, Ending, Service
from zsched_tools.place import Cause
from zsched_tools.progress import Now
from zsched_tools.reports import joined

THREE = cases()["zsched-outage/three_clients_meet_an_outage"]
SMALL = json.loads(THREE.text("outage.json"))
DRAWN = json.loads(cases()["zsched-outage/the_same_seed_gives_the_same_bytes"].text("drawn.json").replace("SEED", "0"))
REPORT = (TOP / "examples" / "three_clients_in_an_outage.json.stdout").read_text()


def read(parts):
    """A scenario from its parts, of which those that are None are left out."""
    return scenario.read_scenario(json.dumps({key: part for key, part in parts.items() if part is not None}).encode())


def simulated(zsched, parts, name="steady"):
    """The run of a policy: jobs, plans, the most jobs of a plan, reports and figures."""
    return command.simulate(read(parts), str(zsched), name, 50, lambda share, words: None)


def figures_of(zsched, parts):
    return read(parts), {name: simulated(zsched, parts, name)[-1] for name in parts["policies"]}


def picture(found, figures, *more): return "\n".join(panels.draw_curves(found, figures, *more))


def test_the_recipe_shows_the_case():
    page = (TOP / "docs" / "RECIPES.md").read_text().split("### Many clients meet an outage\n")[1]
    assert json.loads(re.search(r"```json\n(.*?)```", page, re.S)[1]) == SMALL
    table = re.search(r"```console\n\$ tools/zsched-outage outage.json \| head -n \d+\n(.*?)```", page, re.S)[1]
    assert THREE.text("stdout").startswith(table)


def test_help_has_an_example():
    status, out, _ = run_here(command.main, ["zsched-outage", "--help"])
    example = re.search(r"\n  (\{\n.*?\n  \})\n", out, re.S)[1]
    assert (status, len(read(json.loads(example)).starts)) == (0, 10_000)


def laid(rows):
    """Windows one after another, from the gap before each, its length and what else it has."""
    at, found = 0, []
    for gap, length, more in rows:
        found.append({"from": at + gap, "to": at + gap + length, **more})
        at += gap + length
    return found


def outcome(how, code): return st.integers(1, 90).map(lambda ms: {"ms": ms, how: code})


POLICIES = ["spaced(300)", "exponential(rand(50, 150))", "(exponential(100) || spaced(700))", "fixed(350)",
            "jitter(200, 900, 6)", "(spaced(250) && recurs(4)).whileInput(!= 429)"]
STATES = [{"is": "down"}, {"is": "slow"}, *({"capacity": most} for most in [1, 2, 3]),
          *({"is": "slow", "capacity": most} for most in [1, 2])]
WINDOWS = st.tuples(st.one_of(st.just(0), st.integers(1, 900)), st.integers(300, 2500), st.sampled_from(STATES))
SCENARIOS = st.fixed_dictionaries({
    "horizon": st.integers(2000, 7000), "seed": st.integers(0, 99),
    "windows": st.lists(WINDOWS, min_size=1, max_size=4).map(laid),
    "outcomes": st.fixed_dictionaries({
        "up": st.one_of(outcome("ok", 200), st.just({"ms": {"p50": 60, "p99": 700}, "ok": 200, "fail": "40%"}),
                        st.just([{"ms": 90, "ok": 200}, {"share": "30%", "ms": 700, "err": 500}])),
        "down": st.one_of(outcome("err", 503), st.just({"ms": {"p50": 20, "p99": 90}, "err": 503})),
        "full": outcome("err", 429),
        "slow": st.sampled_from([{"ms": 800, "err": 504}, {"ms": 700, "ok": 200}])}),
    "clients": st.fixed_dictionaries({"number": st.integers(1, 6), "within": st.sampled_from([0, 500, 2000])}),
    "policies": st.fixed_dictionaries({"steady": st.sampled_from(POLICIES)}),
    "budget": st.one_of(
        st.none(), st.fixed_dictionaries({"like": st.sampled_from(["grpc", "aws"]), "tokens": st.integers(5, 40)}),
        st.fixed_dictionaries({"like": st.just("envoy"), "percent": st.integers(0, 90), "least": st.integers(0, 2)}),
        st.fixed_dictionaries({"like": st.just("finagle"), "percent": st.integers(0, 90), "ttl": st.integers(1, 3000),
                               "per_second": st.integers(0, 2)}))})


def next_begin(found, client, schedule, kinds):
    """When the attempt after these begins, or None, and whether the schedule is done, by the reference."""
    outcomes = [found.outcome(kind, client, number) for number, kind in enumerate(kinds)]
    script = [json.loads(it.entry()) for it in outcomes] + [{"ms": 1, "ok": 0}]
    one = {"name": "c", "mode": "retry", "schedule": schedule, "start": found.starts[client], "script": script}
    [ran] = jobs_of(reference.answer(json.dumps({"horizon": found.horizon, "jobs": [one]}).encode())[1])
    return ran.attempts[-1].begin if len(ran.attempts) > len(kinds) else None, ran.how == "failed"


def decided(found, schedules):
    """The kinds of each client's attempts: the earliest event, an end (0) or a begin (1), is decided first."""
    service, bucket = Service(found.windows), world.BUDGETS[found.budget.like](found.budget) if found.budget else None
    kinds = [[] for _ in schedules]
    events = [(next_begin(found, client, schedule, [])[0], 1, client) for client, schedule in enumerate(schedules)]
    while events := [event for event in events if event[0] is not None]:
        moment, is_begin, client = event = min(events)
        events.remove(event)
        if bucket and not is_begin:
            bucket.ended(len(kinds[client]) == 1)
        if is_begin:
            kinds[client].append(service.kind(moment))
            if bucket:
                bucket.began(len(kinds[client]) == 1, moment)
            end = moment + found.outcome(kinds[client][-1], client, len(kinds[client]) - 1).ms
            events += [(end, 0, client)] if end <= found.horizon else []
        elif found.outcome(kinds[client][-1], client, len(kinds[client]) - 1).is_ok:
            if bucket:
                bucket.succeeded(len(kinds[client]) == 1)
        else:
            begin, is_done = next_begin(found, client, schedules[client], kinds[client])
            if bucket and not bucket.lets_retry(not is_done, moment) and not is_done:
                kinds[client][-1] += DENIED
            else:
                events.append((begin, 1, client))
    return kinds


def test_the_search_finds_what_deciding_one_event_after_another_finds(zsched):
    denied = []

    @settings(max_examples=examples(100))
    @given(SCENARIOS)
    def compare(parts):
        found = read(parts)
        schedules = search.Schedules(found, "steady")
        walk = search.Search(found, str(zsched), schedules, 50).settle(lambda share, words: None)
        assert [list(kinds) for kinds in walk.found] == decided(found, schedules)
        denied.extend(kinds for kinds in walk.found if kinds and kinds[-1] >= DENIED)
        _, plans, reports, _ = simulated(zsched, parts)
        assert reports == [reference.answer(plan)[1] for plan in plans]
    compare()
    assert len(denied) > 5


@settings(max_examples=examples(30))
@given(SCENARIOS)
def test_clients_that_no_plan_has_room_for_have_the_same_figures(zsched, parts):
    alike = {name: it if isinstance(it, dict) and isinstance(it["ms"], int) else {"ms": 40, how: 503}
             for (name, it), how in zip(parts["outcomes"].items(), ["ok", "err"])}
    parts["outcomes"] |= alike | {"slow": {"ms": 700, "ok": 200}, "full": alike["down"]}
    whole = simulated(zsched, parts)[-1]
    with (mock.patch.multiple(search, MOST_ENTRIES=3, FIRST_LOOK=2, LESS_LOOK=1),
          mock.patch.object(world, "MOST_ENTRIES", 3)):
        cut = simulated(zsched, parts)[-1]
    figures = [it.members("steady") | {"certified": 0, "not_certified": [], "passes": 0} for it in [whole, cut]]
    assert figures[0] == figures[1] and not whole.uncertified


def second_outcome(found, client, number):
    """How an attempt of a service that is up ends, as docs/FORMATS.md has it: in milliseconds, and whether it fails."""
    def part(which, most): return draw(found.seed, client, 2**63 + which, number, 0, most)
    normal = NormalDist().inv_cdf((part(2, 2**40 - 1) + 0.5) / 2**40)
    ms = max(1, round(math.exp(math.log(80) + normal * math.log(600 / 80) / 2.3263478740408408)))
    return (ms, False) if part(0, 99_999) >= 10_000 else (50, True)


def test_outcomes_are_drawn_by_seed_client_and_attempt():
    found = read({**SMALL, "seed": 5, "outcomes": {"up": {"ms": {"p50": 80, "p99": 600}, "ok": 200, "fail": "10%"}}})
    for client, number in [(0, 0), (1, 7), *((client, 2) for client in range(400))]:
        it = found.outcome(scenario.UP, client, number)
        assert (it.ms, not it.is_ok) == second_outcome(found, client, number)
    # All attempts from the 1,000th on are drawn as that one.
    assert found.outcome(scenario.UP, 3, 5000) == found.outcome(scenario.UP, 3, 999)


def test_durations_have_their_percentiles():
    found = read({**SMALL, "outcomes": {"up": {"ms": {"p50": "80ms", "p99": 600}, "ok": 200}}})
    times = sorted(found.outcome(scenario.UP, client, 0).ms for client in range(20_000))
    # The percentiles of a log-normal distribution: 1.645 and 2.326 are those of the normal one.
    for share, wanted in [(0.5, 80), (0.95, 80 * 7.5 ** (1.645 / 2.326)), (0.99, 600)]:
        assert abs(times[int(20_000 * share)] / wanted - 1) < 0.05
    assert found.outcomes[scenario.UP].choices[0].spread.duration(2**39) == 80


def always_up(up, policy, number=4000, **more):
    """The figures of clients that start at once in a service that is always up."""
    parts = {"horizon": "1h", "seed": 2, "clients": {"number": number}, "outcomes": {"up": up}, **more}
    return parts | {"policies": {"steady": policy}}


def test_the_share_that_gives_up_is_a_power_of_that_which_fails(zsched):
    up = [{"share": "30%", "ms": 50, "err": 503}, {"ms": 40, "ok": 200}]
    figures = simulated(zsched, always_up(up, "(spaced(100) && recurs(2))"))[-1]
    lost = sum(all(draw(2, client, 2**63 + 1, number, 0, 99_999) < 30_000 for number in range(3))
               for client in range(4000))
    share = 0.3 ** 3
    assert figures.gave_up == lost and abs(lost - 4000 * share) < 5 * math.sqrt(4000 * share * (1 - share))
    assert len(figures.times) == 4000 - lost


def test_the_attempts_of_a_call_are_those_of_a_geometric_number(zsched):
    share = 0.25
    figures = simulated(zsched, always_up({"ms": 40, "ok": 200, "fail": "25%"}, "spaced(100)"))[-1]
    # The least number of attempts after which so many calls are served; each one before it takes 50 ms and waits 100.
    least = [next(many for many in range(1, 99) if 1 - share ** many >= part) for part in (0.5, 0.95, 0.99)]
    assert least == [1, 3, 4]
    for is_served in (False, True):
        assert figures.of_calls.shares("attempts", is_served) == least
        assert figures.of_calls.shares("end", is_served) == [40 + 150 * (many - 1) for many in least]
        assert figures.of_calls.shares("waited", is_served) == [100 * (many - 1) for many in least]
    assert abs(figures.attempts / 4000 - 1 / (1 - share)) < 5 * math.sqrt(share) / (1 - share) / math.sqrt(4000)


@settings(max_examples=examples(20))
@given(SCENARIOS, st.sampled_from(["", " mode repeat"]))
def test_times_and_waits_are_those_of_the_report(zsched, parts, mode):
    parts = {**parts, "policies": {"steady": parts["policies"]["steady"] + mode}}
    parts["budget"] = None if mode else parts["budget"]
    _, _, reports, figures = simulated(zsched, parts)
    jobs = [job for report in reports for job in jobs_of(report)]
    for is_served, names in [(False, ["succeeded", "failed", "finished"]), (True, ["succeeded", "finished"])]:
        ended = [(it.at - it.attempts[0].begin, sum(it.waits)) for it in jobs if it.how in names]
        for which, place in [("end", 0), ("waited", 1)]:
            assert list(getattr(figures.of_calls, which)[is_served]) == sorted(it[place] for it in ended)


def test_a_wait_that_is_asked_for_is_in_the_report():
    parts = {**SMALL, "outcomes": {"down": {"ms": 100, "err": 503, "retry_after": 900}}, "clients": {"number": 1},
             "policies": {"steady": "spaced(400) asked 1s"}}
    found = read(parts).limited(read(parts).policies["steady"][0])
    report = (b"job c0 retry\nattempt 1 0..100 err 503\nstep 1 out 0 next %d\nattempt 2 %d..%d ok 200\n"
              b"end succeeded 200 at %d polls 4\npolls 4\n")
    right, early = report % (1000, 1000, 1040, 1040), report % (999, 999, 1039, 1039)
    assert certify(found, right, right)[0] == [Ending("succeeded", 200, 1040, 2)]
    # The service is up at 999 too, but the client was to wait until 1000.
    found.windows = [it._replace(end=900) for it in found.windows[:1]]
    with pytest.raises(certificate.Uncertified, match="attempt 2 begins at 999, .* asks for 900 ms"):
        certify(found, early, early)


def test_a_bucket_gets_tokens_back_and_is_never_more_than_full():
    bucket = Bucket(scenario.Budget("aws", 10_000, 1000, 5000, 0))
    assert [bucket.lets_retry(True) for _ in range(3)] == [True, True, False]
    bucket.succeeded(is_first=True)
    assert bucket.tokens == 1000
    bucket.succeeded(is_first=False)
    assert (bucket.tokens, bucket.lets_retry(False), bucket.tokens) == (6000, False, 6000)
    bucket = Bucket(scenario.Budget("grpc", 4000, 100, 1000, 0))
    assert [bucket.lets_retry(True) for _ in range(2)] == [True, False]
    for _ in range(30):
        bucket.succeeded(is_first=False)
    assert bucket.tokens == 4000


def test_a_share_of_what_runs_and_of_what_starts():
    share = world.Share(scenario.Budget("envoy", 0, 50_000, 1, 0))
    for _ in range(5):
        share.began(True, 0)
    # Of five that run half are two; of one that ended four run.
    assert [share.lets_retry(True) for _ in range(3)] == [True, True, False] and not share.lets_retry(False)
    share.ended(True)
    share.began(False, 9)
    share.ended(False)
    # One of the two retries ended. Of four that run half are two, and of one the least number is one.
    assert [share.lets_retry(True), share.lets_retry(True)] == [True, False]
    for is_first in [True, True, True, False]:
        share.ended(is_first)
    assert [share.retries, share.lets_retry(True)] == [1, False]
    deposits = world.Deposits(scenario.Budget("finagle", 2000, 1000, 2000, 0, 100))
    for moment in [0, 50]:
        deposits.began(True, moment)
    # Two starts pay for one retry, and the reserve for another. At 100 the first start is forgotten; at 150 all is.
    assert [deposits.lets_retry(True, 60) for _ in range(3)] == [True, True, False]
    assert [deposits.lets_retry(True, moment) for moment in [100, 159, 160]] == [False, False, True]


def certify(found, simulated, report):
    """The clients of a report, for the runs of another one, in which all jobs end."""
    runs = [world.Run(it.begins, b"", world.CUT) for it in certificate.clients_in(simulated)]
    walk = world.Walk(found, runs)
    return walk.endings, certificate.certified(found, runs, walk, range(len(runs)), [report])


def test_a_report_with_outcomes_of_another_scenario_is_no_certificate():
    endings = [Ending("succeeded", 200, 1200, 3), Ending("succeeded", 200, 2600, 4), Ending("succeeded", 200, 3300, 4)]
    found, clients = certify(read(SMALL), REPORT.encode(), REPORT.encode())
    assert found == endings == [it.ending for it in clients]
    # c2 is served at 2400, in the second of c1, and its last attempt isn't there.
    late = REPORT[REPORT.rindex("attempt 3 2400..2700"):REPORT.index(" polls 8\npolls")]
    early = REPORT.replace(late, "attempt 3 2400..2600 ok 200\nend succeeded 200 at 2600")
    other = REPORT.replace("attempt 3 2400..2700 err 429", "attempt 3 2400..2700 err 503")
    later = REPORT.replace("attempt 2 1000..1300", "attempt 2 1001..1300")
    for wrong, said in [
            (early, "c2: simulated succeeded 200 at 3300 after 4 attempts; the report has succeeded 200 at 2600 after "
                    "3 attempts"),
            (other, "c2, attempt 3, which begins at 2400: simulated 300 ms, err 429; the report has 300 ms, err 503"),
            (later, "c1, attempt 2, which begins at 1001: simulated 300 ms, err 429; the report has 299 ms, err 429"),
            (later.replace("1001..1300", "1001..1301"), "c1, attempt 2: simulated from 1000 on; the report has 1001"),
            (REPORT.replace("job c1", "job c3"), "c3, but c1 is expected"),
            (REPORT[:REPORT.index("job c2")] + "polls 9\n", "the report has 2 jobs, and the plan has 3")]:
        assert wrong != REPORT
        with pytest.raises(certificate.Uncertified, match=f"^(the report has )?(job )?{re.escape(said)}$"):
            certify(read(SMALL), REPORT.encode(), wrong.encode())


@pytest.mark.parametrize("many", [1, 2, 5])
def test_any_number_of_processors_gives_the_same_bytes(zsched, tmp_path, many):
    parts = {**DRAWN, "outcomes": {"up": {"ms": {"p50": 80, "p99": 600}, "ok": 200, "fail": "10%"}}}
    parts["policies"] = {"steady": "exponential(rand(50, 150))"}
    whole, context = simulated(zsched, parts), multiprocessing.get_context("fork")
    running, most = context.Value("i"), context.Value("i")

    def run_plan(program_path, given):
        with running:
            running.value += 1
            most.value = max(most.value, running.value)
        time.sleep(0.05)
        with running:
            running.value -= 1
        return program.run_plan(program_path, given)
    with (mock.patch.object(search, "PART", 7), mock.patch.object(search, "run_plan", run_plan),
          mock.patch.object(search.os, "sched_getaffinity", lambda _: set(range(many)))):
        cut = simulated(zsched, parts)
    assert (cut[0], cut[1]) == (whole[0], whole[1]) and len(cut[2]) == -(-len(whole[0]) // 7)
    assert cut[3].members("steady") == whole[3].members("steady") and cut[3].curve.csv() == whole[3].curve.csv()
    assert [joined(it) for it in (cut[2], whole[2])] == [whole[2][0]] * 2
    # So many run side by side, and no more.
    assert most.value <= many and (many == 1) == (most.value == 1)


@pytest.mark.parametrize("said", ["a part of the clients was ended by signal 9", "it ran out of memory"])
def test_what_ends_a_part_ends_the_run_with_its_reason(zsched, said):
    def run_plan(*_):
        if "memory" in said:
            raise ChildProcessError(said)
        os.kill(os.getpid(), 9)
    with (mock.patch.object(search, "PART", 1), mock.patch.object(search, "run_plan", run_plan),
          mock.patch.object(search.os, "sched_getaffinity", lambda _: {0, 1}),
          pytest.raises(ChildProcessError, match=said)):
        simulated(zsched, SMALL)


def test_a_draw_is_between_its_bounds_and_takes_each_value():
    of_part, every = drawn.seeded(1)(0), 2**64 - 1
    assert {of_part(number, 3, 6) for number in range(200)} == {3, 4, 5, 6}
    assert {of_part(number, 7, 7) for number in range(9)} == {7}
    assert of_part(0, 0, every) == draw(1, 0, 0, 0, 0, every) > 2**55
    # The first numbers of SplitMix64 from 1234567, as its authors publish them.
    assert [drawn._mixed(1234567 + number * 0x9e3779b97f4a7c15) for number in range(3)] == [
        6457827717110365317, 3203168211198807973, 9817491932198370423]


@pytest.mark.parametrize("count", [1, 2, 3, 5, 24, drawn.MOST_DELAYS])
def test_jitter_is_a_list_of_delays_below_the_cap(zsched, count):
    text = drawn.Policy(f"jitter(100, 1000, {count})").schedule(drawn.seeded(2))
    delays = list(map(int, re.findall(r"spaced\((\d+)\)", text)))
    assert len(delays) == count and all(delay <= min(1000, 100 * 2**number) for number, delay in enumerate(delays))
    # The program waits exactly these, one after another, and is then done.
    more = '"script":[{"ms":1,"err":5}]'
    [ran] = jobs_of(program.run_plan(str(zsched), plan([job(schedule=text, script=more)], '"horizon":9999999')))
    assert (ran.waits, ran.how, ran.value) == (delays, "failed", "5")


def test_draws_come_from_the_seed_and_the_client_alone():
    policies = {"a": "exponential(rand(1, 1000000))", "b": "exponential( rand(1, 1000000))", "c": "recurs(3)"}
    one, other = (read({**SMALL, "policies": policies, "seed": seed}) for seed in [0, 1])
    alone = read({**SMALL, "policies": {"b": policies["b"]}})
    assert list(search.Schedules(one, "b")) == list(search.Schedules(alone, "b"))
    assert [it.replace(" ", "") for it in list(search.Schedules(one, "b"))] == list(search.Schedules(one, "a"))
    assert not set(list(search.Schedules(other, "a"))) & set(list(search.Schedules(one, "a")))
    assert len(set(list(search.Schedules(one, "a")))) == 3
    assert list(search.Schedules(one, "a")) == [f"exponential({draw(0, it, 0, 0, 1, 10**6)})" for it in range(3)]


def test_policies_that_are_compared_get_the_same_draws(zsched):
    texts = ["(spaced(900) && recurs(5)) jitter full", "x: ( spaced(900)  && recurs(7))jitter  full",
             "(spaced(900) && recurs(5)) jitter equal", "(jitter(900, 900, 5) && spaced(rand(1, 5)))"]
    schedules = [drawn.Policy(text, str(zsched)).schedule(drawn.seeded(7)) for text in texts]
    found = [list(map(int, re.findall(r"spaced\((\d+)\)", text))) for text in schedules]
    # The second calculation draws the k-th wait of the random part 0.
    assert found[0] == [draw(7, 0, 0, number, 0, 900) for number in range(5)]
    assert found[1] == [draw(7, 0, 0, number, 0, 900) for number in range(7)]
    assert found[2] == [draw(7, 0, 0, number, 450, 900) for number in range(5)]
    assert found[3] == found[0] + [draw(7, 0, 1, 0, 1, 5)]


@pytest.mark.parametrize("within, size, marked", [("recur(", 5, "recur"), ("0000", 1, "rand(100000, 100000)")])
def test_a_cause_after_a_draw_is_at_its_place_in_the_policy(within, size, marked):
    policy = drawn.Policy("(spaced(rand(100000, 100000)) && recur(3))")
    at = policy.schedule(drawn.LOW).index(within)
    cause = policy.cause_at(drawn.LOW, Cause(at, size, "no"))
    assert policy.text[cause.at:cause.at + cause.size] == marked


def test_a_plan_of_too_many_jobs_is_written_as_lines(zsched, population, tmp_path):
    with mock.patch.object(program, "MOST_JOBS", 2):
        found = simulated(zsched, SMALL)
    assert len(found[1]) == 2
    command.write_files(tmp_path, "steady", 5000, found)
    lines = (tmp_path / "steady.jsonl").read_bytes()
    assert (lines.splitlines()[0], lines.count(b"\n")) == (b'{"horizon":5000}', 4)
    assert run(population, lines) == (0, REPORT.encode(), b"")
    assert (tmp_path / "steady.report").read_text() == REPORT
    curve_of_case = THREE.text("stdout").partition("steady.report\n")[2]
    assert (tmp_path / "steady.csv").read_text() == curve_of_case


def test_a_plan_that_is_too_long_is_cut_by_its_bytes():
    with mock.patch.object(program, "MAX_BYTES", 150):
        plans, most = program.cut_plans(9, [f'{{"name":"c{number}"}}' for number in range(20)])
    found = [[job["name"] for job in json.loads(plan)["jobs"]] for plan in plans]
    assert all(len(plan) <= 150 for plan in plans) and sum(found, []) == [f"c{number}" for number in range(20)]
    assert {len(names) for names in found[:-1]} == {most}


def test_more_bytes_than_a_plan_takes_are_said_before_the_run(capsys):
    with mock.patch.object(program, "MAX_BYTES", 32):
        command.warn_of_lines("steady", search.Schedules(read(SMALL), "steady"))
    assert capsys.readouterr().err == (
        "zsched-outage: policy steady: 3 jobs with schedules of 33 bytes are more than one plan of 10,000 jobs and "
        "32 bytes: -o writes it as JSON lines\n")


@given(st.lists(st.integers(0, 60), max_size=12), st.integers(1, 20), st.integers(0, 40))
def test_a_peak_is_the_greatest_number_within_any_time_of_its_length(begins, span, since):
    found = curve.Curve([certificate.Client("c", begins, [0] * len(begins), [], bytes(len(begins)), None)])
    counts = [(sum(since <= it < first + span and it >= first for it in begins), -first)
              for first in begins if first >= since]
    assert found.peak(span, since) == (max(counts, default=None) and (max(counts)[0], -max(counts)[1]))


def test_a_share_is_the_least_value_that_so_many_do_not_exceed():
    hundred = list(range(1, 101))
    assert [curve.share_of([5], percent, 1) for percent in [50, 95, 100]] == [5, 5, 5]
    assert [curve.share_of(hundred, percent, 100) for percent in [50, 95, 99, 100]] == [50, 95, 99, 100]
    assert (curve.share_of([1, 2, 3, 4], 50, 4), curve.share_of([], 50, 0)) == (2, None)
    # Of eight clients four were never served: half of all were by the fourth, and no more.
    assert [curve.share_of([1, 2, 3, 4], percent, 8) for percent in [12, 50, 51, 95, 100]] == [1, 4, None, None, None]


def test_pictures_are_whole_and_have_all_policies(zsched):
    found, figures = figures_of(zsched, DRAWN)
    drawing, page = picture(found, figures), "".join(panels.curve_page(found, figures))
    for text in [drawing, page]:
        assert "prefers-color-scheme:dark" in text
        assert re.findall(r"(?:src|href)=|url\(|@import|<script", text) == []
        assert set(re.findall('class="name"[^>]*>([^<]+)', text)) == {"a", "b"}
        assert all(policy in text for policy in DRAWN["policies"].values())
        assert min(map(int, re.findall(r"font-size:(\d+)px", text))) >= 11
    assert (drawing.count('class="down"'), page.count("<svg")) == (2, 2)
    said = r">\d+ attempts; peak \d+ a second, \d+ in 100 ms; (?!40)\d+ of 40 served<title>"
    assert len(re.findall(said, drawing)) == 2
    # The title has all its words in a narrow picture too, each line within its width.
    title = re.findall('class="title"[^>]*>([^<]+)', picture(found, figures, 360))
    assert " ".join(title) == curve.headline(found) and max(text_width(line, 16) for line in title) <= 328
    assert f"<td>{figures['a'].attempts:,}</td>" in page


@pytest.mark.parametrize("width", [360, 960])
def test_no_load_and_no_line_goes_through_a_windows_name(zsched, width):
    found, figures = figures_of(zsched, DRAWN)
    names = re.findall(r'<text class="soft" x="[\d.]+" y="([\d.]+)">(?:down|slow)<', picture(found, figures, width))
    layout = panels.Layout(found, figures, width)
    assert len(names) == 2
    for number, base in enumerate(map(float, names)):
        assert base + 3 < min(panels._height(layout, layout.panel(number), layout.most), layout.panel(number))
        assert base - panels.SMALL > layout.panel(number) - panels.WORDS


def test_a_picture_has_a_most_of_columns(zsched):
    rows = [(0, 5, 1, 2, 0), (1, 3, 4, 0, 2), (2, 0, 0, 0, 0), (3, 9, 0, 0, 9), (4, 1, 1, 1, 1)]
    assert panels.columns(rows, 1) == rows
    assert panels.columns(rows, 2) == [(0, 5, 4, 2, 2), (2, 9, 0, 0, 9), (4, 1, 1, 1, 1)]
    far = {**SMALL, "clients": {"number": 9, "per_second": 1}, "horizon": "3d",
           "windows": [{"from": 0, "to": "2d", "is": "down"}],
           "policies": {"steady": "exponential(100)", "other": "spaced(7200000)"}}
    drawing = picture(*figures_of(zsched, far))
    assert len(drawing) < 200_000 and "attempts in each second, the most of " in drawing


def test_a_picture_of_nothing_says_so(zsched):
    never = {**SMALL, "clients": {"number": 2, "start": "9s"}}
    assert "0 attempts; peak 0 a second, 0 in 100 ms; 0 of 2 served" in picture(*figures_of(zsched, never))


@pytest.mark.full
@pytest.mark.parametrize("names", [["W" * 64, "a-policy-with-" + "long-" * 10], [*"abcde", "W" * 64]],
                         ids=["two", "six"])
def test_long_names_leave_all_figures_in_sight(names, zsched, tmp_path):
    found = figures_of(zsched, {**SMALL, "policies": dict.fromkeys(names, "spaced(400)")})
    (tmp_path / "page.html").write_text("".join(panels.curve_page(*found)))
    count = len(names) * (len([*curve.table(*found)]) - 1)
    shown = framed(tmp_path, ["page.html"], [360, 400, 1280], """page => {
  const cells = [...page.querySelectorAll("td")].filter(it => it.getClientRects().length), right = it =>
    it.getBoundingClientRect().right;
  return [cells.length, cells.filter(it => right(it) > right(it.closest(".table")) + 1).length]; }""")
    assert shown == [[count, 0]] * 3


def test_the_loads_of_each_panel_have_their_title_above(zsched):
    found, figures = figures_of(zsched, DRAWN)
    titles = re.findall(r'y="([\d.]+)">attempts in each second<', picture(found, figures, 360))
    layout = panels.Layout(found, figures, 360)
    above = [layout.panel(number) - panels.WORDS for number in range(len(figures))]
    assert all(0 < top - float(base) < panels.SMALL for top, base in zip(above, titles, strict=True))


@pytest.mark.parametrize("is_terminal", [True, False])
def test_progress_is_written_on_a_terminal_alone(is_terminal):
    said, words = Border(io.StringIO()), "steady: pass 1, 3 clients"
    deadline = time.monotonic() + (20 if is_terminal else 0.05)
    said.stream.isatty = lambda: is_terminal
    with mock.patch.object(sys, "stderr", said), Now(every=0.01) as progress:
        progress.say(words)
        while words not in said.getvalue() and time.monotonic() < deadline:
            time.sleep(0.01)
    assert re.fullmatch(rf"(\r\x1b\[K\d+ s: ({words})?)+\r\x1b\[K" if is_terminal else "", said.getvalue())
