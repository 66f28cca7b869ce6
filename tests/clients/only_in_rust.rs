//! Tests what only the binding for Rust has.
use std::future::{ready, Future};
use std::pin::pin;
use std::sync::atomic::{AtomicU64, Ordering::Relaxed};
use std::sync::Mutex;
use std::task::{Context, Poll, Waker};
use std::thread;
use std::time::{Duration, UNIX_EPOCH};
use zsched::{
    bounds, retry_after_of, version, Bounds, Budget, Clock, Event, Failed, Fault, Guard, Kind, Retry, Schedule,
    TestClock, Turn, Why, DEFAULT,
};

const ZERO: Duration = Duration::ZERO;

fn millis(number: u64) -> Duration {
    Duration::from_millis(number)
}

/// Returns a retry of an attempt that fails with a code.
fn failing<'a>(text: &str) -> Retry<'a, u64> {
    Retry::new(text).expect("a schedule")
}

/// A clock that a test sets, and how much of a sleep it takes.
struct Paced<'a>(&'a Mutex<Duration>, f64, &'a (dyn Fn(Duration) + Sync));

impl Clock for Paced<'_> {
    fn now(&self) -> Duration {
        *self.0.lock().expect("one thread")
    }

    fn sleep(&self, time: Duration) {
        (self.2)(time);
        *self.0.lock().expect("one thread") += time.mul_f64(self.1);
    }
}

fn schedule(text: &str) -> Schedule {
    Schedule::new(text).expect("a schedule")
}

#[test]
fn outputs_of_any_length_are_whole_and_faults_change_nothing() {
    for times in 0..9 {
        let wide = (0..times).fold("spaced(100)".to_owned(), |text, _| format!("({text} && {text})"));
        let mut it = schedule(&format!("({wide} && linear(9))"));
        assert_eq!(it.output(), Err(Kind::NoStep.into()));
        for (number, moment) in [3, 5, 8].iter().enumerate() {
            let next = it.after(*moment, 7).expect("a step");
            let output = (0..times).fold(number.to_string(), |text, _| format!("({text},{text})"));
            assert_eq!((next, it.output()), (Some(moment + 100), Ok(format!("({output},{})", 9 * (number + 1)))));
            let before = it.clone();
            assert_eq!((it.after(2, 7), &it), (Err(Kind::Falls.into()), &before));
        }
    }
}

#[test]
fn faults_have_the_texts_of_the_library() {
    let recurring = schedule("recurs(2)");
    let state_of = |text, state| Schedule::resume(text, state).map(drop);
    let longest_first = Guard::late(ZERO).trusting_attempts(millis(6), millis(5));
    let texts = [
        (Schedule::new("exponential(1, 0)").map(drop), "factor is 0\nexponential(1, 0)"),
        (bounds("recurs(").map(drop), "no term at byte 7: the text ends too early\nrecurs(\n       ^"),
        (state_of("recurs(1)", &[1]), "no state of this version"),
        (state_of("recurs(1)", &[]), "the state of another program"),
        (state_of("recurs(2)", &recurring.state()[1..]), "no state of this version"),
        (state_of("recurs(1)", recurring.state()), "the state of another program"),
        (Err(Kind::NoProgram.into()), "no program of this version, or one that was changed"),
        (Err(Kind::Falls.into()), "the moment is below that of the step before it"),
        (failing("forever").bounds(longest_first).map(drop), "no driver does this"),
        (
            Err(Kind::EarlySleeps.into()),
            "zsched: 100 sleeps ended early: in tests set Retry::clock, to a TestClock say",
        ),
    ];
    for (found, wanted) in texts {
        assert_eq!(found.expect_err("a fault").to_string(), wanted);
    }
    for kind in [Kind::NoStep, Kind::Memory, Kind::OtherSize, Kind::OtherVersion] {
        assert!(!Fault::from(kind).to_string().is_empty());
    }
    let fault = Schedule::new("spaced(18446744073709551616)").expect_err("a fault");
    assert_eq!((fault.kind() as u32, fault.at(), fault.text()), (13, Some(7), Some("spaced(18446744073709551616)")));
    assert_eq!((Kind::OtherSize as u32, Fault::from(Kind::OtherSize).at()), (17, None));
}

#[test]
fn the_library_has_the_version_of_the_crate() {
    let numbers: Vec<u32> = env!("CARGO_PKG_VERSION").split('.').map(|it| it.parse().expect("a number")).collect();
    assert_eq!(version(), 1_000_000 * numbers[0] + 1000 * numbers[1] + numbers[2]);
}

/// Retries an attempt that takes `took` milliseconds and fails `failures` times, by a clock
/// that else only sleeps advance. Returns the waits and the result.
fn tried(text: &str, took: u64, failures: u64) -> (Vec<u64>, Result<u64, u64>) {
    let (clock, waits, mut attempts) = (TestClock::new(), Mutex::new(Vec::new()), 0);
    let attempt = || {
        attempts += 1;
        clock.advance(millis(took));
        if attempts > failures {
            Ok(attempts)
        } else {
            Err(503)
        }
    };
    let retry = failing(text).input_of(|code| *code).clock(&clock).on_event(|it| {
        waits.lock().expect("one thread").extend(it.wait.map(|it| it.as_millis() as u64));
    });
    let ended = retry.call(attempt).map_err(|failed| failed.into_last().expect("a schedule"));
    drop(retry);
    (waits.into_inner().expect("one thread"), ended)
}

#[test]
fn attempts_wait_as_the_schedule_says() {
    assert_eq!(tried("(exponential(10) && recurs(5))", 5, 3), (vec![10, 20, 40], Ok(4)));
    assert_eq!(tried("(spaced(30) && recurs(2))", 5, 9), (vec![30, 30], Err(503)));
    assert_eq!(tried("spaced(30).whileInput(< 500)", 5, 9), (vec![], Err(503)));
}

#[test]
fn an_attempt_counts_as_1_millisecond_at_least() {
    assert_eq!(tried("(exponential(10) && recurs(5))", 0, 3), (vec![11, 21, 41], Ok(4)));
    let (waits, ended) = tried("elapsed.whileOutput(< 200)", 0, 9999);
    assert_eq!((waits, ended), (vec![1; 200], Err(503)));
}

#[test]
fn the_state_after_many_attempts_is_as_long_as_before() {
    let (waits, ended) = tried("spaced(1)", 5, 200_000);
    assert_eq!((waits.len(), ended), (200_000, Ok(200_001)));
    let mut it = schedule("(spaced(1) && recurs(9))");
    let words = it.state().len();
    for moment in 0..1000 {
        it.after(moment, 0).expect("a step");
    }
    assert_eq!(it.state().len(), words);
}

/// A turn that began and ended at these nanoseconds, by jitter of a half and with this draw.
fn turn(began: u64, ended: u64, draw: u32) -> Turn {
    let (began, ended) = (Duration::from_nanos(began), Duration::from_nanos(ended));
    Turn { began, ended, jitter: 0.5, draw: Some(draw), ..Turn::default() }
}

#[test]
fn a_turn_is_planned_in_nanoseconds() {
    let mut it = schedule("(spaced(1000) && recurs(2))");
    assert_eq!(it.plan(turn(0, 5_000_007, 0)), Ok(Some(Duration::from_nanos(1_005_000_000))));
    assert_eq!(it.plan(turn(1_006_000_000, 1_010_000_007, 1 << 31)), Ok(Some(Duration::from_nanos(1_760_000_007))));
    let mut stored = Schedule::resume(it.text(), it.state()).expect("its state");
    assert_eq!(stored.plan(turn(0, 0, u32::MAX)), Ok(None));
    // What no 64 bits of nanoseconds hold gives up.
    assert_eq!(it.fresh().plan(Turn { ended: Duration::MAX, ..Turn::default() }), Ok(None));
}

#[test]
fn a_least_wait_is_rounded_up_and_counts_up_to_the_longest() {
    let it = schedule("spaced(1)");
    let hour = Turn::default().longest;
    let cases = [
        (2_000, hour, 2),
        (2_001, hour, 3),
        (9_999_999_999, hour, 3_600_000),
        (9_000, Duration::from_micros(5_999), 5),
    ];
    for (least, longest, wanted) in cases {
        let turn = Turn { least: Duration::from_micros(least), longest, ..Turn::default() };
        assert_eq!(it.fresh().plan(turn), Ok(Some(Duration::from_millis(wanted))));
    }
    let endless = Turn { least: Duration::MAX, longest: Duration::MAX, ..Turn::default() };
    assert_eq!(it.fresh().plan(endless), Ok(None));
}

#[test]
fn a_draw_that_is_not_given_is_random() {
    let it = schedule("spaced(1000)");
    let draw_of = |_| it.fresh().plan(Turn { jitter: 1.0, ..Turn::default() }).expect("a turn").expect("no end");
    let begins: std::collections::HashSet<Duration> = (0..100).map(draw_of).collect();
    let (least, most) = (begins.iter().min(), begins.iter().max());
    assert!(begins.len() > 90 && least < Some(&Duration::from_millis(200)) && most > Some(&Duration::from_millis(800)));
    let wrong = || schedule("forever").plan(Turn { jitter: f64::NAN, ..Turn::default() });
    assert!(std::panic::catch_unwind(wrong).is_err());
}

#[test]
fn a_retry_takes_the_program_of_a_schedule_alone() {
    let mut it = schedule("recurs(2)");
    for moment in 0..3 {
        it.after(moment, 0).expect("a step");
    }
    let (retry, mut attempts) = (Retry::of(&it), 0);
    for _ in 0..2 {
        let failing = || {
            attempts += 1;
            Err::<(), u64>(503)
        };
        assert_eq!(retry.call(failing), Err(Failed::Attempt(503)));
    }
    assert_eq!(attempts, 6);
    let fault = Retry::<u64>::new("forever.collectAll").err().map(|it| it.kind());
    assert_eq!((fault, bounds("forever.collectAll").is_ok()), (Some(Kind::KeepsList), true));
}

#[test]
fn a_failed_retry_is_an_error_of_the_attempt() -> Result<(), Box<dyn std::error::Error>> {
    let fails = || Err::<u64, Box<dyn std::error::Error>>("busy".into());
    for (text, wanted) in [("recurs(1)", "busy"), ("?", "no term at byte 0\n?\n^")] {
        let ended = zsched::retry(text, |_| 0, fails).map_err(zsched::Failed::into_error);
        assert_eq!(ended.expect_err("an error").to_string(), wanted);
    }
    Ok(())
}

#[test]
fn jittered_attempts_stay_within_the_bounds_of_their_retry() {
    let text = "(spaced(1000) && elapsed).whileOutput(_2 < 20000)";
    for jitter in [0.0, 0.5, 1.0] {
        let (clock, mut attempts) = (TestClock::new(), 0);
        let retry = failing(text).jitter(jitter).clock(&clock);
        let found = retry.bounds(Guard::late(ZERO).steps(100_000).trusting_attempts(ZERO, millis(1))).expect("bounds");
        let ended = retry.call(|| {
            attempts += 1;
            clock.advance(Duration::from_micros(700));
            Err::<(), u64>(503)
        });
        assert!(ended.is_err() && Some(attempts) <= found.most, "{jitter} {attempts} {found:?}");
        assert!(jitter > 0.0 || Some(attempts) == found.most, "{attempts}");
        assert!(found.ends_within(clock.now()) || Some(clock.now()) <= found.longest_run, "{found:?}");
    }
}

/// The bounds of a retry whose timers are on time, with its 4 attempts.
fn guarded<'a>(set: impl Fn(Retry<'a, u64>) -> Retry<'a, u64>, guard: Guard) -> (Bounds, Bounds) {
    let retry = set(failing("(spaced(1000) && recurs(3))"));
    (retry.bounds(guard).expect("bounds"), retry.bounds_async(guard).expect("bounds"))
}

#[test]
fn each_option_that_is_set_on_the_retry_alone_changes_its_bounds() {
    static FULL: Budget = Budget::new(10.0, 0.1);
    let guard = Guard::late(ZERO);
    let (plain, later) = guarded(|it| it, guard);
    assert_eq!((plain.most, plain.longest, plain.total), (Some(4), millis(1000), Some(millis(3000))));
    assert_eq!((plain, plain.longest_run, plain.ends_within(Duration::MAX)), (later, None, false));
    // Steps at 1, 1002, 2003 and 3004 ms; with jitter at 1, 502, .., 2005 and 2506 ms.
    let elapsed = failing("(spaced(1000) && elapsed).whileOutput(_2 < 2500)");
    assert_eq!(elapsed.bounds(guard).expect("bounds").most, Some(4));
    assert_eq!(elapsed.jitter(0.5).bounds(guard).expect("bounds").most, Some(6));
    let asked = |it: Retry<'static, u64>| it.retry_after(|_| None);
    assert_eq!(guarded(asked, guard).0.longest, Duration::from_secs(3600));
    assert_eq!(guarded(|it| asked(it).retry_after_most(millis(1500)), guard).0.longest, millis(1500));
    assert_eq!(guarded(|it| it.retry_after_most(millis(1500)), guard), (plain, plain));
    let (unlimited, limited) = guarded(|it| it.attempt_most(millis(500), || 504), guard);
    assert!(unlimited.longest_run.is_none() && limited.ends_within(millis(5001)) && !limited.ends_within(millis(4999)));
    let late = guarded(|it| it.attempt_most(millis(500), || 504), Guard::late(millis(10))).1;
    assert!(late.longest == millis(1010) && late.longest_run > limited.longest_run, "{late:?}");
    let (first, last) = guarded(|it| it.deadline(millis(1500)).attempt_most(millis(500), || 504), guard);
    assert_eq!((first.longest_run, last.longest_run), (None, Some(millis(2000))));
    assert_eq!((first.total, first.longest, first.least), (Some(millis(1500)), millis(1000), 1));
    // A budget may end a call after its first attempt, and changes no other bound.
    let budgeted = Bounds { least: 1, ..plain };
    assert_eq!((plain.least, guarded(|it| it.budget(&FULL), guard)), (4, (budgeted, budgeted)));
    let trusting = guard.trusting_attempts(ZERO, millis(200));
    assert!(
        guarded(|it| it, trusting).0.ends_within(millis(3801))
            && !guarded(|it| it, trusting).0.ends_within(millis(3799))
    );
    assert_eq!(guarded(|it| it, guard.steps(2)).0.most, None);
}

#[test]
fn the_default_policy_has_its_bounds_and_jitter() {
    let retry = Retry::<u64>::default();
    let trusting = Guard::late(ZERO).trusting_attempts(ZERO, Duration::from_secs(5));
    let found = retry.bounds(trusting).expect("bounds");
    assert_eq!((found.most, found.longest, found.total), (Some(6), millis(1600), Some(millis(3100))));
    assert!(found.ends_within(millis(33_101)) && !found.ends_within(millis(33_099)));
    assert_eq!(DEFAULT, "(exponential(100) && recurs(5))");
    let (clock, mut attempts) = (TestClock::new(), 0);
    let ended = Retry::default().clock(&clock).call(|| {
        attempts += 1;
        Err::<(), u64>(attempts)
    });
    assert_eq!(ended, Err(Failed::Attempt(6)));
    assert!(clock.now() < millis(3100) && clock.now() != millis(3105));
}

/// What the events of calls say.
fn told(said: &Mutex<Vec<String>>, it: &Event<'_, u64>) {
    let why = it.why.map_or("wait".to_owned(), |it| it.to_string());
    let (elapsed, wait) = (it.elapsed.as_millis(), it.wait.map(|it| it.as_millis()));
    said.lock().expect("one thread").push(format!("{} {} {:?} {elapsed} {wait:?} {why}", it.name, it.number, it.error));
}

#[test]
fn an_event_says_what_happened_and_why_a_call_ended() {
    let (clock, said, poor) = (&TestClock::new(), Mutex::new(Vec::new()), Budget::new(1.0, 0.0));
    let retry = |text| failing(text).clock(clock).on_event(|it| told(&said, &it)).name("fetch").when(|it| *it != 404);
    let attempts = |codes: &[u64]| {
        let mut codes = codes.to_vec().into_iter();
        move || {
            clock.advance(millis(5));
            codes.next().map_or(Ok(()), Err)
        }
    };
    let text = "(spaced(20) && recurs(1))";
    assert!(retry(text).call(attempts(&[503])).is_ok());
    assert!(retry(text).call(attempts(&[503, 503])).is_err());
    assert!(retry(text).call(attempts(&[404])).is_err());
    assert!(retry(text).budget(&poor).call(attempts(&[503])).is_err());
    assert!(retry(text).deadline(millis(24)).call(attempts(&[503])).is_err());
    assert!(retry(text).deadline(millis(25)).call(attempts(&[503])).is_ok());
    {
        let waiting = retry(text);
        let mut call = pin!(waiting.call_async(std::future::pending::<Result<(), u64>>, ready));
        assert!(call.as_mut().poll(&mut Context::from_waker(Waker::noop())).is_pending());
    }
    let wanted = [
        "fetch 1 Some(503) 5 Some(20) wait",
        "fetch 2 None 30 None succeeded",
        "fetch 1 Some(503) 5 Some(20) wait",
        "fetch 2 Some(503) 30 None gave up",
        "fetch 1 Some(404) 5 None not retried",
        "fetch 1 Some(503) 5 None budget",
        "fetch 1 Some(503) 5 None deadline",
        "fetch 1 Some(503) 5 Some(20) wait",
        "fetch 2 None 30 None succeeded",
        "fetch 1 None 0 None cancelled",
    ];
    assert_eq!(*said.lock().expect("one thread"), wanted);
    assert_eq!([Why::GaveUp, Why::Cancelled].map(|it| it.to_string()), ["gave up", "cancelled"]);
}

#[test]
fn sleeps_that_end_early_are_repeated_a_hundred_times_at_most() {
    let (now, sleeps) = (Mutex::new(ZERO), AtomicU64::new(0));
    let count = |_| {
        sleeps.fetch_add(1, Relaxed);
    };
    for (pace, wanted) in [(1.0, 1), (0.5, 32), (0.0, 101)] {
        sleeps.store(0, Relaxed);
        let (clock, mut attempts, mut begun) = (Paced(&now, pace, &count), 0, ZERO);
        let ended = failing("(spaced(1000) && recurs(1))").clock(&clock).call(|| {
            attempts += 1;
            begun = clock.now() - begun;
            Err::<(), u64>(503)
        });
        if pace > 0.0 {
            assert_eq!((ended, attempts, begun >= millis(1001)), (Err(Failed::Attempt(503)), 2, true));
        } else {
            assert_eq!((ended, attempts), (Err(Failed::Schedule(Kind::EarlySleeps.into())), 1));
        }
        assert!(sleeps.load(Relaxed) <= wanted && sleeps.load(Relaxed) + 2 >= wanted, "{sleeps:?}");
    }
    // An executor whose sleeps are stubbed, as by a paused clock.
    let (retry, slept) = (failing("(spaced(3600000) && recurs(1))"), AtomicU64::new(0));
    let stubbed = |_| ready(slept.fetch_add(1, Relaxed));
    let call = pin!(retry.call_async(|| ready(Err::<(), u64>(503)), stubbed));
    let Poll::Ready(ended) = call.poll(&mut Context::from_waker(Waker::noop())) else { panic!("it ends") };
    assert_eq!((ended, slept.load(Relaxed)), (Err(Failed::Schedule(Kind::EarlySleeps.into())), 101));
    // By a clock for tests it waits for nothing.
    let clock = TestClock::new();
    let retry = failing("(spaced(3600000) && recurs(1))").clock(&clock);
    let call = pin!(retry.call_async(|| ready(Err::<(), u64>(503)), ready));
    assert_eq!(call.poll(&mut Context::from_waker(Waker::noop())), Poll::Ready(Err(Failed::Attempt(503))));
    assert_eq!(clock.now(), millis(3_600_001));
}

#[test]
fn a_header_asks_for_seconds_or_a_date() {
    let now = UNIX_EPOCH + Duration::from_secs(784_111_777) - millis(7500);
    let cases = [
        ("0", Some(0)),
        (" 120 ", Some(120_000)),
        ("Sun, 06 Nov 1994 08:49:37 GMT", Some(7_500)),
        ("Sun, 06 Nov 1994 08:49:00 GMT", Some(0)),
        ("Tue, 29 Feb 2000 00:00:00 GMT", Some(951_782_400_000 - 784_111_769_500)),
        ("Wed, 01 Mar 2000 00:00:00 GMT", Some(951_868_800_000 - 784_111_769_500)),
        ("", None),
        ("-1", None),
        ("1.5", None),
        ("soon", None),
        ("99999999999999999999", None),
        ("Sun, 06 Nov 1994 08:49:37 CET", None),
        ("Sun, 06 Now 1994 08:49:37 GMT", None),
        ("Sun, 06 Nov 1994 24:49:37 GMT", None),
        ("Sun, 00 Nov 1994 08:49:37 GMT", None),
        ("Sun; 06 Nov 1994 08:49:37 GMT", None),
        ("Sun, 06 Nov 1994 08:49:37 GMT.", None),
        ("Sün, 6 Nov 1994 08:49:37 GMT", None),
    ];
    for (header, wanted) in cases {
        assert_eq!(retry_after_of(header, now), wanted.map(millis), "{header}");
    }
}

#[test]
fn wrong_texts_and_numbers_are_refused() {
    assert_eq!(Retry::<u64>::new("recurs(").err().map(|it| (it.kind(), it.at())), Some((Kind::NoTerm, Some(7))));
    assert!(std::panic::catch_unwind(|| drop(failing("forever").attempt_most(ZERO, || 504))).is_err());
    for wrong in [-0.1, f64::NAN, f64::INFINITY] {
        assert!(std::panic::catch_unwind(|| Budget::new(wrong, 0.1)).is_err(), "{wrong}");
        assert!(std::panic::catch_unwind(|| Budget::new(10.0, wrong)).is_err(), "{wrong}");
        let jittered = || drop(Retry::<u64>::new("forever").expect("a schedule").jitter(wrong));
        assert!(std::panic::catch_unwind(jittered).is_err(), "{wrong}");
    }
    assert!(!Budget::new(0.0, 0.0).take());
}

#[test]
fn a_clock_that_falls_stands_still() {
    let (now, waits, mut attempts) = (Mutex::new(ZERO), Mutex::new(Vec::new()), 0);
    let note = |time: Duration| waits.lock().expect("one thread").push(time.as_millis() as u64);
    let clock = Paced(&now, 1.0, &note);
    let ended = failing("(spaced(30) && recurs(5))").clock(&clock).call(|| {
        attempts += 1;
        let mut now = now.lock().expect("one thread");
        *now = if attempts == 2 { ZERO } else { *now + millis(5) };
        Err::<(), u64>(503)
    });
    // The attempt in which it falls began at 35 and counts as 1 millisecond, so the next one begins at 66.
    assert_eq!((ended.is_err(), waits.into_inner().expect("one thread")), (true, vec![30, 31, 30, 30, 30]));
}

#[test]
fn a_slow_hook_does_not_delay_the_next_attempt() {
    let (now, waits, slept) = (Mutex::new(ZERO), Mutex::new(Vec::new()), Mutex::new(Vec::new()));
    let note = |time| slept.lock().expect("one thread").push(time);
    let clock = Paced(&now, 1.0, &note);
    let retry = failing("(spaced(100) && recurs(1))").clock(&clock).on_event(|it| {
        waits.lock().expect("one thread").extend(it.wait);
        *now.lock().expect("one thread") += millis(20);
    });
    assert!(retry.call(|| Err::<(), u64>(503)).is_err());
    assert_eq!(*waits.lock().expect("one thread"), [millis(101)]);
    assert_eq!(*slept.lock().expect("one thread"), [millis(81)]);
}

#[test]
fn threads_share_a_retry() {
    let (retry, attempts) = (Retry::new("recurs(20)").expect("a schedule"), AtomicU64::new(0));
    let failing = || retry.call(|| Err::<(), u64>(attempts.fetch_add(1, Relaxed)));
    thread::scope(|scope| (0..8).for_each(|_| drop(scope.spawn(failing))));
    assert_eq!(attempts.into_inner(), 8 * 21);
}
