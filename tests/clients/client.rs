//! The client of the library in Rust. client.c documents the requests and the lines.
use std::future::{poll_fn, Future};
use std::pin::pin;
use std::sync::atomic::{AtomicU32, AtomicU64, Ordering::Relaxed};
use std::sync::Mutex;
use std::task::{Context, Poll, Waker};
use std::thread::sleep;
use std::time::{Duration, Instant};
use zsched::{Budget, Clock, Event, Fault, Guard, Retry, Schedule, Turn};

static BUDGET: Budget = Budget::new(10.0, 0.5);

/// Appends the words of a line of steps. Returns the fault of the first step that fails.
fn steps(command: &str, text: &str, numbers: &[u64], said: &mut Vec<String>) -> Result<(), Fault> {
    let mut schedule = Schedule::new(text)?;
    for pair in numbers.chunks(2) {
        if command == "stored" {
            schedule = Schedule::resume(text, schedule.state())?;
        }
        let next = schedule.after(pair[0], pair[1])?;
        said.push(format!("{},{},{}", u32::from(next.is_none()), next.unwrap_or(0), schedule.output()?));
    }
    Ok(())
}

/// Appends the words of a line of turns. Returns the fault of the first turn that fails.
fn plan(text: &str, numbers: &[u64], said: &mut Vec<String>) -> Result<(), Fault> {
    let (mut schedule, milliseconds, nanos) = (Schedule::new(text)?, Duration::from_millis, Duration::from_nanos);
    for four in numbers[3..].chunks(4) {
        let [began, ended, input, draw] = four[..] else { panic!("four numbers") };
        let begin = schedule.plan(Turn {
            began: nanos(began),
            ended: nanos(ended),
            input,
            least: milliseconds(numbers[1]),
            longest: milliseconds(numbers[2]),
            jitter: numbers[0] as f64 / 100.0,
            draw: Some(draw as u32),
        })?;
        said.push(format!("{},{}", u32::from(begin.is_none()), begin.unwrap_or_default().as_nanos()));
    }
    Ok(())
}

/// Makes attempts by a clock that is set back before the third one, each by a new schedule.
fn restarted(text: &str, numbers: &[u64]) -> Result<String, Fault> {
    const START: u128 = 1_000_000_000_000_000_000;
    let [code, back, most] = numbers[..] else { panic!("three numbers") };
    let (mut state, mut clock, mut attempts, mut last) = (Schedule::new(text)?.state().to_owned(), START, 0, 0);
    while attempts < most {
        attempts += 1;
        if attempts == 3 {
            clock -= Duration::from_millis(back).as_nanos();
        }
        let now = Duration::from_nanos(clock.saturating_sub(START) as u64);
        let mut schedule = Schedule::resume(text, &state)?;
        let Some(begin) = schedule.plan(Turn { began: now, ended: now, input: code, ..Turn::default() })? else {
            break;
        };
        (state, last) = (schedule.state().to_owned(), begin.as_nanos());
        clock = START + last;
    }
    Ok(format!("{attempts} {last}"))
}

/// Retries an effect that always fails, and notes what is called. The call is cancelled if its future is dropped.
fn order(text: &str, what: &str) -> Result<String, Fault> {
    let budget = if what == "broke" { Budget::new(1.0, 0.0) } else { Budget::new(10.0, 0.5) };
    let said = Mutex::new(Vec::new());
    let say = |word: &str| said.lock().expect("one thread").push(word.to_owned());
    let input_of = |code: &u64| {
        say("input");
        *code
    };
    let least_of = |_: &u64| {
        say("least");
        None
    };
    let retry = Retry::new(text)?.when(|_| what != "unretried").input_of(input_of).retry_after(least_of);
    let event_of = |it: Event<'_, u64>| say(&it.why.map_or("sleep".to_owned(), |it| it.to_string().replace(' ', "_")));
    let retry = retry.on_event(event_of).budget(&budget);
    let attempt = || {
        say("attempt");
        Err::<(), u64>(7)
    };
    if what == "cancelled" {
        {
            let pending = || {
                say("attempt");
                std::future::pending::<Result<(), u64>>()
            };
            let mut call = pin!(retry.call_async(pending, sleep_async));
            assert!(call.as_mut().poll(&mut Context::from_waker(Waker::noop())).is_pending());
        }
        say("cancelled");
    } else {
        say(&retry.call(attempt).expect_err("a failure").to_string());
    }
    say(&format!("{:.1}", budget.tokens()));
    drop(retry);
    Ok(said.into_inner().expect("one thread").join(" "))
}

/// Retries with an option at the edge of what it may be.
fn edge(text: &str, what: &str, number: u64) -> String {
    let (time, moments, start) = (Duration::from_millis(number), Mutex::new(Vec::new()), Instant::now());
    let retry = Retry::new(text).expect("a schedule").input_of(|code: &u64| *code);
    let set = || match what {
        "limit" => retry.attempt_most(time, || 503),
        "longest" => retry.retry_after_most(time).retry_after(|_| Some(Duration::from_millis(1500))),
        _ => retry,
    };
    std::panic::set_hook(Box::new(|_| ()));
    let Ok(retry) = std::panic::catch_unwind(std::panic::AssertUnwindSafe(set)) else { return "refused".to_owned() };
    let ended = retry.call(|| {
        moments.lock().expect("one thread").push(start.elapsed());
        Err::<(), u64>(503)
    });
    let moments = moments.into_inner().expect("one thread");
    let wait = moments.get(1).map_or("", |it| if *it < Duration::from_secs(1) { " short" } else { " long" });
    format!("{} {}{wait}", moments.len(), ended.expect_err("a failure"))
}

/// A clock that a call alone moves, and the last draw.
struct Driven {
    now: AtomicU64,
    drawn: AtomicU32,
    late: u64,
    falls: bool,
}

impl Driven {
    fn draw(&self, most: u64) -> u64 {
        let drawn = self.drawn.load(Relaxed).wrapping_mul(1_103_515_245).wrapping_add(12345);
        self.drawn.store(drawn, Relaxed);
        u64::from(drawn >> 16) * most / 65535
    }

    fn moved(&self, nanos: u64) {
        self.now.fetch_add(nanos, Relaxed);
        if self.falls && self.draw(3) == 0 {
            self.now.fetch_sub(1000 * self.draw(10_000_000), Relaxed);
        }
    }
}

impl Clock for Driven {
    fn now(&self) -> Duration {
        Duration::from_nanos(self.now.load(Relaxed))
    }

    fn sleep(&self, time: Duration) {
        self.moved(time.as_nanos() as u64 + 1000 * self.draw(1000 * self.late));
    }
}

/// Makes a call over such a clock, and says what it did beside the bounds of its guard.
fn guarded(text: &str, numbers: &[u64]) -> Result<String, Fault> {
    const START: u64 = 1_000_000_000_000_000;
    let [seed, jitter, asked, deadline, late, least, most, falls] = numbers[..] else { panic!("eight numbers") };
    let clock = Driven { now: START.into(), drawn: (seed as u32).into(), late, falls: falls == 1 };
    let (time, limit) = (Duration::from_millis, if deadline > 0 { Duration::from_millis(deadline) } else { Duration::MAX });
    let retry = Retry::new(text)?.input_of(|code: &u64| *code).jitter(jitter as f64 / 100.0).deadline(limit).clock(&clock);
    let retry = retry.retry_after_most(time(asked));
    let retry = if asked > 0 { retry.retry_after(|_| Some(time(clock.draw(2 * asked)))) } else { retry };
    let (mut attempts, mut ended, mut waits) = (0, START, vec![]);
    let _ = retry.call(|| {
        waits.push(clock.now.load(Relaxed).saturating_sub(ended));
        clock.moved(1000 * (1000 * least + clock.draw(1000 * (most - least))));
        (attempts, ended) = (attempts + 1, clock.now.load(Relaxed));
        if attempts < 200 { Err(502 + clock.draw(2)) } else { Ok(()) }
    });
    let late = if falls == 1 { Duration::MAX } else { time(late) };
    let guard = if falls == 1 { Guard::late(late) } else { Guard::late(late).trusting_attempts(time(least), time(most)) };
    let found = retry.bounds(guard)?;
    let or = |it: Option<Duration>| it.map_or(-1, |it| it.as_millis() as i64);
    let (longest, total) = (waits.iter().max().expect("an attempt"), waits.iter().sum::<u64>());
    let bounds = [or(Some(found.longest)), or(found.total), or(found.longest_run)].map(|it| it.to_string()).join(" ");
    let most = found.most.map_or(-1, |it| it as i64);
    Ok(format!("{attempts} {longest} {total} {} {} {most} {bounds}", ended.saturating_sub(START), found.least))
}

/// Polls a future each millisecond, and returns what it returns.
fn block_on<T>(future: impl Future<Output = T>) -> T {
    let mut future = pin!(future);
    loop {
        match future.as_mut().poll(&mut Context::from_waker(Waker::noop())) {
            Poll::Ready(value) => return value,
            Poll::Pending => sleep(Duration::from_millis(1)),
        }
    }
}

fn sleep_async(time: Duration) -> impl Future {
    let until = Instant::now() + time;
    poll_fn(move |_| if Instant::now() < until { Poll::Pending } else { Poll::Ready(()) })
}

fn retry(command: &str, text: &str, numbers: &[u64]) -> Vec<String> {
    let (code, times, start, said, mut attempts) = (numbers[0], numbers[1], Instant::now(), Mutex::new(Vec::new()), 0);
    let say = |word: String| said.lock().expect("one thread").push(word);
    let mut retry = Retry::new(text).expect("a schedule").input_of(|code| *code);
    if let [jitter, least, stop, budget, ref most @ ..] = numbers[2..] {
        retry = if most.is_empty() { retry } else { retry.retry_after_most(Duration::from_millis(most[0])) };
        retry = if budget == 1 { retry.budget(&BUDGET) } else { retry };
        retry = retry.jitter(jitter as f64 / 100.0).when(move |code| *code != stop);
        retry = retry.retry_after(move |_| Some(Duration::from_millis(least)));
        retry = retry.on_event(|it| {
            if let Some(wait) = it.wait {
                say(format!("{}:{}", it.number, wait.as_millis()));
            }
        });
    }
    let mut attempt = || {
        say(start.elapsed().as_micros().to_string());
        attempts += 1;
        if attempts <= times {
            Err(code)
        } else {
            Ok("done".to_owned())
        }
    };
    let ended = match command {
        "later" => block_on(retry.call_async(|| std::future::ready(attempt()), sleep_async)),
        _ => retry.call(attempt),
    };
    let mut words = vec![ended.unwrap_or_else(|failed| failed.to_string())];
    words.append(&mut said.lock().expect("one thread"));
    words
}

/// Says when it is dropped.
struct Ending<'a>(&'a dyn Fn());

impl Drop for Ending<'_> {
    fn drop(&mut self) {
        self.0();
    }
}

/// Makes attempts that take 5 seconds, or end at their limit: a future is dropped, and others get it.
fn limited(command: &str, text: &str, numbers: &[u64]) -> Vec<String> {
    let (start, said, mut attempts) = (Instant::now(), Mutex::new(Vec::new()), 0);
    let say = || said.lock().expect("one thread").push(start.elapsed().as_micros().to_string());
    let [code, times, most] = numbers[..] else { panic!("three numbers") };
    let retry = Retry::new(text).expect("a schedule").input_of(|code| *code);
    let retry = retry.attempt_most(Duration::from_millis(most), || code);
    let mut begin = || {
        say();
        attempts += 1;
        (Ending(&say), attempts <= times)
    };
    let ended = match command {
        "limited_later" => block_on(retry.call_async(
            || {
                let (ending, is_slow) = begin();
                async move {
                    if is_slow {
                        sleep_async(Duration::from_secs(5)).await;
                    }
                    drop(ending);
                    Ok("done".to_owned())
                }
            },
            sleep_async,
        )),
        _ => retry.call(|| {
            let (_ending, is_slow) = begin();
            if is_slow {
                sleep(retry.limit().unwrap_or(Duration::from_secs(5)));
            }
            if is_slow {
                Err(code)
            } else {
                Ok("done".to_owned())
            }
        }),
    };
    let mut words = vec![ended.unwrap_or_else(|failed| failed.to_string())];
    words.append(&mut said.lock().expect("one thread"));
    words
}

fn good(text: &str, count: u64) -> u128 {
    let (retry, start) = (Retry::<u64>::new(text).expect("a schedule"), Instant::now());
    for number in 0..count {
        assert_eq!(retry.call(|| Ok(std::hint::black_box(number))), Ok(number));
    }
    start.elapsed().as_nanos() / u128::from(count)
}

fn bounds(text: &str, numbers: &[u64], said: &mut Vec<String>) -> Result<(), Fault> {
    let (time, retry) = (Duration::from_millis, Retry::<u64>::new(text)?);
    let exact = Guard::late(Duration::ZERO).steps(numbers[0]);
    let found = match numbers[1..] {
        [] => retry.bounds(exact),
        [least, most] => retry.bounds(exact.trusting_attempts(time(least), time(most))),
        [least, most, jitter, asked, late] => retry
            .jitter(jitter as f64 / 100.0)
            .retry_after(|_| None)
            .retry_after_most(time(asked))
            .bounds(Guard::late(time(late)).steps(numbers[0]).trusting_attempts(time(least), time(most))),
        _ => panic!("one, three or six numbers"),
    }?;
    let limit = |limit: Option<u64>| [u64::from(limit.is_some()), limit.unwrap_or(0)];
    let millis = |it: Duration| it.as_millis() as u64;
    let (most, total, run) = (limit(found.most), limit(found.total.map(millis)), limit(found.longest_run.map(millis)));
    let words = [&[found.seen, found.least], &most[..], &[millis(found.longest)], &total, &run];
    said.extend(words.concat().iter().map(u64::to_string));
    Ok(())
}

fn said_of(text: &str) -> String {
    let fault = Schedule::new(text).expect_err("a fault").to_string();
    fault.bytes().fold(".".to_owned(), |said, it| format!("{said}{it:02x}"))
}

fn many(text: &str, count: u64) -> Result<(), Fault> {
    let (mut schedule, mut moment) = (Schedule::new(text)?, 0);
    for number in 1..=count {
        moment = schedule.after(moment, 503)?.expect("a policy without an end");
        if number % (count / 10) == 0 {
            println!();
        }
    }
    Ok(())
}

fn moved(texts: &str) -> Result<(), Fault> {
    let (first, second) = texts.split_once('\n').expect("two lines");
    Schedule::resume(second, Schedule::new(first)?.state()).map(drop)
}

fn main() {
    for request in std::io::stdin().lines() {
        let request = request.expect("a line");
        let words: Vec<&str> = request.split(' ').collect();
        let byte = |at| u8::from_str_radix(&words[1][at..at + 2], 16).expect("digits");
        let text = String::from_utf8((1..words[1].len()).step_by(2).map(byte).collect()).expect("UTF-8");
        let numbers: Vec<u64> = words[2..].iter().map_while(|it| it.parse().ok()).collect();
        let mut said = Vec::new();
        let ended = match words[0] {
            "version" => Ok(said.push(zsched::version().to_string())),
            "moved" => moved(&text),
            "retry" | "later" => Ok(said = retry(words[0], &text, &numbers)),
            "limited" | "limited_later" => Ok(said = limited(words[0], &text, &numbers)),
            "good" => Ok(said.push(good(&text, numbers[0]).to_string())),
            "bounds" => bounds(&text, &numbers, &mut said),
            "plan" => plan(&text, &numbers, &mut said),
            "restarted" => restarted(&text, &numbers).map(|it| said.push(it)),
            "guarded" => guarded(&text, &numbers).map(|it| said.push(it)),
            "said" => Ok(said.push(said_of(&text))),
            "edge" => Ok(said.push(edge(&text, words[2], words.get(3).map_or(0, |it| it.parse().expect("a number"))))),
            "order" => order(&text, words[2]).map(|it| said.push(it)),
            "many" => many(&text, numbers[0]),
            command => steps(command, &text, &numbers, &mut said),
        };
        if let Err(fault) = ended {
            let (number, text) = (fault.kind() as u32, fault.to_string());
            let words = text.lines().next().and_then(|it| it.split(": ").next()).expect("a line");
            said.push(format!("{number},{},{words}", fault.at().unwrap_or(0)));
        }
        println!("{}", said.join(" "));
    }
}
