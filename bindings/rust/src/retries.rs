//! Retries that really sleep.
use crate::{bounds_of, percent, saturate, Bounds, Clock, Fault, Kind, Schedule, Turn};
use std::fmt;
use std::future::{poll_fn, Future};
use std::ops::ControlFlow::{self, Break, Continue};
use std::pin::pin;
use std::sync::{Mutex, PoisonError};
use std::task::Poll;
use std::time::{Duration, Instant};

/// The policy of `Retry::default()`, which has full jitter: a jitter of 1.
pub const DEFAULT: &str = "(exponential(100) && recurs(5))";
/// How often a sleep that ended early is repeated.
const REPEATED: u64 = 100;

/// Why a retry ended without a value.
#[derive(Clone, Debug, PartialEq, Eq)]
pub enum Failed<E> {
    /// The text is no schedule, an allocation failed, or sleeps end early.
    Schedule(Fault),
    /// No other attempt follows: the error of the last one.
    Attempt(E),
}

impl<E> Failed<E> {
    /// Returns the error of the last attempt, or the fault as such an error. So
    /// `retry(..).map_err(Failed::into_error)?` also goes where `E` is no `Error`, as `Box<dyn Error>`.
    pub fn into_error(self) -> E
    where
        E: From<Fault>,
    {
        match self {
            Failed::Schedule(fault) => fault.into(),
            Failed::Attempt(error) => error,
        }
    }

    /// Returns the error of the last attempt, if there was one.
    pub fn into_last(self) -> Option<E> {
        match self {
            Failed::Schedule(_) => None,
            Failed::Attempt(error) => Some(error),
        }
    }
}

impl<E> From<Fault> for Failed<E> {
    fn from(fault: Fault) -> Failed<E> {
        Failed::Schedule(fault)
    }
}

impl<E: fmt::Display> fmt::Display for Failed<E> {
    /// Writes the text of the fault, or of the last error.
    fn fmt(&self, f: &mut fmt::Formatter<'_>) -> fmt::Result {
        match self {
            Failed::Schedule(fault) => fault.fmt(f),
            Failed::Attempt(error) => error.fmt(f),
        }
    }
}

impl<E: std::error::Error + 'static> std::error::Error for Failed<E> {
    fn source(&self) -> Option<&(dyn std::error::Error + 'static)> {
        match self {
            Failed::Schedule(_) => None,
            Failed::Attempt(error) => error.source(),
        }
    }
}

/// Retries until there is a value or the schedule is done, and sleeps between two attempts.
///
/// The input of an error is what `input_of` returns. [`Retry`] does the same with options.
pub fn retry<T, E>(
    text: &str,
    input_of: impl Fn(&E) -> u64 + Send + Sync,
    attempt: impl FnMut() -> Result<T, E>,
) -> Result<T, Failed<E>> {
    Retry::new(text)?.input_of(input_of).call(attempt)
}

/// Tokens that many calls share, as in gRPC's retry throttling.
///
/// A failed attempt takes a token, and one that doesn't fail adds the ratio, up to the number of tokens
/// at first. A retry follows only while more than half of that number are there; else the call gives
/// up, as if its schedule were done. So calls stop retrying when most of them fail.
///
/// ```
/// use zsched::{Budget, Failed, Retry};
///
/// static BUDGET: Budget = Budget::new(10.0, 0.1);
/// let (mut attempts, retry) = (0, Retry::new("recurs(9)")?.budget(&BUDGET));
/// let mut failing = || retry.call(|| {
///     attempts += 1;
///     Err::<(), u64>(503)
/// });
/// assert_eq!([failing(), failing()], [Err(Failed::Attempt(503)), Err(Failed::Attempt(503))]);
/// assert_eq!((attempts, BUDGET.tokens()), (5 + 1, 4.0));
/// # Ok::<(), zsched::Fault>(())
/// ```
#[derive(Debug)]
pub struct Budget {
    most: f64,
    ratio: f64,
    tokens: Mutex<f64>,
}

impl Budget {
    /// Returns a budget with all its tokens. gRPC's documents have 10 tokens and the ratio 0.1. Panics
    /// if one of them is negative, infinite or no number.
    pub const fn new(tokens: f64, ratio: f64) -> Budget {
        let is_well = 0.0 <= tokens && tokens < f64::INFINITY && 0.0 <= ratio && ratio < f64::INFINITY;
        assert!(is_well, "zsched: a budget has finite tokens and a finite ratio, of at least 0");
        Budget { most: tokens, ratio, tokens: Mutex::new(tokens) }
    }

    /// Returns the tokens that are there.
    pub fn tokens(&self) -> f64 {
        self.change(0.0)
    }

    /// Adds the ratio after an attempt that didn't fail.
    pub fn add(&self) {
        self.change(self.ratio);
    }

    /// Takes a token after a failed attempt. Returns whether a retry may follow.
    pub fn take(&self) -> bool {
        self.change(-1.0) > self.most / 2.0
    }

    fn change(&self, by: f64) -> f64 {
        let mut tokens = self.tokens.lock().unwrap_or_else(PoisonError::into_inner);
        *tokens = (*tokens + by).clamp(0.0, self.most);
        *tokens
    }
}

/// Why a call ended.
#[derive(Clone, Copy, Debug, PartialEq, Eq)]
pub enum Why {
    /// The last attempt has a value.
    Succeeded,
    /// The schedule is done.
    GaveUp,
    /// The next attempt can't begin before the deadline.
    Deadline,
    /// The future of `call_async` was dropped.
    Cancelled,
    /// The budget allows no retry.
    Budget,
    /// The error isn't one that is retried.
    NotRetried,
}

impl fmt::Display for Why {
    /// Writes it in lower case: `gave up`.
    fn fmt(&self, f: &mut fmt::Formatter<'_>) -> fmt::Result {
        f.write_str(match self {
            Why::Succeeded => "succeeded",
            Why::GaveUp => "gave up",
            Why::Deadline => "deadline",
            Why::Cancelled => "cancelled",
            Why::Budget => "budget",
            Why::NotRetried => "not retried",
        })
    }
}

/// What happened to a call: an attempt failed and a wait follows, or the call ended.
#[derive(Debug)]
pub struct Event<'e, E> {
    /// The number of the attempt, from 1.
    pub number: u64,
    /// Its error, if it has one.
    pub error: Option<&'e E>,
    /// The time from the begin of the first attempt.
    pub elapsed: Duration,
    /// The time from the end of the attempt to the begin of the next one, if one follows.
    pub wait: Option<Duration>,
    /// What `Retry::name` set.
    pub name: &'e str,
    /// Why the call ended; `None` before a wait.
    pub why: Option<Why>,
}

/// What a retry doesn't know of itself, for [`Retry::bounds`].
#[derive(Clone, Copy, Debug, PartialEq, Eq)]
pub struct Guard {
    late: Duration,
    steps: u64,
    trusted: Option<(Duration, Duration)>,
}

impl Guard {
    /// Returns the guard of timers that end at most so late; with `Duration::MAX` it may be any time.
    pub const fn late(late: Duration) -> Guard {
        Guard { late, steps: 1000, trusted: None }
    }

    /// Sets how many attempts are examined at most: 1,000 without it.
    pub const fn steps(self, steps: u64) -> Guard {
        Guard { steps, ..self }
    }

    /// Sets how long attempts take. The caller is trusted: the retry doesn't see to it.
    pub const fn trusting_attempts(self, shortest: Duration, longest: Duration) -> Guard {
        Guard { trusted: Some((shortest, longest)), ..self }
    }
}

type Of<'a, E, T> = Box<dyn Fn(&E) -> T + Send + Sync + 'a>;
type OnEvent<'a, E> = Box<dyn Fn(Event<'_, E>) + Send + Sync + 'a>;

/// A retry by a schedule, with options. Its text is compiled once, so a call that doesn't fail costs
/// next to nothing; threads may share it.
///
/// [`Schedule::plan`] returns when each attempt may begin, so no call makes more attempts than
/// `bounds` says, whatever the clock and the sleeps do. Time and memory don't grow with the number of
/// attempts.
///
/// An attempt that failed is followed by, in this order: `when`, `input_of`, `retry_after`, a token of
/// the budget, the step of the schedule, the deadline, `on_event` and the sleep.
///
/// ```
/// let mut attempts = 0;
/// let found = zsched::Retry::new("(exponential(1) && recurs(5))")?
///     .input_of(|code: &u64| *code)
///     .when(|code| *code >= 500)
///     .on_event(|it| println!("attempt {}: {:?}, the next one in {:?}", it.number, it.error, it.wait))
///     .call(|| {
///         attempts += 1;
///         if attempts < 3 { Err(503) } else { Err(404) }
///     });
/// assert_eq!((found, attempts), (Err::<(), _>(zsched::Failed::Attempt(404)), 3));
/// # Ok::<(), zsched::Fault>(())
/// ```
pub struct Retry<'a, E> {
    schedule: Schedule,
    input_of: Of<'a, E, u64>,
    when: Of<'a, E, bool>,
    on_event: Option<OnEvent<'a, E>>,
    retry_after: Option<Of<'a, E, Option<Duration>>>,
    attempt_most: Option<(Duration, Box<dyn Fn() -> E + Send + Sync + 'a>)>,
    deadline: Duration,
    // The longest least wait and the jitter of each turn.
    turn: Turn,
    budget: Option<&'a Budget>,
    clock: Option<&'a dyn Clock>,
    name: String,
}

impl<E> Default for Retry<'_, E> {
    /// Returns the retry of the default policy: at most 6 attempts, with waits of at most 3.1 s.
    fn default() -> Self {
        Retry::new(DEFAULT).expect("the default policy").jitter(1.0)
    }
}

impl<'a, E> Retry<'a, E> {
    /// Returns the retry of a text's schedule. Fails with the fault of the text.
    pub fn new(text: &str) -> Result<Retry<'a, E>, Fault> {
        Schedule::new(text).map(|schedule| Retry::of(&schedule))
    }

    /// Returns the retry of a schedule that is compiled: of its program, not of its state.
    pub fn of(schedule: &Schedule) -> Retry<'a, E> {
        Retry {
            schedule: schedule.fresh(),
            input_of: Box::new(|_| 0),
            when: Box::new(|_| true),
            on_event: None,
            retry_after: None,
            attempt_most: None,
            deadline: Duration::MAX,
            turn: Turn::default(),
            budget: None,
            clock: None,
            name: String::new(),
        }
    }

    /// Sets what the schedule's input of an error is: 0 without it.
    pub fn input_of(mut self, input_of: impl Fn(&E) -> u64 + Send + Sync + 'a) -> Self {
        self.input_of = Box::new(input_of);
        self
    }

    /// Sets which errors are retried: each without it.
    pub fn when(mut self, when: impl Fn(&E) -> bool + Send + Sync + 'a) -> Self {
        self.when = Box::new(when);
        self
    }

    /// Sets what is called before each sleep, and when a call ends.
    pub fn on_event(mut self, on_event: impl Fn(Event<'_, E>) + Send + Sync + 'a) -> Self {
        self.on_event = Some(Box::new(on_event));
        self
    }

    /// Sets the name of the call that events have: empty without it.
    pub fn name(mut self, name: &str) -> Self {
        self.name = name.to_owned();
        self
    }

    /// Sets how long to wait at least after an error, such as a server's `Retry-After`: rounded up to
    /// milliseconds.
    pub fn retry_after(mut self, least: impl Fn(&E) -> Option<Duration> + Send + Sync + 'a) -> Self {
        self.retry_after = Some(Box::new(least));
        self
    }

    /// Sets the longest wait of `retry_after` that is honoured: an hour without it.
    pub fn retry_after_most(mut self, most: Duration) -> Self {
        self.turn.longest = most;
        self
    }

    /// Sets how long an attempt may take. `call_async` drops a longer one, whose error is `timed_out()`.
    /// An attempt of `call` has to end in time itself: see `limit`. Panics if it is 0.
    pub fn attempt_most(mut self, most: Duration, timed_out: impl Fn() -> E + Send + Sync + 'a) -> Self {
        assert!(!most.is_zero(), "zsched: a limit of an attempt is above 0");
        self.attempt_most = Some((most, Box::new(timed_out)));
        self
    }

    /// Returns how long an attempt may take, if that is limited.
    pub fn limit(&self) -> Option<Duration> {
        self.attempt_most.as_ref().map(|it| it.0)
    }

    /// Sets how long after the begin of the first attempt the last one may begin. A call gives up at once
    /// if the next attempt can't begin by then.
    pub fn deadline(mut self, deadline: Duration) -> Self {
        self.deadline = deadline;
        self
    }

    /// Shortens each wait by a random part of it, of at most this share, in whole percent. Panics if that
    /// isn't from 0 to 1.
    pub fn jitter(mut self, share: f64) -> Self {
        assert!(percent(share).is_some(), "zsched: a jitter of {share} is not from 0 to 1");
        self.turn.jitter = share;
        self
    }

    /// Sets the budget that this retry shares with others.
    pub fn budget(mut self, budget: &'a Budget) -> Self {
        self.budget = Some(budget);
        self
    }

    /// Sets the clock by which calls wait and `call` and `call_async` sleep, such as a
    /// [`TestClock`](crate::TestClock). If it falls, it counts as if it stood still.
    pub fn clock(mut self, clock: &'a dyn Clock) -> Self {
        self.clock = Some(clock);
        self
    }

    /// Returns the bounds of each `call`. It can't end an attempt, so `longest_run` is `None`, unless the
    /// guard trusts attempts.
    ///
    /// ```
    /// use std::time::Duration;
    /// use zsched::{Guard, Retry};
    ///
    /// let retry = Retry::<u64>::new("(exponential(100) && recurs(4))")?.jitter(0.5);
    /// let late = Guard::late(Duration::from_millis(100));
    /// assert!(!retry.bounds(late)?.ends_within(Duration::from_secs(30)));
    /// let trusting = late.trusting_attempts(Duration::ZERO, Duration::from_secs(5));
    /// assert!(retry.bounds(trusting)?.ends_within(Duration::from_secs(30)));
    /// # Ok::<(), zsched::Fault>(())
    /// ```
    pub fn bounds(&self, guard: Guard) -> Result<Bounds, Fault> {
        self.guarded(guard, None)
    }

    /// Returns the bounds of each `call_async`, of which `attempt_most` ends attempts, or the timer
    /// for it, which may be late. It can't end an attempt that blocks its thread.
    pub fn bounds_async(&self, guard: Guard) -> Result<Bounds, Fault> {
        self.guarded(guard, self.limit().map(|it| it.saturating_add(guard.late)))
    }

    fn guarded(&self, guard: Guard, limit: Option<Duration>) -> Result<Bounds, Fault> {
        let ceil = |time: Duration| saturate(time.as_nanos().div_ceil(1_000_000));
        let (shortest, trusted) = guard.trusted.unwrap_or((Duration::ZERO, Duration::MAX));
        let longest = limit.unwrap_or(Duration::MAX).min(trusted);
        let has_most = limit.is_some() || guard.trusted.is_some();
        let percent = u64::from(percent(self.turn.jitter).unwrap_or(0));
        let asked = if self.retry_after.is_some() { saturate(self.turn.longest.as_millis()) } else { 0 };
        let (least, most) = (saturate(shortest.as_millis()).max(1), if has_most { ceil(longest).max(1) } else { 0 });
        let driver = [least, has_most.into(), most, 100 - percent, 100, asked, ceil(guard.late)];
        let mut found = bounds_of(self.schedule.text(), guard.steps, driver)?;
        if self.budget.is_some() || self.deadline < Duration::MAX {
            found.least = 1;
        }
        if self.deadline < Duration::MAX {
            // Until the last attempt begins, and until it ends.
            let last = self.deadline.saturating_add(guard.late);
            let run = has_most.then(|| last.saturating_add(longest));
            found.longest = found.longest.min(last);
            found.total = Some(found.total.map_or(last, |it| it.min(last)));
            found.longest_run = found.longest_run.into_iter().chain(run).min();
        }
        Ok(found)
    }

    /// Retries until there is a value or no attempt follows, and sleeps between two attempts, on this
    /// thread or by the `clock`.
    pub fn call<T>(&self, mut attempt: impl FnMut() -> Result<T, E>) -> Result<T, Failed<E>> {
        let watch = Watch::new(self.clock);
        match attempt() {
            // Most calls end here, and need no more than their begin.
            Ok(value) if self.on_event.is_none() => {
                self.budget.inspect(|it| it.add());
                Ok(value)
            }
            first => self.go_on(Run::new(self, watch), first, attempt),
        }
    }

    /// Goes on after a first attempt.
    #[cold]
    fn go_on<T>(
        &self,
        mut run: Run<'_, 'a, E>,
        mut ended: Result<T, E>,
        mut attempt: impl FnMut() -> Result<T, E>,
    ) -> Result<T, Failed<E>> {
        loop {
            run.begin();
            match run.end(ended) {
                Break(ended) => return ended,
                Continue(begin) => {
                    while let Some(rest) = run.rest(begin)? {
                        self.clock.map_or_else(|| std::thread::sleep(rest), |it| it.sleep(rest));
                    }
                }
            }
            ended = attempt();
        }
    }

    /// Retries an asynchronous attempt, with an executor's sleep, `tokio::time::sleep` say, or by the
    /// `clock`.
    ///
    /// Dropping the future cancels the call.
    pub async fn call_async<T, A: Future<Output = Result<T, E>>, S: Future>(
        &self,
        mut attempt: impl FnMut() -> A,
        mut sleep: impl FnMut(Duration) -> S,
    ) -> Result<T, Failed<E>> {
        let mut droppable = Droppable(Run::new(self, Watch::new(self.clock)));
        let run = &mut droppable.0;
        loop {
            run.begin();
            let ended = match &self.attempt_most {
                Some((most, timed_out)) => within(attempt(), sleep(*most)).await.unwrap_or_else(|| Err(timed_out())),
                None => attempt().await,
            };
            match run.end(ended) {
                Break(ended) => return ended,
                Continue(begin) => {
                    while let Some(rest) = run.rest(begin)? {
                        match self.clock {
                            Some(clock) => clock.sleep(rest),
                            None => drop(sleep(rest).await),
                        }
                    }
                }
            }
        }
    }
}

/// Returns what an attempt returns, or `None` if the limit ends before it.
async fn within<T>(attempt: impl Future<Output = T>, limit: impl Future) -> Option<T> {
    let (mut attempt, mut limit) = (pin!(attempt), pin!(limit));
    let first = poll_fn(|context| match attempt.as_mut().poll(context) {
        Poll::Ready(value) => Poll::Ready(Some(value)),
        Poll::Pending => limit.as_mut().poll(context).map(|_| None),
    });
    first.await
}

/// A clock from a moment on: the system's since an instant, or one with what it showed last.
enum Watch<'a> {
    System(Instant),
    Given(&'a dyn Clock, Duration),
}

impl<'a> Watch<'a> {
    // Each call makes one, and takes 6 % longer without it.
    #[inline]
    fn new(clock: Option<&'a dyn Clock>) -> Self {
        clock.map_or_else(|| Watch::System(Instant::now()), |it| Watch::Given(it, it.now()))
    }
}

/// One call: its schedule, the number of attempts so far, and when the last one began.
struct Run<'r, 'a, E> {
    of: &'r Retry<'a, E>,
    watch: Watch<'a>,
    // It begins at the first error. Most calls have none.
    schedule: Option<Schedule>,
    number: u64,
    began: Duration,
    elapsed: Duration,
    sleeps: u64,
    has_ended: bool,
}

impl<'r, 'a, E> Run<'r, 'a, E> {
    fn new(of: &'r Retry<'a, E>, watch: Watch<'a>) -> Self {
        let (zero, schedule) = (Duration::ZERO, None);
        Run { of, watch, schedule, number: 0, began: zero, elapsed: zero, sleeps: 0, has_ended: false }
    }

    /// Returns the time from the begin of the first attempt. A clock that falls counts as one that stood still.
    fn elapsed(&mut self) -> Duration {
        match &mut self.watch {
            Watch::System(start) => self.elapsed = start.elapsed(),
            Watch::Given(clock, shown) => {
                let now = clock.now();
                self.elapsed = self.elapsed.saturating_add(now.saturating_sub(*shown));
                *shown = now;
            }
        }
        self.elapsed
    }

    /// Notes that an attempt begins, at the moment of the last look at the clock.
    fn begin(&mut self) {
        (self.number, self.began, self.sleeps) = (self.number + 1, self.elapsed, 0);
    }

    /// Returns the time until the next attempt may begin, if that isn't now.
    fn rest(&mut self, begin: Duration) -> Result<Option<Duration>, Fault> {
        let rest = begin.saturating_sub(self.elapsed());
        if rest.is_zero() {
            return Ok(None);
        }
        self.sleeps += 1;
        if self.sleeps <= 1 + REPEATED {
            return Ok(Some(rest));
        }
        self.has_ended = true;
        Err(Kind::EarlySleeps.into())
    }

    /// Ends an attempt. Breaks with what the call returns, or continues with the begin of the next one.
    fn end<T>(&mut self, ended: Result<T, E>) -> ControlFlow<Result<T, Failed<E>>, Duration> {
        let error = match ended {
            Ok(value) => {
                self.of.budget.inspect(|it| it.add());
                if self.of.on_event.is_some() {
                    self.elapsed();
                }
                self.say(None, None, Some(Why::Succeeded));
                return Break(Ok(value));
            }
            Err(error) => error,
        };
        let ended = self.elapsed();
        match self.plan(ended, &error) {
            Err(fault) => {
                self.has_ended = true;
                Break(Err(fault.into()))
            }
            Ok(Break(why)) => {
                self.say(Some(&error), None, Some(why));
                Break(Err(Failed::Attempt(error)))
            }
            Ok(Continue(begin)) => {
                self.say(Some(&error), Some(begin.saturating_sub(ended)), None);
                Continue(begin)
            }
        }
    }

    /// Plans the next attempt after one that failed: when it begins, or why none follows.
    fn plan(&mut self, ended: Duration, error: &E) -> Result<ControlFlow<Why, Duration>, Fault> {
        let of = self.of;
        if !(of.when)(error) {
            return Ok(Break(Why::NotRetried));
        }
        let input = (of.input_of)(error);
        let least = of.retry_after.as_ref().and_then(|it| it(error)).unwrap_or_default();
        let turn = Turn { began: self.began, ended, input, least, ..of.turn };
        if of.budget.is_some_and(|it| !it.take()) {
            return Ok(Break(Why::Budget));
        }
        Ok(match self.schedule.get_or_insert_with(|| of.schedule.clone()).plan(turn)? {
            None => Break(Why::GaveUp),
            Some(begin) if begin > of.deadline => Break(Why::Deadline),
            Some(begin) => Continue(begin),
        })
    }

    fn say(&mut self, error: Option<&E>, wait: Option<Duration>, why: Option<Why>) {
        self.has_ended = why.is_some();
        if let Some(on_event) = &self.of.on_event {
            on_event(Event { number: self.number, error, elapsed: self.elapsed, wait, name: &self.of.name, why });
        }
    }
}

/// The call of a future that may be dropped.
struct Droppable<'r, 'a, E>(Run<'r, 'a, E>);

impl<E> Drop for Droppable<'_, '_, E> {
    /// Says that the call is cancelled: nothing but a panic ends it before its end.
    fn drop(&mut self) {
        if !self.0.has_ended && !std::thread::panicking() {
            self.0.elapsed();
            self.0.say(None, None, Some(Why::Cancelled));
        }
    }
}
