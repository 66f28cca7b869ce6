//! Retries by the proved schedules of zsched.
//!
//! ```
//! use std::time::Duration;
//! use zsched::{Schedule, Turn};
//!
//! let mut schedule = Schedule::new("(exponential(100) && recurs(5))")?;
//! let turn = Turn { ended: Duration::from_millis(7), input: 503, ..Turn::default() };
//! assert_eq!(schedule.plan(turn)?, Some(Duration::from_millis(107)));
//! # Ok::<(), zsched::Fault>(())
//! ```
//!
//! [`Schedule`] doesn't sleep: it returns when the next attempt may begin. `retry` and `Retry` sleep
//! until then, and `Retry::bounds` returns how often and how long one retries at most. What the
//! library returns is proved, the sleeping is not.
//!
//! Without the feature `std`, which is on by default, everything but the retries is available, over
//! `alloc`.

#![cfg_attr(not(feature = "std"), no_std)]

extern crate alloc;

use alloc::borrow::ToOwned;
use alloc::string::String;
use alloc::sync::Arc;
use alloc::vec;
use alloc::vec::Vec;
use core::time::Duration;

#[cfg(feature = "std")]
mod clock;
mod fault;
#[cfg(feature = "std")]
mod retries;
#[cfg(feature = "std")]
pub use clock::{retry_after_of, Clock, TestClock};
pub use fault::{Fault, Kind};
#[cfg(feature = "std")]
pub use retries::{retry, Budget, Event, Failed, Guard, Retry, Why, DEFAULT};

/// The snippets of the page are tests.
#[cfg(all(doctest, feature = "std"))]
#[doc = include_str!("../README.md")]
mod page {}

#[repr(C)]
struct RawTurn {
    size: u64,
    began: u64,
    ended: u64,
    input: u64,
    least: u64,
    longest: u64,
    percent: u32,
    draw: u32,
}

#[rustfmt::skip]
extern "C" {
    fn zs_bounds(text: *const u8, text_len: usize, driver: *const [u64; 8], steps: u64, bounds: *mut [u64; 10],
        at: *mut u64) -> u32;
    fn zs_program_size(text: *const u8, text_len: usize, size: *mut usize, state_size: *mut usize, at: *mut u64) -> u32;
    fn zs_compile(text: *const u8, text_len: usize, program: *mut u64, program_len: usize, at: *mut u64) -> u32;
    fn zs_program_begin(program: *const u64, program_len: usize, state: *mut u64, state_len: usize) -> u32;
    fn zs_plan(program: *const u64, program_len: usize, state: *mut u64, state_len: usize, turn: *const RawTurn,
        begin: *mut u64) -> u32;
    fn zs_program_step(program: *const u64, program_len: usize, state: *mut u64, state_len: usize, moment: u64,
        input: u64, next: *mut u64, visits: *mut u64) -> u32;
    fn zs_output(program: *const u64, program_len: usize, state: *const u64, state_len: usize, out: *mut u8,
        out_len: usize, size: *mut usize) -> u32;
    fn zs_strerror(number: u32, at: u64, out: *mut u8, out_len: usize) -> usize;
    fn zs_version() -> u32;
}

/// Returns whether a call returned that the schedule continues, or the fault that it returned, of a text
/// if it got one.
fn continues(number: u32, at: u64, text: Option<&str>) -> Result<bool, Fault> {
    match number {
        0 | 1 => Ok(number == 0),
        _ => Err(Fault::of(number, at, text)),
    }
}

/// Returns the version of the library as one number: 1000000 * major + 1000 * minor + patch.
pub fn version() -> u32 {
    // SAFETY: the call takes no argument.
    unsafe { zs_version() }
}

/// Returns a share as whole percent, if it is from 0 to 1.
fn percent(share: f64) -> Option<u32> {
    (0.0..=1.0).contains(&share).then_some((share * 100.0 + 0.5) as u32)
}

/// What a schedule does for every input, if no moment is above 999999999999999 ms.
#[derive(Clone, Copy, Debug, PartialEq, Eq)]
pub struct Bounds {
    /// The number of attempts that were examined.
    pub seen: u64,
    /// The schedule isn't done before this attempt: 1 with a budget or a deadline. An error that isn't
    /// retried may end a call before.
    pub least: u64,
    /// The number of attempts at most; `None` if there is no bound.
    pub most: Option<u64>,
    /// The longest wait after the attempts that were examined.
    pub longest: Duration,
    /// All waits together at most; `None` if there is no bound.
    pub total: Option<Duration>,
    /// Each attempt ends at most this long after the begin of the first; `None` if there is no bound.
    pub longest_run: Option<Duration>,
}

impl Bounds {
    /// Returns whether there are at most `most` attempts, and `total` of waits together.
    pub fn within(&self, most: u64, total: Duration) -> bool {
        self.most.is_some_and(|it| it <= most) && self.total.is_some_and(|it| it <= total)
    }

    /// Returns whether each call ends within `run`, attempts and waits together.
    pub fn ends_within(&self, run: Duration) -> bool {
        self.longest_run.is_some_and(|it| it <= run)
    }
}

/// Returns the bounds of a text's schedule, of which at most the first 1,000 attempts are examined. They
/// take 1 millisecond or more, and waits are the schedule's. Fails with the fault of the text.
///
/// `Retry::bounds` returns those of a retry with its options. Texts with lists have bounds too.
///
/// ```
/// use std::time::Duration;
///
/// assert!(zsched::bounds("(exponential(100) && recurs(5))")?.within(6, Duration::from_millis(3100)));
/// # Ok::<(), zsched::Fault>(())
/// ```
pub fn bounds(text: &str) -> Result<Bounds, Fault> {
    bounds_of(text, 1000, [1, 0, 0, 100, 100, 0, 0])
}

/// Returns the bounds for a driver, which has the fields of zsched.h after its size.
fn bounds_of(text: &str, steps: u64, driver: [u64; 7]) -> Result<Bounds, Fault> {
    let (mut words, mut found, mut at) = ([64; 8], [80, 0, 0, 0, 0, 0, 0, 0, 0, 0], 0);
    words[1..].copy_from_slice(&driver);
    // SAFETY: the pointer and the length are those of a text that is borrowed for the call, and the
    // others are variables.
    let number = unsafe { zs_bounds(text.as_ptr(), text.len(), &words, steps, &mut found, &mut at) };
    continues(number, at, Some(text).filter(|_| number != Kind::NoDriver as u32))?;
    let [_, seen, least, has_most, most, longest, has_total, total, has_longest_run, longest_run] = found;
    let (longest, limit) =
        (Duration::from_millis(longest), |has, value| (has == 1).then(|| Duration::from_millis(value)));
    let (total, longest_run) = (limit(has_total, total), limit(has_longest_run, longest_run));
    Ok(Bounds { seen, least, most: (has_most == 1).then_some(most), longest, total, longest_run })
}

/// One failed attempt of a loop, by the loop's clock.
///
/// By default it began and ended at 0, and the longest least wait is an hour.
#[derive(Clone, Copy, Debug, PartialEq)]
pub struct Turn {
    /// When the attempt began, from the begin of the first attempt.
    pub began: Duration,
    /// When it ended. If that is before `began`, the clock fell, and counts as one that stood still.
    pub ended: Duration,
    /// The input of the schedule: the error's code, or any number.
    pub input: u64,
    /// The least wait that a service asked for, as by `Retry-After`: rounded up to milliseconds.
    pub least: Duration,
    /// The longest least wait that counts: rounded down to milliseconds.
    pub longest: Duration,
    /// The share of the schedule's wait that jitter may take off, from 0 to 1, in whole percent.
    pub jitter: f64,
    /// How much of that jitter takes off, as a fraction of 2^32: `None` is random, and 0 without the
    /// feature `std`.
    pub draw: Option<u32>,
}

impl Default for Turn {
    fn default() -> Turn {
        let (zero, hour) = (Duration::ZERO, Duration::from_secs(3600));
        Turn { began: zero, ended: zero, input: 0, least: zero, longest: hour, jitter: 0.0, draw: None }
    }
}

/// Returns 32 random bits: each `RandomState` has other keys.
#[cfg(feature = "std")]
fn random() -> u32 {
    use std::hash::{BuildHasher, RandomState};
    RandomState::new().hash_one(0) as u32
}

#[cfg(not(feature = "std"))]
fn random() -> u32 {
    0
}

/// Returns a number, or the largest of 64 bits if it has more.
fn saturate(number: u128) -> u64 {
    number.try_into().unwrap_or(u64::MAX)
}

/// A schedule and its state, whose size depends on the text alone.
///
/// So a step takes no longer after many steps than after one. The text is compiled once: clones share
/// the program, and each has its own state.
///
/// ```
/// use zsched::{Kind, Schedule};
///
/// let mut schedule = Schedule::new("(exponential(100) && recurs(5))")?;
/// assert_eq!(schedule.after(7, 503)?, Some(107));
/// assert_eq!(schedule.output()?, "(100,0)");
/// assert_eq!(schedule.after(6, 503), Err(Kind::Falls.into()));
/// let mut again = Schedule::resume(schedule.text(), schedule.state())?;
/// assert_eq!(again.after(107, 503)?, Some(307));
/// assert_eq!(again.fresh().after(7, 503)?, Some(107));
/// assert_eq!(Schedule::resume("(spaced(100) && recurs(5))", again.state()), Err(Kind::OtherState.into()));
/// assert_eq!(Schedule::new("forever.collectAll").map_err(|it| it.kind()), Err(Kind::KeepsList));
/// assert!(Schedule::new("forever.collectAll.map(size)").is_ok());
/// # Ok::<(), zsched::Fault>(())
/// ```
#[derive(Clone, Debug, PartialEq, Eq)]
pub struct Schedule {
    // Its text and its program.
    of: Arc<(String, Vec<u64>)>,
    state: Vec<u64>,
}

impl Schedule {
    /// Returns the schedule of a text, before its first step. Fails with the fault of the text.
    pub fn new(text: &str) -> Result<Schedule, Fault> {
        let (mut size, mut state_size, mut at) = (0, 0, 0);
        // SAFETY: the pointer and the length are those of a text that is borrowed for the call, and
        // the others are variables.
        let number = unsafe { zs_program_size(text.as_ptr(), text.len(), &mut size, &mut state_size, &mut at) };
        continues(number, at, Some(text))?;
        let mut program = vec![0; size];
        // SAFETY: as above, and the words are borrowed for the call.
        let number = unsafe { zs_compile(text.as_ptr(), text.len(), program.as_mut_ptr(), size, &mut at) };
        continues(number, at, Some(text))?;
        Ok(Schedule { of: Arc::new((text.to_owned(), program)), state: vec![0; state_size] }.fresh())
    }

    /// Returns the schedule of a text with a state that `state` returned. Fails with the fault of the
    /// text, `OtherVersion` or `OtherState`.
    ///
    /// Words that were changed after those that identify it aren't detected.
    pub fn resume(text: &str, state: &[u64]) -> Result<Schedule, Fault> {
        let (schedule, mut size) = (Schedule::new(text)?, 0);
        let (program, len) = (&schedule.of.1, state.len());
        // SAFETY: the pointers and lengths are those of words that are borrowed for the call, and no byte
        // is written to a buffer of length 0.
        let number = unsafe {
            let none = core::ptr::null_mut();
            zs_output(program.as_ptr(), program.len(), state.as_ptr(), len, none, 0, &mut size)
        };
        match number {
            0 | 2 if len == schedule.state.len() => Ok(Schedule { state: state.to_owned(), ..schedule }),
            18 => Err(Kind::OtherVersion.into()),
            _ => Err(Kind::OtherState.into()),
        }
    }

    /// Returns a schedule of the same program, before its first step.
    pub fn fresh(&self) -> Schedule {
        let (of, mut state) = (self.of.clone(), vec![0; self.state.len()]);
        // SAFETY: the pointers and lengths are those of words that are borrowed for the call.
        let number = unsafe { zs_program_begin(of.1.as_ptr(), of.1.len(), state.as_mut_ptr(), state.len()) };
        continues(number, 0, None).expect("a program and the size of its state");
        Schedule { of, state }
    }

    /// Returns the text.
    pub fn text(&self) -> &str {
        &self.of.0
    }

    /// Returns the words of the state.
    ///
    /// Their number depends on the text alone. The first ones identify the schedule.
    pub fn state(&self) -> &[u64] {
        &self.state
    }

    /// Makes a step at the end of a loop's attempt, and plans the next one. Returns when it may begin,
    /// from the begin of the first attempt; `None` if the loop gives up.
    ///
    /// A loop makes at most `most` attempts, by the bounds of a driver with such jitter and least waits:
    /// whatever its clock does, also by a state that was stored. Without jitter no attempt is planned
    /// before the schedule's moment. Fails with `Falls` only after `None` or a step by `after`, and then
    /// is unchanged. Panics if the jitter isn't from 0 to 1.
    pub fn plan(&mut self, turn: Turn) -> Result<Option<Duration>, Fault> {
        let (program, state, mut begin) = (&self.of.1, &mut self.state, 0);
        let turn = RawTurn {
            size: size_of::<RawTurn>() as u64,
            began: saturate(turn.began.as_nanos()),
            ended: saturate(turn.ended.as_nanos()),
            input: turn.input,
            least: saturate(turn.least.as_nanos().div_ceil(1_000_000)),
            longest: saturate(turn.longest.as_millis()),
            percent: percent(turn.jitter).expect("zsched: a jitter is from 0 to 1"),
            draw: turn.draw.unwrap_or_else(random),
        };
        // SAFETY: the pointers and lengths are those of words that are borrowed for the call, and the
        // others are variables. Only the state is borrowed mutably, so they overlap nothing.
        let number =
            unsafe { zs_plan(program.as_ptr(), program.len(), state.as_mut_ptr(), state.len(), &turn, &mut begin) };
        Ok(continues(number, 0, None)?.then_some(Duration::from_nanos(begin)))
    }

    /// Makes a step at a moment in milliseconds and with an input. Returns the moment at which the next
    /// attempt may begin, in milliseconds; `None` if the schedule is done.
    ///
    /// Fails with `Falls`, and then is unchanged. A loop that retries needs `plan` instead.
    pub fn after(&mut self, moment: u64, input: u64) -> Result<Option<u64>, Fault> {
        let (program, state, mut next, mut visits) = (&self.of.1, &mut self.state, 0, 0);
        let (words, len) = (state.as_mut_ptr(), state.len());
        // SAFETY: as in `plan`.
        let number = unsafe {
            zs_program_step(program.as_ptr(), program.len(), words, len, moment, input, &mut next, &mut visits)
        };
        Ok(continues(number, 0, None)?.then_some(next))
    }

    /// Returns the text of the last step's output. Fails with `NoStep` before the first step.
    pub fn output(&self) -> Result<String, Fault> {
        let (program, state, mut out, mut size) = (&self.of.1, &self.state, vec![0; 64], 0);
        loop {
            let (room, len) = (out.as_mut_ptr(), out.len());
            // SAFETY: as in `plan`, but only `out` and `size` are borrowed mutably.
            let number = unsafe {
                zs_output(program.as_ptr(), program.len(), state.as_ptr(), state.len(), room, len, &mut size)
            };
            continues(number, 0, None)?;
            if size < len {
                out.truncate(size);
                return Ok(String::from_utf8(out).expect("an output's text is ASCII"));
            }
            out.resize(size + 1, 0);
        }
    }
}
