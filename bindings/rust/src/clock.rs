//! Clocks of retries, one for tests, and the time that a server asks for.
use std::sync::{Mutex, PoisonError};
use std::time::{Duration, SystemTime};

/// A clock, and how to sleep by it.
pub trait Clock: Send + Sync {
    /// Returns the time since any moment, which is the same for all calls.
    fn now(&self) -> Duration;

    /// Waits for a time. If it ends early, it is called again, at most 100 times in a row.
    fn sleep(&self, time: Duration);
}

/// A clock for tests, which only sleeps and `advance` move: a retry by it waits for nothing.
///
/// ```
/// use std::time::Duration;
/// use zsched::{Clock, Retry, TestClock};
///
/// let clock = TestClock::new();
/// let retry = Retry::new("(spaced(3600000) && recurs(2))")?.clock(&clock);
/// assert!(retry.call(|| Err::<(), u64>(503)).is_err());
/// assert_eq!(clock.now(), Duration::from_millis(2 * 3600_001));
/// # Ok::<(), zsched::Fault>(())
/// ```
#[derive(Debug, Default)]
pub struct TestClock(Mutex<Duration>);

impl TestClock {
    /// Returns a clock at 0.
    pub const fn new() -> TestClock {
        TestClock(Mutex::new(Duration::ZERO))
    }

    /// Moves it on, for an attempt that takes so long say.
    pub fn advance(&self, time: Duration) {
        let mut now = self.0.lock().unwrap_or_else(PoisonError::into_inner);
        *now = now.saturating_add(time);
    }
}

impl Clock for TestClock {
    fn now(&self) -> Duration {
        *self.0.lock().unwrap_or_else(PoisonError::into_inner)
    }

    fn sleep(&self, time: Duration) {
        self.advance(time);
    }
}

/// Returns how long a header `Retry-After` asks to wait: its seconds, or the time until its date, 0 if
/// that is over. Anything else is `None`.
///
/// ```
/// use std::time::{Duration, UNIX_EPOCH};
/// use zsched::retry_after_of;
///
/// let now = UNIX_EPOCH + Duration::from_secs(784_111_770);
/// assert_eq!(retry_after_of("120", now), Some(Duration::from_secs(120)));
/// assert_eq!(retry_after_of("Sun, 06 Nov 1994 08:49:37 GMT", now), Some(Duration::from_secs(7)));
/// assert_eq!(retry_after_of("soon", now), None);
/// ```
pub fn retry_after_of(header: &str, now: SystemTime) -> Option<Duration> {
    let header = header.trim();
    if !header.is_empty() && header.bytes().all(|it| it.is_ascii_digit()) {
        return header.parse().ok().map(Duration::from_secs);
    }
    let date = SystemTime::UNIX_EPOCH.checked_add(Duration::from_secs(seconds_of(header)?))?;
    Some(date.duration_since(now).unwrap_or_default())
}

/// Returns the seconds from 1970 to a date of HTTP: `Sun, 06 Nov 1994 08:49:37 GMT`.
fn seconds_of(date: &str) -> Option<u64> {
    const MONTHS: &str = "JanFebMarAprMayJunJulAugSepOctNovDec";
    let number = |from: usize, to: usize| {
        let digits = date.get(from..to).filter(|it| it.bytes().all(|byte| byte.is_ascii_digit()))?;
        digits.parse::<u64>().ok()
    };
    let month = MONTHS.find(date.get(8..11)?).filter(|it| it % 3 == 0)? as u64 / 3 + 1;
    let (day, year, hour, minute, second) =
        (number(5, 7)?, number(12, 16)?, number(17, 19)?, number(20, 22)?, number(23, 25)?);
    let is_well = date.is_ascii()
        && date.get(..3)?.bytes().all(|it| it.is_ascii_alphabetic())
        && [date.get(3..5)?, date.get(7..8)?, date.get(11..12)?, date.get(16..17)?].concat() == ",    "
        && [date.get(19..20)?, date.get(22..23)?, date.get(25..)?].concat() == ":: GMT"
        && (1..=31).contains(&day)
        && year >= 1970
        && hour < 24
        && minute < 60
        && second <= 60;
    // Years that begin in March have the leap day at their end.
    let (year, month) = if month > 2 { (year, month - 3) } else { (year - 1, month + 9) };
    let days = 365 * year + year / 4 - year / 100 + year / 400 + (153 * month + 2) / 5 + day - 1;
    (is_well).then(|| (days.saturating_sub(719_468)) * 86_400 + hour * 3600 + minute * 60 + second)
}
