//! Why a call failed, and what to write in place of a wrong text.
use crate::zs_strerror;
use alloc::borrow::ToOwned;
use alloc::boxed::Box;
use alloc::string::String;
use alloc::vec::Vec;
use core::fmt;

/// What is wrong. But for the first one, its number is that of `zsched.h`.
#[derive(Clone, Copy, Debug, PartialEq, Eq)]
pub enum Kind {
    /// A hundred sleeps in a row ended early: in tests, `Retry::clock` takes a clock that they move.
    EarlySleeps = 0,
    /// The schedule made no step yet, so it has no output.
    NoStep = 2,
    /// The moment is below that of the last step.
    Falls = 3,
    /// An allocation failed.
    Memory = 5,
    /// The output has a list, by `collectAll`, so the state would grow with the steps.
    KeepsList = 6,
    /// The words are no program of this version of the library.
    NoProgram = 8,
    /// The words of a state are those of another schedule.
    OtherState = 9,
    /// The shortest attempt is longer than the longest one.
    NoDriver = 10,
    /// The text spells no schedule, found at the byte `at`.
    NoTerm = 11,
    /// The schedule is deeper than 64 or weighs more than 1,000.
    TooBig = 12,
    /// The number that begins at the byte `at` is above `u64::MAX`.
    BadNumber = 13,
    /// A factor of an `exponential` is 0.
    BadFactor = 14,
    /// A pick or a function doesn't fit the output that it is applied to.
    NoKind = 15,
    /// A window of a `windowed` is 0.
    BadWindow = 16,
    /// The library that is linked is of another version.
    OtherSize = 17,
    /// The words are no state of this version of the library.
    OtherVersion = 18,
}

#[rustfmt::skip]
const KINDS: [Kind; 16] = [
    Kind::EarlySleeps, Kind::NoStep, Kind::Falls, Kind::Memory, Kind::KeepsList, Kind::NoProgram, Kind::OtherState,
    Kind::NoDriver, Kind::NoTerm, Kind::TooBig, Kind::BadNumber, Kind::BadFactor, Kind::NoKind, Kind::BadWindow,
    Kind::OtherSize, Kind::OtherVersion,
];
/// The words of the grammar, in its order.
#[rustfmt::skip]
const WORDS: [&str; 19] = [
    "forever", "recurs", "spaced", "fixed", "exponential", "fibonacci", "identity", "elapsed", "linear", "windowed",
    "andThenEither", "whileInput", "whileOutput", "collectAll", "map", "resetWhen", "size", "merge", "as",
];
/// How many bytes of a text are shown at most, and how many of them before the fault.
const SHOWN: usize = 80;
const BEFORE: usize = 40;

/// The error of a call. That of a wrong text shows the text, a mark below its fault, and what to
/// write there, if that is known.
///
/// ```
/// let fault = zsched::Schedule::new("exponential(100) && recurs(5)").expect_err("no parentheses");
/// assert_eq!(fault.to_string(), r#"no term at byte 17: "&&" stands in parentheses: (A && B)
/// exponential(100) && recurs(5)
///                  ^"#);
/// ```
#[derive(Clone, Debug, PartialEq, Eq)]
pub struct Fault {
    kind: Kind,
    at: u64,
    text: Option<Box<str>>,
}

impl Fault {
    /// Returns the fault of a number that a call returned, with its place and the text, if it is one's.
    pub(crate) fn of(number: u32, at: u64, text: Option<&str>) -> Fault {
        let kind = KINDS.into_iter().find(|it| *it as u32 == number && number > 0);
        let kind = kind.unwrap_or_else(|| unreachable!("libzsched returned {number}"));
        Fault { kind, at, text: text.map(Into::into) }
    }

    /// Returns what is wrong.
    pub fn kind(&self) -> Kind {
        self.kind
    }

    /// Returns the byte of the text at which `NoTerm` or `BadNumber` was found.
    pub fn at(&self) -> Option<u64> {
        matches!(self.kind, Kind::NoTerm | Kind::BadNumber).then_some(self.at)
    }

    /// Returns the text that is wrong, if one is.
    pub fn text(&self) -> Option<&str> {
        self.text.as_deref()
    }
}

impl From<Kind> for Fault {
    fn from(kind: Kind) -> Fault {
        Fault { kind, at: 0, text: None }
    }
}

impl fmt::Display for Fault {
    /// Writes the library's words, and for a text a hint, the text and a mark below its fault.
    fn fmt(&self, f: &mut fmt::Formatter<'_>) -> fmt::Result {
        if self.kind == Kind::EarlySleeps {
            return f.write_str("zsched: 100 sleeps ended early: in tests set Retry::clock, to a TestClock say");
        }
        let mut out = [0; 80];
        // SAFETY: the pointer and the length are those of an array that is borrowed for the call.
        let size = unsafe { zs_strerror(self.kind as u32, self.at, out.as_mut_ptr(), out.len()) };
        f.write_str(core::str::from_utf8(&out[..size.min(out.len())]).map_err(|_| fmt::Error)?)?;
        let Some(text) = self.text() else { return Ok(()) };
        let (text, at) = (text.as_bytes(), self.at().map(|it| (it as usize).min(text.len())));
        let place = at.filter(|_| self.kind == Kind::NoTerm);
        if let Some(hint) = place.and_then(|at| hint(&text[..at], &text[at..])) {
            write!(f, ": {hint}")?;
        }
        let from = at.unwrap_or(0).saturating_sub(BEFORE).min(text.len().saturating_sub(SHOWN));
        let printed = |byte: &u8| if (b' '..=b'~').contains(byte) { char::from(*byte) } else { '?' };
        let shown: String = text[from..].iter().take(SHOWN).map(printed).collect();
        write!(f, "\n{shown}")?;
        at.map_or(Ok(()), |at| write!(f, "\n{:>1$}", '^', at - from + 1))
    }
}

impl core::error::Error for Fault {}

/// Returns what to write in a text with these bytes before its fault and these after it.
fn hint(before: &[u8], rest: &[u8]) -> Option<String> {
    let count = |wanted| before.iter().filter(|it| **it == wanted).count();
    let operator = ["&&", "||", "andThenEither"].into_iter().find(|it| rest.starts_with(it.as_bytes()));
    if let (Some(it), true) = (operator, count(b'(') == count(b')')) {
        return Some(alloc::format!("\"{it}\" stands in parentheses: (A {it} B)"));
    }
    let is_digit = |byte: Option<&u8>| byte.is_some_and(u8::is_ascii_digit);
    if rest.first() == Some(&b'.') && is_digit(before.last()) && is_digit(rest.get(1)) {
        return Some("whole milliseconds, without a point".to_owned());
    }
    if rest.is_empty() {
        return Some("the text ends too early".to_owned());
    }
    let length = rest.iter().take_while(|it| it.is_ascii_alphabetic()).count();
    let nearest = WORDS.into_iter().min_by_key(|it| edits(&rest[..length], it.as_bytes()))?;
    let is_near = (1..=2).contains(&edits(&rest[..length], nearest.as_bytes())) && length > 0;
    is_near.then(|| alloc::format!("did you mean \"{nearest}\"?"))
}

/// Returns how many letters have to be inserted, removed or replaced to make one word of another.
fn edits(one: &[u8], other: &[u8]) -> usize {
    let mut row: Vec<usize> = (0..=other.len()).collect();
    for (i, letter) in one.iter().enumerate() {
        let mut corner = i;
        row[0] = i + 1;
        for (j, wanted) in other.iter().enumerate() {
            let replaced = corner + usize::from(letter != wanted);
            corner = row[j + 1];
            row[j + 1] = replaced.min(row[j] + 1).min(corner + 1);
        }
    }
    row[other.len()]
}
