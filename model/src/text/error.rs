//! Why a text is no journal.

use std::fmt;

use crate::limits::{CALENDAR_WORDS, FIRST_YEAR, JOURNAL_EVENTS, LAST_YEAR};

/// The first line that cannot be taken, from 1, and why.
#[derive(Clone, Debug, PartialEq, Eq)]
pub struct Error {
    pub line: usize,
    pub problem: Problem,
}

#[derive(Clone, Debug, PartialEq, Eq)]
pub enum Problem {
    /// The first word of a line is none that a line may begin with.
    NoSuchEvent(String),
    /// `name` has not what it needs, but the end of the line or another word.
    Needs {
        name: String,
        what: &'static str,
        found: Option<String>,
    },
    /// A number past what its place can hold.
    PastMost {
        what: &'static str,
        found: String,
        most: u64,
    },
    /// A word after everything that `name` needs.
    LeftOver {
        name: String,
        found: String,
    },
    /// So many hexadecimal digits are no event.
    DigitCount(usize),
    /// Numbers and hyphens that look like a date, but are not written as one.
    DateForm(String),
    NoSuchDate(String),
    /// A day of the calendar that is not after the day before it, both as they are written.
    NotRising {
        day: String,
        last: String,
    },
    TwoForms,
    TooManyWords,
    TooManyEvents,
    LateCalendar,
    NoCalendar,
    NotText,
}

impl std::error::Error for Error {}

impl fmt::Display for Error {
    fn fmt(&self, f: &mut fmt::Formatter) -> fmt::Result {
        write!(f, "line {}: {}", self.line, self.problem)
    }
}

impl fmt::Display for Problem {
    fn fmt(&self, f: &mut fmt::Formatter) -> fmt::Result {
        match self {
            Problem::NoSuchEvent(found) => write!(
                f,
                "expected calendar, open, in, out, size, rate, pledge, freeze, withdraw, initial, early, pay, \
                 close, post or bytes, found `{found}`"
            ),
            Problem::Needs { name, what, found: None } => write!(f, "{name} needs {what}"),
            Problem::Needs { name, what, found: Some(found) } => {
                write!(f, "{name} needs {what}, found `{found}`")
            }
            Problem::PastMost { what, found, most } => write!(f, "{what} is at most {most}, found {found}"),
            Problem::LeftOver { name, found } => write!(f, "{name} takes nothing more, found `{found}`"),
            Problem::DigitCount(digits) => write!(f, "bytes needs 80 hexadecimal digits, found {digits}"),
            Problem::DateForm(found) => write!(f, "a date is written as 2026-11-23, found `{found}`"),
            Problem::NoSuchDate(found) => {
                write!(f, "there is no date {found} from {FIRST_YEAR} to {LAST_YEAR}")
            }
            Problem::NotRising { day, last } => write!(f, "days rise, but {day} stands after {last}"),
            Problem::TwoForms => write!(f, "a calendar is given in words or in days, not in both"),
            Problem::TooManyWords => write!(f, "a calendar has at most {CALENDAR_WORDS} words"),
            Problem::TooManyEvents => write!(f, "a journal has at most {JOURNAL_EVENTS} events"),
            Problem::LateCalendar => write!(f, "the calendar stands before all events"),
            Problem::NoCalendar => write!(f, "a calendar is needed first, such as `calendar days 1-3 6 7`"),
            Problem::NotText => write!(f, "this is not UTF-8 text"),
        }
    }
}
