//! Journals as text, one event a line, for people to write and to read.
//!
//! ```text
//! calendar days 1-3 6 7          # or: calendar words 206
//! size 1,000
//! in own 5,000,000               # or: out client 5
//! rate 0 9,000                   # kind and rate; kind 32 may be called cash
//!
//! open
//! pledge 0 200                   # and freeze, withdraw: kind and units
//! post 3 term 7 price 3650 fallback 1000
//! initial 100 contract 7 price 3650 fallback 1000 due 4
//! initial 100 contract 8 price 3650 fallback 1000 due 4 product 3
//! early 50 contract 7 price 3000
//! pay
//! close
//! bytes 0e00000000000000 0000000000000000 0000000000000000 0000000000000000 0000000000000000
//! ```
//!
//! The calendar comes first and may go on over several lines. `bytes` is any
//! event as its 40 bytes, so that every well-formed journal has a text. An initial
//! trade's product is the number that is posted, 0 to 254 as far as the text goes;
//! its byte is the number plus 1, or 0 without one. A day may be a date wherever
//! it stands:
//!
//! ```text
//! calendar days 2026-11-16..2026-11-20 2026-11-23
//! initial 100 contract 7 price 3650 fallback 1000 due 2026-11-23
//! ```

mod calendar;
mod date;
mod entry;
mod error;
mod words;

use calendar::CalendarText;
pub use date::DaysAs;
pub use error::{Error, Problem};
use words::Words;

use crate::event::EVENT_BYTES;
use crate::journal::{self, Journal};
use crate::limits::JOURNAL_EVENTS;

/// The journal that a text says.
pub fn make(text: &str) -> Result<Vec<u8>, Error> {
    let mut draft = Draft::default();
    for (line, content) in (1..).zip(text.lines()) {
        draft.take(content).map_err(|problem| Error { line, problem })?;
    }
    let end = text.lines().count() + 1;
    let calendar = draft.calendar.ok_or(Error { line: end, problem: Problem::NoCalendar })?;
    Ok(journal::write(&calendar.words, &draft.events))
}

/// The text of a journal; `make` gives the same journal back, whichever way
/// days are shown. A day begins with an empty line.
pub fn show(journal: &Journal, days: DaysAs) -> String {
    let mut text = calendar::show(&journal.calendar, days);
    text.push('\n');
    for bytes in journal.events {
        let entry = entry::show(bytes, days);
        if entry == "open" && !text.ends_with("\n\n") {
            text.push('\n');
        }
        text.push_str(&entry);
        text.push('\n');
    }
    text
}

/// Bytes as text, or the line that is none.
pub fn decode(bytes: &[u8]) -> Result<&str, Error> {
    std::str::from_utf8(bytes).map_err(|stop| {
        let good = &bytes[..stop.valid_up_to()];
        let line = 1 + good.iter().filter(|&&byte| byte == b'\n').count();
        Error { line, problem: Problem::NotText }
    })
}

/// What the lines so far have said.
#[derive(Default)]
struct Draft {
    calendar: Option<CalendarText>,
    events: Vec<[u8; EVENT_BYTES]>,
}

impl Draft {
    fn take(&mut self, line: &str) -> Result<(), Problem> {
        let Some(mut words) = Words::of(line) else {
            return Ok(());
        };
        if words.name() == "calendar" {
            return self.take_calendar(&mut words);
        }
        let bytes = entry::read(&mut words)?;
        words.end()?;
        self.take_event(bytes)
    }

    fn take_calendar(&mut self, words: &mut Words) -> Result<(), Problem> {
        if !self.events.is_empty() {
            return Err(Problem::LateCalendar);
        }
        let form = calendar::form(words)?;
        let calendar = self.calendar.get_or_insert_with(|| CalendarText::begun(form));
        calendar.go_on(form, words)
    }

    fn take_event(&mut self, bytes: [u8; EVENT_BYTES]) -> Result<(), Problem> {
        if self.calendar.is_none() {
            return Err(Problem::NoCalendar);
        }
        if self.events.len() == JOURNAL_EVENTS {
            return Err(Problem::TooManyEvents);
        }
        self.events.push(bytes);
        Ok(())
    }
}
