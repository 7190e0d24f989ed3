//! The journal: its two sections, and the listing that `daybook` prints.

use std::fmt::{self, Write};

use crate::answer::{Answer, Refusal};
use crate::book::{Book, Trade};
use crate::event::EVENT_BYTES;
use crate::limits::{CALENDAR_WORDS, JOURNAL_CAPACITY, JOURNAL_EVENTS};
use crate::step::run;

pub const JOURNAL_REFUSED: &str = "journal refused\n";

#[derive(Clone, Debug, PartialEq, Eq)]
pub struct Journal<'a> {
    pub calendar: Vec<u32>,
    pub events: &'a [[u8; EVENT_BYTES]],
}

/// "malformed is only a count past its limit, an early end, or bytes left over."
pub fn parse(bytes: &[u8]) -> Result<Journal<'_>, Refusal> {
    let mut reader = Reader { rest: bytes };
    let words = reader.section::<4>(CALENDAR_WORDS)?;
    let events = reader.section::<EVENT_BYTES>(JOURNAL_EVENTS)?;
    Refusal::MalformedJournal.when(!reader.rest.is_empty())?;
    let calendar = words.iter().map(|&word| u32::from_le_bytes(word)).collect();
    Ok(Journal { calendar, events })
}

/// What `daybook` prints for a journal, on a fresh book with capacity 1,024.
pub fn listing(bytes: &[u8]) -> String {
    match parse(bytes) {
        Ok(journal) => list(&journal),
        Err(_) => JOURNAL_REFUSED.to_string(),
    }
}

fn list(journal: &Journal) -> String {
    let mut text = String::with_capacity(64 * journal.events.len());
    let mut place = 0;
    run_fresh(&journal.calendar, journal.events, |_, line| {
        place += 1;
        writeln!(text, "{place} {line}").expect("a String takes any text");
    });
    text
}

/// A run "on a fresh book with capacity 1,024"; `each` sees every event and what is told of it.
pub fn run_fresh(
    calendar: &[u32],
    events: &[[u8; EVENT_BYTES]],
    mut each: impl FnMut(&[u8; EVENT_BYTES], Line),
) {
    let mut book = Book::fresh();
    let mut table = vec![Trade::default(); JOURNAL_CAPACITY];
    run(calendar, &mut book, &mut table, events, |event, answer, book, table| {
        each(event, Line::after(answer, book, table));
    });
}

/// What the listing tells of one event, after its place.
#[derive(Clone, Copy, Debug, PartialEq, Eq)]
pub struct Line {
    pub answer: u32,
    pub headroom: i64,
    pub outstanding: u64,
    pub own: u64,
    pub client: u64,
    /// Effective and arriving.
    pub guarantee: u64,
}

impl Line {
    pub fn after(answer: Answer, book: &Book, table: &[Trade]) -> Line {
        let outstanding = book.outstanding(table);
        Line {
            answer: answer.number,
            headroom: book.headroom_over(outstanding),
            outstanding,
            own: book.own,
            client: book.client,
            guarantee: book.guarantee(),
        }
    }
}

/// "one space between, a minus sign before a negative headroom."
impl fmt::Display for Line {
    fn fmt(&self, f: &mut fmt::Formatter) -> fmt::Result {
        let Line { answer, headroom, outstanding, own, client, guarantee } = self;
        write!(f, "{answer} {headroom} {outstanding} {own} {client} {guarantee}")
    }
}

/// Keeps its place by what is still to be read.
struct Reader<'a> {
    rest: &'a [u8],
}

impl<'a> Reader<'a> {
    /// A 32-bit count, at most `limit`, and so many items of `SIZE` bytes.
    fn section<const SIZE: usize>(&mut self, limit: usize) -> Result<&'a [[u8; SIZE]], Refusal> {
        let Some((count, rest)) = self.rest.split_first_chunk() else {
            return Err(Refusal::MalformedJournal);
        };
        let count = u32::from_le_bytes(*count) as usize;
        Refusal::MalformedJournal.when(count > limit)?;
        let Some((section, rest)) = rest.split_at_checked(SIZE * count) else {
            return Err(Refusal::MalformedJournal);
        };
        self.rest = rest;
        Ok(section.as_chunks().0)
    }
}

/// The bytes of a journal; `parse` reads them back.
pub fn write(calendar: &[u32], events: &[[u8; EVENT_BYTES]]) -> Vec<u8> {
    let mut bytes = Vec::with_capacity(8 + 4 * calendar.len() + EVENT_BYTES * events.len());
    bytes.extend((calendar.len() as u32).to_le_bytes());
    bytes.extend(calendar.iter().flat_map(|word| word.to_le_bytes()));
    bytes.extend((events.len() as u32).to_le_bytes());
    bytes.extend_from_slice(events.as_flattened());
    bytes
}
