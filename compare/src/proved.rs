//! The proved calls of the archive, each behind a safe function. The
//! declarations repeat `crates/exports`; nothing checks one against the other.

pub mod book;
pub mod lent;

use model::dates::Date;
use model::event::EVENT_BYTES;
use model::journal::Line;

#[repr(C)]
#[derive(Clone, Copy, Debug, PartialEq, Eq)]
struct Fen(u64);
#[repr(C)]
#[derive(Clone, Copy, Debug, PartialEq, Eq)]
struct Sheets(u64);
#[repr(C)]
#[derive(Clone, Copy, Debug, PartialEq, Eq)]
struct Ticks(u32);

#[repr(C)]
struct Amount {
    number: u8,
    fen: Fen,
}
#[repr(C)]
struct Worth {
    number: u8,
    sheets: Sheets,
}
#[repr(C)]
struct Found {
    number: u8,
    day: u32,
}
#[repr(C)]
struct Dated {
    number: u8,
    year: u32,
    month: u32,
    day: u32,
}
#[repr(C)]
struct Written {
    number: u8,
    length: usize,
}

// A lent slice is its pointer and its length.
extern "C" {
    fn money_initial(q: Sheets) -> Amount;
    fn money_redemption(q: Sheets, price: Ticks, days: u32) -> Amount;
    fn money_kind_worth(kind: u8, effective: u64, frozen: u64, rate: u64) -> Worth;
    fn money_trades_on(calendar: *const u32, words: usize, day: u32) -> bool;
    fn money_at_or_after(calendar: *const u32, words: usize, day: u32) -> Found;
    fn money_next_after(calendar: *const u32, words: usize, day: u32) -> Found;
    fn money_earliest_day(calendar: *const u32, words: usize) -> Found;
    fn money_day_of(year: u32, month: u32, day: u32) -> Found;
    fn money_date_of(day: u32) -> Dated;
    fn book_run_listing(
        calendar: *const u32,
        words: usize,
        events: *const u8,
        bytes: usize,
        lines: *mut u64,
        room: usize,
    ) -> u8;
    fn journal_write_listing(journal: *const u8, bytes: usize, text: *mut u8, room: usize) -> Written;
}

/// The amount of an initial trade, beside its number.
pub fn initial(sheets: u64) -> (u32, u64) {
    let amount = unsafe { money_initial(Sheets(sheets)) };
    (amount.number.into(), amount.fen.0)
}

/// The amount of a redemption, beside its number.
pub fn redemption(sheets: u64, price: u32, days: u32) -> (u32, u64) {
    let amount = unsafe { money_redemption(Sheets(sheets), Ticks(price), days) };
    (amount.number.into(), amount.fen.0)
}

/// The value of a kind, beside its number.
pub fn kind_value(kind: u8, effective: u64, frozen: u64, rate: u64) -> (u32, u64) {
    let worth = unsafe { money_kind_worth(kind, effective, frozen, rate) };
    (worth.number.into(), worth.sheets.0)
}

pub fn trades(calendar: &[u32], day: u32) -> bool {
    unsafe { money_trades_on(calendar.as_ptr(), calendar.len(), day) }
}

pub fn trading_day_at_or_after(calendar: &[u32], day: u32) -> (u32, u32) {
    beside(unsafe { money_at_or_after(calendar.as_ptr(), calendar.len(), day) })
}

pub fn next_trading_day(calendar: &[u32], day: u32) -> (u32, u32) {
    beside(unsafe { money_next_after(calendar.as_ptr(), calendar.len(), day) })
}

pub fn earliest_trading_day(calendar: &[u32]) -> (u32, u32) {
    beside(unsafe { money_earliest_day(calendar.as_ptr(), calendar.len()) })
}

/// The day of a date, beside its number.
pub fn day_of(date: Date) -> (u32, u32) {
    beside(unsafe { money_day_of(date.year, date.month, date.day) })
}

/// The date of a day, beside its number.
pub fn date_of(day: u32) -> (u32, Date) {
    let Dated { number, year, month, day } = unsafe { money_date_of(day) };
    (number.into(), Date { year, month, day })
}

fn beside(found: Found) -> (u32, u32) {
    (found.number.into(), found.day)
}

/// Numbers that the run writes for one event.
pub const LINE_NUMBERS: usize = 7;

/// The run of encoded events on a fresh book, into a lent buffer: the number.
pub fn run_into(calendar: &[u32], events: &[u8], lines: &mut [u64]) -> u8 {
    unsafe {
        book_run_listing(
            calendar.as_ptr(),
            calendar.len(),
            events.as_ptr(),
            events.len(),
            lines.as_mut_ptr(),
            lines.len(),
        )
    }
}

/// The run of encoded events on a fresh book, event by event, or its refusal.
pub fn run_listing(calendar: &[u32], events: &[u8]) -> Result<Vec<Line>, u8> {
    lines_of(events, |lines| run_into(calendar, events, lines))
}

/// What a run writes into lines lent for so many events.
fn lines_of(events: &[u8], run: impl FnOnce(&mut [u64]) -> u8) -> Result<Vec<Line>, u8> {
    let mut lines = vec![0; LINE_NUMBERS * (events.len() / EVENT_BYTES)];
    match run(&mut lines) {
        0 => Ok(lines.chunks(LINE_NUMBERS).map(line).collect()),
        number => Err(number),
    }
}

fn line(numbers: &[u64]) -> Line {
    let headroom = numbers[2] as i64;
    Line {
        answer: numbers[0] as u32,
        headroom: if numbers[1] == 1 { -headroom } else { headroom },
        outstanding: numbers[3],
        own: numbers[4],
        client: numbers[5],
        guarantee: numbers[6],
    }
}

/// The listing of a journal, into a lent buffer: the number and the listing's length.
pub fn write_listing(journal: &[u8], text: &mut [u8]) -> (u8, usize) {
    let written =
        unsafe { journal_write_listing(journal.as_ptr(), journal.len(), text.as_mut_ptr(), text.len()) };
    (written.number, written.length)
}
