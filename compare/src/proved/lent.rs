//! A book in lent numbers, changed in place, as the archive lays it out, and
//! the calls on it. A slot of the table is five numbers in memory.

use model::answer;
use model::book::{Book, Holding, Posting};
use model::event::EVENT_BYTES;
use model::journal::Line;
use model::limits::{APPLICATIONS, PRODUCTS};
use model::money::CASH_KIND;

use super::book::{codes, guarantee, sums, Answer, Cash, Codes, Cover, Guarantee, Nets, Sums, Trade};
use super::{lines_of, Fen, Sheets};

/// Numbers of a trade, of a security and of a posting.
const TRADE: usize = 5;
const SECURITY: usize = 4;
const POSTING: usize = 2;
/// The securities, and what is posted behind them, are one row.
const SECURITIES: usize = CASH_KIND * SECURITY;
const HELD: usize = SECURITIES + PRODUCTS * POSTING;

/// A book's scalars: what is no row of numbers.
#[repr(C)]
#[derive(Clone, Copy, Debug, PartialEq, Eq)]
struct RawScalars {
    nets: Nets,
    sums: Sums,
    cash: Cash,
    guarantee: Guarantee,
    size: Sheets,
    codes: Codes,
    applications: usize,
    trades: usize,
}

#[repr(C)]
struct RawDone {
    answer: Answer,
    raw: RawScalars,
}

#[repr(C)]
struct RawEnded {
    number: u8,
    raw: RawScalars,
}

/// A book, made from the model's and held against it again after a call.
#[derive(Clone, Copy, Debug, PartialEq, Eq)]
pub struct Rows {
    raw: RawScalars,
    held: [u64; HELD],
    kinds: [u8; APPLICATIONS],
    units: [u64; APPLICATIONS],
}

impl Rows {
    pub fn codes(&mut self) -> &mut Codes {
        &mut self.raw.codes
    }

    /// Fails on what differs, part by part.
    pub fn assert_same(&self, wanted: &Rows) {
        assert_eq!(self.raw, wanted.raw);
        let (got, wanted_held) = (self.held.split_at(SECURITIES), wanted.held.split_at(SECURITIES));
        for (kind, (got, wanted)) in in_pairs(got.0, wanted_held.0, SECURITY) {
            assert_eq!(got, wanted, "effective, arriving, frozen and rate of kind {kind}");
        }
        for (product, (got, wanted)) in in_pairs(got.1, wanted_held.1, POSTING) {
            assert_eq!(got, wanted, "term and prices posted of product {product}");
        }
        assert_eq!(self.kinds, wanted.kinds, "kinds of the applications");
        assert_eq!(self.units, wanted.units, "units of the applications");
    }
}

/// Two rows, so many numbers of each at a time, from place 0 on.
fn in_pairs<'a>(
    got: &'a [u64],
    wanted: &'a [u64],
    numbers: usize,
) -> impl Iterator<Item = (usize, (&'a [u64], &'a [u64]))> {
    got.chunks(numbers).zip(wanted.chunks(numbers)).enumerate()
}

extern "C" {
    fn lent_apply(
        calendar: *const u32,
        words: usize,
        raw: RawScalars,
        held: *mut u64,
        held_length: usize,
        kinds: *mut u8,
        kinds_length: usize,
        units: *mut u64,
        units_length: usize,
        table: *mut u64,
        numbers: usize,
        event: *const u8,
        bytes: usize,
    ) -> RawDone;
    fn lent_cover(
        calendar: *const u32,
        words: usize,
        raw: RawScalars,
        held: *const u64,
        held_length: usize,
        kinds: *const u8,
        kinds_length: usize,
        units: *const u64,
        units_length: usize,
        table: *const u64,
        numbers: usize,
    ) -> Cover;
    fn lent_run(
        calendar: *const u32,
        words: usize,
        raw: RawScalars,
        held: *mut u64,
        held_length: usize,
        kinds: *mut u8,
        kinds_length: usize,
        units: *mut u64,
        units_length: usize,
        table: *mut u64,
        numbers: usize,
        events: *const u8,
        bytes: usize,
        lines: *mut u64,
        room: usize,
    ) -> RawEnded;
}

/// How many numbers of each row and of the table are lent.
#[derive(Clone, Copy)]
pub struct Lengths {
    pub held: usize,
    pub kinds: usize,
    pub units: usize,
    pub table: usize,
}

impl Lengths {
    /// All of them.
    pub fn whole(table: &[Trade]) -> Lengths {
        Lengths { held: HELD, kinds: APPLICATIONS, units: APPLICATIONS, table: table.len() * TRADE }
    }

    /// Fails where more is lent than there is.
    fn assert_there(self, table: &[Trade]) {
        let there = Lengths::whole(table);
        assert!(
            self.held <= there.held
                && self.kinds <= there.kinds
                && self.units <= there.units
                && self.table <= there.table
        );
    }
}

/// One event on a book and its table.
pub fn apply(
    calendar: &[u32],
    rows: &mut Rows,
    table: &mut [Trade],
    event: &[u8; EVENT_BYTES],
) -> answer::Answer {
    apply_cut(calendar, rows, table, Lengths::whole(table), event)
}

/// One event on rows and a table of which only so much is lent.
pub fn apply_cut(
    calendar: &[u32],
    rows: &mut Rows,
    table: &mut [Trade],
    lengths: Lengths,
    event: &[u8; EVENT_BYTES],
) -> answer::Answer {
    lengths.assert_there(table);
    let Rows { raw, held, kinds, units } = rows;
    let done = unsafe {
        lent_apply(
            calendar.as_ptr(),
            calendar.len(),
            *raw,
            held.as_mut_ptr(),
            lengths.held,
            kinds.as_mut_ptr(),
            lengths.kinds,
            units.as_mut_ptr(),
            lengths.units,
            table.as_mut_ptr().cast(),
            lengths.table,
            event.as_ptr(),
            event.len(),
        )
    };
    *raw = done.raw;
    done.answer.into()
}

/// Headroom and O of a book over its table, beside the number.
pub fn cover(calendar: &[u32], rows: &Rows, table: &[Trade]) -> (u32, i64, u64) {
    cover_cut(calendar, rows, table, Lengths::whole(table))
}

/// The same of rows and a table of which only so much is lent.
pub fn cover_cut(calendar: &[u32], rows: &Rows, table: &[Trade], lengths: Lengths) -> (u32, i64, u64) {
    lengths.assert_there(table);
    let Rows { raw, held, kinds, units } = rows;
    let cover = unsafe {
        lent_cover(
            calendar.as_ptr(),
            calendar.len(),
            *raw,
            held.as_ptr(),
            lengths.held,
            kinds.as_ptr(),
            lengths.kinds,
            units.as_ptr(),
            lengths.units,
            table.as_ptr().cast(),
            lengths.table,
        )
    };
    cover.into()
}

/// A run of encoded events on a book and its table, into a lent buffer: the number.
pub fn run_into(
    calendar: &[u32],
    rows: &mut Rows,
    table: &mut [Trade],
    events: &[u8],
    lines: &mut [u64],
) -> u8 {
    run_into_cut(calendar, rows, table, Lengths::whole(table), events, lines)
}

/// The same on rows and a table of which only so much is lent.
pub fn run_into_cut(
    calendar: &[u32],
    rows: &mut Rows,
    table: &mut [Trade],
    lengths: Lengths,
    events: &[u8],
    lines: &mut [u64],
) -> u8 {
    lengths.assert_there(table);
    let Rows { raw, held, kinds, units } = rows;
    let ended = unsafe {
        lent_run(
            calendar.as_ptr(),
            calendar.len(),
            *raw,
            held.as_mut_ptr(),
            lengths.held,
            kinds.as_mut_ptr(),
            lengths.kinds,
            units.as_mut_ptr(),
            lengths.units,
            table.as_mut_ptr().cast(),
            lengths.table,
            events.as_ptr(),
            events.len(),
            lines.as_mut_ptr(),
            lines.len(),
        )
    };
    *raw = ended.raw;
    ended.number
}

/// A run of encoded events on a book and its table, event by event, or its refusal.
pub fn run(calendar: &[u32], rows: &mut Rows, table: &mut [Trade], events: &[u8]) -> Result<Vec<Line>, u8> {
    lines_of(events, |lines| run_into(calendar, rows, table, events, lines))
}

impl From<&Book> for Rows {
    fn from(book: &Book) -> Rows {
        Rows {
            raw: RawScalars {
                nets: Nets { today: book.todays_net, cleared: book.cleared_net },
                sums: sums(book),
                cash: Cash { own: Fen(book.own), client: Fen(book.client) },
                guarantee: guarantee(book),
                size: Sheets(book.size),
                codes: codes(book),
                applications: book.applications,
                trades: book.trades,
            },
            held: held(book),
            kinds: book.application_kinds,
            units: book.application_units,
        }
    }
}

fn held(book: &Book) -> [u64; HELD] {
    let mut held = [0; HELD];
    let (securities, postings) = held.split_at_mut(SECURITIES);
    for (kind, row) in securities.chunks_exact_mut(SECURITY).enumerate() {
        let Holding { effective, arriving, frozen } = book.holdings[kind];
        row.copy_from_slice(&[effective, arriving, frozen, book.rates[kind]]);
    }
    for (row, posting) in postings.chunks_exact_mut(POSTING).zip(&book.postings) {
        let &Posting { term, price, fallback } = posting;
        row.copy_from_slice(&[term, u64::from(price) | u64::from(fallback) << 32]);
    }
    held
}
