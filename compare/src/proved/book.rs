//! The parts of a book and of its lent table as the archive lays them out.

use model::answer;
use model::book::{self, Book, Holding};
use model::money::CASH_KIND;

use super::{Fen, Sheets, Ticks};

#[repr(C)]
#[derive(Clone, Copy, Debug, PartialEq, Eq)]
pub(super) struct Nets {
    pub(super) today: i64,
    pub(super) cleared: i64,
}
/// Sums beside the nets.
#[repr(C)]
#[derive(Clone, Copy, Debug, PartialEq, Eq)]
pub(super) struct Sums {
    unpaid: Unpaid,
}
/// U: redemptions not yet paid.
#[repr(C)]
#[derive(Clone, Copy, Debug, PartialEq, Eq)]
struct Unpaid {
    today: Fen,
    cleared: Fen,
}
#[repr(C)]
#[derive(Clone, Copy, Debug, PartialEq, Eq)]
pub(super) struct Cash {
    pub(super) own: Fen,
    pub(super) client: Fen,
}
#[repr(C)]
#[derive(Clone, Copy, Debug, PartialEq, Eq)]
pub(super) struct Guarantee {
    effective: Fen,
    arriving: Fen,
    frozen: Fen,
}
/// Each case as a number, from 0; others are not well-formed.
#[repr(C)]
#[derive(Clone, Copy, Debug, PartialEq, Eq)]
pub struct Codes {
    pub dated: u8,
    pub day: u32,
    pub phase: u8,
    pub status: u8,
    pub failed: u8,
    pub short: u8,
}

/// A slot of the lent table.
#[repr(C)]
#[derive(Clone, Copy, Debug, PartialEq, Eq)]
pub struct Trade {
    pub contract: u64,
    sheets: Sheets,
    price: Ticks,
    fallback: Ticks,
    first: u32,
    due: u32,
    product: u64,
}

#[repr(C)]
pub(super) struct Answer {
    number: u8,
    matured: Sheets,
    done: u32,
    dropped: u32,
}

#[repr(C)]
pub(super) struct Cover {
    number: u8,
    headroom: i64,
    outstanding: Sheets,
}

impl From<Answer> for answer::Answer {
    fn from(Answer { number, matured, done, dropped }: Answer) -> answer::Answer {
        answer::Answer { number: number.into(), matured: matured.0, done, dropped }
    }
}

impl From<Cover> for (u32, i64, u64) {
    fn from(Cover { number, headroom, outstanding }: Cover) -> (u32, i64, u64) {
        (number.into(), headroom, outstanding.0)
    }
}

pub(super) fn sums(book: &Book) -> Sums {
    Sums { unpaid: Unpaid { today: Fen(book.todays_unpaid), cleared: Fen(book.cleared_unpaid) } }
}

pub(super) fn guarantee(book: &Book) -> Guarantee {
    let Holding { effective, arriving, frozen } = book.holdings[CASH_KIND];
    Guarantee { effective: Fen(effective), arriving: Fen(arriving), frozen: Fen(frozen) }
}

/// The model's phases and statuses stand in the same order.
pub(super) fn codes(book: &Book) -> Codes {
    Codes {
        dated: book.day.is_some().into(),
        day: book.day.unwrap_or(0),
        phase: book.phase as u8,
        status: book.status as u8,
        failed: book.failed_run,
        short: book.short_run,
    }
}

impl From<&book::Trade> for Trade {
    fn from(trade: &book::Trade) -> Trade {
        let &book::Trade { contract, sheets, price, fallback, first_payment, due, product } = trade;
        let (price, fallback) = (Ticks(price), Ticks(fallback));
        Trade { contract, sheets: Sheets(sheets), price, fallback, first: first_payment, due, product }
    }
}

/// A whole table.
pub fn table(trades: &[book::Trade]) -> Vec<Trade> {
    trades.iter().map(Trade::from).collect()
}
