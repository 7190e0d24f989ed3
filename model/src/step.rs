//! One event on one book: the causes in their order, then the action.
//!
//! Every event is a column of early returns that can be laid beside the
//! paper's table, and changes nothing before the last of them; so a refused
//! call leaves book and table as they were.

mod collateral;
mod day;
mod terms;
pub(crate) mod trading;

use crate::answer::{Answer, Refusal};
use crate::book::{Book, Phase, Posting, Trade};
use crate::event::{Event, EVENT_BYTES};
use crate::limits::{NET, UNPAID};

/// The public call: fitness (1), decoding (2), then the event itself.
pub fn apply(calendar: &[u32], book: &mut Book, table: &mut [Trade], bytes: &[u8; EVENT_BYTES]) -> Answer {
    if book.is_fit(calendar, table) {
        step(calendar, book, table, bytes)
    } else {
        Answer::refused(Refusal::Unfit)
    }
}

/// A whole list of events. Every event keeps a fit book fit, so fitness is
/// tested once. `after` sees the book and table after each event.
pub fn run(
    calendar: &[u32],
    book: &mut Book,
    table: &mut [Trade],
    events: &[[u8; EVENT_BYTES]],
    mut after: impl FnMut(&[u8; EVENT_BYTES], Answer, &Book, &[Trade]),
) {
    let fit = book.is_fit(calendar, table);
    for bytes in events {
        let answer = if fit { step(calendar, book, table, bytes) } else { Answer::refused(Refusal::Unfit) };
        after(bytes, answer, book, table);
    }
}

/// One event on a book known to be fit.
pub fn step(calendar: &[u32], book: &mut Book, table: &mut [Trade], bytes: &[u8; EVENT_BYTES]) -> Answer {
    Event::decode(bytes).and_then(|event| act(calendar, book, table, event)).unwrap_or_else(Answer::refused)
}

fn act(calendar: &[u32], book: &mut Book, table: &mut [Trade], event: Event) -> Result<Answer, Refusal> {
    match event {
        Event::Open => day::open(calendar, book, table),
        Event::FundIn { account, fen } => collateral::fund_in(book, account, fen),
        Event::FundOut { account, fen } => collateral::fund_out(book, account, fen),
        Event::Size { sheets } => collateral::size(book, table, sheets),
        Event::Rate { kind, rate } => collateral::rate(book, kind.into(), rate),
        Event::Pledge { kind, units } => collateral::pledge(book, kind.into(), units),
        Event::Freeze { kind, units } => collateral::freeze(book, kind.into(), units),
        Event::Withdraw { kind, units } => collateral::withdraw(book, kind.into(), units),
        Event::Initial(terms) => trading::initial(calendar, book, table, terms),
        Event::Early { contract, sheets, price } => {
            trading::early(calendar, book, table, contract, sheets, price)
        }
        Event::Pay => day::pay(book),
        Event::Close => day::close(calendar, book, table),
        Event::Post { product, term, price, fallback } => {
            trading::post(book, product.into(), Posting { term, price, fallback })
        }
    }
}

/// The records that a Close on a fit book would start, in table order.
pub fn started_terms(calendar: &[u32], book: &Book, table: &[Trade]) -> Vec<Trade> {
    terms::started(calendar, book, table).into_iter().map(|(_, record)| record).collect()
}

/// Today, if the book is in Trading; a fit book then has a day.
fn trading_day(book: &Book) -> Result<u32, Refusal> {
    book.day.filter(|_| book.phase == Phase::Trading).ok_or(Refusal::WrongPhase)
}

/// The limit on either net. A net within it and a whole table's redemptions
/// (some 10^16 fen), or two nets, still fit the type.
fn net_within_limit(net: i64) -> Result<i64, Refusal> {
    Refusal::LimitPassed.when(!(-NET..=NET).contains(&net))?;
    Ok(net)
}

/// The limit on U, which the amount of each redemption joins.
fn unpaid_within_limit(book: &Book, amount: u64) -> Result<(), Refusal> {
    Refusal::LimitPassed.when(amount > UNPAID - book.unpaid())
}
