//! Books whose U comes to its limit, 4×10^18, by one event, while the nets are small.

use super::ledger::{trade, Ledger};
use super::nets::{before_a_maturity, before_a_termination, with_a_trade, Turning};
use super::Case;
use crate::event::Event;

const UNPAID: u64 = 4_000_000_000_000_000_000;

/// U's part of today and its cleared part.
type Parts = (u64, u64);

fn case(ledger: &Ledger, parts: Parts, event: Event, outcome: Result<Parts, u32>) -> Case<Parts> {
    let mut ledger = ledger.clone();
    (ledger.book.todays_unpaid, ledger.book.cleared_unpaid) = parts;
    Case { ledger, event, outcome }
}

pub fn all() -> impl Iterator<Item = Case<Parts>> {
    initial().into_iter().chain(early()).chain(open()).chain(close())
}

/// An initial trade doesn't touch U.
pub fn initial() -> [Case<Parts>; 1] {
    [case(&with_a_trade(), (UNPAID, 0), trade(8, 10, 4), Ok((UNPAID, 0)))]
}

/// An early redemption of 100,000 fen looks at both parts.
pub fn early() -> [Case<Parts>; 5] {
    let (ledger, event) = (with_a_trade(), Event::Early { contract: 7, sheets: 10, price: 3_650 });
    [
        ((UNPAID - 99_999, 0), Err(14)),
        ((UNPAID - 100_000, 0), Ok((UNPAID, 0))),
        ((0, UNPAID - 99_999), Err(14)),
        ((0, UNPAID - 100_000), Ok((100_000, UNPAID - 100_000))),
        ((1, UNPAID - 100_000), Err(14)),
    ]
    .map(|(parts, outcome)| case(&ledger, parts, event, outcome))
}

/// The Open that terminates redeems 1,000,082 fen. 14 does not apply where 16
/// does, nor where nothing is redeemed.
pub fn open() -> [Case<Parts>; 6] {
    let Turning { ledger, at_the_end, already } = before_a_termination();
    let just_above = (0, UNPAID - 1_000_081);
    let open = |ledger, parts, outcome| case(ledger, parts, Event::Open, outcome);
    [
        open(&ledger, just_above, Err(14)),
        open(&at_the_end, just_above, Err(16)),
        open(&already, just_above, Ok(just_above)),
        open(&ledger, (0, UNPAID - 1_000_082), Ok((0, UNPAID))),
        open(&ledger, (1, UNPAID - 1_000_082), Err(14)),
        open(&ledger, (UNPAID - 1_000_082, 0), Ok((UNPAID - 1_000_082, 1_000_082))),
    ]
}

/// What matures, 1,000,400 fen, joins U, and today's part joins the cleared one.
pub fn close() -> [Case<Parts>; 6] {
    let ledger = before_a_maturity();
    [
        ((UNPAID - 1_000_399, 0), Err(14)),
        ((UNPAID - 1_000_400, 0), Ok((0, UNPAID))),
        ((0, UNPAID - 1_000_399), Err(14)),
        ((0, UNPAID - 1_000_400), Ok((0, UNPAID))),
        ((1, UNPAID - 1_000_400), Err(14)),
        ((5, 7), Ok((0, 1_000_412))),
    ]
    .map(|(parts, outcome)| case(&ledger, parts, Event::Close, outcome))
}
