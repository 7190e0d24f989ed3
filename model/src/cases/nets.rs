//! Books whose nets come to their limits, 4×10^18 up and down, by one event.

use super::ledger::{trade, Ledger, WORKED_CALENDAR};
use super::Case;
use crate::book::{Phase, Status};
use crate::event::Event;

const NET: i64 = 4_000_000_000_000_000_000;

/// Today's net and the cleared net.
type Nets = (i64, i64);

fn case(ledger: &Ledger, nets: Nets, event: Event, outcome: Result<Nets, u32>) -> Case<Nets> {
    let mut ledger = ledger.clone();
    (ledger.book.todays_net, ledger.book.cleared_net) = nets;
    Case { ledger, event, outcome }
}

pub fn all() -> impl Iterator<Item = Case<Nets>> {
    initial().into_iter().chain(early()).chain(open()).chain(close())
}

/// Day 2 of the worked calendar with contract 7, 100 sheets, due on day 4.
pub(super) fn with_a_trade() -> Ledger {
    let mut ledger = Ledger::second_day(&WORKED_CALENDAR);
    assert_eq!(ledger.does(trade(7, 100, 4)).number, 0);
    ledger.book.todays_net = 0;
    ledger
}

/// An initial trade may reach the limit down.
pub fn initial() -> [Case<Nets>; 2] {
    let (ledger, event) = (with_a_trade(), trade(8, 10, 4));
    [
        case(&ledger, (-NET + 99_999, 0), event, Err(14)),
        case(&ledger, (-NET + 100_000, 0), event, Ok((-NET, 0))),
    ]
}

/// An early redemption may reach the limit up.
pub fn early() -> [Case<Nets>; 2] {
    let (ledger, event) = (with_a_trade(), Event::Early { contract: 7, sheets: 10, price: 3_650 });
    [
        case(&ledger, (NET - 99_999, 0), event, Err(14)),
        case(&ledger, (NET - 100_000, 0), event, Ok((NET, 0))),
    ]
}

/// Books whose next Open finds two failed payments.
pub(super) struct Turning {
    /// It redeems contract 7 on day 3 for day 6, three days at 1,000 ticks, 82.19 fen.
    pub ledger: Ledger,
    /// No day follows the one that would open.
    pub at_the_end: Ledger,
    /// Terminated before: nothing is redeemed.
    pub already: Ledger,
}

pub(super) fn before_a_termination() -> Turning {
    let mut ledger = with_a_trade();
    ledger.book.phase = Phase::Closed;
    ledger.book.failed_run = 2;
    let mut at_the_end = ledger.clone();
    at_the_end.calendar = vec![0b1110];
    let mut already = ledger.clone();
    already.book.status = Status::Terminated;
    Turning { ledger, at_the_end, already }
}

/// The Open that terminates may reach the limit up. 14 does not apply where 16
/// does, nor where nothing is redeemed.
pub fn open() -> [Case<Nets>; 4] {
    let Turning { ledger, at_the_end, already } = before_a_termination();
    let just_above = (0, NET - 1_000_081);
    [
        case(&ledger, just_above, Event::Open, Err(14)),
        case(&at_the_end, just_above, Event::Open, Err(16)),
        case(&already, just_above, Event::Open, Ok(just_above)),
        case(&ledger, (0, NET - 1_000_082), Event::Open, Ok((0, NET))),
    ]
}

/// The day is paid, and its Close redeems contract 7 over 4 days: 1,000,400 fen.
pub(super) fn before_a_maturity() -> Ledger {
    let mut ledger = with_a_trade();
    ledger.next_day();
    ledger.next_day();
    assert_eq!(ledger.does(Event::Pay).number, 0);
    ledger
}

/// A Close looks at today's net with what matures, and at the cleared net after it.
pub fn close() -> [Case<Nets>; 8] {
    let ledger = before_a_maturity();
    [
        ((NET - 1_000_399, 0), Err(14)),
        ((NET - 1_000_399, -NET), Err(14)),
        ((NET - 1_000_400, 1), Err(14)),
        ((NET - 1_000_400, 0), Ok((0, NET))),
        ((-NET, NET), Ok((0, 1_000_400))),
        ((-NET, -1_000_401), Err(14)),
        ((-NET, -1_000_400), Ok((0, -NET))),
        ((0, NET - 1_000_399), Err(14)),
    ]
    .map(|(nets, outcome)| case(&ledger, nets, Event::Close, outcome))
}
