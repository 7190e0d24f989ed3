//! Trades that begin again by themselves, or do not, told event by event.

use super::ledger::{post, trade, trade_of, Ledger, WORKED_CALENDAR};
use crate::book::Trade;
use crate::event::{Account, Event};

/// Events from a morning on, each with its answer's number, and the trades that
/// they leave.
pub struct Story {
    pub name: &'static str,
    pub ledger: Ledger,
    pub events: Vec<(Event, u32)>,
    pub trades: Vec<Trade>,
}

pub fn all() -> Vec<Story> {
    vec![
        rolls_twice(),
        too_large_before_one_that_fits(),
        redeemed_in_full(),
        redeemed_in_part(),
        due_on_a_holiday(),
        posted_yesterday(),
        posted_twice(),
        after_a_failed_payment(),
        suspended(),
        terminated(),
    ]
}

/// Product 3 as an initial trade has it.
const PRODUCT: u8 = 4;
const NIGHT: [(Event, u32); 3] = [(Event::Pay, 0), (Event::Close, 0), (Event::Open, 0)];
const EVENING: [(Event, u32); 2] = [(Event::Pay, 0), (Event::Close, 0)];
const DRAIN: (Event, u32) = (Event::FundOut { account: Account::Client, fen: 3_000_000 }, 0);
/// The client cannot pay for what was begun.
const UNPAID_NIGHT: [(Event, u32); 3] = [(Event::Pay, 99), (Event::Close, 0), (Event::Open, 0)];

/// From day 1 on; every day trades, and headroom is 180.
fn story(name: &'static str, events: &[&[(Event, u32)]], trades: &[Trade]) -> Story {
    let ledger = Ledger::second_day(&[u32::MAX]);
    Story { name, ledger, events: events.concat(), trades: trades.to_vec() }
}

/// A next term of product 3, at the prices that `post` gives.
fn next(contract: u64, sheets: u64, first_payment: u32, due: u32) -> Trade {
    let product = PRODUCT.into();
    Trade { contract, sheets, price: 3_000, fallback: 900, first_payment, due, product }
}

/// Due on day 2, on day 4 and then on day 9; its contract stays taken.
fn rolls_twice() -> Story {
    let day_1 = [(post(3, 1), 0), (trade_of(PRODUCT, 7, 100, 2), 0)];
    let day_2 = [(post(3, 2), 0)];
    let day_4 = [(post(3, 5), 0)];
    let day_5 = [(trade(7, 10, 20), 10), (trade(8, 90, 20), 12), (trade(8, 80, 20), 0)];
    let kept = Trade { product: 0, price: 3_650, fallback: 1_000, ..next(8, 80, 6, 20) };
    story(
        "rolls twice",
        &[&day_1, &NIGHT, &day_2, &NIGHT, &NIGHT, &day_4, &NIGHT, &day_5],
        &[next(7, 100, 5, 9), kept],
    )
}

/// V comes down to 81: the 100 sheets of contract 7 do not fit, the 50 of
/// contract 8 do.
fn too_large_before_one_that_fits() -> Story {
    let day_1 = [(post(3, 7), 0), (trade_of(PRODUCT, 7, 100, 2), 0), (trade_of(PRODUCT, 8, 50, 2), 0)];
    let day_2 = [(post(3, 7), 0), (Event::Freeze { kind: 0, units: 110 }, 0)];
    story("the first is too large", &[&day_1, &NIGHT, &day_2, &EVENING], &[next(8, 50, 3, 9)])
}

fn redeemed_in_full() -> Story {
    let early = Event::Early { contract: 7, sheets: 100, price: 3_650 };
    let day_1 = [(post(3, 7), 0), (trade_of(PRODUCT, 7, 100, 2), 0), (early, 0)];
    let day_2 = [(post(3, 7), 0)];
    story("redeemed early in full", &[&day_1, &NIGHT, &day_2, &EVENING], &[])
}

/// What is left goes on, be it no multiple of 10.
fn redeemed_in_part() -> Story {
    let early = Event::Early { contract: 7, sheets: 33, price: 3_650 };
    let day_1 = [(post(3, 7), 0), (trade_of(PRODUCT, 7, 100, 2), 0), (early, 0)];
    let day_2 = [(post(3, 7), 0)];
    story("redeemed early in part", &[&day_1, &NIGHT, &day_2, &EVENING], &[next(7, 67, 3, 9)])
}

/// Days 1, 2, 3, 6 and 7 trade. The next term of contract 7 is due on day 4 and
/// matures on day 6, where one more would be due on day 7, which has no other
/// after it; that of contract 8, of another product, is due on day 5.
fn due_on_a_holiday() -> Story {
    let trades = [(trade_of(PRODUCT, 7, 100, 3), 0), (trade_of(PRODUCT + 1, 8, 50, 3), 0)];
    let posts = [(post(3, 1), 0), (post(4, 2), 0)];
    let days = [&posts[..], &trades, &NIGHT, &posts, &NIGHT, &posts, &EVENING];
    Story { ledger: Ledger::second_day(&WORKED_CALENDAR), ..story("due on a holiday", &days, &[]) }
}

fn posted_yesterday() -> Story {
    let day_1 = [(post(3, 7), 0), (trade_of(PRODUCT, 7, 100, 2), 0)];
    let day_2 = [(trade_of(PRODUCT, 8, 10, 4), 20), (post(4, 7), 0)];
    story("posted yesterday only", &[&day_1, &NIGHT, &day_2, &EVENING], &[])
}

/// The last one accepted counts.
fn posted_twice() -> Story {
    let day_1 = [(post(3, 7), 0), (trade_of(PRODUCT, 7, 100, 2), 0)];
    let last = Event::Post { product: 3, term: 4, price: 10, fallback: 20 };
    let day_2 = [(post(3, 7), 0), (last, 0), (post(3, 366), 9), (post(3, 0), 9)];
    let left = Trade { price: 10, fallback: 20, ..next(7, 100, 3, 6) };
    story("posted twice", &[&day_1, &NIGHT, &day_2, &EVENING], &[left])
}

/// The status is still that of the morning.
fn after_a_failed_payment() -> Story {
    let day_1 = [(post(3, 7), 0), (trade_of(PRODUCT, 7, 100, 2), 0)];
    let day_2 = [(post(3, 7), 0), DRAIN];
    story("a failed payment", &[&day_1, &NIGHT, &day_2, &UNPAID_NIGHT[..2]], &[next(7, 100, 3, 9)])
}

/// It may post, but neither trade nor go on.
fn suspended() -> Story {
    let day_1 = [(post(3, 7), 0), (trade_of(PRODUCT, 7, 100, 3), 0)];
    let day_3 = [(trade_of(PRODUCT, 8, 10, 4), 20), (post(3, 7), 0), (trade_of(PRODUCT, 8, 10, 4), 6)];
    story("suspended", &[&day_1, &NIGHT, &[DRAIN], &UNPAID_NIGHT, &day_3, &UNPAID_NIGHT[..2]], &[])
}

/// Contract 7 is due on the day that opens terminated. 20 still comes before 5.
fn terminated() -> Story {
    let day_1 = [(post(3, 7), 0), (trade_of(PRODUCT, 7, 100, 4), 0)];
    let high = Event::Post { product: 3, term: 0, price: 100_001, fallback: 0 };
    let day_4 = [(post(3, 7), 5), (high, 5), (post(16, 7), 20), (trade_of(PRODUCT, 8, 10, 5), 20)];
    let nights = [DRAIN, UNPAID_NIGHT[0], UNPAID_NIGHT[1], UNPAID_NIGHT[2]];
    story("terminated", &[&day_1, &NIGHT, &nights, &UNPAID_NIGHT, &day_4, &[(Event::Close, 0)]], &[])
}
