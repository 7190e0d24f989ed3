//! How a firm lives through its days, from good habits to bad ones.

use super::draft::{Draft, POSTED};
use super::noise::undecodable;
use crate::book::{Phase, Trade};
use crate::cases::ledger::Ledger;
use crate::event::{Account, Event, Terms};
use crate::limits::{
    APPLICATIONS, CASH, DAYS_AHEAD, JOURNAL_CAPACITY, PRICE, SECURITY_UNITS, SIZE, TRADE_SHEETS,
};
use crate::money::{CASH_KIND, FEN_PER_SHEET, KINDS, RATE_DIVISOR};

/// Chances are in percent.
#[derive(Clone, Copy, Debug)]
pub struct Habits {
    /// Events to write, as far as the calendar goes.
    pub events: usize,
    /// Events between Open and Pay, on the average.
    pub day_length: u64,
    /// Events drawn without regard to the phase.
    pub slips: u64,
    /// Events that cannot be decoded.
    pub noise: u64,
    /// Fields at or past their limits.
    pub bold: u64,
    /// Payments before which the payer is drained.
    pub drained: u64,
    /// Closes before which the pledges lose value.
    pub shrunk: u64,
    /// Days with applications down to what the evening lets go.
    pub edges: u64,
    /// Days that begin with the damage of earlier ones repaired.
    pub mending: u64,
    /// Products that are posted in the morning.
    pub posting: u64,
    /// Trades with a product, where one is posted.
    pub rolling: u64,
    /// Closes before which the pledges come down to what stays and some of what
    /// is due.
    pub tight: u64,
    pub largest_trade: u64,
    /// Starts with cash, units and size at their limits.
    pub rich: bool,
}

impl Habits {
    pub const USUAL: Habits = Habits {
        events: 200,
        day_length: 8,
        slips: 6,
        noise: 3,
        bold: 8,
        drained: 15,
        shrunk: 15,
        edges: 15,
        mending: 80,
        posting: 30,
        rolling: 40,
        tight: 8,
        largest_trade: 80_000,
        rich: false,
    };
}

/// Funds, size and rates before the first Open, then pledges on the first day.
pub fn set_up(draft: &mut Draft, habits: &Habits) {
    draft.bold = habits.bold;
    draft.largest_trade = habits.largest_trade;
    draft.rolling = habits.rolling;
    let (fen, units) = if habits.rich { (CASH / 2, SECURITY_UNITS) } else { (3_000_000_000, 400_000) };
    draft.offer(Event::Size { sheets: if habits.rich { SIZE } else { 700_000 } });
    draft.offer(Event::FundIn { account: Account::Own, fen });
    draft.offer(Event::FundIn { account: Account::Client, fen });
    restore_rates(draft);
    draft.offer(Event::Open);
    for kind in [0, 1] {
        draft.offer(Event::Pledge { kind, units });
    }
    draft.offer(Event::Pledge { kind: 32, units: fen / 3 });
    draft.offer(Event::Pay);
    draft.offer(Event::Close);
}

fn restore_rates(draft: &mut Draft) {
    for kind in [0, 1, 2, 31] {
        let rate = draft.random.between(8_000, 10_000);
        draft.offer(Event::Rate { kind, rate });
    }
}

/// One event after another until there are enough, or the calendar has ended
/// and nothing new is left to say.
pub fn live(draft: &mut Draft, habits: &Habits) {
    let mut patience = 25;
    while draft.events.len() < habits.events && !draft.is_full() && patience > 0 {
        if draft.random.percent(habits.noise) {
            let bytes = undecodable(draft);
            draft.offer_bytes(bytes);
            continue;
        }
        if draft.random.percent(habits.slips) {
            let code = draft.random.between(1, 13) as u8;
            let event = draft.draw(code);
            draft.offer(event);
            continue;
        }
        match draft.book.phase {
            Phase::Closed => patience -= u32::from(!open_day(draft, habits)),
            Phase::Trading => trade_or_pay(draft, habits),
            Phase::Paid => close_day(draft, habits),
        }
    }
}

/// Whether a day was opened; the firm may begin it by repairing damage and by
/// posting products.
fn open_day(draft: &mut Draft, habits: &Habits) -> bool {
    let opened = draft.offer(Event::Open) == Some(0);
    let damaged = draft.book.failed_run > 0 || draft.book.headroom(&draft.table) < 0;
    if damaged && draft.random.percent(habits.mending) {
        restore_rates(draft);
        unfreeze(draft);
    }
    post_products(draft, habits);
    opened
}

/// A suspended firm posts, too; a terminated one is turned down.
fn post_products(draft: &mut Draft, habits: &Habits) {
    for product in POSTED {
        if draft.is_trading() && draft.random.percent(habits.posting) {
            let event = draft.draw_post_of(product);
            draft.offer(event);
        }
    }
}

fn unfreeze(draft: &mut Draft) {
    for kind in 0..KINDS {
        if draft.book.holdings[kind].frozen > 0 {
            draft.offer(Event::Freeze { kind: kind as u8, units: 0 });
        }
    }
}

fn trade_or_pay(draft: &mut Draft, habits: &Habits) {
    if draft.random.below(habits.day_length) > 0 {
        let code = draft.random.pick(&[2, 3, 4, 5, 6, 6, 7, 8, 8, 9, 9, 9, 9, 9, 10, 10, 13]);
        let event = draft.draw(code);
        draft.offer(event);
    } else if draft.is_terminated() {
        draft.offer(Event::Close);
    } else {
        if draft.random.percent(habits.edges) {
            redeem_at_once(draft);
            apply_to_the_edge(draft);
        }
        prepare_payment(draft, habits);
        draft.offer(Event::Pay);
    }
}

/// A trade begun and redeemed, whole or in part, within the day: it brings no
/// income, so that U may be whole sheets' worth.
fn redeem_at_once(draft: &mut Draft) {
    let initial = draft.draw_initial();
    let Event::Initial(Terms { contract, sheets, price, .. }) = initial else { return };
    if draft.offer(initial) == Some(0) {
        let sheets = draft.random.of_any_order(sheets);
        draft.offer(Event::Early { contract, sheets, price });
    }
}

/// Applications that together leave V just what O and U need, or what O alone
/// does, or are off by a unit: whole kinds, and then as much of the next one.
fn apply_to_the_edge(draft: &mut Draft) {
    let with_unpaid = draft.random.percent(75);
    let first = draft.random.below(3) as usize;
    for kind in [0, 1, CASH_KIND].into_iter().cycle().skip(first).take(3) {
        let Ledger { book, table, .. } = draft.tonight();
        let unpaid = if with_unpaid { book.unpaid().div_ceil(FEN_PER_SHEET) } else { 0 };
        let left = book.outstanding(&table) + unpaid;
        let of_kind = left.saturating_sub(book.value() - book.value_of(kind));
        let kept = (of_kind * RATE_DIVISOR).div_ceil(book.rate_of(kind).max(1));
        let spare = book.unfrozen(kind).saturating_sub(kept);
        if kept == 0 {
            draft.offer(Event::Withdraw { kind: kind as u8, units: spare });
            continue;
        }
        let units = draft.random.pick(&[spare, spare, spare + 1, spare.saturating_sub(1)]);
        draft.offer(Event::Withdraw { kind: kind as u8, units });
        return;
    }
}

/// The payer is given what it lacks, or is drained of what it has.
fn prepare_payment(draft: &mut Draft, habits: &Habits) {
    let net = draft.book.cleared_net;
    let account = if net >= 0 { Account::Own } else { Account::Client };
    let held = draft.held(account);
    let lack = net.unsigned_abs().saturating_sub(held);
    let drained = if draft.book.failed_run > 0 { 100 - habits.mending } else { habits.drained };
    if draft.random.percent(drained) {
        draft.offer(Event::FundOut { account, fen: held });
    } else if lack > 0 {
        draft.offer(Event::FundIn { account, fen: lack });
    }
}

fn close_day(draft: &mut Draft, habits: &Habits) {
    if draft.random.percent(habits.shrunk) {
        shrink_value(draft);
    } else if draft.random.percent(habits.tight) {
        return close_with_little_room(draft);
    }
    draft.offer(Event::Close);
}

/// Units are frozen until V covers what stays and some of what is due, so that not
/// all next terms can start; afterwards they are free again.
fn close_with_little_room(draft: &mut Draft) {
    let (today, in_use) = (draft.book.day, &draft.table[..draft.book.trades]);
    let sheets = |trade: &Trade| trade.sheets;
    let due: u64 = in_use.iter().filter(|trade| Some(trade.due) <= today).map(sheets).sum();
    let covered = in_use.iter().map(sheets).sum::<u64>() - draft.random.below(due + 1);
    for kind in 0..KINDS {
        freeze_down_to(draft, kind, covered);
    }
    draft.offer(Event::Close);
    unfreeze(draft);
}

/// Freezes of a kind what V has above so many sheets.
fn freeze_down_to(draft: &mut Draft, kind: usize, covered: u64) {
    let book = &draft.book;
    let of_kind = covered.saturating_sub(book.value() - book.value_of(kind));
    let kept = (of_kind * RATE_DIVISOR).div_ceil(book.rate_of(kind).max(1));
    let effective = book.holdings[kind].effective;
    if effective > kept {
        draft.offer(Event::Freeze { kind: kind as u8, units: effective - kept });
    }
}

/// Units are frozen or rates fall (that of cash cannot: 3), whole or in part,
/// with the evening's applications standing.
fn shrink_value(draft: &mut Draft) {
    let way = draft.random.below(4);
    let rate = draft.random.below(5_000);
    for kind in 0..KINDS {
        let effective = draft.book.holdings[kind].effective;
        if effective == 0 {
            continue;
        }
        let kind = kind as u8;
        draft.offer(match way {
            0 | 1 => Event::Freeze { kind, units: effective },
            2 => Event::Freeze { kind, units: effective / 2 },
            _ => Event::Rate { kind, rate },
        });
    }
}

/// Trades until the table has no slot left, then some more events there.
pub fn fill_table(draft: &mut Draft) {
    let bold = std::mem::replace(&mut draft.bold, 0);
    let largest_trade = std::mem::replace(&mut draft.largest_trade, 100);
    draft.offer(Event::Size { sheets: SIZE });
    draft.offer(Event::Open);
    while draft.book.trades < JOURNAL_CAPACITY && draft.events.len() < 1_400 && draft.is_trading() {
        let mut event = draft.draw_initial();
        if let Event::Initial(terms) = &mut event {
            // Late enough for the table to stay full over some days.
            terms.due = terms.due.max(draft.book.day.unwrap_or(0) + 20);
        }
        draft.offer(event);
    }
    draft.bold = bold;
    draft.largest_trade = largest_trade;
    for _ in 0..draft.random.between(5, 40) {
        let code = draft.random.pick(&[9, 9, 10]);
        let event = draft.draw(code);
        draft.offer(event);
    }
    let length = draft.events.len() + draft.random.between(10, 150) as usize;
    live(draft, &Habits { events: length, ..Habits::USUAL });
}

/// A hundred trades that bring O to 10^10 sheets, at the highest price and due
/// as late as may be, with a product or without.
pub fn fill_size(draft: &mut Draft) {
    draft.offer(Event::Open);
    let (term, prices) = (DAYS_AHEAD.into(), PRICE as u32);
    draft.offer(Event::Post { product: 0, term, price: prices, fallback: prices });
    let product = draft.random.below(2) as u8;
    for contract in 1_000..1_100 {
        let due = draft.book.day.unwrap_or(0) + DAYS_AHEAD;
        let price = PRICE as u32;
        let terms = Terms { contract, sheets: TRADE_SHEETS, price, fallback: price, due, product };
        draft.offer(Event::Initial(terms));
    }
}

/// 128 applications for one evening and a few too many, then the Close.
pub fn fill_applications(draft: &mut Draft) {
    draft.offer(Event::Open);
    for _ in 0..draft.random.between(0, 6) {
        let event = draft.draw_initial();
        draft.offer(event);
    }
    let standing = APPLICATIONS + draft.random.below(5) as usize;
    for _ in 0..standing {
        let kind = draft.random.pick(&[0, 1, 32]);
        let units = draft.random.between(1, 4_000);
        draft.offer(Event::Withdraw { kind, units });
    }
    let habits = Habits { drained: 30, shrunk: 30, ..Habits::USUAL };
    prepare_payment(draft, &habits);
    draft.offer(Event::Pay);
    close_day(draft, &habits);
}
