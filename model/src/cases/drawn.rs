//! Fit books drawn number by number, with up to 4,096 trades: standings, nets
//! and tables that no journal brings together.

use super::ledger::Ledger;
use crate::book::{Book, Holding, Phase, Posting, Status, Trade};
use crate::generator::calendars::{calendar, Sort};
use crate::generator::random::Random;
use crate::limits::{
    APPLICATIONS, APPLICATION_UNITS, CAPACITY, CASH, DAYS_AHEAD, FAILED_PAYMENTS, NET, PRICE, PRODUCTS,
    RATE, SECURITY_UNITS, SHORT_CLOSES, SIZE, TRADE_SHEETS, UNPAID,
};
use crate::money::{first_from, next_after, CASH_KIND, FEN_PER_SHEET, KINDS};

/// A fit book over a table with strays in its spare slots.
pub fn drawn(random: &mut Random) -> Ledger {
    let mut ledger = Ledger { calendar: any_calendar(random), book: Book::fresh(), table: Vec::new() };
    if let Some((day, payment_day)) = trading_day(random, &ledger.calendar) {
        draw_standing(random, &mut ledger.book, day);
        ledger.table = trades(random, day, payment_day);
        ledger.book.trades = ledger.table.len();
    }
    add_spare_slots(random, &mut ledger.table);
    let outstanding = ledger.book.outstanding(&ledger.table);
    ledger.book.size = random.pick(&[outstanding, SIZE, outstanding + (SIZE - outstanding) / 2]);
    draw_holdings(random, &mut ledger.book, outstanding);
    if random.percent(20) {
        cover_some_of_the_due(random, &mut ledger);
    }
    draw_cash_and_nets(random, &mut ledger.book);
    draw_unpaid(random, &mut ledger.book, outstanding);
    draw_applications(random, &mut ledger.book);
    draw_postings(random, &mut ledger.book);
    ledger
}

fn any_calendar(random: &mut Random) -> Vec<u32> {
    let often = [Sort::Weekdays, Sort::Everyday, Sort::Sparse, Sort::Scattered];
    let seldom = [Sort::Short, Sort::Empty];
    let sort = if random.percent(80) { random.pick(&often) } else { random.pick(&seldom) };
    calendar(random, sort)
}

/// Up to `high`, of small and large orders alike, often at either end.
fn up_to(random: &mut Random, high: u64) -> u64 {
    match random.below(8) {
        0 => 0,
        1 => high,
        _ => random.of_any_order(high).min(high),
    }
}

/// A trading day and its payment day, now and then the last that has one; or
/// none, where the calendar has no such day and sometimes else.
fn trading_day(random: &mut Random, calendar: &[u32]) -> Option<(u32, u32)> {
    let with_payment_day = |day: u32| next_after(calendar, day).map(|payment_day| (day, payment_day));
    if calendar.is_empty() || random.percent(3) {
        return None;
    }
    let days = 32 * calendar.len() as u64;
    let from = if random.percent(15) { days - 1 } else { random.below(days) };
    let later = first_from(calendar, from as u32).and_then(with_payment_day);
    let earlier = || (0..from as u32).rev().filter(|&day| crate::money::trades(calendar, day));
    later.or_else(|| earlier().find_map(with_payment_day))
}

fn draw_standing(random: &mut Random, book: &mut Book, day: u32) {
    book.day = Some(day);
    book.phase = random.pick(&[Phase::Closed, Phase::Trading, Phase::Trading, Phase::Paid]);
    book.status = random.pick(&[Status::Normal, Status::Normal, Status::Suspended, Status::Terminated]);
    book.failed_run = random.pick(&[0, 0, 1, FAILED_PAYMENTS]);
    book.short_run = random.pick(&[0, 0, 1, 2, SHORT_CLOSES]);
}

/// Trades whose sheets together are at most 10^10.
fn trades(random: &mut Random, day: u32, payment_day: u32) -> Vec<Trade> {
    let most = random.pick(&[2, 4, 40, 40, 300, 1_024, CAPACITY as u64]);
    let count = if random.percent(10) { random.below(2) } else { 2 + up_to(random, most - 2) };
    let sheets = random.of_any_order(TRADE_SHEETS.min(SIZE / count.max(1)));
    // Numbers far apart, in a row, or alike in their lower digits; all differ.
    let (base, apart) = (random.any(), random.pick(&[0, 0, 3, 20, 52]));
    let falling = random.percent(50);
    (0..count)
        .map(|place| Trade {
            contract: base.wrapping_add(if falling { count - place } else { place } << apart),
            sheets: up_to(random, sheets),
            price: up_to(random, PRICE) as u32,
            fallback: up_to(random, PRICE) as u32,
            first_payment: payment_day - up_to(random, payment_day.into()) as u32,
            due: due_day(random, day),
            product: product(random),
        })
        .collect()
}

/// Mostly around the day; a fit book may have any.
fn due_day(random: &mut Random, day: u32) -> u32 {
    let days = up_to(random, DAYS_AHEAD.into()) as u32;
    match random.below(8) {
        0 => random.any() as u32,
        1 | 2 => day,
        3 => day.saturating_sub(days),
        _ => day + days,
    }
}

/// None, or any of them.
fn product(random: &mut Random) -> u64 {
    if random.percent(30) {
        0
    } else {
        random.between(1, PRODUCTS as u64)
    }
}

/// None, a few, or as many as may be, each with content of its own.
fn add_spare_slots(random: &mut Random, table: &mut Vec<Trade>) {
    let room = (CAPACITY - table.len()) as u64;
    let spare = random.pick(&[0, 1, 8, room]).min(room);
    table.extend((0..spare).map(|_| Trade {
        contract: random.below(CAPACITY as u64),
        sheets: random.any(),
        price: random.any() as u32,
        fallback: random.any() as u32,
        first_payment: random.any() as u32,
        due: random.any() as u32,
        product: random.any(),
    }));
}

/// Units up to their limit, or few enough for V to lie around O.
fn draw_holdings(random: &mut Random, book: &mut Book, outstanding: u64) {
    let units = if random.percent(40) { SECURITY_UNITS } else { outstanding / 16 + 10 };
    for kind in 0..CASH_KIND {
        let effective = up_to(random, units.min(SECURITY_UNITS));
        let arriving = up_to(random, units.min(SECURITY_UNITS - effective));
        book.holdings[kind] = Holding { effective, arriving, frozen: frozen(random, effective) };
        book.rates[kind] = random.pick(&[0, 1, 9_000, 9_999, 10_000, RATE]);
    }
}

/// Units of kind 0 worth what stays after today and some of what is due, so that
/// not all of these can begin a next term; next to nothing of other securities.
fn cover_some_of_the_due(random: &mut Random, Ledger { book, table, .. }: &mut Ledger) {
    let (due, staying): (Vec<&Trade>, Vec<&Trade>) =
        table[..book.trades].iter().partition(|trade| Some(trade.due) <= book.day);
    let [due, staying] = [due, staying].map(|trades| trades.iter().map(|trade| trade.sheets).sum::<u64>());
    for kind in 0..CASH_KIND {
        book.holdings[kind] = Holding { effective: random.below(3), arriving: random.below(3), frozen: 0 };
    }
    book.holdings[0].effective = staying + random.below(due + 1);
    book.rates[0] = 10_000;
}

fn frozen(random: &mut Random, effective: u64) -> u64 {
    if random.percent(60) {
        0
    } else {
        up_to(random, effective)
    }
}

/// Cash of at most 10^16 fen in all; nets that the payer can just pay, or just
/// not, and nets around their limits.
fn draw_cash_and_nets(random: &mut Random, book: &mut Book) {
    let all = up_to(random, CASH);
    book.own = up_to(random, all);
    book.client = up_to(random, all - book.own);
    let effective = up_to(random, all - book.own - book.client);
    let arriving = up_to(random, CASH - book.own - book.client - effective);
    book.holdings[CASH_KIND] = Holding { effective, arriving, frozen: frozen(random, effective) };
    book.cleared_net = net(random, book);
    book.todays_net = net(random, book);
}

fn net(random: &mut Random, book: &Book) -> i64 {
    let near = up_to(random, CASH) as i64;
    let (own, client) = (book.own as i64, book.client as i64);
    random.pick(&[0, near, -near, own, own + 1, -client, -client - 1, NET - near, near - NET, NET, -NET])
}

/// U that V covers beside O, just so or just not, and U around its limit.
fn draw_unpaid(random: &mut Random, book: &mut Book, outstanding: u64) {
    let near = up_to(random, CASH);
    let spare = FEN_PER_SHEET * book.value().saturating_sub(outstanding);
    let unpaid =
        random.pick(&[0, 0, near, near, spare / 2, spare, spare, spare + 1, UNPAID - near, UNPAID]);
    book.todays_unpaid = up_to(random, unpaid);
    book.cleared_unpaid = unpaid - book.todays_unpaid;
}

/// Free places hold strays.
fn draw_applications(random: &mut Random, book: &mut Book) {
    book.applications = random.pick(&[0, 0, 1, 2, 5, 20, APPLICATIONS - 1, APPLICATIONS]);
    for place in 0..APPLICATIONS {
        let kind = random.below(KINDS as u64) as usize;
        let units = random.pick(&[book.holdings[kind].effective, APPLICATION_UNITS, 100]);
        let standing = place < book.applications;
        book.application_kinds[place] = if standing { kind as u8 } else { random.any() as u8 };
        book.application_units[place] = if standing { up_to(random, units) } else { random.any() };
    }
}

/// Most products posted; what is not may have prices, too.
fn draw_postings(random: &mut Random, book: &mut Book) {
    for posting in &mut book.postings {
        *posting = Posting {
            term: if random.percent(30) { 0 } else { up_to(random, DAYS_AHEAD.into()) },
            price: up_to(random, PRICE) as u32,
            fallback: up_to(random, PRICE) as u32,
        };
    }
}

/// Replaces one number by any other, whatever its order. Most books are unfit
/// afterwards.
pub fn replace_a_number(random: &mut Random, Ledger { calendar, book, table }: &mut Ledger) {
    let number = random.any() >> random.below(64);
    let held = &mut book.holdings[random.below(KINDS as u64) as usize];
    let place = random.below(APPLICATIONS as u64) as usize;
    let posting = &mut book.postings[place % PRODUCTS];
    match random.below(22) {
        0 => book.own = number,
        1 => book.client = number,
        2 => held.effective = number,
        3 => held.arriving = number,
        4 => held.frozen = number,
        5 => book.rates[place % CASH_KIND] = number,
        6 => book.size = number,
        7 => book.todays_net = number as i64,
        8 => book.cleared_net = (number as i64).wrapping_neg(),
        9 => book.todays_unpaid = number,
        10 => book.cleared_unpaid = number,
        11 => book.day = Some(number as u32),
        12 => book.failed_run = number as u8,
        13 => book.short_run = number as u8,
        14 => book.trades = number as usize,
        15 => book.applications = number as usize,
        16 => book.application_kinds[place] = number as u8,
        17 => book.application_units[place] = number,
        18 => posting.term = number,
        19 => posting.price = number as u32,
        20 => posting.fallback = number as u32,
        _ if calendar.is_empty() || random.percent(70) => replace_in_a_slot(random, table, number),
        _ => {
            let word = random.below(calendar.len() as u64) as usize;
            calendar[word] = number as u32;
        }
    }
}

fn replace_in_a_slot(random: &mut Random, table: &mut [Trade], number: u64) {
    if table.is_empty() {
        return;
    }
    let contract = random.pick(table).contract;
    let slot = &mut table[random.below(table.len() as u64) as usize];
    match random.below(6) {
        0 => slot.contract = contract,
        1 => slot.sheets = number,
        2 => slot.price = number as u32,
        3 => slot.fallback = number as u32,
        4 => slot.product = number,
        _ => slot.first_payment = number as u32,
    }
}
