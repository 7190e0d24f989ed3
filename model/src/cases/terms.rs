//! Closes on books with products and postings: which terms start by themselves,
//! which do not, and what nets and U have to say to that.

use super::ledger::Ledger;
use super::Case;
use crate::answer::Answer;
use crate::book::{Phase, Posting, Status, Trade};
use crate::event::Event;

const NET: i64 = 4_000_000_000_000_000_000;
const UNPAID: u64 = 4_000_000_000_000_000_000;

/// Product 3 as a record has it, and what is posted of it.
const PRODUCT: u64 = 4;
const POSTED: Posting = Posting { term: 7, price: 3_000, fallback: 900 };

/// What a Close answers and leaves.
#[derive(Clone, Debug, PartialEq, Eq)]
pub struct Left {
    pub answer: Answer,
    pub trades: Vec<Trade>,
    pub cleared_net: i64,
    pub cleared_unpaid: u64,
}

pub fn all() -> impl Iterator<Item = Case<Left>> {
    starts()
        .into_iter()
        .chain(on_calendars())
        .chain(by_headroom())
        .chain(none())
        .chain(nets())
        .chain(unpaid())
        .chain(with_applications())
}

/// Day 1 is paid, V is 180 and S 1,000; a trade of each of these sheets matures
/// tonight, over one day at 3,650 ticks, which brings a fen a sheet.
fn maturing(sheets: &[u64]) -> Ledger {
    let mut ledger = Ledger::second_day(&[u32::MAX]);
    let Ledger { book, table, .. } = &mut ledger;
    (book.phase, book.trades, book.postings[3]) = (Phase::Paid, sheets.len(), POSTED);
    for ((slot, contract), &sheets) in table.iter_mut().zip(1..).zip(sheets) {
        let (price, fallback) = (3_650, 1_000);
        *slot = Trade { contract, sheets, price, fallback, first_payment: 1, due: 1, product: PRODUCT };
    }
    ledger
}

/// The same with a change.
fn changed(sheets: &[u64], change: fn(&mut Ledger)) -> Ledger {
    let mut ledger = maturing(sheets);
    change(&mut ledger);
    ledger
}

/// The record of a next term: the posted prices, paid for on day 2, due on day 8.
fn next(trade: &Trade) -> Trade {
    Trade { price: 3_000, fallback: 900, first_payment: 2, due: 8, ..*trade }
}

/// A Close after which the trades in these slots have a next term.
fn close(ledger: Ledger, started: &[usize]) -> Case<Left> {
    let left = left(&ledger, started);
    Case { ledger, event: Event::Close, outcome: Ok(left) }
}

fn refused(ledger: Ledger) -> Case<Left> {
    Case { ledger, event: Event::Close, outcome: Err(14) }
}

/// What is due today or earlier has matured, at 10,001 fen a sheet; each sheet
/// of a started term takes 10,000 of them from the net, and none from U.
fn left(Ledger { book, table, .. }: &Ledger, started: &[usize]) -> Left {
    let trades = &table[..book.trades];
    let due: u64 = trades.iter().filter(|trade| trade.due <= 1).map(|trade| trade.sheets).sum();
    let begun: u64 = started.iter().map(|&place| trades[place].sheets).sum();
    let goes_on = |(place, trade): (usize, &Trade)| match trade.due {
        0 | 1 => started.contains(&place).then(|| next(trade)),
        _ => Some(*trade),
    };
    Left {
        answer: Answer { matured: due, ..Answer::DONE },
        trades: trades.iter().enumerate().filter_map(goes_on).collect(),
        cleared_net: book.todays_net + book.cleared_net + 10_001 * due as i64 - 10_000 * begun as i64,
        cleared_unpaid: book.todays_unpaid + book.cleared_unpaid + 10_001 * due,
    }
}

/// A term starts whatever a new trade might be turned down for beside the five
/// conditions, and in the old slot.
pub fn starts() -> [Case<Left>; 11] {
    [
        close(maturing(&[100]), &[0]),
        close(maturing(&[10, 20, 30]), &[0, 1, 2]),
        // No multiple of 10.
        close(maturing(&[33]), &[0]),
        // Overdue.
        close(changed(&[7], |l| l.table[0].due = 0), &[0]),
        // No spare slot.
        close(changed(&[10, 20], |l| l.table.truncate(2)), &[0, 1]),
        // A failed payment today; short closes before a normal day.
        close(changed(&[100], |l| l.book.failed_run = 1), &[0]),
        close(changed(&[100], |l| l.book.short_run = 2), &[0]),
        // The first one and the last one that may be posted.
        close(with_products(1, 16), &[0, 1]),
        // One that stays keeps its slot between two that start again.
        close(changed(&[40, 60, 50], |l| l.table[1].due = 20), &[0, 2]),
        // One with nothing left leaves its slot, and the next moves up.
        close(maturing(&[0, 50]), &[1]),
        // One without a product, or with another one, matures beside it.
        close(
            changed(&[10, 20, 30], |l| (l.table[0].product, l.table[2].product) = (0, PRODUCT + 1)),
            &[1],
        ),
    ]
}

fn with_products(first: u64, second: u64) -> Ledger {
    let mut ledger = maturing(&[10, 20]);
    for (place, product) in [first, second].into_iter().enumerate() {
        ledger.table[place].product = product;
        ledger.book.postings[product as usize - 1] = POSTED;
    }
    ledger
}

/// Day 8 has to have a trading day at or after it, and that one another; a
/// holiday does not move the due day.
pub fn on_calendars() -> [Case<Left>; 6] {
    let on = |days: &[u32]| {
        let mut ledger = maturing(&[100]);
        ledger.calendar = vec![days.iter().fold(0b111, |word, day| word | 1 << day)];
        ledger
    };
    [
        close(on(&[8, 9]), &[0]),
        close(on(&[8]), &[]),
        close(on(&[7]), &[]),
        close(on(&[9, 31]), &[0]),
        close(on(&[9]), &[]),
        close(on(&[]), &[]),
    ]
}

/// V is 180: each is judged for itself, with those started before it in O.
pub fn by_headroom() -> [Case<Left>; 11] {
    [
        close(maturing(&[180]), &[0]),
        close(maturing(&[181]), &[]),
        close(maturing(&[190, 50]), &[1]),
        close(maturing(&[100, 90, 80]), &[0, 2]),
        close(maturing(&[100, 90, 81]), &[0]),
        close(maturing(&[60, 60, 60, 1]), &[0, 1, 2]),
        // What stays counts, and what has matured does not.
        close(changed(&[100, 80], |l| l.table[0].due = 2), &[1]),
        close(changed(&[100, 81], |l| l.table[0].due = 2), &[]),
        // Units that arrive tonight do not count yet, frozen ones do not at all.
        close(changed(&[181], |l| l.book.holdings[0].arriving = 1_000), &[]),
        close(changed(&[90, 1], |l| l.book.holdings[0].frozen = 100), &[0]),
        // O at S leaves each its own sheets.
        close(changed(&[60, 50, 40], |l| l.book.size = 150), &[0, 1, 2]),
    ]
}

pub fn none() -> [Case<Left>; 8] {
    [
        // Nothing left to mature.
        close(maturing(&[0]), &[]),
        close(changed(&[100], |l| l.book.status = Status::Suspended), &[]),
        close(changed(&[100], |l| l.book.status = Status::Terminated), &[]),
        close(
            changed(&[100], |l| (l.book.status, l.book.phase) = (Status::Terminated, Phase::Trading)),
            &[],
        ),
        // Not posted: not at all, with prices of no term, or another product alone.
        close(changed(&[100], |l| l.book.postings[3] = Posting::default()), &[]),
        close(changed(&[100], |l| l.book.postings[3].term = 0), &[]),
        close(changed(&[100], |l| l.book.postings.swap(3, 4)), &[]),
        // No product, whatever is posted.
        close(changed(&[100], |l| (l.table[0].product, l.book.postings) = (0, [POSTED; 16])), &[]),
    ]
}

fn with_nets((todays, cleared): (i64, i64), posting: Posting) -> Ledger {
    let mut ledger = maturing(&[100]);
    (ledger.book.todays_net, ledger.book.cleared_net) = (todays, cleared);
    ledger.book.postings[3] = posting;
    ledger
}

/// 1,000,100 fen mature and 1,000,000 begin: what starts can bring the cleared
/// net past its limit down, and keep today's within its limit up.
pub fn nets() -> [Case<Left>; 10] {
    let none = Posting::default();
    [
        refused(with_nets((-NET, -101), POSTED)),
        close(with_nets((-NET, -100), POSTED), &[0]),
        close(with_nets((-NET, -101), none), &[]),
        close(with_nets((-101, -NET), none), &[]),
        refused(with_nets((-101, -NET), POSTED)),
        refused(with_nets((NET - 1_000_099, 0), none)),
        close(with_nets((NET - 1_000_099, 0), POSTED), &[0]),
        close(with_nets((NET - 100, 0), POSTED), &[0]),
        refused(with_nets((NET - 99, 0), POSTED)),
        refused(with_nets((NET - 100, 1), POSTED)),
    ]
}

/// U is gross: the 1,000,100 fen join it whole.
pub fn unpaid() -> [Case<Left>; 4] {
    let with_unpaid = |(todays, cleared): (u64, u64)| {
        let mut ledger = maturing(&[100]);
        (ledger.book.todays_unpaid, ledger.book.cleared_unpaid) = (todays, cleared);
        ledger
    };
    [
        close(with_unpaid((UNPAID - 1_000_100, 0)), &[0]),
        refused(with_unpaid((UNPAID - 1_000_099, 0))),
        close(with_unpaid((5, UNPAID - 1_000_105)), &[0]),
        refused(with_unpaid((6, UNPAID - 1_000_105))),
    ]
}

/// V is 300. After 100 sheets mature, of which U has 1,000,100 fen, 199 units
/// may go; after they start again O has them too, and only 99 may.
pub fn with_applications() -> [Case<Left>; 4] {
    let applied = |units: u64, posting: Posting| {
        let mut ledger = maturing(&[100]);
        (ledger.book.holdings[0].effective, ledger.book.rates[0]) = (300, 10_000);
        (ledger.book.applications, ledger.book.application_units[0]) = (1, units);
        ledger.book.postings[3] = posting;
        ledger
    };
    [(199, 1, false), (200, 0, false), (99, 1, true), (100, 0, true)].map(|(units, done, starts)| {
        let (posting, started): (_, &[usize]) =
            if starts { (POSTED, &[0]) } else { (Posting::default(), &[]) };
        let ledger = applied(units, posting);
        let mut left = left(&ledger, started);
        (left.answer.done, left.answer.dropped) = (done, 1 - done);
        Case { ledger, event: Event::Close, outcome: Ok(left) }
    })
}
