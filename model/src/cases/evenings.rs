//! Evenings with many applications, of which V lets only some through, and
//! evenings with a single one at the edge of what unpaid redemptions let go.

use super::ledger::Ledger;
use super::Case;
use crate::book::{Book, Holding, Phase, Posting, Trade};
use crate::event::Event;
use crate::generator::random::Random;
use crate::limits::{APPLICATIONS, RATE, SIZE};
use crate::money::{CASH_KIND, FEN_PER_SHEET, KINDS};

/// A day that is paid, with units of every kind. The sheets of a trade that
/// stays, with those redeemed and not yet paid, lie around V.
pub fn evening(random: &mut Random) -> Ledger {
    let mut ledger = Ledger::second_day(&[u32::MAX]);
    let Ledger { book, table, .. } = &mut ledger;
    book.phase = Phase::Paid;
    book.holdings = std::array::from_fn(|kind| holding(random, kind));
    book.rates = std::array::from_fn(|_| random.between(0, RATE));
    book.size = SIZE;
    apply_for_some(random, book);
    let claimed = book.value() * random.between(70, 110) / 100;
    let redeemed = if random.percent(30) { 0 } else { random.below(claimed / 2 + 1) };
    table[0] = Trade { contract: 1, sheets: claimed - redeemed, due: 20, ..Trade::default() };
    redeem(random, book, &mut table[1], redeemed);
    book.trades = 2;
    ledger
}

/// Some of the sheets mature tonight, and may begin a next term; the others were
/// redeemed and are in U, in its two parts; with income or without.
fn redeem(random: &mut Random, book: &mut Book, maturing: &mut Trade, redeemed: u64) {
    let sheets = random.below(redeemed + 1);
    let (price, income) = random.pick(&[(0, 0), (0, 0), (3_650, 1), (100_000, 9_999)]);
    let product = random.below(2);
    *maturing = Trade { contract: 2, sheets, price, due: 1, product, ..Trade::default() };
    book.postings[0] = Posting { term: 7, price: 3_650, fallback: 0 };
    let unpaid = if redeemed == 0 { 0 } else { FEN_PER_SHEET * (redeemed - sheets) + income };
    book.todays_unpaid = random.below(unpaid + 1);
    book.cleared_unpaid = unpaid - book.todays_unpaid;
}

/// V is 200, O 100 and U 500,000 fen, in one part, in the other, to mature
/// tonight, or in all three. So 50 units may go, and not one more; nor may they
/// where U is a fen more. `outcome` is the number done.
pub fn at_the_edge() -> impl Iterator<Item = Case<u32>> {
    let unpaid = [(500_000, 0, 0), (0, 500_000, 0), (0, 0, 50), (100_000, 200_000, 20)];
    let edges = [(50, 0, 1), (51, 0, 0), (50, 1, 0), (49, 10_000, 1), (49, 10_001, 0), (100, 0, 0)];
    unpaid.into_iter().flat_map(move |(todays, cleared, maturing)| {
        edges.map(|(units, more, done)| {
            let mut ledger = with_redemptions(maturing);
            let book = &mut ledger.book;
            (book.todays_unpaid, book.cleared_unpaid) = (todays, cleared + more);
            (book.applications, book.application_units[0]) = (1, units);
            Case { ledger, event: Event::Close, outcome: Ok(done) }
        })
    })
}

/// A day that is paid, V 200 by kind 0 alone, a trade of 100 sheets that stays
/// and one that matures tonight without income.
fn with_redemptions(maturing: u64) -> Ledger {
    let mut ledger = Ledger::second_day(&[u32::MAX]);
    let Ledger { book, table, .. } = &mut ledger;
    (book.phase, book.rates[0], book.trades) = (Phase::Paid, 10_000, 2);
    table[0] = Trade { contract: 1, sheets: 100, due: 20, ..Trade::default() };
    table[1] = Trade { contract: 2, sheets: maturing, due: 1, ..Trade::default() };
    ledger
}

/// Few units, so that rounding tells; of cash as many as make a like value.
fn holding(random: &mut Random, kind: usize) -> Holding {
    let scale = if kind == CASH_KIND { 10_000 } else { 1 };
    let effective = scale * random.between(1, 1_000);
    Holding {
        effective,
        arriving: random.below(effective / 10 + 1),
        frozen: random.below(effective / 4 + 1),
    }
}

fn apply_for_some(random: &mut Random, book: &mut Book) {
    book.applications = random.between(1, APPLICATIONS as u64) as usize;
    for place in 0..book.applications {
        let kind = random.below(KINDS as u64) as usize;
        book.application_kinds[place] = kind as u8;
        book.application_units[place] = random.between(1, book.holdings[kind].effective / 4 + 1);
    }
}
