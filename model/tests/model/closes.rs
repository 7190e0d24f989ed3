//! The evening: why applications are done or dropped, and what a Close may do.

use model::book::{Book, Phase, Status};
use model::cases::evenings::{at_the_edge, evening};
use model::cases::ledger::{trade, Ledger};
use model::cases::Case;
use model::event::{Account, Event};
use model::generator::random::Random;
use model::money::redemption;

/// The third day, with 30,000 fen of guarantee cash; V is 183, O 100.
fn with_cash_pledged() -> Ledger {
    let mut ledger = Ledger::second_day(&[u32::MAX]);
    ledger.does(Event::Pledge { kind: 32, units: 30_000 });
    ledger.does(trade(7, 100, 20));
    ledger.next_day();
    assert_eq!((ledger.book.value(), ledger.headroom()), (183, 83));
    assert_eq!(ledger.does(Event::Withdraw { kind: 32, units: 20_000 }).number, 0);
    assert_eq!(ledger.does(Event::Withdraw { kind: 0, units: 50 }).number, 0);
    ledger
}

fn done_and_dropped(ledger: &mut Ledger) -> (u32, u32) {
    let answer = ledger.does(Event::Close);
    assert_eq!((answer.number, ledger.book.phase, ledger.book.applications), (0, Phase::Closed, 0));
    (answer.done, answer.dropped)
}

#[test]
fn done_after_a_payment() {
    let mut ledger = with_cash_pledged();
    assert_eq!(ledger.does(Event::Pay).number, 0);
    let own = ledger.book.own;
    assert_eq!(done_and_dropped(&mut ledger), (2, 0));
    assert_eq!((ledger.book.own, ledger.book.guarantee()), (own + 20_000, 10_000));
    assert_eq!(ledger.book.holdings[0].effective, 150);
}

#[test]
fn dropped_after_a_failed_payment() {
    let mut ledger = with_cash_pledged();
    ledger.does(Event::FundOut { account: Account::Client, fen: 3_000_000 });
    assert_eq!(ledger.does(Event::Pay).number, 99);
    let before = ledger.book.clone();
    assert_eq!(done_and_dropped(&mut ledger), (0, 2));
    assert_eq!((ledger.book.own, ledger.book.holdings), (before.own, before.holdings));
}

/// The second application asks for 50 of 200 units, of which 151 are frozen.
#[test]
fn dropped_where_too_much_is_frozen() {
    let mut ledger = with_cash_pledged();
    ledger.does(Event::Pay);
    assert_eq!(ledger.does(Event::Rate { kind: 0, rate: 20_000 }).number, 0);
    assert_eq!(ledger.does(Event::Freeze { kind: 0, units: 151 }).number, 0);
    // With a single sheet left, value cannot be the reason.
    ledger.table[0].sheets = 1;
    let mut just_enough = ledger.clone();
    assert_eq!(just_enough.does(Event::Freeze { kind: 0, units: 150 }).number, 0);
    assert_eq!(done_and_dropped(&mut ledger), (1, 1));
    assert_eq!(done_and_dropped(&mut just_enough), (2, 0));
}

/// Applications are weighed in order, each after those done before it.
#[test]
fn dropped_where_value_would_fall_below_outstanding() {
    let mut ledger = with_cash_pledged();
    ledger.does(Event::Pay);
    // V is 108 and 3: the cash may go down to 1, then 50 units at 5,400 may not.
    ledger.does(Event::Rate { kind: 0, rate: 5_400 });
    assert_eq!(done_and_dropped(&mut ledger), (1, 1));
    assert_eq!((ledger.book.value(), ledger.book.holdings[0].effective), (109, 200));
}

/// S plays no part in an application: V does, whatever the declared size.
#[test]
fn the_declared_size_is_not_looked_at() {
    let mut ledger = with_cash_pledged();
    ledger.does(Event::Size { sheets: 100 });
    ledger.does(Event::Pay);
    assert_eq!(done_and_dropped(&mut ledger), (2, 0));
    assert_eq!(ledger.book.short_run, 0);
}

/// Out of a journal's reach: a terminated book with applications standing.
#[test]
fn a_terminated_book_closes_from_trading_and_from_paid() {
    let mut ledger = with_cash_pledged();
    assert_eq!(ledger.does(Event::Close).number, 4);
    ledger.book.status = Status::Terminated;
    assert_eq!(done_and_dropped(&mut ledger.clone()), (0, 2));
    ledger.book.phase = Phase::Paid;
    assert_eq!(done_and_dropped(&mut ledger), (2, 0));
    assert_eq!(ledger.does(Event::Close).number, 4);
}

/// How many applications a Close does, and the book after them: V is counted
/// anew after each, over all 33 kinds. Of an evening's two trades the second
/// matures, over the two days from 0 to the payment day, and goes on where it
/// has a product and V, before units arrive, covers both.
fn settled(before: &Ledger) -> (u32, Book) {
    let mut book = before.book.clone();
    let [stays, matures] = [before.table[0], before.table[1]];
    let (_, amount) = redemption(matures.sheets, matures.price.into(), 2);
    let goes_on = matures.product > 0 && stays.sheets + matures.sheets <= book.value();
    let outstanding = stays.sheets + if goes_on { matures.sheets } else { 0 };
    let claims = 10_000 * outstanding + book.todays_unpaid + book.cleared_unpaid + amount;
    for held in &mut book.holdings {
        held.effective += std::mem::take(&mut held.arriving);
    }
    let done = (0..book.applications).filter(|&place| is_done(&mut book, place, claims)).count();
    (done as u32, book)
}

/// Does an application if it may be done, and says whether.
fn is_done(book: &mut Book, place: usize, claims: u64) -> bool {
    let (kind, units) = (usize::from(book.application_kinds[place]), book.application_units[place]);
    let mut afterwards = book.clone();
    let held = &mut afterwards.holdings[kind];
    if units > held.effective - held.frozen {
        return false;
    }
    held.effective -= units;
    afterwards.own += if kind == 32 { units } else { 0 };
    let done = 10_000 * afterwards.value() >= claims;
    if done {
        *book = afterwards;
    }
    done
}

#[test]
fn applications_are_weighed_by_the_whole_book_after_each() {
    let mut random = Random::new(3);
    let (mut done, mut dropped) = (0, 0);
    for round in 0..2_000 {
        let mut ledger = evening(&mut random);
        let (expected, book) = settled(&ledger);
        let applications = ledger.book.applications as u32;
        let answer = ledger.does(Event::Close);
        assert_eq!((answer.done, answer.dropped), (expected, applications - expected), "round {round}");
        assert_eq!((ledger.book.own, ledger.book.holdings), (book.own, book.holdings), "round {round}");
        (done, dropped) = (done + answer.done, dropped + answer.dropped);
    }
    assert!(done > 10_000 && dropped > 10_000, "{done} done and {dropped} dropped");
}

#[test]
fn unpaid_redemptions_hold_what_they_need() {
    for (place, Case { mut ledger, outcome, .. }) in at_the_edge().enumerate() {
        let done = outcome.unwrap();
        assert_eq!(done_and_dropped(&mut ledger), (done, 1 - done), "case {place}");
    }
}

/// "These five fit any phase and act immediately."
#[test]
fn funds_size_rate_and_freeze_act_in_any_phase() {
    for phase in [Phase::Closed, Phase::Trading, Phase::Paid] {
        for status in [Status::Normal, Status::Suspended, Status::Terminated] {
            let mut ledger = with_cash_pledged();
            (ledger.book.phase, ledger.book.status) = (phase, status);
            let mut expected = ledger.book.clone();
            expected.own += 5;
            expected.client -= 7;
            expected.size = 100;
            expected.rates[31] = 20_000;
            expected.holdings[0].frozen = 200;
            for event in [
                Event::FundIn { account: Account::Own, fen: 5 },
                Event::FundOut { account: Account::Client, fen: 7 },
                Event::Size { sheets: 100 },
                Event::Rate { kind: 31, rate: 20_000 },
                Event::Freeze { kind: 0, units: 200 },
            ] {
                assert_eq!(ledger.does(event).number, 0);
            }
            assert_eq!(ledger.book, expected);
        }
    }
}

/// The payer of a net of 0 holds at least 0: it is paid, and the failed run ends with it.
#[test]
fn a_net_of_nothing_is_paid() {
    let mut ledger = Ledger::second_day(&[u32::MAX]);
    ledger.book.failed_run = 2;
    (ledger.book.own, ledger.book.client) = (0, 0);
    assert_eq!(ledger.does(Event::Pay).number, 0);
    assert_eq!((ledger.book.failed_run, ledger.book.phase), (0, Phase::Paid));
    assert_eq!(ledger.does(Event::Pay).number, 4);
}
