//! Demand 3: the tally beside the list, on random runs, and beside single Closes
//! on books that no journal leads to.

use model::answer::Answer;
use model::book::{Phase, Trade};
use model::cases::drawn::drawn;
use model::cases::ledger::Ledger;
use model::event::Event;
use model::generator::random::Random;
use model::step::{started_terms, step};
use model::tally::Tally;
use model::{generator, journal};

#[test]
fn the_tally_agrees_on_generated_journals() {
    for seed in 0..1_000 {
        let bytes = generator::generate(seed);
        let Ok(journal) = journal::parse(&bytes) else { continue };
        let mut ledger = Ledger::fresh(&journal.calendar);
        let mut tally = Tally::default();
        let mut moved = 0;
        for bytes in journal.events {
            let (own, client) = (ledger.book.own, ledger.book.client);
            let (started, headroom) = before_a_close(&ledger, bytes[0]);
            let answer = step(&ledger.calendar, &mut ledger.book, &mut ledger.table, bytes);
            let Ok(event) = Event::decode(bytes) else { continue };
            if event == Event::Pay && answer.is_accepted() {
                check_payment(&tally, &ledger, answer, own, client);
                moved += i128::from(own) - i128::from(ledger.book.own);
            }
            tally.record(&journal.calendar, event, answer.number, ledger.book.status, &started);
            check_sums(&tally, &ledger, event, answer);
            check_started(&started, headroom, answer);
            assert_eq!(moved, tally.paid, "seed {seed}");
        }
    }
}

/// What a Close would start, and the headroom before it.
fn before_a_close(ledger: &Ledger, code: u8) -> (Vec<Trade>, i64) {
    match code {
        12 => (started_terms(&ledger.calendar, &ledger.book, &ledger.table), ledger.headroom()),
        _ => (Vec::new(), 0),
    }
}

/// Headroom was 0 or above right after each started term: V is that before the
/// Close, and O is less by what matured.
fn check_started(started: &[Trade], headroom: i64, Answer { number, matured, .. }: Answer) {
    let mut headroom = headroom + matured as i64;
    for record in started.iter().filter(|_| number == 0) {
        headroom -= record.sheets as i64;
        assert!(headroom >= 0);
    }
}

/// A tally that has come to where a book stands.
fn tally_of(Ledger { book, table, .. }: &Ledger) -> Tally {
    let rows: Vec<Trade> = left_on(book.trades, table);
    Tally {
        day: book.day,
        rows,
        funds: book.all_cash().into(),
        begun: book.outstanding(table).into(),
        running: book.todays_net.into(),
        cleared: book.cleared_net.into(),
        ..Tally::default()
    }
}

/// The trades in use that have sheets left.
fn left_on(trades: usize, table: &[Trade]) -> Vec<Trade> {
    table[..trades].iter().filter(|trade| trade.sheets > 0).copied().collect()
}

/// The table's own rows, in its order, with the records of started terms.
#[test]
fn the_tally_follows_a_close_of_any_book() {
    let mut starts = 0;
    for seed in 0..4_000 {
        let mut ledger = drawn(&mut Random::new(seed));
        if ledger.book.day.is_some() {
            ledger.book.phase = Phase::Paid;
        }
        let mut tally = tally_of(&ledger);
        let (started, headroom) = before_a_close(&ledger, 12);
        let answer = ledger.does(Event::Close);
        tally.record(&ledger.calendar, Event::Close, answer.number, ledger.book.status, &started);
        assert_eq!(tally.rows, left_on(ledger.book.trades, &ledger.table), "seed {seed}");
        let nets = (ledger.book.todays_net.into(), ledger.book.cleared_net.into());
        assert_eq!((tally.running, tally.cleared), nets, "seed {seed}");
        check_sums(&tally, &ledger, Event::Close, answer);
        check_started(&started, headroom, answer);
        starts += if answer.number == 0 { started.len() } else { 0 };
    }
    assert!(starts > 5_000, "only {starts} terms started");
}

/// "the three kinds of cash, arriving included, together equal funds, and O
/// equals begun less redeemed. After each accepted Initial headroom was 0 or above."
fn check_sums(tally: &Tally, ledger: &Ledger, event: Event, answer: Answer) {
    assert_eq!(i128::from(ledger.book.all_cash()), tally.funds);
    let outstanding = ledger.book.outstanding(&ledger.table);
    assert_eq!(i128::from(outstanding), tally.begun - tally.redeemed);
    assert_eq!(tally.rows, left_on(ledger.book.trades, &ledger.table));
    if matches!(event, Event::Initial(_)) && answer.number == 0 {
        assert!(ledger.headroom() >= 0);
    }
}

/// "The net due at an accepted Pay is cleared less paid before it; its payer is
/// own from 0 up, else client. Exactly when the payer held at least its size,
/// the answer was 0, own fell by the net and client rose by it; otherwise 99,
/// and neither changed."
fn check_payment(tally: &Tally, ledger: &Ledger, answer: Answer, own: u64, client: u64) {
    let net = tally.cleared - tally.paid;
    let payer = if net >= 0 { own } else { client };
    let payable = i128::from(payer) >= net.abs();
    let moved = if payable { net } else { 0 };
    assert_eq!(answer.number, if payable { 0 } else { 99 });
    assert_eq!(i128::from(ledger.book.own), i128::from(own) - moved);
    assert_eq!(i128::from(ledger.book.client), i128::from(client) + moved);
}
