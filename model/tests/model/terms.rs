//! Products and what is posted of them (document 02, ask 4).

use model::book::{Phase, Posting, Trade};
use model::cases::drawn::drawn;
use model::cases::ledger::Ledger;
use model::cases::{terms, Case};
use model::coverage::terms::NextTerms;
use model::event::Event;
use model::generator::event_for;
use model::generator::random::Random;

#[test]
fn a_fresh_book_has_nothing_posted() {
    assert_eq!(Ledger::fresh(&[]).book.postings, [Posting { term: 0, price: 0, fallback: 0 }; 16]);
}

/// What an event leaves posted: a Post sets one product's, "Open forgets what was
/// posted", both if they are accepted, and all else keeps it.
fn left_posted(before: [Posting; 16], event: Event, number: u32) -> [Posting; 16] {
    let mut postings = before;
    match event {
        Event::Open if number == 0 => postings = [Posting::default(); 16],
        Event::Post { product, term, price, fallback } if number == 0 => {
            postings[usize::from(product)] = Posting { term, price, fallback }
        }
        _ => {}
    }
    postings
}

#[test]
fn a_post_is_kept_until_the_next_open() {
    let (mut changed, mut kept) = ([0; 14], 0);
    for seed in 0..5_000 {
        let mut random = Random::new(seed);
        let mut ledger = drawn(&mut random);
        let (before, bytes) = (ledger.book.postings, event_for(&mut random, &ledger));
        let number = ledger.does_bytes(&bytes).number;
        let wanted = Event::decode(&bytes).map_or(before, |event| left_posted(before, event, number));
        assert_eq!(ledger.book.postings, wanted, "seed {seed}");
        match wanted == before {
            true => kept += 1,
            false => changed[usize::from(bytes[0])] += 1,
        }
    }
    assert!(changed[1] > 200 && changed[13] > 100 && kept > 3_000, "{changed:?} changed, {kept} kept");
}

/// The books by hand: what each Close answers and leaves, or that it is refused
/// and leaves everything.
#[test]
fn next_terms_start_where_they_should() {
    for (place, Case { mut ledger, event, outcome }) in terms::all().enumerate() {
        let before = ledger.clone();
        assert!(before.is_fit(), "case {place}");
        let answer = ledger.does(event);
        let Ok(left) = outcome else {
            assert_eq!((Err(answer.number), ledger), (outcome, before), "case {place}");
            continue;
        };
        assert_eq!(answer, left.answer, "case {place}");
        let (in_use, spare) = ledger.table.split_at(ledger.book.trades);
        assert_eq!(in_use, left.trades, "case {place}");
        assert!(spare.iter().all(|slot| *slot == Trade::default()), "case {place}");
        assert_eq!(
            (ledger.book.todays_net, ledger.book.cleared_net),
            (0, left.cleared_net),
            "case {place}"
        );
        let unpaid = (ledger.book.todays_unpaid, ledger.book.cleared_unpaid);
        assert_eq!(unpaid, (0, left.cleared_unpaid), "case {place}");
        assert_eq!(
            ledger.book.postings, before.book.postings,
            "case {place}: a Close keeps what is posted"
        );
        assert!(ledger.is_fit(), "case {place}");
    }
}

/// A Close of the ledger, with what became of its next terms.
fn close_watched(ledger: &mut Ledger, met: &mut NextTerms) -> u32 {
    let (before, trades) = (ledger.book.clone(), ledger.table[..ledger.book.trades].to_vec());
    let (event, number) = (Event::Close.encode(), ledger.does(Event::Close).number);
    met.record(&ledger.calendar, &before, &trades, &event, number);
    number
}

/// Trades that were due and are on the table after the Close have begun anew.
fn begun_anew(before: &Ledger, after: &Ledger) -> u64 {
    let is_due = |contract: u64| {
        let place = before.book.find(&before.table, contract).expect("a Close brings no contract");
        Some(before.table[place].due) <= before.book.day
    };
    after.table[..after.book.trades].iter().filter(|trade| is_due(trade.contract)).count() as u64
}

#[test]
fn every_reason_not_to_start_is_met() {
    let (mut met, mut started) = (NextTerms::default(), 0);
    for seed in 0..2_000 {
        let mut ledger = drawn(&mut Random::new(seed));
        if ledger.book.day.is_some() {
            ledger.book.phase = Phase::Paid;
        }
        let before = ledger.clone();
        if close_watched(&mut ledger, &mut met) == 0 {
            started += begun_anew(&before, &ledger);
        }
    }
    assert_eq!(met.started, started, "terms started by the tables");
    assert!(met.rarer_than(50).is_empty(), "{met}");
    for Case { mut ledger, .. } in terms::all() {
        close_watched(&mut ledger, &mut met);
    }
    assert!(met.rarer_on_any_book(2).is_empty(), "{met}");
}

/// A trade has its Initial's product and keeps it wherever it moves; a slot that is freed has none,
/// and a spare one keeps its content.
#[test]
fn products_stay_with_their_trades() {
    let (mut named, mut empty) = (0, 0);
    for seed in 0..5_000 {
        let mut random = Random::new(seed);
        let mut ledger = drawn(&mut random);
        let (before, event) = (ledger.clone(), event_for(&mut random, &ledger));
        ledger.does_bytes(&event);
        let begun = match Event::decode(&event) {
            Ok(Event::Initial(terms)) => terms.product,
            _ => 0,
        };
        let in_use = &ledger.table[..ledger.book.trades];
        named += u32::from(begun > 0 && in_use.len() > before.book.trades);
        for trade in in_use {
            let old = before.book.find(&before.table, trade.contract).map(|place| before.table[place]);
            assert_eq!(trade.product, old.map_or(begun.into(), |old| old.product), "seed {seed}");
        }
        let freed = ledger.book.trades.min(before.book.trades)..before.book.trades;
        empty += freed.len();
        assert!(ledger.table[freed].iter().all(|slot| *slot == Trade::default()), "seed {seed}");
        let spare = ledger.book.trades.max(before.book.trades)..;
        assert_eq!(ledger.table[spare.clone()], before.table[spare], "seed {seed}");
    }
    assert!(named > 5 && empty > 100, "{named} trades began with a product, {empty} slots were freed");
}
