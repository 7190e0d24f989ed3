//! Each way of being unfit is answered 1 by every event, and changes nothing.

use model::answer::Answer;
use model::cases::drawn::drawn;
use model::cases::ledger::Ledger;
use model::cases::unfit::{busy_ledger, can_be_changed, every_event, STILL_FIT, UNFIT};
use model::generator::event_for;
use model::generator::random::Random;

#[test]
fn every_way_of_being_unfit_is_answered_1() {
    for (name, change) in UNFIT {
        let mut ledger = busy_ledger();
        change(&mut ledger);
        assert!(!ledger.is_fit(), "{name}");
        for bytes in every_event() {
            let mut after = ledger.clone();
            assert_eq!(after.does_bytes(&bytes), Answer { number: 1, ..Answer::default() }, "{name}");
            assert_eq!(after, ledger, "{name}");
        }
    }
}

#[test]
fn a_fresh_book_is_fit_under_any_calendar() {
    assert!(Ledger::fresh(&[]).is_fit());
    assert!(Ledger::fresh(&[u32::MAX; 1_200]).is_fit());
}

/// The last trading day cannot be a book's day: it has no payment day.
#[test]
fn a_day_without_another_is_unfit() {
    let mut ledger = Ledger::fresh(&[6]);
    ledger.book.day = Some(1);
    assert!(ledger.is_fit());
    ledger.book.day = Some(2);
    assert!(!ledger.is_fit());
}

#[test]
fn books_at_their_limits_are_fit() {
    for (name, change) in STILL_FIT {
        let mut ledger = busy_ledger();
        change(&mut ledger);
        assert!(ledger.is_fit(), "{name}");
    }
}

/// Most drawn books can be changed, and every change tells.
#[test]
fn drawn_books_are_fit_until_they_are_changed() {
    let mut changed = 0;
    for seed in 0..400 {
        let ledger = drawn(&mut Random::new(seed));
        assert!(ledger.is_fit(), "seed {seed}");
        if !can_be_changed(&ledger) {
            continue;
        }
        changed += 1;
        for (name, change) in UNFIT {
            let mut unfit = ledger.clone();
            change(&mut unfit);
            assert!(!unfit.is_fit(), "{name}, seed {seed}");
        }
    }
    assert!(changed > 200, "only {changed} of 400 books were changed");
}

#[test]
fn drawn_books_stay_fit() {
    for seed in 0..5_000 {
        let mut random = Random::new(seed);
        let mut ledger = drawn(&mut random);
        let event = event_for(&mut random, &ledger);
        ledger.does_bytes(&event);
        assert!(ledger.is_fit(), "seed {seed}");
    }
}
