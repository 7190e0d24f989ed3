//! An unfit book is answered 1, whatever the event, and left.

use compare::sides::{both, both_run, fill_spare_slots};
use model::answer::Answer;
use model::cases::ledger::Ledger;
use model::cases::unfit::{busy_ledger, every_event, UNFIT};
use model::generator::{generate_as, Profile};
use model::journal::parse;

/// A book with 200 trades on a table of 300.
fn large_ledger() -> Ledger {
    let bytes = generate_as(Profile::FullTable, 1);
    let journal = parse(&bytes).expect("no damage in this profile");
    let mut ledger = Ledger::with_slots(&journal.calendar, 300);
    let until = journal.events.iter().position(|event| {
        ledger.does_bytes(event);
        ledger.book.trades == 200
    });
    assert!(until.is_some(), "the journal makes 200 trades");
    ledger
}

#[test]
fn an_unfit_book_is_answered_1_and_left() {
    for mut ledger in [busy_ledger(), large_ledger()] {
        fill_spare_slots(&mut ledger);
        for (name, change) in UNFIT {
            let mut unfit = ledger.clone();
            change(&mut unfit);
            let mut after = unfit.clone();
            for event in every_event() {
                assert_eq!(both(&mut after, &event), Answer { number: 1, ..Answer::default() }, "{name}");
            }
            assert_eq!(both_run(&mut after, &every_event()), Err(1), "{name}");
            assert_eq!(both_run(&mut after, &[]), Err(1), "{name}");
            assert!(after == unfit, "{name}");
        }
    }
}
