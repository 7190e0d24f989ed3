//! Calls on a book in lent rows and its lent table against the model. Single ones:
//! the answer with its figures, the whole book and the whole table after every
//! event, and then headroom and O. Runs: every line, and the book and the table at
//! the end. Slots past the trades in use hold strays.

mod lengths;
mod limits;
mod malformed;
mod rolling;
mod standings;
mod terms;
mod unfit;

use compare::sides::{both, both_run, fill_spare_slots};
use model::cases::ledger::Ledger;
use model::generator::corpus;
use model::journal::parse;
use model::limits::CAPACITY;

#[test]
fn journals_event_by_event_agree_on_tables_of_many_lengths() {
    let mut accepted = 0;
    for (place, (_, bytes)) in (0..).zip(corpus(20_000..20_400)) {
        let Ok(journal) = parse(&bytes) else { continue };
        let slots = [0, 1, 3, 40, 300, CAPACITY][place % 6];
        let mut ledger = Ledger::with_slots(&journal.calendar, slots);
        for event in journal.events {
            fill_spare_slots(&mut ledger);
            accepted += u32::from(both(&mut ledger, event).is_accepted());
        }
    }
    assert!(accepted > 10_000, "only {accepted} events were accepted");
}

#[test]
fn runs_go_on_where_the_last_one_ended() {
    for (name, bytes) in corpus(20_400..20_800) {
        let Ok(journal) = parse(&bytes) else { continue };
        let mut ledger = Ledger::with_slots(&journal.calendar, 300);
        for events in journal.events.chunks(70) {
            fill_spare_slots(&mut ledger);
            assert!(both_run(&mut ledger, events).is_ok(), "{name}");
        }
    }
}
