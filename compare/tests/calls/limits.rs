//! Books that no journal leads to: nets and U that come to their limits, books
//! that are just fit, evenings with many applications, and with one at the edge.

use compare::sides::{both, both_run, fill_spare_slots};
use model::cases::evenings::{at_the_edge, evening};
use model::cases::unfit::{busy_ledger, every_event, STILL_FIT};
use model::cases::{nets, unpaid, Case};
use model::event::Event;
use model::generator::random::Random;

/// The events that are answered 14; every other outcome agrees, too.
fn refused_by_limits<T>(cases: impl Iterator<Item = Case<T>>) -> Vec<u8> {
    let mut refused = Vec::new();
    for Case { mut ledger, event, outcome } in cases {
        fill_spare_slots(&mut ledger);
        let (event, wanted) = (event.encode(), outcome.err().unwrap_or(0));
        let lines = both_run(&mut ledger.clone(), &[event]).expect("the book is fit");
        assert_eq!((lines[0].answer, both(&mut ledger, &event).number), (wanted, wanted));
        refused.extend((wanted == 14).then_some(event[0]));
    }
    refused.dedup();
    refused
}

#[test]
fn answer_14_by_nets() {
    assert_eq!(refused_by_limits(nets::all()), [9, 10, 1, 12], "Initial, Early, Open and Close");
}

#[test]
fn answer_14_by_unpaid_redemptions() {
    assert_eq!(refused_by_limits(unpaid::all()), [10, 1, 12], "Early, Open and Close");
}

#[test]
fn unpaid_redemptions_hold_what_they_need() {
    for Case { mut ledger, event, outcome } in at_the_edge() {
        fill_spare_slots(&mut ledger);
        assert_eq!(Ok(both(&mut ledger, &event.encode()).done), outcome);
    }
}

#[test]
fn books_at_their_limits_agree_on_every_event() {
    for (name, change) in STILL_FIT {
        let mut ledger = busy_ledger();
        fill_spare_slots(&mut ledger);
        change(&mut ledger);
        for event in every_event() {
            assert_ne!(both(&mut ledger.clone(), &event).number, 1, "{name}");
        }
        assert!(both_run(&mut ledger, &every_event()).is_ok(), "{name}");
    }
}

#[test]
fn evenings_with_many_applications_agree() {
    let mut random = Random::new(5);
    let (mut done, mut dropped) = (0, 0);
    for _ in 0..2_000 {
        let mut ledger = evening(&mut random);
        fill_spare_slots(&mut ledger);
        let answer = both(&mut ledger, &Event::Close.encode());
        (done, dropped) = (done + answer.done, dropped + answer.dropped);
    }
    assert!(done > 10_000 && dropped > 10_000, "{done} done and {dropped} dropped");
}
