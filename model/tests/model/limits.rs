//! Answer 14 where a net or U would pass 4×10^18: out of a journal's reach, so
//! the books are made by hand.

use std::fmt::Debug;

use model::answer::Answer;
use model::book::{Book, Status};
use model::cases::{nets, unpaid, Case};
use model::event::Event;

/// Both nets.
fn check<const N: usize>(cases: [Case<(i64, i64)>; N]) {
    check_numbers(cases, |book| (book.todays_net, book.cleared_net));
}

/// Both parts of U.
fn check_unpaid<const N: usize>(cases: [Case<(u64, u64)>; N]) {
    check_numbers(cases, |book| (book.todays_unpaid, book.cleared_unpaid));
}

fn check_numbers<T: PartialEq + Debug, const N: usize>(cases: [Case<T>; N], numbers: fn(&Book) -> T) {
    for Case { mut ledger, event, outcome } in cases {
        let before = ledger.clone();
        let Answer { number, matured, .. } = ledger.does(event);
        match outcome {
            Ok(left) => {
                assert_eq!((number, numbers(&ledger.book)), (0, left));
                assert_eq!(matured, if event == Event::Close { 100 } else { 0 });
            }
            Err(refusal) => assert_eq!((number, ledger), (refusal, before)),
        }
    }
}

#[test]
fn an_initial_trade_may_reach_the_limit_down() {
    check(nets::initial());
}

#[test]
fn an_early_redemption_may_reach_the_limit_up() {
    check(nets::early());
}

#[test]
fn the_open_that_terminates_may_reach_the_limit_up() {
    check(nets::open());
}

/// Out of a journal's reach: a book that was terminated before, with trades.
#[test]
fn a_later_open_redeems_nothing() {
    let [_, _, Case { mut ledger, event, .. }, _] = nets::open();
    assert_eq!((ledger.book.status, ledger.does(event).number), (Status::Terminated, 0));
    assert_eq!(ledger.book.outstanding(&ledger.table), 100);
}

#[test]
fn a_close_looks_at_both_nets() {
    check(nets::close());
}

#[test]
fn redemptions_may_bring_unpaid_to_its_limit() {
    check_unpaid(unpaid::early());
    check_unpaid(unpaid::open());
    check_unpaid(unpaid::close());
}

#[test]
fn an_initial_trade_does_not_look_at_unpaid() {
    check_unpaid(unpaid::initial());
}
