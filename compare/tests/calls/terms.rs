//! Closes by hand on books with products and postings: the terms that start.

use compare::sides::{both, both_run, fill_spare_slots};
use model::cases::{terms, Case};

#[test]
fn next_terms_start_alike() {
    for Case { mut ledger, event, outcome } in terms::all() {
        fill_spare_slots(&mut ledger);
        let (event, wanted) = (event.encode(), outcome.as_ref().err().copied().unwrap_or(0));
        let lines = both_run(&mut ledger.clone(), &[event]).expect("the book is fit");
        let answer = both(&mut ledger, &event);
        assert_eq!((lines[0].answer, answer.number), (wanted, wanted));
        if let Ok(left) = outcome {
            assert_eq!((answer, &ledger.table[..ledger.book.trades]), (left.answer, &left.trades[..]));
        }
    }
}
