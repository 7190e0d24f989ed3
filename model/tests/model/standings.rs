//! The status of the day that opens, in all 36 cases (arts. 69, 70).

use model::book::Status;
use model::cases::{standings, Case};

/// "On turning terminated, every trade is redeemed whole", and at no other Open.
#[test]
fn the_status_is_that_of_the_articles() {
    let mut opened = 0;
    for Case { mut ledger, event, outcome } in standings::all() {
        let old = ledger.book.status;
        assert_eq!(ledger.does(event).number, 0);
        assert_eq!(Ok(ledger.book.status), outcome);
        let turned = old != Status::Terminated && ledger.book.status == Status::Terminated;
        assert_eq!(ledger.book.outstanding(&ledger.table), if turned { 0 } else { 100 });
        opened += 1;
    }
    assert_eq!(opened, 36);
}
