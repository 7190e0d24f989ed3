//! Open from every standing: the status, and what turning terminated redeems.

use compare::sides::{both, both_run, fill_spare_slots};
use model::cases::{standings, Case};

#[test]
fn opens_agree_in_all_36_cases() {
    let mut opened = 0;
    for Case { mut ledger, event, outcome } in standings::all() {
        fill_spare_slots(&mut ledger);
        let event = event.encode();
        assert!(both_run(&mut ledger.clone(), &[event]).is_ok());
        assert_eq!(both(&mut ledger, &event).number, 0);
        assert_eq!(Ok(ledger.book.status), outcome);
        opened += 1;
    }
    assert_eq!(opened, 36);
}
