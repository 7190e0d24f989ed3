//! Codes of no case are not well-formed: every call answers 1 and leaves
//! everything as it was, the buffer too.

use compare::proved::book::Codes;
use compare::proved::{lent, LINE_NUMBERS};
use compare::sides::Lent;
use compare::UNWRITTEN;
use model::answer::Answer;
use model::cases::ledger::Ledger;
use model::cases::unfit::busy_ledger;
use model::event::{Event, EVENT_BYTES};
use model::limits::{FAILED_PAYMENTS, SHORT_CLOSES};

/// A change after which the codes are not well-formed.
type Blot = fn(&mut Codes);

const BLOTS: [Blot; 8] = [
    |codes| codes.phase = 3,
    |codes| codes.status = 3,
    |codes| codes.failed = FAILED_PAYMENTS + 1,
    |codes| codes.short = SHORT_CLOSES + 1,
    |codes| codes.short = u8::MAX,
    |codes| (codes.dated, codes.day) = (0, 5),
    |codes| codes.dated = 2,
    |codes| codes.dated = u8::MAX,
];

fn assert_refused(ledger: &Ledger, event: &[u8; EVENT_BYTES], blot: Blot) {
    let mut before = Lent::of(ledger);
    blot(before.rows.codes());
    let mut after = before.clone();
    let Lent { rows, table } = &mut after;
    let (calendar, mut lines) = (&ledger.calendar, [UNWRITTEN; LINE_NUMBERS]);
    let refused = Answer { number: 1, ..Answer::default() };
    assert_eq!(lent::apply(calendar, rows, table, event), refused);
    assert_eq!(lent::run_into(calendar, rows, table, event, &mut lines), 1);
    assert_eq!(lent::cover(calendar, rows, table), (1, 0, 0));
    assert!(after == before, "everything is left");
    assert_eq!(lines, [UNWRITTEN; LINE_NUMBERS]);
}

#[test]
fn codes_that_are_not_well_formed_are_answered_1_and_left() {
    let fresh = Ledger::with_slots(&[u32::MAX], 3);
    for (ledger, event) in [(fresh, Event::Open), (busy_ledger(), Event::Pay)] {
        let event = event.encode();
        assert!(ledger.clone().does_bytes(&event).is_accepted(), "without a blot the event is done");
        for blot in BLOTS {
            assert_refused(&ledger, &event, blot);
        }
    }
}
