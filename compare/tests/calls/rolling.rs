//! Trades that begin again by themselves, event by event and as a run.

use compare::sides::{both, both_run, fill_spare_slots};
use model::cases::rolling::{self, Story};

#[test]
fn each_story_is_answered_alike() {
    for Story { name, mut ledger, events, trades } in rolling::all() {
        fill_spare_slots(&mut ledger);
        let bytes: Vec<_> = events.iter().map(|(event, _)| event.encode()).collect();
        let lines = both_run(&mut ledger.clone(), &bytes).expect("the book is fit");
        for ((event, line), (_, number)) in bytes.iter().zip(lines).zip(events) {
            let answer = both(&mut ledger, event);
            assert_eq!((answer.number, line.answer), (number, number), "{name}");
        }
        assert_eq!(ledger.table[..ledger.book.trades], trades, "{name}");
    }
}
