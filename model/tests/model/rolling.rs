//! Trades that begin again by themselves, from their Initial on.

use model::cases::ledger::{post, trade_of, Ledger};
use model::cases::rolling::{self, Story};
use model::event::{Account, Event};

#[test]
fn each_story_is_answered_as_told() {
    for Story { name, mut ledger, events, trades } in rolling::all() {
        for (place, (event, number)) in events.into_iter().enumerate() {
            assert_eq!(ledger.does(event).number, number, "{name}, event {place}: {event:?}");
            assert!(ledger.is_fit(), "{name}, event {place}");
        }
        assert_eq!(ledger.table[..ledger.book.trades], trades, "{name}");
    }
}

/// The holiday's story on the morning of day 6: due days stay where they were put.
#[test]
fn a_holiday_does_not_move_the_due_day() {
    let stories = rolling::all();
    let holiday = stories.into_iter().find(|story| story.name == "due on a holiday");
    let Story { mut ledger, events, .. } = holiday.expect("there is such a story");
    let on_day_6 = events.iter().rposition(|(event, _)| *event == Event::Open).expect("day 6 opens");
    for (event, number) in &events[..=on_day_6] {
        assert_eq!(ledger.does(*event).number, *number);
    }
    let dues: Vec<u32> = ledger.table[..ledger.book.trades].iter().map(|trade| trade.due).collect();
    assert_eq!((ledger.book.day, dues), (Some(6), vec![4, 5]));
}

/// 100 sheets over one day at 3,650 ticks bring 1,000,100 fen, of which the next
/// term takes 1,000,000; it brings 82.19 fen a day at 3,000 ticks, and U has all
/// that is redeemed.
#[test]
fn income_does_not_roll_over() {
    let mut ledger = Ledger::second_day(&[u32::MAX]);
    ledger.does(post(3, 1));
    ledger.does(trade_of(4, 7, 100, 2));
    ledger.next_day();
    assert_eq!(ledger.book.cleared_net, -1_000_000);
    ledger.does(post(3, 2));
    assert_eq!(ledger.next_day().matured, 100);
    assert_eq!((ledger.book.cleared_net, ledger.book.cleared_unpaid), (100, 1_000_100));
    assert_eq!(ledger.does(Event::Early { contract: 7, sheets: 40, price: 3_000 }).number, 0);
    assert_eq!((ledger.book.todays_net, ledger.book.todays_unpaid), (400_033, 400_033));
    ledger.next_day();
    assert_eq!((ledger.book.cleared_net, ledger.book.cleared_unpaid), (400_033, 400_033));
    assert_eq!(ledger.next_day().matured, 60);
    // Begun on day 2 for day 3, matured on day 4 for day 5: two days, 98.63 fen.
    assert_eq!((ledger.book.cleared_net, ledger.book.trades), (600_099, 0));
}

/// A Post changes nothing but what is posted.
#[test]
fn a_post_moves_nothing_else() {
    let mut ledger = Ledger::second_day(&[u32::MAX]);
    ledger.does(Event::FundIn { account: Account::Own, fen: 5 });
    let before = ledger.clone();
    assert_eq!(ledger.does(post(15, 365)).number, 0);
    assert_ne!(ledger.book.postings[15], before.book.postings[15]);
    ledger.book.postings[15] = before.book.postings[15];
    assert_eq!(ledger, before);
}
