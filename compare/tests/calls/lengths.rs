//! Lent lengths that no call takes: everything is left as it was, the buffer too.

use compare::proved::lent::{self, Lengths};
use compare::proved::{book, LINE_NUMBERS};
use compare::sides::{both_run, fill_spare_slots, Lent};
use compare::{BAD_LENGTHS, UNWRITTEN};
use model::answer::Answer;
use model::cases::ledger::Ledger;
use model::cases::unfit::{busy_ledger, every_event};
use model::event::{Account, Event, EVENT_BYTES};

fn ledger() -> Ledger {
    let mut ledger = busy_ledger();
    fill_spare_slots(&mut ledger);
    ledger
}

/// What a run of these bytes leaves, its number and a buffer of so many numbers.
fn run(ledger: &Ledger, events: &[u8], room: usize) -> (Lent, u8, Vec<u64>) {
    let (mut left, mut lines) = (Lent::of(ledger), vec![UNWRITTEN; room]);
    let number = lent::run_into(&ledger.calendar, &mut left.rows, &mut left.table, events, &mut lines);
    (left, number, lines)
}

/// An event that the book accepts.
const FUND_IN: Event = Event::FundIn { account: Account::Own, fen: 1 };

/// So many bytes of that event, over and over.
fn funds(bytes: usize) -> Vec<u8> {
    FUND_IN.encode().into_iter().cycle().take(bytes).collect()
}

fn assert_refused(ledger: &Ledger, (bytes, room): (usize, usize), number: u8) {
    let left = run(ledger, &funds(bytes), room);
    assert!(left == (Lent::of(ledger), number, vec![UNWRITTEN; room]), "{bytes} bytes, room {room}");
}

#[test]
fn runs_of_bad_lengths_are_refused_and_leave_everything() {
    let ledger = ledger();
    for (lengths, number) in BAD_LENGTHS {
        assert_refused(&ledger, lengths, number);
    }
}

/// 1 comes before 14 and 18.
#[test]
fn runs_of_bad_lengths_on_an_unfit_book_are_answered_1() {
    let mut ledger = ledger();
    ledger.book.own = u64::MAX;
    for (lengths, _) in BAD_LENGTHS {
        assert_refused(&ledger, lengths, 1);
    }
}

#[test]
fn what_lies_past_the_lines_is_as_it_was() {
    let (mut ledger, events) = (ledger(), every_event());
    let needed = LINE_NUMBERS * events.len();
    let (exact, _, lines) = run(&ledger, events.as_flattened(), needed);
    for spare in [0, 1, 9] {
        let wanted = [&lines[..], &vec![UNWRITTEN; spare]].concat();
        let left = run(&ledger, events.as_flattened(), needed + spare);
        assert!(left == (exact.clone(), 0, wanted), "{spare} numbers to spare");
    }
    assert!(both_run(&mut ledger, &events).is_ok());
    assert!(exact == Lent::of(&ledger));
}

/// Rows of securities and postings or of applications, or a table, that end too soon.
fn cuts(table: &[book::Trade]) -> [Lengths; 10] {
    let whole = Lengths::whole(table);
    [
        Lengths { held: 0, ..whole },
        Lengths { held: whole.held - 1, ..whole },
        Lengths { held: whole.held - 32, ..whole },
        Lengths { kinds: 0, ..whole },
        Lengths { kinds: whole.kinds - 1, ..whole },
        Lengths { units: 0, ..whole },
        Lengths { units: whole.units - 1, ..whole },
        Lengths { table: whole.table - 1, ..whole },
        Lengths { table: whole.table - 4, ..whole },
        Lengths { table: whole.table - 6, ..whole },
    ]
}

/// By every call, and for runs 1 comes before 14 and 18.
#[test]
fn rows_that_are_not_whole_are_answered_1_and_left() {
    let ledger = ledger();
    let (calendar, before) = (&ledger.calendar, Lent::of(&ledger));
    let Lent { mut rows, mut table } = before.clone();
    for cut in cuts(&before.table) {
        let answer = lent::apply_cut(calendar, &mut rows, &mut table, cut, &FUND_IN.encode());
        assert_eq!(answer, Answer { number: 1, ..Answer::default() });
        assert_eq!(lent::cover_cut(calendar, &rows, &table, cut), (1, 0, 0));
        for ((bytes, room), _) in BAD_LENGTHS.into_iter().chain([((EVENT_BYTES, LINE_NUMBERS), 0)]) {
            let (events, mut lines) = (funds(bytes), vec![UNWRITTEN; room]);
            assert_eq!(lent::run_into_cut(calendar, &mut rows, &mut table, cut, &events, &mut lines), 1);
            assert!(lines.iter().all(|&number| number == UNWRITTEN), "{bytes} bytes, room {room}");
        }
        assert!((rows, &table) == (before.rows, &before.table));
    }
    assert_eq!(lent::apply(calendar, &mut rows, &mut table, &FUND_IN.encode()), Answer::DONE);
}
