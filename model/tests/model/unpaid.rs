//! U, the redemptions not yet paid: its two parts from event to event, and the
//! withdrawal on an evening that has some.

use model::answer::Answer;
use model::book::{Book, Status};
use model::cases::ledger::{trade, Ledger, Step};
use model::event::{Account, Event};
use model::step::started_terms;
use model::{generator, journal};

fn early(contract: u64, sheets: u64) -> Event {
    Event::Early { contract, sheets, price: 3_650 }
}

/// Does the events, and gives the last one's answer with the part of today and
/// the cleared part.
fn after(ledger: &mut Ledger, events: &[Event]) -> (u32, u64, u64) {
    let answers: Vec<Answer> = events.iter().map(|&event| ledger.does(event)).collect();
    assert!(answers.iter().all(|answer| answer.is_accepted()), "{answers:?}");
    let last = answers.last().expect("there is an event");
    (last.number, ledger.book.todays_unpaid, ledger.book.cleared_unpaid)
}

/// A redemption stays in U from its own event over the Close to the next Pay
/// that is made; a net of 0 and a net below 0 are made too.
#[test]
fn paid_the_day_after() {
    let mut ledger = Ledger::second_day(&[u32::MAX]);
    assert_eq!(after(&mut ledger, &[trade(7, 100, 20)]), (0, 0, 0));
    assert_eq!(after(&mut ledger, &[early(7, 10)]), (0, 100_000, 0));
    assert_eq!((ledger.book.cleared_net, after(&mut ledger, &[Event::Pay])), (0, (0, 100_000, 0)));
    assert_eq!(after(&mut ledger, &[Event::Close]), (0, 0, 100_000));
    // A day later each sheet has earned a fen.
    assert_eq!(after(&mut ledger, &[Event::Open, early(7, 20)]), (0, 200_020, 100_000));
    assert_eq!((ledger.book.cleared_net, after(&mut ledger, &[Event::Pay])), (-900_000, (0, 200_020, 0)));
    assert_eq!(after(&mut ledger, &[Event::Close]), (0, 0, 200_020));
    assert_eq!(after(&mut ledger, &[Event::Open, Event::Pay, Event::Close]), (0, 0, 0));
}

/// "Close adds the second to the first": with what matures at that Close.
#[test]
fn a_maturity_waits_in_the_cleared_part() {
    let mut ledger = Ledger::second_day(&[u32::MAX]);
    after(&mut ledger, &[trade(7, 100, 2), trade(8, 10, 20)]);
    ledger.next_day();
    assert_eq!(after(&mut ledger, &[early(8, 10), Event::Pay]), (0, 100_010, 0));
    assert_eq!(after(&mut ledger, &[Event::Close]), (0, 0, 1_000_100 + 100_010));
    assert_eq!(after(&mut ledger, &[Event::Open, Event::Pay]), (0, 0, 0));
}

/// 99 keeps both parts; the 40 sheets left are redeemed over five days at 1,000
/// ticks, 54.79 fen.
#[test]
fn unpaid_until_the_firm_is_terminated() {
    let mut ledger = Ledger::second_day(&[u32::MAX]);
    after(&mut ledger, &[trade(7, 100, 20), early(7, 10)]);
    ledger.next_day();
    ledger.next_day();
    after(&mut ledger, &[early(7, 30)]);
    ledger.next_day();
    let own = ledger.book.own;
    after(&mut ledger, &[Event::FundOut { account: Account::Own, fen: own }]);
    assert_eq!(after(&mut ledger, &[early(7, 20), Event::Pay]), (99, 200_060, 300_060));
    assert_eq!(after(&mut ledger, &[Event::Close, Event::Open, Event::Pay]), (99, 0, 500_120));
    assert_eq!(after(&mut ledger, &[Event::Close]), (0, 0, 500_120));
    assert_eq!(after(&mut ledger, &[Event::Open]), (0, 0, 500_120 + 400_055));
    assert_eq!((ledger.book.status, ledger.book.outstanding(&ledger.table)), (Status::Terminated, 0));
    assert_eq!(after(&mut ledger, &[Event::Close, Event::Open, Event::Close]), (0, 0, 900_175));
}

/// Also where the net is below 0, and it is the client's cash that falls short.
#[test]
fn a_failed_payment_keeps_both_parts() {
    let mut ledger = Ledger::second_day(&[u32::MAX]);
    after(&mut ledger, &[trade(7, 100, 20), early(7, 10)]);
    ledger.next_day();
    assert_eq!(ledger.book.cleared_net, -900_000);
    after(&mut ledger, &[Event::FundOut { account: Account::Client, fen: 3_000_000 }]);
    assert_eq!(after(&mut ledger, &[early(7, 20), Event::Pay]), (99, 200_020, 100_000));
    assert_eq!(after(&mut ledger, &[Event::Close]), (0, 0, 300_020));
}

/// O is 50, and 50 sheets were redeemed: of 200 units at 9,000 the evening needs
/// 112, worth 100 sheets, while O alone would let all but 56 go. Once the
/// redemption is paid it does.
#[test]
fn a_withdrawal_on_either_side_of_unpaid_redemptions() {
    for (units, done) in [(87, 1), (88, 1), (89, 0), (144, 0)] {
        let mut ledger = Ledger::second_day(&[u32::MAX]);
        after(&mut ledger, &[trade(7, 100, 20), early(7, 50)]);
        assert_eq!(ledger.headroom(), 130, "an early redemption frees it on the spot");
        let withdraw = Event::Withdraw { kind: 0, units };
        assert_eq!(after(&mut ledger, &[withdraw, Event::Pay]), (0, 500_000, 0));
        let Answer { done: now, dropped, .. } = ledger.does(Event::Close);
        assert_eq!((now, dropped), (done, 1 - done), "{units} units");
        let held = ledger.book.holdings[0].effective;
        assert_eq!(held, 200 - u64::from(done) * units);
        let rest = Event::Withdraw { kind: 0, units: held - 56 };
        assert_eq!(after(&mut ledger, &[Event::Open, rest, Event::Pay]), (0, 0, 0));
        assert_eq!(ledger.does(Event::Close).done, 1, "{units} units before");
    }
}

/// How today's and the cleared part of a pair grow.
fn growth(before: (i128, i128), after: (i128, i128)) -> (i128, i128) {
    (after.0 - before.0, after.1 - before.1)
}

fn nets(book: &Book) -> (i128, i128) {
    (book.todays_net.into(), book.cleared_net.into())
}

fn parts(book: &Book) -> (i128, i128) {
    (book.todays_unpaid.into(), book.cleared_unpaid.into())
}

/// What an accepted event redeems, gross, is what it adds to the nets: so U
/// grows as they do, but for initial trades, those that start by themselves
/// included, and for Pay.
fn check_growth(calendar: &[u32], event: Event, step: &Step) {
    let Step { before, after, trades, answer: Answer { number, .. }, .. } = *step;
    let of_nets = growth(nets(before), nets(after));
    let of_unpaid = growth(parts(before), parts(after));
    match event {
        Event::Initial(_) => assert_eq!(of_unpaid, (0, 0)),
        Event::Pay if number == 0 => assert_eq!(parts(after), (parts(before).0, 0)),
        Event::Close if number == 0 => {
            assert_eq!(parts(after).0, 0);
            let started = started_terms(calendar, before, trades);
            let begun: i128 = started.iter().map(|record| 10_000 * i128::from(record.sheets)).sum();
            assert_eq!(of_unpaid.0 + of_unpaid.1, of_nets.0 + of_nets.1 + begun);
        }
        _ => assert_eq!(of_unpaid, of_nets, "{event:?}, answer {number}"),
    }
}

#[test]
fn unpaid_grows_by_what_is_redeemed() {
    for seed in 0..1_000 {
        let bytes = generator::generate(seed);
        let Ok(journal) = journal::parse(&bytes) else { continue };
        Ledger::fresh(&journal.calendar).run(journal.events, |step| {
            if let Ok(event) = Event::decode(step.event) {
                check_growth(&journal.calendar, event, &step);
            }
        });
    }
}
