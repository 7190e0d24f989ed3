//! "Where the pencil slips": M1 to M10, the slips, and the cases that are run.

use model::book::{Phase, Status};
use model::cases::ledger::{trade, Ledger, WORKED_CALENDAR};
use model::event::{Account, Event, Terms};
use model::money::{kind_value, redemption};

#[test]
fn m1_to_m3_redemptions() {
    assert_eq!(redemption(100, 3_650, 4), (0, 1_000_400));
    assert_eq!(redemption(1, 1_825, 1), (0, 10_001));
    assert_eq!(redemption(1, 1_824, 1), (0, 10_000));
}

/// Slip: values summed and then rounded.
#[test]
fn m4_to_m6_values() {
    assert_eq!(kind_value(0, 199, 0, 9_000), (0, 179));
    assert_eq!(kind_value(32, 19_999, 0, 0), (0, 1));
    let mut ledger = Ledger::fresh(&WORKED_CALENDAR);
    for kind in [0, 1] {
        ledger.book.holdings[kind].effective = 5;
        ledger.book.rates[kind] = 9_000;
    }
    assert_eq!(ledger.book.value(), 8);
    ledger.book.holdings[32].effective = 19_999;
    assert_eq!(ledger.book.value(), 9);
}

#[test]
fn m7_and_m8_trades_at_the_headroom() {
    let ledger = Ledger::second_day(&WORKED_CALENDAR);
    assert_eq!(ledger.headroom(), 180);
    assert_eq!(ledger.clone().does(trade(1, 180, 4)).number, 0);
    assert_eq!(ledger.clone().does(trade(1, 190, 4)).number, 12);
}

/// Slip: due on a holiday brought forward. Day 4 does not trade.
#[test]
fn m9_contract_7_matures_on_day_6_over_4_days() {
    let mut ledger = Ledger::second_day(&WORKED_CALENDAR);
    assert_eq!(ledger.does(trade(7, 100, 4)).number, 0);
    assert_eq!(ledger.next_day().matured, 0);
    assert_eq!(ledger.book.day, Some(3));
    assert_eq!(ledger.next_day().matured, 0);
    assert_eq!(ledger.book.day, Some(6));
    assert_eq!(ledger.does(Event::Pay).number, 0);
    assert_eq!(ledger.does(Event::Close).matured, 100);
    assert_eq!(ledger.book.cleared_net, 1_000_400);
    assert_eq!(ledger.book.trades, 0);
    assert_eq!(ledger.does(Event::Open).number, 16);
}

#[test]
fn m10_failed_runs_of_1_and_2() {
    let mut ledger = Ledger::second_day(&[u32::MAX]);
    ledger.does(trade(7, 100, 20));
    ledger.next_day();
    ledger.does(Event::FundOut { account: Account::Client, fen: 3_000_000 });
    assert_eq!(ledger.does(Event::Pay).number, 99);
    ledger.does(Event::Close);
    ledger.does(Event::Open);
    assert_eq!((ledger.book.failed_run, ledger.book.status), (1, Status::Suspended));
    assert_eq!(ledger.does(Event::Pay).number, 99);
    ledger.does(Event::Close);
    ledger.does(Event::Open);
    assert_eq!((ledger.book.failed_run, ledger.book.status), (2, Status::Terminated));
    // Whole, at the fallback price of 1,000, begun on day 1 for day 2 and ended on
    // day 4 for day 5: the unpaid 1,000,000 and the redemption leave 82.19 fen.
    assert_eq!(ledger.book.cleared_net, 82);
    assert_eq!((ledger.book.trades, ledger.book.outstanding(&ledger.table)), (1, 0));
    assert_eq!(ledger.does(Event::Pay).number, 5);
    let answer = ledger.does(Event::Close);
    assert_eq!((answer.number, answer.matured, ledger.book.trades), (0, 0, 0));
}

#[test]
fn three_short_closes_terminate() {
    let mut ledger = Ledger::second_day(&[u32::MAX]);
    ledger.does(trade(7, 100, 20));
    ledger.does(Event::Rate { kind: 0, rate: 0 });
    ledger.next_day();
    assert_eq!((ledger.book.short_run, ledger.book.status), (1, Status::Suspended));
    ledger.next_day();
    assert_eq!((ledger.book.short_run, ledger.book.status), (2, Status::Suspended));
    ledger.next_day();
    assert_eq!((ledger.book.short_run, ledger.book.status), (3, Status::Terminated));
    // Nothing is left on the table, so the next Close is not short; terminated stays.
    ledger.does(Event::Close);
    ledger.does(Event::Open);
    assert_eq!((ledger.book.short_run, ledger.book.status), (0, Status::Terminated));
}

/// Begun on day 3 for day 6 and matured on day 6 for day 7: one day, not three.
#[test]
fn slip_days_counted_from_trading_days() {
    let mut ledger = Ledger::second_day(&WORKED_CALENDAR);
    ledger.next_day();
    assert_eq!(ledger.does(trade(7, 100, 6)).number, 0);
    ledger.next_day();
    ledger.does(Event::Pay);
    assert_eq!(ledger.does(Event::Close).matured, 100);
    assert_eq!(ledger.book.cleared_net, 1_000_100);
}

#[test]
fn slip_a_pledge_counted_before_its_close() {
    let mut ledger = Ledger::second_day(&WORKED_CALENDAR);
    assert_eq!(ledger.does(Event::Pledge { kind: 0, units: 1_000 }).number, 0);
    assert_eq!(ledger.headroom(), 180);
    assert_eq!(ledger.does(trade(1, 190, 4)).number, 12);
    ledger.next_day();
    assert_eq!(ledger.headroom(), 1_000);
}

/// Two unpaid days of 1,000,000 and 500,000: neither moves by itself.
#[test]
fn slip_the_smaller_of_two_unpaid_days_paid_alone() {
    let mut ledger = Ledger::second_day(&[u32::MAX]);
    ledger.does(Event::FundOut { account: Account::Client, fen: 3_000_000 });
    ledger.does(trade(7, 100, 20));
    ledger.next_day();
    ledger.does(trade(8, 50, 20));
    ledger.does(Event::FundIn { account: Account::Client, fen: 999_999 });
    assert_eq!(ledger.next_day().number, 0);
    assert_eq!((ledger.book.cleared_net, ledger.book.failed_run), (-1_500_000, 1));
    let mut lacking = ledger.clone();
    lacking.does(Event::FundIn { account: Account::Client, fen: 500_000 });
    assert_eq!(lacking.does(Event::Pay).number, 99);
    assert_eq!((lacking.book.own, lacking.book.client, lacking.book.failed_run), (5_000_000, 1_499_999, 2));
    ledger.does(Event::FundIn { account: Account::Client, fen: 500_001 });
    assert_eq!(ledger.does(Event::Pay).number, 0);
    assert_eq!((ledger.book.own, ledger.book.client, ledger.book.failed_run), (6_500_000, 0, 0));
    assert_eq!((ledger.book.cleared_net, ledger.book.phase), (0, Phase::Paid));
}

#[test]
fn ten_sheets_done_and_fifteen_refused() {
    let mut ledger = Ledger::second_day(&WORKED_CALENDAR);
    assert_eq!(ledger.does(trade(1, 15, 4)).number, 7);
    assert_eq!(ledger.does(trade(1, 10, 4)).number, 0);
}

#[test]
fn due_365_days_ahead_done_and_366_refused() {
    let mut ledger = Ledger::second_day(&[u32::MAX; 20]);
    assert_eq!(ledger.book.day, Some(1));
    assert_eq!(ledger.does(trade(1, 10, 367)).number, 9);
    assert_eq!(ledger.does(trade(1, 10, 366)).number, 0);
    assert_eq!(ledger.does(trade(2, 10, 1)).number, 9);
    assert_eq!(ledger.does(trade(2, 10, 2)).number, 0);
}

/// Day 6 has day 7 after it; day 7 has none.
#[test]
fn a_due_day_needs_a_trading_day_with_another_following() {
    let mut ledger = Ledger::second_day(&WORKED_CALENDAR);
    assert_eq!(ledger.does(trade(1, 10, 7)).number, 9);
    assert_eq!(ledger.does(trade(1, 10, 6)).number, 0);
}

#[test]
fn early_redemption_in_part_and_whole() {
    let mut ledger = Ledger::second_day(&WORKED_CALENDAR);
    ledger.does(trade(7, 100, 6));
    let early = |contract, sheets| Event::Early { contract, sheets, price: 7_300 };
    assert_eq!(ledger.does(early(8, 1)).number, 10);
    ledger.next_day();
    assert_eq!(ledger.does(early(7, 101)).number, 13);
    assert_eq!(ledger.does(early(7, 33)).number, 0);
    // Payment days 6 and 3: three days at 2 fen a sheet.
    assert_eq!(ledger.book.todays_net, 330_000 + 33 * 2 * 3);
    assert_eq!(ledger.does(early(7, 67)).number, 0);
    // The contract stands with nothing left until the Close, and its number may then be used again.
    assert_eq!(ledger.does(early(7, 1)).number, 13);
    assert_eq!(ledger.does(trade(7, 10, 6)).number, 10);
    assert_eq!(ledger.next_day().matured, 0);
    assert_eq!(ledger.does(Event::Early { contract: 7, sheets: 1, price: 0 }).number, 10);
}

#[test]
fn early_on_or_past_the_due_day_is_9() {
    let mut ledger = Ledger::second_day(&WORKED_CALENDAR);
    ledger.does(trade(7, 100, 4));
    ledger.does(trade(8, 10, 6));
    ledger.next_day();
    ledger.next_day();
    assert_eq!(ledger.book.day, Some(6));
    for contract in [7, 8] {
        assert_eq!(ledger.does(Event::Early { contract, sheets: 999, price: 0 }).number, 9);
    }
}

#[test]
fn withdrawals_done_and_dropped_in_order() {
    let mut ledger = Ledger::second_day(&WORKED_CALENDAR);
    ledger.does(Event::Pledge { kind: 32, units: 30_000 });
    ledger.next_day();
    ledger.does(trade(7, 100, 6));
    assert_eq!(ledger.does(Event::Withdraw { kind: 0, units: 201 }).number, 13);
    // V is 183, O 100: 100 units less leave 93, 92 less leave 100, and then the cash cannot go.
    for (kind, units) in [(0, 100), (0, 92), (32, 10_000)] {
        assert_eq!(ledger.does(Event::Withdraw { kind, units }).number, 0);
    }
    ledger.does(Event::Pay);
    let answer = ledger.does(Event::Close);
    assert_eq!((answer.done, answer.dropped), (1, 2));
    assert_eq!(ledger.book.holdings[0].effective, 108);
    assert_eq!((ledger.book.own, ledger.book.guarantee()), (4_970_000, 30_000));
    assert_eq!((ledger.book.applications, ledger.headroom()), (0, 0));
    assert_eq!((ledger.book.application_kinds, ledger.book.application_units), ([0; 128], [0; 128]));
}

/// Only the slots that a Close frees are filled with zeros.
#[test]
fn other_spare_slots_keep_their_content() {
    let mut ledger = Ledger::second_day(&WORKED_CALENDAR);
    let stray = model::book::Trade { contract: 99, sheets: 5, ..Default::default() };
    ledger.table[1..].fill(stray);
    let terms = Terms { contract: 99, sheets: 10, price: 0, fallback: 0, due: 3, product: 0 };
    assert_eq!(ledger.does(Event::Initial(terms)).number, 0);
    ledger.does(Event::Initial(Terms { contract: 100, due: 6, ..terms }));
    ledger.next_day();
    ledger.next_day();
    assert_eq!(ledger.book.trades, 1);
    assert_eq!(ledger.table[0].contract, 100);
    assert_eq!(ledger.table[1], Default::default());
    assert!(ledger.table[2..].iter().all(|&slot| slot == stray));
}
