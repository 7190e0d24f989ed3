//! Every standing in which a day can open: three statuses, three runs of failed
//! payments and four of short closes.

use super::nets::with_a_trade;
use super::Case;
use crate::book::Phase;
use crate::book::Status::{self, Normal, Suspended, Terminated};
use crate::event::Event;

/// Articles 69 and 70 while the permission lasts: a row for each run of failed
/// payments, an entry for each run of short closes.
const BY_RUNS: [[Status; 4]; 3] = [
    [Normal, Suspended, Suspended, Terminated],
    [Suspended, Suspended, Suspended, Terminated],
    [Terminated, Terminated, Terminated, Terminated],
];

/// From each of them an Open, with a trade on the table, and the status that it leaves.
pub fn all() -> impl Iterator<Item = Case<Status>> {
    let of_status = |status| (0..).zip(BY_RUNS).flat_map(move |(failed, row)| of_runs(status, failed, row));
    [Normal, Suspended, Terminated].into_iter().flat_map(of_status)
}

fn of_runs(status: Status, failed_run: u8, row: [Status; 4]) -> impl Iterator<Item = Case<Status>> {
    (0..).zip(row).map(move |(short_run, by_runs)| {
        let mut ledger = with_a_trade();
        (ledger.book.phase, ledger.book.status) = (Phase::Closed, status);
        (ledger.book.failed_run, ledger.book.short_run) = (failed_run, short_run);
        let left = if status == Terminated { Terminated } else { by_runs };
        Case { ledger, event: Event::Open, outcome: Ok(left) }
    })
}
