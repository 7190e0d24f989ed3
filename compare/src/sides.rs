//! A ledger of the model and the proved side of it, which have to answer and to
//! leave the same.

use model::answer::Answer;
use model::book::Trade;
use model::cases::ledger::{Ledger, Step};
use model::event::{Event, EVENT_BYTES};
use model::journal::Line;

use crate::proved::book;
use crate::proved::lent::{self, Rows};

/// A book as lent rows, with its table.
#[derive(Clone, Debug, PartialEq, Eq)]
pub struct Lent {
    pub rows: Rows,
    pub table: Vec<book::Trade>,
}

impl Lent {
    pub fn of(ledger: &Ledger) -> Lent {
        Lent { rows: (&ledger.book).into(), table: book::table(&ledger.table) }
    }

    fn apply(&mut self, calendar: &[u32], event: &[u8; EVENT_BYTES]) -> Answer {
        lent::apply(calendar, &mut self.rows, &mut self.table, event)
    }

    /// Sees that it is as the ledger is.
    fn assert_like(&self, ledger: &Ledger) {
        self.rows.assert_same(&Rows::from(&ledger.book));
        assert_eq!(self.table.len(), ledger.table.len());
        for (place, (slot, trade)) in self.table.iter().zip(&ledger.table).enumerate() {
            assert_eq!(*slot, book::Trade::from(trade), "slot {place}");
        }
    }
}

/// One event on both sides.
pub fn both(ledger: &mut Ledger, event: &[u8; EVENT_BYTES]) -> Answer {
    let mut lent = Lent::of(ledger);
    let got = lent.apply(&ledger.calendar, event);
    let wanted = ledger.does_bytes(event);
    assert_eq!(got, wanted, "the answer to {:?}", Event::decode(event));
    lent.assert_like(ledger);
    let cover = lent::cover(&ledger.calendar, &lent.rows, &lent.table);
    assert_eq!(cover, counted(ledger), "the number, headroom and O");
    wanted
}

/// Headroom and O, or 1 and nothing for an unfit book.
fn counted(Ledger { calendar, book, table }: &Ledger) -> (u32, i64, u64) {
    if book.is_fit(calendar, table) {
        (0, book.headroom(table), book.outstanding(table))
    } else {
        (1, 0, 0)
    }
}

/// A run on both sides; the same events one at a time have to leave the same.
pub fn both_run(ledger: &mut Ledger, events: &[[u8; EVENT_BYTES]]) -> Result<Vec<Line>, u8> {
    let mut single = Lent::of(ledger);
    for event in events {
        single.apply(&ledger.calendar, event);
    }
    let lines = both_run_watched(ledger, events, |_| {});
    single.assert_like(ledger);
    lines
}

/// A run on both sides; `watch` sees every step of the model's run.
pub fn both_run_watched(
    ledger: &mut Ledger,
    events: &[[u8; EVENT_BYTES]],
    watch: impl FnMut(Step),
) -> Result<Vec<Line>, u8> {
    let mut lent = Lent::of(ledger);
    let got = lent::run(&ledger.calendar, &mut lent.rows, &mut lent.table, events.as_flattened());
    let wanted = lines(ledger, events, watch);
    assert_same_lines(&got, &wanted);
    lent.assert_like(ledger);
    wanted
}

/// Fails on the first line that differs from the model's.
fn assert_same_lines(got: &Result<Vec<Line>, u8>, wanted: &Result<Vec<Line>, u8>) {
    if let (Ok(got), Ok(wanted)) = (got, wanted) {
        for (place, (got, wanted)) in (1..).zip(got.iter().zip(wanted)) {
            assert_eq!(got, wanted, "event {place}");
        }
    }
    assert_eq!(got, wanted, "the run");
}

/// The model's lines, or 1 for an unfit book.
fn lines(
    ledger: &mut Ledger,
    events: &[[u8; EVENT_BYTES]],
    mut watch: impl FnMut(Step),
) -> Result<Vec<Line>, u8> {
    if !ledger.is_fit() {
        return Err(1);
    }
    let mut lines = Vec::with_capacity(events.len());
    ledger.run(events, |step| {
        lines.push(Line::after(step.answer, step.after, step.table));
        watch(step);
    });
    Ok(lines)
}

/// Fills the slots past the trades in use, each with a stray of its own: a
/// contract such as journals have, and numbers that no trade may have.
pub fn fill_spare_slots(ledger: &mut Ledger) {
    for (place, slot) in (0..).zip(&mut ledger.table).skip(ledger.book.trades) {
        *slot = Trade {
            contract: place / 2,
            sheets: u64::MAX - place,
            price: u32::MAX,
            fallback: u32::MAX,
            first_payment: u32::MAX,
            due: 1,
            product: u64::MAX - place,
        };
    }
}
