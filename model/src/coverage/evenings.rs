//! How applications fared on evenings with redemptions not yet paid.

use std::fmt;

use crate::book::{Book, Phase, Trade};
use crate::money::FEN_PER_SHEET;

/// Applications, by what became of them while U was above 0.
#[derive(Clone, Copy, Debug, Default, PartialEq, Eq)]
pub struct Evenings {
    pub done: u64,
    done_on_equality: u64,
    dropped_by_unpaid: u64,
    dropped_for_less_than_a_sheet: u64,
    /// Within a sheet of equality, with redemptions of both sorts in U.
    after_early_and_maturity: u64,
    dropped_after_failed_payment: u64,
}

impl Evenings {
    /// Looks at an event by the books before and after it: only a Close leads
    /// from Paid to Closed. `table` is the one after it.
    pub fn record(&mut self, before: &Book, after: &Book, table: &[Trade]) {
        if (before.phase, after.phase) != (Phase::Paid, Phase::Closed) {
            return;
        }
        if before.failed_run == 0 && after.unpaid() > 0 {
            self.weigh(before, after.outstanding(table), after.unpaid());
        } else if before.failed_run > 0 && before.cleared_unpaid > 0 {
            self.dropped_after_failed_payment += before.applications as u64;
        }
    }

    /// Each application in turn, on the evening of a day that was paid.
    fn weigh(&mut self, before: &Book, outstanding: u64, unpaid: u64) {
        let claims = FEN_PER_SHEET * outstanding + unpaid;
        let early_and_maturity = before.todays_unpaid > 0 && unpaid > before.unpaid();
        let mut book = before.clone();
        book.settle_arrivals();
        for (kind, units) in before.standing_applications() {
            if units > book.unfrozen(kind) {
                continue;
            }
            book.holdings[kind].effective -= units;
            let value = FEN_PER_SHEET * book.value();
            let (done, near) = (value >= claims, value.abs_diff(claims) < FEN_PER_SHEET);
            self.done += u64::from(done);
            self.done_on_equality += u64::from(value == claims);
            self.dropped_by_unpaid += u64::from(!done && value >= FEN_PER_SHEET * outstanding);
            self.dropped_for_less_than_a_sheet += u64::from(!done && near);
            self.after_early_and_maturity += u64::from(near && early_and_maturity);
            if !done {
                book.holdings[kind].effective += units;
            }
        }
    }

    fn counted(&self) -> [(&'static str, u64); 6] {
        [
            ("done", self.done),
            ("done on equality", self.done_on_equality),
            ("dropped by U alone", self.dropped_by_unpaid),
            ("dropped for less than a sheet", self.dropped_for_less_than_a_sheet),
            ("within a sheet, after early and maturity", self.after_early_and_maturity),
            ("dropped after a failed payment", self.dropped_after_failed_payment),
        ]
    }

    /// What was met fewer than so many times.
    pub fn rarer_than(&self, times: u64) -> Vec<&'static str> {
        self.counted().into_iter().filter(|&(_, count)| count < times).map(|(name, _)| name).collect()
    }
}

impl fmt::Display for Evenings {
    fn fmt(&self, f: &mut fmt::Formatter) -> fmt::Result {
        writeln!(f, "applications on evenings with unpaid redemptions")?;
        self.counted().iter().try_for_each(|(name, count)| writeln!(f, "  {name:<42}{count}"))
    }
}
