//! How the trades with a product fared that matured: whether the next term
//! started, and what kept it from starting.

use std::fmt;

use crate::book::{Book, Posting, Status, Trade};
use crate::event::{Event, EVENT_BYTES};
use crate::limits::PRODUCTS;
use crate::step::step;
use crate::step::trading::due_day_is_good;

/// Trades, each by the first condition that failed; and Closes.
#[derive(Clone, Copy, Debug, Default, PartialEq, Eq)]
pub struct NextTerms {
    pub started: u64,
    nothing_left: u64,
    status_not_normal: u64,
    not_posted: u64,
    past_the_calendar: u64,
    above_headroom: u64,
    /// Started after an earlier one of the same Close did not fit.
    past_one_too_large: u64,
    /// Refused 14, and done were nothing posted; out of a journal's reach.
    closes_refused: u64,
    /// Done, and refused 14 were nothing posted; out of a journal's reach.
    closes_saved: u64,
}

impl NextTerms {
    /// Looks at an event by its answer and the book and trades before it.
    pub fn record(
        &mut self,
        calendar: &[u32],
        before: &Book,
        trades: &[Trade],
        event: &[u8; EVENT_BYTES],
        number: u32,
    ) {
        if *event != Event::Close.encode() || !matches!(number, 0 | 14) {
            return;
        }
        let started = self.started;
        if number == 0 {
            self.weigh(calendar, before, trades);
        }
        if number == 0 && self.started == started {
            return;
        }
        match (number, number_unposted(calendar, before, trades)) {
            (14, 0) => self.closes_refused += 1,
            (0, 14) => self.closes_saved += 1,
            _ => {}
        }
    }

    /// Each trade with a product that matures, in turn.
    fn weigh(&mut self, calendar: &[u32], book: &Book, trades: &[Trade]) {
        let today = book.day.expect("a Close follows an Open");
        let (due, staying): (Vec<&Trade>, _) = trades.iter().partition(|trade| trade.due <= today);
        let mut headroom = book.headroom_over(staying.iter().map(|trade| trade.sheets).sum());
        let mut one_too_large = false;
        for trade in due.into_iter().filter(|trade| trade.product > 0) {
            let Posting { term, .. } = book.postings[trade.product as usize - 1];
            if trade.sheets == 0 {
                self.nothing_left += 1;
            } else if book.status != Status::Normal {
                self.status_not_normal += 1;
            } else if term == 0 {
                self.not_posted += 1;
            } else if !due_day_is_good(calendar, today, today + term as u32) {
                self.past_the_calendar += 1;
            } else if trade.sheets as i64 > headroom {
                self.above_headroom += 1;
                one_too_large = true;
            } else {
                self.started += 1;
                self.past_one_too_large += u64::from(one_too_large);
                headroom -= trade.sheets as i64;
            }
        }
    }

    fn counted(&self) -> [(&'static str, u64); 7] {
        [
            ("started", self.started),
            ("started past one above headroom", self.past_one_too_large),
            ("not started: nothing left", self.nothing_left),
            ("not started: status not normal", self.status_not_normal),
            ("not started: not posted today", self.not_posted),
            ("not started: due past the calendar", self.past_the_calendar),
            ("not started: above headroom", self.above_headroom),
        ]
    }

    fn by_limits(&self) -> [(&'static str, u64); 2] {
        [
            ("Close refused 14 by what starts", self.closes_refused),
            ("Close kept from 14 by what starts", self.closes_saved),
        ]
    }

    /// What was met fewer than so many times, of what a journal can reach.
    pub fn rarer_than(&self, times: u64) -> Vec<&'static str> {
        rare(&self.counted(), times)
    }

    /// The same with what only books by hand reach.
    pub fn rarer_on_any_book(&self, times: u64) -> Vec<&'static str> {
        [rare(&self.counted(), times), rare(&self.by_limits(), times)].concat()
    }
}

fn rare(counted: &[(&'static str, u64)], times: u64) -> Vec<&'static str> {
    counted.iter().filter(|(_, count)| *count < times).map(|(name, _)| *name).collect()
}

/// The Close's number, had nothing been posted.
fn number_unposted(calendar: &[u32], before: &Book, trades: &[Trade]) -> u32 {
    let mut book = Book { postings: [Posting::default(); PRODUCTS], ..before.clone() };
    step(calendar, &mut book, &mut trades.to_vec(), &Event::Close.encode()).number
}

impl fmt::Display for NextTerms {
    fn fmt(&self, f: &mut fmt::Formatter) -> fmt::Result {
        writeln!(f, "next terms of trades with a product that matured")?;
        let shown = |(name, count): &(&str, u64)| format!("  {name:<42}{count}\n");
        let lines = self.counted().iter().chain(&self.by_limits()).map(shown).collect::<String>();
        f.write_str(&lines)
    }
}
