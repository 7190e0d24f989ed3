//! A call for each seed, on a book that no journal need lead to, fit or unfit: a
//! single one, with its answer, the book, the table, headroom and O; or a run.

use std::collections::BTreeMap;
use std::fmt;

use model::book::Trade;
use model::cases::drawn::{drawn, replace_a_number};
use model::cases::evenings::{at_the_edge, evening};
use model::cases::ledger::Ledger;
use model::cases::rolling::{self, Story};
use model::cases::unfit::{busy_ledger, can_be_changed, every_event, STILL_FIT, UNFIT};
use model::cases::{nets, standings, terms, unpaid, Case};
use model::coverage::evenings::Evenings;
use model::coverage::terms::NextTerms;
use model::coverage::{allowed_on_any_book, Coverage};
use model::event::{Event, EVENT_BYTES};
use model::generator::event_for;
use model::generator::random::Random;

use super::{Extent, Trial};
use crate::sides::{both, both_run};

#[derive(Default)]
pub struct Calls {
    single: u64,
    runs: u64,
    on_unfit_books: u64,
    /// Books made unfit in each of the ways.
    ways: BTreeMap<&'static str, u64>,
    most_trades: usize,
    headroom: Extent,
    net: Extent,
    unpaid: Extent,
    applications_done: u64,
    applications_dropped: u64,
    coverage: Coverage,
    evenings: Evenings,
    next_terms: NextTerms,
}

impl Trial for Calls {
    fn compare(&mut self, seed: u64) {
        let mut random = Random::new(seed);
        let (mut ledger, events) = call(&mut random);
        match random.below(10) {
            0 => replace_a_number(&mut random, &mut ledger),
            1 | 2 => self.make_unfit(&mut random, &mut ledger),
            _ => {}
        }
        self.note(&ledger);
        match events[..] {
            [event] => self.compare_single(&mut ledger, &event),
            _ => self.compare_run(&mut ledger, &events),
        }
    }

    fn missing_pairs(&self) -> (Vec<(u8, u32)>, usize) {
        (self.coverage.missing_of(allowed_on_any_book()), allowed_on_any_book().count())
    }

    fn unexpected_pairs(&self) -> Vec<(u8, u32)> {
        let met = self.coverage.unexpected().into_iter();
        met.filter(|pair| allowed_on_any_book().all(|allowed| allowed != *pair)).collect()
    }

    fn evenings(&self) -> Evenings {
        self.evenings
    }

    fn next_terms(&self) -> NextTerms {
        self.next_terms
    }
}

impl Calls {
    fn make_unfit(&mut self, random: &mut Random, ledger: &mut Ledger) {
        if can_be_changed(ledger) {
            let (name, change) = random.pick(&UNFIT);
            change(ledger);
            *self.ways.entry(name).or_default() += 1;
        }
    }

    fn note(&mut self, ledger: &Ledger) {
        if !ledger.is_fit() {
            self.on_unfit_books += 1;
            return;
        }
        self.most_trades = self.most_trades.max(ledger.book.trades);
        self.headroom.take_in(ledger.headroom());
        self.net.take_in(ledger.book.todays_net);
        self.net.take_in(ledger.book.cleared_net);
        self.unpaid.take_in(ledger.book.unpaid() as i64);
    }

    fn compare_single(&mut self, ledger: &mut Ledger, event: &[u8; EVENT_BYTES]) {
        self.single += 1;
        let (before, trades) = (ledger.book.clone(), in_use(ledger));
        let answer = both(ledger, event);
        self.evenings.record(&before, &ledger.book, &ledger.table);
        self.next_terms.record(&ledger.calendar, &before, &trades, event, answer.number);
        self.coverage.record(event, answer.number);
        self.applications_done += u64::from(answer.done);
        self.applications_dropped += u64::from(answer.dropped);
    }

    fn compare_run(&mut self, ledger: &mut Ledger, events: &[[u8; EVENT_BYTES]]) {
        self.runs += 1;
        // An unfit book has no lines.
        let lines = both_run(ledger, events).unwrap_or_default();
        events.iter().zip(lines).for_each(|(event, line)| self.coverage.record(event, line.answer));
    }
}

/// The trades in use; those that an unfit book only says it has are left out.
fn in_use(ledger: &Ledger) -> Vec<Trade> {
    ledger.table.iter().take(ledger.book.trades).copied().collect()
}

/// A fit book, drawn or one of the model's cases, and an event for it; now and
/// then several, for a run.
fn call(random: &mut Random) -> (Ledger, Vec<[u8; EVENT_BYTES]>) {
    match random.below(20) {
        0 => (evening(random), vec![Event::Close.encode()]),
        1 => match random.below(6) {
            0 => one_of(random, nets::all()),
            1 => one_of(random, unpaid::all()),
            2 => one_of(random, standings::all()),
            3 => one_of(random, terms::all()),
            4 => a_story(random),
            _ => one_of(random, at_the_edge()),
        },
        2 => {
            let mut ledger = busy_ledger();
            let (_, change) = random.pick(&STILL_FIT);
            change(&mut ledger);
            (ledger, vec![random.pick(&every_event())])
        }
        _ => {
            let ledger = drawn(random);
            let count = if random.percent(10) { random.between(2, 12) } else { 1 };
            let events = (0..count).map(|_| event_for(random, &ledger)).collect();
            (ledger, events)
        }
    }
}

/// A trade that begins again, or does not, as a run.
fn a_story(random: &mut Random) -> (Ledger, Vec<[u8; EVENT_BYTES]>) {
    let mut stories = rolling::all();
    let place = random.below(stories.len() as u64) as usize;
    let Story { ledger, events, .. } = stories.swap_remove(place);
    (ledger, events.iter().map(|(event, _)| event.encode()).collect())
}

fn one_of<T>(
    random: &mut Random,
    cases: impl Iterator<Item = Case<T>>,
) -> (Ledger, Vec<[u8; EVENT_BYTES]>) {
    let mut cases: Vec<Case<T>> = cases.collect();
    let place = random.below(cases.len() as u64) as usize;
    let Case { ledger, event, .. } = cases.swap_remove(place);
    (ledger, vec![event.encode()])
}

impl fmt::Display for Calls {
    fn fmt(&self, f: &mut fmt::Formatter) -> fmt::Result {
        let (fewest, most) = (self.ways.values().min(), self.ways.values().max());
        let (fewest, most) = (fewest.unwrap_or(&0), most.unwrap_or(&0));
        writeln!(f, "single calls          {}", self.single)?;
        writeln!(f, "runs                  {}", self.runs)?;
        writeln!(f, "on unfit books        {}", self.on_unfit_books)?;
        writeln!(f, "ways of being unfit   {}, each {fewest} to {most} times", self.ways.len())?;
        writeln!(f, "fullest table         {} trades", self.most_trades)?;
        writeln!(f, "headroom              {}", self.headroom)?;
        writeln!(f, "nets                  {}", self.net)?;
        writeln!(f, "unpaid redemptions    {}", self.unpaid)?;
        writeln!(f, "applications done     {}", self.applications_done)?;
        writeln!(f, "applications dropped  {}", self.applications_dropped)?;
        write!(f, "{}{}{}", self.evenings, self.next_terms, self.coverage)
    }
}
