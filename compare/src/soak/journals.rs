//! A journal for each seed: its listing byte for byte, and its events as runs
//! on a book in place.

use std::collections::HashSet;
use std::fmt;
use std::hash::{DefaultHasher, Hash, Hasher};

use model::cases::ledger::{Ledger, Step};
use model::coverage::evenings::Evenings;
use model::coverage::terms::NextTerms;
use model::coverage::{allowed, Coverage};
use model::generator::generate;
use model::generator::random::Random;
use model::journal::{parse, Journal};
use model::limits::{CAPACITY, JOURNAL_CAPACITY, JOURNAL_EVENTS};

use super::{Extent, Trial};
use crate::listings::Lister;
use crate::sides::{both, both_run_watched, fill_spare_slots};

#[derive(Default)]
pub struct Journals {
    lister: Lister,
    journals: u64,
    /// Hashes of all journals, to tell how many differ.
    hashes: HashSet<u64>,
    /// Events of the longest journal that was met before.
    most_repeated: usize,
    malformed: u64,
    events: u64,
    /// Events compared one at a time, with the book and the table after each.
    event_by_event: u64,
    most_lines: usize,
    most_bytes: usize,
    headroom: Extent,
    fullest_table: usize,
    coverage: Coverage,
    evenings: Evenings,
    next_terms: NextTerms,
}

impl Trial for Journals {
    fn compare(&mut self, seed: u64) {
        let mut random = Random::new(!seed);
        let bytes = journal(seed, &mut random);
        let listing = self.lister.agreed(&format!("seed {seed}"), &bytes);
        self.journals += 1;
        let is_new = self.hashes.insert(hash(&bytes));
        let Ok(journal) = parse(&bytes) else {
            self.malformed += 1;
            return;
        };
        if !is_new {
            self.most_repeated = self.most_repeated.max(journal.events.len());
        }
        self.note(&journal, &listing);
        self.do_in_place(&mut random, &journal);
    }

    fn missing_pairs(&self) -> (Vec<(u8, u32)>, usize) {
        (self.coverage.missing(), allowed().count())
    }

    fn unexpected_pairs(&self) -> Vec<(u8, u32)> {
        self.coverage.unexpected()
    }

    fn evenings(&self) -> Evenings {
        self.evenings
    }

    fn next_terms(&self) -> NextTerms {
        self.next_terms
    }
}

impl Journals {
    fn note(&mut self, journal: &Journal, listing: &str) {
        self.events += journal.events.len() as u64;
        self.most_lines = self.most_lines.max(journal.events.len());
        self.most_bytes = self.most_bytes.max(listing.len());
        self.coverage.record_listing(journal.events, listing);
        for line in listing.lines() {
            let headroom = line.split(' ').nth(2).and_then(|number| number.parse().ok());
            self.headroom.take_in(headroom.expect("a line has its headroom in third place"));
        }
    }

    /// On a table of some length, in runs that go on from one another, or one
    /// event at a time.
    fn do_in_place(&mut self, random: &mut Random, journal: &Journal) {
        let slots = random.pick(&[JOURNAL_CAPACITY, JOURNAL_CAPACITY, 1, 40, 300, CAPACITY]);
        let mut ledger = Ledger::with_slots(&journal.calendar, slots);
        if random.percent(5) {
            self.event_by_event += journal.events.len() as u64;
            for event in journal.events {
                fill_spare_slots(&mut ledger);
                both(&mut ledger, event);
            }
            return;
        }
        let length = random.pick(&[70, JOURNAL_EVENTS]);
        for events in journal.events.chunks(length) {
            fill_spare_slots(&mut ledger);
            let watch = |step: Step| {
                self.fullest_table = self.fullest_table.max(step.after.trades);
                self.evenings.record(step.before, step.after, step.table);
                let Step { before, trades, event, answer, .. } = step;
                self.next_terms.record(&journal.calendar, before, trades, event, answer.number);
            };
            both_run_watched(&mut ledger, events, watch).expect("the book is fit");
        }
    }
}

/// The journal of a seed; one in twenty has a bit turned, anywhere.
fn journal(seed: u64, random: &mut Random) -> Vec<u8> {
    let mut bytes = generate(seed);
    if !bytes.is_empty() && random.percent(5) {
        let place = random.below(bytes.len() as u64) as usize;
        bytes[place] ^= 1 << random.below(8);
    }
    bytes
}

fn hash(bytes: &[u8]) -> u64 {
    let mut hasher = DefaultHasher::new();
    bytes.hash(&mut hasher);
    hasher.finish()
}

impl fmt::Display for Journals {
    fn fmt(&self, f: &mut fmt::Formatter) -> fmt::Result {
        writeln!(f, "journals              {}", self.journals)?;
        writeln!(f, "different             {}", self.hashes.len())?;
        writeln!(f, "longest met again     {} events", self.most_repeated)?;
        writeln!(f, "malformed             {}", self.malformed)?;
        writeln!(f, "events                {}", self.events)?;
        writeln!(f, "of them one by one    {}", self.event_by_event)?;
        writeln!(f, "longest listing       {} lines, {} bytes", self.most_lines, self.most_bytes)?;
        writeln!(f, "fullest table         {} trades", self.fullest_table)?;
        writeln!(f, "headroom              {}", self.headroom)?;
        write!(f, "{}{}{}", self.evenings, self.next_terms, self.coverage)
    }
}
