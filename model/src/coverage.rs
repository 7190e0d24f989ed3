//! Which (event, answer) pairs were met, and which the papers allow; in
//! `evenings`, how applications fared, in `terms`, which next terms started.
//!
//! An event that cannot be decoded counts under its code byte where that is 1
//! to 13, and else under "other code".

pub mod evenings;
pub mod terms;

use std::fmt;

use crate::event::EVENT_BYTES;

/// Row of codes that are not 1 to 13.
pub const OTHER_CODE: u8 = 0;
const CODES: usize = 14;
/// Answers 0 to 17, 20 and 99. A malformed journal (18) and a date that is none
/// (19) answer no event.
const ANSWERS: [u32; 20] = [0, 1, 2, 3, 4, 5, 6, 7, 8, 9, 10, 11, 12, 13, 14, 15, 16, 17, 20, 99];

const NAMES: [&str; CODES] = [
    "other code",
    "Open",
    "Fund in",
    "Fund out",
    "Size",
    "Rate",
    "Pledge",
    "Freeze",
    "Withdraw",
    "Initial",
    "Early",
    "Pay",
    "Close",
    "Post",
];

/// The answers that a journal on a fresh book can meet, row by row.
const ALLOWED: [&[u32]; CODES] = [
    &[2],
    &[0, 2, 4, 16],
    &[0, 2, 7, 14],
    &[0, 2, 7, 13],
    &[0, 2, 14, 15],
    &[0, 2, 3, 14],
    &[0, 2, 3, 4, 7, 13, 14],
    &[0, 2, 3, 13],
    &[0, 2, 3, 4, 5, 7, 13, 17],
    &[0, 2, 20, 4, 5, 6, 7, 8, 9, 10, 11, 12],
    &[0, 2, 4, 5, 7, 8, 9, 10, 13],
    &[0, 2, 4, 5, 99],
    &[0, 2, 4],
    &[0, 2, 20, 4, 5, 8, 9],
];

/// The rows of the table of causes that no journal can meet, with the reason.
pub const OUT_OF_REACH: [(&[u8], u32, &str); 3] = [
    (
        &[0, 1, 2, 3, 4, 5, 6, 7, 8, 9, 10, 11, 12, 13],
        1,
        "a fresh book is fit and every event keeps it fit; a calendar above 1,200 words is a malformed journal",
    ),
    (
        &[1, 10, 12],
        14,
        "O is at most 10^10 sheets, which bring less than 1.06×10^16 fen of income over all 38,399 days \
         at 100,000 ticks; the principal of 1,500 trades of 10^8 sheets, and of 10^10 sheets that start \
         again at each of 500 Closes, is 5.15×10^16: so neither a net nor U passes 6.21×10^16, far from \
         4×10^18",
    ),
    (
        &[9],
        14,
        "1,500 trades of 10^8 sheets take at most 1.5×10^15 fen from a net, far from 4×10^18 down",
    ),
];

#[derive(Clone, Debug, Default, PartialEq, Eq)]
pub struct Coverage {
    counts: [[u64; ANSWERS.len()]; CODES],
    /// Answers that are none of the paper's.
    strangers: Vec<(u8, u32)>,
}

impl Coverage {
    pub fn record(&mut self, event: &[u8; EVENT_BYTES], number: u32) {
        let code = if (1..=13).contains(&event[0]) { event[0] } else { OTHER_CODE };
        match column(number) {
            Some(column) => self.counts[usize::from(code)][column] += 1,
            None => self.strangers.push((code, number)),
        }
    }

    /// Each event with the answer on its line of the listing.
    pub fn record_listing(&mut self, events: &[[u8; EVENT_BYTES]], listing: &str) {
        for (event, line) in events.iter().zip(listing.lines()) {
            let answer = line.split(' ').nth(1).and_then(|number| number.parse().ok());
            self.record(event, answer.expect("a line has its answer in second place"));
        }
    }

    pub fn count(&self, code: u8, number: u32) -> u64 {
        column(number).map_or(0, |column| self.counts[usize::from(code)][column])
    }

    /// Allowed pairs that were never met.
    pub fn missing(&self) -> Vec<(u8, u32)> {
        self.missing_of(allowed())
    }

    /// Those of some pairs that were never met.
    pub fn missing_of(&self, pairs: impl Iterator<Item = (u8, u32)>) -> Vec<(u8, u32)> {
        pairs.filter(|&(code, number)| self.count(code, number) == 0).collect()
    }

    /// Pairs that were met although the paper does not allow them.
    pub fn unexpected(&self) -> Vec<(u8, u32)> {
        let pairs = (0..CODES as u8).flat_map(|code| ANSWERS.map(|number| (code, number)));
        pairs
            .filter(|&(code, number)| self.count(code, number) > 0 && !is_allowed(code, number))
            .chain(self.strangers.iter().copied())
            .collect()
    }
}

fn column(number: u32) -> Option<usize> {
    ANSWERS.iter().position(|&answer| answer == number)
}

/// Every pair that a journal on a fresh book can meet.
pub fn allowed() -> impl Iterator<Item = (u8, u32)> {
    (0..).zip(ALLOWED).flat_map(|(code, answers)| answers.iter().map(move |&number| (code, number)))
}

/// Every pair that a call on any book can meet: the whole table of causes.
pub fn allowed_on_any_book() -> impl Iterator<Item = (u8, u32)> {
    let by_calls = OUT_OF_REACH.into_iter();
    allowed().chain(by_calls.flat_map(|(codes, number, _)| codes.iter().map(move |&code| (code, number))))
}

/// A pair as people read it: the event's name and the answer.
pub fn named((code, number): (u8, u32)) -> String {
    format!("{} {number}", NAMES[usize::from(code)])
}

pub fn is_allowed(code: u8, number: u32) -> bool {
    ALLOWED[usize::from(code)].contains(&number)
}

/// One line an event, one column an answer; "-" marks a pair that is not allowed.
impl fmt::Display for Coverage {
    fn fmt(&self, f: &mut fmt::Formatter) -> fmt::Result {
        let most = self.counts.iter().flatten().max().unwrap_or(&0);
        let width = 8.max(most.to_string().len() + 1);
        write!(f, "{:<10}", "")?;
        ANSWERS.iter().try_for_each(|number| write!(f, "{number:>width$}"))?;
        for (code, name) in (0..).zip(NAMES) {
            write!(f, "\n{name:<10}")?;
            for number in ANSWERS {
                match (self.count(code, number), is_allowed(code, number)) {
                    (0, false) => write!(f, "{:>width$}", "-")?,
                    (count, _) => write!(f, "{count:>width$}")?,
                }
            }
        }
        writeln!(f)
    }
}
