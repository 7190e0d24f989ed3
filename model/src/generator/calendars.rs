//! Calendars of several sorts, as words.

use super::random::Random;
use crate::limits::CALENDAR_WORDS;

#[derive(Clone, Copy, Debug, PartialEq, Eq)]
pub enum Sort {
    /// Five days of seven, less some holidays.
    Weekdays,
    /// Every day trades.
    Everyday,
    /// A trading day now and then, often weeks apart.
    Sparse,
    /// A handful of days over all 38,400, years apart.
    Scattered,
    /// Ends after a few trading days.
    Short,
    /// No trading day, or a single one.
    Empty,
}

pub fn calendar(random: &mut Random, sort: Sort) -> Vec<u32> {
    let words = match sort {
        Sort::Weekdays | Sort::Everyday => random.between(20, 200),
        Sort::Sparse => random.between(20, CALENDAR_WORDS as u64),
        Sort::Scattered => CALENDAR_WORDS as u64,
        Sort::Short => random.between(1, 3),
        Sort::Empty => random.below(4),
    } as usize;
    let mut calendar = vec![0; words];
    match sort {
        Sort::Weekdays => keep(&mut calendar, |day| day % 7 < 5 && !random.percent(8)),
        Sort::Everyday => keep(&mut calendar, |_| true),
        Sort::Sparse => keep(&mut calendar, |_| random.percent(4)),
        Sort::Scattered => scatter(random, &mut calendar),
        Sort::Short => keep(&mut calendar, |_| random.percent(15)),
        Sort::Empty => {
            if words > 0 && random.percent(50) {
                let day = random.below(32 * words as u64);
                keep(&mut calendar, |other| other == day);
            }
        }
    }
    calendar
}

/// Some days near each end and few or none between, so that trades run for decades.
fn scatter(random: &mut Random, calendar: &mut [u32]) {
    let last = 32 * calendar.len() as u64 - 1;
    let middle = random.percent(30).then(|| random.below(last));
    let around = |day: u64, centre: u64| day.abs_diff(centre) < 12;
    keep(calendar, |day| {
        let near = around(day, 0) || around(day, last);
        near && random.percent(60) || middle.is_some_and(|middle| around(day, middle)) && random.percent(30)
    });
}

fn keep(calendar: &mut [u32], mut trades: impl FnMut(u64) -> bool) {
    for (word, first) in calendar.iter_mut().zip((0..).step_by(32)) {
        *word = (0..32).filter(|bit| trades(first + bit)).fold(0, |bits, bit| bits | 1 << bit);
    }
}
