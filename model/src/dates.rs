//! Dates of the Gregorian calendar and the days that they are: day 0 is
//! 1 January 2000, and dates go to the end of 2099.
//!
//! The days before a year are counted by a formula, those before a month by
//! adding up the months of its year.

use std::fmt;

use crate::answer::{numbered, Refusal};
use crate::limits::{FIRST_YEAR, LAST_DAY, LAST_YEAR};

#[derive(Clone, Copy, Debug, Default, PartialEq, Eq)]
pub struct Date {
    pub year: u32,
    pub month: u32,
    pub day: u32,
}

impl fmt::Display for Date {
    fn fmt(&self, f: &mut fmt::Formatter) -> fmt::Result {
        write!(f, "{:04}-{:02}-{:02}", self.year, self.month, self.day)
    }
}

/// The day of a date.
pub fn day_of(date: Date) -> (u32, u32) {
    numbered(checked_day(date))
}

/// The date of a day.
pub fn date_of(day: u32) -> (u32, Date) {
    numbered(Refusal::NoDate.when(day > LAST_DAY).map(|()| date_from(day)))
}

fn checked_day(date: Date) -> Result<u32, Refusal> {
    let Date { year, month, day } = date;
    Refusal::NoDate.when(!(FIRST_YEAR..=LAST_YEAR).contains(&year))?;
    Refusal::NoDate.when(!(1..=12).contains(&month))?;
    Refusal::NoDate.when(!(1..=month_length(year, month)).contains(&day))?;
    let before_month: u32 = (1..month).map(|month| month_length(year, month)).sum();
    Ok(days_before(year) + before_month + day - 1)
}

fn date_from(day: u32) -> Date {
    // No year is longer than 366 days, so this one is not too late.
    let mut year = FIRST_YEAR + day / 366;
    while days_before(year + 1) <= day {
        year += 1;
    }
    let (mut month, mut into) = (1, day - days_before(year));
    while into >= month_length(year, month) {
        into -= month_length(year, month);
        month += 1;
    }
    Date { year, month, day: into + 1 }
}

/// From 1 January 2000 to that of `year`.
fn days_before(year: u32) -> u32 {
    365 * (year - FIRST_YEAR) + leap_years_before(year) - leap_years_before(FIRST_YEAR)
}

/// Every fourth year, but of every hundredth only every fourth.
fn leap_years_before(year: u32) -> u32 {
    let last = year - 1;
    last / 4 - last / 100 + last / 400
}

fn is_leap(year: u32) -> bool {
    leap_years_before(year + 1) > leap_years_before(year)
}

fn month_length(year: u32, month: u32) -> u32 {
    match month {
        2 if is_leap(year) => 29,
        2 => 28,
        4 | 6 | 9 | 11 => 30,
        _ => 31,
    }
}
