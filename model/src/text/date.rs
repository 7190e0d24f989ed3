//! Days as dates, such as `2026-11-23`.

use super::error::Problem;
use super::words::is_plain;
use crate::dates::{date_of, day_of, Date};

/// How days are shown.
#[derive(Clone, Copy, PartialEq, Eq)]
pub enum DaysAs {
    Numbers,
    /// Where there is one; later days are numbers still.
    Dates,
}

impl DaysAs {
    pub fn show(self, day: u32) -> String {
        match (self, date_of(day)) {
            (DaysAs::Dates, (0, date)) => date.to_string(),
            _ => day.to_string(),
        }
    }
}

/// The day of a word that looks like a date: three numbers with hyphens between them.
pub fn day_of_date(word: &str) -> Result<Option<u32>, Problem> {
    let parts: Vec<&str> = word.split('-').collect();
    let [year, month, day] = parts[..] else { return Ok(None) };
    if !parts.iter().all(|part| is_plain(part)) {
        return Ok(None);
    }
    if parts.iter().map(|part| part.len()).ne([4, 2, 2]) {
        return Err(Problem::DateForm(word.to_string()));
    }
    let [year, month, day] = [year, month, day].map(|digits| digits.parse().expect("at most four digits"));
    match day_of(Date { year, month, day }) {
        (0, day) => Ok(Some(day)),
        _ => Err(Problem::NoSuchDate(word.to_string())),
    }
}
