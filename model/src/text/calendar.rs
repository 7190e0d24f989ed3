//! The calendar's lines: its words as they are, or the days that trade, as
//! numbers or as dates.
//!
//! Numbers are plain here: among many a comma would look like a list.

use super::date::{day_of_date, DaysAs};
use super::error::Problem;
use super::words::{at_most, is_plain, Words};
use crate::limits::{CALENDAR_DAYS, CALENDAR_WORDS};
use crate::money::trades;

const WORD: &str = "a calendar word";
const DAY: &str = "a day of the calendar";
const DAYS: &str = "days such as 7 or 2026-11-23, or runs of days such as 3-7 or 2026-11-16..2026-11-20";
/// Words, days or runs of days on a line that is shown.
const SHOWN: usize = 12;
/// The same where they are dates.
const SHOWN_DATES: usize = 4;

#[derive(Clone, Copy, PartialEq, Eq)]
pub enum Form {
    Words,
    Days,
}

pub fn form(words: &mut Words) -> Result<Form, Problem> {
    let what = "`words` or `days`";
    match words.needed(what)? {
        "words" => Ok(Form::Words),
        "days" => Ok(Form::Days),
        other => Err(words.lacks(what, Some(other))),
    }
}

/// A calendar in the making.
pub struct CalendarText {
    form: Form,
    pub words: Vec<u32>,
    /// The day given last, and how it was written.
    last_day: Option<(u32, String)>,
}

impl CalendarText {
    pub fn begun(form: Form) -> CalendarText {
        CalendarText { form, words: Vec::new(), last_day: None }
    }

    /// The words or days of one line, after those of the lines before.
    pub fn go_on(&mut self, form: Form, words: &mut Words) -> Result<(), Problem> {
        if form != self.form {
            return Err(Problem::TwoForms);
        }
        while let Some(word) = words.next() {
            match form {
                Form::Words => self.add_word(words, word)?,
                Form::Days => self.add_days(words, word)?,
            }
        }
        Ok(())
    }

    fn add_word(&mut self, words: &Words, word: &str) -> Result<(), Problem> {
        if !is_plain(word) {
            return Err(words.lacks("plain numbers for its words", Some(word)));
        }
        if self.words.len() == CALENDAR_WORDS {
            return Err(Problem::TooManyWords);
        }
        self.words.push(at_most(word, WORD, u32::MAX.into())?);
        Ok(())
    }

    /// A day such as `7` or `2026-11-23`, or a run of days such as `3-7`, `3..7` or `2026-11-16..2026-11-20`.
    fn add_days(&mut self, words: &Words, word: &str) -> Result<(), Problem> {
        let (first_word, last_word) = ends(word);
        let (first, last) = (day(words, word, first_word)?, day(words, word, last_word)?);
        if last < first {
            return Err(Problem::NotRising { day: last_word.to_string(), last: first_word.to_string() });
        }
        if let Some((_, written)) = self.last_day.as_ref().filter(|(day, _)| first <= *day) {
            return Err(Problem::NotRising { day: first_word.to_string(), last: written.clone() });
        }
        (first..=last).for_each(|day| self.add_day(day));
        self.last_day = Some((last, last_word.to_string()));
        Ok(())
    }

    fn add_day(&mut self, day: u32) {
        let place = (day / 32) as usize;
        self.words.resize(place + 1, 0);
        self.words[place] |= 1 << (day % 32);
    }
}

/// The first and the last of a run of days, or a day twice.
fn ends(word: &str) -> (&str, &str) {
    let of_numbers = || word.split_once('-').filter(|(_, last)| !last.contains('-'));
    word.split_once("..").or_else(of_numbers).unwrap_or((word, word))
}

fn day(words: &Words, run: &str, word: &str) -> Result<u32, Problem> {
    if let Some(day) = day_of_date(word)? {
        return Ok(day);
    }
    if !is_plain(word) {
        return Err(words.lacks(DAYS, Some(run)));
    }
    at_most(word, DAY, CALENDAR_DAYS - 1)
}

/// Days where they say the whole calendar, and words where its last is 0 or it has none.
pub fn show(calendar: &[u32], days: DaysAs) -> String {
    let ends_with_a_day = calendar.last().is_some_and(|&word| word != 0);
    if !ends_with_a_day {
        return lines("calendar words", &calendar.iter().map(u32::to_string).collect::<Vec<_>>(), SHOWN);
    }
    let runs: Vec<String> = trading_days(calendar)
        .chunk_by(|day, next| day + 1 == *next)
        .flat_map(|run| shown(run, days))
        .collect();
    match days {
        DaysAs::Numbers => lines("calendar days", &runs, SHOWN),
        DaysAs::Dates => lines("calendar days", &runs, SHOWN_DATES),
    }
}

fn lines(start: &str, items: &[String], on_a_line: usize) -> String {
    if items.is_empty() {
        return format!("{start}\n");
    }
    items.chunks(on_a_line).map(|items| format!("{start} {}\n", items.join(" "))).collect()
}

fn trading_days(calendar: &[u32]) -> Vec<u32> {
    (0..32 * calendar.len() as u32).filter(|&day| trades(calendar, day)).collect()
}

/// Days in a row, from three on by the first and the last of them.
fn shown(run: &[u32], days: DaysAs) -> Vec<String> {
    let between = match days {
        DaysAs::Numbers => "-",
        DaysAs::Dates => "..",
    };
    match run {
        [first, _, .., last] => vec![format!("{}{between}{}", days.show(*first), days.show(*last))],
        _ => run.iter().map(|&day| days.show(day)).collect(),
    }
}
