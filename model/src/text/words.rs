//! The words of one line, taken one after another.

use std::str::SplitWhitespace;

use super::date::day_of_date;
use super::error::Problem;

/// A line that says something: its first word, and those still to be taken.
pub struct Words<'a> {
    name: &'a str,
    rest: SplitWhitespace<'a>,
}

impl<'a> Words<'a> {
    /// Nothing for an empty line; a `#` begins a comment.
    pub fn of(line: &'a str) -> Option<Words<'a>> {
        let said = line.split('#').next().unwrap_or(line);
        let mut rest = said.split_whitespace();
        rest.next().map(|name| Words { name, rest })
    }

    pub fn name(&self) -> &'a str {
        self.name
    }

    /// The next word, which must be there.
    pub fn needed(&mut self, what: &'static str) -> Result<&'a str, Problem> {
        self.next().ok_or_else(|| self.lacks(what, None))
    }

    pub fn lacks(&self, what: &'static str, found: Option<&str>) -> Problem {
        Problem::Needs { name: self.name.to_string(), what, found: found.map(str::to_string) }
    }

    /// A number that may be written in thousands, as wide as `T`.
    pub fn number<T: TryFrom<u64>>(&mut self, what: &'static str) -> Result<T, Problem> {
        let word = self.needed(what)?;
        self.number_in(word, what)
    }

    pub fn number_in<T: TryFrom<u64>>(&self, word: &str, what: &'static str) -> Result<T, Problem> {
        self.number_up_to(word, what, u64::MAX >> (64 - 8 * size_of::<T>()))
    }

    fn number_up_to<T: TryFrom<u64>>(
        &self,
        word: &str,
        what: &'static str,
        most: u64,
    ) -> Result<T, Problem> {
        let digits = in_thousands(word).ok_or_else(|| self.lacks(what, Some(word)))?;
        at_most(&digits, what, most)
    }

    /// A number behind its own word.
    pub fn named<T: TryFrom<u64>>(&mut self, label: &str, what: &'static str) -> Result<T, Problem> {
        self.label(label, what)?;
        self.number(what)
    }

    /// A number of at most `most` behind its own word, if that is the next one.
    pub fn named_if_any<T: TryFrom<u64>>(
        &mut self,
        label: &str,
        what: &'static str,
        most: u64,
    ) -> Result<Option<T>, Problem> {
        if self.rest.clone().next() != Some(label) {
            return Ok(None);
        }
        self.label(label, what)?;
        let word = self.needed(what)?;
        self.number_up_to(word, what, most).map(Some)
    }

    /// A day behind its own word: a number, or a date.
    pub fn named_day(&mut self, label: &str, what: &'static str) -> Result<u32, Problem> {
        self.label(label, what)?;
        let word = self.needed(what)?;
        match day_of_date(word)? {
            Some(day) => Ok(day),
            None => self.number_in(word, what),
        }
    }

    fn label(&mut self, label: &str, what: &'static str) -> Result<(), Problem> {
        match self.needed(what)? {
            word if word == label => Ok(()),
            word => Err(self.lacks(what, Some(word))),
        }
    }

    pub fn end(&mut self) -> Result<(), Problem> {
        match self.next() {
            None => Ok(()),
            Some(found) => Err(Problem::LeftOver { name: self.name.to_string(), found: found.to_string() }),
        }
    }
}

impl<'a> Iterator for Words<'a> {
    type Item = &'a str;

    fn next(&mut self) -> Option<&'a str> {
        self.rest.next()
    }
}

pub fn is_plain(word: &str) -> bool {
    !word.is_empty() && word.bytes().all(|byte| byte.is_ascii_digit())
}

/// The digits of `5000000`, `5,000,000` or `5_000_000`.
fn in_thousands(word: &str) -> Option<String> {
    let separators = [',', '_'];
    let good = match word.split_once(separators) {
        None => is_plain(word),
        Some((first, others)) => {
            let thousand = |group: &str| is_plain(group) && group.len() == 3;
            is_plain(first) && first.len() <= 3 && others.split(separators).all(thousand)
        }
    };
    good.then(|| word.replace(separators, ""))
}

/// The number that plain digits say, if it is no more than `most`.
pub fn at_most<T: TryFrom<u64>>(digits: &str, what: &'static str, most: u64) -> Result<T, Problem> {
    digits
        .parse()
        .ok()
        .filter(|&number| number <= most)
        .and_then(|number| T::try_from(number).ok())
        .ok_or_else(|| Problem::PastMost { what, found: digits.to_string(), most })
}
