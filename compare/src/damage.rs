//! Small journals, and ways to damage one.

use model::generator::{generate_as, Profile};
use model::journal::parse;

/// Small journals for the tests that take many forms of each.
pub fn small_journals() -> impl Iterator<Item = (String, Vec<u8>)> {
    let profiles = [Profile::Troubled, Profile::EmptyCalendar, Profile::ThinCalendar, Profile::Careless];
    let generated = profiles.into_iter().zip(1..);
    generated.map(|(profile, seed)| (format!("{profile:?} {seed}"), generate_as(profile, seed)))
}

/// A well-formed journal with either count replaced by another, near or far.
pub fn with_other_counts(name: &str, bytes: &[u8]) -> Vec<(String, Vec<u8>)> {
    let journal = parse(bytes).expect("a journal to damage is well-formed");
    let (words, events) = (journal.calendar.len(), journal.events.len());
    let counts = [(0, words as u32), (4 + 4 * words, events as u32)];
    let far = [1 << 16, 1 << 24, 1 << 29, 1 << 30, 1 << 31, u32::MAX / 4 + 1, u32::MAX - 3, u32::MAX];
    let others = |count: u32| {
        let near = [count.wrapping_sub(1), count + 1, 1_200, 1_201, 1_500, 1_501];
        near.into_iter().chain(far)
    };
    let places =
        counts.into_iter().flat_map(|(place, count)| others(count).map(move |other| (place, other)));
    places
        .map(|(place, count): (usize, u32)| {
            let mut bytes = bytes.to_vec();
            bytes[place..place + 4].copy_from_slice(&count.to_le_bytes());
            (format!("{name}, count {count} at {place}"), bytes)
        })
        .collect()
}
