//! Events that cannot be decoded, and journals that cannot be parsed.

use super::draft::Draft;
use super::random::Random;
use crate::event::{Event, EVENT_BYTES};
use crate::journal;
use crate::limits::{CALENDAR_WORDS, JOURNAL_EVENTS};

/// Answer 2 of every sort: a code that is none, an account that is none, a
/// nonzero byte in an unused field, or any bytes at all.
pub fn undecodable(draft: &mut Draft) -> [u8; EVENT_BYTES] {
    loop {
        let code = draft.random.between(1, 13) as u8;
        let mut bytes = draft.draw(code).encode();
        match draft.random.below(9) {
            0 => bytes[0] = draft.random.pick(&[0, 14, 15, 77, 128, 255]),
            1 => bytes[1] = draft.random.pick(&[2, 3, 32, 255]),
            2 => bytes = std::array::from_fn(|_| draft.random.any() as u8),
            3 => bytes = [0; EVENT_BYTES],
            4 => bytes[2] = draft.random.pick(&[1, 4, 16, 17, 255]),
            _ => bytes[draft.random.between(1, 39) as usize] |= 1 << draft.random.below(8),
        }
        if Event::decode(&bytes).is_err() {
            return bytes;
        }
    }
}

/// A journal that `parse` must turn down, made from a good one.
pub fn damaged(random: &mut Random, calendar: &[u32], events: &[[u8; EVENT_BYTES]]) -> Vec<u8> {
    let mut bytes = journal::write(calendar, events);
    let second_count = 4 + 4 * calendar.len();
    match random.below(6) {
        0 => bytes.truncate(random.below(bytes.len() as u64) as usize),
        1 => bytes.truncate(cut_at_a_section(random, calendar.len(), events.len())),
        2 => bytes.extend((0..random.between(1, 41)).map(|_| random.any() as u8)),
        3 => bytes = journal::write(&vec![u32::MAX; CALENDAR_WORDS + 1], events),
        4 => bytes = journal::write(calendar, &vec![Event::Open.encode(); JOURNAL_EVENTS + 1]),
        _ => {
            let past_limit = random.pick(&[JOURNAL_EVENTS as u32 + 1, 1 << 31, u32::MAX]);
            let count = random.pick(&[0, second_count]);
            bytes[count..count + 4].copy_from_slice(&past_limit.to_le_bytes());
        }
    }
    bytes
}

/// A length that ends a journal early in or after one of its sections.
fn cut_at_a_section(random: &mut Random, words: usize, events: usize) -> usize {
    let second_count = 4 + 4 * words;
    let last_event = second_count + 4 + EVENT_BYTES * events.saturating_sub(1);
    let whole = second_count + 4 + EVENT_BYTES * events;
    let cuts = [0, 3, 4, second_count - 1, second_count, second_count + 2, second_count + 4, last_event];
    random.pick(&cuts).min(whole - 1)
}
