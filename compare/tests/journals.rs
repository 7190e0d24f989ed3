//! The listing of a journal by the proved call against the model's, byte for
//! byte, for journals of every sort, damaged ones included.

use compare::damage::{small_journals, with_other_counts};
use compare::listings::{Lister, UNWRITTEN};
use compare::{judge, write_listing};
use model::cases::longest;
use model::coverage::Coverage;
use model::event::{Event, EVENT_BYTES};
use model::generator::random::Random;
use model::generator::{corpus, generate};
use model::journal::{listing, parse, write, JOURNAL_REFUSED};

#[test]
fn generated_journals_are_listed_alike_and_meet_every_allowed_answer() {
    let mut lister = Lister::default();
    let mut coverage = Coverage::default();
    let (mut journals, mut refused) = (0, 0);
    for (name, bytes) in corpus(20_000..40_000) {
        let listing = lister.agreed(&name, &bytes);
        journals += 1;
        match parse(&bytes) {
            Ok(journal) => coverage.record_listing(journal.events, &listing),
            Err(_) => refused += 1,
        }
    }
    assert!(journals >= 20_000 && refused >= 1_000);
    judge(&format!("{journals} journals listed, {refused} of them malformed"), &coverage);
}

#[test]
fn every_length_of_some_journals_is_listed_alike() {
    let mut lister = Lister::default();
    for (name, bytes) in small_journals() {
        for length in 0..bytes.len() {
            let listing = lister.agreed(&format!("{name}, {length} bytes"), &bytes[..length]);
            assert_eq!(listing, JOURNAL_REFUSED);
        }
        assert_ne!(lister.agreed(&name, &bytes), JOURNAL_REFUSED);
    }
}

#[test]
fn bytes_left_over_are_listed_alike() {
    let mut lister = Lister::default();
    for (name, mut bytes) in small_journals() {
        for more in 1..=2 * EVENT_BYTES {
            bytes.push(more as u8);
            let listing = lister.agreed(&format!("{name}, {more} bytes more"), &bytes);
            assert_eq!(listing, JOURNAL_REFUSED);
        }
    }
}

#[test]
fn counts_that_are_wrong_or_past_their_limits_are_listed_alike() {
    let mut lister = Lister::default();
    for (name, bytes) in small_journals() {
        for (name, bytes) in with_other_counts(&name, &bytes) {
            lister.agreed(&name, &bytes);
        }
    }
}

#[test]
fn journals_at_and_past_both_limits_are_listed_alike() {
    let mut lister = Lister::default();
    let events = vec![Event::Open.encode(); 1_501];
    for (words, count) in [(0, 0), (1_200, 1_500), (1_201, 1_500), (1_200, 1_501)] {
        let bytes = write(&vec![u32::MAX; words], &events[..count]);
        let listing = lister.agreed(&format!("{words} words, {count} events"), &bytes);
        assert_eq!(listing == JOURNAL_REFUSED, words > 1_200 || count > 1_500);
    }
}

#[test]
fn the_longest_listing_is_listed_alike() {
    Lister::default().agreed("the longest listing", &longest::journal());
}

/// One bit anywhere: a count, a calendar word, a used or an unused field.
#[test]
fn journals_with_a_bit_turned_are_listed_alike() {
    let mut lister = Lister::default();
    let mut random = Random::new(11);
    for seed in 0..3_000 {
        let mut bytes = generate(seed);
        if !bytes.is_empty() {
            let place = random.below(bytes.len() as u64) as usize;
            bytes[place] ^= 1 << random.below(8);
            lister.agreed(&format!("seed {seed}, byte {place} turned"), &bytes);
        }
    }
}

/// 14, "a limit would be passed", length 0, and the buffer as it was.
#[test]
fn a_buffer_too_short_is_refused_and_left_alone() {
    let malformed = ("malformed".to_string(), vec![1]);
    for (name, bytes) in small_journals().chain([malformed]) {
        let length = listing(&bytes).len();
        for room in (0..length).rev().step_by(1 + length / 500) {
            let mut buffer = vec![UNWRITTEN; room];
            assert_eq!(write_listing(&bytes, &mut buffer), (14, 0), "{name}, {room} of {length} bytes");
            assert!(buffer.iter().all(|&byte| byte == UNWRITTEN), "{name}, {room} of {length} bytes");
        }
    }
}

#[test]
fn a_buffer_just_long_enough_is_filled() {
    for (name, bytes) in small_journals() {
        let wanted = listing(&bytes);
        let mut buffer = vec![UNWRITTEN; wanted.len()];
        assert_eq!(write_listing(&bytes, &mut buffer), (0, wanted.len()), "{name}");
        assert!(buffer == wanted.as_bytes(), "{name}");
    }
}
