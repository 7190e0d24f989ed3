//! Parsing: malformed is only a count past its limit, an early end, or bytes left over.

use model::cases::ledger::{FIRST_DAY, WORKED_CALENDAR};
use model::cases::longest;
use model::event::Event;
use model::journal::{listing, parse, write, JOURNAL_REFUSED};

fn first_day() -> Vec<u8> {
    write(&WORKED_CALENDAR, &FIRST_DAY.map(|event| event.encode()))
}

#[test]
fn what_is_written_is_parsed_back() {
    let bytes = first_day();
    let journal = parse(&bytes).unwrap();
    assert_eq!(journal.calendar, WORKED_CALENDAR);
    assert_eq!(journal.events, FIRST_DAY.map(|event| event.encode()));
}

#[test]
fn every_cut_and_every_byte_left_over_is_refused() {
    let mut bytes = first_day();
    for length in 0..bytes.len() {
        assert_eq!(listing(&bytes[..length]), JOURNAL_REFUSED);
    }
    bytes.push(0);
    assert_eq!(listing(&bytes), "journal refused\n");
}

#[test]
fn counts_at_and_past_their_limits() {
    let events = vec![Event::Open.encode(); 1_501];
    assert_eq!(listing(&write(&[0; 1_200], &events[1..])).lines().count(), 1_500);
    assert_eq!(listing(&write(&[0; 1_201], &events[1..])), JOURNAL_REFUSED);
    assert_eq!(listing(&write(&[0; 1_200], &events)), JOURNAL_REFUSED);
    assert_eq!(listing(&u32::MAX.to_le_bytes()), JOURNAL_REFUSED);
}

#[test]
fn an_empty_journal_has_an_empty_listing() {
    assert_eq!(listing(&[0; 8]), "");
    assert_eq!(listing(&[]), JOURNAL_REFUSED);
}

/// Undecodable events are answered 2 and do not spoil the journal.
#[test]
fn undecodable_events_are_listed() {
    assert_eq!(listing(&write(&[], &[[255; 40]])), "1 2 0 0 0 0 0\n");
}

/// Only the lines that lead there are shorter than the longest line.
#[test]
fn the_longest_listing_comes_within_1_percent_of_the_bound() {
    let (listing, bound) = (listing(&longest::journal()), longest::bound());
    let last = "1500 10 -10000000000 10000000000 3333333333333333 3333333333333333 3333333333333333\n";
    assert!(listing.ends_with(last), "{:?}", listing.lines().last());
    assert!(listing.len() <= bound && listing.len() > bound - bound / 100, "{} of {bound}", listing.len());
}
