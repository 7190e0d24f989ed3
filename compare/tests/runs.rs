//! The proved run of a journal's events against the model's, number by number:
//! answer, headroom, O, own, client and guarantee cash after every event.

use compare::{judge, proved, BAD_LENGTHS, UNWRITTEN};
use model::cases::ledger::{Ledger, Step};
use model::coverage::evenings::Evenings;
use model::coverage::terms::NextTerms;
use model::coverage::Coverage;
use model::event::EVENT_BYTES;
use model::generator::{corpus, generate_as, Profile};
use model::journal::{parse, Journal, Line};

/// What was met.
#[derive(Default)]
struct Met {
    coverage: Coverage,
    evenings: Evenings,
    next_terms: NextTerms,
}

/// What the model says of each event.
fn expected(journal: &Journal, met: &mut Met) -> Vec<Line> {
    let mut lines = Vec::with_capacity(journal.events.len());
    Ledger::fresh(&journal.calendar).run(
        journal.events,
        |Step { event, answer, before, trades, after, table }| {
            met.coverage.record(event, answer.number);
            met.evenings.record(before, after, table);
            met.next_terms.record(&journal.calendar, before, trades, event, answer.number);
            lines.push(Line::after(answer, after, table));
        },
    );
    lines
}

fn proved_lines(calendar: &[u32], events: &[[u8; EVENT_BYTES]]) -> Vec<Line> {
    proved::run_listing(calendar, events.as_flattened()).expect("a journal's events are run")
}

#[test]
fn generated_journals_agree_and_meet_every_allowed_answer() {
    let mut met = Met::default();
    let mut events = 0;
    for (name, bytes) in corpus(0..20_000) {
        let Ok(journal) = parse(&bytes) else { continue };
        let wanted = expected(&journal, &mut met);
        let got = proved_lines(&journal.calendar, journal.events);
        for (place, (got, wanted)) in (1..).zip(got.iter().zip(&wanted)) {
            assert_eq!(got, wanted, "{name}, event {place}");
        }
        assert_eq!(got.len(), wanted.len(), "{name}");
        events += got.len();
    }
    judge(&format!("{events} events run\n{}{}", met.evenings, met.next_terms), &met.coverage);
    assert!(met.evenings.rarer_than(50).is_empty(), "{}", met.evenings);
    assert!(met.next_terms.rarer_than(50).is_empty(), "{}", met.next_terms);
}

#[test]
fn every_prefix_of_some_journals_agrees() {
    for seed in [3, 14, 159] {
        let bytes = generate_as(Profile::Troubled, seed);
        let journal = parse(&bytes).expect("no damage in this profile");
        let whole = expected(&journal, &mut Met::default());
        for count in 0..journal.events.len().min(300) {
            let got = proved_lines(&journal.calendar, &journal.events[..count]);
            assert_eq!(got, whole[..count], "seed {seed}, {count} events");
        }
    }
}

#[test]
fn bad_lengths_are_refused_and_write_nothing() {
    for ((bytes, room), number) in BAD_LENGTHS {
        let mut lines = vec![UNWRITTEN; room];
        assert_eq!(
            proved::run_into(&[], &vec![0; bytes], &mut lines),
            number,
            "{bytes} bytes, room {room}"
        );
        assert!(lines.iter().all(|&number| number == UNWRITTEN), "{bytes} bytes, room {room}");
    }
}

/// 1 comes before 14 and 18.
#[test]
fn a_calendar_above_1200_words_is_refused_and_writes_nothing() {
    for ((bytes, room), _) in BAD_LENGTHS.into_iter().chain([((EVENT_BYTES, 9), 0)]) {
        let mut lines = vec![UNWRITTEN; room];
        assert_eq!(proved::run_into(&[0; 1_201], &vec![0; bytes], &mut lines), 1);
        assert!(lines.iter().all(|&number| number == UNWRITTEN), "{bytes} bytes, room {room}");
    }
}

#[test]
fn what_lies_past_the_lines_is_as_it_was() {
    let line = [2, 0, 0, 0, 0, 0, 0];
    for count in [0, 1, 3, 1_500] {
        for spare in [0, 1, 9] {
            let mut lines = vec![UNWRITTEN; 7 * count + spare];
            assert_eq!(proved::run_into(&[], &vec![0; EVENT_BYTES * count], &mut lines), 0);
            assert_eq!(lines, [line.repeat(count), vec![UNWRITTEN; spare]].concat());
        }
    }
}
