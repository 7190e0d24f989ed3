//! The built program `daybook` against the model: what it writes on standard
//! output, byte for byte.

use std::fs::{self, File};
use std::io::{Read, Write};
use std::path::Path;
use std::process::{Child, Command, Output, Stdio};
use std::thread::sleep;
use std::time::Duration;

use compare::damage::{small_journals, with_other_counts};
use compare::listings::assert_same_text;
use model::cases::longest;
use model::event::{Event, EVENT_BYTES};
use model::generator::{corpus, generate_as, Profile};
use model::journal::{listing, write, JOURNAL_REFUSED};
use model::limits::{CALENDAR_WORDS, JOURNAL_EVENTS};

const DAYBOOK: &str = concat!(env!("CARGO_MANIFEST_DIR"), "/../crates/daybook/out/daybook");
const EXAMPLE: &str = concat!(env!("CARGO_MANIFEST_DIR"), "/../examples/worked.journal");
/// Bytes of the largest journal.
const LARGEST: usize = 4 + 4 * CALENDAR_WORDS + 4 + EVENT_BYTES * JOURNAL_EVENTS;
const PAUSE: Duration = Duration::from_millis(2);

fn start(input: Stdio, output: Stdio) -> Child {
    assert!(Path::new(DAYBOOK).exists(), "there is no crates/daybook/out/daybook: `rt run` builds it there");
    let mut program = Command::new(DAYBOOK);
    program.stdin(input).stdout(output).stderr(Stdio::piped()).spawn().expect("daybook starts")
}

/// The program's output for an input that comes through a pipe, piece by piece.
fn output_of<'a>(pieces: impl Iterator<Item = &'a [u8]>, pause: Duration) -> Output {
    let mut program = start(Stdio::piped(), Stdio::piped());
    let mut input = program.stdin.take().expect("a pipe");
    for piece in pieces {
        // A program that has read enough may be gone by now.
        let _ = input.write_all(piece);
        sleep(pause);
    }
    drop(input);
    program.wait_with_output().expect("daybook ends")
}

fn assert_lists(name: &str, output: &Output, wanted: &str) {
    assert_same_text(name, &output.stdout, wanted);
    assert!(output.status.success(), "{name}: {}", output.status);
    assert!(output.stderr.is_empty(), "{name}: {}", String::from_utf8_lossy(&output.stderr));
}

/// Compares the program's listing with the model's and gives it back.
fn agreed(name: &str, journal: &[u8]) -> String {
    let wanted = listing(journal);
    assert_lists(name, &output_of([journal].into_iter(), Duration::ZERO), &wanted);
    wanted
}

fn assert_refused(name: &str, journal: &[u8]) {
    assert_eq!(agreed(name, journal), JOURNAL_REFUSED, "{name}");
}

#[test]
fn generated_journals_are_listed_alike() {
    let (mut lines, mut refused) = (0, 0);
    for (name, bytes) in corpus(60_000..60_200) {
        let listing = agreed(&name, &bytes);
        lines += listing.lines().count();
        refused += u32::from(listing == JOURNAL_REFUSED);
    }
    assert!(lines > 100_000 && refused > 40, "only {lines} lines, and {refused} journals refused");
}

#[test]
fn a_file_is_listed_as_a_pipe_is() {
    let (journal, file) = (fs::read(EXAMPLE).unwrap(), File::open(EXAMPLE).unwrap());
    let output = start(file.into(), Stdio::piped()).wait_with_output().expect("daybook ends");
    assert_lists("the worked example, a file", &output, &listing(&journal));
    assert_eq!(agreed("the worked example, a pipe", &journal).lines().count(), 16);
}

#[test]
fn journals_of_no_event_and_of_1500_are_listed_alike() {
    assert_refused("the empty input", &[]);
    assert_eq!(agreed("no event", &write(&[], &[])), "");
    let full = write(&[u32::MAX; CALENDAR_WORDS], &[Event::Open.encode(); JOURNAL_EVENTS]);
    assert_eq!(full.len(), LARGEST);
    assert_eq!(agreed("1,500 events", &full).lines().count(), JOURNAL_EVENTS);
}

/// 124,235 bytes, of which `daybook` has room for 222,000; read at leisure, so
/// that the program has to wait for the pipe.
#[test]
fn the_longest_listing_is_written_whole() {
    let journal = longest::journal();
    assert_eq!(agreed("the longest listing", &journal).len(), 124_235);
    let mut program = start(Stdio::piped(), Stdio::piped());
    program.stdin.take().expect("a pipe").write_all(&journal).expect("daybook reads all");
    let (mut text, mut piece) = (Vec::new(), [0; 4_099]);
    let mut output = program.stdout.take().expect("a pipe");
    loop {
        match output.read(&mut piece).expect("daybook's output is read") {
            0 => break,
            length => text.extend_from_slice(&piece[..length]),
        }
        sleep(PAUSE);
    }
    assert_same_text("the longest listing, read slowly", &text, &listing(&journal));
    assert!(program.wait().expect("daybook ends").success());
}

#[test]
fn inputs_past_the_largest_journal_are_refused() {
    let mut bytes = longest::journal();
    assert_eq!(bytes.len(), LARGEST);
    for length in [64_809, 64_810, 100_000, 1_000_000] {
        bytes.resize(length, 0);
        assert_refused(&format!("{length} bytes"), &bytes);
    }
}

#[test]
fn journals_cut_short_are_refused() {
    for (name, bytes) in small_journals() {
        let ends = (bytes.len() - 41..bytes.len()).step_by(5).chain([bytes.len() - 1]);
        let cuts = (0..bytes.len()).step_by(1 + bytes.len() / 25).chain([1, 3, 4, 5, 7, 8]).chain(ends);
        for cut in cuts {
            assert_refused(&format!("{name}, {cut} bytes"), &bytes[..cut]);
        }
    }
}

#[test]
fn bytes_left_over_are_refused() {
    for (name, bytes) in small_journals() {
        for more in [1, 3, 4, 39, 40, 41, 10_000] {
            let longer = [&bytes[..], &vec![0; more]].concat();
            assert_refused(&format!("{name}, {more} bytes more"), &longer);
        }
    }
}

#[test]
fn counts_that_are_wrong_or_past_their_limits_are_listed_alike() {
    for (name, bytes) in small_journals() {
        for (name, bytes) in with_other_counts(&name, &bytes) {
            agreed(&name, &bytes);
        }
    }
}

/// A read then gives less than was asked for, in the middle of a count, a word
/// or an event.
#[test]
fn journals_that_come_in_small_pieces_are_listed_alike() {
    let longest = longest::journal();
    let short = generate_as(Profile::EmptyCalendar, 2);
    let troubled = generate_as(Profile::Troubled, 8);
    let (_, cut) = troubled.split_last().expect("a journal has bytes");
    let too_long = [&longest[..], &[0]].concat();
    for (name, bytes, length) in [
        ("a short one", &short[..], 1),
        ("a troubled one", &troubled, 131),
        ("the same cut short", cut, 131),
        ("the longest", &longest, 997),
        ("a byte too many", &too_long, 4_051),
    ] {
        assert_lists(name, &output_of(bytes.chunks(length), PAUSE), &listing(bytes));
    }
}

/// A folder can be opened, but not read, and /dev/full takes no byte.
#[test]
fn a_failed_read_or_write_is_told_on_standard_error() {
    let (folder, full) = (File::open("/").unwrap(), File::options().write(true).open("/dev/full").unwrap());
    let unread = start(folder.into(), Stdio::piped()).wait_with_output().expect("daybook ends");
    assert!(unread.stdout.is_empty(), "written: {}", String::from_utf8_lossy(&unread.stdout));
    let example = File::open(EXAMPLE).unwrap();
    let unwritten = start(example.into(), full.into()).wait_with_output().expect("daybook ends");
    assert_eq!(String::from_utf8_lossy(&unread.stderr), "daybook: cannot read standard input\n");
    assert_eq!(String::from_utf8_lossy(&unwritten.stderr), "daybook: cannot write the listing\n");
}
