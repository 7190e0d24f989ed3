//! The sixteen events of document 01, to the byte, and the files of `examples/`.

use model::cases::ledger::{trade, FIRST_DAY, WORKED_CALENDAR};
use model::event::Event;
use model::{journal, text};

const TEXT: &str = include_str!("../../../examples/worked.txt");
const README: &str = include_str!("../../../README.md");
const JOURNAL: &[u8] = include_bytes!("../../../examples/worked.journal");

const LISTING: &str = "\
1 0 0 0 0 0 0
2 0 0 0 5000000 0 0
3 0 0 0 5000000 3000000 0
4 0 0 0 5000000 3000000 0
5 0 0 0 5000000 3000000 0
6 0 0 0 5000000 3000000 0
7 0 0 0 5000000 3000000 0
8 0 180 0 5000000 3000000 0
9 0 180 0 5000000 3000000 0
10 0 80 100 5000000 3000000 0
11 0 80 100 5000000 3000000 0
12 0 80 100 5000000 3000000 0
13 0 80 100 5000000 3000000 0
14 12 80 100 5000000 3000000 0
15 0 80 100 6000000 2000000 0
16 0 80 100 6000000 2000000 0
";

#[test]
fn the_worked_example_is_listed_to_the_byte() {
    let later_days = [
        Event::Open,
        trade(7, 100, 4),
        Event::Pay,
        Event::Close,
        Event::Open,
        trade(8, 90, 6),
        Event::Pay,
        Event::Close,
    ];
    let events: Vec<_> = FIRST_DAY.iter().chain(&later_days).map(Event::encode).collect();
    assert_eq!(events.len(), 16);
    assert_eq!(journal::write(&WORKED_CALENDAR, &events), JOURNAL);
    assert_eq!(journal::listing(JOURNAL), LISTING);
}

#[test]
fn the_text_of_the_worked_example_makes_its_bytes() {
    assert_eq!(text::make(TEXT).as_deref(), Ok(JOURNAL));
}

/// From the calendar on, as far as lines are indented or empty.
#[test]
fn the_readme_shows_the_worked_example() {
    let from_calendar = README.lines().skip_while(|line| !line.starts_with("    calendar"));
    let block: Vec<&str> =
        from_calendar.take_while(|line| line.is_empty() || line.starts_with("    ")).collect();
    assert_eq!(text::make(&block.join("\n")).as_deref(), Ok(JOURNAL));
}

#[test]
fn a_negative_headroom_has_its_minus_sign() {
    let later = [Event::Open, trade(7, 100, 4), Event::Rate { kind: 0, rate: 0 }];
    let events: Vec<_> = FIRST_DAY.iter().chain(&later).map(Event::encode).collect();
    let listing = journal::listing(&journal::write(&WORKED_CALENDAR, &events));
    assert_eq!(listing.lines().last(), Some("11 0 -100 100 5000000 3000000 0"));
}
