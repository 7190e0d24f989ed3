//! The text form: what each line says, what is refused and on which line, and
//! that no journal is lost on the way to text and back.

use model::event::{Account, Event, Terms, EVENT_BYTES};
use model::generator::random::Random;
use model::generator::{corpus, generate_as, Profile};
use model::journal::{parse, write};
use model::text::{decode, make, show, DaysAs, Error, Problem};

/// The journal of one line after a calendar without words.
fn alone(line: &str) -> Result<Vec<u8>, String> {
    make(&format!("calendar words\n{line}")).map_err(|error| error.to_string())
}

fn of_event(event: Event) -> Vec<u8> {
    write(&[], &[event.encode()])
}

fn shown(bytes: &[u8]) -> String {
    shown_with(bytes, DaysAs::Numbers)
}

fn shown_with(bytes: &[u8], days: DaysAs) -> String {
    show(&parse(bytes).expect("a well-formed journal"), days)
}

#[test]
fn each_event_has_its_line() {
    let terms = Terms { sheets: 100, contract: 7, price: 3_650, fallback: 1_000, due: 4, product: 0 };
    let lines = [
        ("open", Event::Open),
        ("in own 5000000", Event::FundIn { account: Account::Own, fen: 5_000_000 }),
        ("in client 3000000", Event::FundIn { account: Account::Client, fen: 3_000_000 }),
        ("out own 5", Event::FundOut { account: Account::Own, fen: 5 }),
        ("out client 0", Event::FundOut { account: Account::Client, fen: 0 }),
        ("size 1000", Event::Size { sheets: 1_000 }),
        ("rate 0 9000", Event::Rate { kind: 0, rate: 9_000 }),
        ("pledge 31 200", Event::Pledge { kind: 31, units: 200 }),
        ("pledge cash 5000", Event::Pledge { kind: 32, units: 5_000 }),
        ("freeze 255 1", Event::Freeze { kind: 255, units: 1 }),
        ("withdraw 1 18446744073709551615", Event::Withdraw { kind: 1, units: u64::MAX }),
        ("initial 100 contract 7 price 3650 fallback 1000 due 4", Event::Initial(terms)),
        (
            "initial 100 contract 7 price 3650 fallback 1000 due 4 product 3",
            Event::Initial(Terms { product: 4, ..terms }),
        ),
        (
            "initial 100 contract 7 price 3650 fallback 1000 due 4 product 0",
            Event::Initial(Terms { product: 1, ..terms }),
        ),
        (
            "initial 100 contract 7 price 3650 fallback 1000 due 4 product 254",
            Event::Initial(Terms { product: 255, ..terms }),
        ),
        ("early 50 contract 7 price 3000", Event::Early { sheets: 50, contract: 7, price: 3_000 }),
        ("pay", Event::Pay),
        ("close", Event::Close),
        (
            "post 3 term 7 price 3650 fallback 1000",
            Event::Post { product: 3, term: 7, price: 3_650, fallback: 1_000 },
        ),
        (
            "post 255 term 18446744073709551615 price 4294967295 fallback 0",
            Event::Post { product: 255, term: u64::MAX, price: u32::MAX, fallback: 0 },
        ),
    ];
    for (line, event) in lines {
        assert_eq!(alone(line), Ok(of_event(event)), "{line}");
        assert_eq!(shown(&of_event(event)).lines().last(), Some(line));
    }
}

#[test]
fn numbers_may_stand_in_thousands() {
    let wanted = Ok(of_event(Event::Size { sheets: 1_234_567 }));
    for size in ["1234567", "1,234,567", "1_234_567", "0001234567"] {
        assert_eq!(alone(&format!("size {size}")), wanted, "{size}");
    }
    for size in
        ["1,2", ",100", "100,", "1,,000", "1000,000", "1,0000", "+1", "-1", "1.5", "0x10", "ten", "١"]
    {
        let message = format!("line 2: size needs a number of sheets, found `{size}`");
        assert_eq!(alone(&format!("size {size}")), Err(message));
    }
}

#[test]
fn comments_empty_lines_and_spaces_say_nothing() {
    let plain = make("calendar words 206\nopen\npay\n").unwrap();
    let airy = "# Two events.\n\n  calendar   words\t206 # days 1-3 6 7\r\n#open\n \t\nopen\n\n   pay#day";
    assert_eq!(make(airy), Ok(plain));
}

#[test]
fn calendars_in_words_and_in_days() {
    let calendar = |text: &str| parse(&make(text).unwrap()).unwrap().calendar;
    assert_eq!(calendar("calendar words 206"), [206]);
    assert_eq!(calendar("calendar days 1 2 3 6 7"), [206]);
    assert_eq!(calendar("calendar days 1-3\n\ncalendar days 6-7"), [206]);
    assert_eq!(calendar("calendar words 1 0\ncalendar words 4294967295 0"), [1, 0, u32::MAX, 0]);
    assert_eq!(calendar("calendar days 31 32 96-96"), [1 << 31, 1, 0, 1]);
    assert_eq!(calendar("calendar days 0-38399"), [u32::MAX; 1_200]);
    assert_eq!(calendar("calendar days"), []);
    assert_eq!(calendar(&format!("calendar words{}", " 0".repeat(1_200))), [0; 1_200]);
}

#[test]
fn calendars_are_shown_in_days_where_these_say_all() {
    let shown = |calendar: &[u32]| shown(&write(calendar, &[]));
    assert_eq!(shown(&[206]), "calendar days 1-3 6 7\n\n");
    assert_eq!(shown(&[206, 0]), "calendar words 206 0\n\n");
    assert_eq!(shown(&[]), "calendar words\n\n");
    assert_eq!(shown(&[u32::MAX; 1_200]), "calendar days 0-38399\n\n");
    let every_other = shown(&[0x5555_5555]);
    assert_eq!(every_other, "calendar days 0 2 4 6 8 10 12 14 16 18 20 22\ncalendar days 24 26 28 30\n\n");
}

#[test]
fn an_event_that_is_none_is_shown_as_its_bytes() {
    let mut bytes = [0; EVENT_BYTES];
    (bytes[0], bytes[39]) = (14, 0xab);
    let line = "bytes 0e00000000000000 0000000000000000 0000000000000000 0000000000000000 00000000000000ab";
    assert_eq!(shown(&write(&[], &[bytes])).lines().last(), Some(line));
    assert_eq!(alone(line), Ok(write(&[], &[bytes])));
    assert_eq!(alone(&line.to_uppercase().replace("BYTES", "bytes")), Ok(write(&[], &[bytes])));
    assert_eq!(alone(&format!("bytes 0b{}", "0".repeat(78))), Ok(of_event(Event::Pay)));
}

#[test]
fn a_refused_line_is_named_with_what_was_expected() {
    let refused = [
        ("opne", "expected calendar, open, in, out, size, rate, pledge, freeze, withdraw, initial, early, pay, close, post or bytes, found `opne`"),
        ("initial 100 contract 7 price 3650 fallback 1000", "initial needs a due day"),
        ("initial 100 contract 7 price 3650 due 4", "initial needs a fallback price, found `due`"),
        ("initial 100 contract", "initial needs a contract number"),
        ("initial", "initial needs a number of sheets"),
        ("early 5 price 3", "early needs a contract number, found `price`"),
        ("early 5 contract 7 price dear", "early needs a price, found `dear`"),
        ("in", "in needs an account, own or client"),
        ("out house 5", "out needs an account, own or client, found `house`"),
        ("in own", "in needs an amount in fen"),
        ("pledge 1", "pledge needs a number of units"),
        ("pledge bonds 5", "pledge needs a kind, found `bonds`"),
        ("pledge 256 5", "a kind is at most 255, found 256"),
        ("size 18,446,744,073,709,551,616", "a number of sheets is at most 18446744073709551615, found 18446744073709551616"),
        ("early 5 contract 7 price 4294967296", "a price is at most 4294967295, found 4294967296"),
        ("initial 5 contract 7 price 1 fallback 1 due 4294967296", "a due day is at most 4294967295, found 4294967296"),
        ("initial 5 contract 7 price 1 fallback 1 due 4 product", "initial needs a product"),
        ("initial 5 contract 7 price 1 fallback 1 due 4 product none", "initial needs a product, found `none`"),
        ("initial 5 contract 7 price 1 fallback 1 due 4 product 255", "a product is at most 254, found 255"),
        ("initial 5 contract 7 price 1 fallback 1 due 4 product 3 4", "initial takes nothing more, found `4`"),
        ("initial 5 contract 7 price 1 fallback 1 due 4 term 3", "initial takes nothing more, found `term`"),
        ("initial 5 contract 7 price 1 fallback 1 product 3", "initial needs a due day, found `product`"),
        ("post", "post needs a product"),
        ("post 256 term 7 price 1 fallback 1", "a product is at most 255, found 256"),
        ("post 3 price 1 fallback 1", "post needs a term in days, found `price`"),
        ("post 3 term 7 price 1", "post needs a fallback price"),
        ("post 3 term week price 1 fallback 1", "post needs a term in days, found `week`"),
        ("post 3 term 7 price 1 fallback 1 due 4", "post takes nothing more, found `due`"),
        ("pay now", "pay takes nothing more, found `now`"),
        ("size 5 6", "size takes nothing more, found `6`"),
        ("bytes 0d", "bytes needs 80 hexadecimal digits, found 2"),
        ("bytes", "bytes needs 80 hexadecimal digits, found 0"),
        ("bytes xy", "bytes needs 80 hexadecimal digits, found `xy`"),
    ];
    for (line, message) in refused {
        assert_eq!(alone(line), Err(format!("line 2: {message}")), "{line}");
    }
}

#[test]
fn a_refused_calendar_is_named_with_what_was_expected() {
    let refused = [
        ("", "line 1: a calendar is needed first, such as `calendar days 1-3 6 7`"),
        ("# nothing\n\n", "line 3: a calendar is needed first, such as `calendar days 1-3 6 7`"),
        ("\nopen", "line 2: a calendar is needed first, such as `calendar days 1-3 6 7`"),
        ("calendar", "line 1: calendar needs `words` or `days`"),
        ("calendar 206", "line 1: calendar needs `words` or `days`, found `206`"),
        (
            "calendar words 1\ncalendar days 2",
            "line 2: a calendar is given in words or in days, not in both",
        ),
        ("calendar words 1\npay\n\ncalendar words 2", "line 4: the calendar stands before all events"),
        ("calendar words 1,000", "line 1: calendar needs plain numbers for its words, found `1,000`"),
        ("calendar words 4294967296", "line 1: a calendar word is at most 4294967295, found 4294967296"),
        ("calendar days 3 38400", "line 1: a day of the calendar is at most 38399, found 38400"),
        (
            "calendar days 0-99999999999999999999",
            "line 1: a day of the calendar is at most 38399, found 99999999999999999999",
        ),
        ("calendar days 1 3\ncalendar days 3", "line 2: days rise, but 3 stands after 3"),
        ("calendar days 7-3", "line 1: days rise, but 3 stands after 7"),
    ];
    for (text, message) in refused {
        assert_eq!(make(text).unwrap_err().to_string(), message, "{text}");
    }
}

#[test]
fn words_that_are_no_days_are_named() {
    let what = "days such as 7 or 2026-11-23, or runs of days such as 3-7 or 2026-11-16..2026-11-20";
    for word in
        ["1,2", "-3", "3-", "1-2-3-4", "..", "3..", "3..7..9", "2026-11-16..x", "2026-11-16-2026-11-20"]
    {
        let message = format!("line 1: calendar needs {what}, found `{word}`");
        assert_eq!(make(&format!("calendar days {word}")).unwrap_err().to_string(), message);
    }
}

#[test]
fn a_date_stands_for_its_day() {
    let calendar = |text: &str| parse(&make(text).unwrap()).unwrap().calendar;
    assert_eq!(calendar("calendar days 2000-01-02..2000-01-04 2000-01-07 7"), [206]);
    assert_eq!(calendar("calendar days 1..3 6-7"), [206]);
    assert_eq!(calendar("calendar days 1..2000-01-04 2000-01-07..7"), [206]);
    let week = calendar("calendar days 2026-11-16..2026-11-20 2026-11-23");
    assert_eq!(week, calendar("calendar days 9816-9820 9823"));
    assert_eq!(calendar("calendar days 2099-12-31..38399"), calendar("calendar days 36524-38399"));
    for (date, day) in
        [("2000-01-01", 0), ("2000-02-29", 59), ("2026-11-23", 9_823), ("2099-12-31", 36_524)]
    {
        let initial =
            |due: &str| alone(&format!("initial 100 contract 7 price 3650 fallback 1000 due {due}"));
        assert_eq!(initial(date), initial(&day.to_string()), "{date}");
    }
}

#[test]
fn a_date_that_does_not_exist_is_an_error_of_its_line() {
    let initial =
        |due: &str| alone(&format!("\ninitial 100 contract 7 price 3650 fallback 1000 due {due}"));
    let calendar = |days: &str| make(&format!("\ncalendar days {days}")).map_err(|error| error.to_string());
    for date in [
        "2026-02-29",
        "2026-11-31",
        "2026-00-01",
        "2026-13-01",
        "2026-11-00",
        "1999-12-31",
        "2100-01-01",
        "0000-00-00",
    ] {
        let message = format!("there is no date {date} from 2000 to 2099");
        assert_eq!(initial(date), Err(format!("line 3: {message}")));
        assert_eq!(calendar(date), Err(format!("line 2: {message}")));
        assert_eq!(calendar(&format!("1..{date}")), Err(format!("line 2: {message}")));
    }
    for date in ["2026-1-5", "26-11-23", "2026-011-23", "1-2-3", "12026-01-01"] {
        let message = format!("a date is written as 2026-11-23, found `{date}`");
        assert_eq!(initial(date), Err(format!("line 3: {message}")));
        assert_eq!(calendar(date), Err(format!("line 2: {message}")));
    }
    for word in ["2026/11/23", "2026-11", "2026-11-", "2026-11-x3", "+2026-11-23", "23.11.2026"] {
        let message = format!("line 3: initial needs a due day, found `{word}`");
        assert_eq!(initial(word), Err(message));
    }
}

#[test]
fn days_that_do_not_rise_are_named_as_they_are_written() {
    let refused = [
        ("2026-11-23 2026-11-20", "2026-11-20 stands after 2026-11-23"),
        ("2026-11-20..2026-11-16", "2026-11-16 stands after 2026-11-20"),
        ("2026-11-16..2026-11-20 9820", "9820 stands after 2026-11-20"),
        ("5..7 2000-01-08..2000-01-10", "2000-01-08 stands after 7"),
    ];
    for (days, said) in refused {
        let error = make(&format!("calendar days {days}")).unwrap_err();
        assert_eq!(error.to_string(), format!("line 1: days rise, but {said}"));
    }
}

#[test]
fn days_are_shown_as_dates_where_they_have_one() {
    let dated = |calendar: &[u32]| shown_with(&write(calendar, &[]), DaysAs::Dates);
    assert_eq!(dated(&[206]), "calendar days 2000-01-02..2000-01-04 2000-01-07 2000-01-08\n\n");
    assert_eq!(dated(&[206, 0]), "calendar words 206 0\n\n");
    assert_eq!(dated(&[u32::MAX; 1_200]), "calendar days 2000-01-01..38399\n\n");
    let mut late = vec![0; 1_142];
    late[1_141] = 0xf0 | 1 << 12 | 1 << 31; // day 32 × 1,141 is 36,512
    assert_eq!(dated(&late), "calendar days 2099-12-23..2099-12-26 2099-12-31 36543\n\n");
    let initial = |due| {
        Event::Initial(Terms { sheets: 100, contract: 7, price: 3_650, fallback: 1_000, due, product: 0 })
    };
    for (due, said) in [
        (0, "2000-01-01"),
        (9_823, "2026-11-23"),
        (36_524, "2099-12-31"),
        (36_525, "36525"),
        (u32::MAX, "4294967295"),
    ] {
        let text = shown_with(&of_event(initial(due)), DaysAs::Dates);
        assert!(text.ends_with(&format!(" due {said}\n")), "{text}");
    }
}

#[test]
fn the_limits_of_a_journal_are_errors_of_their_line() {
    let full = format!("calendar words{}\n{}", " 1".repeat(1_200), "pay\n".repeat(1_500));
    assert_eq!(make(&full).map(|bytes| bytes.len()), Ok(8 + 4 * 1_200 + 40 * 1_500));
    let longer = make(&format!("{full}\nclose\n"));
    assert_eq!(longer, Err(Error { line: 1_503, problem: Problem::TooManyEvents }));
    let wider = make(&full.replacen("words", "words\ncalendar words 1", 1));
    assert_eq!(wider, Err(Error { line: 2, problem: Problem::TooManyWords }));
}

#[test]
fn bytes_that_are_no_text_are_named_by_line() {
    assert_eq!(decode(b"calendar words\nopen\n"), Ok("calendar words\nopen\n"));
    assert_eq!(decode(b"calendar words\n\xff\n"), Err(Error { line: 2, problem: Problem::NotText }));
}

/// Undecodable events, limits of every field and odd calendars are among them.
#[test]
fn every_generated_journal_is_shown_and_made_again() {
    let mut well_formed = 0;
    for (name, bytes) in corpus(0..2_000) {
        let Ok(journal) = parse(&bytes) else { continue };
        for days in [DaysAs::Numbers, DaysAs::Dates] {
            let text = show(&journal, days);
            let again = make(&text);
            assert!(again.as_ref() == Ok(&bytes), "{name}: {:?}\n{text}", again.err());
        }
        well_formed += 1;
    }
    assert!(well_formed > 1_500);
}

/// Words cut, doubled, swapped or spoilt: a text is refused on one of its
/// lines, or makes a journal whose own text makes it again.
#[test]
fn a_spoilt_text_is_refused_or_stable() {
    let mut random = Random::new(7);
    let (mut made, mut refused) = (0, 0);
    for seed in 0..4_000 {
        let bytes = generate_as(random.pick(&[Profile::ThinCalendar, Profile::Careless]), seed);
        let days = random.pick(&[DaysAs::Numbers, DaysAs::Dates]);
        let text = spoilt(&mut random, &shown_with(&bytes, days));
        match make(&text) {
            Ok(bytes) => {
                assert_eq!(make(&shown(&bytes)), Ok(bytes.clone()));
                assert_eq!(make(&shown_with(&bytes, DaysAs::Dates)), Ok(bytes));
                made += 1;
            }
            Err(Error { line, .. }) => {
                assert!((1..=text.lines().count() + 1).contains(&line));
                refused += 1;
            }
        }
    }
    assert!(made > 200 && refused > 200, "{made} made, {refused} refused");
}

fn spoilt(random: &mut Random, text: &str) -> String {
    let mut words: Vec<&str> = text.split(' ').collect();
    let (here, there) =
        (random.below(words.len() as u64) as usize, random.below(words.len() as u64) as usize);
    match random.below(4) {
        0 => drop(words.remove(here)),
        1 => words.insert(here, words[there]),
        2 => words.swap(here, there),
        _ => {
            words[here] = random.pick(&[
                "",
                "#",
                "\n",
                "-",
                "..",
                "cash",
                "own",
                "days",
                "0",
                "38400",
                "99999999999",
                "2099-12-31",
                "2100-01-01",
                "é",
            ])
        }
    }
    words.join(" ")
}
