//! Dates and days: known ones, a count day by day, and what has none.

use model::dates::{date_of, day_of, Date};

fn date(year: u32, month: u32, day: u32) -> Date {
    Date { year, month, day }
}

const NONE: Date = Date { year: 0, month: 0, day: 0 };

#[test]
fn known_dates() {
    let known = [
        (date(2000, 1, 1), 0),
        (date(2000, 2, 29), 59),
        (date(2000, 3, 1), 60),
        (date(2000, 12, 31), 365),
        (date(2001, 3, 1), 425),
        (date(2004, 2, 29), 1_520),
        (date(2026, 11, 23), 9_823),
        (date(2099, 12, 1), 36_494),
        (date(2099, 12, 31), 36_524),
    ];
    for (date, day) in known {
        assert_eq!(day_of(date), (0, day));
        assert_eq!(date_of(day), (0, date));
    }
}

/// Every date from 2000 to 2099 in turn, by nothing but the lengths of months.
#[test]
fn each_day_has_one_date() {
    let lengths = [31, 28, 31, 30, 31, 30, 31, 31, 30, 31, 30, 31];
    let mut count = 0;
    for year in 2000..=2099 {
        for (month, length) in (1..).zip(lengths) {
            let leap_day = u32::from(month == 2 && year % 4 == 0);
            for day in 1..=length + leap_day {
                assert_eq!(day_of(date(year, month, day)), (0, count));
                assert_eq!(date_of(count), (0, date(year, month, day)));
                count += 1;
            }
            assert_eq!(day_of(date(year, month, length + leap_day + 1)), (19, 0));
        }
    }
    assert_eq!(count, 36_525);
    assert_eq!(date_of(count), (19, NONE));
}

#[test]
fn what_has_no_date_or_no_day_is_19() {
    for day in [36_525, 38_399, u32::MAX] {
        assert_eq!(date_of(day), (19, NONE));
    }
    let most = u32::MAX;
    for date in [
        date(1999, 12, 31),
        date(2100, 1, 1),
        date(2026, 0, 1),
        date(2026, 13, 1),
        date(2026, 1, 0),
        date(2026, 2, 29),
        NONE,
        date(most, 1, 1),
        date(2000, most, 1),
        date(2000, 1, most),
    ] {
        assert_eq!(day_of(date), (19, 0), "{date}");
    }
}

#[test]
fn a_date_is_written_in_full() {
    assert_eq!(date(2004, 2, 9).to_string(), "2004-02-09");
}
