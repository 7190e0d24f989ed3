//! Dates and days: the proved conversions against the model's.

use compare::proved;
use model::dates::{self, Date};
use model::generator::random::Random;
use model::limits::LAST_DAY;

/// Compares one date, and tells whether it has a day.
fn has_day(date: Date) -> bool {
    let got = proved::day_of(date);
    assert_eq!(got, dates::day_of(date), "{date:?}");
    got.0 == 0
}

/// Compares one day, and tells whether it has a date.
fn has_date(day: u32) -> bool {
    let got = proved::date_of(day);
    assert_eq!(got, dates::date_of(day), "{day}");
    got.0 == 0
}

#[test]
fn every_day_to_40_000() {
    assert_eq!((0..=40_000).filter(|&day| has_date(day)).count(), 36_525);
}

#[test]
fn every_date_around_the_years() {
    let mut days = 0;
    for year in 1990..=2110 {
        for month in 0..=14 {
            for day in 0..=33 {
                days += u32::from(has_day(Date { year, month, day }));
            }
        }
    }
    assert_eq!(days, 36_525);
}

#[test]
fn each_undoes_the_other() {
    for day in 0..=LAST_DAY {
        assert_eq!(proved::day_of(proved::date_of(day).1), (0, day));
    }
}

/// Numbers of the whole type; near a limit, near a power of 2, or anything.
#[test]
fn drawn_numbers() {
    let mut random = Random::new(6);
    let (mut days, mut dates) = (0, 0);
    for _ in 0..1_000_000 {
        let date = Date {
            year: around(&mut random, 2_000, 2_099),
            month: around(&mut random, 1, 12),
            day: around(&mut random, 1, 31),
        };
        days += u32::from(has_day(date));
        dates += u32::from(has_date(around(&mut random, 0, LAST_DAY)));
    }
    assert!(days > 100_000 && dates > 500_000, "{days} days, {dates} dates");
}

fn around(random: &mut Random, low: u32, high: u32) -> u32 {
    match random.below(16) {
        0 => random.any() as u32,
        1 => (1u32 << random.below(32)).wrapping_sub(random.below(3) as u32),
        2 => low.wrapping_sub(random.below(3) as u32),
        3 => high + random.below(3) as u32,
        _ => random.between(low.into(), high.into()) as u32,
    }
}
