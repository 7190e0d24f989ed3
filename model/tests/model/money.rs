//! The public calls below the book.

use model::generator::calendars::{calendar, Sort};
use model::generator::random::Random;
use model::money::{
    earliest_trading_day, initial, kind_value, next_trading_day, redemption, trades,
    trading_day_at_or_after,
};

#[test]
fn amounts() {
    assert_eq!(initial(0), (0, 0));
    assert_eq!(initial(100_000_000), (0, 1_000_000_000_000));
    assert_eq!(initial(100_000_001), (14, 0));
    assert_eq!(redemption(0, 100_000, 38_400), (0, 0));
    assert_eq!(redemption(100_000_000, 100_000, 38_400), (0, 1_000_000_000_000 + 105_205_479_452_055));
    for (sheets, price, days) in
        [(100_000_001, 0, 0), (0, 100_001, 0), (0, 0, 38_401), (u64::MAX, u64::MAX, u64::MAX)]
    {
        assert_eq!(redemption(sheets, price, days), (14, 0));
    }
}

/// The nearest fen, half upward: twice the part lies within one of twice the quotient.
#[test]
fn interest_is_rounded_once_half_upward() {
    let mut random = Random::new(1);
    for _ in 0..100_000 {
        let sheets = random.of_any_order(100_000_000);
        let (price, days) = (random.between(0, 100_000), random.between(0, 38_400));
        let (number, fen) = redemption(sheets, price, days);
        let exact = i128::from(sheets) * i128::from(price) * i128::from(days);
        let twice_excess = 2 * (3_650 * (i128::from(fen) - 10_000 * i128::from(sheets)) - exact);
        assert_eq!(number, 0);
        assert!(-3_650 < twice_excess && twice_excess <= 3_650);
    }
}

#[test]
fn values_of_kinds() {
    assert_eq!(kind_value(31, 1_000_000_000_000, 0, 20_000), (0, 2_000_000_000_000));
    assert_eq!(kind_value(31, 1_000_000_000_000, 1_000_000_000_000, 20_000), (0, 0));
    assert_eq!(kind_value(32, 10_000_000_000_000_000, 0, u64::MAX), (0, 1_000_000_000_000));
    assert_eq!(kind_value(33, 0, 1, u64::MAX), (3, 0));
    assert_eq!(kind_value(31, u64::MAX - 1, u64::MAX, u64::MAX), (13, 0));
    assert_eq!(kind_value(31, 1_000_000_000_001, 0, 0), (14, 0));
    assert_eq!(kind_value(31, 0, 0, 20_001), (14, 0));
    assert_eq!(kind_value(32, 10_000_000_000_000_001, 0, 1), (14, 0));
}

#[test]
fn searches_agree_with_looking_day_by_day() {
    let mut random = Random::new(2);
    for sort in [Sort::Weekdays, Sort::Everyday, Sort::Sparse, Sort::Scattered, Sort::Short, Sort::Empty] {
        let mut words = calendar(&mut random, sort);
        words.truncate(60);
        let end = 32 * words.len() as u32;
        let first = |from: u32| (from..end).find(|&day| trades(&words, day));
        let numbered = |found: Option<u32>| found.map_or((16, 0), |day| (0, day));
        assert_eq!(earliest_trading_day(&words), numbered(first(0)));
        for day in (0..end + 70).chain([u32::MAX - 1, u32::MAX]) {
            assert_eq!(trading_day_at_or_after(&words, day), numbered(first(day)));
            assert_eq!(next_trading_day(&words, day), numbered(day.checked_add(1).and_then(first)));
        }
    }
}

#[test]
fn a_calendar_above_1200_words_is_not_searched() {
    let words = vec![u32::MAX; 1_201];
    assert_eq!(next_trading_day(&words, 0), (1, 0));
    assert_eq!(earliest_trading_day(&words), (1, 0));
    assert_eq!(trading_day_at_or_after(&words, u32::MAX), (1, 0));
    assert_eq!(next_trading_day(&words[1..], 38_398), (0, 38_399));
    assert_eq!(next_trading_day(&words[1..], 38_399), (16, 0));
}
