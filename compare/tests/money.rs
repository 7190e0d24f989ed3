//! Days and money: the proved calls against the model and, for the rules that
//! are a formula or a walk, against the plainest form of them.

use compare::proved;
use model::generator::random::Random;
use model::money;

/// Mostly within a limit, often at it or just past it, now and then anything.
fn around(random: &mut Random, limit: u64) -> u64 {
    match random.below(8) {
        0 => limit - random.below(3),
        1 => limit + random.below(3),
        2 => random.below(5),
        3 => random.any() >> random.below(64),
        _ => random.below(limit + 1),
    }
}

/// A number's share of the draws, so that no refusal goes untested.
fn met(counts: &[u32; 32], numbers: &[usize]) {
    for &number in numbers {
        assert!(counts[number] > 100, "number {number} was met only {} times", counts[number]);
    }
}

#[test]
fn initial_amounts() {
    let mut random = Random::new(1);
    let mut counts = [0; 32];
    for _ in 0..200_000 {
        let q = around(&mut random, 100_000_000);
        let got = proved::initial(q);
        assert_eq!(got, money::initial(q), "{q}");
        counts[got.0 as usize] += 1;
    }
    met(&counts, &[0, 14]);
}

#[test]
fn redemption_amounts() {
    let mut random = Random::new(2);
    let mut counts = [0; 32];
    for _ in 0..300_000 {
        let (q, price, days) = (
            around(&mut random, 100_000_000),
            around(&mut random, 100_000) as u32,
            around(&mut random, 38_400) as u32,
        );
        let got = proved::redemption(q, price, days);
        assert_eq!(got, money::redemption(q, price.into(), days.into()), "{q} {price} {days}");
        counts[got.0 as usize] += 1;
        if got.0 == 0 {
            // half upward, in one go: twice the income, less 1, lies below twice the quotient plus 1
            let exact = u128::from(q) * u128::from(price) * u128::from(days);
            let income = u128::from(got.1) - 10_000 * u128::from(q);
            assert!(
                2 * exact >= (2 * income).saturating_sub(1) * 3_650 && 2 * exact < (2 * income + 1) * 3_650
            );
        }
    }
    met(&counts, &[0, 14]);
}

#[test]
fn kind_values() {
    let mut random = Random::new(3);
    let mut counts = [0; 32];
    for _ in 0..300_000 {
        let kind = random.below(40) as u8;
        let effective = if random.percent(50) {
            around(&mut random, 1_000_000_000_000)
        } else {
            around(&mut random, 10_000_000_000_000_000)
        };
        let frozen = match random.below(4) {
            0 => 0,
            1 => effective,
            2 => effective.saturating_add(1),
            _ => random.below(effective.saturating_add(1)),
        };
        let rate = around(&mut random, 20_000);
        let got = proved::kind_value(kind, effective, frozen, rate);
        assert_eq!(
            got,
            money::kind_value(kind.into(), effective, frozen, rate),
            "{kind} {effective} {frozen} {rate}"
        );
        counts[got.0 as usize] += 1;
    }
    met(&counts, &[0, 3, 13, 14]);
}

/// The day found by looking at each in turn.
fn walked(calendar: &[u32], from: u64) -> (u32, u32) {
    if calendar.len() > 1_200 {
        return (1, 0);
    }
    (from..32 * calendar.len() as u64)
        .find(|day| calendar[(day / 32) as usize] >> (day % 32) & 1 == 1)
        .map_or((16, 0), |day| (0, day as u32))
}

fn calendar(random: &mut Random, round: u64) -> Vec<u32> {
    let words = match round % 50 {
        0 => 1_199 + random.below(4),
        1 => 0,
        _ => random.below(40),
    };
    (0..words)
        .map(|_| match random.below(4) {
            0 => random.any() as u32,
            1 => 1 << random.below(32),
            2 => random.any() as u32 & random.any() as u32 & random.any() as u32,
            _ => 0,
        })
        .collect()
}

#[test]
fn trading_days() {
    let mut random = Random::new(4);
    let mut counts = [0; 32];
    for round in 0..4_000 {
        let calendar = calendar(&mut random, round);
        assert_eq!(proved::earliest_trading_day(&calendar), walked(&calendar, 0));
        assert_eq!(proved::earliest_trading_day(&calendar), money::earliest_trading_day(&calendar));
        for _ in 0..50 {
            let day = match random.below(20) {
                0 => u32::MAX - random.below(2) as u32,
                _ => random.below(32 * calendar.len() as u64 + 70) as u32,
            };
            let next = proved::next_trading_day(&calendar, day);
            counts[next.0 as usize] += 1;
            assert_eq!(next, walked(&calendar, u64::from(day) + 1), "{calendar:?} {day}");
            assert_eq!(next, money::next_trading_day(&calendar, day), "{calendar:?} {day}");
            let here = proved::trading_day_at_or_after(&calendar, day);
            assert_eq!(here, walked(&calendar, day.into()), "{calendar:?} {day}");
            assert_eq!(here, money::trading_day_at_or_after(&calendar, day), "{calendar:?} {day}");
            assert_eq!(proved::trades(&calendar, day), money::trades(&calendar, day), "{calendar:?} {day}");
        }
    }
    met(&counts, &[0, 1, 16]);
}
