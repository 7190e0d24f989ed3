//! Rounds of calls, and what is told of them.

use std::time::{Duration, Instant};

const ROUNDS: usize = 401;
/// A round repeats a call for about this long.
const ROUND: Duration = Duration::from_millis(1);

/// Nanoseconds of one call of each side, and the proved call's share of the
/// model's: medians over all rounds.
pub struct Medians {
    pub proved: f64,
    pub model: f64,
    pub ratio: f64,
}

impl Medians {
    /// Of rounds with the proved call's nanoseconds and the model's.
    pub fn of(rounds: impl Iterator<Item = (f64, f64)>) -> Medians {
        let rounds: Vec<(f64, f64)> = rounds.collect();
        Medians {
            proved: median(rounds.iter().map(|&(proved, _)| proved)),
            model: median(rounds.iter().map(|&(_, model)| model)),
            ratio: median(rounds.iter().map(|&(proved, model)| proved / model)),
        }
    }
}

/// Nanoseconds of each call, round by round. The calls alternate, so that all
/// meet the same neighbours on the machine.
pub fn rounds<const N: usize>(mut calls: [&mut dyn FnMut(); N]) -> Vec<[f64; N]> {
    let repeats: [u32; N] = std::array::from_fn(|i| repeats(calls[i]));
    (0..ROUNDS).map(|_| std::array::from_fn(|i| round(calls[i], repeats[i]))).collect()
}

fn repeats(call: &mut dyn FnMut()) -> u32 {
    (ROUND.as_nanos() as f64 / round(call, 1)).max(1.0) as u32
}

/// Nanoseconds of one call, over so many.
fn round(call: &mut dyn FnMut(), calls: u32) -> f64 {
    let start = Instant::now();
    (0..calls).for_each(|_| call());
    start.elapsed().as_nanos() as f64 / f64::from(calls)
}

fn median(values: impl Iterator<Item = f64>) -> f64 {
    let mut values: Vec<f64> = values.collect();
    values.sort_by(f64::total_cmp);
    values[values.len() / 2]
}
