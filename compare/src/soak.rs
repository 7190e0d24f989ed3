//! Comparisons by the seed, as many as are asked for: what the program `soak`
//! does, and a short test.

pub mod calls;
pub mod journals;

use std::fmt::Display;
use std::ops::Range;
use std::panic::{catch_unwind, AssertUnwindSafe};

use model::coverage::evenings::Evenings;
use model::coverage::terms::NextTerms;

/// What is compared for each seed, and shown as the figures of all.
pub trait Trial: Display {
    /// Fails where the proved calls and the model differ.
    fn compare(&mut self, seed: u64);

    /// Pairs of event and answer that were never met, of how many.
    fn missing_pairs(&self) -> (Vec<(u8, u32)>, usize);

    /// Pairs that were met, by both sides, although the papers do not allow them.
    fn unexpected_pairs(&self) -> Vec<(u8, u32)>;

    /// How applications fared on evenings with unpaid redemptions.
    fn evenings(&self) -> Evenings;

    /// Which next terms started, and why others did not.
    fn next_terms(&self) -> NextTerms;
}

/// Compares for each seed in turn, and gives the first seed that failed; why,
/// the failing comparison has told by itself. `after` is told every seed done.
pub fn run<T: Trial>(trial: &mut T, seeds: Range<u64>, mut after: impl FnMut(&T, u64)) -> Result<(), u64> {
    for seed in seeds {
        // What a comparison leaves half done is not looked at again.
        catch_unwind(AssertUnwindSafe(|| trial.compare(seed))).map_err(|_| seed)?;
        after(trial, seed);
    }
    Ok(())
}

/// The smallest and the largest of some numbers, once there are any.
#[derive(Clone, Copy, Default)]
struct Extent(Option<(i64, i64)>);

impl Extent {
    fn take_in(&mut self, number: i64) {
        let (least, most) = self.0.unwrap_or((number, number));
        self.0 = Some((least.min(number), most.max(number)));
    }
}

impl Display for Extent {
    fn fmt(&self, f: &mut std::fmt::Formatter) -> std::fmt::Result {
        match self.0 {
            Some((least, most)) => write!(f, "{least} to {most}"),
            None => write!(f, "none"),
        }
    }
}
