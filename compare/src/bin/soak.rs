//! Compares as many journals and single calls as are asked for. The first
//! difference ends it, and the seed that has it is told.

use std::env::{self, VarError};
use std::process::ExitCode;
use std::time::{Duration, Instant};

use compare::soak::calls::Calls;
use compare::soak::journals::Journals;
use compare::soak::{self, Trial};
use model::coverage::named;

/// Between two lines of progress.
const PAUSE: Duration = Duration::from_secs(10);

fn main() -> ExitCode {
    match soak_both() {
        Ok(()) => ExitCode::SUCCESS,
        Err(message) => {
            eprintln!("{message}");
            ExitCode::FAILURE
        }
    }
}

fn soak_both() -> Result<(), String> {
    let first = number("SOAK_SEED", 1_000_000)?;
    let journals = number("SOAK_JOURNALS", 20_000)?;
    let calls = number("SOAK_CALLS", 20_000)?;
    let longest = journals.max(calls);
    first.checked_add(longest).ok_or(format!("SOAK_SEED is too large for {longest} seeds: {first}"))?;
    if journals > 0 {
        report::<Journals>("journals", first, journals)?;
    }
    if calls > 0 {
        report::<Calls>("calls", first, calls)?;
    }
    Ok(())
}

fn number(variable: &str, otherwise: u64) -> Result<u64, String> {
    match env::var(variable) {
        Ok(text) => text.parse().map_err(|_| format!("{variable} is no number: {text}")),
        Err(VarError::NotPresent) => Ok(otherwise),
        Err(error) => Err(format!("{variable}: {error}")),
    }
}

/// One trial of so many seeds, with its progress on standard error and its
/// figures on standard output.
fn report<T: Trial + Default>(name: &str, first: u64, count: u64) -> Result<(), String> {
    let mut trial = T::default();
    let (start, mut told) = (Instant::now(), Instant::now());
    let ended = soak::run(&mut trial, first..first + count, |trial, seed| {
        let done = seed - first + 1;
        if done == count || told.elapsed() >= PAUSE {
            told = Instant::now();
            eprintln!("{name}: {done} of {count}, {}", progress(trial, done, start.elapsed()));
        }
    });
    ended.map_err(|seed| alone(name, seed))?;
    println!("{count} {name} from seed {first} on\n{trial}");
    judge(&trial)
}

fn progress(trial: &impl Trial, done: u64, time: Duration) -> String {
    let (missing, all) = trial.missing_pairs();
    let per_second = done as f64 / time.as_secs_f64();
    format!("{per_second:.0} a second, {} of {all} pairs of event and answer met", all - missing.len())
}

/// How to run the seed with the difference again; the difference itself is told already.
fn alone(name: &str, seed: u64) -> String {
    let [journals, calls] = ["journals", "calls"].map(|other| u8::from(name == other));
    format!(
        "The proved side (left) and the model (right) differ. Alone:\n\
         SOAK_SEED={seed} SOAK_JOURNALS={journals} SOAK_CALLS={calls} cargo run --release --bin soak"
    )
}

/// Tells which pairs were not met, and fails where one was met that may not be.
fn judge(trial: &impl Trial) -> Result<(), String> {
    let (missing, all) = trial.missing_pairs();
    println!("pairs of event and answer met: {} of {all}", all - missing.len());
    if !missing.is_empty() {
        println!("not met: {}", names(missing));
    }
    println!();
    match trial.unexpected_pairs() {
        unexpected if unexpected.is_empty() => Ok(()),
        unexpected => Err(format!("met, and not allowed by the papers: {}", names(unexpected))),
    }
}

fn names(pairs: Vec<(u8, u32)>) -> String {
    pairs.into_iter().map(named).collect::<Vec<_>>().join(", ")
}
