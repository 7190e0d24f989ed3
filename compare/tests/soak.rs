//! The soak, with small numbers: it compares, tells its figures, and stops at
//! the first seed that fails.

use std::fmt::{self, Display};
use std::process::{Command, Output};

use compare::soak::calls::Calls;
use compare::soak::journals::Journals;
use compare::soak::{run, Trial};
use model::coverage::evenings::Evenings;
use model::coverage::terms::NextTerms;

/// All pairs met that may be, and none that may not; all that may become of
/// an application while redemptions are unpaid. Gives what became of next terms.
fn assert_covers<T: Trial + Default>(seeds: u64) -> NextTerms {
    let mut trial = T::default();
    assert_eq!(run(&mut trial, 0..seeds, |_, _| {}), Ok(()));
    assert_eq!(trial.missing_pairs().0, [], "{trial}");
    assert_eq!(trial.unexpected_pairs(), [], "{trial}");
    assert!(trial.evenings().rarer_than(1).is_empty(), "{trial}");
    trial.next_terms()
}

#[test]
fn journals_agree_and_meet_every_allowed_pair() {
    let next_terms = assert_covers::<Journals>(1_000);
    assert!(next_terms.rarer_than(1).is_empty(), "{next_terms}");
}

#[test]
fn calls_agree_and_meet_the_whole_table_of_causes() {
    let next_terms = assert_covers::<Calls>(20_000);
    assert!(next_terms.rarer_on_any_book(1).is_empty(), "{next_terms}");
}

/// Fails on seed 7 and on every seed from 12 on.
struct Failing;

impl Trial for Failing {
    fn compare(&mut self, seed: u64) {
        assert!(seed != 7 && seed < 12, "this failure is part of the test");
    }

    fn missing_pairs(&self) -> (Vec<(u8, u32)>, usize) {
        (Vec::new(), 0)
    }

    fn unexpected_pairs(&self) -> Vec<(u8, u32)> {
        Vec::new()
    }

    fn evenings(&self) -> Evenings {
        Evenings::default()
    }

    fn next_terms(&self) -> NextTerms {
        NextTerms::default()
    }
}

impl Display for Failing {
    fn fmt(&self, _: &mut fmt::Formatter) -> fmt::Result {
        Ok(())
    }
}

#[test]
fn the_first_seed_that_fails_is_given() {
    let mut done = Vec::new();
    assert_eq!(run(&mut Failing, 5..20, |_, seed| done.push(seed)), Err(7));
    assert_eq!(done, [5, 6]);
    assert_eq!(run(&mut Failing, 8..12, |_, seed| done.push(seed)), Ok(()));
    assert_eq!(done, [5, 6, 8, 9, 10, 11]);
}

fn program(variables: [(&str, &str); 3]) -> Output {
    Command::new(env!("CARGO_BIN_EXE_soak")).env_clear().envs(variables).output().unwrap()
}

#[test]
fn the_program_shows_its_progress_and_its_figures() {
    let output = program([("SOAK_SEED", "40"), ("SOAK_JOURNALS", "30"), ("SOAK_CALLS", "20")]);
    let (figures, progress) = (String::from_utf8(output.stdout), String::from_utf8(output.stderr));
    let (figures, progress) = (figures.unwrap(), progress.unwrap());
    assert!(output.status.success(), "{progress}");
    assert!(figures.contains("30 journals from seed 40 on\n"), "{figures}");
    assert!(figures.contains("20 calls from seed 40 on\n"), "{figures}");
    assert!(figures.contains("pairs of event and answer met: "), "{figures}");
    assert!(progress.starts_with("journals: 30 of 30, "), "{progress}");
    assert!(progress.contains("\ncalls: 20 of 20, "), "{progress}");
}

#[test]
fn the_program_says_what_it_was_not_given_well() {
    let none = [("SOAK_SEED", "1"), ("SOAK_JOURNALS", "0"), ("SOAK_CALLS", "many")];
    let past_the_last =
        [("SOAK_SEED", "18446744073709551615"), ("SOAK_JOURNALS", "2"), ("SOAK_CALLS", "0")];
    for (variables, said) in [
        (none, "SOAK_CALLS is no number: many\n"),
        (past_the_last, "SOAK_SEED is too large for 2 seeds: 18446744073709551615\n"),
    ] {
        let output = program(variables);
        assert_eq!(output.status.code(), Some(1));
        assert_eq!(String::from_utf8(output.stderr).unwrap(), said);
        assert!(output.stdout.is_empty());
    }
}
