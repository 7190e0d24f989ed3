//! Whole journals: their events' numbers, and their listing.

use std::hint::black_box;

use compare::proved::{self, lent::Rows};
use model::book::{Book, Trade};
use model::journal::run_fresh;
use model::limits::JOURNAL_CAPACITY;

use crate::loads::{self, Load};
use crate::timing::{rounds, Medians};

pub fn report(wanted: impl Fn(&str) -> bool) {
    let loads: Vec<Load> = loads::all().into_iter().filter(|load| wanted(load.name)).collect();
    if loads.is_empty() {
        return;
    }
    println!(
        "{:<24}{:>8}{:>18}{:>18}{:>8}",
        "journal", "events", "proved ns/event", "model ns/event", "ratio"
    );
    for load in &loads {
        show(load, "run", run(load));
        show(load, "in place", lent(load));
        show(load, "listing", listing(load));
    }
}

fn show(load: &Load, what: &str, medians: Medians) {
    let (name, events) = (format!("{}, {what}", load.name), load.events.len());
    let (proved, model) = (medians.proved / events as f64, medians.model / events as f64);
    println!("{name:<24}{events:>8}{proved:>18.1}{model:>18.1}{:>8.2}", medians.ratio);
}

/// The events' run, to the numbers of each line.
fn run(load: &Load) -> Medians {
    let Load { calendar, events, .. } = load;
    let mut lines = Vec::with_capacity(events.len());
    run_fresh(calendar, events, |_, line| lines.push(line));
    assert_eq!(proved::run_listing(calendar, events.as_flattened()).as_ref(), Ok(&lines), "{}", load.name);
    let mut numbers = vec![0; proved::LINE_NUMBERS * events.len()];
    measure(
        || {
            black_box(proved::run_into(calendar, events.as_flattened(), &mut numbers));
        },
        || {
            lines.clear();
            run_fresh(calendar, events, |_, line| lines.push(line));
            black_box(&lines);
        },
    )
}

/// The same run on a fresh book and a lent table, both put there for each run.
fn lent(load: &Load) -> Medians {
    let Load { calendar, events, .. } = load;
    let book = Rows::from(&Book::fresh());
    let slots = proved::book::table(&[Trade::default(); JOURNAL_CAPACITY]);
    let (mut lent, mut lines) = (slots.clone(), Vec::with_capacity(events.len()));
    let mut numbers = vec![0; proved::LINE_NUMBERS * events.len()];
    measure(
        || {
            lent.copy_from_slice(&slots);
            let events = events.as_flattened();
            black_box(proved::lent::run_into(calendar, &mut book.clone(), &mut lent, events, &mut numbers));
        },
        || {
            lines.clear();
            run_fresh(calendar, events, |_, line| lines.push(line));
            black_box(&lines);
        },
    )
}

/// The whole way, from a journal's bytes to its listing.
fn listing(load: &Load) -> Medians {
    let journal = model::journal::write(&load.calendar, &load.events);
    let listing = model::journal::listing(&journal);
    let mut text = vec![0; 100 * load.events.len()];
    assert_eq!(compare::write_listing(&journal, &mut text), (0, listing.len()), "{}", load.name);
    measure(
        || {
            black_box(compare::write_listing(&journal, &mut text));
        },
        || {
            black_box(model::journal::listing(&journal));
        },
    )
}

fn measure(mut proved: impl FnMut(), mut model: impl FnMut()) -> Medians {
    Medians::of(rounds([&mut proved, &mut model]).into_iter().map(|[proved, model]| (proved, model)))
}
