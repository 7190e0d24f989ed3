//! Single calls, timed and counted: how dear each is, and how that grows with the table.

use std::cell::RefCell;
use std::hint::black_box;

use model::answer::Answer;

use crate::call::{shapes, Call, Shape};
use crate::timing::{rounds, Medians};

pub fn report(wanted: impl Fn(&str) -> bool) {
    let shapes: Vec<Shape> = shapes().filter(|shape| wanted(&shape.name())).collect();
    if shapes.is_empty() {
        return;
    }
    println!(
        "\n{:<24}{:>8}{:>18}{:>18}{:>8}",
        "single call", "slots", "proved ns/call", "model ns/call", "ratio"
    );
    let costs: Vec<(Shape, Medians)> = shapes.into_iter().map(|shape| (shape, show(shape))).collect();
    println!("\n{:<24}{:>8}{:>18}{:>18}", "times as dear", "n log n", "proved", "model");
    for pair in costs.windows(2) {
        compare(&pair[0], &pair[1]);
    }
}

fn show(shape: Shape) -> Medians {
    let medians = measure(Call::new(shape));
    let Medians { proved, model, ratio } = medians;
    println!("{:<24}{:>8}{proved:>18.0}{model:>18.0}{ratio:>8.2}", shape.name(), shape.slots);
    medians
}

/// How many times as dear the larger table is.
fn compare((smaller, less): &(Shape, Medians), (larger, more): &(Shape, Medians)) {
    if !smaller.grows_to(larger) {
        return;
    }
    let n_log_n = |shape: &Shape| shape.in_use() as f64 * (shape.in_use() as f64).log2();
    let name = format!("{} to {}", smaller.name(), larger.trades);
    let (proved, model) = (more.proved / less.proved, more.model / less.model);
    println!("{name:<24}{:>8.1}{proved:>18.1}{model:>18.1}", n_log_n(larger) / n_log_n(smaller));
}

/// Every call is made on what was put back; how long that takes is measured by
/// itself and taken off.
fn measure(call: Call) -> Medians {
    let call = RefCell::new(call);
    let rounds = rounds([
        &mut || {
            call.borrow_mut().proved.restore();
            black_box(call.borrow_mut().proved_answer());
        },
        &mut || call.borrow_mut().proved.restore(),
        &mut || {
            call.borrow_mut().model.restore();
            black_box(call.borrow_mut().model_answer());
        },
        &mut || call.borrow_mut().model.restore(),
    ]);
    let alone = |[proved, proved_restore, model, model_restore]: [f64; 4]| {
        (proved - proved_restore, model - model_restore)
    };
    Medians::of(rounds.into_iter().map(alone))
}

/// Makes the call so often on one side, each time on the same book and table.
pub fn count(name: &str, side: &str, calls: u32) {
    let shape = shapes().find(|shape| shape.name() == name).expect("the name of a single call");
    let mut call = Call::new(shape);
    for _ in 0..calls {
        call.proved.restore();
        call.model.restore();
        match side {
            "proved" => counted(&mut || call.proved_answer()),
            "model" => counted(&mut || call.model_answer()),
            _ => panic!("a side is proved or model, not {side}"),
        }
    }
}

/// What a tool is told to count, and nothing around it.
#[inline(never)]
fn counted(call: &mut dyn FnMut() -> Answer) {
    black_box(call());
}
