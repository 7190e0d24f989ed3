//! Both conversions, on the same drawn days and dates.

use std::hint::black_box;

use compare::proved;
use model::dates::{date_of, day_of, Date};
use model::generator::random::Random;
use model::limits::LAST_DAY;

use crate::timing::{rounds, Medians};

/// So many that the processor does not learn by heart which way they go.
const DRAWN: usize = 10_000;

pub fn report(wanted: impl Fn(&str) -> bool) {
    let mut random = Random::new(6);
    let days: Vec<u32> = (0..DRAWN).map(|_| random.between(0, LAST_DAY.into()) as u32).collect();
    let dates: Vec<Date> = days.iter().map(|&day| date_of(day).1).collect();
    let loads: [(&str, &dyn Fn() -> Medians); 2] = [
        ("date-to-day", &|| measure(&dates, proved::day_of, day_of)),
        ("day-to-date", &|| measure(&days, proved::date_of, date_of)),
    ];
    let loads: Vec<_> = loads.into_iter().filter(|(name, _)| wanted(name)).collect();
    if loads.is_empty() {
        return;
    }
    println!(
        "\n{:<24}{:>8}{:>18}{:>18}{:>8}",
        "conversion", "drawn", "proved ns/call", "model ns/call", "ratio"
    );
    for (name, measure) in loads {
        let Medians { proved, model, ratio } = measure();
        println!("{name:<24}{DRAWN:>8}{proved:>18.1}{model:>18.1}{ratio:>8.2}");
    }
}

/// Nanoseconds of one conversion, over all that were drawn.
fn measure<T: Copy, U: PartialEq>(drawn: &[T], proved: impl Fn(T) -> U, model: impl Fn(T) -> U) -> Medians {
    assert!(drawn.iter().all(|&one| proved(one) == model(one)));
    let rounds = rounds([&mut || convert(drawn, &proved), &mut || convert(drawn, &model)]);
    let each = |time: f64| time / drawn.len() as f64;
    Medians::of(rounds.into_iter().map(|[proved, model]| (each(proved), each(model))))
}

fn convert<T: Copy, U>(drawn: &[T], conversion: impl Fn(T) -> U) {
    for &one in drawn {
        black_box(conversion(black_box(one)));
    }
}
