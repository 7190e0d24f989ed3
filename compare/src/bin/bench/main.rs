//! How long the proved calls take beside the model's, in one process. Words
//! pick the loads whose names begin so; without any, all are run. `count LOAD
//! SIDE CALLS` only makes single calls, for a tool that counts instructions;
//! `names` tells for which loads.

mod call;
mod dates;
mod journals;
mod loads;
mod single;
mod timing;

fn main() {
    let words: Vec<String> = std::env::args().skip(1).collect();
    let words: Vec<&str> = words.iter().map(String::as_str).collect();
    match words[..] {
        ["names"] => call::shapes().for_each(|shape| println!("{}", shape.name())),
        ["count", load, side, calls] => single::count(load, side, calls.parse().expect("how many calls")),
        _ => {
            let wanted = |name: &str| words.is_empty() || words.iter().any(|word| name.starts_with(word));
            journals::report(wanted);
            single::report(wanted);
            dates::report(wanted);
        }
    }
}
