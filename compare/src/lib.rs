//! The proved calls of the archive that `rt lib` makes in crates/exports, held
//! against the model: `proved` has the calls behind safe functions, `listings`
//! and `sides` compare them, `soak` does so for as many seeds as are asked for.

pub mod damage;
pub mod listings;
pub mod proved;
pub mod sides;
pub mod soak;

use std::io::Write;

use model::coverage::Coverage;

pub use proved::write_listing;

/// What a lent buffer of numbers holds before a run; no line has it.
pub const UNWRITTEN: u64 = 0xa5a5_a5a5_a5a5_a5a5;

/// Bytes of events and numbers of a buffer that no run takes, with the answer: 18
/// for bytes that are no whole events or more than 1,500 events, and before it 14
/// for a buffer shorter than seven numbers an event.
pub const BAD_LENGTHS: [((usize, usize), u8); 11] = [
    ((1, 7), 18),
    ((39, 7), 18),
    ((41, 14), 18),
    ((40 * 1_501, 7 * 1_501), 18),
    ((40 * 1_501 + 39, 7 * 1_502), 18),
    ((40, 0), 14),
    ((40, 6), 14),
    ((41, 6), 14),
    ((80, 13), 14),
    ((40 * 1_500, 7 * 1_500 - 1), 14),
    ((40 * 1_501, 7 * 1_500), 14),
];

/// Shows how often each pair of event and answer was met, and fails where one
/// that the papers allow from a fresh book never was, or another was.
pub fn judge(compared: &str, coverage: &Coverage) {
    // Not by println, which a passing test keeps to itself.
    let shown = writeln!(std::io::stdout(), "\n{compared}\n{coverage}");
    shown.expect("the table of answers is printed");
    assert_eq!(coverage.missing(), [], "pairs that the papers allow were never met");
    assert_eq!(coverage.unexpected(), [], "pairs that the papers do not allow were met");
}
