//! Books made by hand, where no journal leads: for the model's own tests, and
//! for the programs that are run against it.

pub mod drawn;
pub mod evenings;
pub mod ledger;
pub mod longest;
pub mod nets;
pub mod rolling;
pub mod standings;
pub mod terms;
pub mod unfit;
pub mod unpaid;

use crate::event::Event;
use ledger::Ledger;

/// An event on a book: what is in question of the book that it leaves, or its
/// refusal's number.
pub struct Case<Left> {
    pub ledger: Ledger,
    pub event: Event,
    pub outcome: Result<Left, u32>,
}
