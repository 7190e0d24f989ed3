//! A reference model of one firm's pledged quoted repo book: plain Rust,
//! written from documents 01 and 02 alone, for other programs to be run against.
//!
//! Bytes are parsed by `journal`, decoded by `event`, answered by `step`, and
//! the book's own rules stand in `book` and `money`. `tally` is the second,
//! coarser account of the same history; `generator` and `coverage` make
//! journals and show which answers they met, `cases` makes books that no
//! journal leads to. `text` is how people write and read a journal, with days
//! as dates where they like; `dates` turns one into the other.

pub mod answer;
pub mod book;
pub mod cases;
pub mod coverage;
pub mod dates;
pub mod event;
pub mod generator;
pub mod journal;
pub mod limits;
pub mod money;
pub mod step;
pub mod tally;
pub mod text;
