//! Every limit that the model knows, once.

/// Words of the lent calendar.
pub const CALENDAR_WORDS: usize = 1_200;
/// Days that a calendar can name; no two of them lie further apart.
pub const CALENDAR_DAYS: u64 = 38_400;
/// Events of one journal.
pub const JOURNAL_EVENTS: usize = 1_500;
/// Slots of the table that the journal's book is lent.
pub const JOURNAL_CAPACITY: usize = 1_024;

/// Slots of any lent table.
pub const CAPACITY: usize = 4_096;
/// Products that may be posted.
pub const PRODUCTS: usize = 16;
/// Applications that may stand for the evening.
pub const APPLICATIONS: usize = 128;
/// Units of one security, effective and arriving together.
pub const SECURITY_UNITS: u64 = 1_000_000_000_000;
/// A rate, in ten-thousandths of a sheet a unit.
pub const RATE: u64 = 20_000;
/// Fen in own, client and guarantee cash together.
pub const CASH: u64 = 10_000_000_000_000_000;
/// The declared size S, in sheets.
pub const SIZE: u64 = 10_000_000_000;
/// Sheets of one trade.
pub const TRADE_SHEETS: u64 = 100_000_000;
/// A price, in ticks.
pub const PRICE: u64 = 100_000;
/// Today's net and the cleared net, up or down, in fen.
pub const NET: i64 = 4_000_000_000_000_000_000;
/// U, the redemptions not yet paid, in fen: "U has the limit of a net".
pub const UNPAID: u64 = NET.unsigned_abs();
/// Units that one application may name.
pub const APPLICATION_UNITS: u64 = CASH;

/// Days from today to a new trade's due day.
pub const DAYS_AHEAD: u32 = 365;
/// A firm with so many failed payments in a row is terminated.
pub const FAILED_PAYMENTS: u8 = 2;
/// A firm with so many short closes in a row is terminated.
pub const SHORT_CLOSES: u8 = 3;

/// The years that have dates.
pub const FIRST_YEAR: u32 = 2_000;
pub const LAST_YEAR: u32 = 2_099;
/// "The days above 36,524 have no date."
pub const LAST_DAY: u32 = 36_524;
