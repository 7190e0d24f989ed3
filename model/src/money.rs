//! Days, money and a kind's value: the layer below the book.
//!
//! The public calls answer a number beside a result, which is 0 beside a
//! refusal. The crate's own `*_amount` and `*_from` functions are the bare
//! rules, for callers that already keep the limits.

use crate::answer::{numbered, Refusal};
use crate::limits::{CALENDAR_DAYS, CALENDAR_WORDS, CASH, PRICE, RATE, SECURITY_UNITS, TRADE_SHEETS};

/// Guarantee cash: "its unit one fen, its rate number fixed at 1".
pub const CASH_KIND: usize = 32;
/// Kinds 0 to 31 are securities, kind 32 is guarantee cash.
pub const KINDS: usize = 33;

/// "A sheet is 100 yuan, 10,000 fen (art. 33)."
pub const FEN_PER_SHEET: u64 = 10_000;
/// Ten-thousandths of a sheet in one sheet: what a rate counts in.
pub(crate) const RATE_DIVISOR: u64 = 10_000;
/// A tick is 0.001 yuan a year on 100 yuan, so a tenth of a fen on a sheet
/// each 365 days.
const TICK_DAYS_PER_FEN: u64 = 3_650;

/// Whether `day` trades: bit b of word w is day 32w + b.
pub fn trades(calendar: &[u32], day: u32) -> bool {
    calendar.get((day / 32) as usize).is_some_and(|word| word >> (day % 32) & 1 == 1)
}

/// The first trading day after `day`: the payment day of a trading day (art. 61).
pub fn next_trading_day(calendar: &[u32], day: u32) -> (u32, u32) {
    numbered(searched(calendar, next_after(calendar, day)))
}

/// The earliest trading day of all.
pub fn earliest_trading_day(calendar: &[u32]) -> (u32, u32) {
    numbered(searched(calendar, first_from(calendar, 0)))
}

/// The day itself if it trades, else the first that does after it.
pub fn trading_day_at_or_after(calendar: &[u32], day: u32) -> (u32, u32) {
    numbered(searched(calendar, first_from(calendar, day)))
}

/// The amount of an initial trade, in fen.
pub fn initial(sheets: u64) -> (u32, u64) {
    let within = Refusal::LimitPassed.when(sheets > TRADE_SHEETS);
    numbered(within.map(|()| initial_amount(sheets)))
}

/// The amount of a redemption at `price` ticks over `days` days, in fen.
pub fn redemption(sheets: u64, price: u64, days: u64) -> (u32, u64) {
    let past_limit = sheets > TRADE_SHEETS || price > PRICE || days > CALENDAR_DAYS;
    let within = Refusal::LimitPassed.when(past_limit);
    numbered(within.map(|()| redemption_amount(sheets, price, days)))
}

/// The value of one kind, in sheets. The rate of kind 32 is not looked at.
pub fn kind_value(kind: u64, effective: u64, frozen: u64, rate: u64) -> (u32, u64) {
    numbered(checked_kind_value(kind, effective, frozen, rate))
}

fn checked_kind_value(kind: u64, effective: u64, frozen: u64, rate: u64) -> Result<u64, Refusal> {
    let cash = kind == CASH_KIND as u64;
    let (units_limit, rate) = if cash { (CASH, 1) } else { (SECURITY_UNITS, rate) };
    Refusal::NoSuchKind.when(kind > CASH_KIND as u64)?;
    Refusal::NotEnough.when(frozen > effective)?;
    Refusal::LimitPassed.when(effective > units_limit || rate > RATE)?;
    Ok(sheets_worth(effective - frozen, rate))
}

/// A calendar too long to search comes before a search that finds nothing.
fn searched(calendar: &[u32], found: Option<u32>) -> Result<u32, Refusal> {
    Refusal::Unfit.when(calendar.len() > CALENDAR_WORDS)?;
    found.ok_or(Refusal::NoTradingDay)
}

/// The first trading day strictly after `day`.
pub(crate) fn next_after(calendar: &[u32], day: u32) -> Option<u32> {
    first_from(calendar, day.checked_add(1)?)
}

/// The first trading day from `day` on.
pub(crate) fn first_from(calendar: &[u32], day: u32) -> Option<u32> {
    let start = (day / 32) as usize;
    let first_word = calendar.get(start)? & (u32::MAX << (day % 32));
    let later_words = calendar[start + 1..].iter().copied();
    std::iter::once(first_word)
        .chain(later_words)
        .zip(day / 32..)
        .find(|&(word, _)| word != 0)
        .map(|(word, place)| 32 * place + word.trailing_zeros())
}

pub(crate) fn initial_amount(sheets: u64) -> u64 {
    FEN_PER_SHEET * sheets
}

/// "10,000q plus q×P×d/3650 fen, that second part rounded once to the nearest
/// fen, half upward." Within the limits the product stays below 4×10^17.
pub(crate) fn redemption_amount(sheets: u64, price: u64, days: u64) -> u64 {
    let tick_days = sheets * price * days;
    initial_amount(sheets) + (tick_days + TICK_DAYS_PER_FEN / 2) / TICK_DAYS_PER_FEN
}

/// "(effective - frozen) × rate / 10,000, rounded down for that kind."
pub(crate) fn sheets_worth(unfrozen: u64, rate: u64) -> u64 {
    unfrozen * rate / RATE_DIVISOR
}
