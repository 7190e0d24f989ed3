//! Funds, size, rates and pledged units: events 2 to 8.

use super::trading_day;
use crate::answer::{Answer, Refusal};
use crate::book::{Book, Status, Trade};
use crate::event::Account;
use crate::limits::{APPLICATIONS, CASH, RATE, SECURITY_UNITS, SIZE};
use crate::money::CASH_KIND;

fn account(book: &mut Book, account: Account) -> &mut u64 {
    match account {
        Account::Own => &mut book.own,
        Account::Client => &mut book.client,
    }
}

pub fn fund_in(book: &mut Book, name: Account, fen: u64) -> Result<Answer, Refusal> {
    Refusal::BadAmount.when(fen == 0)?;
    Refusal::LimitPassed.when(fen > CASH - book.all_cash())?;
    *account(book, name) += fen;
    Ok(Answer::DONE)
}

pub fn fund_out(book: &mut Book, name: Account, fen: u64) -> Result<Answer, Refusal> {
    let held = account(book, name);
    Refusal::BadAmount.when(fen == 0)?;
    Refusal::NotEnough.when(fen > *held)?;
    *held -= fen;
    Ok(Answer::DONE)
}

pub fn size(book: &mut Book, table: &[Trade], sheets: u64) -> Result<Answer, Refusal> {
    Refusal::LimitPassed.when(sheets > SIZE)?;
    Refusal::SizeBelowOutstanding.when(sheets < book.outstanding(table))?;
    book.size = sheets;
    Ok(Answer::DONE)
}

pub fn rate(book: &mut Book, kind: usize, rate: u64) -> Result<Answer, Refusal> {
    Refusal::NoSuchKind.when(kind >= CASH_KIND)?;
    Refusal::LimitPassed.when(rate > RATE)?;
    book.rates[kind] = rate;
    Ok(Answer::DONE)
}

/// "units arrive; cash moves from own into arriving. They count from the next
/// close." Moving own cash leaves the sum that the 10^16 speaks of alone.
pub fn pledge(book: &mut Book, kind: usize, units: u64) -> Result<Answer, Refusal> {
    Refusal::NoSuchKind.when(kind > CASH_KIND)?;
    trading_day(book)?;
    Refusal::BadAmount.when(units == 0)?;
    let cash = kind == CASH_KIND;
    let held = &mut book.holdings[kind];
    Refusal::NotEnough.when(cash && units > book.own)?;
    Refusal::LimitPassed.when(!cash && units > SECURITY_UNITS - held.effective - held.arriving)?;
    held.arriving += units;
    if cash {
        book.own -= units;
    }
    Ok(Answer::DONE)
}

/// Sets the frozen units and does not add to them.
pub fn freeze(book: &mut Book, kind: usize, units: u64) -> Result<Answer, Refusal> {
    Refusal::NoSuchKind.when(kind > CASH_KIND)?;
    Refusal::NotEnough.when(units > book.holdings[kind].effective)?;
    book.holdings[kind].frozen = units;
    Ok(Answer::DONE)
}

pub fn withdraw(book: &mut Book, kind: usize, units: u64) -> Result<Answer, Refusal> {
    Refusal::NoSuchKind.when(kind > CASH_KIND)?;
    trading_day(book)?;
    Refusal::Terminated.when(book.status == Status::Terminated)?;
    Refusal::BadAmount.when(units == 0)?;
    // A freeze may since have passed the applied units, so nothing may be free.
    let free = book.unfrozen(kind).saturating_sub(book.applied(kind));
    Refusal::NotEnough.when(units > free)?;
    Refusal::ApplicationsFull.when(book.applications == APPLICATIONS)?;
    book.application_kinds[book.applications] = kind as u8;
    book.application_units[book.applications] = units;
    book.applications += 1;
    Ok(Answer::DONE)
}
