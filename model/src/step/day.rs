//! The day's course: Open, Pay and Close, events 1, 11 and 12.

use super::{net_within_limit, terms, unpaid_within_limit};
use crate::answer::{Answer, Refusal};
use crate::book::{Book, Phase, Posting, Status, Trade};
use crate::limits::{APPLICATIONS, FAILED_PAYMENTS, PRODUCTS, SHORT_CLOSES};
use crate::money::{first_from, initial_amount, next_after, CASH_KIND, FEN_PER_SHEET};

/// "goes to the next trading day, at first the earliest", which needs another
/// after it: "for Open, 14 doesn't apply where 16 does", so 16 is tested first.
/// "Open forgets what was posted."
pub fn open(calendar: &[u32], book: &mut Book, table: &mut [Trade]) -> Result<Answer, Refusal> {
    Refusal::WrongPhase.when(book.phase != Phase::Closed)?;
    let day = match book.day {
        Some(today) => next_after(calendar, today),
        None => first_from(calendar, 0),
    };
    let day = day.ok_or(Refusal::NoTradingDay)?;
    let payment_day = next_after(calendar, day).ok_or(Refusal::NoTradingDay)?;
    let status = status_at_open(book);
    if status == Status::Terminated && book.status != Status::Terminated {
        redeem_at_fallback(book, table, payment_day)?;
    }
    book.day = Some(day);
    book.status = status;
    book.phase = Phase::Trading;
    book.postings = [Posting::default(); PRODUCTS];
    Ok(Answer::DONE)
}

/// The status of the day that opens (arts. 69, 70).
pub fn status_at_open(book: &Book) -> Status {
    let failed_out = book.failed_run >= FAILED_PAYMENTS || book.short_run >= SHORT_CLOSES;
    if book.status == Status::Terminated || failed_out {
        Status::Terminated
    } else if book.failed_run > 0 || book.short_run > 0 {
        Status::Suspended
    } else {
        Status::Normal
    }
}

/// "On turning terminated, every trade is redeemed whole at its fallback
/// price, the one due that day included, into the cleared net (art. 72)." Of U
/// too, "termination adds to the first", the cleared part.
fn redeem_at_fallback(book: &mut Book, table: &mut [Trade], payment_day: u32) -> Result<(), Refusal> {
    let trades = &mut table[..book.trades];
    let amounts = trades.iter().map(|trade| trade.redeem(trade.sheets, trade.fallback, payment_day));
    let amount: u64 = amounts.sum();
    let net = net_within_limit(book.cleared_net + amount as i64)?;
    unpaid_within_limit(book, amount)?;
    book.cleared_net = net;
    book.cleared_unpaid += amount;
    trades.iter_mut().for_each(|trade| trade.sheets = 0);
    Ok(())
}

/// "the whole cleared net N moves, own to client if above 0, the other way if
/// below." A net of 0 is paid by a payer that holds at least 0. "Pay made sets
/// the cleared part to 0 and keeps the part of today."
pub fn pay(book: &mut Book) -> Result<Answer, Refusal> {
    Refusal::WrongPhase.when(book.phase != Phase::Trading)?;
    Refusal::Terminated.when(book.status == Status::Terminated)?;
    book.phase = Phase::Paid;
    let fen = book.cleared_net.unsigned_abs();
    let (payer, payee) = if book.cleared_net >= 0 {
        (&mut book.own, &mut book.client)
    } else {
        (&mut book.client, &mut book.own)
    };
    if *payer < fen {
        book.failed_run = FAILED_PAYMENTS.min(book.failed_run + 1);
        return Ok(Answer::UNPAID);
    }
    *payer -= fen;
    *payee += fen;
    book.cleared_net = 0;
    book.cleared_unpaid = 0;
    book.failed_run = 0;
    Ok(Answer::DONE)
}

pub fn close(calendar: &[u32], book: &mut Book, table: &mut [Trade]) -> Result<Answer, Refusal> {
    let today = closing_day(book)?;
    let payment_day = next_after(calendar, today).expect("a fit book's day has a payment day");
    let due = || table[..book.trades].iter().filter(|trade| trade.due <= today);
    let amount: u64 = due().map(|trade| trade.redeem(trade.sheets, trade.price, payment_day)).sum();
    let matured = due().map(|trade| trade.sheets).sum();
    let started = terms::started(calendar, book, table);
    let principal: u64 = started.iter().map(|(_, record)| initial_amount(record.sheets)).sum();
    // 14 looks at today's net as (b) begins, after the terms that start, at the
    // cleared net after it, and at U, which is gross.
    let todays_net = net_within_limit(book.todays_net + amount as i64 - principal as i64)?;
    let cleared_net = net_within_limit(book.cleared_net + todays_net)?;
    unpaid_within_limit(book, amount)?;

    // (a), what starts, (b); of U, "Close adds the second to the first before it looks at applications"
    let trades = &mut table[..book.trades];
    trades.iter_mut().filter(|trade| trade.due <= today).for_each(|trade| trade.sheets = 0);
    started.into_iter().for_each(|(place, record)| trades[place] = record);
    book.todays_net = 0;
    book.cleared_net = cleared_net;
    book.cleared_unpaid = book.unpaid() + amount;
    book.todays_unpaid = 0;
    // (c)
    book.settle_arrivals();
    let outstanding = book.outstanding(table);
    let (done, dropped) = settle_applications(book, outstanding);
    remove_redeemed(book, table);
    let short = book.headroom_over(outstanding) < 0;
    book.short_run = if short { SHORT_CLOSES.min(book.short_run + 1) } else { 0 };
    book.phase = Phase::Closed;
    Ok(Answer { number: 0, matured, done, dropped })
}

/// "12 Close, in Paid, or in Trading if terminated".
fn closing_day(book: &Book) -> Result<u32, Refusal> {
    let may_close = match book.phase {
        Phase::Paid => true,
        Phase::Trading => book.status == Status::Terminated,
        Phase::Closed => false,
    };
    book.day.filter(|_| may_close).ok_or(Refusal::WrongPhase)
}

/// (d) "applications in order: done if the phase was Paid with no failed run,
/// unfrozen units suffice, and" 10,000 × V afterwards is at least 10,000 × O + U,
/// "else dropped (arts. 52, 53); cash goes to own; the list empties to zeros".
/// Gives the numbers done and dropped.
fn settle_applications(book: &mut Book, outstanding: u64) -> (u32, u32) {
    let day_was_paid = book.phase == Phase::Paid && book.failed_run == 0;
    let claims = FEN_PER_SHEET * outstanding + book.unpaid();
    let mut value = book.value();
    let mut done = 0;
    for place in 0..book.applications {
        let kind = usize::from(book.application_kinds[place]);
        let units = book.application_units[place];
        if !day_was_paid || units > book.unfrozen(kind) {
            continue;
        }
        let others = value - book.value_of(kind);
        book.holdings[kind].effective -= units;
        let value_afterwards = others + book.value_of(kind);
        if FEN_PER_SHEET * value_afterwards < claims {
            book.holdings[kind].effective += units;
            continue;
        }
        if kind == CASH_KIND {
            book.own += units;
        }
        value = value_afterwards;
        done += 1;
    }
    let dropped = book.applications as u32 - done;
    book.applications = 0;
    book.application_kinds = [0; APPLICATIONS];
    book.application_units = [0; APPLICATIONS];
    (done, dropped)
}

/// (e) "trades with nothing left leave the table, order kept"; the slots that
/// this frees are filled with zeros, other spare slots keep their content.
fn remove_redeemed(book: &mut Book, table: &mut [Trade]) {
    let mut kept = 0;
    for place in 0..book.trades {
        if table[place].sheets > 0 {
            table[kept] = table[place];
            kept += 1;
        }
    }
    table[kept..book.trades].fill(Trade::default());
    book.trades = kept;
}
