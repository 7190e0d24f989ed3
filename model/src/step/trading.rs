//! Initial trades, early redemptions and posted products: events 9, 10 and 13.

use super::{net_within_limit, trading_day, unpaid_within_limit};
use crate::answer::{Answer, Refusal};
use crate::book::{Book, Posting, Status, Trade};
use crate::event::Terms;
use crate::limits::{DAYS_AHEAD, PRICE, PRODUCTS, TRADE_SHEETS};
use crate::money::{first_from, initial_amount, next_after};

/// "a new last trade; 10,000q is taken from today's net." A product that is not
/// posted today is turned down before anything else.
pub fn initial(
    calendar: &[u32],
    book: &mut Book,
    table: &mut [Trade],
    terms: Terms,
) -> Result<Answer, Refusal> {
    let Terms { contract, sheets, price, fallback, due, .. } = terms;
    let product = u64::from(terms.product);
    Refusal::NoProduct.when(product > 0 && book.posted(product).is_none())?;
    let today = trading_day(book)?;
    Refusal::Terminated.when(book.status == Status::Terminated)?;
    Refusal::Suspended.when(book.status == Status::Suspended)?;
    Refusal::BadAmount.when(sheets == 0 || sheets % 10 != 0 || sheets > TRADE_SHEETS)?;
    Refusal::PriceTooHigh.when(u64::from(price.max(fallback)) > PRICE)?;
    Refusal::BadDueDay.when(!due_day_is_good(calendar, today, due))?;
    Refusal::WrongContract.when(book.find(table, contract).is_some())?;
    Refusal::TableFull.when(book.trades == table.len())?;
    Refusal::AboveHeadroom.when(sheets as i64 > book.headroom(table))?;
    let net = net_within_limit(book.todays_net - initial_amount(sheets) as i64)?;
    let first_payment = next_after(calendar, today).expect("a fit book's day has a payment day");
    table[book.trades] = Trade { contract, sheets, price, fallback, first_payment, due, product };
    book.trades += 1;
    book.todays_net = net;
    Ok(Answer::DONE)
}

/// "gives product 0 to 15 its term in days [...] and both prices for that day; a
/// later Post replaces it."
pub fn post(book: &mut Book, product: usize, posting: Posting) -> Result<Answer, Refusal> {
    let Posting { term, price, fallback } = posting;
    Refusal::NoProduct.when(product >= PRODUCTS)?;
    trading_day(book)?;
    Refusal::Terminated.when(book.status == Status::Terminated)?;
    Refusal::PriceTooHigh.when(u64::from(price.max(fallback)) > PRICE)?;
    Refusal::BadDueDay.when(term == 0 || term > DAYS_AHEAD.into())?;
    book.postings[product] = posting;
    Ok(Answer::DONE)
}

/// 1 to 365 days ahead, with a trading day at or after it (the day the trade
/// would mature) and another following (the day it would be paid).
pub(crate) fn due_day_is_good(calendar: &[u32], today: u32, due: u32) -> bool {
    let ahead = due > today && due - today <= DAYS_AHEAD;
    let payable = || first_from(calendar, due).and_then(|maturity| next_after(calendar, maturity));
    ahead && payable().is_some()
}

/// "takes sheets off a trade at the price given; the amount joins today's net
/// (art. 29)", and U's part of today. A trade with nothing left stands until the Close.
pub fn early(
    calendar: &[u32],
    book: &mut Book,
    table: &mut [Trade],
    contract: u64,
    sheets: u64,
    price: u32,
) -> Result<Answer, Refusal> {
    let today = trading_day(book)?;
    Refusal::Terminated.when(book.status == Status::Terminated)?;
    Refusal::BadAmount.when(sheets == 0)?;
    Refusal::PriceTooHigh.when(u64::from(price) > PRICE)?;
    // A contract that is not on the table has no due day to be past: 10, not 9.
    let place = book.find(table, contract).ok_or(Refusal::WrongContract)?;
    let trade = &mut table[place];
    Refusal::BadDueDay.when(today >= trade.due)?;
    Refusal::NotEnough.when(sheets > trade.sheets)?;
    let payment_day = next_after(calendar, today).expect("a fit book's day has a payment day");
    let amount = trade.redeem(sheets, price, payment_day);
    let net = net_within_limit(book.todays_net + amount as i64)?;
    unpaid_within_limit(book, amount)?;
    book.todays_net = net;
    book.todays_unpaid += amount;
    trade.sheets -= sheets;
    Ok(Answer::DONE)
}
