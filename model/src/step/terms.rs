//! Terms that start by themselves at a Close, between its parts (a) and (b)
//! (document 02, ask 4; art. 30).

use super::trading::due_day_is_good;
use crate::book::{Book, Status, Trade};
use crate::money::next_after;

/// The records that a Close starts, each with its slot: "the trades just
/// matured that have a product follow in table order". All have matured before
/// the first of them starts, and each leaves less headroom to the next.
pub fn started(calendar: &[u32], book: &Book, table: &[Trade]) -> Vec<(usize, Trade)> {
    let Some(today) = book.day else { return Vec::new() };
    let trades = &table[..book.trades];
    let staying = trades.iter().filter(|trade| trade.due > today);
    let mut headroom = book.headroom_over(staying.map(|trade| trade.sheets).sum());
    let mut started = Vec::new();
    for (place, trade) in trades.iter().enumerate().filter(|(_, trade)| trade.due <= today) {
        if let Some(next) = next_term(calendar, book, trade, today, headroom) {
            headroom -= next.sheets as i64;
            started.push((place, next));
        }
    }
    started
}

/// "only where sheets were left to mature, the status is normal, the product was
/// posted today, the due day passes rule 9 and headroom suffices; otherwise it
/// stays matured." Nothing else that an Initial would be turned down for matters.
fn next_term(calendar: &[u32], book: &Book, matured: &Trade, today: u32, headroom: i64) -> Option<Trade> {
    let posting = book.posted(matured.product)?;
    let due = today + posting.term as u32;
    let starts = matured.sheets > 0
        && book.status == Status::Normal
        && due_day_is_good(calendar, today, due)
        && matured.sheets as i64 <= headroom;
    starts.then(|| Trade {
        price: posting.price,
        fallback: posting.fallback,
        first_payment: next_after(calendar, today).expect("a fit book's day has a payment day"),
        due,
        ..*matured
    })
}
