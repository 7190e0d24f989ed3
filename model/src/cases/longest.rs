//! A journal with a listing as long as one can be: nearly every line has every
//! number at its longest.

use crate::event::{Account, Event, Terms};
use crate::journal::write;
use crate::limits::{CALENDAR_WORDS, CASH, JOURNAL_EVENTS, SIZE, TRADE_SHEETS};
use crate::money::CASH_KIND;

/// A third of all cash: the three kinds of it then have 16 digits each, while one
/// of 17 would leave nothing for the others.
const THIRD: u64 = CASH / 3;
const CASH_BYTE: u8 = CASH_KIND as u8;

/// What stands after the place in the longest line: an answer of two digits, O at
/// 10^10 with headroom as far below 0, three times 16 digits, six spaces before
/// them, and the line's end.
const AFTER_THE_PLACE: usize = 2 + 12 + 11 + 3 * 16 + 6 + 1;

/// No listing has more bytes.
pub fn bound() -> usize {
    (1..=JOURNAL_EVENTS).map(|place| place.to_string().len() + AFTER_THE_PLACE).sum()
}

/// The longest calendar and 1,500 events: a journal of 64,808 bytes.
pub fn journal() -> Vec<u8> {
    let mut events = day_with_cash();
    events.push(Event::Open);
    events.extend((0..SIZE / TRADE_SHEETS).map(initial));
    events.push(Event::Freeze { kind: CASH_BYTE, units: THIRD });
    let refused = refused_with_two_digits();
    events.extend(refused.iter().cycle().take(JOURNAL_EVENTS - events.len()));
    let events: Vec<_> = events.iter().map(Event::encode).collect();
    write(&[u32::MAX; CALENDAR_WORDS], &events)
}

/// Guarantee cash alone is worth more than the size.
fn day_with_cash() -> Vec<Event> {
    vec![
        Event::FundIn { account: Account::Own, fen: 2 * THIRD },
        Event::FundIn { account: Account::Client, fen: THIRD },
        Event::Size { sheets: SIZE },
        Event::Open,
        Event::Pledge { kind: CASH_BYTE, units: THIRD },
        Event::Pay,
        Event::Close,
    ]
}

/// A hundred of them bring O to 10^10.
fn initial(contract: u64) -> Event {
    Event::Initial(Terms { contract, sheets: TRADE_SHEETS, price: 1, fallback: 1, due: 300, product: 0 })
}

/// 10, 12, 13, 14 and 15.
fn refused_with_two_digits() -> [Event; 5] {
    [
        Event::Early { contract: u64::MAX, sheets: 1, price: 1 },
        initial(u64::MAX),
        Event::FundOut { account: Account::Own, fen: CASH },
        Event::FundIn { account: Account::Own, fen: CASH },
        Event::Size { sheets: 0 },
    ]
}
