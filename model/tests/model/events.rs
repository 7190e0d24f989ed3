//! Decoding: which bytes each event uses, and what is answer 2.

use model::cases::ledger::{Ledger, WORKED_CALENDAR};
use model::event::{Account, Event, Terms};

/// The bytes beyond the code that each event uses, from the journal's section.
fn used_bytes(code: u8) -> Vec<std::ops::Range<usize>> {
    let (selector, product, amount, contract, price) = (1..2, 2..3, 8..16, 16..24, 24..28);
    match code {
        2 | 3 | 5..=8 => vec![selector, amount],
        4 => vec![amount],
        9 => vec![product, amount, contract, price, 28..32, 32..36],
        10 => vec![amount, contract, price],
        13 => vec![selector, amount, price, 28..32],
        _ => vec![],
    }
}

fn is_used(code: u8, byte: usize) -> bool {
    used_bytes(code).iter().any(|range| range.contains(&byte))
}

#[test]
fn a_nonzero_byte_decodes_exactly_where_the_event_uses_it() {
    for code in 0..=255 {
        for byte in 1..40 {
            for value in [1, 2, 128, 255] {
                let mut bytes = [0; 40];
                bytes[0] = code;
                bytes[byte] = value;
                let account_is_wrong = matches!(code, 2 | 3) && byte == 1 && value > 1;
                let expected = (1..=13).contains(&code) && is_used(code, byte) && !account_is_wrong;
                let decoded = Event::decode(&bytes);
                assert_eq!(decoded.is_ok(), expected, "code {code}, byte {byte}, value {value}");
                assert!(decoded.is_err() || decoded.unwrap().encode() == bytes);
            }
        }
    }
}

#[test]
fn fields_stand_where_the_journal_puts_them() {
    let terms = Terms {
        contract: 0x0807_0605_0403_0201,
        sheets: 0x1817_1615_1413_1211,
        price: 0x2423_2221,
        fallback: 0x3433_3231,
        due: 0x4443_4241,
        product: 0x51,
    };
    let bytes = Event::Initial(terms).encode();
    assert_eq!(bytes[..8], [9, 0, 0x51, 0, 0, 0, 0, 0]);
    assert_eq!(bytes[8..16], [0x11, 0x12, 0x13, 0x14, 0x15, 0x16, 0x17, 0x18]);
    assert_eq!(bytes[16..24], [1, 2, 3, 4, 5, 6, 7, 8]);
    assert_eq!(bytes[24..36], [0x21, 0x22, 0x23, 0x24, 0x31, 0x32, 0x33, 0x34, 0x41, 0x42, 0x43, 0x44]);
    assert_eq!(bytes[36..], [0; 4]);
    assert_eq!(Event::decode(&bytes), Ok(Event::Initial(terms)));
    let fund = Event::FundOut { account: Account::Client, fen: 258 };
    assert_eq!(fund.encode()[..10], [3, 1, 0, 0, 0, 0, 0, 0, 2, 1]);
    let post = Event::Post { product: 3, term: 258, price: 0x2423_2221, fallback: 0x3433_3231 }.encode();
    assert_eq!(post[..16], [13, 3, 0, 0, 0, 0, 0, 0, 2, 1, 0, 0, 0, 0, 0, 0]);
    assert_eq!(post[16..32], [0, 0, 0, 0, 0, 0, 0, 0, 0x21, 0x22, 0x23, 0x24, 0x31, 0x32, 0x33, 0x34]);
    assert_eq!(post[32..], [0; 8]);
}

/// A kind above 32 is the book's answer 3, not the decoder's 2.
#[test]
fn kinds_are_kept_raw() {
    for kind in [33, 255] {
        for event in [
            Event::Rate { kind, rate: u64::MAX },
            Event::Pledge { kind, units: 0 },
            Event::Freeze { kind, units: 1 },
            Event::Withdraw { kind, units: 0 },
        ] {
            assert_eq!(Ledger::fresh(&WORKED_CALENDAR).does(event).number, 3);
        }
    }
    assert_eq!(Ledger::fresh(&WORKED_CALENDAR).does(Event::Rate { kind: 32, rate: 1 }).number, 3);
}

/// A product that is none is the book's answer 20, not the decoder's 2, and comes
/// before everything else that may be wrong.
#[test]
fn products_are_kept_raw() {
    let fresh = Ledger::fresh(&WORKED_CALENDAR);
    for product in [16, 17, 255] {
        let event = Event::Post { product, term: 0, price: u32::MAX, fallback: 0 };
        assert_eq!(fresh.clone().does(event).number, 20);
    }
    for product in 1..=255 {
        let terms = Terms { contract: 0, sheets: 5, price: u32::MAX, fallback: 0, due: 0, product };
        assert_eq!(fresh.clone().does(Event::Initial(terms)).number, 20);
    }
}
