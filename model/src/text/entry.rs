//! One event as a line of text.

use super::date::DaysAs;
use super::error::Problem;
use super::words::Words;
use crate::event::{Account, Event, Terms, EVENT_BYTES};
use crate::money::CASH_KIND;

const CASH: u8 = CASH_KIND as u8;
/// The largest product that an initial trade's byte has room for, being plus 1 there.
const LAST_PRODUCT: u64 = 254;
const HEX: &str = "80 hexadecimal digits";

pub fn read(words: &mut Words) -> Result<[u8; EVENT_BYTES], Problem> {
    match words.name() {
        "bytes" => read_bytes(words),
        _ => read_event(words).map(|event| event.encode()),
    }
}

fn read_event(words: &mut Words) -> Result<Event, Problem> {
    Ok(match words.name() {
        "open" => Event::Open,
        "in" => Event::FundIn { account: account(words)?, fen: words.number("an amount in fen")? },
        "out" => Event::FundOut { account: account(words)?, fen: words.number("an amount in fen")? },
        "size" => Event::Size { sheets: words.number("a number of sheets")? },
        "rate" => Event::Rate { kind: kind(words)?, rate: words.number("a rate")? },
        "pledge" => Event::Pledge { kind: kind(words)?, units: words.number("a number of units")? },
        "freeze" => Event::Freeze { kind: kind(words)?, units: words.number("a number of units")? },
        "withdraw" => Event::Withdraw { kind: kind(words)?, units: words.number("a number of units")? },
        "initial" => Event::Initial(Terms {
            sheets: words.number("a number of sheets")?,
            contract: words.named("contract", "a contract number")?,
            price: words.named("price", "a price")?,
            fallback: words.named("fallback", "a fallback price")?,
            due: words.named_day("due", "a due day")?,
            product: product_field(words)?,
        }),
        "early" => Event::Early {
            sheets: words.number("a number of sheets")?,
            contract: words.named("contract", "a contract number")?,
            price: words.named("price", "a price")?,
        },
        "pay" => Event::Pay,
        "close" => Event::Close,
        "post" => Event::Post {
            product: words.number("a product")?,
            term: words.named("term", "a term in days")?,
            price: words.named("price", "a price")?,
            fallback: words.named("fallback", "a fallback price")?,
        },
        other => return Err(Problem::NoSuchEvent(other.to_string())),
    })
}

fn account(words: &mut Words) -> Result<Account, Problem> {
    let what = "an account, own or client";
    match words.needed(what)? {
        "own" => Ok(Account::Own),
        "client" => Ok(Account::Client),
        other => Err(words.lacks(what, Some(other))),
    }
}

fn kind(words: &mut Words) -> Result<u8, Problem> {
    let what = "a kind";
    match words.needed(what)? {
        "cash" => Ok(CASH),
        word => words.number_in(word, what),
    }
}

/// None, or a product, which the field has plus 1. Products above 15 are the
/// book's to refuse, so that every field has a text.
fn product_field(words: &mut Words) -> Result<u8, Problem> {
    let product: Option<u8> = words.named_if_any("product", "a product", LAST_PRODUCT)?;
    Ok(product.map_or(0, |number| number + 1))
}

/// The 40 bytes, in as many words as one likes.
fn read_bytes(words: &mut Words) -> Result<[u8; EVENT_BYTES], Problem> {
    let mut digits = Vec::new();
    while let Some(word) = words.next() {
        for character in word.chars() {
            let digit = character.to_digit(16).ok_or_else(|| words.lacks(HEX, Some(word)))?;
            digits.push(digit as u8);
        }
    }
    if digits.len() != 2 * EVENT_BYTES {
        return Err(Problem::DigitCount(digits.len()));
    }
    Ok(std::array::from_fn(|place| 16 * digits[2 * place] + digits[2 * place + 1]))
}

pub fn show(bytes: &[u8; EVENT_BYTES], days: DaysAs) -> String {
    match Event::decode(bytes) {
        Ok(event) => show_event(event, days),
        Err(_) => show_bytes(bytes),
    }
}

fn show_event(event: Event, days: DaysAs) -> String {
    match event {
        Event::Open => "open".to_string(),
        Event::FundIn { account, fen } => format!("in {} {fen}", account_name(account)),
        Event::FundOut { account, fen } => format!("out {} {fen}", account_name(account)),
        Event::Size { sheets } => format!("size {sheets}"),
        Event::Rate { kind, rate } => format!("rate {} {rate}", kind_name(kind)),
        Event::Pledge { kind, units } => format!("pledge {} {units}", kind_name(kind)),
        Event::Freeze { kind, units } => format!("freeze {} {units}", kind_name(kind)),
        Event::Withdraw { kind, units } => format!("withdraw {} {units}", kind_name(kind)),
        Event::Initial(Terms { contract, sheets, price, fallback, due, product }) => {
            let (due, product) = (days.show(due), show_product_field(product));
            format!(
                "initial {sheets} contract {contract} price {price} fallback {fallback} due {due}{product}"
            )
        }
        Event::Early { contract, sheets, price } => {
            format!("early {sheets} contract {contract} price {price}")
        }
        Event::Pay => "pay".to_string(),
        Event::Close => "close".to_string(),
        Event::Post { product, term, price, fallback } => {
            format!("post {product} term {term} price {price} fallback {fallback}")
        }
    }
}

fn account_name(account: Account) -> &'static str {
    match account {
        Account::Own => "own",
        Account::Client => "client",
    }
}

fn kind_name(kind: u8) -> String {
    match kind {
        CASH => "cash".to_string(),
        security => security.to_string(),
    }
}

/// Nothing for none.
fn show_product_field(product: u8) -> String {
    match product.checked_sub(1) {
        None => String::new(),
        Some(number) => format!(" product {number}"),
    }
}

/// Eight bytes a word.
fn show_bytes(bytes: &[u8; EVENT_BYTES]) -> String {
    let eight = |bytes: &[u8]| bytes.iter().map(|byte| format!("{byte:02x}")).collect::<String>();
    let words: Vec<String> = bytes.chunks(8).map(eight).collect();
    format!("bytes {}", words.join(" "))
}
