//! The thirteen events and their 40 bytes.

use crate::answer::Refusal;

pub const EVENT_BYTES: usize = 40;

#[derive(Clone, Copy, Debug, PartialEq, Eq)]
pub enum Account {
    Own,
    Client,
}

/// "An event is one of twelve, and fund events name an account"; Post is one more.
/// A kind and a product are kept as their bytes: one that is none is the book's to
/// refuse, with 3 and with 20.
#[derive(Clone, Copy, Debug, PartialEq, Eq)]
pub enum Event {
    Open,
    FundIn { account: Account, fen: u64 },
    FundOut { account: Account, fen: u64 },
    Size { sheets: u64 },
    Rate { kind: u8, rate: u64 },
    Pledge { kind: u8, units: u64 },
    Freeze { kind: u8, units: u64 },
    Withdraw { kind: u8, units: u64 },
    Initial(Terms),
    Early { contract: u64, sheets: u64, price: u32 },
    Pay,
    Close,
    Post { product: u8, term: u64, price: u32, fallback: u32 },
}

/// What an initial trade is agreed on.
#[derive(Clone, Copy, Debug, PartialEq, Eq)]
pub struct Terms {
    pub contract: u64,
    pub sheets: u64,
    pub price: u32,
    pub fallback: u32,
    pub due: u32,
    /// "0, or the product number plus 1".
    pub product: u8,
}

/// The fields of the 40 bytes; those that an event does not use are 0.
#[derive(Default)]
struct Fields {
    code: u8,
    /// Kind, account or a posted product.
    selector: u8,
    /// An initial trade's product.
    product: u8,
    /// Amount, rate, size or term.
    amount: u64,
    contract: u64,
    price: u32,
    fallback: u32,
    due: u32,
}

impl Event {
    /// "A nonzero byte that an event doesn't use is answer 2": such an event
    /// would not encode back to the same bytes.
    pub fn decode(bytes: &[u8; EVENT_BYTES]) -> Result<Event, Refusal> {
        Event::from_fields(&Fields::read(bytes))
            .filter(|event| event.encode() == *bytes)
            .ok_or(Refusal::Undecodable)
    }

    pub fn encode(&self) -> [u8; EVENT_BYTES] {
        self.fields().write()
    }

    /// The event that the used fields say, whatever the unused ones hold.
    fn from_fields(fields: &Fields) -> Option<Event> {
        let &Fields { code, selector: kind, product, amount, contract, price, fallback, due } = fields;
        Some(match code {
            1 => Event::Open,
            2 => Event::FundIn { account: account(fields.selector)?, fen: amount },
            3 => Event::FundOut { account: account(fields.selector)?, fen: amount },
            4 => Event::Size { sheets: amount },
            5 => Event::Rate { kind, rate: amount },
            6 => Event::Pledge { kind, units: amount },
            7 => Event::Freeze { kind, units: amount },
            8 => Event::Withdraw { kind, units: amount },
            9 => Event::Initial(Terms { contract, sheets: amount, price, fallback, due, product }),
            10 => Event::Early { contract, sheets: amount, price },
            11 => Event::Pay,
            12 => Event::Close,
            13 => Event::Post { product: fields.selector, term: amount, price, fallback },
            _ => return None,
        })
    }

    fn fields(&self) -> Fields {
        let bare = |code| Fields { code, ..Fields::default() };
        let funds = |code, account, amount| Fields { selector: account as u8, amount, ..bare(code) };
        let of_kind = |code, selector, amount| Fields { selector, amount, ..bare(code) };
        match *self {
            Event::Open => bare(1),
            Event::FundIn { account, fen } => funds(2, account, fen),
            Event::FundOut { account, fen } => funds(3, account, fen),
            Event::Size { sheets } => Fields { amount: sheets, ..bare(4) },
            Event::Rate { kind, rate } => of_kind(5, kind, rate),
            Event::Pledge { kind, units } => of_kind(6, kind, units),
            Event::Freeze { kind, units } => of_kind(7, kind, units),
            Event::Withdraw { kind, units } => of_kind(8, kind, units),
            Event::Initial(Terms { contract, sheets, price, fallback, due, product }) => {
                Fields { product, amount: sheets, contract, price, fallback, due, ..bare(9) }
            }
            Event::Early { contract, sheets, price } => {
                Fields { amount: sheets, contract, price, ..bare(10) }
            }
            Event::Pay => bare(11),
            Event::Close => bare(12),
            Event::Post { product, term, price, fallback } => {
                Fields { selector: product, amount: term, price, fallback, ..bare(13) }
            }
        }
    }
}

fn account(byte: u8) -> Option<Account> {
    match byte {
        0 => Some(Account::Own),
        1 => Some(Account::Client),
        _ => None,
    }
}

impl Fields {
    fn read(bytes: &[u8; EVENT_BYTES]) -> Fields {
        Fields {
            code: bytes[0],
            selector: bytes[1],
            product: bytes[2],
            amount: u64::from_le_bytes(field(bytes, 8)),
            contract: u64::from_le_bytes(field(bytes, 16)),
            price: u32::from_le_bytes(field(bytes, 24)),
            fallback: u32::from_le_bytes(field(bytes, 28)),
            due: u32::from_le_bytes(field(bytes, 32)),
        }
    }

    fn write(&self) -> [u8; EVENT_BYTES] {
        let mut bytes = [0; EVENT_BYTES];
        bytes[0] = self.code;
        bytes[1] = self.selector;
        bytes[2] = self.product;
        bytes[8..16].copy_from_slice(&self.amount.to_le_bytes());
        bytes[16..24].copy_from_slice(&self.contract.to_le_bytes());
        bytes[24..28].copy_from_slice(&self.price.to_le_bytes());
        bytes[28..32].copy_from_slice(&self.fallback.to_le_bytes());
        bytes[32..36].copy_from_slice(&self.due.to_le_bytes());
        bytes
    }
}

fn field<const N: usize>(bytes: &[u8; EVENT_BYTES], at: usize) -> [u8; N] {
    std::array::from_fn(|i| bytes[at + i])
}
