//! A book with its calendar and table, for tests to drive.

use crate::answer::Answer;
use crate::book::{Book, Trade};
use crate::event::{Account, Event, Terms, EVENT_BYTES};
use crate::limits::JOURNAL_CAPACITY;
use crate::step;

/// Days 1, 2, 3, 6 and 7: the calendar of the worked example.
pub const WORKED_CALENDAR: [u32; 1] = [206];

#[derive(Clone, Debug, PartialEq, Eq)]
pub struct Ledger {
    pub calendar: Vec<u32>,
    pub book: Book,
    pub table: Vec<Trade>,
}

/// One event of a run, with the book and its trades before it and the book and
/// table after it.
pub struct Step<'a> {
    pub event: &'a [u8; EVENT_BYTES],
    pub answer: Answer,
    pub before: &'a Book,
    pub trades: &'a [Trade],
    pub after: &'a Book,
    pub table: &'a [Trade],
}

impl Ledger {
    pub fn fresh(calendar: &[u32]) -> Ledger {
        Ledger::with_slots(calendar, JOURNAL_CAPACITY)
    }

    /// A fresh book and a table of so many slots.
    pub fn with_slots(calendar: &[u32], slots: usize) -> Ledger {
        let table = vec![Trade::default(); slots];
        Ledger { calendar: calendar.to_vec(), book: Book::fresh(), table }
    }

    /// Day 1 of the worked calendar is over: funds, and 200 units at 9,000, so
    /// that headroom is 180 from the second day on.
    pub fn second_day(calendar: &[u32]) -> Ledger {
        let mut ledger = Ledger::fresh(calendar);
        for event in FIRST_DAY {
            assert_eq!(ledger.does(event).number, 0, "{event:?}");
        }
        assert_eq!(ledger.does(Event::Open).number, 0);
        ledger
    }

    pub fn does(&mut self, event: Event) -> Answer {
        self.does_bytes(&event.encode())
    }

    pub fn does_bytes(&mut self, bytes: &[u8; EVENT_BYTES]) -> Answer {
        step::apply(&self.calendar, &mut self.book, &mut self.table, bytes)
    }

    /// All the events in turn; `each` also sees the book before, which `step::run`
    /// does not keep, for speed.
    pub fn run(&mut self, events: &[[u8; EVENT_BYTES]], mut each: impl FnMut(Step)) {
        let Ledger { calendar, book, table } = self;
        let mut before = book.clone();
        let mut trades: Vec<Trade> = table.iter().take(book.trades).copied().collect();
        step::run(calendar, book, table, events, |event, answer, after, table| {
            each(Step { event, answer, before: &before, trades: &trades, after, table });
            before.clone_from(after);
            trades.clear();
            trades.extend(table.iter().take(after.trades));
        });
    }

    /// Pay and Close, then the next Open; gives the answer of the Close.
    pub fn next_day(&mut self) -> Answer {
        assert!(self.does(Event::Pay).is_accepted());
        let answer = self.does(Event::Close);
        assert_eq!(answer.number, 0);
        assert_eq!(self.does(Event::Open).number, 0);
        answer
    }

    pub fn headroom(&self) -> i64 {
        self.book.headroom(&self.table)
    }

    pub fn is_fit(&self) -> bool {
        self.book.is_fit(&self.calendar, &self.table)
    }
}

/// The first eight events of the worked example.
pub const FIRST_DAY: [Event; 8] = [
    Event::Size { sheets: 1_000 },
    Event::FundIn { account: Account::Own, fen: 5_000_000 },
    Event::FundIn { account: Account::Client, fen: 3_000_000 },
    Event::Rate { kind: 0, rate: 9_000 },
    Event::Open,
    Event::Pledge { kind: 0, units: 200 },
    Event::Pay,
    Event::Close,
];

/// A trade at the prices of the worked example.
pub fn trade(contract: u64, sheets: u64, due: u32) -> Event {
    trade_of(0, contract, sheets, due)
}

/// The same of a product, as its field has it.
pub fn trade_of(product: u8, contract: u64, sheets: u64, due: u32) -> Event {
    Event::Initial(Terms { contract, sheets, price: 3_650, fallback: 1_000, due, product })
}

/// A product for so many days, at prices of its own.
pub fn post(product: u8, term: u64) -> Event {
    Event::Post { product, term, price: 3_000, fallback: 900 }
}
