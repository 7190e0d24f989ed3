//! Single calls to measure: fitness, one event, its answer and the table
//! written, on books with more and more trades.

use std::hint::black_box;
use std::ops::Range;

use compare::proved::{self, lent::Rows};
use model::answer::Answer;
use model::book::{Book, Trade};
use model::event::{Account, Event, EVENT_BYTES};
use model::generator::random::Random;
use model::limits::{CAPACITY, DAYS_AHEAD, PRODUCTS};
use model::step;

use crate::loads;

#[derive(Clone, Copy, PartialEq)]
enum Kind {
    FundIn,
    Initial,
    Close,
}

/// Which event, and on what table.
#[derive(Clone, Copy)]
pub struct Shape {
    kind: Kind,
    pub trades: usize,
    pub slots: usize,
    /// Contracts in rising order: easier to sort than drawn ones.
    rising: bool,
    /// Every trade has a product that is posted, and what is due begins again.
    rolling: bool,
}

/// All single calls, those of one event together.
pub fn shapes() -> impl Iterator<Item = Shape> {
    [Kind::FundIn, Kind::Initial, Kind::Close].into_iter().flat_map(|kind| {
        let tight = [16, 256, 1_024, CAPACITY].map(|trades| Shape::tight(kind, trades));
        let roomy = [16, 256].map(|trades| Shape { slots: CAPACITY, ..Shape::tight(kind, trades) });
        let rising = [Shape { rising: true, ..Shape::tight(kind, CAPACITY) }];
        let rolling = [256, CAPACITY].map(|trades| Shape { rolling: true, ..Shape::tight(kind, trades) });
        let rolling = rolling.into_iter().filter(move |_| kind == Kind::Close);
        tight.into_iter().chain(roomy).chain(rising).chain(rolling)
    })
}

impl Shape {
    /// A table with one slot to spare, where one may be so large.
    fn tight(kind: Kind, trades: usize) -> Shape {
        Shape { kind, trades, slots: CAPACITY.min(trades + 1), rising: false, rolling: false }
    }

    fn is_tight(&self) -> bool {
        self.slots <= self.trades + 1 && !self.rising && !self.rolling
    }

    /// Whether the two differ in their trades alone.
    pub fn grows_to(&self, larger: &Shape) -> bool {
        self.kind == larger.kind && self.trades < larger.trades && self.is_tight() && larger.is_tight()
    }

    pub fn name(&self) -> String {
        let kind = match self.kind {
            Kind::FundIn => "fund",
            Kind::Initial => "initial",
            Kind::Close => "close",
        };
        let more = match self {
            Shape { rising: true, .. } => "-rising".to_string(),
            Shape { rolling: true, .. } => "-rolling".to_string(),
            _ if self.is_tight() => String::new(),
            _ => format!("-of-{}", self.slots),
        };
        format!("{kind}-{}{more}", self.trades)
    }

    /// An Initial needs a slot, so the largest table has one trade less for it.
    pub fn in_use(&self) -> usize {
        match self.kind {
            Kind::Initial => self.trades.min(self.slots - 1),
            Kind::FundIn | Kind::Close => self.trades,
        }
    }

    /// All products in the morning, if trades have one.
    fn posts(&self) -> impl Iterator<Item = Event> {
        let products = if self.rolling { PRODUCTS as u8 } else { 0 };
        (0..products).map(|product| Event::Post { product, term: 7, price: 2_000, fallback: 300 })
    }

    fn event(&self) -> Event {
        match self.kind {
            Kind::FundIn => Event::FundIn { account: Account::Own, fen: 1 },
            Kind::Initial => loads::trade(&mut Random::new(5), u64::MAX, loads::day(3)),
            Kind::Close => Event::Close,
        }
    }

    /// Up to the day after the trades were made, one in four of them due; for a
    /// Close up to that day's Pay, with applications.
    fn history(&self) -> Vec<Event> {
        let mut random = Random::new(4);
        let mut events = loads::set_up(1_000_000_000);
        events.push(Event::Open);
        events.extend(self.posts());
        events.extend((0..self.in_use()).map(|place| {
            let due = if place % 4 == 0 { loads::day(2) } else { loads::day(1) + DAYS_AHEAD };
            let contract = if self.rising { place as u64 } else { random.any() };
            let product = if self.rolling { 1 + (place / 4 % PRODUCTS) as u8 } else { 0 };
            loads::trade_of(product, &mut random, contract, due)
        }));
        events.extend([Event::Pay, Event::Close, Event::Open]);
        events.extend(self.posts());
        if self.kind == Kind::Close {
            events.extend((0..8).map(|kind| Event::Withdraw { kind, units: 1_000 }));
            events.push(Event::Pay);
        }
        events
    }
}

/// One event on one book, on both sides.
pub struct Call {
    calendar: Vec<u32>,
    event: [u8; EVENT_BYTES],
    pub proved: Desk<Rows, proved::book::Trade>,
    pub model: Desk<Book, Trade>,
}

impl Call {
    /// Sees both sides accept the event and leave the same.
    pub fn new(shape: Shape) -> Call {
        let (calendar, mut book, mut table) =
            (loads::weekdays(), Book::fresh(), vec![Trade::default(); shape.slots]);
        let history: Vec<_> = shape.history().iter().map(Event::encode).collect();
        step::run(&calendar, &mut book, &mut table, &history, |_, answer, _, _| {
            assert_eq!(answer.number, 0);
        });
        let mut call = Call {
            calendar,
            event: shape.event().encode(),
            proved: Desk::new(Rows::from(&book), proved::book::table(&table), shape),
            model: Desk::new(book, table, shape),
        };
        let answer = call.model_answer();
        assert_eq!(answer.number, 0);
        let all_stay = call.model.book.trades == shape.in_use();
        assert!(all_stay || !shape.rolling, "some trade did not begin again");
        assert_eq!(call.proved_answer(), answer);
        assert_eq!(call.proved.book, Rows::from(&call.model.book));
        assert_eq!(call.proved.table, proved::book::table(&call.model.table));
        call.proved.note_changes();
        call.model.note_changes();
        call
    }

    pub fn proved_answer(&mut self) -> Answer {
        let Desk { book, table, .. } = &mut self.proved;
        proved::lent::apply(&self.calendar, book, table, &self.event)
    }

    pub fn model_answer(&mut self) -> Answer {
        let Desk { book, table, .. } = &mut self.model;
        step::apply(&self.calendar, book, table, &self.event)
    }
}

/// A slot of either side's table.
pub trait Slot: Copy + PartialEq {
    fn contract(&mut self) -> &mut u64;
}

impl Slot for Trade {
    fn contract(&mut self) -> &mut u64 {
        &mut self.contract
    }
}

impl Slot for proved::book::Trade {
    fn contract(&mut self) -> &mut u64 {
        &mut self.contract
    }
}

/// A book and its table, and what they were before the call.
pub struct Desk<B, T> {
    book: B,
    table: Vec<T>,
    book_before: B,
    table_before: Vec<T>,
    changed: Range<usize>,
    in_use: usize,
    /// What drawn contracts are mixed with anew for each call.
    masks: Option<Random>,
}

impl<B: Clone, T: Slot> Desk<B, T> {
    fn new(book: B, table: Vec<T>, shape: Shape) -> Desk<B, T> {
        Desk {
            book_before: book.clone(),
            table_before: table.clone(),
            book,
            table,
            changed: 0..0,
            in_use: shape.in_use(),
            masks: (!shape.rising).then(|| Random::new(6)),
        }
    }

    /// Only slots that the call changes are put back, so that a small call is
    /// not lost in copying a large table.
    fn note_changes(&mut self) {
        let changed = |slot: &usize| self.table[*slot] != self.table_before[*slot];
        let mut slots = (0..self.table.len()).filter(changed);
        self.changed = slots.next().map_or(0..0, |first| first..slots.next_back().unwrap_or(first) + 1);
    }

    /// The same book and table, but for other contracts where they are drawn:
    /// else the processor would learn by heart how they compare.
    pub fn restore(&mut self) {
        self.book.clone_from(&self.book_before);
        let changed = self.changed.clone();
        self.table[changed.clone()].copy_from_slice(&self.table_before[changed]);
        if let Some(masks) = &mut self.masks {
            let mask = masks.any();
            let slots = self.table.iter_mut().zip(&self.table_before).take(self.in_use);
            slots.for_each(|(slot, &(mut before))| *slot.contract() = *before.contract() ^ mask);
        }
        black_box(&mut self.table);
    }
}
