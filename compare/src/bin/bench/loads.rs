//! Journals to measure on.

use model::event::{Account, Event, Terms, EVENT_BYTES};
use model::generator::random::Random;
use model::limits::{APPLICATIONS, DAYS_AHEAD, JOURNAL_CAPACITY, JOURNAL_EVENTS, SIZE};
use model::money::{CASH_KIND, KINDS};

pub struct Load {
    pub name: &'static str,
    pub calendar: Vec<u32>,
    pub events: Vec<[u8; EVENT_BYTES]>,
}

pub fn all() -> [Load; 3] {
    [load("quarter", quarter()), load("table", full_table()), load("withdrawals", withdrawals())]
}

fn load(name: &'static str, events: Vec<Event>) -> Load {
    assert!(events.len() <= JOURNAL_EVENTS, "{name}: {} events", events.len());
    Load { name, calendar: weekdays(), events: events.iter().map(Event::encode).collect() }
}

/// Two years of five days in seven.
pub fn weekdays() -> Vec<u32> {
    let word =
        |first: u32| (0..32).filter(|bit| (first + bit) % 7 < 5).fold(0, |word, bit| word | 1 << bit);
    (0..23).map(|place| word(32 * place)).collect()
}

/// The trading day that stands at `place` of the calendar.
pub fn day(place: u32) -> u32 {
    place / 5 * 7 + place % 5
}

/// Funds, size, rates of all securities, and units of every kind pledged on the first day.
pub fn set_up(units: u64) -> Vec<Event> {
    let mut events = vec![
        Event::Size { sheets: SIZE },
        Event::FundIn { account: Account::Own, fen: 4_000_000_000_000 },
        Event::FundIn { account: Account::Client, fen: 4_000_000_000_000 },
    ];
    events.extend((0..CASH_KIND as u8).map(|kind| Event::Rate { kind, rate: 9_000 }));
    events.push(Event::Open);
    events.extend((0..KINDS as u8).map(|kind| Event::Pledge { kind, units }));
    events.extend([Event::Pay, Event::Close]);
    events
}

pub fn trade(random: &mut Random, contract: u64, due: u32) -> Event {
    trade_of(0, random, contract, due)
}

/// The same of a product, as its field has it.
pub fn trade_of(product: u8, random: &mut Random, contract: u64, due: u32) -> Event {
    let sheets = 10 * random.between(1, 500);
    let price = random.between(1_500, 3_000) as u32;
    Event::Initial(Terms { contract, sheets, price, fallback: 300, due, product })
}

/// 62 days with 201 trades of one to 91 days; now and then an early
/// redemption, a withdrawal, a pledge, a new rate or funds.
fn quarter() -> Vec<Event> {
    let mut random = Random::new(1);
    let mut events = set_up(1_000_000);
    let mut contract = 0;
    for place in 1..63 {
        events.push(Event::Open);
        for _ in 0..3 + u32::from(place % 4 == 0) {
            contract += 1;
            let ahead = random.pick(&[1, 2, 3, 4, 7, 7, 14, 14, 28, 91]);
            events.push(trade(&mut random, contract, day(place) + ahead));
        }
        let kind = random.below(KINDS as u64) as u8;
        match place % 5 {
            0 => events.push(Event::Early { contract, sheets: 10, price: 1_000 }),
            1 => events.push(Event::Withdraw { kind, units: random.between(1, 20_000) }),
            2 => events.push(Event::Pledge { kind, units: random.between(1, 20_000) }),
            3 => events.push(Event::Rate { kind: kind % 32, rate: random.between(8_500, 9_500) }),
            _ => events.push(Event::FundIn { account: Account::Client, fen: 1_000_000_000 }),
        }
        events.extend([Event::Pay, Event::Close]);
    }
    events
}

/// 1,024 trades in a day, which stay for as long as the journal goes on:
/// days with early redemptions in part, and trades for which there is no slot.
fn full_table() -> Vec<Event> {
    let mut random = Random::new(2);
    let mut events = set_up(1_000_000_000);
    let due = day(1) + DAYS_AHEAD;
    let capacity = JOURNAL_CAPACITY as u64;
    events.push(Event::Open);
    events.extend((1..=capacity).map(|contract| trade(&mut random, contract, due)));
    while events.len() < JOURNAL_EVENTS {
        for _ in 0..8 {
            let contract = random.between(1, capacity);
            events.push(Event::Early { contract, sheets: 1, price: 1_000 });
        }
        events.push(trade(&mut random, capacity + 1, due));
        events.extend([Event::Pay, Event::Close, Event::Open]);
    }
    events.truncate(JOURNAL_EVENTS);
    events
}

/// Ten days of 128 applications each, beside 20 trades.
fn withdrawals() -> Vec<Event> {
    let mut random = Random::new(3);
    let mut events = set_up(100_000_000);
    for place in 1..11 {
        events.push(Event::Open);
        if place == 1 {
            events.extend((1..=20).map(|contract| trade(&mut random, contract, day(30))));
        }
        for _ in 0..APPLICATIONS {
            let kind = random.below(KINDS as u64) as u8;
            events.push(Event::Withdraw { kind, units: random.between(1, 10_000) });
        }
        events.extend([Event::Pay, Event::Close]);
    }
    events
}
