//! Each way of being unfit, alone; and books that are just fit.

use super::ledger::{post, trade, trade_of, Ledger};
use crate::book::{Phase, Posting, Trade};
use crate::event::{Account, Event, EVENT_BYTES};
use crate::money::next_trading_day;

/// What a change is called, and the change.
pub type Change = (&'static str, fn(&mut Ledger));

/// A book in the middle of a day with trades, cash, frozen units, applications
/// and a product.
pub fn busy_ledger() -> Ledger {
    let mut ledger = Ledger::second_day(&[0xffff_ff00; 1_200]);
    for event in [
        trade(7, 100, 20),
        post(3, 7),
        trade_of(4, 8, 10, 30),
        Event::Pledge { kind: 32, units: 5_000 },
        Event::Withdraw { kind: 0, units: 10 },
        Event::Freeze { kind: 0, units: 20 },
    ] {
        assert_eq!(ledger.does(event).number, 0);
    }
    assert!(ledger.is_fit());
    ledger
}

/// One of each event, and bytes that are none.
pub fn every_event() -> Vec<[u8; EVENT_BYTES]> {
    let events = [
        Event::Open,
        Event::FundIn { account: Account::Own, fen: 1 },
        Event::FundOut { account: Account::Client, fen: 1 },
        Event::Size { sheets: 1_000 },
        Event::Rate { kind: 0, rate: 1 },
        Event::Pledge { kind: 33, units: 0 },
        Event::Freeze { kind: 0, units: 0 },
        Event::Withdraw { kind: 0, units: 1 },
        trade(9, 10, 40),
        Event::Early { contract: 7, sheets: 1, price: 1 },
        Event::Post { product: 15, term: 365, price: 1, fallback: 1 },
        Event::Pay,
        Event::Close,
    ];
    events.iter().map(Event::encode).chain([[255; EVENT_BYTES]]).collect()
}

/// Each of them makes a fit book unfit that `can_be_changed`.
pub const UNFIT: [Change; 70] = [
    ("calendar above 1,200 words", |l| l.calendar.resize(1_201, 0)),
    ("capacity above 4,096", |l| l.table.resize(4_097, Trade::default())),
    ("more trades than capacity", |l| l.table.truncate(l.book.trades - 1)),
    ("trades whose numbers together are 2^64", |l| l.book.trades = 1 << 62),
    ("trades near 2^64", |l| l.book.trades = usize::MAX),
    ("security above 10^12", |l| l.book.holdings[31].effective = 1_000_000_000_001),
    ("arriving above 10^12", |l| l.book.holdings[31].arriving = u64::MAX),
    ("both above 10^12", |l| {
        (l.book.holdings[5].effective, l.book.holdings[5].arriving) = (1 << 39, 1 << 39)
    }),
    ("both together 2^64", |l| {
        (l.book.holdings[5].effective, l.book.holdings[5].arriving) = (1 << 63, 1 << 63)
    }),
    ("rate above 20,000", |l| l.book.rates[31] = 20_001),
    ("rate near 2^64", |l| l.book.rates[0] = u64::MAX),
    ("own cash above 10^16", |l| l.book.own += one_above_all_cash(l)),
    ("client cash above 10^16", |l| l.book.client += one_above_all_cash(l)),
    ("guarantee cash above 10^16", |l| l.book.holdings[32].effective += one_above_all_cash(l)),
    ("arriving cash above 10^16", |l| l.book.holdings[32].arriving += one_above_all_cash(l)),
    ("client cash near 2^64", |l| l.book.client = u64::MAX),
    ("arriving cash near 2^64", |l| l.book.holdings[32].arriving = u64::MAX),
    ("own and client cash together 2^64", |l| (l.book.own, l.book.client) = (1 << 63, 1 << 63)),
    ("size above 10^10", |l| l.book.size = 10_000_000_001),
    ("trade above 10^8", |l| (l.book.size, l.table[1].sheets) = (10_000_000_000, 100_000_001)),
    ("trades together 2^64", |l| (l.table[0].sheets, l.table[1].sheets) = (u64::MAX, 1)),
    ("price above 100,000", |l| l.table[1].price = 100_001),
    ("fallback above 100,000", |l| l.table[0].fallback = u32::MAX),
    ("last fallback above 100,000", |l| l.table[l.book.trades - 1].fallback = 100_001),
    ("today's net up", |l| l.book.todays_net = 4_000_000_000_000_000_001),
    ("today's net down", |l| l.book.todays_net = -4_000_000_000_000_000_001),
    ("today's net at the lowest", |l| l.book.todays_net = i64::MIN),
    ("cleared net up", |l| l.book.cleared_net = 4_000_000_000_000_000_001),
    ("cleared net at the highest", |l| l.book.cleared_net = i64::MAX),
    ("cleared net down", |l| l.book.cleared_net = -4_000_000_000_000_000_001),
    ("today's unpaid above 4×10^18", |l| l.book.todays_unpaid = 4_000_000_000_000_000_001),
    ("cleared unpaid above 4×10^18", |l| l.book.cleared_unpaid = 4_000_000_000_000_000_001),
    ("both unpaid above 4×10^18", |l| {
        (l.book.todays_unpaid, l.book.cleared_unpaid) = (1, 4_000_000_000_000_000_000)
    }),
    ("both unpaid 2^63", |l| (l.book.todays_unpaid, l.book.cleared_unpaid) = (1 << 63, 1 << 63)),
    ("unpaid 1 and 2^64 less 1", |l| (l.book.todays_unpaid, l.book.cleared_unpaid) = (1, u64::MAX)),
    ("frozen above effective", |l| l.book.holdings[0].frozen = l.book.holdings[0].effective + 1),
    ("frozen near 2^64", |l| l.book.holdings[31].frozen = u64::MAX),
    ("frozen cash above effective", |l| l.book.holdings[32].frozen = l.book.holdings[32].effective + 1),
    ("O above S", |l| l.book.size = l.book.outstanding(&l.table) - 1),
    ("contracts alike", |l| l.table[1].contract = l.table[0].contract),
    ("first and last contract alike", |l| l.table[l.book.trades - 1].contract = l.table[0].contract),
    ("application of kind 33", |l| (l.book.applications, l.book.application_kinds[0]) = (1, 33)),
    ("last application of kind 33", |l| (l.book.applications, l.book.application_kinds[127]) = (128, 33)),
    ("application above 10^16", |l| {
        (l.book.applications, l.book.application_units[0]) = (1, 10_000_000_000_000_001)
    }),
    ("applications above 128", |l| l.book.applications = 129),
    ("applications near 2^64", |l| l.book.applications = usize::MAX),
    ("day does not trade", |l| *todays_word(l) ^= 1 << (today(l) % 32)),
    ("day past the calendar", |l| l.book.day = Some(u32::MAX)),
    ("no day follows", |l| {
        *todays_word(l) &= u32::MAX >> (31 - today(l) % 32);
        l.calendar.truncate(today(l) as usize / 32 + 1)
    }),
    ("first payment day past today's", |l| {
        l.table[1].first_payment = next_trading_day(&l.calendar, today(l)).1 + 1
    }),
    ("last first payment day past today's", |l| l.table[l.book.trades - 1].first_payment = u32::MAX),
    ("no day, but trades", |l| (l.book.day, l.book.phase) = (None, Phase::Closed)),
    ("no day, but Trading", |l| (l.book.day, l.book.phase, l.book.trades) = (None, Phase::Trading, 0)),
    ("no day, but Paid", |l| (l.book.day, l.book.phase, l.book.trades) = (None, Phase::Paid, 0)),
    ("failed run above 2", |l| l.book.failed_run = 3),
    ("short run above 3", |l| l.book.short_run = 4),
    ("product of 17", |l| l.table[0].product = 17),
    ("last product of 17", |l| l.table[l.book.trades - 1].product = 17),
    ("product of 2^32", |l| l.table[1].product = 1 << 32),
    ("product near 2^64", |l| l.table[0].product = u64::MAX),
    ("first term of 366", |l| l.book.postings[0].term = 366),
    ("last term of 366", |l| l.book.postings[15].term = 366),
    ("term of 2^32", |l| l.book.postings[7].term = 1 << 32),
    ("term near 2^64", |l| l.book.postings[15].term = u64::MAX),
    ("first posted price above 100,000", |l| l.book.postings[0] = posting(7, 100_001, 0)),
    ("last posted price above 100,000", |l| l.book.postings[15] = posting(7, u32::MAX, 0)),
    ("first posted fallback above 100,000", |l| l.book.postings[0] = posting(7, 0, u32::MAX)),
    ("last posted fallback above 100,000", |l| l.book.postings[15] = posting(7, 0, 100_001)),
    ("price above 100,000 where none is posted", |l| l.book.postings[0] = posting(0, 100_001, 0)),
    ("fallback above 100,000 where none is posted", |l| l.book.postings[15] = posting(0, 0, 100_001)),
];

fn posting(term: u64, price: u32, fallback: u32) -> Posting {
    Posting { term, price, fallback }
}

/// Whether a book has what the changes of `UNFIT` lay hands on: a day, two
/// trades or more, and a sheet left.
pub fn can_be_changed(Ledger { book, table, .. }: &Ledger) -> bool {
    book.day.is_some() && book.trades >= 2 && book.outstanding(table) > 0
}

/// What all cash together lacks to be one above 10^16.
fn one_above_all_cash(ledger: &Ledger) -> u64 {
    10_000_000_000_000_001 - ledger.book.all_cash()
}

fn today(ledger: &Ledger) -> u32 {
    ledger.book.day.expect("the book has a day")
}

/// The word of the calendar that today's bit stands in.
fn todays_word(ledger: &mut Ledger) -> &mut u32 {
    let place = today(ledger) as usize / 32;
    &mut ledger.calendar[place]
}

/// Of the busy ledger, which each of them leaves fit.
pub const STILL_FIT: [Change; 20] = [
    ("capacity 4,096", |l| l.table.resize(4_096, Trade::default())),
    ("no spare slot", |l| l.table.truncate(2)),
    ("10^12 units", |l| (l.book.holdings[9].effective, l.book.holdings[9].arriving) = (1, 999_999_999_999)),
    ("10^16 fen", |l| l.book.own = 10_000_000_000_000_000 - l.book.client - l.book.guarantee()),
    ("size 10^10", |l| l.book.size = 10_000_000_000),
    ("O at S", |l| l.book.size = 110),
    ("V below O", |l| l.book.rates[0] = 0),
    ("trade of 10^8", |l| (l.book.size, l.table[0].sheets) = (100_000_010, 100_000_000)),
    ("prices at 100,000", |l| (l.table[0].price, l.table[0].fallback) = (100_000, 100_000)),
    ("nets", |l| (l.book.todays_net, l.book.cleared_net) = (-4 * 10i64.pow(18), 4 * 10i64.pow(18))),
    ("cleared unpaid", |l| l.book.cleared_unpaid = 4 * 10u64.pow(18)),
    ("both unpaid", |l| (l.book.todays_unpaid, l.book.cleared_unpaid) = (10u64.pow(18), 3 * 10u64.pow(18))),
    ("runs", |l| (l.book.failed_run, l.book.short_run) = (2, 3)),
    ("due days of any sort", |l| (l.table[0].due, l.table[1].due) = (0, u32::MAX)),
    ("spare slots of any content", |l| {
        l.table[2] = Trade { contract: 7, sheets: u64::MAX, product: u64::MAX, ..l.table[0] }
    }),
    ("product of 16", |l| l.table[1].product = 16),
    ("postings at their limits", |l| l.book.postings = [posting(365, 100_000, 100_000); 16]),
    ("prices where none is posted", |l| l.book.postings = [posting(0, 100_000, 100_000); 16]),
    ("applications of 10^16 units", |l| {
        (l.book.applications, l.book.application_units) = (128, [10_000_000_000_000_000; 128])
    }),
    ("free applications of any content", |l| {
        (l.book.application_kinds[1], l.book.application_units[1]) = (255, u64::MAX)
    }),
];
