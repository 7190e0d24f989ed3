//! The paper's table of turned-down events, row by row and in no order: an
//! event's answer is the first number that applies, and a refused event leaves
//! everything untouched.

use model::book::{Book, Phase, Status, Trade};
use model::cases::drawn::drawn;
use model::cases::ledger::Ledger;
use model::event::{Account, Event, Terms};
use model::generator::event_for;
use model::generator::random::Random;
use model::money::{earliest_trading_day, next_trading_day, redemption, trading_day_at_or_after};
use model::{generator, journal};

/// 20 is "placed after 3"; else the smallest comes first.
const ORDER: [u32; 16] = [3, 20, 4, 5, 6, 7, 8, 9, 10, 11, 12, 13, 14, 15, 16, 17];
const NET: i128 = 4_000_000_000_000_000_000;

/// A row's number if it applies.
fn row(number: u32, applies: bool) -> Option<u32> {
    applies.then_some(number)
}

/// The first cause; where there is none, 99 for a Pay with "the payer
/// holding less than |N|", else 0.
fn expected_number(ledger: &Ledger, event: Event) -> u32 {
    let Book { cleared_net, own, client, .. } = ledger.book;
    let payer_holds = if cleared_net < 0 { client } else { own };
    let unpaid = event == Event::Pay && payer_holds < cleared_net.unsigned_abs();
    let causes = all_causes(ledger, event);
    let first = ORDER.into_iter().find(|number| causes.contains(number));
    first.unwrap_or(if unpaid { 99 } else { 0 })
}

fn all_causes(ledger: &Ledger, event: Event) -> Vec<u32> {
    let book = &ledger.book;
    let code = event.encode()[0];
    let kind = match event {
        Event::Rate { kind, .. }
        | Event::Pledge { kind, .. }
        | Event::Freeze { kind, .. }
        | Event::Withdraw { kind, .. } => Some(kind),
        _ => None,
    };
    let terminated = book.status == Status::Terminated;
    let right_phase = match code {
        1 => book.phase == Phase::Closed,
        6 | 8..=11 | 13 => book.phase == Phase::Trading,
        12 => book.phase == Phase::Paid || book.phase == Phase::Trading && terminated,
        _ => true,
    };
    let amount = u64::from_le_bytes(event.encode()[8..16].try_into().unwrap());
    let prices = event.encode()[24..32].as_chunks().0.iter().map(|&price| u32::from_le_bytes(price)).max();
    let no_amount = amount == 0 && matches!(code, 2 | 3 | 6 | 8 | 9 | 10);
    let mut rows = vec![
        row(3, kind > Some(32) || code == 5 && kind == Some(32)),
        row(4, !right_phase),
        row(5, terminated && matches!(code, 8..=11 | 13)),
        row(6, book.status == Status::Suspended && code == 9),
        row(7, no_amount || code == 9 && (amount % 10 != 0 || amount > 100_000_000)),
        row(8, prices > Some(100_000)),
    ];
    rows.extend(match event {
        Event::Open => open_rows(ledger),
        Event::Initial(terms) => initial_rows(ledger, terms),
        Event::Early { contract, sheets, price } => early_rows(ledger, contract, sheets, price),
        Event::Close => close_rows(ledger),
        Event::Post { product, term, .. } => {
            vec![row(20, product > 15), row(9, !(1..=365).contains(&term))]
        }
        _ => amount_rows(ledger, event),
    });
    rows.into_iter().flatten().collect()
}

/// Rows 13, 14, 15 and 17 of the events that look at a single amount.
fn amount_rows(ledger: &Ledger, event: Event) -> Vec<Option<u32>> {
    let book = &ledger.book;
    let wide = u128::from;
    let held = |kind: u8| book.holdings.get(usize::from(kind)).copied().unwrap_or_default();
    match event {
        Event::FundIn { fen, .. } => vec![row(14, wide(book.all_cash()) + wide(fen) > 10u128.pow(16))],
        Event::FundOut { account: Account::Own, fen } => vec![row(13, fen > book.own)],
        Event::FundOut { account: Account::Client, fen } => vec![row(13, fen > book.client)],
        Event::Size { sheets } => {
            vec![row(14, sheets > 10_000_000_000), row(15, sheets < book.outstanding(&ledger.table))]
        }
        Event::Rate { rate, .. } => vec![row(14, rate > 20_000)],
        Event::Pledge { kind: 32, units } => vec![row(13, units > book.own)],
        Event::Pledge { kind, units } => {
            let together = wide(held(kind).effective) + wide(held(kind).arriving) + wide(units);
            vec![row(14, together > 10u128.pow(12))]
        }
        Event::Freeze { kind, units } => vec![row(13, units > held(kind).effective)],
        Event::Withdraw { kind, units } => {
            let applied = book.applied(kind.into());
            let together = wide(units) + wide(held(kind).frozen) + wide(applied);
            vec![row(13, together > wide(held(kind).effective)), row(17, book.applications == 128)]
        }
        _ => vec![],
    }
}

fn in_use<'a>(book: &Book, table: &'a [Trade]) -> &'a [Trade] {
    &table[..book.trades]
}

/// What sheets of a trade bring on `day`.
fn amount(ledger: &Ledger, day: u32, trade: &Trade, sheets: u64, price: u32) -> i128 {
    let (_, payment_day) = next_trading_day(&ledger.calendar, day);
    redemption(sheets, price.into(), (payment_day - trade.first_payment).into()).1.into()
}

/// U before the event.
fn unpaid(book: &Book) -> i128 {
    i128::from(book.todays_unpaid) + i128::from(book.cleared_unpaid)
}

fn open_rows(ledger: &Ledger) -> Vec<Option<u32>> {
    let book = &ledger.book;
    let (number, day) = match book.day {
        Some(day) => next_trading_day(&ledger.calendar, day),
        None => earliest_trading_day(&ledger.calendar),
    };
    if number == 16 || next_trading_day(&ledger.calendar, day).0 == 16 {
        return vec![Some(16)];
    }
    let turns = book.status != Status::Terminated && (book.failed_run == 2 || book.short_run == 3);
    let trades = in_use(book, &ledger.table).iter().filter(|_| turns);
    let redeemed: i128 = trades.map(|trade| amount(ledger, day, trade, trade.sheets, trade.fallback)).sum();
    vec![row(14, i128::from(book.cleared_net) + redeemed > NET || unpaid(book) + redeemed > NET)]
}

fn initial_rows(ledger: &Ledger, terms: Terms) -> Vec<Option<u32>> {
    let Ledger { calendar, book, table } = ledger;
    let ahead = i64::from(terms.due) - i64::from(book.day.unwrap_or(0));
    let (number, maturity) = trading_day_at_or_after(calendar, terms.due);
    let unpayable = number == 16 || next_trading_day(calendar, maturity).0 == 16;
    let on_table = in_use(book, table).iter().any(|trade| trade.contract == terms.contract);
    let sheets = i128::from(terms.sheets);
    let posted = match terms.product {
        0 => true,
        1..=16 => book.postings[usize::from(terms.product) - 1].term > 0,
        _ => false,
    };
    vec![
        row(20, !posted),
        row(9, !(1..=365).contains(&ahead) || unpayable),
        row(10, on_table),
        row(11, book.trades == table.len()),
        row(12, sheets > book.headroom(table).into()),
        row(14, i128::from(book.todays_net) - 10_000 * sheets < -NET),
    ]
}

fn early_rows(ledger: &Ledger, contract: u64, sheets: u64, price: u32) -> Vec<Option<u32>> {
    let (book, today) = (&ledger.book, ledger.book.day.unwrap_or(0));
    let Some(trade) = in_use(book, &ledger.table).iter().find(|trade| trade.contract == contract) else {
        return vec![Some(10)];
    };
    let amount = amount(ledger, today, trade, sheets, price);
    let passed = i128::from(book.todays_net) + amount > NET || unpaid(book) + amount > NET;
    vec![row(9, today >= trade.due), row(13, sheets > trade.sheets), row(14, passed)]
}

fn close_rows(ledger: &Ledger) -> Vec<Option<u32>> {
    let book = &ledger.book;
    let Some(today) = book.day else { return vec![] };
    let due = in_use(book, &ledger.table).iter().filter(|trade| trade.due <= today);
    let amounts: i128 = due.map(|trade| amount(ledger, today, trade, trade.sheets, trade.price)).sum();
    let todays = i128::from(book.todays_net) + amounts - 10_000 * started_sheets(ledger, today);
    let cleared = i128::from(book.cleared_net) + todays;
    vec![row(14, todays.abs() > NET || cleared.abs() > NET || unpaid(book) + amounts > NET)]
}

/// The sheets of the terms that a Close starts by itself.
fn started_sheets(ledger: &Ledger, today: u32) -> i128 {
    let Ledger { calendar, book, table } = ledger;
    let trades = in_use(book, table);
    let stays = trades.iter().filter(|trade| trade.due > today).map(|trade| i128::from(trade.sheets));
    let (outstanding, most) = (stays.sum::<i128>(), i128::from(book.size.min(book.value())));
    let mut started = 0;
    for trade in trades.iter().filter(|trade| trade.due <= today && trade.product > 0) {
        let term = book.postings[trade.product as usize - 1].term as u32;
        let (number, maturity) = trading_day_at_or_after(calendar, today + term);
        let payable = number == 0 && next_trading_day(calendar, maturity).0 == 0;
        let fits = outstanding + started + i128::from(trade.sheets) <= most;
        if book.status == Status::Normal && term > 0 && payable && fits {
            started += i128::from(trade.sheets);
        }
    }
    started
}

/// Books that no journal leads to: the limits of the nets and of U among them.
#[test]
fn the_first_cause_answers_on_drawn_books() {
    for seed in 0..20_000 {
        let mut random = Random::new(seed);
        let mut ledger = drawn(&mut random);
        let bytes = event_for(&mut random, &ledger);
        let number = Event::decode(&bytes).map_or(2, |event| expected_number(&ledger, event));
        assert_eq!(ledger.does_bytes(&bytes).number, number, "seed {seed}");
    }
}

#[test]
fn the_first_cause_answers_and_refusals_leave_everything_untouched() {
    for seed in 0..300 {
        let bytes = generator::generate(seed);
        let Ok(journal) = journal::parse(&bytes) else { continue };
        let mut ledger = Ledger::fresh(&journal.calendar);
        for bytes in journal.events {
            let before = ledger.clone();
            let answer = ledger.does_bytes(bytes);
            let number = Event::decode(bytes).map_or(2, |event| expected_number(&before, event));
            assert_eq!(answer.number, number, "seed {seed}");
            assert!(answer.is_accepted() || ledger == before, "seed {seed}");
            assert!(ledger.is_fit(), "seed {seed}");
            let closes = bytes[0] == 12 && answer.number == 0;
            assert!(closes || (answer.matured, answer.done, answer.dropped) == (0, 0, 0));
        }
    }
}
