//! What the generated journals reach.

use std::collections::{BTreeMap, HashMap, HashSet};

use model::answer::Answer;
use model::book::{Phase, Status, Trade};
use model::cases::ledger::{Ledger, Step};
use model::coverage::evenings::Evenings;
use model::coverage::terms::NextTerms;
use model::coverage::{allowed, Coverage, OUT_OF_REACH};
use model::event::Event;
use model::generator::{self, Profile};
use model::limits::JOURNAL_CAPACITY;
use model::{journal, money, step};

#[test]
fn two_thousand_journals_meet_every_allowed_pair() {
    let (mut coverage, mut evenings, mut done) = (Coverage::default(), Evenings::default(), 0);
    let mut next_terms = NextTerms::default();
    for seed in 0..2_000 {
        let bytes = generator::generate(seed);
        let Ok(journal) = journal::parse(&bytes) else { continue };
        let mut ledger = Ledger::fresh(&journal.calendar);
        ledger.run(journal.events, |Step { event, answer, before, trades, after, table }| {
            coverage.record(event, answer.number);
            evenings.record(before, after, table);
            next_terms.record(&journal.calendar, before, trades, event, answer.number);
            done += if after.unpaid() > 0 { u64::from(answer.done) } else { 0 };
        });
    }
    assert_eq!(coverage.missing(), []);
    assert_eq!(coverage.unexpected(), []);
    let rare: Vec<_> = allowed().filter(|&(code, number)| coverage.count(code, number) < 50).collect();
    assert_eq!(rare, [], "met, but seldom\n{coverage}");
    assert!(evenings.rarer_than(50).is_empty(), "{evenings}");
    assert!(next_terms.rarer_than(50).is_empty(), "{next_terms}");
    assert_eq!(evenings.done, done, "applications done by their answers");
}

#[test]
fn no_pair_is_both_allowed_and_out_of_reach() {
    for (codes, number, reason) in OUT_OF_REACH {
        assert!(codes.iter().all(|&code| !allowed().any(|pair| pair == (code, number))), "{reason}");
    }
}

#[test]
fn a_seed_names_a_journal() {
    for seed in 0..40 {
        assert_eq!(generator::generate(seed), generator::generate(seed));
    }
}

#[test]
fn damaged_journals_are_refused_and_no_others() {
    for profile in Profile::ALL {
        for seed in 0..60 {
            let refused = journal::listing(&generator::generate_as(profile, seed)) == "journal refused\n";
            assert_eq!(refused, profile == Profile::Damaged, "{profile:?}, seed {seed}");
        }
    }
}

/// States that are worth meeting, and how often they were.
type Sightings = BTreeMap<&'static str, u32>;

const DEEP_STATES: [&str; 34] = [
    "application done",
    "application dropped: failed run",
    "application dropped: frozen",
    "application dropped: value",
    "applications at 128",
    "cash at 10^16",
    "cash withdrawn",
    "contract number reused",
    "early in part",
    "early whole",
    "failed payment made good",
    "five next terms in a row",
    "full table",
    "initial at the whole headroom",
    "maturity on a holiday",
    "maturity years late",
    "net above all cash",
    "next term due on a holiday",
    "next term of no multiple of 10",
    "outstanding at 10^10",
    "pay of a negative net",
    "pay of a positive net",
    "pay of nothing",
    "posted while suspended",
    "posting replaced",
    "recovered from suspension",
    "security at 10^12",
    "second failure in a row",
    "short close",
    "start past a failed payment",
    "table emptied after being full",
    "terminated by failed payments with trades",
    "terminated by short closes with trades",
    "trade of 10^8 sheets",
];

#[test]
fn deep_states_are_met() {
    let mut sightings = Sightings::new();
    for seed in 0..600 {
        let bytes = generator::generate(seed);
        let Ok(journal) = journal::parse(&bytes) else { continue };
        let mut ledger = Ledger::fresh(&journal.calendar);
        let (mut contracts, mut rolls) = (HashSet::new(), Rolls::new());
        for bytes in journal.events {
            let before = ledger.clone();
            let answer = step::step(&ledger.calendar, &mut ledger.book, &mut ledger.table, bytes);
            let Ok(event) = Event::decode(bytes) else { continue };
            if !answer.is_accepted() {
                continue;
            }
            let mut see =
                |state: &'static str, seen: bool| *sightings.entry(state).or_default() += u32::from(seen);
            if let Event::Initial(terms) = event {
                see("contract number reused", !contracts.insert(terms.contract));
            }
            match event {
                Event::Open => look_at_open(&mut see, &before, &ledger),
                Event::Pay => look_at_pay(&mut see, &before, answer),
                Event::Close => {
                    look_at_close(&mut see, &before, &ledger, answer);
                    look_at_next_terms(&mut see, &mut rolls, &before, &ledger);
                }
                _ => look_at_trading(&mut see, &before, &ledger, event),
            }
        }
    }
    let rare: Vec<_> = DEEP_STATES.iter().filter(|&state| sightings.get(state) < Some(&5)).collect();
    assert!(rare.is_empty(), "{rare:?} of {sightings:#?}");
    assert!(sightings.keys().all(|state| DEEP_STATES.contains(state)), "{sightings:#?}");
}

type See<'a> = dyn FnMut(&'static str, bool) + 'a;

fn look_at_open(see: &mut See, before: &Ledger, after: &Ledger) {
    let turned = after.book.status == Status::Terminated && before.book.status != Status::Terminated;
    let trades = before.book.trades > 0;
    see("terminated by failed payments with trades", turned && trades && before.book.failed_run == 2);
    see("terminated by short closes with trades", turned && trades && before.book.short_run == 3);
    let recovered = before.book.status == Status::Suspended && after.book.status == Status::Normal;
    see("recovered from suspension", recovered);
}

fn look_at_pay(see: &mut See, before: &Ledger, answer: Answer) {
    let (net, paid) = (before.book.cleared_net, answer.number == 0);
    see("pay of nothing", net == 0);
    see("pay of a positive net", paid && net > 0);
    see("pay of a negative net", paid && net < 0);
    see("failed payment made good", paid && before.book.failed_run > 0 && net != 0);
    see("second failure in a row", !paid && before.book.failed_run == 1);
    see("net above all cash", net > 10_000_000_000_000_000);
}

fn look_at_close(see: &mut See, before: &Ledger, after: &Ledger, answer: Answer) {
    let book = &before.book;
    let suffices = |kind: usize| {
        let held = book.holdings[kind];
        book.applied(kind) <= held.effective + held.arriving - held.frozen
    };
    let (dropped, failed) = (answer.dropped > 0, book.failed_run > 0);
    see("applications at 128", book.applications == 128);
    see("application done", answer.done > 0);
    see("application dropped: failed run", dropped && failed);
    see("application dropped: frozen", dropped && !failed && !(0..33).all(suffices));
    see("application dropped: value", dropped && !failed && (0..33).all(suffices));
    see("cash withdrawn", after.book.own > book.own);
    see("short close", after.book.short_run > 0);
    see(
        "table emptied after being full",
        book.trades == JOURNAL_CAPACITY && after.book.trades < JOURNAL_CAPACITY,
    );
    let today = book.day.unwrap_or_default();
    let matured =
        || before.table[..book.trades].iter().filter(|trade| trade.sheets > 0 && trade.due <= today);
    see("maturity on a holiday", matured().any(|trade| !money::trades(&before.calendar, trade.due)));
    see("maturity years late", matured().any(|trade| today - trade.due > 3_650));
    assert!(after.book.phase == Phase::Closed);
}

/// How often in a row each contract has begun a next term.
type Rolls = HashMap<u64, u32>;

fn look_at_next_terms(see: &mut See, rolls: &mut Rolls, before: &Ledger, after: &Ledger) {
    let mut begun_anew = Vec::new();
    for trade in &before.table[..before.book.trades] {
        let place = after.book.find(&after.table, trade.contract);
        match place.map(|place| after.table[place]) {
            Some(left) if Some(trade.due) <= before.book.day => begun_anew.push(left),
            Some(_) => {}
            None => drop(rolls.remove(&trade.contract)),
        }
    }
    begun_anew.iter().for_each(|trade| *rolls.entry(trade.contract).or_default() += 1);
    let any = |test: &dyn Fn(&Trade) -> bool| begun_anew.iter().any(test);
    see("five next terms in a row", any(&|trade| rolls[&trade.contract] >= 5));
    see("next term due on a holiday", any(&|trade| !money::trades(&after.calendar, trade.due)));
    see("next term of no multiple of 10", any(&|trade| trade.sheets % 10 != 0));
    see("start past a failed payment", before.book.failed_run > 0 && !begun_anew.is_empty());
}

fn look_at_trading(see: &mut See, before: &Ledger, after: &Ledger, event: Event) {
    let left = |contract| before.table[before.book.find(&before.table, contract).unwrap()].sheets;
    match event {
        Event::Early { contract, sheets, .. } => {
            see("early whole", sheets == left(contract));
            see("early in part", sheets < left(contract));
        }
        Event::Initial(terms) => {
            see("initial at the whole headroom", after.headroom() == 0);
            see("trade of 10^8 sheets", terms.sheets == 100_000_000);
            see("outstanding at 10^10", after.book.outstanding(&after.table) == 10_000_000_000);
            see("full table", after.book.trades == JOURNAL_CAPACITY);
        }
        Event::Post { product, .. } => {
            see("posted while suspended", before.book.status == Status::Suspended);
            see("posting replaced", before.book.postings[usize::from(product)].term > 0);
        }
        Event::FundIn { .. } => see("cash at 10^16", after.book.all_cash() == 10_000_000_000_000_000),
        Event::Pledge { kind, .. } if kind < 32 => {
            let held = after.book.holdings[usize::from(kind)];
            see("security at 10^12", held.effective + held.arriving == 1_000_000_000_000);
        }
        _ => {}
    }
}
