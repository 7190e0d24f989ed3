//! Journals that lead the book into deep states, one for each seed.
//!
//! A model book goes along while a journal is written, so that most events are
//! plausible. What a journal can reach: cash at its 10^16, each security at its
//! 10^12, size, rates, trades and prices at theirs, a table of 1,024 trades,
//! 128 applications. The nets and U cannot come near 4×10^18: O is at most 10^10
//! sheets, and even these, at 100,000 ticks over all 38,399 days, bring some
//! 1.06×10^16 fen, to which terms that start again add 10^14 of principal at each
//! Close. That is more than all the cash a book may hold, so a payment that nobody
//! can make is within reach.

pub mod calendars;
mod draft;
mod life;
mod noise;
pub mod random;

use calendars::{calendar, Sort};
use draft::Draft;
use life::Habits;
use random::Random;
use std::ops::Range;

use crate::book::Phase;
use crate::cases::ledger::Ledger;
use crate::event::EVENT_BYTES;
use crate::journal;
use crate::limits::TRADE_SHEETS;

#[derive(Clone, Copy, Debug, PartialEq, Eq)]
pub enum Profile {
    /// A firm that pays and keeps its pledges, for up to 1,500 events.
    Healthy,
    /// Failed payments and short closes, often mended the day after.
    Troubled,
    /// Trouble that is not mended: the firm is soon terminated.
    Doomed,
    /// Trades that begin again and again by themselves, for weeks, on evenings
    /// with room for some of them.
    Rolling,
    /// 1,024 trades on the table.
    FullTable,
    /// 128 applications in one day.
    ManyApplications,
    /// Cash, units, size, trades and prices at their limits, over decades.
    Limits,
    /// Few trading days, or a calendar that ends.
    ThinCalendar,
    /// No day to open, or only one.
    EmptyCalendar,
    /// Fields and phases drawn with little regard to the book.
    Careless,
    /// Cut short, too long, or with a count past its limit.
    Damaged,
}

impl Profile {
    pub const ALL: [Profile; 11] = [
        Profile::Healthy,
        Profile::Troubled,
        Profile::Doomed,
        Profile::Rolling,
        Profile::FullTable,
        Profile::ManyApplications,
        Profile::Limits,
        Profile::ThinCalendar,
        Profile::EmptyCalendar,
        Profile::Careless,
        Profile::Damaged,
    ];

    /// The profile of a seed: the cheap and telling ones more often.
    pub fn of(seed: u64) -> Profile {
        match seed % 22 {
            0 | 9 => Profile::Healthy,
            1 | 7 | 10 | 16 => Profile::Troubled,
            2 | 11 => Profile::Careless,
            3 | 12 => Profile::ThinCalendar,
            4 | 13 | 19 => Profile::Doomed,
            5 | 14 => Profile::Damaged,
            6 | 15 => Profile::Limits,
            8 => Profile::ManyApplications,
            17 => Profile::EmptyCalendar,
            20 | 21 => Profile::Rolling,
            _ => Profile::FullTable,
        }
    }

    fn calendar_sort(self, random: &mut Random) -> Sort {
        match self {
            Profile::FullTable | Profile::ManyApplications => {
                random.pick(&[Sort::Weekdays, Sort::Everyday])
            }
            Profile::Limits => {
                random.pick(&[Sort::Scattered, Sort::Scattered, Sort::Sparse, Sort::Weekdays])
            }
            Profile::ThinCalendar => random.pick(&[Sort::Sparse, Sort::Scattered, Sort::Short]),
            Profile::EmptyCalendar => Sort::Empty,
            _ => random.pick(&[Sort::Weekdays, Sort::Weekdays, Sort::Everyday, Sort::Sparse]),
        }
    }

    fn habits(self, random: &mut Random) -> Habits {
        let usual = Habits { events: random.between(60, 400) as usize, ..Habits::USUAL };
        match self {
            Profile::Healthy => Habits {
                events: random.pick(&[300, 700, 1_500]),
                drained: 2,
                shrunk: 2,
                mending: 95,
                ..usual
            },
            Profile::Troubled => Habits { drained: 35, shrunk: 35, mending: 75, ..usual },
            Profile::Doomed => {
                let (drained, shrunk, mending) = random.pick(&[(70, 5, 15), (0, 90, 5)]);
                Habits { events: random.between(60, 200) as usize, drained, shrunk, mending, ..usual }
            }
            Profile::Rolling => Habits {
                events: random.between(200, 700) as usize,
                day_length: 4,
                posting: 85,
                rolling: 85,
                tight: 30,
                drained: 6,
                shrunk: 6,
                ..usual
            },
            Profile::Limits => Habits {
                events: random.between(150, 500) as usize,
                largest_trade: u64::MAX,
                rich: true,
                bold: 15,
                ..usual
            },
            Profile::Careless => Habits { slips: 40, noise: 15, bold: 35, ..usual },
            Profile::EmptyCalendar => Habits { events: random.below(40) as usize, slips: 60, ..usual },
            Profile::Damaged => Habits { events: random.below(20) as usize, ..usual },
            Profile::ThinCalendar => Habits { posting: 60, rolling: 70, ..usual },
            Profile::FullTable | Profile::ManyApplications => usual,
        }
    }
}

/// Journals, each with a name to find it by: one for each seed, and then some
/// of each profile.
pub fn corpus(seeds: Range<u64>) -> impl Iterator<Item = (String, Vec<u8>)> {
    let some = seeds.start..seeds.start + 40;
    let mixed = seeds.map(|seed| (format!("seed {seed}"), generate(seed)));
    let by_profile = Profile::ALL.into_iter().flat_map(move |profile| {
        some.clone().map(move |seed| (format!("{profile:?} {seed}"), generate_as(profile, seed)))
    });
    mixed.chain(by_profile)
}

/// The journal of a seed, as bytes.
pub fn generate(seed: u64) -> Vec<u8> {
    generate_as(Profile::of(seed), seed)
}

pub fn generate_as(profile: Profile, seed: u64) -> Vec<u8> {
    let mut random = Random::new(seed);
    let sort = profile.calendar_sort(&mut random);
    let calendar = calendar(&mut random, sort);
    let habits = profile.habits(&mut random);
    let mut draft = Draft::new(random, calendar);
    life::set_up(&mut draft, &habits);
    match profile {
        Profile::FullTable => life::fill_table(&mut draft),
        Profile::Limits if draft.random.percent(50) => life::fill_size(&mut draft),
        Profile::ManyApplications => life::fill_applications(&mut draft),
        _ => {}
    }
    life::live(&mut draft, &habits);
    if matches!(profile, Profile::EmptyCalendar | Profile::Damaged) {
        // Down to journals without any event.
        draft.events.truncate(habits.events);
    }
    match profile {
        Profile::Damaged => noise::damaged(&mut draft.random, &draft.calendar, &draft.events),
        _ => journal::write(&draft.calendar, &draft.events),
    }
}

/// An event for a fit book: mostly of the phase it is in, its fields often at
/// or past a limit, now and then bytes that cannot be decoded.
pub fn event_for(random: &mut Random, ledger: &Ledger) -> [u8; EVENT_BYTES] {
    let mut draft = Draft::on(Random::new(random.any()), ledger.clone());
    (draft.bold, draft.largest_trade) = (random.pick(&[5, 40]), TRADE_SHEETS);
    if random.percent(3) {
        return noise::undecodable(&mut draft);
    }
    let codes: &[u8] = match ledger.book.phase {
        _ if random.percent(15) => &[1, 2, 3, 4, 5, 6, 7, 8, 9, 10, 11, 12, 13],
        Phase::Closed => &[1, 1, 1, 2, 3, 4, 5, 7],
        Phase::Trading => &[2, 3, 4, 5, 6, 6, 7, 8, 8, 9, 9, 9, 9, 10, 10, 10, 11, 11, 12, 13, 13],
        Phase::Paid => &[2, 4, 7, 12, 12, 12],
    };
    let code = random.pick(codes);
    draft.draw(code).encode()
}
