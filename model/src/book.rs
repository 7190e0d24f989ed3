//! The book, the records of its lent table, and what makes them fit.

use crate::limits::{
    APPLICATIONS, APPLICATION_UNITS, CALENDAR_WORDS, CAPACITY, CASH, DAYS_AHEAD, FAILED_PAYMENTS, NET,
    PRICE, PRODUCTS, RATE, SECURITY_UNITS, SHORT_CLOSES, SIZE, TRADE_SHEETS, UNPAID,
};
use crate::money::{next_after, redemption_amount, sheets_worth, trades, CASH_KIND, KINDS};

#[derive(Clone, Copy, Debug, Default, PartialEq, Eq)]
pub enum Phase {
    #[default]
    Closed,
    Trading,
    Paid,
}

#[derive(Clone, Copy, Debug, Default, PartialEq, Eq)]
pub enum Status {
    #[default]
    Normal,
    Suspended,
    Terminated,
}

/// One record of the table. `due` is kept as given, holiday or not.
#[derive(Clone, Copy, Debug, Default, PartialEq, Eq)]
pub struct Trade {
    pub contract: u64,
    /// Sheets left; a trade redeemed whole stands with 0 until the Close.
    pub sheets: u64,
    pub price: u32,
    pub fallback: u32,
    pub first_payment: u32,
    pub due: u32,
    /// "0, or the product number plus 1".
    pub product: u64,
}

impl Trade {
    /// What `sheets` of this trade bring at `price` if redeemed for `payment_day`.
    pub(crate) fn redeem(&self, sheets: u64, price: u32, payment_day: u32) -> u64 {
        let days = payment_day - self.first_payment;
        redemption_amount(sheets, price.into(), days.into())
    }
}

/// What is posted of a product today: a term of 0 days is none posted.
#[derive(Clone, Copy, Debug, Default, PartialEq, Eq)]
pub struct Posting {
    pub term: u64,
    pub price: u32,
    pub fallback: u32,
}

/// The units of one kind.
#[derive(Clone, Copy, Debug, Default, PartialEq, Eq)]
pub struct Holding {
    pub effective: u64,
    pub arriving: u64,
    pub frozen: u64,
}

#[derive(Clone, Debug, PartialEq, Eq)]
pub struct Book {
    pub day: Option<u32>,
    pub phase: Phase,
    pub status: Status,
    pub own: u64,
    pub client: u64,
    /// S, the declared size in sheets.
    pub size: u64,
    pub holdings: [Holding; KINDS],
    /// Rates of the securities; that of cash is fixed and "isn't kept in it".
    pub rates: [u64; CASH_KIND],
    /// Redemptions counted plus and initial trades minus.
    pub todays_net: i64,
    pub cleared_net: i64,
    /// U, "the gross redemption amounts not yet paid, in a cleared part and a
    /// part of today".
    pub todays_unpaid: u64,
    pub cleared_unpaid: u64,
    pub failed_run: u8,
    pub short_run: u8,
    pub postings: [Posting; PRODUCTS],
    /// Slots of the lent table in use; the others are spare.
    pub trades: usize,
    /// Applications that stand; slots past them are free content.
    pub applications: usize,
    pub application_kinds: [u8; APPLICATIONS],
    pub application_units: [u64; APPLICATIONS],
}

impl Book {
    /// "A fresh book is Closed and normal, all numbers 0 [...], table and
    /// applications empty."
    pub fn fresh() -> Book {
        Book {
            day: None,
            phase: Phase::Closed,
            status: Status::Normal,
            own: 0,
            client: 0,
            size: 0,
            holdings: [Holding::default(); KINDS],
            rates: [0; CASH_KIND],
            todays_net: 0,
            cleared_net: 0,
            todays_unpaid: 0,
            cleared_unpaid: 0,
            failed_run: 0,
            short_run: 0,
            postings: [Posting::default(); PRODUCTS],
            trades: 0,
            applications: 0,
            application_kinds: [0; APPLICATIONS],
            application_units: [0; APPLICATIONS],
        }
    }

    /// O, the sheets left on the table.
    pub fn outstanding(&self, table: &[Trade]) -> u64 {
        table[..self.trades].iter().map(|trade| trade.sheets).sum()
    }

    /// V, the sum of the values of all 33 kinds, each rounded down by itself.
    pub fn value(&self) -> u64 {
        (0..KINDS).map(|kind| self.value_of(kind)).sum()
    }

    pub(crate) fn value_of(&self, kind: usize) -> u64 {
        sheets_worth(self.unfrozen(kind), self.rate_of(kind))
    }

    pub(crate) fn rate_of(&self, kind: usize) -> u64 {
        if kind == CASH_KIND {
            1
        } else {
            self.rates[kind]
        }
    }

    pub(crate) fn unfrozen(&self, kind: usize) -> u64 {
        self.holdings[kind].effective - self.holdings[kind].frozen
    }

    /// "Headroom is the smaller of S and V, less O; it may be negative."
    pub fn headroom(&self, table: &[Trade]) -> i64 {
        self.headroom_over(self.outstanding(table))
    }

    pub fn headroom_over(&self, outstanding: u64) -> i64 {
        self.size.min(self.value()) as i64 - outstanding as i64
    }

    /// U, both parts of it; within the type where the book is fit.
    pub fn unpaid(&self) -> u64 {
        self.todays_unpaid + self.cleared_unpaid
    }

    /// "arriving becomes effective"
    pub(crate) fn settle_arrivals(&mut self) {
        for held in &mut self.holdings {
            held.effective += held.arriving;
            held.arriving = 0;
        }
    }

    /// Guarantee cash, effective and arriving.
    pub fn guarantee(&self) -> u64 {
        self.holdings[CASH_KIND].effective + self.holdings[CASH_KIND].arriving
    }

    /// Own, client and guarantee cash together.
    pub fn all_cash(&self) -> u64 {
        self.own + self.client + self.guarantee()
    }

    /// Units of `kind` in the applications that stand.
    pub fn applied(&self, kind: usize) -> u64 {
        self.standing_applications().filter(|&(applied, _)| applied == kind).map(|(_, units)| units).sum()
    }

    pub(crate) fn standing_applications(&self) -> impl Iterator<Item = (usize, u64)> + '_ {
        let kinds = self.application_kinds.iter().map(|&kind| usize::from(kind));
        let units = self.application_units.iter().copied();
        kinds.zip(units).take(self.applications)
    }

    /// What is posted today of a trade's product; nothing where it has none.
    pub(crate) fn posted(&self, product: u64) -> Option<Posting> {
        let number = product.checked_sub(1)? as usize;
        self.postings.get(number).copied().filter(|posting| posting.term > 0)
    }

    /// Where `contract` stands on the table; spare slots are never searched.
    pub fn find(&self, table: &[Trade], contract: u64) -> Option<usize> {
        table[..self.trades].iter().position(|trade| trade.contract == contract)
    }
}

/// Fitness. Nothing here trusts the book: sums are taken only where they
/// cannot overflow.
impl Book {
    /// "A book is fit if all this holds [...]". A calendar above 1,200 words
    /// is refused with the same number.
    pub fn is_fit(&self, calendar: &[u32], table: &[Trade]) -> bool {
        calendar.len() <= CALENDAR_WORDS
            && table.len() <= CAPACITY
            && self.trades <= table.len()
            && self.holdings_are_fit()
            && self.cash_is_fit()
            && self.nets_and_runs_are_fit()
            && within(self.todays_unpaid, self.cleared_unpaid, UNPAID)
            && self.postings_are_fit()
            && self.applications_are_fit()
            && self.trades_are_fit(&table[..self.trades])
            && self.day_is_fit(calendar, &table[..self.trades])
    }

    fn holdings_are_fit(&self) -> bool {
        let securities = &self.holdings[..CASH_KIND];
        self.holdings.iter().all(|held| held.frozen <= held.effective)
            && securities.iter().all(|held| within(held.effective, held.arriving, SECURITY_UNITS))
            && self.rates.iter().all(|&rate| rate <= RATE)
    }

    fn cash_is_fit(&self) -> bool {
        let guarantee = &self.holdings[CASH_KIND];
        let fen = [self.own, self.client, guarantee.effective, guarantee.arriving];
        fen.into_iter().map(u128::from).sum::<u128>() <= CASH.into()
    }

    fn nets_and_runs_are_fit(&self) -> bool {
        (-NET..=NET).contains(&self.todays_net)
            && (-NET..=NET).contains(&self.cleared_net)
            && self.failed_run <= FAILED_PAYMENTS
            && self.short_run <= SHORT_CLOSES
    }

    /// "A book with a product or posting out of range is unfit." Prices have
    /// their range where nothing is posted, too.
    fn postings_are_fit(&self) -> bool {
        self.postings.iter().all(|&Posting { term, price, fallback }| {
            term <= DAYS_AHEAD.into() && u64::from(price) <= PRICE && u64::from(fallback) <= PRICE
        })
    }

    fn applications_are_fit(&self) -> bool {
        self.applications <= APPLICATIONS
            && self
                .standing_applications()
                .all(|(kind, units)| kind <= CASH_KIND && units <= APPLICATION_UNITS)
    }

    fn trades_are_fit(&self, trades: &[Trade]) -> bool {
        let within_limits = |trade: &Trade| {
            trade.sheets <= TRADE_SHEETS
                && u64::from(trade.price) <= PRICE
                && u64::from(trade.fallback) <= PRICE
                && trade.product <= PRODUCTS as u64
        };
        self.size <= SIZE
            && trades.iter().all(within_limits)
            && trades.iter().map(|trade| trade.sheets).sum::<u64>() <= self.size
            && contracts_differ(trades)
    }

    /// "the day, if there is one, trades and another follows, no first payment
    /// day is past today's payment day, and a book with no day is Closed with
    /// an empty table."
    fn day_is_fit(&self, calendar: &[u32], in_use: &[Trade]) -> bool {
        let Some(day) = self.day else {
            return self.phase == Phase::Closed && in_use.is_empty();
        };
        let Some(payment_day) = next_after(calendar, day) else {
            return false;
        };
        trades(calendar, day) && in_use.iter().all(|trade| trade.first_payment <= payment_day)
    }
}

/// Whether both together are within the limit.
fn within(number: u64, more: u64, limit: u64) -> bool {
    number <= limit && more <= limit - number
}

fn contracts_differ(trades: &[Trade]) -> bool {
    let mut contracts: Vec<u64> = trades.iter().map(|trade| trade.contract).collect();
    contracts.sort_unstable();
    contracts.windows(2).all(|pair| pair[0] != pair[1])
}
