//! The tally of demand 3: a second account of the same list, "told only the
//! calendar, the events, their answers' numbers and, at an Open, the status";
//! and at a Close "which ones started, with their records".

use crate::book::{Status, Trade};
use crate::event::{Event, Terms};
use crate::money::{first_from, initial_amount, next_after};

/// "It has a day and rows, none at first, and six sums from 0".
#[derive(Clone, Debug, Default, PartialEq, Eq)]
pub struct Tally {
    pub day: Option<u32>,
    pub rows: Vec<Trade>,
    pub funds: i128,
    pub begun: i128,
    pub redeemed: i128,
    pub running: i128,
    pub cleared: i128,
    pub paid: i128,
}

impl Tally {
    /// "Only answer 0 changes it." `status` is looked at for an Open alone, the
    /// records of `started` terms for a Close.
    pub fn record(
        &mut self,
        calendar: &[u32],
        event: Event,
        number: u32,
        status: Status,
        started: &[Trade],
    ) {
        if number != 0 {
            return;
        }
        match event {
            Event::FundIn { fen, .. } => self.funds += i128::from(fen),
            Event::FundOut { fen, .. } => self.funds -= i128::from(fen),
            Event::Open => self.open(calendar, status),
            Event::Initial(terms) => self.begin(calendar, terms),
            Event::Early { contract, sheets, price } => {
                let amount =
                    self.take(calendar, |row| (row.contract == contract).then_some((sheets, price)));
                self.running += amount;
            }
            Event::Pay => self.paid = self.cleared,
            Event::Close => self.close(calendar, started),
            Event::Size { .. }
            | Event::Rate { .. }
            | Event::Pledge { .. }
            | Event::Freeze { .. }
            | Event::Withdraw { .. }
            | Event::Post { .. } => {}
        }
        self.rows.retain(|row| row.sheets > 0);
    }

    fn open(&mut self, calendar: &[u32], status: Status) {
        self.day = match self.day {
            Some(day) => next_after(calendar, day),
            None => first_from(calendar, 0),
        };
        if status == Status::Terminated {
            self.cleared += self.take(calendar, |row| Some((row.sheets, row.fallback)));
        }
    }

    fn begin(&mut self, calendar: &[u32], terms: Terms) {
        let Terms { contract, sheets, price, fallback, due, .. } = terms;
        let product = u64::from(terms.product);
        let first_payment = self.payment_day(calendar);
        self.rows.push(Trade { contract, sheets, price, fallback, first_payment, due, product });
        self.begun += i128::from(sheets);
        self.running -= i128::from(initial_amount(sheets));
    }

    /// "A started term counts as an initial trade in every total": its row stands
    /// where the matured one stood.
    fn start(&mut self, record: &Trade) {
        let row = self.rows.iter_mut().find(|row| row.contract == record.contract);
        *row.expect("a term starts where one matured") = *record;
        self.begun += i128::from(record.sheets);
        self.running -= i128::from(initial_amount(record.sheets));
    }

    fn close(&mut self, calendar: &[u32], started: &[Trade]) {
        let day = self.day.expect("a Close follows an Open");
        self.running += self.take(calendar, |row| (row.due <= day).then_some((row.sheets, row.price)));
        started.iter().for_each(|record| self.start(record));
        self.cleared += std::mem::take(&mut self.running);
    }

    /// Takes off each row the sheets that `pick` names at its price; these
    /// join redeemed, and their amount is given back.
    fn take(&mut self, calendar: &[u32], pick: impl Fn(&Trade) -> Option<(u64, u32)>) -> i128 {
        let payment_day = self.payment_day(calendar);
        let mut amount = 0;
        for row in &mut self.rows {
            if let Some((sheets, price)) = pick(row) {
                amount += i128::from(row.redeem(sheets, price, payment_day));
                row.sheets -= sheets;
                self.redeemed += i128::from(sheets);
            }
        }
        amount
    }

    fn payment_day(&self, calendar: &[u32]) -> u32 {
        self.day.and_then(|day| next_after(calendar, day)).expect("an open day has a payment day")
    }
}
