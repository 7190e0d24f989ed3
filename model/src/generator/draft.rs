//! A journal in the making: the events so far, and the book they lead to.

use super::random::Random;
use crate::book::{Book, Phase, Status, Trade};
use crate::cases::ledger::Ledger;
use crate::event::{Account, Event, Terms, EVENT_BYTES};
use crate::limits::{
    CASH, DAYS_AHEAD, JOURNAL_CAPACITY, JOURNAL_EVENTS, PRICE, PRODUCTS, RATE, SECURITY_UNITS, SIZE,
    TRADE_SHEETS,
};
use crate::money::CASH_KIND;
use crate::step::step;

/// The products that are posted without being bold.
pub const POSTED: [u8; 4] = [0, 1, 2, 15];

pub struct Draft {
    pub random: Random,
    pub calendar: Vec<u32>,
    pub events: Vec<[u8; EVENT_BYTES]>,
    pub book: Book,
    pub table: Vec<Trade>,
    /// Chance, in percent, that a field is drawn at or past its limit.
    pub bold: u64,
    /// The largest trade offered without being bold.
    pub largest_trade: u64,
    /// Chance, in percent, that an initial trade has a product where one is posted.
    pub rolling: u64,
    contracts: Vec<u64>,
}

impl Draft {
    pub fn new(random: Random, calendar: Vec<u32>) -> Draft {
        Draft::on(random, Ledger::with_slots(&calendar, JOURNAL_CAPACITY))
    }

    /// Goes on from a fit book.
    pub fn on(random: Random, Ledger { calendar, book, table }: Ledger) -> Draft {
        let contracts = table[..book.trades].iter().map(|trade| trade.contract).collect();
        let (events, bold, largest_trade, rolling) = (Vec::new(), 10, 10_000, 50);
        Draft { random, calendar, events, book, table, bold, largest_trade, rolling, contracts }
    }

    pub fn is_full(&self) -> bool {
        self.events.len() == JOURNAL_EVENTS
    }

    /// Writes the event down, if there is room, and gives its answer's number.
    pub fn offer(&mut self, event: Event) -> Option<u32> {
        let number = self.offer_bytes(event.encode())?;
        if let (Event::Initial(terms), 0) = (event, number) {
            self.contracts.push(terms.contract);
        }
        Some(number)
    }

    pub fn offer_bytes(&mut self, bytes: [u8; EVENT_BYTES]) -> Option<u32> {
        if self.is_full() {
            return None;
        }
        self.events.push(bytes);
        Some(step(&self.calendar, &mut self.book, &mut self.table, &bytes).number)
    }

    /// An event of this code, plausible for the book as it stands.
    pub fn draw(&mut self, code: u8) -> Event {
        match code {
            1 => Event::Open,
            2 => self.draw_fund_in(),
            3 => self.draw_fund_out(),
            4 => self.draw_size(),
            5 => self.draw_rate(),
            6 => self.draw_pledge(),
            7 => self.draw_freeze(),
            8 => self.draw_withdraw(),
            9 => self.draw_initial(),
            10 => self.draw_early(),
            11 => Event::Pay,
            12 => Event::Close,
            _ => self.draw_post(),
        }
    }

    pub fn is_bold(&mut self) -> bool {
        let chance = self.bold;
        self.random.percent(chance)
    }

    /// An amount that should stay within `bound`: usually modest, else near it.
    fn amount(&mut self, modest: u64, bound: u64) -> u64 {
        if !self.is_bold() {
            return self.random.of_any_order(modest.min(bound));
        }
        match self.random.below(8) {
            0 => 0,
            1 => self.random.any(),
            2 | 3 => bound.saturating_add(1),
            4 | 5 => bound,
            _ => self.random.of_any_order(bound),
        }
    }

    fn account(&mut self) -> Account {
        self.random.pick(&[Account::Own, Account::Client])
    }

    /// Few kinds, so that units gather; a bold one may be no kind at all.
    fn kind(&mut self) -> u8 {
        if self.is_bold() {
            return self.random.pick(&[3, 30, 31, 32, 33, 34, 128, 255]);
        }
        self.random.pick(&[0, 0, 0, 1, 1, 2, 31, 32])
    }

    fn draw_fund_in(&mut self) -> Event {
        let account = self.account();
        let fen = self.amount(10_000_000_000, CASH - self.book.all_cash());
        Event::FundIn { account, fen }
    }

    fn draw_fund_out(&mut self) -> Event {
        let account = self.account();
        let held = self.held(account);
        Event::FundOut { account, fen: self.amount(held / 4, held) }
    }

    pub fn held(&self, account: Account) -> u64 {
        match account {
            Account::Own => self.book.own,
            Account::Client => self.book.client,
        }
    }

    fn draw_size(&mut self) -> Event {
        let outstanding = self.book.outstanding(&self.table);
        let any = self.random.any();
        let edges = [0, outstanding, outstanding.saturating_sub(1), SIZE, SIZE + 1, any];
        let sheets = if self.is_bold() {
            self.random.pick(&edges)
        } else {
            outstanding.max(SIZE / self.random.between(1, 1_000))
        };
        Event::Size { sheets }
    }

    fn draw_rate(&mut self) -> Event {
        let kind = self.kind();
        let rate = if self.is_bold() {
            self.random.pick(&[0, 1, RATE, RATE + 1, (1 << 32) + 9_000, u64::MAX])
        } else {
            self.random.between(7_000, 10_000)
        };
        Event::Rate { kind, rate }
    }

    fn draw_pledge(&mut self) -> Event {
        let kind = self.kind();
        let (modest, bound) = match self.book.holdings.get(usize::from(kind)) {
            Some(_) if usize::from(kind) == CASH_KIND => (self.book.own / 2, self.book.own),
            Some(held) => (1_000_000, SECURITY_UNITS - held.effective - held.arriving),
            None => (1_000, 1_000),
        };
        Event::Pledge { kind, units: self.amount(modest, bound) }
    }

    fn draw_freeze(&mut self) -> Event {
        let kind = self.kind();
        let effective = self.book.holdings.get(usize::from(kind)).map_or(0, |held| held.effective);
        let units = if self.is_bold() {
            self.amount(effective, effective)
        } else {
            self.random.below(effective / 20 + 1)
        };
        Event::Freeze { kind, units }
    }

    fn draw_withdraw(&mut self) -> Event {
        let kind = self.kind();
        let place = usize::from(kind);
        let free = self
            .book
            .holdings
            .get(place)
            .map_or(0, |held| (held.effective - held.frozen).saturating_sub(self.book.applied(place)));
        Event::Withdraw { kind, units: self.amount(free / 2, free) }
    }

    /// The book as a Close would leave it, were the day paid; no spare slots.
    pub fn tonight(&self) -> Ledger {
        let book = Book { cleared_net: 0, ..self.book.clone() };
        let table = self.table[..book.trades].to_vec();
        let mut ledger = Ledger { calendar: self.calendar.clone(), book, table };
        for event in [Event::Pay, Event::Close] {
            step(&self.calendar, &mut ledger.book, &mut ledger.table, &event.encode());
        }
        ledger
    }

    pub fn draw_initial(&mut self) -> Event {
        let headroom = self.book.headroom(&self.table).max(0) as u64;
        let sheets = if self.is_bold() {
            let tens = headroom / 10 * 10;
            self.random.pick(&[0, 5, 10, 15, tens, tens + 10, TRADE_SHEETS, TRADE_SHEETS + 10, u64::MAX])
        } else {
            10 * self.random.of_any_order(headroom.min(self.largest_trade) / 10)
        };
        let (price, fallback, product) = (self.price(), self.price(), self.product_field());
        let contract = self.new_contract();
        let due = if product > 0 && self.random.percent(60) { self.soon() } else { self.due_day() };
        Event::Initial(Terms { contract, sheets, price, fallback, due, product })
    }

    /// Plus 1, a product that is posted; or none. A bold one may be any.
    fn product_field(&mut self) -> u8 {
        if self.is_bold() {
            return self.random.pick(&[0, 1, 2, 16, 17, 18, 128, 255]);
        }
        let is_posted = |&product: &u8| self.book.posted(product.into()).is_some();
        let posted: Vec<u8> = (1..=PRODUCTS as u8).filter(is_posted).collect();
        let rolling = self.rolling;
        if posted.is_empty() || !self.random.percent(rolling) {
            return 0;
        }
        self.random.pick(&posted)
    }

    /// Few products, so that they are posted again; a bold one may be none.
    fn draw_post(&mut self) -> Event {
        let bold = self.is_bold();
        let product = self.random.pick(if bold { &[0, 3, 15, 16, 17, 255] } else { &POSTED });
        self.draw_post_of(product)
    }

    pub fn draw_post_of(&mut self, product: u8) -> Event {
        let term = if self.is_bold() {
            let most = u64::from(DAYS_AHEAD);
            self.random.pick(&[0, 1, most, most + 1, (1 << 32) + 7, u64::MAX])
        } else {
            let most = self.random.pick(&[10, 30, DAYS_AHEAD]);
            self.random.of_any_order(most.into())
        };
        Event::Post { product, term, price: self.price(), fallback: self.price() }
    }

    fn draw_early(&mut self) -> Event {
        let in_use = &self.table[..self.book.trades];
        let unknown = Trade { contract: self.random.any(), sheets: 100, ..Trade::default() };
        let trade =
            if in_use.is_empty() || self.random.percent(4) { unknown } else { self.random.pick(in_use) };
        let sheets = match self.random.below(10) {
            0..4 => trade.sheets,
            4..9 => self.random.of_any_order(trade.sheets),
            _ => self.amount(trade.sheets, trade.sheets),
        };
        Event::Early { contract: trade.contract, sheets, price: self.price() }
    }

    fn price(&mut self) -> u32 {
        if self.is_bold() {
            return self.random.pick(&[0, 1, PRICE as u32, PRICE as u32, PRICE as u32 + 1, u32::MAX]);
        }
        self.random.between(1_000, 6_000) as u32
    }

    /// A new number, or one that is on the table or has left it.
    fn new_contract(&mut self) -> u64 {
        let used_before = !self.contracts.is_empty() && self.random.percent(20);
        match self.random.below(40) {
            0 => 0,
            1 => u64::MAX,
            2 => self.random.any(),
            _ if used_before => self.random.pick(&self.contracts),
            _ => 1 + self.contracts.len() as u64,
        }
    }

    fn soon(&mut self) -> u32 {
        self.book.day.unwrap_or(0) + self.random.between(1, 6) as u32
    }

    fn due_day(&mut self) -> u32 {
        let today = self.book.day.unwrap_or(0);
        if self.is_bold() {
            let ahead = self.random.pick(&[0, 1, 2, DAYS_AHEAD, DAYS_AHEAD, DAYS_AHEAD + 1, 1_000]);
            return self.random.pick(&[
                today + ahead,
                today + ahead,
                today + ahead,
                today.saturating_sub(ahead),
                u32::MAX,
            ]);
        }
        today + self.random.of_any_order(DAYS_AHEAD.into()) as u32
    }

    pub fn is_terminated(&self) -> bool {
        self.book.status == Status::Terminated
    }

    pub fn is_trading(&self) -> bool {
        self.book.phase == Phase::Trading
    }
}
