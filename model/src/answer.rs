//! What a call answers: the number, and the three figures of a Close.

/// The causes of being turned down, each with the papers' number.
#[derive(Clone, Copy, Debug, PartialEq, Eq)]
#[repr(u8)]
pub enum Refusal {
    Unfit = 1,
    Undecodable = 2,
    NoSuchKind = 3,
    WrongPhase = 4,
    Terminated = 5,
    Suspended = 6,
    BadAmount = 7,
    PriceTooHigh = 8,
    BadDueDay = 9,
    WrongContract = 10,
    TableFull = 11,
    AboveHeadroom = 12,
    NotEnough = 13,
    LimitPassed = 14,
    SizeBelowOutstanding = 15,
    NoTradingDay = 16,
    ApplicationsFull = 17,
    MalformedJournal = 18,
    NoDate = 19,
    NoProduct = 20,
}

impl Refusal {
    pub fn number(self) -> u32 {
        self as u32
    }

    /// One row of the table of causes: `test` applies, so the event is turned down.
    pub fn when(self, test: bool) -> Result<(), Refusal> {
        if test {
            Err(self)
        } else {
            Ok(())
        }
    }
}

/// A result beside its number, 0; beside a refusal's number a result of 0.
pub(crate) fn numbered<T: Default>(outcome: Result<T, Refusal>) -> (u32, T) {
    match outcome {
        Ok(result) => (0, result),
        Err(cause) => (cause.number(), T::default()),
    }
}

/// "The answer carries sheets matured, applications done and dropped; every
/// other answer, that of a refused Close too, carries 0 for these."
#[derive(Clone, Copy, Debug, Default, PartialEq, Eq)]
pub struct Answer {
    pub number: u32,
    pub matured: u64,
    pub done: u32,
    pub dropped: u32,
}

impl Answer {
    pub const DONE: Answer = Answer::of(0);
    /// "Answer 99 is an accepted event": a Pay whose payer holds too little.
    pub const UNPAID: Answer = Answer::of(99);

    const fn of(number: u32) -> Answer {
        Answer { number, matured: 0, done: 0, dropped: 0 }
    }

    pub fn refused(cause: Refusal) -> Answer {
        Answer::of(cause.number())
    }

    pub fn is_accepted(self) -> bool {
        matches!(self.number, 0 | 99)
    }
}
