//! The paper's refusals, each with its number.

#[derive(Clone, Copy, Debug, PartialEq, Eq)]
pub enum Refusal {
    OrderOutOfRange,
    TapsNotBelow,
    Tap0Clear,
    /// With the steps after which the register first returns to all ones.
    NotMaximal {
        first_return: usize,
    },
    WrongLength,
    RoomTooShort,
    ValueOutsideRange,
    PredictedOutsideRange,
    SlotCount,
    DayOutOfRange,
    AlreadyStanding,
    AllSlotsUsed,
    NotStanding,
    NothingStanding,
    DoesNotHoldTogether,
    Window,
    ProgramLimit,
    PeriodsOutOfRange,
    /// The verdict handed to filing is not what judging gives.
    NotAsJudged,
    NoSuchEdition,
    /// No Legendre sequence of this period is offered.
    PeriodNotOffered,
}

impl Refusal {
    pub fn number(self) -> u8 {
        match self {
            Refusal::OrderOutOfRange => 1,
            Refusal::TapsNotBelow => 2,
            Refusal::Tap0Clear => 3,
            Refusal::NotMaximal { .. } => 4,
            Refusal::WrongLength => 5,
            Refusal::RoomTooShort => 6,
            Refusal::ValueOutsideRange => 7,
            Refusal::PredictedOutsideRange => 8,
            Refusal::SlotCount => 9,
            Refusal::DayOutOfRange => 10,
            Refusal::AlreadyStanding => 11,
            Refusal::AllSlotsUsed => 12,
            Refusal::NotStanding => 13,
            Refusal::NothingStanding => 14,
            Refusal::DoesNotHoldTogether => 15,
            Refusal::Window => 16,
            Refusal::ProgramLimit => 17,
            Refusal::PeriodsOutOfRange => 18,
            Refusal::NotAsJudged => 23,
            Refusal::NoSuchEdition => 24,
            Refusal::PeriodNotOffered => 25,
        }
    }
}

/// The number printed for an answer: 0 means accepted.
pub fn number<T>(answer: &Result<T, Refusal>) -> u8 {
    match answer {
        Ok(_) => 0,
        Err(refusal) => refusal.number(),
    }
}

/// The period told with an answer that is P where it is accepted: P itself, the first return of a register that is not maximal, and
/// nothing at any other refusal.
pub fn told_period(answer: &Result<usize, Refusal>) -> Option<usize> {
    match *answer {
        Ok(p) => Some(p),
        Err(Refusal::NotMaximal { first_return }) => Some(first_return),
        Err(_) => None,
    }
}
