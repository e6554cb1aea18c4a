//! A campaign's record, the memory lent to it, and its start.

use crate::edition::check_edition;
use crate::holding::holds_together;
use crate::refusal::Refusal;
use crate::register::{check_taps, period};

pub const DAYS: usize = 366;
pub const MOST_SLOTS: usize = 64;
pub const FREE: u16 = 0;
/// What every slot without a night has in the table of periods.
pub const NO_PERIODS: u8 = 0;

#[derive(Clone, Copy, Debug, PartialEq, Eq)]
pub enum DayState {
    Unseen,
    Standing,
    Overloaded,
    Dead,
    Withdrawn,
}

/// `edition` is that of the report rules, chosen at the start; `days[d - 1]` is day d's state; `table[s]` is the day in slot s, or `FREE`;
/// `periods[s]` is how many periods its night had, or `NO_PERIODS`.
#[derive(Clone, Debug, PartialEq, Eq)]
pub struct Campaign {
    pub order: u32,
    pub taps: u32,
    pub slots: u32,
    pub edition: u32,
    pub days: [DayState; DAYS],
    pub table: [u16; MOST_SLOTS],
    pub periods: [u8; MOST_SLOTS],
}

/// The caller's store of C·P samples and P wide sums.
#[derive(Clone, Debug, PartialEq, Eq)]
pub struct Lent {
    pub store: Vec<i32>,
    pub sums: Vec<i64>,
}

/// P, and refusals 1, 2, 3, 4, 9, 24: what a start asks before any memory is looked at.
pub fn check_start(order: u32, taps: u32, slots: u32, edition: u32) -> Result<usize, Refusal> {
    let p = check_taps(order, taps)?;
    if !(1..=MOST_SLOTS as u32).contains(&slots) {
        return Err(Refusal::SlotCount);
    }
    check_edition(edition)?;
    Ok(p)
}

/// Refusals 1, 2, 3, 4, 9, 24, 6; the campaign itself tells P.
pub fn start(
    order: u32,
    taps: u32,
    slots: u32,
    edition: u32,
    store: &mut [i32],
    sums: &mut [i64],
) -> Result<Campaign, Refusal> {
    let p = check_start(order, taps, slots, edition)?;
    let store_length = slots as usize * p;
    if store.len() < store_length || sums.len() < p {
        return Err(Refusal::RoomTooShort);
    }
    store[..store_length].fill(0);
    sums[..p].fill(0);
    let days = [DayState::Unseen; DAYS];
    Ok(Campaign {
        order,
        taps,
        slots,
        edition,
        days,
        table: [FREE; MOST_SLOTS],
        periods: [NO_PERIODS; MOST_SLOTS],
    })
}

impl Campaign {
    /// P, for a record that holds together.
    pub fn p(&self) -> usize {
        period(self.order)
    }

    /// The state of a day from 1 to 366.
    pub fn state(&self, day: u16) -> DayState {
        self.days[day as usize - 1]
    }

    pub fn set_state(&mut self, day: u16, state: DayState) {
        self.days[day as usize - 1] = state;
    }

    /// How many days are in this state.
    pub fn days_in(&self, state: DayState) -> usize {
        self.days.iter().filter(|&&s| s == state).count()
    }

    /// The total of the periods standing.
    pub fn periods_standing(&self) -> i64 {
        self.periods.iter().map(|&m| i64::from(m)).sum()
    }

    /// The lowest-numbered slot whose table place holds `content`.
    pub fn slot_holding(&self, content: u16) -> Option<usize> {
        self.table[..self.slots as usize]
            .iter()
            .position(|&d| d == content)
    }

    /// Refusal 15.
    pub fn check_holding(&self, lent: &Lent) -> Result<(), Refusal> {
        if holds_together(self, lent) {
            Ok(())
        } else {
            Err(Refusal::DoesNotHoldTogether)
        }
    }
}

/// Refusal 10.
pub fn check_day(day: u16) -> Result<(), Refusal> {
    if (1..=DAYS).contains(&(day as usize)) {
        Ok(())
    } else {
        Err(Refusal::DayOutOfRange)
    }
}
