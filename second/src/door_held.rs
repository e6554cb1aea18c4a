//! What the C door's caller holds of a campaign, and the calls on it as the door makes them: the tables are lists that may be too short.

use crate::campaign::{self, Campaign, DayState, Lent, DAYS, MOST_SLOTS};
use crate::entering::{Entry, Verdict};
use crate::judging::Judged;
use crate::night::Night;
use crate::refusal::Refusal;
use crate::year_memory::digest_of;

/// The record's numbers and tables, and the memory.
#[derive(Clone, Debug, PartialEq, Eq)]
pub struct Held {
    pub order: u32,
    pub taps: u32,
    pub count: u32,
    pub edition: u32,
    pub days: Vec<u8>,
    pub slots: Vec<u16>,
    pub periods: Vec<u8>,
    pub lent: Lent,
}

/// What the caller's variables for a state and a value hold before the call.
pub const UNTOLD: usize = 9;

fn state_of(byte: u8) -> Option<DayState> {
    use DayState::*;
    [Unseen, Standing, Overloaded, Dead, Withdrawn]
        .get(byte as usize)
        .copied()
}

/// The answer of a filing or an entry, and the caller's variables for the state and the value after it.
pub fn told(verdict: Verdict) -> (u8, usize, usize) {
    match verdict {
        Verdict::Kept { slot } => (0, DayState::Standing as usize, slot),
        Verdict::Overloaded { place } => (0, DayState::Overloaded as usize, place),
        Verdict::Dead => (0, DayState::Dead as usize, 0),
        Verdict::Refused(refusal) => (refusal.number(), UNTOLD, UNTOLD),
    }
}

impl Held {
    fn tables_long(&self) -> bool {
        self.days.len() >= DAYS
            && self.slots.len() >= MOST_SLOTS
            && self.periods.len() >= MOST_SLOTS
    }

    /// The record, or refusal 15 where a table is short or a state is none of the five.
    pub fn record(&self) -> Result<Campaign, Refusal> {
        if !self.tables_long() {
            return Err(Refusal::DoesNotHoldTogether);
        }
        let states: Option<Vec<DayState>> =
            self.days[..DAYS].iter().map(|&b| state_of(b)).collect();
        let days = states.ok_or(Refusal::DoesNotHoldTogether)?;
        Ok(Campaign {
            order: self.order,
            taps: self.taps,
            slots: self.count,
            edition: self.edition,
            days: days.try_into().expect("366 of them"),
            table: self.slots[..MOST_SLOTS].try_into().expect("64 of them"),
            periods: self.periods[..MOST_SLOTS].try_into().expect("64 of them"),
        })
    }

    fn write_back(&mut self, record: &Campaign) {
        for (byte, &state) in self.days.iter_mut().zip(&record.days) {
            *byte = state as u8;
        }
        self.slots[..MOST_SLOTS].copy_from_slice(&record.table);
        self.periods[..MOST_SLOTS].copy_from_slice(&record.periods);
    }

    /// A start lends no record yet: a short table is room too short.
    pub fn start(&mut self) -> Result<usize, Refusal> {
        let (order, taps, count, edition) = (self.order, self.taps, self.count, self.edition);
        let p = campaign::check_start(order, taps, count, edition)?;
        if !self.tables_long() {
            return Err(Refusal::RoomTooShort);
        }
        let Lent { store, sums } = &mut self.lent;
        let record = campaign::start(order, taps, count, edition, store, sums)?;
        self.write_back(&record);
        Ok(p)
    }

    /// 2 for 1 and 1 for 2; for any other number one that is no edition either.
    pub fn other_edition(&self) -> u32 {
        3u32.wrapping_sub(self.edition)
    }

    pub fn enter(&mut self, day: u16, night: Night) -> Verdict {
        self.bring(|record, lent| record.enter(lent, day, night))
    }

    pub fn file(&mut self, day: u16, night: Night, shown: Judged) -> Verdict {
        self.bring(|record, lent| record.file(lent, day, night, shown))
    }

    fn bring(&mut self, night: impl Fn(&mut Campaign, &mut Lent) -> Entry) -> Verdict {
        let mut record = match self.record() {
            Ok(record) => record,
            Err(refusal) => return Verdict::Refused(refusal),
        };
        let verdict = night(&mut record, &mut self.lent).verdict;
        self.write_back(&record);
        verdict
    }

    pub fn withdraw(&mut self, day: u16) -> Result<(), Refusal> {
        let mut record = self.record()?;
        let answer = record.withdraw(&mut self.lent, day);
        self.write_back(&record);
        answer
    }

    /// The digests of the three tables, the store and the sums.
    pub fn memory(&self) -> String {
        format!(
            "{} {} {} {} {}",
            digest_of(&self.days),
            digest_of(&self.slots),
            digest_of(&self.periods),
            digest_of(&self.lent.store),
            digest_of(&self.lent.sums)
        )
    }
}
