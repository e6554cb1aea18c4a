//! What a campaign tells: its counts, its response, its summary.

use crate::campaign::{Campaign, DayState, Lent};
use crate::edition::{check_edition, mean};
use crate::refusal::Refusal;
use crate::response::direct_response;
use crate::room::Room;

#[derive(Clone, Copy, Debug, PartialEq, Eq)]
pub struct Counts {
    pub unseen: usize,
    pub standing: usize,
    pub overloaded: usize,
    pub dead: usize,
    pub withdrawn: usize,
}

#[derive(Clone, Copy, Debug, PartialEq)]
pub struct Levels {
    pub highest: f64,
    pub lowest: f64,
    pub at_peak: f64,
}

#[derive(Clone, Copy, Debug, PartialEq)]
pub enum Summary {
    NothingStands,
    Levels(Levels),
    Refused(Refusal),
}

impl Campaign {
    /// Refusal 15.
    pub fn counts(&self, lent: &Lent) -> Result<Counts, Refusal> {
        self.check_holding(lent)?;
        Ok(Counts {
            unseen: self.days_in(DayState::Unseen),
            standing: self.days_in(DayState::Standing),
            overloaded: self.days_in(DayState::Overloaded),
            dead: self.days_in(DayState::Dead),
            withdrawn: self.days_in(DayState::Withdrawn),
        })
    }

    /// (P+1) times the total of the periods standing.
    pub fn divisor(&self) -> i64 {
        (self.p() as i64 + 1) * self.periods_standing()
    }

    /// Writes r and the means, these by the campaign's edition. Refusals 15, 6, 14.
    pub fn response(
        &self,
        lent: &Lent,
        r: &mut [i64],
        means: &mut [i32],
        room: &mut Room,
    ) -> Result<(), Refusal> {
        self.check_holding(lent)?;
        let p = self.p();
        if r.len() < p || means.len() < p {
            return Err(Refusal::RoomTooShort);
        }
        room.check(p)?;
        if self.days_in(DayState::Standing) == 0 {
            return Err(Refusal::NothingStanding);
        }
        let edition = check_edition(self.edition).expect("a record that holds together has one");
        r[..p].copy_from_slice(&direct_response(self.order, self.taps, &lent.sums[..p]));
        for (place, &r) in means.iter_mut().zip(&r[..p]) {
            // No standing sample is at a rail, so the mean is a sample.
            *place = mean(edition, r, self.divisor()) as i32;
        }
        room.clear(p);
        Ok(())
    }

    /// Refusals 15, 6, then nothing stands.
    pub fn summary(&self, lent: &Lent, room: &mut Room) -> Summary {
        if let Err(refusal) = self.check_holding(lent) {
            return Summary::Refused(refusal);
        }
        let p = self.p();
        if let Err(refusal) = room.check(p) {
            return Summary::Refused(refusal);
        }
        if self.days_in(DayState::Standing) == 0 {
            return Summary::NothingStands;
        }
        let r = direct_response(self.order, self.taps, &lent.sums[..p]);
        room.clear(p);
        Summary::Levels(levels(&r, self.divisor()))
    }
}

/// Each level is the exact whole number made a double and divided once.
fn levels(r: &[i64], divisor: i64) -> Levels {
    let (mut highest, mut lowest, mut at_peak) = (r[0], r[0], r[0]);
    for &value in r {
        highest = highest.max(value);
        lowest = lowest.min(value);
        // Strictly larger: the peak is the first place of the largest |r|.
        if value.abs() > at_peak.abs() {
            at_peak = value;
        }
    }
    let level = |value: i64| value as f64 / divisor as f64;
    Levels {
        highest: level(highest),
        lowest: level(lowest),
        at_peak: level(at_peak),
    }
}
