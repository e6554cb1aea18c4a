//! Filing a day's night under the verdict that was shown, entering one, and withdrawing a standing day.

use crate::campaign::{check_day, Campaign, DayState, Lent, FREE, NO_PERIODS};
use crate::judging::{judge, Judged};
use crate::night::{summed, Night};
use crate::refusal::Refusal;

#[derive(Clone, Copy, Debug, PartialEq, Eq)]
pub enum Verdict {
    Kept { slot: usize },
    Overloaded { place: usize },
    Dead,
    Refused(Refusal),
}

impl Verdict {
    /// The number printed for it: 0 means accepted.
    pub fn number(&self) -> u8 {
        match *self {
            Verdict::Refused(refusal) => refusal.number(),
            _ => 0,
        }
    }

    /// The word printed for it.
    pub fn word(&self) -> &'static str {
        match self {
            Verdict::Kept { .. } => "kept",
            Verdict::Overloaded { .. } => "overload",
            Verdict::Dead => "dead",
            Verdict::Refused(_) => "-",
        }
    }

    /// The slot or the place that it carries, 0 where it carries neither.
    pub fn value(&self) -> usize {
        match *self {
            Verdict::Kept { slot } => slot,
            Verdict::Overloaded { place } => place,
            Verdict::Dead | Verdict::Refused(_) => 0,
        }
    }
}

#[derive(Clone, Copy, Debug, PartialEq, Eq)]
pub struct Entry {
    pub day: u16,
    pub verdict: Verdict,
}

impl Campaign {
    /// A filing with the verdict that judging gives.
    pub fn enter(&mut self, lent: &mut Lent, day: u16, night: Night) -> Entry {
        let shown = judge(self.order, self.taps, night).verdict;
        self.file(lent, day, night, shown)
    }

    /// Refusals 15, 10, 18, 5, 7, 11, 23, then the verdict, then 12.
    pub fn file(&mut self, lent: &mut Lent, day: u16, night: Night, shown: Judged) -> Entry {
        let verdict = match self.check_filing(lent, day, night, shown) {
            Ok(verdict) => verdict,
            Err(refusal) => Verdict::Refused(refusal),
        };
        match verdict {
            Verdict::Kept { slot } => self.keep(lent, day, slot, night.judged(self.p())),
            Verdict::Overloaded { .. } => self.set_state(day, DayState::Overloaded),
            Verdict::Dead => self.set_state(day, DayState::Dead),
            Verdict::Refused(_) => {}
        }
        Entry { day, verdict }
    }

    /// The verdict to be filed, with its slot where it is kept.
    fn check_filing(
        &self,
        lent: &Lent,
        day: u16,
        night: Night,
        shown: Judged,
    ) -> Result<Verdict, Refusal> {
        self.check_holding(lent)?;
        check_day(day)?;
        night.check(self.p())?;
        if self.state(day) == DayState::Standing {
            return Err(Refusal::AlreadyStanding);
        }
        let judged = judge(self.order, self.taps, night).verdict;
        if shown != judged {
            return Err(Refusal::NotAsJudged);
        }
        match judged {
            Judged::Kept => {
                let slot = self.slot_holding(FREE).ok_or(Refusal::AllSlotsUsed)?;
                Ok(Verdict::Kept { slot })
            }
            Judged::Overloaded { place } => Ok(Verdict::Overloaded { place }),
            Judged::Dead => Ok(Verdict::Dead),
            // Never met: what judging refuses is refused above.
            Judged::Refused(refusal) => Err(refusal),
        }
    }

    /// The slot gets the sum of the whole periods judged, and the sums get it on top.
    fn keep(&mut self, lent: &mut Lent, day: u16, slot: usize, judged: &[i32]) {
        let p = self.p();
        let night = summed(judged, p);
        lent.store[slot * p..(slot + 1) * p].copy_from_slice(&night);
        for (sum, sample) in lent.sums.iter_mut().zip(night) {
            *sum += i64::from(sample);
        }
        self.table[slot] = day;
        self.periods[slot] = (judged.len() / p) as u8;
        self.set_state(day, DayState::Standing);
    }

    /// Refusals 15, 10, 13.
    pub fn withdraw(&mut self, lent: &mut Lent, day: u16) -> Result<(), Refusal> {
        self.check_holding(lent)?;
        check_day(day)?;
        let slot = self.slot_holding(day).ok_or(Refusal::NotStanding)?;
        let p = self.p();
        let samples = &mut lent.store[slot * p..(slot + 1) * p];
        for (sum, sample) in lent.sums.iter_mut().zip(samples) {
            *sum -= i64::from(*sample);
            *sample = 0;
        }
        self.table[slot] = FREE;
        self.periods[slot] = NO_PERIODS;
        self.set_state(day, DayState::Withdrawn);
        Ok(())
    }
}
