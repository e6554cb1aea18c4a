//! Judging a night by request 5 of 02: its verdict, before anything is kept of it.

use crate::night::Night;
use crate::refusal::{told_period, Refusal};
use crate::register::check_taps;
use crate::response::{HIGHEST, LOWEST};

/// A verdict on a night that is not filed, so that one to be kept has no slot.
#[derive(Clone, Copy, Debug, PartialEq, Eq)]
pub enum Judged {
    Kept,
    Overloaded { place: usize },
    Dead,
    Refused(Refusal),
}

impl Judged {
    /// The number printed for it: 0 means accepted.
    pub fn number(&self) -> u8 {
        match *self {
            Judged::Refused(refusal) => refusal.number(),
            _ => 0,
        }
    }
}

/// What judging answers: the verdict, and the period as a taps check tells it.
#[derive(Clone, Copy, Debug, PartialEq, Eq)]
pub struct Judgement {
    pub verdict: Judged,
    pub period: Option<usize>,
}

/// Refusals 1, 2, 3, 4, 18, 5, 7, then the verdict.
pub fn judge(order: u32, taps: u32, night: Night) -> Judgement {
    let checked = check_night(order, taps, night);
    let verdict = match checked {
        Ok(p) => verdict_on(night.judged(p)),
        Err(refusal) => Judged::Refused(refusal),
    };
    let period = told_period(&checked);
    Judgement { verdict, period }
}

/// P, where nothing keeps the night from being judged.
fn check_night(order: u32, taps: u32, night: Night) -> Result<usize, Refusal> {
    let p = check_taps(order, taps)?;
    night.check(p)?;
    Ok(p)
}

/// Overloaded at its first rail, otherwise dead, otherwise kept.
pub fn verdict_on(samples: &[i32]) -> Judged {
    if let Some(place) = samples.iter().position(at_a_rail) {
        return Judged::Overloaded { place };
    }
    if spread(samples) <= DEAD_SPREAD {
        return Judged::Dead;
    }
    Judged::Kept
}

pub fn at_a_rail(sample: &i32) -> bool {
    [LOWEST, HIGHEST].contains(sample)
}

/// The widest spread of a dead input, by request 2 of 02: converters dither.
pub const DEAD_SPREAD: i64 = 7;

/// The largest sample minus the smallest, wide, so that no two samples overflow; 0 where there is no sample.
pub fn spread(samples: &[i32]) -> i64 {
    let ends = samples.iter().max().zip(samples.iter().min());
    ends.map_or(0, |(&largest, &smallest)| {
        i64::from(largest) - i64::from(smallest)
    })
}
