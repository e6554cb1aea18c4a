//! The editions of the report rules, by request 9 of 02, and the mean that each of them gives.

use crate::refusal::Refusal;
use std::cmp::Ordering;

/// The editions' numbers. A log that names none is in the first.
pub const FIRST: u32 = 1;
pub const SECOND: u32 = 2;

/// Where a quotient goes that lies exactly between two whole numbers.
#[derive(Clone, Copy, Debug, PartialEq, Eq)]
pub enum Edition {
    /// Away from zero.
    First,
    /// To the even one.
    Second,
}

/// Refusal 24.
pub fn check_edition(edition: u32) -> Result<Edition, Refusal> {
    match edition {
        FIRST => Ok(Edition::First),
        SECOND => Ok(Edition::Second),
        _ => Err(Refusal::NoSuchEdition),
    }
}

/// r divided by a positive divisor, to the nearest whole number; the edition decides of an exact half.
pub fn mean(edition: Edition, r: i64, divisor: i64) -> i64 {
    // The quotient is at `below` or between it and `above`, on either side of zero.
    let below = r.div_euclid(divisor);
    let above = below + 1;
    let twice_beyond_below = 2 * r.rem_euclid(divisor);
    match twice_beyond_below.cmp(&divisor) {
        Ordering::Less => below,
        Ordering::Greater => above,
        Ordering::Equal => edition.of_a_half(below, above),
    }
}

impl Edition {
    fn of_a_half(self, below: i64, above: i64) -> i64 {
        let takes_below = match self {
            Edition::First => below < 0,
            Edition::Second => below % 2 == 0,
        };
        if takes_below {
            below
        } else {
            above
        }
    }
}
