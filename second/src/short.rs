//! Registers that are not maximal, by how soon they return to all ones.

use crate::refusal::Refusal;
use crate::register::{check_taps, period};
use crate::rng::Rng;

/// What a first return other than P can be.
#[derive(Clone, Copy, Debug, PartialEq, Eq, PartialOrd, Ord)]
pub enum Short {
    /// One step: the register stays at all ones.
    One,
    /// More than one step, and P is a multiple of them.
    Dividing,
    NotDividing,
}

impl Short {
    pub const KINDS: [Short; 3] = [Short::One, Short::Dividing, Short::NotDividing];

    pub fn of(order: u32, first_return: usize) -> Short {
        match first_return {
            1 => Short::One,
            n if period(order) % n == 0 => Short::Dividing,
            _ => Short::NotDividing,
        }
    }

    pub fn words(self) -> &'static str {
        match self {
            Short::One => "after 1",
            Short::Dividing => "dividing P",
            Short::NotDividing => "not dividing P",
        }
    }

    /// The kind of taps that are refused with 4.
    pub fn of_taps(order: u32, taps: u32) -> Option<Short> {
        match check_taps(order, taps) {
            Err(Refusal::NotMaximal { first_return }) => Some(Short::of(order, first_return)),
            _ => None,
        }
    }
}

/// Stays at all ones at every order.
const STILL_TAPS: u32 = 1;

/// The first taps of a drawn kind from drawn ones on, going round; taps that stay at all ones where the order has none of the kind.
pub fn short_taps(rng: &mut Rng, order: u32) -> u32 {
    let kind = rng.pick(&Short::KINDS);
    let odd_taps = 1 << (order - 1);
    let from = rng.below(odd_taps);
    (0..odd_taps)
        .map(|i| 2 * ((from + i) % odd_taps) as u32 + 1)
        .find(|&taps| Short::of_taps(order, taps) == Some(kind))
        .unwrap_or(STILL_TAPS)
}
