//! The nights that are drawn for a campaign of the door. `door/random.c` draws the same.

use crate::door::samples;
use crate::night::{capture_length, MOST_PERIODS};
use crate::response::{HIGHEST, LOWEST};
use crate::rng::Rng;

/// More periods than any capture may have, few enough to bring all their samples.
const ONE_TOO_MANY: u32 = MOST_PERIODS + 1;

pub fn any_day(rng: &mut Rng) -> u16 {
    if rng.once_in(20) {
        rng.pick(&[0, 367, 366, 400])
    } else {
        1 + rng.below(6) as u16
    }
}

/// The length of one period, one in fifteen a sample too short or too long.
pub fn about_a_period(rng: &mut Rng, p: usize) -> usize {
    if rng.once_in(15) {
        p - 1 + 2 * rng.below(2)
    } else {
        p
    }
}

pub fn one_period(rng: &mut Rng, p: usize) -> Vec<i32> {
    let n = about_a_period(rng, p);
    samples(rng, n)
}

/// Most often in range; the largest is one whose m+1 is no 32-bit number.
pub fn any_periods(rng: &mut Rng) -> u32 {
    const MOST: u32 = MOST_PERIODS;
    rng.pick(&[
        0,
        1,
        1,
        2,
        2,
        3,
        4,
        5,
        MOST,
        MOST,
        ONE_TOO_MANY,
        255,
        u32::MAX,
    ])
}

/// A run-in and m periods, one in five a sample or a period too short or too long.
pub fn capture(rng: &mut Rng, m: u32, p: usize) -> Vec<i32> {
    let n = drawn_length(rng, m, p);
    if n == 0 {
        return vec![];
    }
    if n <= p {
        return samples(rng, n);
    }
    let mut capture = run_in(rng, p);
    capture.extend(counting(rng, n - p, p));
    capture
}

fn drawn_length(rng: &mut Rng, m: u32, p: usize) -> usize {
    if m > ONE_TOO_MANY {
        return p * rng.below(3);
    }
    let n = capture_length(m as usize, p);
    match rng.below(20) {
        0 => n - 1,
        1 => n + 1,
        2 => n - p,
        3 => n + p,
        _ => n,
    }
}

/// All at a rail, one at a rail, one above the range, or small ones.
fn run_in(rng: &mut Rng, p: usize) -> Vec<i32> {
    let style = rng.below(8);
    let loud = rng.below(p);
    let rail = rng.pick(&[HIGHEST, LOWEST]);
    let mut sample = |j: usize| match style {
        0 | 1 => rail,
        2 | 3 if j == loud => rail,
        4 if j == loud => HIGHEST + 1,
        _ => rng.between(-50, 50),
    };
    (0..p).map(&mut sample).collect()
}

/// Any samples, now and then with a rail at the first place or at the last; or each place next to a rail in every period, which sums to a
/// slot's bounds; or each second period the one before it upside down, of which an even number sums to zeros.
fn counting(rng: &mut Rng, n: usize, p: usize) -> Vec<i32> {
    match rng.below(8) {
        0 => return (0..n).map(|j| next_to_a_rail(j % p)).collect(),
        1 => {
            return (0..n)
                .map(|j| if j / p % 2 == 0 { 9 } else { -9 })
                .collect()
        }
        _ => {}
    }
    let mut counting = samples(rng, n);
    if rng.once_in(6) {
        let end = rng.pick(&[0, n - 1]);
        counting[end] = rng.pick(&[HIGHEST, LOWEST]);
    }
    counting
}

fn next_to_a_rail(place: usize) -> i32 {
    if place % 2 == 0 {
        LOWEST + 1
    } else {
        HIGHEST - 1
    }
}
