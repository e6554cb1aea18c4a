//! Random captures of every sort for random logs.

use crate::night::{capture_length, MOST_PERIODS};
use crate::open_day::PROGRAM_PERIODS;
use crate::quiet::quiet;
use crate::recordings::{kept, noise};
use crate::register::period;
use crate::response::{HIGHEST, LOWEST};
use crate::rng::Rng;

/// A run-in and m periods as a log brings them, whole or cut short.
pub struct Capture {
    pub m: u8,
    pub samples: Vec<i32>,
}

/// From this order on captures are short, so that logs stay small.
const LONG_ORDER: u32 = 6;
/// More samples than this are not brought of a capture that the program only counts.
const MOST_COUNTED: usize = 800;
const MOST: u8 = MOST_PERIODS as u8;

pub fn capture(rng: &mut Rng, order: u32, taps: u32) -> Capture {
    let m = any_periods(rng, order);
    if (1..=PROGRAM_PERIODS).contains(&m) {
        taken(rng, order, taps, m)
    } else {
        counted(rng, order, m)
    }
}

/// Half of them so many that the program takes them.
fn any_periods(rng: &mut Rng, order: u32) -> u8 {
    let few = if order < LONG_ORDER {
        PROGRAM_PERIODS
    } else {
        2
    };
    match rng.below(16) {
        0..=7 => 1 + rng.below(usize::from(few)) as u8,
        8 => 0,
        9 => PROGRAM_PERIODS + 1,
        10 => rng.between(i32::from(PROGRAM_PERIODS) + 2, i32::from(MOST) - 1) as u8,
        11 => MOST,
        12 => MOST + 1,
        13 => rng.between(i32::from(MOST) + 2, i32::from(u8::MAX) - 1) as u8,
        14 => u8::MAX,
        _ => rng.byte(),
    }
}

/// Any samples, none of them kept: none, a few, or all where they are not too many.
fn counted(rng: &mut Rng, order: u32, m: u8) -> Capture {
    let p = period(order);
    let limit = capture_length(usize::from(m), p);
    let most = limit.min(2 * p);
    let n = match rng.below(4) {
        0 => 0,
        1 => 1 + rng.below(most),
        _ if limit <= MOST_COUNTED => limit,
        _ => most,
    };
    let loud = rng.pick(&[9, HIGHEST]);
    let samples = (0..n).map(|_| rng.between(-loud, loud)).collect();
    Capture { m, samples }
}

/// Mostly whole; one in eight is too short.
fn taken(rng: &mut Rng, order: u32, taps: u32, m: u8) -> Capture {
    let mut samples = run_in(rng, order);
    samples.extend(counting(rng, order, taps, m));
    if rng.once_in(8) {
        let (p, n) = (period(order), samples.len());
        samples.truncate(rng.pick(&[0, 1, p, n - p, n - 1]));
    }
    Capture { m, samples }
}

/// A capture that is kept.
pub fn kept_capture(rng: &mut Rng, order: u32, taps: u32, m: u8) -> Capture {
    let mut samples = run_in(rng, order);
    samples.extend(kept_periods(rng, order, taps, m));
    Capture { m, samples }
}

/// All at a rail, one at a rail, still, or loud between the rails.
fn run_in(rng: &mut Rng, order: u32) -> Vec<i32> {
    let p = period(order);
    let rail = rng.pick(&[LOWEST, HIGHEST]);
    let mut samples = match rng.below(5) {
        0 => return vec![rail; p],
        1 => return vec![rng.between(-9, 9); p],
        2 => vec![0; p],
        _ => noise(rng, order, HIGHEST - 1),
    };
    if rng.once_in(2) {
        let place = rng.below(p);
        samples[place] = rail;
    }
    samples
}

/// The m periods that count.
fn counting(rng: &mut Rng, order: u32, taps: u32, m: u8) -> Vec<i32> {
    let p = period(order);
    let n = usize::from(m) * p;
    match rng.below(12) {
        0..=2 => kept_periods(rng, order, taps, m),
        3 => kept(rng, order, taps).repeat(usize::from(m)),
        4..=6 => quiet(rng, n),
        7 => still_periods(rng, p, m),
        8 => cancelling_periods(rng, order, taps, m),
        _ => overloaded(rng, order, taps, m),
    }
}

/// Each period is one that would be kept by itself.
fn kept_periods(rng: &mut Rng, order: u32, taps: u32, m: u8) -> Vec<i32> {
    (0..m).flat_map(|_| kept(rng, order, taps)).collect()
}

/// Each period is still and lies at a level of its own: dead alone, kept together where two levels are far enough apart.
fn still_periods(rng: &mut Rng, p: usize, m: u8) -> Vec<i32> {
    let mut level = rng.between(-20, 20);
    let mut period = || {
        level += rng.between(1, 12);
        vec![level; p]
    };
    (0..m).flat_map(|_| period()).collect()
}

/// Each second period is the one before it upside down, so that two sum to the same at every place, half the time to 0.
fn cancelling_periods(rng: &mut Rng, order: u32, taps: u32, m: u8) -> Vec<i32> {
    let period = kept(rng, order, taps);
    // The lowest sample upside down is at the rail, and one less is not.
    let less = i32::from(rng.once_in(2) || period.contains(&(LOWEST + 1)));
    let turned: Vec<i32> = period.iter().map(|v| -v - less).collect();
    let pair = [period, turned].concat();
    let whole = pair.len() / 2 * usize::from(m);
    pair.into_iter().cycle().take(whole).collect()
}

/// A rail at the first place, the last or any, once in three times at two places.
fn overloaded(rng: &mut Rng, order: u32, taps: u32, m: u8) -> Vec<i32> {
    let mut samples = if rng.once_in(2) {
        kept_periods(rng, order, taps, m)
    } else {
        vec![0; usize::from(m) * period(order)]
    };
    let rails = if rng.once_in(3) { 2 } else { 1 };
    for _ in 0..rails {
        let last = samples.len() - 1;
        let any = rng.below(samples.len());
        let place = rng.pick(&[0, last, any]);
        samples[place] = rng.pick(&[LOWEST, HIGHEST]);
    }
    samples
}
