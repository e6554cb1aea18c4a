//! Random recordings of every sort for random logs.

use crate::edge::KEPT_SPREAD;
use crate::judging::{verdict_on, Judged};
use crate::quiet::quiet;
use crate::register::{period, signal};
use crate::response::{predict, HIGHEST, LOWEST};
use crate::rng::Rng;

/// Mostly P samples; one in ten is too short.
pub fn recording(rng: &mut Rng, order: u32, taps: u32) -> Vec<i32> {
    let mut samples = match rng.below(16) {
        0..=3 => kept(rng, order, taps),
        4..=5 => noise(rng, order, 10),
        6..=7 => predicted(rng, order, taps),
        8 => loudest(rng, order, taps),
        9 => halving(rng, order),
        10..=11 => overloaded(rng, order),
        _ => quiet(rng, period(order)),
    };
    if rng.once_in(10) {
        let short = rng.pick(&[0, 1, samples.len() - 1, samples.len() / 2]);
        samples.truncate(short);
    }
    samples
}

/// A recording of P samples that is neither overloaded nor dead: what is one of them is drawn again.
pub fn kept(rng: &mut Rng, order: u32, taps: u32) -> Vec<i32> {
    loop {
        let samples = match rng.below(8) {
            0 => loudest(rng, order, taps),
            1 => sparse(rng, order),
            2..=5 => quiet(rng, period(order)),
            _ => noise(rng, order, 8_388_606),
        };
        if verdict_on(&samples) == Judged::Kept {
            return samples;
        }
    }
}

pub fn noise(rng: &mut Rng, order: u32, size: i32) -> Vec<i32> {
    (0..period(order))
        .map(|_| rng.between(-size, size))
        .collect()
}

fn sparse(rng: &mut Rng, order: u32) -> Vec<i32> {
    let mut samples = vec![0; period(order)];
    let place = rng.below(samples.len());
    samples[place] = rng.pick(&[8, -8, 9, 8_388_606, -8_388_607, 4_194_304]);
    if order > 2 && rng.once_in(2) {
        let other = rng.below(samples.len());
        samples[other] = rng.between(-1000, 1000);
    }
    samples
}

/// From a small response, so that r is a multiple of P+1.
fn predicted(rng: &mut Rng, order: u32, taps: u32) -> Vec<i32> {
    let p = period(order);
    let mut h = vec![0; p];
    for _ in 0..rng.between(1, 5) {
        h[rng.below(p)] = rng.between(-99, 99);
    }
    let mut samples = vec![0; p];
    predict(order, taps, &h, &mut samples).expect("a small response stays in range");
    samples
}

/// Next to the rails, in step with the signal: one mean is as large as can be.
fn loudest(rng: &mut Rng, order: u32, taps: u32) -> Vec<i32> {
    let signs = signal(order, taps);
    let turn = rng.below(signs.len());
    let (plus, minus) = rng.pick(&[(8_388_606, -8_388_607), (-8_388_607, 8_388_606)]);
    let sample = |j: usize| {
        if signs[(j + turn) % signs.len()] > 0 {
            plus
        } else {
            minus
        }
    };
    (0..signs.len()).map(sample).collect()
}

/// One impulse whose r is an odd number of halves of P+1; where it would be dead it is tripled, which keeps the number odd.
fn halving(rng: &mut Rng, order: u32) -> Vec<i32> {
    let p = period(order);
    let mut samples = vec![0; p];
    let odd = 2 * rng.between(-4, 4) + 1;
    let mut impulse = odd * (p as i32 + 1) / 4;
    while i64::from(impulse.abs()) < KEPT_SPREAD {
        impulse *= 3;
    }
    samples[rng.below(p)] = impulse;
    samples
}

fn overloaded(rng: &mut Rng, order: u32) -> Vec<i32> {
    let rail = rng.pick(&[LOWEST, HIGHEST]);
    let mut samples = match rng.below(3) {
        // All at one rail: overloaded comes before dead.
        0 => return vec![rail; period(order)],
        1 => vec![0; period(order)],
        _ => noise(rng, order, 8_388_606),
    };
    let last = samples.len() - 1;
    let middle = rng.below(samples.len());
    samples[rng.pick(&[0, last, middle])] = rail;
    samples
}
