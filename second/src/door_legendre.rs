//! The door's Legendre sequences: the three calls at a drawn period. `door/random.c` makes the same calls.

use crate::door::{filled, near, samples};
use crate::door_nights::about_a_period;
use crate::legendre::{one_recording, predict, sequence, PERIODS};
use crate::refusal::number;
use crate::response::HIGHEST;
use crate::rng::Rng;
use crate::year_memory::digest_of;

/// The lines of one case.
pub fn legendre_case(rng: &mut Rng) -> Vec<String> {
    let p = any_period(rng);
    vec![
        sequence_line(rng, p),
        recording_line(rng, p),
        predict_line(rng, p),
    ]
}

/// One in six is not offered: 0, another prime, the largest number, one beside an offered period, or one with higher bits.
pub fn any_period(rng: &mut Rng) -> u32 {
    let offered = rng.pick(&PERIODS);
    match rng.below(30) {
        0 => rng.pick(&[0, 3, 13, 17, 131, u32::MAX]),
        1 => offered - 1,
        2 => offered + 1,
        3 => offered + (1 << 8),
        4 => offered + (1 << 16),
        _ => offered,
    }
}

/// The lowest byte of the period, so that one who looks at no more of it finds all lengths right.
fn places(p: u32) -> usize {
    const TOO_FEW: usize = 2;
    match (p % 256) as usize {
        0..=TOO_FEW => PERIODS[0] as usize,
        places => places,
    }
}

fn sequence_line(rng: &mut Rng, p: u32) -> String {
    let mut bits: Vec<u8> = filled(near(rng, places(p)));
    let answer = number(&sequence(p, &mut bits));
    format!("legendre sequence {answer} {}", digest_of(&bits))
}

fn recording_line(rng: &mut Rng, p: u32) -> String {
    let n = about_a_period(rng, places(p));
    let mut r: Vec<i64> = filled(near(rng, places(p)));
    let answer = number(&one_recording(p, &samples(rng, n), &mut r));
    format!("legendre recording {answer} {}", digest_of(&r))
}

fn predict_line(rng: &mut Rng, p: u32) -> String {
    let n = about_a_period(rng, places(p));
    let mut y: Vec<i32> = filled(near(rng, places(p)));
    let answer = number(&predict(p, &response(rng, n), &mut y));
    format!("legendre predict {answer} {}", digest_of(&y))
}

/// Any samples; or every second time ones of a size at which some predictions stay in range and some do not.
fn response(rng: &mut Rng, n: usize) -> Vec<i32> {
    if rng.once_in(2) {
        return samples(rng, n);
    }
    let most = HIGHEST / rng.between(2, n as i32);
    (0..n).map(|_| rng.between(-most, most)).collect()
}
