//! Legendre sequences, by request 10 of 02 and the rule of document 001: the sequence, one recording and a prediction.

use crate::refusal::Refusal;
use crate::response::{checked, prediction_by, response_to};

/// The periods that are offered.
pub const PERIODS: [u32; 15] = [7, 11, 19, 23, 31, 43, 47, 59, 67, 71, 79, 83, 103, 107, 127];

/// The period as a length. Refusal 25.
pub fn check_period(p: u32) -> Result<usize, Refusal> {
    if !PERIODS.contains(&p) {
        return Err(Refusal::PeriodNotOffered);
    }
    Ok(p as usize)
}

fn is_square(n: usize, p: usize) -> bool {
    (0..p).any(|i| i * i % p == n)
}

/// x(0) to x(p-1) by the rule itself, for any p above 0. Place 0 is -1 though 0 is a square.
pub fn signal(p: usize) -> Vec<i64> {
    let sign = |n: usize| if n != 0 && is_square(n, p) { 1 } else { -1 };
    (0..p).map(sign).collect()
}

/// Writes the bits s(0) to s(p-1): bit 1 is -1, bit 0 is +1. Refusals 25, 6.
pub fn sequence(p: u32, bits: &mut [u8]) -> Result<(), Refusal> {
    let p = check_period(p)?;
    if bits.len() < p {
        return Err(Refusal::RoomTooShort);
    }
    for (bit, x) in bits.iter_mut().zip(signal(p)) {
        *bit = u8::from(x == -1);
    }
    Ok(())
}

/// Writes r(0) to r(p-1). Refusals 25, 5, 6, 7.
pub fn one_recording(p: u32, recording: &[i32], r: &mut [i64]) -> Result<(), Refusal> {
    let p = check_period(p)?;
    let y = checked(p, recording, r.len() < p)?;
    r[..p].copy_from_slice(&response_to(&signal(p), &y));
    Ok(())
}

/// Writes the predicted recording. Refusals 25, 5, 6, 7, 8.
pub fn predict(p: u32, h: &[i32], y: &mut [i32]) -> Result<(), Refusal> {
    let p = check_period(p)?;
    let h = checked(p, h, y.len() < p)?;
    y[..p].copy_from_slice(&prediction_by(&signal(p), &h)?);
    Ok(())
}
