//! One recording turned into a response, and a predicted recording.

use crate::refusal::Refusal;
use crate::register::{check_taps, signal};
use crate::room::Room;

pub const LOWEST: i32 = -8_388_608;
pub const HIGHEST: i32 = 8_388_607;

pub fn in_sample_range(value: i64) -> bool {
    (i64::from(LOWEST)..=i64::from(HIGHEST)).contains(&value)
}

/// For each k the sum over j of values(j)·cycle(j-k).
/// The cycle is laid out twice, so that each shift is one plain slice.
fn sums_at_all_shifts(values: &[i64], cycle: &[i64]) -> Vec<i64> {
    let p = cycle.len();
    let twice = [cycle, cycle].concat();
    let at_shift = |k: usize| {
        let shifted = &twice[p - k..2 * p - k];
        values.iter().zip(shifted).map(|(v, x)| v * x).sum()
    };
    (0..p).map(at_shift).collect()
}

/// r(k) = c(k) minus the sum of all y(j), for one period of a signal and as many numbers.
pub fn response_to(signal: &[i64], y: &[i64]) -> Vec<i64> {
    let total: i64 = y.iter().sum();
    let c = sums_at_all_shifts(y, signal);
    c.iter().map(|c| c - total).collect()
}

/// The same, for accepted taps and P numbers.
pub fn direct_response(order: u32, taps: u32, y: &[i64]) -> Vec<i64> {
    response_to(&signal(order, taps), y)
}

/// y(j), the sum over i of h(i)·x(j-i), for one period of a signal and as many numbers. Refusal 8.
pub fn prediction_by(signal: &[i64], h: &[i64]) -> Result<Vec<i32>, Refusal> {
    // x(j-i) is place i-j of the signal read backwards in time.
    let mut backwards = signal.to_vec();
    backwards[1..].reverse();
    let predicted = sums_at_all_shifts(h, &backwards);
    if !predicted.iter().all(|&v| in_sample_range(v)) {
        return Err(Refusal::PredictedOutsideRange);
    }
    Ok(predicted.iter().map(|&v| v as i32).collect())
}

/// The samples of a recording or a response as wide numbers. Refusals 5, 6, 7; `short` says whether what is lent is too short.
pub fn checked(p: usize, samples: &[i32], short: bool) -> Result<Vec<i64>, Refusal> {
    if samples.len() != p {
        return Err(Refusal::WrongLength);
    }
    if short {
        return Err(Refusal::RoomTooShort);
    }
    let wide: Vec<i64> = samples.iter().map(|&v| i64::from(v)).collect();
    if !wide.iter().all(|&v| in_sample_range(v)) {
        return Err(Refusal::ValueOutsideRange);
    }
    Ok(wide)
}

/// Writes r(0) to r(P-1), and gives P. Refusals 1 to 7.
pub fn one_recording(
    order: u32,
    taps: u32,
    recording: &[i32],
    r: &mut [i64],
    room: &mut Room,
) -> Result<usize, Refusal> {
    let p = check_taps(order, taps)?;
    let short = r.len() < p || room.check(p).is_err();
    let y = checked(p, recording, short)?;
    r[..p].copy_from_slice(&direct_response(order, taps, &y));
    room.clear(p);
    Ok(p)
}

/// The predicted recording, where nothing is refused. Refusals 1 to 8; `short` says of P whether what is lent is too short.
fn predicted(
    order: u32,
    taps: u32,
    h: &[i32],
    short: impl Fn(usize) -> bool,
) -> Result<Vec<i32>, Refusal> {
    let p = check_taps(order, taps)?;
    let h = checked(p, h, short(p))?;
    prediction_by(&signal(order, taps), &h)
}

/// Writes the predicted recording, and gives P.
pub fn predict(order: u32, taps: u32, h: &[i32], y: &mut [i32]) -> Result<usize, Refusal> {
    let samples = predicted(order, taps, h, |p| y.len() < p)?;
    y[..samples.len()].copy_from_slice(&samples);
    Ok(samples.len())
}

/// The same with a lent room of P+1 wide numbers: 6 also where that is too short. On success the room holds zeros, and a longer one
/// keeps its tail.
pub fn predict_in_room(
    order: u32,
    taps: u32,
    h: &[i32],
    y: &mut [i32],
    wide: &mut [i64],
) -> Result<usize, Refusal> {
    let samples = predicted(order, taps, h, |p| y.len() < p || wide.len() < p + 1)?;
    y[..samples.len()].copy_from_slice(&samples);
    wide[..samples.len() + 1].fill(0);
    Ok(samples.len())
}
