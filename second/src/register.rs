//! The register: its taps, its period and its sequence.

use crate::refusal::Refusal;

/// P = 2^N - 1.
pub fn period(order: u32) -> usize {
    (1 << order) - 1
}

/// A window of N ones.
pub fn all_ones(order: u32) -> u32 {
    (1 << order) - 1
}

/// The window one step on; bit i of a window is the bit i steps ahead.
pub fn next_window(order: u32, taps: u32, window: u32) -> u32 {
    let new_bit = (window & taps).count_ones() % 2;
    (window >> 1) | (new_bit << (order - 1))
}

/// Refusals 1, 2, 3.
pub fn check_form(order: u32, taps: u32) -> Result<(), Refusal> {
    if !(2..=16).contains(&order) {
        return Err(Refusal::OrderOutOfRange);
    }
    if taps >= 1 << order {
        return Err(Refusal::TapsNotBelow);
    }
    if taps & 1 == 0 {
        return Err(Refusal::Tap0Clear);
    }
    Ok(())
}

/// Steps until the window of ones comes back; with tap 0 set it always does.
pub fn first_return(order: u32, taps: u32) -> usize {
    let mut window = next_window(order, taps, all_ones(order));
    let mut steps = 1;
    while window != all_ones(order) {
        window = next_window(order, taps, window);
        steps += 1;
    }
    steps
}

/// P, where the register first returns to all ones after P steps. Refusals 1, 2, 3, 4.
pub fn check_taps(order: u32, taps: u32) -> Result<usize, Refusal> {
    check_form(order, taps)?;
    let first_return = first_return(order, taps);
    if first_return != period(order) {
        return Err(Refusal::NotMaximal { first_return });
    }
    Ok(first_return)
}

/// s(0) to s(P-1) by the recurrence itself, for accepted taps.
fn recurrence_bits(order: u32, taps: u32) -> Vec<u8> {
    let n = order as usize;
    let mut s = vec![1u8; n];
    for k in 0..period(order) - n {
        let sum: u8 = (0..n)
            .filter(|i| taps >> i & 1 == 1)
            .map(|i| s[k + i])
            .sum();
        s.push(sum % 2);
    }
    s
}

/// Writes s(0) to s(P-1), and gives P. Refusals 1, 2, 3, 4, 6.
pub fn sequence(order: u32, taps: u32, bits: &mut [u8]) -> Result<usize, Refusal> {
    let p = check_taps(order, taps)?;
    if bits.len() < p {
        return Err(Refusal::RoomTooShort);
    }
    bits[..p].copy_from_slice(&recurrence_bits(order, taps));
    Ok(p)
}

/// x(0) to x(P-1), x(k) = 1 - 2·s(k), for accepted taps.
pub fn signal(order: u32, taps: u32) -> Vec<i64> {
    let bits = recurrence_bits(order, taps);
    bits.iter().map(|&s| 1 - 2 * i64::from(s)).collect()
}

/// Refusal 1.
pub fn default_taps(order: u32) -> Result<u32, Refusal> {
    match order {
        2 | 3 | 4 | 6 | 7 | 15 => Ok(3),
        5 | 11 => Ok(5),
        8 => Ok(29),
        9 => Ok(17),
        10 => Ok(9),
        12 => Ok(83),
        13 => Ok(27),
        14 => Ok(43),
        16 => Ok(45),
        _ => Err(Refusal::OrderOutOfRange),
    }
}
