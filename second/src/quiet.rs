//! Quiet recordings, drawn on both sides of the edge between a dead input and one that is kept.

use crate::response::{HIGHEST, LOWEST};
use crate::rng::Rng;

/// At least two samples, the largest 0 to 9 above the smallest and most often 5 to 9. `door/random.c` draws the same.
pub fn quiet(rng: &mut Rng, n: usize) -> Vec<i32> {
    let spread = if rng.once_in(3) {
        rng.between(0, 9)
    } else {
        rng.between(5, 9)
    };
    let smallest = smallest(rng, spread);
    // The others keep to a part of the spread, so that one sample alone can make it.
    let from = rng.between(0, spread);
    let to = rng.between(from, spread);
    let at_smallest = end_or_any(rng, n);
    let mut at_largest = end_or_any(rng, n);
    if at_largest == at_smallest {
        at_largest = (at_smallest + 1) % n;
    }
    let mut samples: Vec<i32> = (0..n)
        .map(|_| rng.between(smallest + from, smallest + to))
        .collect();
    samples[at_smallest] = smallest;
    samples[at_largest] = smallest + spread;
    samples
}

/// At a rail, next to one, around 0, near 0 or anywhere between the rails.
fn smallest(rng: &mut Rng, spread: i32) -> i32 {
    match rng.below(8) {
        0 => LOWEST,
        1 => HIGHEST - spread,
        2 => LOWEST + 1,
        3 => HIGHEST - 1 - spread,
        4 => -rng.between(0, spread),
        5 => rng.between(-100, 100),
        _ => rng.between(LOWEST + 1, HIGHEST - 1 - spread),
    }
}

/// The first place, the last or any.
fn end_or_any(rng: &mut Rng, n: usize) -> usize {
    match rng.below(3) {
        0 => 0,
        1 => n - 1,
        _ => rng.below(n),
    }
}
