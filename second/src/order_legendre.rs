//! The order of checks of a Legendre sequence's three calls, by request 10 of document 02. `door/order.c` makes the same calls through the C
//! door.

use crate::legendre::{one_recording, predict, sequence};
use crate::order::line;
use crate::order_shapes::BEYOND;
use crate::refusal::{number, Refusal};

/// The shortest period that is offered, as a length.
const SHORTEST: usize = 7;
/// A prime of the form 4m - 1, one of the form 4m + 1, and the number behind the shortest: none is offered.
const NOT_OFFERED: [u32; 3] = [3, 13, 8];

/// A recording or a response whose first sample is given, and which is zeros otherwise.
fn samples(first: i32, n: usize) -> Vec<i32> {
    let mut samples = vec![0; n];
    samples[0] = first;
    samples
}

fn heard(p: u32, first: i32, n: usize, out: usize) -> Result<(), Refusal> {
    one_recording(p, &samples(first, n), &mut vec![0; out])
}

fn predicted(p: u32, first: i32, n: usize, out: usize) -> Result<(), Refusal> {
    predict(p, &samples(first, n), &mut vec![0; out])
}

/// A response of 8388608 and zeros predicts 8388608 at place 1.
pub fn lines() -> Vec<String> {
    let mut lines = vec![];
    let mut add = |call: &str, checks, answer| {
        lines.push(line(&format!("legendre {call}"), checks, number(&answer)));
    };
    for p in NOT_OFFERED {
        let whole = p as usize;
        let short = whole - 1;
        add("sequence", "25 before 6", sequence(p, &mut vec![0; short]));
        add("recording", "25 before 5", heard(p, 1, short, whole));
        add("predict", "25 before 5", predicted(p, 1, short, whole));
    }
    let (p, whole, short) = (SHORTEST as u32, SHORTEST, SHORTEST - 1);
    for n in [short, whole + 1] {
        add("recording", "5 before 6", heard(p, 1, n, short));
        add("predict", "5 before 6", predicted(p, 1, n, short));
    }
    add("recording", "6 before 7", heard(p, BEYOND, whole, short));
    add("predict", "6 before 7", predicted(p, BEYOND, whole, short));
    add("predict", "7 before 8", predicted(p, BEYOND, whole, whole));
    lines
}
