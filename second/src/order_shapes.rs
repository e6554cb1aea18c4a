//! The captures of the order of checks, by their run-in and what stands behind it.

use crate::order::P;
use crate::response::HIGHEST;

/// The first sample of a recording of zeros whose spread is the smallest that is kept.
pub const KEPT: i32 = 8;
pub const BEYOND: i32 = HIGHEST + 1;

/// A capture's samples: the run-in is P of `run_in`, and behind it stand `first`, as many `other` as it takes, and `last`.
#[derive(Clone, Copy)]
pub struct Shape {
    pub n: usize,
    pub run_in: i32,
    pub first: i32,
    pub other: i32,
    pub last: i32,
}

impl Shape {
    pub fn samples(&self) -> Vec<i32> {
        let sample = |j: usize| match j {
            0..P => self.run_in,
            P => self.first,
            _ if j + 1 == self.n => self.last,
            _ => self.other,
        };
        (0..self.n).map(sample).collect()
    }
}

/// One period behind the run-in, kept.
pub const WHOLE: Shape = Shape {
    n: 2 * P,
    run_in: 0,
    first: KEPT,
    other: 0,
    last: 0,
};

/// As much of a kept capture as `n` samples.
pub fn plain(n: usize) -> Shape {
    Shape { n, ..WHOLE }
}

/// The same behind a run-in that is beyond the range.
pub fn beyond(n: usize) -> Shape {
    Shape {
        run_in: BEYOND,
        ..plain(n)
    }
}

/// One period. The run-in is at a rail, so that one who judges it finds an overload.
pub fn one(first: i32, other: i32, last: i32) -> Shape {
    Shape {
        n: 2 * P,
        run_in: HIGHEST,
        first,
        other,
        last,
    }
}

/// Two periods behind such a run-in.
pub fn two(first: i32, other: i32, last: i32) -> Shape {
    Shape {
        n: 3 * P,
        ..one(first, other, last)
    }
}
