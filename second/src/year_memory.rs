//! The year's memory, which is more than any call needs.

use crate::campaign::Lent;
use crate::numbers::digest;

pub const STORE: usize = 24_600;
pub const SUMS: usize = 600;
const RECORDING: usize = 2_600;

/// Place i of all but the recording holds i mod 7 at first, so that what a call may not touch shows.
#[derive(Clone, Debug, PartialEq, Eq)]
pub struct Memory {
    pub lent: Lent,
    pub r: Vec<i64>,
    pub means: Vec<i32>,
    pub wide: Vec<i64>,
    pub tags: Vec<u32>,
    pub recording: Vec<i32>,
}

fn filled<T: From<u8>>(length: usize) -> Vec<T> {
    (0..length).map(|i| T::from((i % 7) as u8)).collect()
}

impl Memory {
    pub fn fresh() -> Memory {
        Memory {
            lent: Lent {
                store: filled(STORE),
                sums: filled(SUMS),
            },
            r: filled(Lengths::WHOLE.r),
            means: filled(Lengths::WHOLE.means),
            wide: filled(Lengths::WHOLE.wide),
            tags: filled(Lengths::WHOLE.tags),
            recording: vec![0; RECORDING],
        }
    }
}

/// How much of each buffer a response or a summary is lent.
#[derive(Clone, Copy)]
pub struct Lengths {
    pub r: usize,
    pub means: usize,
    pub wide: usize,
    pub tags: usize,
}

impl Lengths {
    pub const WHOLE: Lengths = Lengths {
        r: 600,
        means: 600,
        wide: 600,
        tags: 1_100,
    };

    pub fn just_enough(p: usize) -> Lengths {
        Lengths {
            r: p,
            means: p,
            wide: p + 1,
            tags: p,
        }
    }
}

pub fn digest_of<T: Copy + Into<i64>>(values: &[T]) -> i64 {
    digest(values.iter().map(|&v| v.into()))
}
