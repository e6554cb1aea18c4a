//! A night's recording as it is brought to be judged and filed: one period, or by request 1 of 02 a capture of several behind a run-in.

use crate::refusal::Refusal;
use crate::response::in_sample_range;

/// The most periods that a capture may keep.
pub const MOST_PERIODS: u32 = 16;

/// How many periods a capture has before the first that counts.
const RUN_IN: usize = 1;

#[derive(Clone, Copy, Debug, PartialEq, Eq)]
pub struct Night<'a> {
    run_in: usize,
    m: u32,
    pub samples: &'a [i32],
}

impl<'a> Night<'a> {
    pub fn one_period(samples: &'a [i32]) -> Night<'a> {
        Night {
            run_in: 0,
            m: 1,
            samples,
        }
    }

    pub fn capture(m: u32, samples: &'a [i32]) -> Night<'a> {
        Night {
            run_in: RUN_IN,
            m,
            samples,
        }
    }

    /// The samples that count, for a night of the right length: those after the run-in.
    pub fn judged(&self, p: usize) -> &'a [i32] {
        &self.samples[self.run_in * p..]
    }

    /// Refusals 18, which one period never meets, 5 and 7.
    pub fn check(&self, p: usize) -> Result<(), Refusal> {
        let m = check_periods(self.m)?;
        // The run-in and the m periods that count, neither more nor less.
        if self.samples.len() != (self.run_in + m) * p {
            return Err(Refusal::WrongLength);
        }
        if !self.samples.iter().all(|&v| in_sample_range(i64::from(v))) {
            return Err(Refusal::ValueOutsideRange);
        }
        Ok(())
    }
}

/// Refusal 18.
pub fn check_periods(m: u32) -> Result<usize, Refusal> {
    if (1..=MOST_PERIODS).contains(&m) {
        Ok(m as usize)
    } else {
        Err(Refusal::PeriodsOutOfRange)
    }
}

/// How many samples a capture of m has, its run-in with them.
pub fn capture_length(m: usize, p: usize) -> usize {
    (RUN_IN + m) * p
}

/// Whole periods summed place by place.
pub fn summed(samples: &[i32], p: usize) -> Vec<i32> {
    (0..p)
        .map(|place| samples.iter().skip(place).step_by(p).sum())
        .collect()
}
