//! The year of docs/YEAR.md: two campaigns that meet every verdict and every refusal.

use crate::campaign::DAYS;
use crate::response::{HIGHEST, LOWEST};
use crate::year_calls::{Calls, Start};
use crate::year_memory::Lengths;
use std::io::{self, Write};

/// Each day comes twice.
pub const VISITS: usize = 2 * DAYS;
pub const REFUSED_AFTER: usize = 365;

/// A campaign of the year; a day is withdrawn `lag` visits after its own.
#[derive(Clone, Copy)]
pub struct Plan {
    pub order: u32,
    pub taps: u32,
    pub slots: u32,
    pub lag: usize,
    /// A capture has at most so many periods.
    pub most_periods: usize,
}

pub const PLANS: [Plan; 2] = [
    Plan {
        order: 3,
        taps: 3,
        slots: 5,
        lag: 6,
        most_periods: 16,
    },
    Plan {
        order: 9,
        taps: 17,
        slots: 48,
        lag: 60,
        most_periods: 4,
    },
];

pub fn day_of(visit: usize) -> u16 {
    (149 * visit % DAYS) as u16 + 1
}

/// What a visit brings: one period, or a capture of m behind its run-in.
#[derive(Clone, Copy, Debug, PartialEq, Eq)]
pub enum Brought {
    OnePeriod,
    Capture { m: usize },
}

impl Brought {
    pub fn at(visit: usize, most_periods: usize) -> Brought {
        match visit % 5 {
            2 | 4 => Brought::Capture {
                m: visit / 5 % most_periods + 1,
            },
            _ => Brought::OnePeriod,
        }
    }

    /// The lengths of the run-in and of what counts.
    pub fn lengths(self, p: usize) -> (usize, usize) {
        match self {
            Brought::OnePeriod => (0, p),
            Brought::Capture { m } => (p, m * p),
        }
    }

    fn length(self, p: usize) -> usize {
        let (run_in, counting) = self.lengths(p);
        run_in + counting
    }
}

/// The samples of a quiet visit that count: b is the smallest, and the largest is s above it.
fn quiet(visit: usize, n: usize) -> Vec<i32> {
    let s = visit / 11 % 10;
    let b = match visit % 3 {
        0 => LOWEST + 1,
        1 => HIGHEST - 1 - s as i32,
        _ => (visit % 200) as i32 - 100,
    };
    let sample = |j| b + (31 * visit * j % (s + 1)) as i32;
    let mut samples: Vec<i32> = (0..n).map(sample).collect();
    samples[visit % n] = b;
    samples[(visit + 3) % n] = b + s as i32;
    samples
}

/// The samples of a visit, its run-in with them: kept as a rule, overloaded or quiet by the visit's number.
pub fn recording(visit: usize, p: usize, brought: Brought) -> Vec<i32> {
    let (run_in, counting) = brought.lengths(p);
    let sample = |j| ((7_919 * visit + 104_729 * j + 31 * visit * j) % 16_777_213) as i32;
    let whole = 0..run_in + counting;
    let mut samples: Vec<i32> = whole.map(|j| sample(j) - 8_388_606).collect();
    if run_in > 0 {
        // A rail that is dropped with the run-in.
        samples[visit % p] = HIGHEST;
    }
    let counted = &mut samples[run_in..];
    match visit % 11 {
        3 => {
            counted[visit % counting] = if visit % 2 == 1 { HIGHEST } else { LOWEST };
            counted[counting - 1] = HIGHEST;
        }
        7 => counted.copy_from_slice(&quiet(visit, counting)),
        _ => {}
    }
    samples
}

pub fn print(out: &mut impl Write) -> io::Result<()> {
    for plan in PLANS {
        for line in lines(plan) {
            writeln!(out, "{line}")?;
        }
    }
    Ok(())
}

/// Every line of one campaign.
pub fn lines(plan: Plan) -> Vec<String> {
    let mut calls = begin(plan);
    ask(&mut calls);
    for i in 0..VISITS {
        visit(&mut calls, plan, i);
        if i == REFUSED_AFTER {
            be_refused(&mut calls);
        }
    }
    for i in VISITS - plan.lag..VISITS {
        calls.withdraw(day_of(i));
    }
    ask(&mut calls);
    calls.lines
}

pub fn begin(plan: Plan) -> Calls {
    Calls::begin(&Start::with_whole_memory(plan.order, plan.taps, plan.slots))
}

/// Visit i but for being refused.
pub fn visit(calls: &mut Calls, plan: Plan, i: usize) {
    let brought = Brought::at(i, plan.most_periods);
    make_recording(calls, i, brought);
    enter(calls, day_of(i), brought);
    if i % 13 == 5 {
        enter(calls, day_of(i), brought);
    }
    if i >= plan.lag {
        calls.withdraw(day_of(i - plan.lag));
    }
    if i % 61 == 60 {
        ask(calls);
    }
}

/// What is longer of an earlier recording stays behind this one.
fn make_recording(calls: &mut Calls, visit: usize, brought: Brought) {
    let samples = recording(visit, calls.campaign.p(), brought);
    calls.memory.recording[..samples.len()].copy_from_slice(&samples);
}

/// Enters the whole recording at hand, as what it is.
fn enter(calls: &mut Calls, day: u16, brought: Brought) {
    let length = brought.length(calls.campaign.p());
    match brought {
        Brought::OnePeriod => calls.enter(day, length),
        Brought::Capture { m } => calls.capture(day, m as u32, length),
    }
}

fn ask(calls: &mut Calls) {
    calls.counts();
    calls.response(Lengths::WHOLE);
    calls.summary(Lengths::WHOLE);
    calls.memory();
}

/// Every refusal that the visits do not bring, with the recording of visit 365 at hand, and the two calls that just enough room is lent to.
pub fn be_refused(calls: &mut Calls) {
    refused_entries(calls);
    refused_captures(calls);
    calls.withdraw(0);
    calls.withdraw(367);
    short_rooms(calls);
    just_enough_room(calls);
    spoiled_sum(calls);
    refused_starts(calls);
    let mut too_loud = vec![0; calls.campaign.p()];
    too_loud[..2].fill(HIGHEST);
    calls.predict(&too_loud);
    calls.step(0);
    calls.step(1 << calls.campaign.order);
    calls.memory();
}

fn refused_entries(calls: &mut Calls) {
    let p = calls.campaign.p();
    calls.enter(0, p);
    calls.enter(367, p);
    calls.enter(1, p - 1);
    calls.enter(1, p + 1);
    for outside in [HIGHEST + 1, LOWEST - 1] {
        calls.memory.recording[0] = outside;
        calls.enter(1, p);
    }
}

/// The recording's sample 0 is outside the range.
fn refused_captures(calls: &mut Calls) {
    let p = calls.campaign.p();
    calls.capture(0, 17, p);
    calls.capture(1, 0, p);
    calls.capture(1, 17, p);
    for length in [2 * p - 1, 2 * p + 1, 2 * p] {
        calls.capture(1, 1, length);
    }
}

fn short_rooms(calls: &mut Calls) {
    let p = calls.campaign.p();
    let whole = Lengths::WHOLE;
    let short_wide = Lengths { wide: p, ..whole };
    let short_tags = Lengths {
        tags: p - 1,
        ..whole
    };
    calls.response(Lengths { r: p - 1, ..whole });
    calls.response(Lengths {
        means: p - 1,
        ..whole
    });
    for short in [short_wide, short_tags] {
        calls.response(short);
    }
    for short in [short_wide, short_tags] {
        calls.summary(short);
    }
}

/// That these are accepted shows that each short room was refused for the one place it lacks.
fn just_enough_room(calls: &mut Calls) {
    let just_enough = Lengths::just_enough(calls.campaign.p());
    calls.response(just_enough);
    calls.summary(just_enough);
}

/// A record whose sums are not the totals does not hold together.
fn spoiled_sum(calls: &mut Calls) {
    calls.memory.lent.sums[0] += 1;
    make_recording(calls, REFUSED_AFTER, Brought::OnePeriod);
    enter(calls, 1, Brought::OnePeriod);
    calls.withdraw(1);
    calls.counts();
    calls.response(Lengths::WHOLE);
    calls.summary(Lengths::WHOLE);
    calls.memory.lent.sums[0] -= 1;
}

fn refused_starts(calls: &mut Calls) {
    let campaign = &calls.campaign;
    let p = campaign.p();
    let own = Start::with_whole_memory(campaign.order, campaign.taps, campaign.slots);
    let store = own.slots as usize * p - 1;
    let taps = 1 << own.order;
    for asked in [
        Start { order: 1, ..own },
        Start { order: 17, ..own },
        Start { taps, ..own },
        Start { taps: 2, ..own },
        Start { taps: 1, ..own },
        Start { slots: 0, ..own },
        Start { slots: 65, ..own },
        Start { store, ..own },
        Start { sums: p - 1, ..own },
    ] {
        calls.start(&asked);
    }
}
