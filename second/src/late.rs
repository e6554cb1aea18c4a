//! Request 8 of 02: what recordings give that start d samples after the sequence, each alone in a campaign.

use crate::campaign::{start, Lent};
use crate::edition::FIRST;
use crate::entering::Verdict;
use crate::night::Night;
use crate::numbers::{digest, pattern, response_of};
use crate::reading::Summary;
use crate::refusal::Refusal;
use crate::register::{default_taps, period};
use crate::response::{predict, HIGHEST, LOWEST};
use crate::room::Room;
use std::io::{self, Write};

/// Two places are largest and have opposite signs, so that the peak's sign depends on which of them comes first.
const TIED: [i32; 7] = [9, 0, -4, 0, 0, -9, 0];
/// One place is largest, so that the peak keeps its sign.
const LONE: [i32; 7] = [3, 0, -9, 0, 0, 1, 0];

/// Each period of whole ones rotated by d, the run-in of a capture too: its place j holds what its place j+d held, modulo P.
pub fn late(p: usize, d: usize, samples: &[i32]) -> Vec<i32> {
    let rotated = |period: &[i32]| -> Vec<i32> { (0..p).map(|j| period[(j + d) % p]).collect() };
    samples.chunks(p).flat_map(rotated).collect()
}

/// The verdict and the summary of a night on day 1 of a new campaign of one slot: where it is kept it stands alone.
pub fn alone(order: u32, taps: u32, night: Night) -> Result<(Verdict, Summary), Refusal> {
    let p = period(order);
    let mut lent = Lent {
        store: vec![0; p],
        sums: vec![0; p],
    };
    let mut campaign = start(order, taps, 1, FIRST, &mut lent.store, &mut lent.sums)?;
    let verdict = campaign.enter(&mut lent, 1, night).verdict;
    let mut room = Room {
        wide: &mut vec![0; p + 1],
        tags: &mut vec![0; p],
    };
    Ok((verdict, campaign.summary(&lent, &mut room)))
}

pub fn print(out: &mut impl Write) -> io::Result<()> {
    short_responses(out)?;
    a_capture(out)?;
    set_aside(out)?;
    long_responses(out)
}

fn short_responses(out: &mut impl Write) -> io::Result<()> {
    for taps in [3, 5] {
        for h in [TIED, LONE] {
            let y = predicted(3, taps, &h);
            for d in 0..7 {
                turned_and_entered(out, (3, taps), d, &y, every_number)?;
            }
        }
    }
    Ok(())
}

/// The two periods differ, so that the levels are those of their sum and of neither alone; and the run-in differs from the first of them,
/// so that a capture rotated as a whole has other levels.
fn a_capture(out: &mut impl Write) -> io::Result<()> {
    let [tied, lone] = [TIED, LONE].map(|h| predicted(3, 3, &h));
    let capture = [&lone[..], &tied, &lone].concat();
    for d in 0..7 {
        let samples = late(7, d, &capture);
        let told = entered(3, 3, Night::capture(2, &samples));
        writeln!(out, "late-night 3 3 2 {d} {told}")?;
    }
    Ok(())
}

/// A late start moves the place of an overload; a dead night stays dead.
fn set_aside(out: &mut impl Write) -> io::Result<()> {
    for y in [[0, 0, 0, HIGHEST, 0, 0, LOWEST], [0, 0, 0, 7, 0, 0, 0]] {
        for d in 0..7 {
            let recording = late(7, d, &y);
            let told = entered(3, 3, Night::one_period(&recording));
            writeln!(out, "late-night 3 3 1 {d} {told}")?;
        }
    }
    Ok(())
}

/// The pattern has many largest places of both signs; the other response has one.
fn long_responses(out: &mut impl Write) -> io::Result<()> {
    let taps = default_taps(9).expect("9 has default taps");
    let mut with_peak = pattern(9);
    with_peak[100] = 300;
    for h in [pattern(9), with_peak] {
        let y = predicted(9, taps, &h);
        for d in [0, 1, 2, 10, 100, 255, 256, 509, 510] {
            turned_and_entered(out, (9, taps), d, &y, |r| digest(r).to_string())?;
        }
    }
    Ok(())
}

fn predicted(order: u32, taps: u32, h: &[i32]) -> Vec<i32> {
    let mut y = vec![0; period(order)];
    predict(order, taps, h, &mut y).expect("a small response stays in range");
    y
}

/// A recording that starts late, first turned into a response and then entered.
fn turned_and_entered(
    out: &mut impl Write,
    (order, taps): (u32, u32),
    d: usize,
    y: &[i32],
    tell: impl Fn(Vec<i64>) -> String,
) -> io::Result<()> {
    let recording = late(period(order), d, y);
    let turned = match response_of(order, taps, &recording) {
        Ok(r) => format!("0 {}", tell(r)),
        Err(refusal) => refusal.number().to_string(),
    };
    writeln!(out, "late {order} {taps} {d} {turned}")?;
    let told = entered(order, taps, Night::one_period(&recording));
    writeln!(out, "late-night {order} {taps} 1 {d} {told}")
}

fn every_number(r: Vec<i64>) -> String {
    let words: Vec<String> = r.iter().map(i64::to_string).collect();
    words.join(" ")
}

/// What is told of a night alone: its verdict, with the levels where it is kept.
fn entered(order: u32, taps: u32, night: Night) -> String {
    match alone(order, taps, night) {
        Ok((Verdict::Kept { .. }, summary)) => format!("kept {}", summed_up(summary)),
        Ok((Verdict::Overloaded { place }, _)) => format!("overload {place}"),
        Ok((Verdict::Dead, _)) => "dead".to_string(),
        Ok((Verdict::Refused(refusal), _)) | Err(refusal) => {
            format!("refused {}", refusal.number())
        }
    }
}

/// The bits of the three levels, so that equal words are equal doubles.
fn summed_up(summary: Summary) -> String {
    match summary {
        Summary::NothingStands => "nothing".to_string(),
        Summary::Levels(levels) => {
            let [highest, lowest, at_peak] =
                [levels.highest, levels.lowest, levels.at_peak].map(f64::to_bits);
            format!("{highest} {lowest} {at_peak}")
        }
        Summary::Refused(refusal) => format!("refused {}", refusal.number()),
    }
}
