//! The numbers two programs can be held to, by direct formulas.

use crate::edition::{mean, Edition, FIRST, SECOND};
use crate::late;
use crate::refusal::{number, told_period, Refusal};
use crate::register::{check_taps, default_taps, period};
use crate::response::{one_recording, predict, HIGHEST, LOWEST};
use crate::room::Room;
use std::io::{self, Write};

/// One number out of many, in which their order counts.
pub fn digest(values: impl IntoIterator<Item = i64>) -> i64 {
    const MODULUS: i64 = 1_000_003;
    values
        .into_iter()
        .fold(0, |d, v| (d * 131 + v.rem_euclid(MODULUS)) % MODULUS)
}

/// The response of one recording with rooms of just the right length.
pub fn response_of(order: u32, taps: u32, recording: &[i32]) -> Result<Vec<i64>, Refusal> {
    // An order out of range has no P; its refusal comes before any room is looked at.
    let p = if order <= 16 { period(order) } else { 0 };
    let mut r = vec![0; p];
    let mut room = Room {
        wide: &mut vec![0; p + 1],
        tags: &mut vec![0; p],
    };
    one_recording(order, taps, recording, &mut r, &mut room)?;
    Ok(r)
}

/// h(i) = ((i · 37) mod 23) - 11, so many places of it.
pub fn pattern_of(length: usize) -> Vec<i32> {
    (0..length).map(|i| (i * 37 % 23) as i32 - 11).collect()
}

/// The same over a register's period.
pub fn pattern(order: u32) -> Vec<i32> {
    pattern_of(period(order))
}

pub fn print(out: &mut impl Write) -> io::Result<()> {
    taps(out)?;
    for order in 2..=12 {
        all_taps(out, order)?;
    }
    defaults(out)?;
    recordings_and_samples(out)?;
    means(out)?;
    let too_loud = [HIGHEST, HIGHEST, 0, 0, 0, 0, 0];
    writeln!(
        out,
        "predict-refused {}",
        number(&predict(3, 3, &too_loud, &mut [0; 7]))
    )?;
    for order in 2..=16 {
        predicted_and_back(out, order)?;
    }
    loud(out, "lowest", vec![LOWEST; period(16)])?;
    let rails = (0..period(16)).map(|j| if j % 2 == 0 { LOWEST } else { HIGHEST });
    loud(out, "rails", rails.collect())?;
    late::print(out)
}

/// The number of the taps check, and the period told with it, 0 where there is none.
fn checked(order: u32, taps: u32) -> (u8, usize) {
    let answer = check_taps(order, taps);
    (number(&answer), told_period(&answer).unwrap_or(0))
}

fn taps(out: &mut impl Write) -> io::Result<()> {
    let pairs = [
        (1, 3),
        (17, 3),
        (2, 3),
        (2, 1),
        (2, 2),
        (2, 4),
        (4, 15),
        (4, 5),
        (3, 3),
        (3, 5),
        (4, 3),
        (3, 7),
        (5, 3),
        (6, 21),
        (16, 1),
        (16, 65535),
    ];
    for (order, taps) in pairs {
        let (answer, period) = checked(order, taps);
        writeln!(out, "taps {order} {taps} {answer} {period}")?;
    }
    Ok(())
}

/// How many of the taps 0 to 2^N are accepted, and all their answers as one number.
fn all_taps(out: &mut impl Write, order: u32) -> io::Result<()> {
    let answers: Vec<_> = (0..=1 << order).map(|taps| checked(order, taps)).collect();
    let accepted = answers.iter().filter(|(answer, _)| *answer == 0).count();
    let values = answers
        .iter()
        .flat_map(|&(answer, period)| [i64::from(answer), period as i64]);
    writeln!(out, "all-taps {order} {accepted} {}", digest(values))
}

fn defaults(out: &mut impl Write) -> io::Result<()> {
    for order in 0..=18 {
        let taps = default_taps(order);
        writeln!(
            out,
            "default {order} {} {}",
            number(&taps),
            taps.unwrap_or(0)
        )?;
    }
    Ok(())
}

fn recordings_and_samples(out: &mut impl Write) -> io::Result<()> {
    for length in [6, 7, 8] {
        let answer = number(&response_of(3, 3, &vec![0; length]));
        writeln!(out, "recording 3 3 {length} {answer}")?;
    }
    for sample in [8_388_606, 8_388_607, 8_388_608, -8_388_608, -8_388_609] {
        let answer = number(&response_of(3, 3, &[sample, 0, 0, 0, 0, 0, 0]));
        writeln!(out, "sample {sample} {answer}")?;
    }
    Ok(())
}

/// Exact halves on both sides of zero, and others, by both editions.
pub fn means(out: &mut impl Write) -> io::Result<()> {
    let d = 8;
    for (number, edition) in [(FIRST, Edition::First), (SECOND, Edition::Second)] {
        for r in [4, -4, -10, 12, -12, 3, -3, 0] {
            writeln!(out, "mean {number} {r} {d} {}", mean(edition, r, d))?;
        }
    }
    Ok(())
}

fn predicted_and_back(out: &mut impl Write, order: u32) -> io::Result<()> {
    let taps = default_taps(order).expect("the order is from 2 to 16");
    let h = pattern(order);
    let mut y = vec![0; period(order)];
    let answer = number(&predict(order, taps, &h, &mut y));
    writeln!(
        out,
        "predict {order} {answer} {}",
        digest(y.iter().map(|&v| i64::from(v)))
    )?;
    let r = response_of(order, taps, &y);
    writeln!(
        out,
        "response {order} {} {}",
        number(&r),
        digest(r.unwrap_or_default())
    )?;
    let scale = period(order) as i64 + 1;
    let recovered = digest(h.iter().map(|&v| scale * i64::from(v)));
    writeln!(out, "recovered {order} {recovered}")
}

fn loud(out: &mut impl Write, name: &str, recording: Vec<i32>) -> io::Result<()> {
    let taps = default_taps(16).expect("16 has default taps");
    let r = response_of(16, taps, &recording).expect("both rails are samples");
    writeln!(out, "loud {name} {}", digest(r))
}
