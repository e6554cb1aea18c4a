//! Directed calls of a Legendre sequence's three functions, each with the line that it prints. `door/legendre.c` makes the same calls
//! through the C door.

use crate::door::filled;
use crate::legendre::{one_recording, predict, sequence, signal, PERIODS};
use crate::numbers::pattern_of;
use crate::refusal::{number, Refusal};
use crate::response::{HIGHEST, LOWEST};
use crate::year_memory::digest_of;
use std::io::{self, Write};

/// Periods up to here are tried one by one, and no call is lent more for a larger one.
const MOST_PLACES: u32 = 130;
/// Places behind those that a call may write, so that one which writes on shows.
const BEHIND: usize = 3;

/// Added to a period, each of them leaves its lowest bits as they are.
const HIGHER_BITS: [u32; 5] = [1 << 7, 1 << 8, 1 << 16, 1 << 24, 1 << 31];
/// Other primes of the form 4m - 1, two of them named in document 001, the edges of bytes and of the sign, offered periods in higher bytes, and
/// negatives of offered ones and others.
const LARGE: [u32; 23] = [
    131,
    163,
    167,
    179,
    256,
    511,
    1_031,
    7 << 8,
    32_771,
    65_535,
    65_536,
    65_539,
    7 << 16,
    7 << 24,
    127 << 24,
    (1 << 31) - 1,
    1 << 31,
    u32::MAX - 128,
    u32::MAX - 126,
    u32::MAX - 6,
    u32::MAX - 2,
    u32::MAX - 1,
    u32::MAX,
];

/// The pattern times this predicts samples in range at every period: its sizes add up to at most 8,387,588.
const LOUD: i32 = 6_004;
/// The last samples in range and the first beyond, of a prediction.
const EDGES: [i64; 4] = [8_388_607, 8_388_608, -8_388_608, -8_388_609];
/// The same of what is handed in, and the ends of its numbers.
const VALUES: [i32; 6] = [
    8_388_607,
    8_388_608,
    i32::MAX,
    -8_388_608,
    -8_388_609,
    i32::MIN,
];

/// Prints a line for each call.
pub fn print(out: &mut impl Write) -> io::Result<()> {
    for p in (0..=MOST_PLACES).chain(large_periods()) {
        write_all(out, &all_three(p))?;
    }
    for p in PERIODS {
        write_all(out, &loudest(p))?;
        write_all(out, &recovered(p))?;
        write_all(out, &at_the_edges(p))?;
        write_all(out, &lengths(p))?;
        write_all(out, &values(p))?;
    }
    Ok(())
}

fn write_all(out: &mut impl Write, lines: &[String]) -> io::Result<()> {
    lines.iter().try_for_each(|line| writeln!(out, "{line}"))
}

fn large_periods() -> impl Iterator<Item = u32> {
    let with_higher_bits = PERIODS.map(|p| HIGHER_BITS.map(|bits| p + bits));
    LARGE
        .into_iter()
        .chain(with_higher_bits.into_iter().flatten())
}

// ---- the calls

/// A call's answer, and the whole output after it.
struct Made<T> {
    answer: u8,
    out: Vec<T>,
}

impl<T: Copy + From<u8> + Into<i64>> Made<T> {
    /// A call that is lent the first places of an output.
    fn of(p: u32, lent: usize, call: impl FnOnce(&mut [T]) -> Result<(), Refusal>) -> Made<T> {
        let mut out = filled(places(p) + BEHIND);
        let answer = number(&call(&mut out[..lent]));
        Made { answer, out }
    }

    fn told(&self) -> String {
        format!("{} {}", self.answer, digest_of(&self.out))
    }
}

/// How many places a call of this period is lent at most, but for those behind.
fn places(p: u32) -> usize {
    p.min(MOST_PLACES) as usize
}

fn written(p: u32, lent: usize) -> Made<u8> {
    Made::of(p, lent, |bits| sequence(p, bits))
}

fn heard(p: u32, y: &[i32], lent: usize) -> Made<i64> {
    Made::of(p, lent, |r| one_recording(p, y, r))
}

fn predicted(p: u32, h: &[i32], lent: usize) -> Made<i32> {
    Made::of(p, lent, |y| predict(p, h, y))
}

/// The same samples as a recording and as a response.
fn both(p: u32, what: &str, samples: &[i32], lent: usize) -> [String; 2] {
    let (heard, predicted) = (heard(p, samples, lent), predicted(p, samples, lent));
    [
        format!("recording {p}{what}: {}", heard.told()),
        format!("predict {p}{what}: {}", predicted.told()),
    ]
}

// ---- the cases

/// All that there is is lent, the places behind too. An accepted sequence is printed in full.
fn all_three(p: u32) -> Vec<String> {
    let lent = places(p) + BEHIND;
    let sequence = written(p, lent);
    let bits: String = match sequence.answer {
        0 => sequence.out[..places(p)]
            .iter()
            .map(u8::to_string)
            .collect(),
        _ => "-".to_string(),
    };
    let mut lines = vec![format!("sequence {p}: {} {bits}", sequence.told())];
    lines.extend(both(p, "", &pattern_of(places(p)), lent));
    lines
}

/// All samples at one rail; and for each place the two that make it largest and smallest, each sample at the rail that its sign makes the most of.
fn loudest(p: u32) -> Vec<String> {
    let n = places(p);
    let x = signal(n);
    let mut lines = vec![];
    for rail in [LOWEST, HIGHEST] {
        lines.extend(both(p, &format!(" all at {rail}"), &vec![rail; n], n));
    }
    for place in 0..n {
        for (name, upwards) in [("largest", 1), ("smallest", -1)] {
            let rail = |sign: i64| if sign == upwards { HIGHEST } else { LOWEST };
            let y: Vec<i32> = (0..n).map(|j| rail(x[(j + n - place) % n])).collect();
            let heard = heard(p, &y, n);
            let (told, r) = (heard.told(), heard.out[place]);
            lines.push(format!("recording {p} {name} r({place}): {told} {r}"));
            let h: Vec<i32> = (0..n).map(|i| rail(x[(place + n - i) % n])).collect();
            let told = predicted(p, &h, n).told();
            lines.push(format!("predict {p} {name} y({place}): {told}"));
        }
    }
    lines
}

/// Predictions, each handed in as a recording: whether its response is p+1 times what it was predicted from.
fn recovered(p: u32) -> Vec<String> {
    let n = places(p);
    let quiet = pattern_of(n);
    let loud: Vec<i32> = quiet.iter().map(|&v| LOUD * v).collect();
    let mut lines = vec![];
    lines.extend(there_and_back(p, "pattern", &quiet));
    lines.extend(there_and_back(p, "loud pattern", &loud));
    for place in 0..n {
        for value in [HIGHEST, -HIGHEST] {
            let mut h = vec![0; n];
            h[place] = value;
            lines.extend(there_and_back(p, &format!("alone {value} at {place}"), &h));
        }
    }
    lines
}

fn there_and_back(p: u32, name: &str, h: &[i32]) -> [String; 2] {
    let n = places(p);
    let predicted = predicted(p, h, n);
    let heard = heard(p, &predicted.out[..n], n);
    let scale = i64::from(p) + 1;
    let is_scaled = (0..n).all(|k| heard.out[k] == scale * i64::from(h[k]));
    [
        format!("predict {p} {name}: {}", predicted.told()),
        format!(
            "recording {p} recovered {name}: {} {is_scaled}",
            heard.told()
        ),
    ]
}

/// How the sizes of a response are shared out whose predicted sample is given.
#[derive(Clone, Copy)]
pub enum Share {
    /// As evenly as whole numbers can be.
    Even,
    /// All but 1 of each other place at the first.
    First,
}

impl Share {
    pub const WAYS: [Share; 2] = [Share::Even, Share::First];

    fn word(self) -> &'static str {
        match self {
            Share::Even => "even",
            Share::First => "first",
        }
    }

    fn size(self, n: usize, total: i64, place: usize) -> i64 {
        let (n, place) = (n as i64, place as i64);
        match self {
            Share::Even => total / n + i64::from(place < total % n),
            Share::First if place == 0 => total - (n - 1),
            Share::First => 1,
        }
    }

    /// A response that has predicted sample j at `target`: each of its places adds its size to that sample. Every other sample is nearer
    /// to 0.
    pub fn response(self, p: u32, j: usize, target: i64) -> Vec<i32> {
        let n = places(p);
        let x = signal(n);
        let value = |i: usize| {
            let sign = target.signum() * x[(j + n - i) % n];
            (sign * self.size(n, target.abs(), i)) as i32
        };
        (0..n).map(value).collect()
    }
}

/// For each sample the last predictions in range and the first beyond, on both sides.
fn at_the_edges(p: u32) -> Vec<String> {
    let mut lines = vec![];
    for j in 0..places(p) {
        for share in Share::WAYS {
            for target in EDGES {
                let made = predicted(p, &share.response(p, j, target), places(p));
                let (word, told, y) = (share.word(), made.told(), made.out[j]);
                lines.push(format!("predict {p} {word} y({j}) of {target}: {told} {y}"));
            }
        }
    }
    lines
}

/// Samples and outputs too short, too long and just enough.
fn lengths(p: u32) -> Vec<String> {
    let n = places(p);
    let mut lines = vec![];
    for length in [0, n - 1, n + 1] {
        let what = format!(" length {length}");
        lines.extend(both(p, &what, &pattern_of(length), n));
    }
    for lent in [0, n - 1, n] {
        let told = written(p, lent).told();
        lines.push(format!("sequence {p} output {lent}: {told}"));
        let what = format!(" output {lent}");
        lines.extend(both(p, &what, &pattern_of(n), lent));
    }
    lines
}

/// One value at the first place or at the last, and zeros.
fn values(p: u32) -> Vec<String> {
    let n = places(p);
    let mut lines = vec![];
    for value in VALUES {
        for place in [0, n - 1] {
            let mut samples = vec![0; n];
            samples[place] = value;
            lines.extend(both(p, &format!(" value {value} at {place}"), &samples, n));
        }
    }
    lines
}
