//! The samples of a few runs of a player, read off the sequence: no window is stepped.

use crate::refusal::Refusal;
use crate::register::{all_ones, check_form, default_taps, period, signal};
use std::io::{self, Write};

/// A player that has given `given` samples since it was new, at the default taps.
struct Run {
    order: u32,
    taps: u32,
    given: u64,
    signs: Vec<i64>,
}

impl Run {
    fn new(order: u32, given: u64) -> Run {
        let taps = default_taps(order).expect("an order of 2 to 16");
        let signs = signal(order, taps);
        Run {
            order,
            taps,
            given,
            signs,
        }
    }

    /// x at the place of a sample.
    fn sign(&self, sample: u64) -> i64 {
        self.signs[(sample % period(self.order) as u64) as usize]
    }

    /// The N bits from a sample on, the first lowest.
    fn window(&self, sample: u64) -> u64 {
        (0..u64::from(self.order))
            .map(|i| u64::from(self.sign(sample + i) < 0) << i)
            .sum()
    }

    fn head(&self, name: &str) -> String {
        let (window, count) = (self.window(self.given), counted(self.given));
        format!("{name} {} {} {window} {count}", self.order, self.taps)
    }

    fn end(&self, total: u64) -> String {
        let last = self.given + total;
        format!("end {} {}", self.window(last), counted(last))
    }

    fn marks(&self, from: u64, to: u64) -> String {
        (from..to)
            .map(|k| mark(self.sign(self.given + k)))
            .collect()
    }

    /// A line to each block, each one longer than the one before it.
    fn blocks(&self, out: &mut impl Write, total: u64) -> io::Result<()> {
        writeln!(out, "{}", self.head("blocks"))?;
        let (mut from, mut length) = (0, 1);
        while from < total {
            let to = total.min(from + length);
            writeln!(out, "{}", self.marks(from, to))?;
            (from, length) = (to, length + 1);
        }
        writeln!(out, "{}", self.end(total))
    }

    /// One clock after the other, on one line.
    fn clocks(&self, out: &mut impl Write, total: u64) -> io::Result<()> {
        writeln!(out, "{}", self.head("clocks"))?;
        writeln!(out, "{}", self.marks(0, total))?;
        writeln!(out, "{}", self.end(total))
    }
}

fn mark(sign: i64) -> char {
    match sign {
        1 => '+',
        -1 => '-',
        _ => '?',
    }
}

/// The count that so many samples leave.
fn counted(samples: u64) -> u64 {
    samples % 4_294_967_296
}

/// Why a player's step is refused.
fn cause(order: u32, taps: u32, window: u32) -> Result<(), Refusal> {
    check_form(order, taps)?;
    if window == 0 || window > all_ones(order) {
        return Err(Refusal::Window);
    }
    Ok(())
}

fn refused(out: &mut impl Write, order: u32, taps: u32, window: u32) -> io::Result<()> {
    let refusal = cause(order, taps, window).expect_err("a player that is refused");
    let number = refusal.number();
    for name in ["blocks", "clocks"] {
        writeln!(out, "{name} {order} {taps} {window} 5")?;
        writeln!(out, "refused {number}")?;
        writeln!(out, "end {window} 5")?;
    }
    Ok(())
}

pub fn print(out: &mut impl Write) -> io::Result<()> {
    for order in [2, 3, 9] {
        Run::new(order, 0).blocks(out, 2 * period(order) as u64 + 3)?;
    }
    Run::new(3, 0).clocks(out, 17)?;
    let late = Run::new(3, 4_294_967_290);
    late.blocks(out, 17)?;
    late.clocks(out, 17)?;
    for (order, taps, window) in [(1, 1, 1), (3, 8, 7), (3, 2, 7), (3, 3, 0), (3, 3, 8)] {
        refused(out, order, taps, window)?;
    }
    Ok(())
}
