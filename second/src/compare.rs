//! Runs another program on random logs and compares its output with the own answer.

use crate::coverage::Coverage;
use crate::feeding::Other;
use crate::log::answer;
use crate::make::log;
use std::collections::BTreeMap;
use std::fs;
use std::io::{self, Write};
use std::process::ExitStatus;

/// The first line in which two outputs differ, counted from 1, and both lines.
fn first_difference(own: &[u8], other: &[u8]) -> Option<(usize, String, String)> {
    let lines = |text: &[u8]| -> Vec<Vec<u8>> {
        text.split_inclusive(|&b| b == b'\n')
            .map(<[u8]>::to_vec)
            .collect()
    };
    let (own, other) = (lines(own), lines(other));
    let shown = |line: Option<&Vec<u8>>| match line {
        // Enough of a line for a reader; the whole log is saved.
        Some(line) => format!("\"{}\"", line[..line.len().min(60)].escape_ascii()),
        None => "nothing".to_string(),
    };
    (0..own.len().max(other.len()))
        .find(|&i| own.get(i) != other.get(i))
        .map(|i| (i + 1, shown(own.get(i)), shown(other.get(i))))
}

fn save(number: u64, log: &[u8]) -> io::Result<()> {
    fs::create_dir_all("target")?;
    fs::write(format!("target/differs-{number:05}.log"), log)
}

fn ending(status: ExitStatus) -> String {
    status
        .code()
        .map_or("signal".to_string(), |code| code.to_string())
}

/// Prints the differences and the coverage; gives the number of differences.
pub fn compare(other: &Other, seed: u64, count: u64) -> io::Result<u64> {
    let mut out = io::stdout();
    let mut differences = 0;
    let mut coverage = Coverage::default();
    let mut endings: BTreeMap<String, usize> = BTreeMap::new();
    for number in 0..count {
        let log = log(seed, number);
        let own = answer(&log);
        let said = [
            ("whole", other.whole(&log)?),
            ("in pieces", other.in_pieces(&log)?),
        ];
        for (way, output) in said {
            if let Some((line, ours, theirs)) =
                first_difference(own.text.as_bytes(), &output.stdout)
            {
                writeln!(
                    out,
                    "log {number:05} seed {seed} {way} line {line}: own {ours}, program {theirs}"
                )?;
                save(number, &log)?;
                differences += 1;
            }
            *endings.entry(ending(output.status)).or_default() += 1;
        }
        coverage.add(own.met);
    }
    for line in coverage.lines() {
        writeln!(out, "{line}")?;
    }
    let endings: Vec<String> = endings
        .iter()
        .map(|(way, n)| format!("{way}={n}"))
        .collect();
    writeln!(out, "exit status (not compared): {}", endings.join(", "))?;
    writeln!(
        out,
        "{count} logs, whole and in pieces of 1 to 7 bytes, {differences} differences"
    )?;
    Ok(differences)
}
