//! Names for a verdict by the spread of its recording, so that a comparison can show how near to the edge between dead and kept it came.

use crate::entering::Verdict;
use crate::judging::{spread, DEAD_SPREAD};
use crate::response::{HIGHEST, LOWEST};

/// The smallest spread that is kept.
pub const KEPT_SPREAD: i64 = DEAD_SPREAD + 1;

/// The verdict by the spread, and on either side of the edge where the samples lie and which of them make the spread.
pub fn names(samples: &[i32], verdict: Verdict) -> Vec<String> {
    let spread = spread(samples);
    let layout = [region(samples), direction(samples)];
    let at_the_edge = match verdict {
        Verdict::Overloaded { .. } if spread == DEAD_SPREAD => layout[..1].to_vec(),
        Verdict::Dead if spread == DEAD_SPREAD => layout.to_vec(),
        Verdict::Kept { .. } if spread == KEPT_SPREAD => [&layout[..], &makers(samples)].concat(),
        _ => vec![],
    };
    let mut names = vec![format!("spread: {} {}", verdict.word(), words(spread))];
    names.extend(
        at_the_edge
            .iter()
            .map(|name| format!("edge: {spread} {name}")),
    );
    names
}

fn words(spread: i64) -> String {
    match spread {
        0 | 5..=9 => format!("at {spread}"),
        1..=4 => "at 1 to 4".to_string(),
        _ => "above 9".to_string(),
    }
}

fn region(samples: &[i32]) -> &'static str {
    if samples.contains(&LOWEST) {
        "at the lower rail"
    } else if samples.contains(&HIGHEST) {
        "at the upper rail"
    } else if samples.contains(&(LOWEST + 1)) {
        "next to the lower rail"
    } else if samples.contains(&(HIGHEST - 1)) {
        "next to the upper rail"
    } else if samples.iter().all(|&v| v < 0) {
        "below 0"
    } else if samples.iter().all(|&v| v > 0) {
        "above 0"
    } else {
        "around 0"
    }
}

/// Whether the smallest sample comes first or the largest.
fn direction(samples: &[i32]) -> &'static str {
    let first_at = |end: Option<&i32>| samples.iter().position(|v| Some(v) == end);
    if first_at(samples.iter().min()) < first_at(samples.iter().max()) {
        "rising"
    } else {
        "falling"
    }
}

/// A scan that leaves out an end, or looks at distances from the first sample alone, finds these dead.
fn makers(samples: &[i32]) -> Vec<&'static str> {
    let dead = |samples: &[i32]| spread(samples) <= DEAD_SPREAD;
    let (first, last) = (samples[0], samples.len() - 1);
    [
        (dead(&samples[1..]), "by the first sample"),
        (dead(&samples[..last]), "by the last sample"),
        (
            samples.iter().all(|&v| dead(&[first, v])),
            "around the first sample",
        ),
    ]
    .into_iter()
    .filter_map(|(found, name)| found.then_some(name))
    .collect()
}
