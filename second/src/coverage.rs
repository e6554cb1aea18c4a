//! Counts of what a set of logs met, and what it did not meet.

use std::collections::BTreeMap;

#[derive(Default)]
pub struct Coverage {
    times: BTreeMap<String, usize>,
}

/// Everything a log can meet, by family.
const EXPECTED: [(&str, &str); 17] = [
    (
        "start",
        "0 order 2, 0 order 3, 0 order 4, 0 order 5, 0 order 6, 0 order 7, 0 order 8, \
         0 order 9, 1 below, 1 above, 2, 2 just, 3, 4 after 1, 4 dividing P, 4 not dividing P, \
         9, 9 at 0 slots, 9 at 65 slots, 17 for the order, 17 at order 10, 17 for the slots, \
         17 at 9 slots, 17 at 64 slots, 17 for both",
    ),
    (
        "edition",
        "0 of 1, 0 of 2, 24 of 0, 24 of 3, 24 of 4 to 254, 24 of 255",
    ),
    (
        "behind",
        "the end after a refused start, kind 8 after a refused start, other after a refused start, \
         the end after an accepted start, kind 8 after an accepted start, other after an accepted start, \
         the end after a refused edition, kind 8 after a refused edition, other after a refused edition, \
         the end after an accepted edition, kind 8 after an accepted edition, other after an accepted edition",
    ),
    (
        "enter",
        "kept on unseen, kept on overloaded, kept on dead, kept on withdrawn, \
         overload on unseen, overload on overloaded, overload on dead, overload on withdrawn, \
         overload when full, dead on unseen, dead on overloaded, dead on dead, \
         dead on withdrawn, dead when full, 5, 5 and standing, 10, 10 and short, 11, \
         11 and at a rail, 11 and dead, 12, 12 at 8",
    ),
    (
        "spread",
        "dead at 0, dead at 1 to 4, dead at 5, dead at 6, dead at 7, kept at 8, kept at 9, \
         kept above 9, overload at 0, overload at 1 to 4, overload at 5, overload at 6, \
         overload at 7, overload at 8, overload at 9, overload above 9",
    ),
    (
        "edge",
        "7 at the lower rail, 7 next to the lower rail, 7 below 0, 7 around 0, 7 above 0, \
         7 next to the upper rail, 7 at the upper rail, 7 rising, 7 falling, 8 next to the lower rail, 8 below 0, 8 around 0, 8 above 0, \
         8 next to the upper rail, 8 rising, 8 falling, 8 by the first sample, \
         8 by the last sample, 8 around the first sample",
    ),
    (
        "periods",
        "m 0 10, m 0 18, m 0 18 whole, m 1 10, m 1 5, m 1 11, m 1 12, m 1 kept, m 1 overload, m 1 dead, \
         m 2 10, m 2 5, m 2 11, m 2 12, m 2 kept, m 2 overload, m 2 dead, \
         m 3 10, m 3 5, m 3 11, m 3 12, m 3 kept, m 3 overload, m 3 dead, \
         m 4 10, m 4 5, m 4 11, m 4 12, m 4 kept, m 4 overload, m 4 dead, \
         m 5 10, m 5 17, m 5 17 whole, m 6 to 15 10, m 6 to 15 17, \
         m 6 to 15 17 whole, m 16 10, m 16 17, m 16 17 whole, \
         m 17 10, m 17 18, m 17 18 whole, m 18 to 254 10, m 18 to 254 18, \
         m 18 to 254 18 whole, m 255 10, m 255 18, m 255 18 whole",
    ),
    (
        "capture",
        "kept on unseen, kept on overloaded, kept on dead, kept on withdrawn, \
         overload on unseen, overload on overloaded, overload on dead, overload on withdrawn, \
         overload when full, dead on unseen, dead on overloaded, dead on dead, \
         dead on withdrawn, dead when full, 5 with none, 5 with the run-in alone, 5 with m periods, \
         5 with one too few, 5 and standing, 10 and whole, 10 and short, 10 when full, \
         11 and kept, 11 and at a rail, 11 and dead, 12 at 8, 12 above 8, \
         17 and whole, 17 and short, 17 and standing, 17 when full, \
         18 and whole, 18 and short, 18 and standing, 18 when full",
    ),
    (
        "run-in",
        "kept behind a rail, kept behind a spread, kept behind a still one, \
         overload behind a rail, overload behind a spread, overload behind a still one, \
         dead behind a rail, dead behind a spread, dead behind a still one",
    ),
    (
        "place",
        "first, last, in a later period, before another rail",
    ),
    (
        "together",
        "dead at 7, dead though summed apart, kept at 8, kept though summed still, kept though summed to zeros, \
         kept though each is still, kept by the first period, kept by the last period, \
         kept at the lower bound, kept at the upper bound",
    ),
    (
        "withdraw",
        "0 of one period, 0 of several periods, 10, 13 unseen, 13 overloaded, 13 dead, 13 withdrawn",
    ),
    (
        "response",
        "0 of 1, 0 of 2, 0 of 3, 0 of 4, 0 of 5, 0 of 6, 0 of 7, 0 of 8, half up, half down, 14",
    ),
    (
        "asked",
        "0 in 1, 0 in 1 named, 0 in 2, 14 in 1, 14 in 1 named, 14 in 2",
    ),
    (
        "halves",
        "above 0 apart in 1, above 0 alike in 1, below 0 apart in 1, below 0 alike in 1, none in 1, \
         of several periods apart in 1, after a withdrawal apart in 1, \
         above 0 apart in 1 named, above 0 alike in 1 named, below 0 apart in 1 named, below 0 alike in 1 named, \
         none in 1 named, of several periods apart in 1 named, after a withdrawal apart in 1 named, \
         above 0 apart in 2, above 0 alike in 2, below 0 apart in 2, below 0 alike in 2, none in 2, \
         of several periods apart in 2, after a withdrawal apart in 2",
    ),
    (
        "total",
        "as many as days, a power of two, no power of two, the most, half up, half down",
    ),
    (
        "bad",
        "no input, unknown first, unknown in a day, unknown outside, kind 2 first, \
         kind 3 first, kind 4 first, kind 5 first, kind 6 first, kind 7 first, kind 8 first, kind 1 in a day, \
         kind 2 in a day, kind 5 in a day, kind 6 in a day, kind 7 in a day, kind 1 outside, kind 3 outside, \
         kind 4 outside, kind 8 after 2, kind 8 after 3, kind 8 after 4, kind 8 after 5, kind 8 after 6, kind 8 after 7, \
         kind 8 after 8, cut kind 1, cut kind 2, cut kind 3, cut kind 5, cut kind 7, cut kind 8, beyond P, beyond m 0, \
         beyond m 1 to 4, beyond m 5 to 16, beyond m 17 to 254, beyond m 255, end in open day, end in open capture",
    ),
];

impl Coverage {
    pub fn add(&mut self, names: Vec<String>) {
        for name in names {
            *self.times.entry(name).or_default() += 1;
        }
    }

    /// One line a family, then one line of what was not met.
    pub fn lines(&self) -> Vec<String> {
        let mut lines = Vec::new();
        let mut missing = Vec::new();
        for (family, names) in EXPECTED {
            let mut counted = Vec::new();
            for name in names.split(", ") {
                let times = self.times.get(&format!("{family}: {name}"));
                if times.is_none() {
                    missing.push(format!("{family} {name}"));
                }
                counted.push(format!("{name}={}", times.unwrap_or(&0)));
            }
            lines.push(format!("{family}: {}", counted.join(", ")));
        }
        if missing.is_empty() {
            missing.push("none".to_string());
        }
        lines.push(format!("not met: {}", missing.join(", ")));
        lines
    }
}
