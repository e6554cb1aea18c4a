//! The names that captures are counted by, so that a set of logs which leaves a case out is seen to.

use second::coverage::Coverage;
use second::log::answer;
use second::make::log;
use second::text::log_from_text;
use std::collections::BTreeSet;

/// The names met in a log of order 2, taps 3, where P is 3, after those of the start.
fn met(slots: u8, text: &str) -> Vec<String> {
    let log = log_from_text(&format!("start 2 3 {slots}\n{text}")).unwrap();
    let met = answer(&log).met;
    let after_start = "behind: other after an accepted start";
    assert_eq!(met[..2], ["start: 0 order 2", after_start]);
    met[2..].to_vec()
}

fn assert_met(slots: u8, text: &str, expected: &[&str]) {
    assert_eq!(met(slots, text), expected, "{text}");
}

/// Every name that a log is expected to meet.
fn expected() -> BTreeSet<String> {
    let lines = Coverage::default().lines();
    let (_, families) = lines.split_last().unwrap();
    let names = families.iter().flat_map(|line| {
        let (family, names) = line.split_once(": ").unwrap();
        let name = move |name: &str| format!("{family}: {}", name.strip_suffix("=0").unwrap());
        names.split(", ").map(name)
    });
    names.collect()
}

#[test]
fn no_log_meets_what_is_not_counted() {
    let expected = expected();
    for number in 0..1000 {
        for name in answer(&log(4, number)).met {
            assert!(expected.contains(&name), "{name}");
        }
    }
}

#[test]
fn what_is_left_out_is_named() {
    let lines = Coverage::default().lines();
    let missing = lines.last().unwrap();
    for name in [
        "periods m 0 18",
        "periods m 4 12",
        "periods m 5 17",
        "periods m 255 10",
        "capture 5 with m periods",
        "run-in kept behind a rail",
        "place last",
        "together dead though summed apart",
        "total the most",
        "bad beyond m 1 to 4",
        "bad cut kind 7",
        "bad kind 7 first",
    ] {
        assert!(missing.contains(name), "{name}");
    }
    let mut coverage = Coverage::default();
    coverage.add(
        expected()
            .into_iter()
            .filter(|n| n != "place: last")
            .collect(),
    );
    assert_eq!(coverage.lines().last().unwrap(), "not met: place last");
}

#[test]
fn every_number_of_periods_that_can_be_answered_is_expected_with_each_answer() {
    let expected = expected();
    for m in 1..=4 {
        for answer in ["10", "5", "11", "12", "kept", "overload", "dead"] {
            let name = format!("periods: m {m} {answer}");
            assert!(expected.contains(&name), "{name}");
        }
    }
    for (m, answer) in [
        ("0", 18),
        ("5", 17),
        ("6 to 15", 17),
        ("16", 17),
        ("17", 18),
        ("18 to 254", 18),
        ("255", 18),
    ] {
        for name in [
            format!("m {m} 10"),
            format!("m {m} {answer}"),
            format!("m {m} {answer} whole"),
        ] {
            assert!(expected.contains(&format!("periods: {name}")), "{name}");
        }
    }
}

#[test]
fn captures_that_are_kept() {
    let kept = |text: &str, expected: &[&str]| {
        let met = met(1, &format!("capture 1 {text}\nenter"));
        assert!(met[0].starts_with("periods: m ") && met[0].ends_with(" kept"));
        assert_eq!(met[1], "capture: kept on unseen");
        assert_eq!(met[2..], *expected, "{text}");
    };
    let still = "run-in: kept behind a still one";
    kept("1\nsamples 0 0 0 1 2 13", &[still]);
    kept("2\nsamples 0 0 0 1 2 13 1 2 13", &[still]);
    kept(
        "2\nsamples 0 8388607 0 0 8 0 0 1 0",
        &[
            "run-in: kept behind a rail",
            "together: kept at 8",
            "together: kept by the first period",
        ],
    );
    kept(
        "2\nsamples 0 9 0 0 0 0 9 9 9",
        &[
            "run-in: kept behind a spread",
            "together: kept though summed still",
            "together: kept though each is still",
            "together: kept by the first period",
            "together: kept by the last period",
        ],
    );
}

#[test]
fn captures_that_sum_to_zeros_or_to_a_bound() {
    let together = |samples: &str| {
        met(1, &format!("capture 1 2\nsamples 0 0 0 {samples}\nenter"))[3..].to_vec()
    };
    assert_eq!(
        together("0 9 0 0 -9 0"),
        [
            "together: kept though summed still",
            "together: kept though summed to zeros"
        ]
    );
    assert_eq!(
        together("-8388607 0 0 -8388607 0 0"),
        ["together: kept at the lower bound"]
    );
    assert_eq!(
        together("0 8388606 0 0 8388606 0"),
        ["together: kept at the upper bound"]
    );
    assert_eq!(together("0 8388606 0 0 8388605 0"), [""; 0]);
}

#[test]
fn captures_that_are_not_kept() {
    assert_met(
        1,
        "capture 1 3\nsamples 0 0 0 0 7 0 0 7 0 0 7 0\nenter",
        &[
            "periods: m 3 dead",
            "capture: dead on unseen",
            "run-in: dead behind a still one",
            "together: dead at 7",
            "together: dead though summed apart",
        ],
    );
    assert_met(
        1,
        "capture 1 2\nsamples 0 0 9 0 7 0 0 7 8388607\nenter",
        &[
            "periods: m 2 overload",
            "capture: overload on unseen",
            "run-in: overload behind a spread",
            "place: last",
            "place: in a later period",
        ],
    );
    assert_met(
        1,
        "capture 1 1\nsamples -8388608 0 0 -8388608 7 8388607\nenter",
        &[
            "periods: m 1 overload",
            "capture: overload on unseen",
            "run-in: overload behind a rail",
            "place: first",
            "place: before another rail",
        ],
    );
}

/// A log whose only slot is used by day 1; what a capture after it meets.
fn met_when_full(text: &str) -> Vec<String> {
    let met = met(
        1,
        &format!("capture 1 1\nsamples 0 0 0 1 2 13\nenter\n{text}\nenter"),
    );
    met[3..].to_vec()
}

#[test]
fn captures_that_find_no_slot_or_their_day_standing() {
    for (text, answer, what) in [
        ("2 1\nsamples 0 0 0 0 8 0", "m 1 12", "12 at 8"),
        ("2 1\nsamples 0 0 0 0 9 0", "m 1 12", "12 above 8"),
        ("1 1\nsamples 0 0 0 0 9 0", "m 1 11", "11 and kept"),
        ("1 1\nsamples 0 0 0 0 7 0", "m 1 11", "11 and dead"),
        (
            "1 1\nsamples 0 0 0 0 0 8388607",
            "m 1 11",
            "11 and at a rail",
        ),
    ] {
        let expected = [format!("periods: {answer}"), format!("capture: {what}")];
        assert_eq!(met_when_full(&format!("capture {text}")), expected);
    }
}

#[test]
fn captures_that_are_only_counted() {
    for (text, answer, circumstances) in [
        (
            "1 0\nsamples 0 0 0",
            "m 0 18 whole",
            &["18 and whole", "18 and standing", "18 when full"][..],
        ),
        (
            "2 16\nsamples 0",
            "m 16 17",
            &["17 and short", "17 when full"],
        ),
        ("367 255", "m 255 10", &["10 and short", "10 when full"]),
        (
            "366 200",
            "m 18 to 254 18",
            &["18 and short", "18 when full"],
        ),
    ] {
        let mut expected = vec![format!("periods: {answer}")];
        expected.extend(circumstances.iter().map(|what| format!("capture: {what}")));
        assert_eq!(met_when_full(&format!("capture {text}")), expected);
    }
}

#[test]
fn captures_that_are_too_short() {
    assert_met(
        1,
        "capture 1 3\nenter",
        &["periods: m 3 5", "capture: 5 with none"],
    );
    assert_met(
        1,
        "capture 1 3\nsamples 0 0 0\nenter",
        &["periods: m 3 5", "capture: 5 with the run-in alone"],
    );
    assert_met(
        1,
        "capture 1 2\nsamples 0 0 0 0 0 0\nenter",
        &["periods: m 2 5", "capture: 5 with m periods"],
    );
    let standing = met_when_full("capture 1 1\nsamples 0 0 0 0 0");
    assert_eq!(
        standing,
        [
            "periods: m 1 5",
            "capture: 5 with one too few",
            "capture: 5 and standing"
        ]
    );
}

#[test]
fn bad_captures_and_totals() {
    let last = |text: &str| met(8, text).pop().unwrap();
    let samples = |n: usize| format!("samples{}", " 0".repeat(n));
    for (m, n, name) in [
        (0, 4, "bad: beyond m 0"),
        (4, 16, "bad: beyond m 1 to 4"),
        (5, 19, "bad: beyond m 5 to 16"),
        (16, 52, "bad: beyond m 5 to 16"),
        (17, 55, "bad: beyond m 17 to 254"),
        (255, 769, "bad: beyond m 255"),
    ] {
        assert_eq!(last(&format!("capture 1 {m}\n{}", samples(n))), name);
        assert_eq!(
            last(&format!("capture 1 {m}\n{}", samples(n - 1))),
            "bad: end in open capture"
        );
    }
    assert_eq!(
        last(&format!("day 1\n{}", samples(3))),
        "bad: end in open day"
    );
    let periods = " 1 2 13".repeat(4);
    let night = |day: usize| format!("capture {day} 4\nsamples 0 0 0{periods}\nenter\n");
    let most: String = (1..=8).map(night).collect();
    let most = met(8, &format!("{most}ask\nwithdraw 1"));
    assert!(most.contains(&"total: the most".to_string()));
    assert!(most.contains(&"total: a power of two".to_string()));
    assert_eq!(most.last().unwrap(), "withdraw: 0 of several periods");
}
