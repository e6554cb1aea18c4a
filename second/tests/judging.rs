//! Request 5 of 02: judging, which takes order, taps and a night, and no record and no day.

use second::judging::Judged::{self, *};
use second::judging::{judge, Judgement};
use second::night::Night;
use second::refusal::Refusal;
use second::register::default_taps;
use second::response::{HIGHEST, LOWEST};

/// Order 3, taps 3.
const P: usize = 7;
const KEPT_PERIOD: [i32; P] = [6, -2, 0, 1, 3, -1, 4];
/// A spread of 7.
const DITHER: [i32; P] = [5, -2, 0, 1, 3, -1, 4];

fn one_period(samples: &[i32]) -> Judged {
    judge(3, 3, Night::one_period(samples)).verdict
}

fn capture(m: u32, samples: &[i32]) -> Judged {
    judge(3, 3, Night::capture(m, samples)).verdict
}

/// A run-in and the same period m times.
fn repeated(run_in: i32, period: &[i32], m: usize) -> Vec<i32> {
    [vec![run_in; P], period.repeat(m)].concat()
}

fn of_night(m: Option<u32>, samples: &[i32]) -> Night<'_> {
    m.map_or(Night::one_period(samples), |m| Night::capture(m, samples))
}

// ---- the order of checks

/// A register with the refusal that it meets, and 0 for the one that is accepted.
const REGISTERS: [(u32, u32, u8); 7] = [
    (1, 2, 1),
    (17, 1 << 17, 1),
    (0, 0, 1),
    (3, 8, 2),
    (3, 2, 3),
    (3, 1, 4),
    (3, 3, 0),
];

/// The samples of a night of this length, one of them outside the range where asked.
fn of_length(n: usize, outside: bool) -> Vec<i32> {
    let mut samples: Vec<i32> = (0..n as i32).map(|j| 9 * (j % 2)).collect();
    if let (true, Some(last)) = (outside, samples.last_mut()) {
        *last = HIGHEST + 1;
    }
    samples
}

/// Every set of things that can be wrong with a night beside its register, with the first refusal that it meets there.
fn nights() -> Vec<(Option<u32>, Vec<i32>, u8)> {
    let periods = [None, Some(1), Some(2), Some(16), Some(0), Some(17)];
    let wrongs = [(0, false), (0, true), (1, false), (1, true)];
    let night = |m: Option<u32>, (longer, outside): (usize, bool)| {
        let whole = m.map_or(P, |m| (m as usize + 1) * P);
        let many = m.is_some_and(|m| !(1..=16).contains(&m));
        let first = [(many, 18), (longer > 0, 5), (outside, 7), (true, 0)];
        let (_, answer) = first.into_iter().find(|(met, _)| *met).unwrap();
        (m, of_length(whole + longer, outside), answer)
    };
    periods
        .into_iter()
        .flat_map(|m| wrongs.map(|wrong| night(m, wrong)))
        .collect()
}

#[test]
fn the_first_refusal_that_applies_answers_whatever_else_is_wrong() {
    for (m, samples, of_the_night) in nights() {
        for (order, taps, of_the_register) in REGISTERS {
            let answer = judge(order, taps, of_night(m, &samples)).verdict.number();
            let expected = [of_the_register, of_the_night];
            let expected = expected.into_iter().find(|&n| n != 0).unwrap_or(0);
            let n = samples.len();
            assert_eq!(answer, expected, "order {order} taps {taps} {m:?} of {n}");
        }
    }
}

#[test]
fn periods_of_every_size_are_told_before_the_length() {
    for m in [0, 17, 18, 255, 256, 257, 65_536, 65_537, u32::MAX] {
        for samples in [vec![], vec![HIGHEST + 1; P], vec![HIGHEST + 1; 18 * P]] {
            let refused = Refused(Refusal::PeriodsOutOfRange);
            assert_eq!(capture(m, &samples), refused, "{m}");
        }
    }
    for m in 1..=16 {
        assert_eq!(capture(m, &repeated(0, &KEPT_PERIOD, m as usize)), Kept);
    }
}

#[test]
fn a_night_of_any_other_length_is_not_judged() {
    let long = vec![HIGHEST + 1; 19 * P];
    let refused = Refused(Refusal::WrongLength);
    for n in [0, 1, P - 1, P + 1, 2 * P] {
        assert_eq!(one_period(&long[..n]), refused, "{n}");
    }
    for m in 1..=16 {
        let right = (m + 1) * P;
        for n in [0, 1, P, right - 1, right + 1, right - P, right + P] {
            if n != right {
                assert_eq!(capture(m as u32, &long[..n]), refused, "{n} of {right}");
            }
        }
    }
}

#[test]
fn a_value_outside_the_range_is_told_before_the_verdict_wherever_it_is() {
    let refused = Refused(Refusal::ValueOutsideRange);
    for outside in [HIGHEST + 1, LOWEST - 1, i32::MAX, i32::MIN] {
        for place in 0..3 * P {
            for others in [0, HIGHEST] {
                let mut samples = vec![others; 3 * P];
                samples[place] = outside;
                assert_eq!(capture(2, &samples), refused);
                let mut samples = vec![others; P];
                samples[place % P] = outside;
                assert_eq!(one_period(&samples), refused);
            }
        }
    }
}

// ---- the period

#[test]
fn an_accepted_judgement_tells_p_whatever_the_verdict() {
    for order in 2..=16 {
        let taps = default_taps(order).unwrap();
        let p = (1 << order) - 1;
        let mut samples = vec![0; p];
        for (first, verdict) in [(0, Dead), (8, Kept), (LOWEST, Overloaded { place: 0 })] {
            samples[0] = first;
            let period = Some(p);
            let judgement = judge(order, taps, Night::one_period(&samples));
            assert_eq!(judgement, Judgement { verdict, period });
        }
    }
}

#[test]
fn refusal_4_tells_the_first_return_and_no_other_refusal_a_period() {
    for (taps, first_return) in [(15, 5), (5, 6), (1, 1)] {
        for (m, samples) in [(None, vec![0; 15]), (Some(0), vec![])] {
            let judgement = judge(4, taps, of_night(m, &samples));
            let verdict = Refused(Refusal::NotMaximal { first_return });
            let period = Some(first_return);
            assert_eq!(judgement, Judgement { verdict, period });
        }
    }
    for (m, samples, answer) in nights().into_iter().filter(|night| night.2 != 0) {
        let period = judge(3, 3, of_night(m, &samples)).period;
        assert_eq!(period, None, "{answer}");
    }
    for (order, taps) in [(1, 2), (17, 3), (3, 8), (3, 2)] {
        let period = judge(order, taps, Night::one_period(&[0; P])).period;
        assert_eq!(period, None, "order {order} taps {taps}");
    }
}

// ---- the verdict

#[test]
fn one_period_is_overloaded_at_its_first_rail_or_dead_or_kept() {
    assert_eq!(one_period(&KEPT_PERIOD), Kept);
    assert_eq!(one_period(&DITHER), Dead);
    for place in 0..P {
        for rail in [HIGHEST, LOWEST] {
            for others in [KEPT_PERIOD, DITHER] {
                let mut samples = others;
                samples[place] = rail;
                samples[P - 1] = rail;
                assert_eq!(one_period(&samples), Overloaded { place });
            }
            let mut samples = [rail - rail.signum(); P];
            assert_eq!(one_period(&samples), Dead);
            samples[place] = rail;
            assert_eq!(one_period(&samples), Overloaded { place });
        }
    }
}

#[test]
fn a_captures_place_is_counted_after_the_run_in() {
    for m in 1..=16 {
        for place in 0..m * P {
            for run_in in [0, HIGHEST, LOWEST] {
                let mut samples = repeated(run_in, &KEPT_PERIOD, m);
                samples[P + place] = HIGHEST;
                assert_eq!(capture(m as u32, &samples), Overloaded { place });
            }
        }
    }
}

#[test]
fn the_run_in_is_not_judged() {
    for run_in in [0, 1000, HIGHEST, LOWEST] {
        for m in 1..=16 {
            let kept = repeated(run_in, &KEPT_PERIOD, m);
            assert_eq!(capture(m as u32, &kept), Kept);
            let dead = repeated(run_in, &DITHER, m);
            assert_eq!(capture(m as u32, &dead), Dead);
        }
    }
}

#[test]
fn the_spread_of_a_capture_is_of_all_that_counts() {
    let of_two = |one: i32, other: i32| [[HIGHEST; P], [one; P], [other; P]].concat();
    assert_eq!(capture(2, &of_two(0, 7)), Dead);
    assert_eq!(capture(2, &of_two(0, 8)), Kept);
    assert_eq!(capture(2, &of_two(9, -9)), Kept);
}

#[test]
fn judging_leaves_the_samples_as_they_were_and_judges_them_alike_again() {
    for (m, samples, _) in nights() {
        let before = samples.clone();
        let first = judge(3, 3, of_night(m, &samples));
        let second = judge(3, 3, of_night(m, &samples));
        assert_eq!((first, samples), (second, before));
    }
}
