//! Judging and filing at the C door as this program makes them: a verdict as a pair of numbers, the random calls, and the order of checks.

use second::door_held::{told, Held};
use second::door_judging::{judged_words, pair_of, shown_by, Pair};
use second::judging::{judge, Judged};
use second::night::Night;
use second::order;
use second::order_campaign::{begun, Damage};
use second::refusal::Refusal;
use second::response::HIGHEST;
use std::collections::BTreeSet;
use std::sync::OnceLock;

/// Order 2, taps 3.
const P: usize = 3;
const KEPT: [i32; P] = [8, 0, 0];
const STILL: [i32; P] = [5; P];
const LAST_AT_RAIL: [i32; P] = [0, 0, HIGHEST];

// ---- the pairs

#[test]
fn a_verdict_goes_out_as_a_pair_and_comes_back_as_itself() {
    let place = 70_000;
    for (judged, pair) in [
        (Judged::Kept, (1, 0)),
        (Judged::Overloaded { place: 0 }, (2, 0)),
        (Judged::Overloaded { place }, (2, place)),
        (Judged::Dead, (3, 0)),
    ] {
        assert_eq!(pair_of(judged), pair);
        assert_eq!(shown_by(pair), judged);
    }
    let refused = Judged::Refused(Refusal::WrongLength);
    assert_eq!(pair_of(refused), (9, 9));
}

fn pairs() -> impl Iterator<Item = Pair> {
    let states = [
        0,
        1,
        2,
        3,
        4,
        5,
        9,
        10,
        23,
        255,
        256,
        257,
        u32::MAX as usize,
    ];
    let values = [0, 1, 2, 3, 5, 9, u32::MAX as usize, usize::MAX];
    states
        .into_iter()
        .flat_map(move |state| values.map(|value| (state, value)))
}

fn file(held: &mut Held, day: u16, y: &[i32], pair: Pair) -> (u8, usize, usize) {
    told(held.file(day, Night::one_period(y), shown_by(pair)))
}

#[test]
fn a_pair_that_is_not_what_judging_wrote_is_23_and_changes_nothing() {
    for (y, state, place) in [(KEPT, 1, 0), (LAST_AT_RAIL, 2, 2), (STILL, 3, 0)] {
        for standing in [false, true] {
            let before = begun(Damage::Whole, standing);
            let wrote = pair_of(judge(2, 3, Night::one_period(&y)).verdict);
            assert_eq!(wrote, (state, place));
            for pair in pairs().filter(|&pair| pair != wrote) {
                let mut held = before.clone();
                assert_eq!(file(&mut held, 2, &y, pair), (23, 9, 9), "{pair:?}");
                assert_eq!(held, before);
            }
        }
        let held = &mut begun(Damage::Whole, false);
        assert_eq!(file(held, 2, &y, (state, place)), (0, state, place));
        assert_eq!(held.days[1] as usize, state);
    }
}

#[test]
fn every_pair_is_11_on_a_standing_day_and_15_where_the_record_is_broken() {
    for pair in pairs() {
        let standing = &mut begun(Damage::Whole, true);
        assert_eq!(file(standing, 1, &KEPT, pair), (11, 9, 9));
        for damage in Damage::ALL {
            let mut broken = begun(damage, damage.stands());
            let before = broken.clone();
            assert_eq!(file(&mut broken, 0, &KEPT, pair), (15, 9, 9));
            assert_eq!(broken, before);
        }
    }
}

#[test]
fn a_filing_tells_the_slot_where_judging_tells_0() {
    let mut held = begun(Damage::Whole, true);
    held.count = 2;
    held.lent.store.resize(2 * P, 0);
    let night = Night::one_period(&KEPT);
    assert_eq!(judged_words(&judge(2, 3, night)), "0 1 0 3");
    assert_eq!(file(&mut held, 2, &KEPT, (1, 0)), (0, 1, 1));
}

#[test]
fn a_judgement_tells_the_period_with_0_and_with_4_alone() {
    let words = |order, taps, y: &[i32]| judged_words(&judge(order, taps, Night::one_period(y)));
    assert_eq!(words(2, 3, &LAST_AT_RAIL), "0 2 2 3");
    assert_eq!(words(2, 3, &STILL), "0 3 0 3");
    assert_eq!(words(4, 15, &[]), "4 9 9 5");
    assert_eq!(words(4, 5, &[]), "4 9 9 6");
    assert_eq!(words(2, 3, &[]), "5 9 9 99999");
    assert_eq!(words(1, 3, &[]), "1 9 9 99999");
}

// ---- the random calls

/// A line as its case, the call's name and the numbers.
type Line = (String, String, Vec<i128>);

/// Two thousand cases, made once for all tests.
fn random_lines() -> &'static [Line] {
    static LINES: OnceLock<Vec<Line>> = OnceLock::new();
    LINES.get_or_init(drawn_lines)
}

fn drawn_lines() -> Vec<Line> {
    let mut printed = Vec::new();
    second::door::print(1, 2000, &mut printed).unwrap();
    let split = |line: &str| {
        let (case, rest) = line.split_once(' ').unwrap();
        let numbers = rest.trim_start_matches(|c: char| c.is_alphabetic() || c == ' ');
        let call = rest[..rest.len() - numbers.len()].trim_end().to_string();
        let numbers = numbers.split(' ').map(|n| n.parse().unwrap()).collect();
        (case.to_string(), call, numbers)
    };
    let lines = String::from_utf8(printed).unwrap();
    lines.lines().map(split).collect()
}

#[test]
fn two_thousand_cases_meet_every_answer_of_judging_and_filing() {
    let lines = random_lines().iter();
    let met: BTreeSet<String> = lines
        .filter(|(_, call, _)| call.starts_with("judge") || call.starts_with("file"))
        .map(|(_, call, numbers)| format!("{call} {} {}", numbers[0], numbers[1]))
        .collect();
    let mut expected = BTreeSet::new();
    for (call, answers) in [
        ("judge", "1 2 3 4 5 7"),
        ("judge capture", "1 2 3 4 5 7 18"),
        ("file", "5 7 10 11 12 15 23"),
        ("file capture", "5 7 10 11 12 15 18 23"),
    ] {
        let refused = answers
            .split(' ')
            .map(|answer| format!("{call} {answer} 9"));
        expected.extend(refused.chain((1..=3).map(|state| format!("{call} 0 {state}"))));
    }
    assert_eq!(met, expected);
}

/// A filing follows the judgement of its night, and what it answers agrees with it.
#[test]
fn a_filing_in_a_campaign_answers_as_its_judgement_says() {
    let lines = random_lines();
    let (mut right, mut wrong) = (0, 0);
    for (before, line) in lines.iter().zip(&lines[1..]) {
        let (_, call, filed) = line;
        if !call.starts_with("file") {
            continue;
        }
        let (case, judging, judged) = before;
        assert_eq!((case, judging), (&line.0, &call.replace("file", "judge")));
        match (judged[0], filed[0]) {
            (0, 0) => {
                assert_eq!(judged[1], filed[1]);
                assert!(
                    judged[1] == 1 || judged[2] == filed[2],
                    "{judged:?} {filed:?}"
                );
                right += 1;
            }
            (0, 23) => wrong += 1,
            (0, answer) => assert!([10, 11, 12, 15].contains(&answer), "{answer}"),
            (1..=4, answer) => assert_eq!(answer, 15),
            (refused, answer) => assert!([refused, 10, 15].contains(&answer), "{answer}"),
        }
    }
    assert!(right > 50 && wrong > 50, "{right} {wrong}");
}

// ---- the order of checks

/// What `second order` prints for one call, as checks and answer with what follows it.
fn order_lines(call: &str) -> Vec<(String, String)> {
    let mut printed = Vec::new();
    order::print(&mut printed).unwrap();
    let lines = String::from_utf8(printed).unwrap();
    let of_call = |line: &str| {
        let rest = line.strip_prefix(call)?.strip_prefix(": ")?;
        let (checks, told) = rest.split_once(": ")?;
        Some((checks.to_string(), told.to_string()))
    };
    lines.lines().filter_map(of_call).collect()
}

#[test]
fn each_two_neighbours_of_the_checks_are_tried() {
    for (call, order) in [
        ("judge", "1 2 3 4 5 7"),
        ("judge capture", "4 18 5 7"),
        ("file", "15 10 5 7 11 23 12"),
        ("file capture", "15 10 18 5 7 11 23 12"),
    ] {
        let tried: BTreeSet<String> = order_lines(call).into_iter().map(|line| line.0).collect();
        let order: Vec<&str> = order.split(' ').collect();
        for two in order.windows(2) {
            let checks = two.join(" before ");
            assert!(tried.contains(&checks), "{call}: {checks}");
        }
    }
}

#[test]
fn the_accepted_ones_by_hand() {
    for (call, expected) in [
        (
            "judge",
            "0 2 0 3, 0 2 1 3, 0 2 2 3, 0 3 0 3, 0 3 0 3, 0 1 0 3",
        ),
        ("judge capture", "0 1 0 3, 0 2 5 3, 0 3 0 3"),
        ("file", "0 2 0, 0 3 0, 0 1 0, 0 2 2, 0 3 0"),
        ("file capture", "0 2 5, 0 1 0, 0 3 0"),
    ] {
        let told = order_lines(call).into_iter().map(|line| line.1);
        let accepted: Vec<String> = told.filter(|told| told.starts_with("0 ")).collect();
        assert_eq!(accepted.join(", "), expected, "{call}");
    }
}

#[test]
fn so_many_lines_of_each_call() {
    let calls = ["judge", "judge capture", "file", "file capture"];
    let counts = calls.map(|call| order_lines(call).len());
    assert_eq!(counts, [12, 12, 29 + 12, 12 + 12]);
}
