//! The edition at the C door as this program makes it: starts, records of no edition, the draws, and the order of checks.

use second::door_held::{told, Held};
use second::judging::Judged;
use second::night::Night;
use second::order;
use second::order_campaign::{begun, Damage};
use second::reading::Summary;
use second::refusal::number;
use second::rng::Rng;
use second::room::Room;
use std::collections::{BTreeMap, BTreeSet};

/// Order 2, taps 3, one slot.
const KEPT: [i32; 3] = [8, 0, 0];
const NONE: [u32; 8] = [0, 3, 255, 256, 257, 258, 65_537, u32::MAX];

#[test]
fn a_start_is_24_after_9_and_before_a_short_table() {
    for edition in NONE {
        for cut in 0..4 {
            let mut held = begun(Damage::Whole, true);
            held.edition = edition;
            match cut {
                0 => held.days.truncate(365),
                1 => held.slots.truncate(63),
                2 => held.periods.truncate(63),
                _ => {}
            }
            let before = held.clone();
            assert_eq!(number(&held.start()), 24, "{edition}");
            assert_eq!(held, before);
            held.count = 0;
            assert_eq!(number(&held.start()), 9, "{edition}");
        }
    }
}

/// Day 1 stands and every call asks for what would be accepted, so that nothing but the edition is wrong.
#[test]
fn a_record_of_no_edition_is_15_at_every_call() {
    for edition in NONE {
        let mut held = begun(Damage::Whole, true);
        assert_eq!(number(&held.record().unwrap().counts(&held.lent)), 0);
        held.edition = edition;
        let before = held.clone();
        let record = held.record().unwrap();
        let mut room = Room {
            wide: &mut [0; 4],
            tags: &mut [0; 3],
        };
        let (r, means) = (&mut [0; 3], &mut [0; 3]);
        let response = number(&record.response(&held.lent, r, means, &mut room));
        let Summary::Refused(summary) = record.summary(&held.lent, &mut room) else {
            panic!("{edition}");
        };
        let capture = Night::capture(1, &[0, 0, 0, 8, 0, 0]);
        let answers = [
            told(held.enter(2, Night::one_period(&KEPT))).0,
            told(held.enter(2, capture)).0,
            told(held.file(2, Night::one_period(&KEPT), Judged::Kept)).0,
            told(held.file(2, capture, Judged::Kept)).0,
            number(&held.withdraw(1)),
            number(&record.counts(&held.lent)),
            response,
            summary.number(),
        ];
        assert_eq!(answers, [15; 8], "{edition}");
        assert_eq!(held, before);
    }
}

#[test]
fn the_other_edition_is_one_exactly_for_one() {
    let mut held = begun(Damage::Whole, false);
    for (edition, other) in [(1, 2), (2, 1)] {
        held.edition = edition;
        assert_eq!(held.other_edition(), other);
    }
    for edition in NONE {
        held.edition = edition;
        assert!(![1, 2].contains(&held.other_edition()), "{edition}");
    }
}

// ---- the draws

#[test]
fn damage_strikes_the_edition_in_every_way_and_only_one_still_holds_together() {
    for edition in [1, 2] {
        let mut whole = begun(Damage::Whole, true);
        whole.edition = edition;
        let rng = &mut Rng::for_log(5, u64::from(edition));
        let mut times: BTreeMap<u32, usize> = BTreeMap::new();
        for _ in 0..10_000 {
            let mut held = whole.clone();
            let damage = held.damage(rng);
            if held.edition != edition {
                *times.entry(held.edition).or_default() += 1;
                let holds = held.record().unwrap().counts(&held.lent).is_ok();
                assert_eq!(holds, held.edition == 3 - edition);
                let mut but_for_it = held.clone();
                but_for_it.edition = edition;
                assert_eq!(but_for_it, whole, "nothing else is struck with it");
            }
            held.mend(&damage);
            assert_eq!(held, whole);
        }
        let struck: Vec<u32> = times.keys().copied().collect();
        let mut expected = vec![0, 3 - edition, 3, 258, u32::MAX];
        expected.sort_unstable();
        assert_eq!(struck, expected);
        assert!(times.values().all(|&n| n > 20), "{times:?}");
    }
}

/// The lines of a thousand cases, each as its words.
fn random_lines() -> Vec<Vec<String>> {
    let mut printed = Vec::new();
    second::door::print(1, 1000, &mut printed).unwrap();
    let printed = String::from_utf8(printed).unwrap();
    let words = |line: &str| line.split(' ').map(str::to_string).collect();
    printed.lines().map(words).collect()
}

/// r, the room and the tags are what they were, and often enough the means are not.
#[test]
fn an_accepted_response_is_followed_by_that_of_the_other_edition() {
    let lines = random_lines();
    let (mut apart, mut alike) = (0, 0);
    for (before, line) in lines.iter().zip(&lines[1..]) {
        let accepted = before[1] == "response" && before[2] == "0";
        assert_eq!(accepted, line[1] == "other", "{before:?} {line:?}");
        if !accepted {
            continue;
        }
        let (own, other) = (&before[2..], &line[3..]);
        assert_eq!((&line[0], line[2].as_str()), (&before[0], "edition"));
        assert_eq!((&own[..2], &own[3..]), (&other[..2], &other[3..]));
        match own[2] == other[2] {
            true => alike += 1,
            false => apart += 1,
        }
    }
    assert!(apart > 20 && alike > 5, "{apart} {alike}");
}

// ---- the order of checks

/// The checks and answers of the starts of `second order`, in turn.
fn starts() -> Vec<(String, String)> {
    let mut printed = Vec::new();
    order::print(&mut printed).unwrap();
    let printed = String::from_utf8(printed).unwrap();
    let split = |line: &str| {
        let (checks, told) = line.strip_prefix("start: ")?.split_once(": ")?;
        Some((checks.to_string(), told.to_string()))
    };
    printed.lines().filter_map(split).collect()
}

#[test]
fn each_two_neighbours_of_a_starts_checks_are_tried() {
    let tried: BTreeSet<String> = starts().into_iter().map(|line| line.0).collect();
    let order = ["1", "2", "3", "4", "9", "24", "6"];
    for two in order.windows(2) {
        let checks = two.join(" before ");
        assert!(tried.contains(&checks), "{checks}");
    }
}

#[test]
fn so_many_starts_of_each_sort() {
    let starts = starts();
    let times = |checks: &str, told: &str| {
        let line = (checks.to_string(), told.to_string());
        starts.iter().filter(|&start| *start == line).count()
    };
    assert_eq!(times("9 before 6", "9 99999"), 5);
    assert_eq!(times("9 before 24", "9 99999"), 4);
    assert_eq!(times("24 before 6", "24 99999"), 10);
    assert_eq!(times("24 alone", "24 99999"), 6);
    assert_eq!(times("6 alone", "6 99999"), 3);
    assert_eq!(starts.len(), 33);
}

#[test]
fn the_orders_broken_records_have_an_edition_below_and_one_above() {
    for (damage, edition) in [(Damage::EditionBelow, 0), (Damage::EditionAbove, 3)] {
        assert!(Damage::ALL.contains(&damage) && !damage.stands());
        let mut held: Held = begun(damage, false);
        assert_eq!(held.edition, edition);
        held.edition = 1;
        assert_eq!(held, begun(Damage::Whole, false));
    }
}
