//! The C door's campaigns as this program makes them: tables that are too short, nights and damage as they are drawn, and the order of checks.

use second::campaign::Lent;
use second::door_held::{told, Held};
use second::door_nights::{any_periods, capture};
use second::entering::Verdict;
use second::judging::Judged;
use second::night::Night;
use second::order;
use second::reading::Summary;
use second::refusal::number;
use second::response::{HIGHEST, LOWEST};
use second::rng::Rng;
use second::room::Room;
use std::collections::BTreeSet;

/// Order 2, taps 3.
const P: usize = 3;
const SLOTS: usize = 4;
/// What each place of the memory holds before a start.
const HELD: u8 = 5;

/// Tables of these lengths, before any start.
fn held(days: usize, slots: usize, periods: usize) -> Held {
    Held {
        order: 2,
        taps: 3,
        count: SLOTS as u32,
        edition: 1,
        days: vec![HELD; days],
        slots: vec![u16::from(HELD); slots],
        periods: vec![HELD; periods],
        lent: Lent {
            store: vec![i32::from(HELD); SLOTS * P],
            sums: vec![i64::from(HELD); P],
        },
    }
}

fn started() -> Held {
    let mut held = held(366, 64, 64);
    assert_eq!(held.start(), Ok(P));
    held
}

const KEPT: [i32; 3 * P] = [HIGHEST, 0, 0, 1, 2, 13, 4, 5, -6];

/// A capture of 2 on day 1 and one period on day 2.
fn with_two_nights() -> Held {
    let mut held = started();
    let kept = held.enter(1, Night::capture(2, &KEPT));
    assert_eq!(kept, Verdict::Kept { slot: 0 });
    let kept = held.enter(2, Night::one_period(&[7, -8, 9]));
    assert_eq!(kept, Verdict::Kept { slot: 1 });
    held
}

/// The answers of the eight calls after a start, each asked for something that would be refused later too; none changes anything.
fn answers(held: &Held) -> BTreeSet<u8> {
    let mut after = held.clone();
    let mut room = Room {
        wide: &mut [],
        tags: &mut [],
    };
    let record = held.record();
    let asked = |c: &second::campaign::Campaign, room: &mut Room| {
        let response = number(&c.response(&held.lent, &mut [], &mut [], room));
        match c.summary(&held.lent, room) {
            Summary::Refused(refusal) => {
                [response, refusal.number(), number(&c.counts(&held.lent))]
            }
            other => panic!("{other:?}"),
        }
    };
    let told = [
        told(after.enter(0, Night::one_period(&[]))).0,
        told(after.enter(0, Night::capture(0, &[]))).0,
        told(after.file(0, Night::one_period(&[]), Judged::Kept)).0,
        told(after.file(0, Night::capture(0, &[]), Judged::Kept)).0,
        number(&after.withdraw(0)),
    ];
    let asked = match &record {
        Ok(c) => asked(c, &mut room),
        Err(refusal) => [refusal.number(); 3],
    };
    assert_eq!(after, *held);
    told.into_iter().chain(asked).collect()
}

#[test]
fn a_short_table_is_6_at_a_start_and_comes_after_9() {
    for (days, slots, periods) in [(365, 64, 64), (366, 63, 64), (366, 64, 63), (0, 0, 0)] {
        let mut short = held(days, slots, periods);
        let before = short.clone();
        assert_eq!(number(&short.start()), 6);
        assert_eq!(short, before);
        short.count = 0;
        assert_eq!(number(&short.start()), 9);
    }
}

#[test]
fn a_short_table_is_15_at_every_other_call() {
    let broken = BTreeSet::from([15]);
    for cut in 0..3 {
        let mut short = with_two_nights();
        match cut {
            0 => short.days.truncate(365),
            1 => short.slots.truncate(63),
            _ => short.periods.truncate(63),
        }
        assert_eq!(answers(&short), broken, "{cut}");
    }
    // Whole, the calls on a day are refused with 10, the asks with 6, and the counts are told.
    assert_eq!(answers(&with_two_nights()), BTreeSet::from([0, 6, 10]));
}

#[test]
fn what_a_table_has_beyond_its_length_is_kept() {
    let mut long = held(368, 66, 67);
    assert_eq!(long.start(), Ok(P));
    long.enter(1, Night::capture(2, &KEPT));
    assert_eq!(long.periods[..2], [2, 0]);
    assert_eq!(long.periods[64..], [HELD; 3]);
    assert_eq!(long.slots[64..], [u16::from(HELD); 2]);
    assert_eq!(long.days[366..], [HELD; 2]);
    assert_eq!(long.withdraw(1), Ok(()));
    assert_eq!(long.periods, [vec![0; 64], vec![HELD; 3]].concat());
}

#[test]
fn a_verdict_tells_its_state_and_its_slot_or_place() {
    let mut held = started();
    let mut told_of = |m: u32, samples: &[i32]| told(held.enter(9, Night::capture(m, samples)));
    assert_eq!(told_of(2, &[0, 0, 0, 0, 0, 0, 0, 0, LOWEST]), (0, 2, 5));
    assert_eq!(told_of(2, &[LOWEST; 9]), (0, 2, 0));
    assert_eq!(told_of(1, &[LOWEST, 0, 0, 5, 5, 5]), (0, 3, 0));
    assert_eq!(told_of(17, &[0; 54]), (18, 9, 9));
    assert_eq!(told_of(2, &KEPT), (0, 1, 0));
    assert_eq!(told_of(2, &KEPT), (11, 9, 9));
}

// ---- the draws

const DRAWS: usize = 4000;

#[test]
fn periods_are_drawn_on_both_sides_of_each_limit() {
    let rng = &mut Rng::for_log(1, 0);
    let drawn: BTreeSet<u32> = (0..DRAWS).map(|_| any_periods(rng)).collect();
    let expected = [0, 1, 2, 3, 4, 5, 16, 17, 255, 4_294_967_295];
    assert_eq!(drawn, BTreeSet::from(expected));
}

#[test]
fn captures_are_drawn_whole_and_a_sample_or_a_period_off() {
    let p = 7;
    for m in [0, 1, 2, 16, 17] {
        let rng = &mut Rng::for_log(1, u64::from(m));
        let lengths: Vec<usize> = (0..DRAWS).map(|_| capture(rng, m, p).len()).collect();
        let whole = (m as usize + 1) * p;
        let times = |n: usize| lengths.iter().filter(|&&length| length == n).count();
        assert!(times(whole) > DRAWS / 2);
        for off in [whole - 1, whole + 1, whole - p, whole + p] {
            assert!(times(off) > DRAWS / 50, "{off} of {whole}");
        }
    }
    let rng = &mut Rng::for_log(1, 99);
    let lengths: BTreeSet<usize> = (0..DRAWS)
        .map(|_| capture(rng, u32::MAX, p).len())
        .collect();
    assert_eq!(lengths, BTreeSet::from([0, p, 2 * p]));
}

fn rail(sample: &i32) -> bool {
    *sample == HIGHEST || *sample == LOWEST
}

/// Whole captures of 3, as their run-in and what counts.
fn drawn_captures() -> Vec<(Vec<i32>, Vec<i32>)> {
    let p = 7;
    let rng = &mut Rng::for_log(2, 0);
    let captures = (0..DRAWS).map(|_| capture(rng, 3, p));
    captures
        .filter(|samples| samples.len() == 4 * p)
        .map(|samples| (samples[..p].to_vec(), samples[p..].to_vec()))
        .collect()
}

#[test]
fn captures_are_drawn_with_rails_in_every_place_that_matters() {
    let drawn = drawn_captures();
    let inside = |v: &i32| (LOWEST..=HIGHEST).contains(v);
    let cases: [(&str, &dyn Fn(&[i32], &[i32]) -> bool); 8] = [
        ("periods that cancel", &|_, rest| {
            (0..7).all(|k| rest[k] + rest[k + 7] == 0) && rest[0] != 0
        }),
        ("a run-in all at a rail", &|run_in, _| {
            run_in.iter().all(rail)
        }),
        ("rails in the run-in alone", &|run_in, rest| {
            run_in.iter().any(rail) && !rest.iter().any(rail) && rest.iter().all(inside)
        }),
        ("outside in the run-in alone", &|run_in, rest| {
            !run_in.iter().all(inside) && rest.iter().all(inside)
        }),
        ("outside behind it alone", &|run_in, rest| {
            run_in.iter().all(inside) && !rest.iter().all(inside)
        }),
        ("the first rail at the first place", &|_, rest| {
            rail(&rest[0])
        }),
        ("the first rail at the last place", &|_, rest| {
            rest.iter().position(|v| rail(v)) == Some(rest.len() - 1)
        }),
        ("each place next to a rail", &|_, rest| {
            rest.iter().all(|&v| v == LOWEST + 1 || v == HIGHEST - 1)
        }),
    ];
    for (name, met) in cases {
        let times = drawn
            .iter()
            .filter(|(run_in, rest)| met(run_in, rest))
            .count();
        assert!(times > DRAWS / 60, "{times} times {name}");
    }
}

/// What damage does to a campaign of two nights, by the table of periods and by the first numbers of a used slot.
fn damaged() -> Vec<Held> {
    let rng = &mut Rng::for_log(3, 0);
    let strike = |_| {
        let mut held = with_two_nights();
        let damage = held.damage(rng);
        let mut mended = held.clone();
        mended.mend(&damage);
        assert_eq!(mended, with_two_nights());
        held
    };
    (0..5 * DRAWS).map(strike).collect()
}

#[test]
fn damage_strikes_the_periods_of_every_sort_of_slot() {
    let damaged = damaged();
    let cases: [(&str, &dyn Fn(&Held) -> bool); 6] = [
        ("a used slot without periods", &|held| held.periods[0] == 0),
        ("a used slot of 17", &|held| {
            held.periods[0] == 17 || held.periods[1] == 17
        }),
        ("a used slot of one more", &|held| {
            held.periods[0] == 3 || held.periods[1] == 2
        }),
        ("a used slot of fewer", &|held| held.periods[0] == 1),
        ("a free slot with periods", &|held| {
            held.periods[2] != 0 || held.periods[3] != 0
        }),
        ("a slot past C with periods", &|held| {
            held.periods[4..].iter().any(|&m| m != 0)
        }),
    ];
    for (name, met) in cases {
        let times = damaged.iter().filter(|held| met(held)).count();
        assert!(times > DRAWS / 80, "{times} times {name}");
    }
}

/// Slot 0 is of 2 periods and slot 1 of 1.
#[test]
fn damage_moves_a_used_slot_to_its_bounds_and_one_beyond() {
    let damaged = damaged();
    for (slot, edges) in [
        (0, [-16_777_214, -16_777_215, 16_777_212, 16_777_213]),
        (1, [-8_388_607, -8_388_608, 8_388_606, 8_388_607]),
    ] {
        for (edge, holds) in edges.into_iter().zip([true, false, true, false]) {
            let met = |held: &&Held| held.lent.store[slot * P..][..P].contains(&edge);
            let struck: Vec<&Held> = damaged.iter().filter(met).collect();
            assert!(struck.len() > DRAWS / 800, "{edge}");
            for held in struck {
                let together = held.record().unwrap().counts(&held.lent).is_ok();
                assert_eq!(together, holds, "{edge} in slot {slot}");
            }
        }
    }
}

#[test]
fn two_thousand_cases_meet_every_answer_of_every_campaign_call() {
    let mut printed = Vec::new();
    second::door::print(1, 2000, &mut printed).unwrap();
    let printed = String::from_utf8(printed).unwrap();
    let mut met = BTreeSet::new();
    for line in printed.lines() {
        let words: Vec<&str> = line.split(' ').collect();
        match words[1] {
            "enter" | "capture" => met.insert(format!("{} {} {}", words[1], words[2], words[3])),
            call => met.insert(format!("{call} {}", words[2])),
        };
    }
    let entries = [
        "0 1", "0 2", "0 3", "5 9", "7 9", "10 9", "11 9", "12 9", "15 9",
    ];
    let mut expected: Vec<String> = ["enter", "capture"]
        .iter()
        .flat_map(|call| entries.map(|answer| format!("{call} {answer}")))
        .collect();
    expected.push("capture 18 9".to_string());
    for (call, answers) in [
        ("start", "0 1 2 3 4 6 9 24"),
        ("withdraw", "0 10 13 15"),
        ("counts", "0 15"),
        ("response", "0 6 14 15"),
        ("summary", "0 6 15"),
    ] {
        expected.extend(answers.split(' ').map(|answer| format!("{call} {answer}")));
    }
    for name in expected {
        assert!(met.contains(&name), "{name}");
    }
}

#[test]
fn the_cases_of_short_rooms_meet_every_answer_of_every_legendre_call() {
    let mut printed = Vec::new();
    second::door::print(1, 2000, &mut printed).unwrap();
    let printed = String::from_utf8(printed).unwrap();
    let met: BTreeSet<(&str, &str)> = printed
        .lines()
        .map(|line| line.split(' ').collect::<Vec<&str>>())
        .filter(|words| words[1] == "legendre")
        .map(|words| (words[2], words[3]))
        .collect();
    for (call, answers) in [
        ("sequence", "0 6 25"),
        ("recording", "0 5 6 7 25"),
        ("predict", "0 5 6 7 8 25"),
    ] {
        for answer in answers.split(' ') {
            assert!(met.contains(&(call, answer)), "{call} {answer}");
        }
    }
}

// ---- the order of checks

/// The lines of `second order` as call, checks and answer with what follows it.
fn order_lines() -> Vec<[String; 3]> {
    let mut printed = Vec::new();
    order::print(&mut printed).unwrap();
    let split = |line: &str| {
        let parts: Vec<String> = line.split(": ").map(str::to_string).collect();
        parts.try_into().unwrap()
    };
    String::from_utf8(printed)
        .unwrap()
        .lines()
        .map(split)
        .collect()
}

#[test]
fn the_first_of_two_checks_answers() {
    for [call, checks, told] in order_lines() {
        let first = checks.split(' ').next().unwrap();
        let answer = told.split(' ').next().unwrap();
        let expected = if first.parse::<u8>().is_ok() {
            first
        } else {
            "0"
        };
        // A check that is no number is a verdict or what is found of one, and is told as accepted.
        assert_eq!(answer, expected, "{call}: {checks}: {told}");
    }
}

#[test]
fn each_two_neighbours_of_a_captures_checks_are_tried() {
    let tried: BTreeSet<String> = order_lines()
        .into_iter()
        .filter(|[call, _, _]| call == "capture")
        .map(|[_, checks, _]| checks)
        .collect();
    for checks in [
        "15 before 10",
        "10 before 18",
        "18 before 5",
        "5 before 7",
        "7 before 11",
        "11 before the verdict",
        "11 before 12",
        "the verdict before 12",
    ] {
        assert!(tried.contains(checks), "{checks}");
    }
}

/// The verdicts of the captures that are judged, in the order in which they are printed.
#[test]
fn captures_judged_by_hand() {
    let told: Vec<String> = order_lines()
        .into_iter()
        .filter(|[call, _, told]| call == "capture" && told.starts_with("0 "))
        .map(|[_, _, told]| told)
        .collect();
    let expected = [
        "0 2 2", "0 2 5", "0 1 0", "0 3 0", "0 3 0", "0 2 0", "0 2 2", "0 2 5", "0 2 0", "0 2 5",
        "0 3 0", "0 3 0",
    ];
    assert_eq!(told, expected);
}
