//! Request 1 of 02: a capture of m periods behind a run-in, what the record keeps of it, and what it divides by.

use second::campaign::{start, Campaign, DayState, Lent};
use second::entering::Verdict::{self, *};
use second::night::Night;
use second::reading::{Levels, Summary};
use second::refusal::number;
use second::response::{HIGHEST, LOWEST};
use second::room::Room;

type At = (Campaign, Lent);

/// Order 2, taps 3, whose r is -2·(y0 + y1), -2·(y1 + y2), -2·(y0 + y2).
const P: usize = 3;
const RAILS: [i32; P] = [HIGHEST, LOWEST, HIGHEST];
const QUIET: [i32; P] = [0; P];
const ONE: [i32; P] = [1, 2, 13];
const TWO: [i32; P] = [4, 5, -6];
const THREE: [i32; P] = [7, 8, 9];
const ALONE: [i32; P] = [7, -8, 9];

fn campaign(slots: usize) -> At {
    let mut lent = Lent {
        store: vec![9; slots * P],
        sums: vec![9; P],
    };
    let campaign = start(2, 3, slots as u32, 1, &mut lent.store, &mut lent.sums).unwrap();
    (campaign, lent)
}

fn enter(at: &mut At, day: u16, samples: &[i32]) -> Verdict {
    let night = Night::one_period(samples);
    at.0.enter(&mut at.1, day, night).verdict
}

fn capture(at: &mut At, day: u16, m: u32, samples: &[i32]) -> Verdict {
    let entry = at.0.enter(&mut at.1, day, Night::capture(m, samples));
    assert_eq!(entry.day, day);
    entry.verdict
}

/// The number of an entry that is refused, and that changes nothing.
fn refused(at: &mut At, day: u16, night: Night) -> u8 {
    let before = at.clone();
    let verdict = at.0.enter(&mut at.1, day, night).verdict;
    assert_eq!(*at, before);
    match verdict {
        Refused(refusal) => refusal.number(),
        verdict => panic!("{verdict:?}"),
    }
}

fn refused_capture(at: &mut At, day: u16, m: u32, samples: &[i32]) -> u8 {
    refused(at, day, Night::capture(m, samples))
}

/// The first of the periods; the others are 0.
fn periods(at: &At, places: usize) -> Vec<u8> {
    let (first, rest) = at.0.periods.split_at(places);
    assert_eq!(rest, vec![0; 64 - places]);
    first.to_vec()
}

fn response(at: &At) -> ([i64; P], [i32; P]) {
    let (mut r, mut means) = ([0; P], [0; P]);
    let mut room = Room {
        wide: &mut [0; P + 1],
        tags: &mut [0; P],
    };
    let answer = at.0.response(&at.1, &mut r, &mut means, &mut room);
    assert_eq!(answer, Ok(()));
    (r, means)
}

fn levels(at: &At) -> [f64; 3] {
    let mut room = Room {
        wide: &mut [0; P + 1],
        tags: &mut [0; P],
    };
    match at.0.summary(&at.1, &mut room) {
        Summary::Levels(Levels {
            highest,
            lowest,
            at_peak,
        }) => [highest, lowest, at_peak],
        other => panic!("{other:?}"),
    }
}

/// A run-in and the same period m times.
fn repeated(run_in: [i32; P], period: [i32; P], m: usize) -> Vec<i32> {
    [run_in.to_vec(), period.repeat(m)].concat()
}

// ---- what is kept

#[test]
fn a_start_has_no_periods() {
    assert_eq!(campaign(64).0.periods, [0; 64]);
}

#[test]
fn the_periods_are_summed_place_by_place_and_the_run_in_is_dropped() {
    let at = &mut campaign(3);
    let night = [RAILS, ONE, TWO, THREE].concat();
    assert_eq!(capture(at, 7, 3, &night), Kept { slot: 0 });
    assert_eq!(at.1.store, [12, 15, 16, 0, 0, 0, 0, 0, 0]);
    assert_eq!(at.1.sums, [12, 15, 16]);
    assert_eq!(periods(at, 1), [3]);
    assert_eq!(at.0.table[..2], [7, 0]);
    assert_eq!(at.0.state(7), DayState::Standing);
}

#[test]
fn each_slot_has_its_own_periods_and_a_withdrawal_leaves_none() {
    let at = &mut campaign(3);
    assert_eq!(
        capture(at, 1, 2, &[RAILS, ONE, TWO].concat()),
        Kept { slot: 0 }
    );
    assert_eq!(enter(at, 2, &ALONE), Kept { slot: 1 });
    assert_eq!(
        capture(at, 3, 16, &repeated(QUIET, ONE, 16)),
        Kept { slot: 2 }
    );
    assert_eq!(periods(at, 3), [2, 1, 16]);
    assert_eq!(at.1.store, [5, 7, 7, 7, -8, 9, 16, 32, 208]);
    assert_eq!(at.1.sums, [28, 31, 224]);
    assert_eq!(at.0.withdraw(&mut at.1, 1), Ok(()));
    assert_eq!(periods(at, 3), [0, 1, 16]);
    assert_eq!(at.1.store, [0, 0, 0, 7, -8, 9, 16, 32, 208]);
    assert_eq!(at.1.sums, [23, 24, 217]);
    capture(at, 4, 3, &[RAILS, ONE, TWO, THREE].concat());
    assert_eq!(periods(at, 3), [3, 1, 16]);
    for day in [2, 3, 4] {
        assert_eq!(at.0.withdraw(&mut at.1, day), Ok(()));
    }
    assert_eq!(periods(at, 0), []);
    assert_eq!((&at.1.store, &at.1.sums), (&vec![0; 9], &vec![0; 3]));
}

#[test]
fn a_capture_of_1_leaves_what_the_entry_of_its_period_leaves() {
    let (a, b) = (&mut campaign(2), &mut campaign(2));
    let captured = capture(a, 5, 1, &[RAILS, ALONE].concat());
    assert_eq!(captured, enter(b, 5, &ALONE));
    assert_eq!(a, b);
    assert_eq!(periods(a, 1), [1]);
}

#[test]
fn a_kept_capture_and_its_withdrawal_give_back_all_but_the_days_state() {
    let at = &mut campaign(2);
    enter(at, 1, &ALONE);
    let mut before = at.clone();
    capture(at, 2, 4, &repeated(RAILS, ONE, 4));
    assert_eq!(at.0.withdraw(&mut at.1, 2), Ok(()));
    before.0.set_state(2, DayState::Withdrawn);
    assert_eq!(*at, before);
}

// ---- means and levels

#[test]
fn means_and_levels_divide_by_the_total_of_the_periods() {
    let at = &mut campaign(2);
    capture(at, 1, 3, &[RAILS, ONE, TWO, THREE].concat());
    // Over 4·3: -4.5, -5.17 and -4.67.
    assert_eq!(response(at), ([-54, -62, -56], [-5, -5, -5]));
    assert_eq!(levels(at), [-4.5, -62.0 / 12.0, -62.0 / 12.0]);
    enter(at, 2, &ALONE);
    // Over 4·4, which is a power of two, so that the levels are exact.
    assert_eq!(response(at), ([-52, -64, -88], [-3, -4, -6]));
    assert_eq!(levels(at), [-3.25, -5.5, -5.5]);
    assert_eq!(at.0.withdraw(&mut at.1, 1), Ok(()));
    // Over 4·1: r is 2, -2, -32.
    assert_eq!(response(at), ([2, -2, -32], [1, -1, -8]));
    assert_eq!(levels(at), [0.5, -8.0, -8.0]);
}

#[test]
fn where_no_day_stands_no_period_does() {
    let at = &mut campaign(1);
    capture(at, 1, 2, &[QUIET, ONE, RAILS].concat());
    let mut room = Room {
        wide: &mut [0; P + 1],
        tags: &mut [0; P],
    };
    let answer = at.0.response(&at.1, &mut [0; P], &mut [0; P], &mut room);
    assert_eq!(number(&answer), 14);
    assert_eq!(at.0.summary(&at.1, &mut room), Summary::NothingStands);
}

/// 64 slots of 16 periods each, every sample next to a rail: 1,024 times one period, whose r is 2, -16,777,212 and 16,777,214.
#[test]
fn the_most_that_can_stand_loses_nothing() {
    let at = &mut campaign(64);
    let night = repeated(RAILS, [-8_388_607, 8_388_606, 0], 16);
    for day in 1..=64 {
        let slot = day as usize - 1;
        assert_eq!(capture(at, day, 16, &night), Kept { slot });
    }
    assert_eq!(at.0.periods, [16; 64]);
    assert_eq!(at.1.store[..P], [-134_217_712, 134_217_696, 0]);
    assert_eq!(at.1.sums, [-8_589_933_568, 8_589_932_544, 0]);
    let r = [2_048, -17_179_865_088, 17_179_867_136];
    assert_eq!(response(at), (r, [1, -4_194_303, 4_194_304]));
    assert_eq!(levels(at), [4_194_303.5, -4_194_303.0, 4_194_303.5]);
}

// ---- the order of checks

#[test]
fn a_broken_record_comes_before_the_day() {
    let at = &mut campaign(1);
    at.0.periods[1] = 1;
    assert_eq!(refused_capture(at, 0, 0, &[]), 15);
}

#[test]
fn the_day_comes_before_the_periods() {
    let at = &mut campaign(1);
    for (day, m) in [(0, 0), (367, 17), (400, 255), (0, u32::MAX)] {
        assert_eq!(refused_capture(at, day, m, &[QUIET, ONE].concat()), 10);
    }
}

#[test]
fn the_periods_come_before_the_length_and_1_to_16_are_accepted() {
    let at = &mut campaign(64);
    for m in [0, 17, 18, 255, 256, 257, 65_536, 65_537, u32::MAX] {
        for samples in [
            vec![],
            vec![HIGHEST + 1; P],
            repeated(QUIET, ONE, 1),
            repeated(QUIET, ONE, 17),
        ] {
            assert_eq!(refused_capture(at, 1, m, &samples), 18, "{m}");
        }
    }
    for m in 1..=16 {
        let night = repeated(QUIET, ONE, m as usize);
        let slot = m as usize - 1;
        assert_eq!(capture(at, m as u16, m, &night), Kept { slot });
    }
    assert_eq!(periods(at, 16), (1..=16).collect::<Vec<u8>>());
}

#[test]
fn the_length_is_that_of_the_run_in_and_m_periods() {
    let at = &mut campaign(1);
    let long = vec![HIGHEST + 1; 19 * P];
    for m in 1..=16 {
        let right = (m + 1) * P;
        for wrong in [0, 1, P, m * P, right - 1, right + 1, right + P] {
            if wrong != right {
                let number = refused_capture(at, 1, m as u32, &long[..wrong]);
                assert_eq!(number, 5, "{wrong} of {right}");
            }
        }
        assert_eq!(refused_capture(at, 1, m as u32, &long[..right]), 7);
    }
}

#[test]
fn one_period_has_no_run_in() {
    let at = &mut campaign(1);
    for samples in [&[][..], &ONE[..2], &[QUIET, ONE].concat()] {
        assert_eq!(refused(at, 1, Night::one_period(samples)), 5);
    }
    assert_eq!(enter(at, 1, &RAILS), Overloaded { place: 0 });
}

#[test]
fn a_value_outside_the_range_is_refused_at_every_place_and_before_11() {
    let at = &mut campaign(2);
    assert_eq!(enter(at, 1, &ALONE), Kept { slot: 0 });
    for place in 0..4 * P {
        for outside in [HIGHEST + 1, LOWEST - 1, i32::MAX, i32::MIN] {
            let mut night = repeated(RAILS, ONE, 3);
            night[place] = outside;
            for day in [1, 2] {
                assert_eq!(refused_capture(at, day, 3, &night), 7, "{place}");
            }
        }
    }
}

#[test]
fn a_standing_day_comes_before_the_verdict_and_before_12() {
    let at = &mut campaign(1);
    assert_eq!(enter(at, 1, &ALONE), Kept { slot: 0 });
    for period in [ONE, RAILS, QUIET] {
        assert_eq!(refused_capture(at, 1, 2, &repeated(QUIET, period, 2)), 11);
    }
}

#[test]
fn the_verdict_comes_before_12() {
    let at = &mut campaign(1);
    assert_eq!(
        capture(at, 1, 2, &repeated(RAILS, ONE, 2)),
        Kept { slot: 0 }
    );
    assert_eq!(refused_capture(at, 2, 2, &repeated(RAILS, ONE, 2)), 12);
    assert_eq!(
        capture(at, 2, 2, &[QUIET, ONE, RAILS].concat()),
        Overloaded { place: 3 }
    );
    assert_eq!(capture(at, 2, 2, &repeated(RAILS, THREE, 2)), Dead);
}

// ---- the verdict

#[test]
fn an_overload_counts_its_place_from_behind_the_run_in() {
    for m in 1..=16 {
        for place in 0..m * P {
            for (rail, run_in) in [(HIGHEST, RAILS), (LOWEST, QUIET)] {
                let mut night = repeated(run_in, ONE, m);
                night[P + place] = rail;
                let verdict = capture(&mut campaign(1), 1, m as u32, &night);
                assert_eq!(verdict, Overloaded { place });
                *night.last_mut().unwrap() = rail;
                let verdict = capture(&mut campaign(1), 1, m as u32, &night);
                assert_eq!(verdict, Overloaded { place });
            }
        }
    }
}

#[test]
fn a_rail_in_the_run_in_is_no_overload() {
    for place in 0..P {
        for rail in [HIGHEST, LOWEST] {
            let mut night = repeated(QUIET, ONE, 2);
            night[place] = rail;
            assert_eq!(capture(&mut campaign(1), 1, 2, &night), Kept { slot: 0 });
            let mut night = repeated(QUIET, THREE, 2);
            night[place] = rail;
            assert_eq!(capture(&mut campaign(1), 1, 2, &night), Dead);
        }
    }
}

fn verdict(periods: &[[i32; P]]) -> Verdict {
    capture(
        &mut campaign(1),
        1,
        periods.len() as u32 - 1,
        &periods.concat(),
    )
}

#[test]
fn the_spread_is_of_all_samples_after_the_run_in() {
    let kept = Kept { slot: 0 };
    // Each period is still, and they are 7 or 8 apart.
    assert_eq!(verdict(&[QUIET, [0; P], [7; P]]), Dead);
    assert_eq!(verdict(&[QUIET, [0; P], [8; P]]), kept);
    assert_eq!(verdict(&[QUIET, [8; P], [4; P], [4; P], [0; P]]), kept);
    // The sum is still, and the samples are 8 apart.
    assert_eq!(verdict(&[QUIET, [0, 8, 0], [8, 0, 8]]), kept);
    // The sum is 14 apart, and the samples are 7 apart.
    assert_eq!(verdict(&[QUIET, [0, 7, 0], [0, 7, 0]]), Dead);
    // The first sample and the last make the spread.
    assert_eq!(verdict(&[QUIET, [0, 4, 4], [4, 4, 7]]), Dead);
    assert_eq!(verdict(&[QUIET, [0, 4, 4], [4, 4, 8]]), kept);
    // The run-in is far from the others, or far apart.
    assert_eq!(verdict(&[[8; P], [0; P], [0; P]]), Dead);
    assert_eq!(verdict(&[[-1000, 1000, 0], [0; P]]), Dead);
    assert_eq!(verdict(&[[-1000, 1000, 0], [0, 8, 0]]), kept);
}

#[test]
fn overloaded_and_dead_set_the_day_and_nothing_else() {
    let at = &mut campaign(2);
    capture(at, 1, 2, &repeated(RAILS, ONE, 2));
    for (m, period, state) in [(3, RAILS, DayState::Overloaded), (2, THREE, DayState::Dead)] {
        let mut after = at.clone();
        after.0.set_state(2, state);
        capture(at, 2, m, &repeated(QUIET, period, m as usize));
        assert_eq!(*at, after);
    }
}

// ---- holding together

/// A capture of 2 in the first of three slots.
fn standing() -> At {
    let mut at = campaign(3);
    assert_eq!(
        capture(&mut at, 1, 2, &[QUIET, ONE, TWO].concat()),
        Kept { slot: 0 }
    );
    at
}

/// Every call's answer on a record that holds together but for what was done to it; 15 changes nothing.
fn answer(mut at: At) -> u8 {
    let answer = number(&at.0.counts(&at.1));
    if answer == 0 {
        return 0;
    }
    let before = at.clone();
    assert_eq!(refused_capture(&mut at, 0, 0, &[]), answer);
    assert_eq!(refused(&mut at, 0, Night::one_period(&[])), answer);
    assert_eq!(number(&at.0.withdraw(&mut at.1, 0)), answer);
    let mut room = Room {
        wide: &mut [],
        tags: &mut [],
    };
    let response = at.0.response(&at.1, &mut [], &mut [], &mut room);
    assert_eq!(number(&response), answer);
    match at.0.summary(&at.1, &mut room) {
        Summary::Refused(refusal) => assert_eq!(refusal.number(), answer),
        other => panic!("{other:?}"),
    }
    assert_eq!(at, before);
    answer
}

#[test]
fn a_used_slot_has_1_to_16_periods() {
    let with = |m: u8| {
        let mut at = standing();
        at.0.periods[0] = m;
        answer(at)
    };
    for m in [0, 17, 18, 128, 255] {
        assert_eq!(with(m), 15, "{m}");
    }
    for m in 1..=16 {
        assert_eq!(with(m), 0, "{m}");
    }
}

/// Two periods that cancel leave zeros in a slot that is used all the same, and no number of zeros says how many periods there were.
#[test]
fn a_used_slot_of_zeros_has_its_periods_too() {
    let mut at = campaign(2);
    let night = [QUIET, [0, 8, 0], [0, -8, 0]].concat();
    assert_eq!(capture(&mut at, 1, 2, &night), Kept { slot: 0 });
    assert_eq!((&at.1.store[..P], &at.1.sums), (&[0; P][..], &vec![0; P]));
    assert_eq!(response(&at), ([0; P], [0; P]));
    assert_eq!(levels(&at), [0.0; 3]);
    for (m, expected) in [(0, 15), (1, 0), (2, 0), (16, 0), (17, 15)] {
        let mut spoiled = at.clone();
        spoiled.0.periods[0] = m;
        assert_eq!(answer(spoiled), expected, "{m}");
    }
    assert_eq!(at.0.withdraw(&mut at.1, 1), Ok(()));
    assert_eq!(periods(&at, 0), []);
}

#[test]
fn every_other_slot_has_none() {
    for slot in 1..64 {
        for m in [1, 2, 16, 17, 255] {
            let mut at = standing();
            at.0.periods[slot] = m;
            assert_eq!(answer(at), 15, "{m} in slot {slot}");
        }
    }
}

/// The record of a slot of m whose place 1 holds this value, and its sum with it.
fn holding(m: u8, value: i32) -> At {
    let mut at = standing();
    at.0.periods[0] = m;
    at.1.store[1] = value;
    at.1.sums[1] = i64::from(value);
    at
}

#[test]
fn a_used_slot_holds_what_its_periods_can_sum_to() {
    for (m, lowest, highest) in [
        (1, -8_388_607, 8_388_606),
        (2, -16_777_214, 16_777_212),
        (4, -33_554_428, 33_554_424),
        (16, -134_217_712, 134_217_696),
    ] {
        for value in [lowest, highest, 0] {
            assert_eq!(answer(holding(m, value)), 0, "{value} of {m}");
        }
        for value in [lowest - 1, highest + 1, i32::MIN, i32::MAX] {
            assert_eq!(answer(holding(m, value)), 15, "{value} of {m}");
        }
    }
    assert_eq!(answer(holding(1, -16_777_214)), 15);
}
