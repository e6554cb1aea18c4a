//! Request 2 of 02: a recording is dead when its largest sample minus its smallest is 7 or less. Overload comes first.

use second::campaign::{start, Campaign, DayState, Lent};
use second::entering::Verdict::{self, *};
use second::judging::{spread, verdict_on, Judged};
use second::night::Night;
use second::refusal::Refusal::{self, *};
use second::response::{HIGHEST, LOWEST};

const P: usize = 7;
/// A spread of 7 and one of 8.
const DITHER: [i32; P] = [5, -2, 0, 1, 3, -1, 4];
const BARELY_KEPT: [i32; P] = [6, -2, 0, 1, 3, -1, 4];

/// Order 3, taps 3.
fn campaign(slots: usize) -> (Campaign, Lent) {
    let mut lent = Lent {
        store: vec![9; slots * P],
        sums: vec![9; P],
    };
    let campaign = start(3, 3, slots as u32, 1, &mut lent.store, &mut lent.sums).unwrap();
    (campaign, lent)
}

fn enter(at: &mut (Campaign, Lent), day: u16, recording: &[i32]) -> Verdict {
    let night = Night::one_period(recording);
    at.0.enter(&mut at.1, day, night).verdict
}

/// The verdict on the first night of a campaign.
fn verdict(recording: &[i32]) -> Verdict {
    enter(&mut campaign(1), 1, recording)
}

/// Every two places of a recording, in both orders.
fn two_places() -> impl Iterator<Item = (usize, usize)> {
    (0..P).flat_map(|a| (0..P).filter(move |&b| b != a).map(move |b| (a, b)))
}

/// One sample at `low`, one at `high`, and all others at `rest`.
fn with_two((a, b): (usize, usize), low: i32, high: i32, rest: i32) -> [i32; P] {
    let mut recording = [rest; P];
    recording[a] = low;
    recording[b] = high;
    recording
}

/// A smallest sample next to the lower rail, below 0, just below, around, at and above 0, and one whose largest is next to the upper rail.
fn smallest_samples(spread: i32) -> [i32; 9] {
    let half = spread / 2;
    let next_to_the_upper_rail = 8_388_606 - spread;
    [
        -8_388_607,
        -1000,
        -spread - 1,
        -spread,
        -half,
        0,
        1,
        1000,
        next_to_the_upper_rail,
    ]
}

/// At each place in the range, with the two extremes at every two places, and the others anywhere between them.
fn assert_at_spread(spread: i32, expected: Verdict) {
    for low in smallest_samples(spread) {
        for places in two_places() {
            for rest in low..=low + spread {
                let recording = with_two(places, low, low + spread, rest);
                assert_eq!(verdict(&recording), expected, "{recording:?}");
            }
        }
    }
}

#[test]
fn up_to_7_is_dead_and_8_is_kept_wherever_the_extremes_stand() {
    for spread in [0, 1, 5, 6, 7] {
        assert_at_spread(spread, Dead);
    }
    for spread in [8, 9, 15, 16, 255, 256] {
        assert_at_spread(spread, Kept { slot: 0 });
    }
}

#[test]
fn both_ends_of_the_range_are_kept_together() {
    for places in two_places() {
        for rest in [-8_388_607, 0, 8_388_606] {
            let recording = with_two(places, -8_388_607, 8_388_606, rest);
            assert_eq!(verdict(&recording), Kept { slot: 0 }, "{recording:?}");
        }
    }
}

#[test]
fn the_spread_is_wide() {
    assert_eq!(spread(&[-8_388_607, 8_388_606]), 16_777_213);
    assert_eq!(spread(&[LOWEST, HIGHEST]), 16_777_215);
    assert_eq!(spread(&[i32::MIN, i32::MAX]), 4_294_967_295);
    assert_eq!(spread(&[i32::MAX, 0, i32::MIN]), 4_294_967_295);
    assert_eq!(verdict_on(&[i32::MIN, i32::MAX]), Judged::Kept);
}

#[test]
fn one_sample_alone_makes_the_spread() {
    for place in [0, 3, P - 1] {
        for (value, expected) in [
            (7, Dead),
            (-7, Dead),
            (8, Kept { slot: 0 }),
            (-8, Kept { slot: 0 }),
        ] {
            for still in [-8_000_000, -4, 0, 4, 8_000_000] {
                let mut recording = [still; P];
                recording[place] += value;
                assert_eq!(verdict(&recording), expected, "{recording:?}");
            }
        }
    }
}

#[test]
fn close_neighbours_do_not_make_a_dead_input() {
    let ramps = [
        [0, 2, 4, 6, 8, 10, 12],
        [12, 10, 8, 6, 4, 2, 0],
        [-21, -14, -7, 0, 7, 14, 21],
        [0, 7, 14, 7, 0, 7, 14],
    ];
    for ramp in ramps {
        assert_eq!(verdict(&ramp), Kept { slot: 0 }, "{ramp:?}");
    }
}

#[test]
fn samples_close_to_the_first_do_not_make_a_dead_input() {
    for around in [
        [0, 4, -4, 0, 0, 0, 0],
        [0, -7, 0, 0, 0, 0, 7],
        [3, 9, 1, 4, 2, 7, 5],
    ] {
        assert_eq!(verdict(&around), Kept { slot: 0 }, "{around:?}");
    }
}

#[test]
fn one_value_is_dead() {
    for value in [-8_388_607, -5, -1, 0, 1, 5, 8_388_606] {
        assert_eq!(verdict(&[value; P]), Dead);
    }
}

#[test]
fn a_quiet_recording_at_a_rail_is_overloaded_at_its_first_place() {
    for (rail, inwards) in [(LOWEST, 1), (HIGHEST, -1)] {
        assert_eq!(verdict(&[rail; P]), Overloaded { place: 0 });
        for spread in 1..=9 {
            let quiet = rail + inwards * spread;
            for place in 0..P {
                let mut recording = [quiet; P];
                recording[place] = rail;
                assert_eq!(verdict(&recording), Overloaded { place }, "{recording:?}");
            }
            for (a, b) in two_places() {
                let recording = with_two((a, b), rail, rail, quiet);
                let place = a.min(b);
                assert_eq!(verdict(&recording), Overloaded { place }, "{recording:?}");
            }
        }
    }
}

/// The rule is not tied to P: it takes any number of samples.
#[test]
fn a_list_of_any_length_is_judged() {
    assert_eq!(spread(&[]), 0);
    for dead in [&[][..], &[5], &[0, 7], &[7, 0]] {
        assert_eq!(verdict_on(dead), Judged::Dead);
    }
    for kept in [[0, 8], [8, 0]] {
        assert_eq!(verdict_on(&kept), Judged::Kept);
    }
    let mut long: Vec<i32> = (0..65_535).map(|j| j % 8).collect();
    assert_eq!(verdict_on(&long), Judged::Dead);
    *long.last_mut().unwrap() = 8;
    assert_eq!(verdict_on(&long), Judged::Kept);
    *long.last_mut().unwrap() = HIGHEST;
    let place = 65_534;
    assert_eq!(verdict_on(&long), Judged::Overloaded { place });
}

/// An entry that is refused, and that changes nothing.
fn assert_refused(at: &mut (Campaign, Lent), day: u16, recording: &[i32], refusal: Refusal) {
    let before = at.clone();
    assert_eq!(enter(at, day, recording), Refused(refusal));
    assert_eq!(*at, before);
}

#[test]
fn a_refusal_comes_before_a_dead_input_and_changes_nothing() {
    let at = &mut campaign(2);
    assert_eq!(enter(at, 1, &BARELY_KEPT), Kept { slot: 0 });
    for day in [0, 367] {
        assert_refused(at, day, &DITHER, DayOutOfRange);
    }
    let long = [DITHER.as_slice(), &[0]].concat();
    for wrong in [&[], &DITHER[..1], &DITHER[..P - 1], &long] {
        assert_refused(at, 2, wrong, WrongLength);
    }
    for outside in [8_388_608, -8_388_609, i32::MAX, i32::MIN] {
        assert_refused(at, 2, &[outside; P], ValueOutsideRange);
        let mut dither = [outside - outside.signum() * 7; P];
        dither[P - 1] = outside;
        assert_refused(at, 2, &dither, ValueOutsideRange);
    }
    for recording in [DITHER, [5; P], BARELY_KEPT] {
        assert_refused(at, 1, &recording, AlreadyStanding);
    }
    at.1.sums[0] += 1;
    assert_refused(at, 2, &DITHER, DoesNotHoldTogether);
}

#[test]
fn a_dead_night_sets_its_day_and_nothing_else() {
    let at = &mut campaign(3);
    enter(at, 1, &BARELY_KEPT);
    enter(at, 2, &BARELY_KEPT);
    assert_eq!(enter(at, 3, &[HIGHEST; P]), Overloaded { place: 0 });
    assert_eq!(enter(at, 4, &[0; P]), Dead);
    assert_eq!(at.0.withdraw(&mut at.1, 2), Ok(()));
    for day in 2..=5 {
        let mut after = at.clone();
        after.0.set_state(day, DayState::Dead);
        assert_eq!(enter(at, day, &DITHER), Dead);
        assert_eq!(*at, after);
    }
    let counts = at.0.counts(&at.1).unwrap();
    assert_eq!((counts.standing, counts.dead, counts.unseen), (1, 4, 361));
    assert_eq!(enter(at, 5, &BARELY_KEPT), Kept { slot: 1 });
    assert_eq!(at.1.store[P..2 * P], BARELY_KEPT);
}

#[test]
fn a_full_campaign_still_finds_a_night_dead() {
    let at = &mut campaign(1);
    assert_eq!(enter(at, 1, &BARELY_KEPT), Kept { slot: 0 });
    let lent = at.1.clone();
    assert_eq!(enter(at, 2, &DITHER), Dead);
    assert_eq!(enter(at, 3, &[-1; P]), Dead);
    assert_refused(at, 4, &BARELY_KEPT, AllSlotsUsed);
    assert_eq!(at.0.state(2), DayState::Dead);
    assert_eq!(at.1, lent);
}
