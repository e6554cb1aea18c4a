//! Quiet recordings as they are drawn for random logs and for the door, and the names that they are counted by.

use second::door::samples;
use second::edge::names;
use second::entering::Verdict;
use second::quiet::quiet;
use second::response::{HIGHEST, LOWEST};
use second::rng::Rng;

const DRAWS: usize = 6000;
const LENGTHS: [usize; 4] = [2, 3, 7, 511];

fn smallest(samples: &[i32]) -> i32 {
    *samples.iter().min().unwrap()
}

fn largest(samples: &[i32]) -> i32 {
    *samples.iter().max().unwrap()
}

fn apart(samples: &[i32]) -> i32 {
    largest(samples) - smallest(samples)
}

fn drawn(n: usize) -> Vec<Vec<i32>> {
    let rng = &mut Rng::for_log(1, n as u64);
    (0..DRAWS).map(|_| quiet(rng, n)).collect()
}

#[test]
fn every_spread_from_0_to_9_comes_and_5_to_9_come_often() {
    for n in LENGTHS {
        let drawn = drawn(n);
        for samples in &drawn {
            assert_eq!(samples.len(), n);
            assert!(samples.iter().all(|v| (LOWEST..=HIGHEST).contains(v)));
            assert!(apart(samples) <= 9);
        }
        for spread in 0..=9 {
            let times = drawn.iter().filter(|s| apart(s) == spread).count();
            let least = if spread < 5 { DRAWS / 50 } else { DRAWS / 8 };
            assert!(times > least, "{times} of spread {spread}");
        }
    }
}

/// On either side of the edge, so that no side is met in one place only.
#[test]
fn spreads_7_and_8_come_at_both_rails_next_to_them_and_on_both_sides_of_0() {
    let places: [fn(&[i32]) -> bool; 7] = [
        |s| smallest(s) == LOWEST,
        |s| smallest(s) == LOWEST + 1,
        |s| largest(s) < 0,
        |s| smallest(s) < 0 && largest(s) > 0,
        |s| smallest(s) > 0,
        |s| largest(s) == HIGHEST - 1,
        |s| largest(s) == HIGHEST,
    ];
    for n in LENGTHS {
        let drawn = drawn(n);
        for spread in [7, 8] {
            for (number, place) in places.iter().enumerate() {
                let met = |s: &&Vec<i32>| apart(s) == spread && place(s);
                let times = drawn.iter().filter(met).count();
                assert!(times > DRAWS / 100, "{times} of {spread} at {number}");
            }
        }
    }
}

/// Where the one smallest sample and the one largest stand: at the first place, between or at the last.
fn stand(samples: &[i32]) -> Option<[usize; 2]> {
    let lone = |value: i32| {
        let mut at = (0..samples.len()).filter(|&j| samples[j] == value);
        let place = at.next()?;
        at.next().is_none().then_some(match place {
            0 => 0,
            j if j == samples.len() - 1 => 2,
            _ => 1,
        })
    };
    Some([lone(smallest(samples))?, lone(largest(samples))?])
}

#[test]
fn a_lone_smallest_and_a_lone_largest_stand_at_both_ends_and_between() {
    for n in [3, 7, 511] {
        let drawn = drawn(n);
        for wanted in [[0, 1], [0, 2], [1, 0], [1, 2], [2, 0], [2, 1]] {
            let met = |s: &&Vec<i32>| apart(s) == 8 && stand(s) == Some(wanted);
            let times = drawn.iter().filter(met).count();
            assert!(times > DRAWS / 200, "{times} of {wanted:?} in {n}");
        }
    }
}

#[test]
fn the_door_draws_quiet_recordings_once_in_three_times() {
    let rng = &mut Rng::for_log(1, 0);
    let drawn: Vec<_> = (0..DRAWS).map(|_| samples(rng, 31)).collect();
    let quiet = drawn.iter().filter(|s| apart(s) <= 9).count();
    assert!((DRAWS / 4..DRAWS / 2).contains(&quiet), "{quiet}");
}

const KEPT: Verdict = Verdict::Kept { slot: 0 };

fn assert_named(samples: [i32; 3], verdict: Verdict, expected: &[&str]) {
    assert_eq!(names(&samples, verdict), expected);
}

#[test]
fn verdicts_are_named_by_their_spread() {
    let overload = Verdict::Overloaded { place: 0 };
    assert_named([4, 4, 4], Verdict::Dead, &["spread: dead at 0"]);
    assert_named([0, 0, 3], Verdict::Dead, &["spread: dead at 1 to 4"]);
    assert_named([0, 6, 3], Verdict::Dead, &["spread: dead at 6"]);
    assert_named([0, 9, 3], KEPT, &["spread: kept at 9"]);
    assert_named([0, 10, 3], KEPT, &["spread: kept above 9"]);
    assert_named([LOWEST; 3], overload, &["spread: overload at 0"]);
    assert_named([0, 8, HIGHEST], overload, &["spread: overload above 9"]);
}

#[test]
fn overloaded_at_7_is_named_by_its_rail() {
    let overload = Verdict::Overloaded { place: 1 };
    for (rail, inwards, name) in [
        (LOWEST, 1, "edge: 7 at the lower rail"),
        (HIGHEST, -1, "edge: 7 at the upper rail"),
    ] {
        let samples = [rail + inwards, rail, rail + 7 * inwards];
        assert_named(samples, overload, &["spread: overload at 7", name]);
    }
}

#[test]
fn dead_at_7_is_named_by_its_region_and_direction() {
    let dead = |samples: [i32; 3], region: &str, direction: &str| {
        assert_named(
            samples,
            Verdict::Dead,
            &["spread: dead at 7", region, direction],
        )
    };
    dead([1, 8, 2], "edge: 7 above 0", "edge: 7 rising");
    dead([-8, -2, -1], "edge: 7 below 0", "edge: 7 rising");
    dead([7, 7, 0], "edge: 7 around 0", "edge: 7 falling");
    let lower = [LOWEST + 8, LOWEST + 1, LOWEST + 2];
    dead(lower, "edge: 7 next to the lower rail", "edge: 7 falling");
    let upper = [HIGHEST - 8, HIGHEST - 1, HIGHEST - 8];
    dead(upper, "edge: 7 next to the upper rail", "edge: 7 rising");
}

#[test]
fn kept_at_8_is_also_named_by_what_makes_it() {
    let kept = |samples: [i32; 3], makers: &[&str]| {
        let named = names(&samples, KEPT);
        assert_eq!(named[0], "spread: kept at 8");
        assert_eq!(&named[3..], makers);
    };
    let (first, last) = ("edge: 8 by the first sample", "edge: 8 by the last sample");
    kept([-9, -1, -2], &[first]);
    kept([0, 1, 8], &[first, last]);
    kept([8, 8, 0], &[last]);
    kept([0, 8, 0], &[]);
    kept([4, 8, 0], &[last, "edge: 8 around the first sample"]);
}
