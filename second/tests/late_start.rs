//! Request 8 of 02: a night that starts d samples late gives a response rotated by the same d. Alone, it has the same levels, but that the
//! peak may have the other sign where two largest places have opposite ones.

use second::campaign::{start, Campaign, Lent};
use second::entering::Verdict::{self, *};
use second::judging::{at_a_rail, verdict_on, Judged};
use second::late::{self, alone, late};
use second::night::Night;
use second::numbers::response_of;
use second::quiet::quiet;
use second::reading::{Levels, Summary};
use second::recordings::{kept, noise};
use second::register::{check_taps, period, signal};
use second::response::{predict, HIGHEST, LOWEST};
use second::rng::Rng;
use second::room::Room;
use std::collections::BTreeSet;

type At = (Campaign, Lent);

/// How many nights are drawn for each register.
const DRAWS: usize = 200;
/// A capture in these tests has at most so many periods that count.
const MOST_PERIODS: usize = 3;

/// Every accepted register of order 2 to 5, with a generator of its own.
fn registers() -> Vec<(u32, u32, Rng)> {
    let accepted = |&(order, taps): &(u32, u32)| check_taps(order, taps).is_ok();
    let with_rng = |(order, taps)| (order, taps, Rng::for_log(u64::from(order), u64::from(taps)));
    (2..=5)
        .flat_map(|order| (0..1 << order).map(move |taps| (order, taps)))
        .filter(accepted)
        .map(with_rng)
        .collect()
}

/// The values from place d on, then those before it.
fn turned<T: Copy>(values: &[T], d: usize) -> Vec<T> {
    [&values[d..], &values[..d]].concat()
}

/// Loud up to both rails, or small, so that some places of r are equally large, or quiet, or with a rail.
fn any_recording(rng: &mut Rng, order: u32) -> Vec<i32> {
    let p = period(order);
    match rng.below(4) {
        0 => (0..p).map(|_| rng.between(LOWEST, HIGHEST)).collect(),
        1 => noise(rng, order, 9),
        2 => quiet(rng, p),
        _ => {
            let mut samples = noise(rng, order, 9);
            samples[rng.below(p)] = rng.pick(&[LOWEST, HIGHEST]);
            samples
        }
    }
}

/// From a response of a few sizes, so that its largest places are often several; none that is set aside.
fn tied_recording(rng: &mut Rng, order: u32, taps: u32) -> Vec<i32> {
    loop {
        let h: Vec<i32> = noise(rng, order, 2).iter().map(|v| 5 * v).collect();
        let y = predicted(order, taps, &h);
        if verdict_on(&y) == Judged::Kept {
            return y;
        }
    }
}

/// One period where m is 0, otherwise a run-in and m periods, each by itself from `period`.
fn samples(m: usize, mut period: impl FnMut() -> Vec<i32>) -> Vec<i32> {
    (0..=m).flat_map(|_| period()).collect()
}

/// With several largest places as often as not; no period would be set aside by itself.
fn kept_night(rng: &mut Rng, order: u32, taps: u32, m: usize) -> Vec<i32> {
    let sort = rng.pick(&[kept, tied_recording]);
    samples(m, || sort(rng, order, taps))
}

/// One period, or a capture where there are more.
fn night(p: usize, samples: &[i32]) -> Night<'_> {
    match samples.len() / p {
        1 => Night::one_period(samples),
        periods => Night::capture(periods as u32 - 1, samples),
    }
}

fn campaign(order: u32, taps: u32, slots: usize) -> At {
    let p = period(order);
    let mut lent = Lent {
        store: vec![9; slots * p],
        sums: vec![9; p],
    };
    let Lent { store, sums } = &mut lent;
    let campaign = start(order, taps, slots as u32, 1, store, sums).unwrap();
    (campaign, lent)
}

fn enter(at: &mut At, day: u16, samples: &[i32]) -> Verdict {
    let night = night(at.0.p(), samples);
    at.0.enter(&mut at.1, day, night).verdict
}

/// The campaign in which these nights and no others stand, each kept.
fn standing(order: u32, taps: u32, nights: &[&[i32]]) -> At {
    let mut at = campaign(order, taps, nights.len());
    for (slot, samples) in nights.iter().enumerate() {
        let verdict = enter(&mut at, slot as u16 + 1, samples);
        assert_eq!(verdict, Kept { slot });
    }
    at
}

fn response(at: &At) -> (Vec<i64>, Vec<i32>) {
    let p = at.0.p();
    let (mut r, mut means) = (vec![0; p], vec![0; p]);
    let mut room = Room {
        wide: &mut vec![0; p + 1],
        tags: &mut vec![0; p],
    };
    let answer = at.0.response(&at.1, &mut r, &mut means, &mut room);
    assert_eq!(answer, Ok(()));
    (r, means)
}

/// Of a night that is kept alone.
fn levels(order: u32, taps: u32, samples: &[i32]) -> Levels {
    match alone(order, taps, night(period(order), samples)).unwrap() {
        (Kept { slot: 0 }, Summary::Levels(levels)) => levels,
        other => panic!("{other:?}"),
    }
}

/// The values at the places of the largest |r|, in their order.
fn largest(r: &[i64]) -> Vec<i64> {
    let size = r.iter().map(|v| v.abs()).max().unwrap();
    r.iter().copied().filter(|v| v.abs() == size).collect()
}

fn predicted(order: u32, taps: u32, h: &[i32]) -> Vec<i32> {
    let mut y = vec![0; period(order)];
    predict(order, taps, h, &mut y).unwrap();
    y
}

#[test]
fn the_registers_are_1_2_2_and_6() {
    let orders: Vec<u32> = registers().iter().map(|&(order, ..)| order).collect();
    assert_eq!(orders, [2, 3, 3, 4, 4, 5, 5, 5, 5, 5, 5]);
}

// ---- a late start

#[test]
fn place_j_holds_what_place_j_plus_d_held() {
    assert_eq!(late(7, 2, &[0, 1, 2, 3, 4, 5, 6]), [2, 3, 4, 5, 6, 0, 1]);
    let capture = [10, 11, 12, 20, 21, 22, 30, 31, 32];
    assert_eq!(late(3, 0, &capture), capture);
    assert_eq!(late(3, 1, &capture), [11, 12, 10, 21, 22, 20, 31, 32, 30]);
    assert_eq!(late(3, 2, &capture), [12, 10, 11, 22, 20, 21, 32, 30, 31]);
}

#[test]
fn starts_that_are_late_together_are_late_by_both() {
    let rng = &mut Rng::for_log(8, 0);
    for order in 2..=5 {
        let p = period(order);
        let samples = samples(2, || noise(rng, order, HIGHEST));
        for (d, e) in (0..p).flat_map(|d| (0..p).map(move |e| (d, e))) {
            let both = late(p, (d + e) % p, &samples);
            assert_eq!(late(p, d, &late(p, e, &samples)), both);
        }
    }
}

// ---- the response

#[test]
fn the_response_is_rotated_by_the_same_d() {
    for (order, taps, mut rng) in registers() {
        let p = period(order);
        for _ in 0..DRAWS {
            let y = any_recording(&mut rng, order);
            let r = response_of(order, taps, &y).unwrap();
            for d in 0..p {
                let of_late = response_of(order, taps, &late(p, d, &y)).unwrap();
                assert_eq!(of_late, turned(&r, d), "{order} {taps} {d} {y:?}");
            }
        }
    }
}

/// r(k) by 01's formula, place by place, of a recording that starts e samples late.
fn by_formula(order: u32, taps: u32, y: &[i32], e: usize) -> Vec<i64> {
    let (p, x) = (period(order), signal(order, taps));
    let term = |j: usize, k: usize| i64::from(y[(j + e) % p]) * (x[(j + p - k) % p] - 1);
    (0..p).map(|k| (0..p).map(|j| term(j, k)).sum()).collect()
}

/// No other e gives the same response, and so not P-d either.
#[test]
fn of_all_rotations_only_that_by_d_has_the_response() {
    for (order, taps, mut rng) in registers() {
        let p = period(order);
        let mut impulse = vec![0; p];
        impulse[rng.below(p)] = 9;
        let ways: Vec<_> = (0..p)
            .map(|e| by_formula(order, taps, &impulse, e))
            .collect();
        for d in 0..p {
            let of_late = response_of(order, taps, &late(p, d, &impulse)).unwrap();
            let right: Vec<usize> = (0..p).filter(|&e| ways[e] == of_late).collect();
            assert_eq!(right, [d], "{order} {taps}");
            if d > 0 {
                assert_ne!(of_late, turned(&ways[0], p - d), "{order} {taps} {d}");
            }
        }
    }
}

/// P2 and P3 of 01, one sample late.
#[test]
fn one_sample_late_by_hand() {
    let of_late = |y: [i32; 7]| response_of(3, 3, &late(7, 1, &y)).unwrap();
    assert_eq!(of_late([-1, -3, -1, 3, 3, -3, 1]), [0, -8, 0, 0, 0, 0, 16]);
    assert_eq!(
        of_late([0, 0, 0, 5, 0, 0, 0]),
        [-10, -10, -10, 0, -10, 0, 0]
    );
}

/// Both r and the means, of one period and of captures. The run-ins differ from what counts, so that no sample comes over from them.
#[test]
fn a_campaigns_response_is_rotated_too() {
    for (order, taps, mut rng) in registers() {
        let p = period(order);
        for m in (0..=MOST_PERIODS).cycle().take(DRAWS) {
            let y = kept_night(&mut rng, order, taps, m);
            let (r, means) = response(&standing(order, taps, &[&y]));
            for d in 0..p {
                let of_late = response(&standing(order, taps, &[&late(p, d, &y)]));
                assert_eq!(of_late, (turned(&r, d), turned(&means, d)), "{m} {d} {y:?}");
            }
        }
    }
}

// ---- the levels

/// Checks every d, and tells whether two of the largest places have opposite signs.
fn check_levels_at_every_d(order: u32, taps: u32, y: &[i32]) -> bool {
    let (p, r) = (period(order), response(&standing(order, taps, &[y])).0);
    let periods = (y.len() / p).max(2) - 1;
    let level = |v: i64| v as f64 / ((p + 1) * periods) as f64;
    let in_time = levels(order, taps, y);
    assert_eq!(in_time.at_peak, level(largest(&r)[0]));
    let opposite = largest(&r).iter().any(|&v| v != largest(&r)[0]);
    let mut peaks = BTreeSet::new();
    for d in 0..p {
        let of_late = levels(order, taps, &late(p, d, y));
        assert_eq!(of_late.highest.to_bits(), in_time.highest.to_bits());
        assert_eq!(of_late.lowest.to_bits(), in_time.lowest.to_bits());
        assert_eq!(of_late.at_peak.abs(), in_time.at_peak.abs());
        assert_eq!(of_late.at_peak, level(largest(&turned(&r, d))[0]), "{d}");
        peaks.insert(of_late.at_peak.to_bits());
    }
    assert_eq!(peaks.len(), if opposite { 2 } else { 1 }, "{y:?}");
    opposite
}

#[test]
fn the_levels_are_unchanged_but_for_the_peaks_sign_where_two_are_opposite() {
    for (order, taps, mut rng) in registers() {
        for m in 0..=MOST_PERIODS {
            let mut one_night = || {
                let y = kept_night(&mut rng, order, taps, m);
                check_levels_at_every_d(order, taps, &y)
            };
            let opposite = (0..DRAWS).filter(|_| one_night()).count();
            assert!(
                (1..DRAWS).contains(&opposite),
                "{order} {taps} {m}: {opposite}"
            );
        }
    }
}

/// Two largest places by design, drawn anywhere: a late start changes the sign where it differs between them and not where it is the same.
#[test]
fn of_two_largest_places_the_signs_decide() {
    for (order, taps, mut rng) in registers() {
        let p = period(order);
        for _ in 0..DRAWS {
            let mut h = noise(&mut rng, order, 3);
            let first = rng.below(p);
            let second = (first + 1 + rng.below(p - 1)) % p;
            let size = rng.between(20, 99);
            for (other, opposite) in [(size, false), (-size, true)] {
                (h[first], h[second]) = (size, other);
                let y = predicted(order, taps, &h);
                let found = check_levels_at_every_d(order, taps, &y);
                assert_eq!(found, opposite, "{order} {taps} {h:?}");
            }
        }
    }
}

/// 9 comes first until it is passed, then -9, then 9 again, from the end.
#[test]
fn the_sign_at_each_d_by_hand() {
    let y = predicted(3, 3, &[9, 0, -4, 0, 0, -9, 0]);
    let peaks: Vec<f64> = (0..7)
        .map(|d| levels(3, 3, &late(7, d, &y)).at_peak)
        .collect();
    assert_eq!(peaks, [9.0, -9.0, -9.0, -9.0, -9.0, -9.0, 9.0]);
}

// ---- the verdict

/// The first rail after the run-in, looked for in the night in time: place j of a period is place j-d of the late one.
fn first_rail(p: usize, d: usize, y: &[i32]) -> Option<usize> {
    let counting = if y.len() == p { y } else { &y[p..] };
    let rails = counting.iter().enumerate().filter(|(_, v)| at_a_rail(v));
    rails
        .map(|(place, _)| place / p * p + (place % p + p - d) % p)
        .min()
}

/// One quiet stretch as often as not, as still from period to period as within one.
fn any_night(rng: &mut Rng, order: u32, m: usize) -> Vec<i32> {
    match rng.below(4) {
        0 => samples(m, || any_recording(rng, order)),
        1 => samples(m, || noise(rng, order, 9)),
        _ => quiet(rng, (m + 1) * period(order)),
    }
}

#[test]
fn a_late_night_is_set_aside_exactly_where_it_is_in_time() {
    for (order, taps, mut rng) in registers() {
        let p = period(order);
        for m in 0..=MOST_PERIODS {
            let mut met = BTreeSet::new();
            for _ in 0..DRAWS {
                let y = any_night(&mut rng, order, m);
                let in_time = enter(&mut campaign(order, taps, 1), 1, &y);
                for d in 0..p {
                    let of_late = enter(&mut campaign(order, taps, 1), 1, &late(p, d, &y));
                    let expected = match first_rail(p, d, &y) {
                        Some(place) => Overloaded { place },
                        None => in_time,
                    };
                    assert_eq!(of_late, expected, "{m} {d} {y:?}");
                }
                met.insert(in_time.word());
            }
            let all = ["dead", "kept", "overload"];
            assert!(met.into_iter().eq(all), "{order} {taps} {m}");
        }
    }
}

/// A rail in the run-in stays there at every d, however late.
#[test]
fn no_late_start_brings_the_run_in_among_what_counts() {
    let y = [[HIGHEST, LOWEST, HIGHEST], [0, 8, 0], [0, 0, 1]].concat();
    for d in 0..3 {
        let at = standing(2, 3, &[&late(3, d, &y)]);
        assert_eq!(at.1.store, turned(&[0, 8, 1], d));
    }
}

// ---- several nights

/// Each late by its own d, they are averaged at places that are not the same place of the response.
#[test]
fn nights_that_are_not_equally_late_do_not_line_up() {
    for (order, taps, mut rng) in registers() {
        let p = period(order);
        let y = noise(&mut rng, order, 8_388_606);
        let (in_line, means_in_line) = response(&standing(order, taps, &[&y, &y]));
        for (d, e) in (0..p).flat_map(|d| (0..p).map(move |e| (d, e))) {
            let nights = [late(p, d, &y), late(p, e, &y)];
            let (r, means) = response(&standing(order, taps, &nights.each_ref().map(|y| &y[..])));
            if d == e {
                assert_eq!(r, turned(&in_line, d));
                assert_eq!(means, turned(&means_in_line, d));
            } else {
                for f in 0..p {
                    assert_ne!(r, turned(&in_line, f), "{order} {taps} {d} {e}");
                    assert_ne!(means, turned(&means_in_line, f), "{order} {taps} {d} {e}");
                }
            }
        }
    }
}

#[test]
fn two_nights_one_of_them_late_by_hand() {
    let y = predicted(3, 3, &[9, 0, -4, 0, 0, -9, 0]);
    let in_line = standing(3, 3, &[&y, &y]);
    assert_eq!(response(&in_line).1, [9, 0, -4, 0, 0, -9, 0]);
    let mixed = standing(3, 3, &[&y, &late(7, 1, &y)]);
    let (r, means) = response(&mixed);
    assert_eq!(r, [72, -32, -32, 0, -72, -72, 72]);
    assert_eq!(means, [5, -2, -2, 0, -5, -5, 5]);
}

// ---- the lines

fn lines() -> Vec<String> {
    let mut printed = Vec::new();
    late::print(&mut printed).unwrap();
    let printed = String::from_utf8(printed).unwrap();
    printed.lines().map(str::to_string).collect()
}

/// Of a night with these levels.
fn kept_line(head: &str, levels: [f64; 3]) -> String {
    let [highest, lowest, at_peak] = levels.map(f64::to_bits);
    format!("late-night {head} kept {highest} {lowest} {at_peak}")
}

#[test]
fn the_lines_of_one_period_at_order_3() {
    let lines = lines();
    let mut pairs = lines.chunks(2);
    for taps in [3, 5] {
        for (r, highest) in [
            ([72, 0, -32, 0, 0, -72, 0], 9.0),
            ([24, 0, -72, 0, 0, 8, 0], 3.0),
        ] {
            for d in 0..7 {
                let [a, b, c, e, f, g, h] = turned(&r, d)[..] else {
                    panic!("seven numbers")
                };
                let of_tied = if [0, 6].contains(&d) { 9.0 } else { -9.0 };
                let at_peak = if highest == 9.0 { of_tied } else { -9.0 };
                let pair = [
                    format!("late 3 {taps} {d} 0 {a} {b} {c} {e} {f} {g} {h}"),
                    kept_line(&format!("3 {taps} 1 {d}"), [highest, -9.0, at_peak]),
                ];
                assert_eq!(pairs.next().unwrap(), pair);
            }
        }
    }
}

#[test]
fn the_lines_of_a_capture_and_of_nights_that_are_set_aside() {
    let lines = &lines()[56..77];
    let (captures, overloads, dead) = (&lines[..7], &lines[7..14], &lines[14..]);
    for d in 0..7 {
        let head = format!("3 3 2 {d}");
        assert_eq!(captures[d], kept_line(&head, [6.0, -6.5, -6.5]));
        let place = [3, 2, 1, 0, 2, 1, 0][d];
        assert_eq!(
            overloads[d],
            format!("late-night 3 3 1 {d} overload {place}")
        );
        assert_eq!(dead[d], format!("late-night 3 3 1 {d} dead"));
    }
}

/// The pattern's -11 at place 0 is the first largest, and where it is passed the 11 at place 13 is.
#[test]
fn the_lines_at_order_9() {
    let all = lines();
    let lines = &all[77..];
    assert_eq!(lines.len(), 36);
    let starts = [0, 1, 2, 10, 100, 255, 256, 509, 510];
    for (pair, d) in lines.chunks(2).zip(starts.iter().cycle()) {
        let turned = pair[0].strip_prefix(&format!("late 9 17 {d} 0 "));
        assert!(turned.is_some_and(|digest| digest.parse::<u32>().is_ok()));
    }
    let nights: Vec<&String> = lines.iter().skip(1).step_by(2).collect();
    assert_eq!(*nights[0], kept_line("9 17 1 0", [11.0, -11.0, -11.0]));
    assert_eq!(*nights[1], kept_line("9 17 1 1", [11.0, -11.0, 11.0]));
    for (night, d) in nights[9..].iter().zip(starts) {
        let head = format!("9 17 1 {d}");
        assert_eq!(**night, kept_line(&head, [300.0, -11.0, 300.0]));
    }
    let digests: BTreeSet<&String> = lines.iter().step_by(2).collect();
    assert_eq!(digests.len(), 18);
}
