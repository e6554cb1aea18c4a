//! Request 10 of 02: Legendre sequences, their response and prediction, and the calls that `legendre`, `door` and `order` make of them.

use second::door_legendre::{any_period, legendre_case};
use second::legendre::{check_period, one_recording, predict, sequence, signal, PERIODS};
use second::legendre_cases::{self, Share};
use second::numbers::{pattern_of, response_of};
use second::order;
use second::refusal::{number, Refusal};
use second::register;
use second::response::{prediction_by, response_to, HIGHEST, LOWEST};
use second::rng::Rng;
use std::collections::{BTreeMap, BTreeSet};

/// What each place of an output holds before a call.
const HELD: u8 = 9;

fn bits(p: u32) -> Vec<u8> {
    let mut bits = vec![HELD; p as usize];
    sequence(p, &mut bits).unwrap();
    bits
}

fn response(p: u32, y: &[i32]) -> Vec<i64> {
    let mut r = vec![i64::from(HELD); p as usize];
    one_recording(p, y, &mut r).unwrap();
    r
}

fn predicted(p: u32, h: &[i32]) -> Result<Vec<i32>, Refusal> {
    let mut y = vec![i32::from(HELD); p as usize];
    predict(p, h, &mut y).map(|()| y)
}

/// x(j-k), from the bits that the call writes.
fn sign(bits: &[u8], j: usize, k: usize) -> i64 {
    match bits[(j + bits.len() - k) % bits.len()] {
        0 => 1,
        1 => -1,
        other => panic!("{other} is no bit"),
    }
}

fn drawn(rng: &mut Rng, n: u32, most: i32) -> Vec<i32> {
    (0..n).map(|_| rng.between(-most, most)).collect()
}

// ---- the sequence

#[test]
fn the_example_of_document_001() {
    assert_eq!(signal(7), [-1, 1, 1, -1, 1, -1, -1]);
    assert_eq!(bits(7), [1, 0, 0, 1, 0, 1, 1]);
    assert_eq!(bits(11), [1, 0, 1, 0, 0, 0, 1, 1, 1, 0, 1]);
}

#[test]
fn fifteen_periods_are_offered_and_every_other_is_25() {
    let offered: Vec<u32> = (0..=100_000).filter(|&p| check_period(p).is_ok()).collect();
    let listed = "7, 11, 19, 23, 31, 43, 47, 59, 67, 71, 79, 83, 103, 107, 127";
    let words: Vec<String> = offered.iter().map(u32::to_string).collect();
    assert_eq!(words.join(", "), listed);
    for p in [3, 131, 263, 65_543, 1 << 31, (1 << 31) + 7, u32::MAX - 6] {
        assert_eq!(check_period(p), Err(Refusal::PeriodNotOffered));
    }
    assert_eq!(Refusal::PeriodNotOffered.number(), 25);
}

/// The sum over n of x(n)·x(n+s), for each s.
fn autocorrelation(x: &[i64]) -> Vec<i64> {
    let p = x.len();
    (0..p)
        .map(|s| (0..p).map(|n| x[n] * x[(n + s) % p]).sum())
        .collect()
}

fn has_both_properties(x: &[i64]) -> bool {
    let mut expected = vec![-1; x.len()];
    expected[0] = x.len() as i64;
    x.iter().sum::<i64>() == -1 && autocorrelation(x) == expected
}

#[test]
fn every_offered_sequence_sums_to_minus_1_and_has_p_at_shift_0_and_minus_1_elsewhere() {
    for p in PERIODS {
        let signs: Vec<i64> = bits(p).iter().map(|&s| 1 - 2 * i64::from(s)).collect();
        assert!(has_both_properties(&signs), "{p}");
    }
}

#[test]
fn of_all_periods_up_to_130_only_3_would_be_as_good() {
    let good: Vec<u32> = (2..=130)
        .filter(|&p| has_both_properties(&signal(p as usize)))
        .collect();
    assert_eq!(good, [&[3][..], &PERIODS].concat());
}

/// 13 is of the form 4m + 1; its squares are 1, 3, 4, 9, 10 and 12.
#[test]
fn at_13_the_same_rule_has_another_autocorrelation() {
    let x = signal(13);
    assert_eq!(x.iter().sum::<i64>(), -1);
    let expected = [13, -3, 1, -3, -3, 1, 1, 1, 1, -3, -3, 1, -3];
    assert_eq!(autocorrelation(&x), expected);
}

/// Document 001's equation (4): n to the power (p-1)/2, as the least absolute remainder.
#[test]
fn a_sign_is_the_remainder_of_gauss() {
    for p in PERIODS {
        let power = |n: u32| (0..(p - 1) / 2).fold(1, |product, _| product * n % p);
        let from_1: Vec<u8> = (1..p).map(|n| u8::from(power(n) == p - 1)).collect();
        assert_eq!(bits(p), [&[1][..], &from_1].concat(), "{p}");
    }
}

#[test]
fn at_7_it_is_the_register_of_order_3_and_taps_3_from_place_2_on() {
    let mut turned = register::signal(3, 3);
    turned.rotate_left(2);
    assert_eq!(signal(7), turned);
    let y = [5, -8, 0, 3, HIGHEST, 1, LOWEST];
    let mut r = response_of(3, 3, &y).unwrap();
    r.rotate_right(2);
    assert_eq!(response(7, &y), r);
}

// ---- the response and the prediction

#[test]
fn worked_numbers_at_7() {
    let y = predicted(7, &[2, 0, -1, 0, 0, 0, 0]).unwrap();
    assert_eq!(y, [-1, 3, 3, -3, 1, -1, -3]);
    assert_eq!(response(7, &y), [16, 0, -8, 0, 0, 0, 0]);
    let lone = response(7, &[0, 0, 0, 5, 0, 0, 0]);
    assert_eq!(lone, [-10, 0, 0, -10, -10, -10, 0]);
    assert_eq!(response(7, &[1; 7]), [-8; 7]);
    assert_eq!(response(7, &[0; 7]), [0; 7]);
    assert_eq!(response(7, &[LOWEST; 7]), [67_108_864; 7]);
}

#[test]
fn responses_and_predictions_are_the_formulas_at_every_place() {
    let rng = &mut Rng::for_log(10, 1);
    for p in PERIODS {
        let (n, s) = (p as usize, bits(p));
        let y = drawn(rng, p, HIGHEST);
        let r = response(p, &y);
        let h = drawn(rng, p, HIGHEST / p as i32);
        let predicted = predicted(p, &h).unwrap();
        for place in 0..n {
            let c: i64 = (0..n).map(|j| i64::from(y[j]) * sign(&s, j, place)).sum();
            let total: i64 = y.iter().map(|&v| i64::from(v)).sum();
            assert_eq!(r[place], c - total, "r({place}) of {p}");
            let sample: i64 = (0..n).map(|i| i64::from(h[i]) * sign(&s, place, i)).sum();
            assert_eq!(i64::from(predicted[place]), sample, "y({place}) of {p}");
        }
    }
}

#[test]
fn a_predicted_recording_gives_p_and_1_times_the_response() {
    let rng = &mut Rng::for_log(10, 2);
    for p in PERIODS {
        for most in [1, 1_000, HIGHEST / p as i32] {
            let h = drawn(rng, p, most);
            let r = response(p, &predicted(p, &h).unwrap());
            let scaled: Vec<i64> = h.iter().map(|&v| i64::from(p + 1) * i64::from(v)).collect();
            assert_eq!(r, scaled, "{p}");
        }
    }
}

fn recovers(x: &[i64], h: &[i64]) -> bool {
    let y: Vec<i64> = prediction_by(x, h)
        .unwrap()
        .into_iter()
        .map(i64::from)
        .collect();
    let scale = x.len() as i64 + 1;
    response_to(x, &y) == h.iter().map(|v| scale * v).collect::<Vec<i64>>()
}

/// The maximal registers up to order 7, the Legendre sequences, and each read backwards; at 13 the two properties are not there.
#[test]
fn whatever_has_both_properties_recovers_registers_included() {
    let registers = (2..=7).flat_map(|order| (1..1 << order).map(move |taps| (order, taps)));
    let maximal = registers.filter(|&(order, taps)| register::check_taps(order, taps).is_ok());
    let signals = maximal
        .map(|(order, taps)| register::signal(order, taps))
        .chain(PERIODS.map(|p| signal(p as usize)));
    let rng = &mut Rng::for_log(10, 5);
    let mut counted = 0;
    for mut x in signals {
        for _ in 0..2 {
            assert!(has_both_properties(&x));
            let h: Vec<i64> = x.iter().map(|_| i64::from(rng.between(-9, 9))).collect();
            assert!(recovers(&x, &h), "{x:?}");
            x.reverse();
            counted += 1;
        }
    }
    assert_eq!(counted, 2 * (1 + 2 + 2 + 6 + 6 + 18 + 15));
    let mut lone = vec![0; 13];
    lone[0] = 1;
    assert!(!recovers(&signal(13), &lone));
}

/// Exactly (p+1)/2 signs are -1, so that r(k) is -2 times the sum of as many samples.
#[test]
fn the_loudest_recordings_reach_p_and_1_times_a_rail_and_none_goes_beyond() {
    let rng = &mut Rng::for_log(10, 3);
    for p in PERIODS {
        let scale = i64::from(p) + 1;
        let (largest, smallest) = (-scale * i64::from(LOWEST), -scale * i64::from(HIGHEST));
        assert_eq!(
            response(p, &vec![LOWEST; p as usize]),
            vec![largest; p as usize]
        );
        assert_eq!(
            response(p, &vec![HIGHEST; p as usize]),
            vec![smallest; p as usize]
        );
        for _ in 0..50 {
            let y: Vec<i32> = (0..p).map(|_| rng.pick(&[LOWEST, HIGHEST])).collect();
            let r = response(p, &y);
            assert!(r.iter().all(|r| (smallest..=largest).contains(r)), "{p}");
        }
    }
    assert_eq!(response(127, &[LOWEST; 127])[126], 1_073_741_824);
}

// ---- the refusals

/// The numbers of the three calls; what is refused must be left as it was.
fn answers(p: u32, samples: &[i32], lent: usize) -> [u8; 3] {
    let (mut s, mut r, mut y) = (vec![HELD; lent], vec![9; lent], vec![9; lent]);
    let told = [
        number(&sequence(p, &mut s)),
        number(&one_recording(p, samples, &mut r)),
        number(&predict(p, samples, &mut y)),
    ];
    let changed = [
        s != vec![HELD; lent],
        r != vec![9; lent],
        y != vec![9; lent],
    ];
    assert_eq!(changed, told.map(|answer| answer == 0), "{p} {told:?}");
    told
}

#[test]
fn the_first_cause_answers_and_nothing_is_changed() {
    for p in PERIODS {
        let n = p as usize;
        let beyond = |n: usize| vec![HIGHEST + 1; n];
        assert_eq!(answers(p + 1, &beyond(n), n - 1), [25; 3]);
        assert_eq!(answers(p + 256, &pattern_of(n), n), [25; 3]);
        assert_eq!(answers(p, &beyond(n - 1), n - 1), [6, 5, 5]);
        assert_eq!(answers(p, &beyond(n + 1), n + 1), [0, 5, 5]);
        assert_eq!(answers(p, &[], 0), [6, 5, 5]);
        assert_eq!(answers(p, &beyond(n), n - 1), [6; 3]);
        assert_eq!(answers(p, &beyond(n), n), [0, 7, 7]);
        assert_eq!(answers(p, &vec![LOWEST; n], n), [0, 0, 8]);
        assert_eq!(answers(p, &pattern_of(n), n), [0; 3]);
    }
}

#[test]
fn at_every_place_the_rails_are_samples_and_the_numbers_beyond_are_7() {
    for p in [7, 127] {
        for place in 0..p as usize {
            let at_place = |value: i32| {
                let mut samples = vec![0; p as usize];
                samples[place] = value;
                answers(p, &samples, p as usize)
            };
            for inside in [HIGHEST, LOWEST + 1] {
                assert_eq!(at_place(inside), [0, 0, 0], "{inside} at {place}");
            }
            // Its opposite is predicted where the sign is -1.
            assert_eq!(at_place(LOWEST), [0, 0, 8]);
            for beyond in [HIGHEST + 1, i32::MAX, LOWEST - 1, i32::MIN] {
                assert_eq!(at_place(beyond), [0, 7, 7], "{beyond} at {place}");
            }
        }
    }
}

#[test]
fn a_longer_output_keeps_its_tail() {
    for p in PERIODS {
        let n = p as usize;
        let (mut s, mut r, mut y) = (vec![HELD; n + 3], vec![9; n + 3], vec![9; n + 3]);
        let h = pattern_of(n);
        assert_eq!(sequence(p, &mut s), Ok(()));
        assert_eq!(predict(p, &h, &mut y), Ok(()));
        assert_eq!(one_recording(p, &y[..n], &mut r), Ok(()));
        assert_eq!((&s[n..], &y[n..]), (&[HELD; 3][..], &[9; 3][..]));
        assert_eq!(r[n..], [9; 3]);
        assert_eq!(s[..n], bits(p));
        assert_eq!(y[..n], predicted(p, &h).unwrap());
        assert_eq!(r[n - 1], i64::from(p + 1) * i64::from(h[n - 1]));
    }
}

// ---- `second legendre`

#[test]
fn a_prediction_is_8_where_one_sample_alone_is_one_beyond() {
    for p in PERIODS {
        let (n, x) = (p as usize, signal(p as usize));
        for (j, share) in (0..n).flat_map(|j| Share::WAYS.map(|share| (j, share))) {
            for (target, answer) in [
                (8_388_607, 0),
                (8_388_608, 8),
                (-8_388_608, 0),
                (-8_388_609, 8),
            ] {
                let h = share.response(p, j, target);
                let sample = |j: usize| -> i64 {
                    (0..n).map(|i| i64::from(h[i]) * x[(j + n - i) % n]).sum()
                };
                assert_eq!(sample(j), target);
                let others = (0..n).filter(|&other| other != j);
                assert!(others.map(sample).all(|y| y.abs() < 8_388_607), "{p} {j}");
                assert_eq!(number(&predicted(p, &h)), answer, "{p} {j} {target}");
            }
        }
    }
}

/// A line of `second legendre`: the call, the period, the words that say what is special, and what is told.
struct Line {
    call: String,
    p: u32,
    what: Vec<String>,
    told: Vec<String>,
}

impl Line {
    fn read(line: &str) -> Line {
        let words = |part: &str| -> Vec<String> { part.split(' ').map(str::to_string).collect() };
        let (case, told) = line.split_once(": ").unwrap();
        let case = words(case);
        Line {
            call: case[0].clone(),
            p: case[1].parse().unwrap(),
            what: case[2..].to_vec(),
            told: words(told),
        }
    }

    fn sort(&self) -> &str {
        self.what.first().map_or("plain", String::as_str)
    }

    /// The answer that is due, and the last word where the sort has one of its own.
    fn due(&self) -> (u8, Option<String>) {
        let number = |word: usize| -> i64 { self.what[word].parse().unwrap() };
        let (p, heard) = (i64::from(self.p), self.call == "recording");
        let value = |n: i64| Some(n.to_string());
        match self.sort() {
            "plain" if !PERIODS.contains(&self.p) => (25, None),
            "all" if !heard && number(2) == -8_388_608 => (8, None),
            "largest" if heard => (0, value((p + 1) * 8_388_608)),
            "smallest" if heard => (0, value((p + 1) * -8_388_607)),
            "largest" | "smallest" => (8, None),
            "recovered" => (0, Some("true".to_string())),
            "even" | "first" => match number(3) {
                inside @ (8_388_607 | -8_388_608) => (0, value(inside)),
                _ => (8, None),
            },
            "length" => (5, None),
            "output" if number(1) < p => (6, None),
            "value" if !(-8_388_608..=8_388_607).contains(&number(1)) => (7, None),
            "value" if !heard && number(1) == -8_388_608 => (8, None),
            _ => (0, None),
        }
    }
}

fn directed_lines() -> Vec<Line> {
    let mut printed = Vec::new();
    legendre_cases::print(&mut printed).unwrap();
    let printed = String::from_utf8(printed).unwrap();
    printed.lines().map(Line::read).collect()
}

#[test]
fn the_directed_lines_answer_as_their_words_promise() {
    for line in directed_lines() {
        let Line {
            call,
            p,
            what,
            told,
        } = &line;
        let (answer, last) = line.due();
        assert_eq!(told[0], answer.to_string(), "{call} {p} {what:?}");
        if last.is_some() {
            assert_eq!(told.last(), last.as_ref(), "{call} {p} {what:?}");
        }
    }
}

#[test]
fn so_many_directed_lines_of_each_sort() {
    let mut times: BTreeMap<(String, String), usize> = BTreeMap::new();
    for line in directed_lines() {
        let key = (line.call.clone(), line.sort().to_string());
        *times.entry(key).or_default() += 1;
    }
    let shown: Vec<String> = times
        .iter()
        .map(|((call, sort), n)| format!("{call} {sort} {n}"))
        .collect();
    let places: u32 = PERIODS.iter().sum();
    assert_eq!(places, 877);
    let expected = "predict all 30, predict alone 1754, predict even 3508, predict first 3508, \
        predict largest 877, predict length 45, predict loud 15, predict output 45, \
        predict pattern 15, predict plain 229, predict smallest 877, predict value 180, \
        recording all 30, recording largest 877, recording length 45, recording output 45, \
        recording plain 229, recording recovered 1784, recording smallest 877, \
        recording value 180, sequence output 45, sequence plain 229";
    assert_eq!(shown.join(", "), expected);
}

// ---- `second door` and `second order`

#[test]
fn the_door_draws_every_offered_period_and_others_beside_and_above_them() {
    const DRAWS: usize = 6000;
    let rng = &mut Rng::for_log(10, 4);
    let drawn: Vec<u32> = (0..DRAWS).map(|_| any_period(rng)).collect();
    let count = |wanted: &dyn Fn(u32) -> bool| drawn.iter().filter(|&&p| wanted(p)).count();
    for p in PERIODS {
        assert!(count(&|drawn| drawn == p) > DRAWS / 30, "{p}");
        for other in [p - 1, p + 1, p + 256, p + 65_536] {
            assert!(count(&|drawn| drawn == other) > 0, "{other}");
        }
    }
    for other in [0, 3, 13, 17, 131, u32::MAX] {
        assert!(count(&|drawn| drawn == other) > DRAWS / 600, "{other}");
    }
    let offered = count(&|p| PERIODS.contains(&p));
    assert!(
        (3 * DRAWS / 4..9 * DRAWS / 10).contains(&offered),
        "{offered}"
    );
}

#[test]
fn the_door_predicts_in_range_about_half_of_the_time_and_beyond_it_sometimes() {
    const CASES: usize = 2000;
    let mut times: BTreeMap<String, usize> = BTreeMap::new();
    for case in 0..CASES {
        let lines = legendre_case(&mut Rng::for_log(10, case as u64));
        let words: Vec<&str> = lines[2].split(' ').collect();
        assert_eq!(words[..2], ["legendre", "predict"]);
        *times.entry(words[2].to_string()).or_default() += 1;
    }
    assert!((CASES / 3..CASES / 2).contains(&times["0"]), "{times:?}");
    assert!((CASES / 8..CASES / 4).contains(&times["8"]), "{times:?}");
}

#[test]
fn each_two_neighbours_of_the_checks_are_tried() {
    let mut printed = Vec::new();
    order::print(&mut printed).unwrap();
    let printed = String::from_utf8(printed).unwrap();
    let lines: Vec<Vec<&str>> = printed.lines().map(|l| l.split(": ").collect()).collect();
    for (call, order) in [
        ("legendre sequence", "25 6"),
        ("legendre recording", "25 5 6 7"),
        ("legendre predict", "25 5 6 7 8"),
    ] {
        let order: Vec<&str> = order.split(' ').collect();
        for two in order.windows(2) {
            let checks = two.join(" before ");
            let tried = lines.iter().filter(|l| l[..2] == [call, &checks]);
            let answers: BTreeSet<&str> = tried.map(|l| l[2]).collect();
            assert_eq!(answers, BTreeSet::from([two[0]]), "{call}: {checks}");
        }
    }
}
