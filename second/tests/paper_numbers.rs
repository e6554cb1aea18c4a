//! The numbers 01 holds the meter to.

use second::edition::{mean, Edition};
use second::numbers::{digest, pattern, response_of};
use second::refusal::{number, told_period};
use second::register::{check_taps, default_taps, period, sequence, signal};
use second::response::{predict, predict_in_room, HIGHEST, LOWEST};

fn bits(order: u32, taps: u32) -> Vec<u8> {
    let mut bits = vec![9; period(order)];
    sequence(order, taps, &mut bits).unwrap();
    bits
}

fn predicted(h: &[i32]) -> Vec<i32> {
    let mut y = vec![0; 7];
    predict(3, 3, h, &mut y).unwrap();
    y
}

#[test]
fn printed_sequences() {
    assert_eq!(bits(3, 3), [1, 1, 1, 0, 0, 1, 0]);
    assert_eq!(bits(3, 5), [1, 1, 1, 0, 1, 0, 0]);
    assert_eq!(bits(4, 3), [1, 1, 1, 1, 0, 0, 0, 1, 0, 0, 1, 1, 0, 1, 0]);
    assert_eq!(signal(3, 3), [-1, -1, -1, 1, 1, -1, 1]);
}

#[test]
fn p1_and_p2() {
    let y = predicted(&[2, 0, -1, 0, 0, 0, 0]);
    assert_eq!(y, [-1, -3, -1, 3, 3, -3, 1]);
    assert_eq!(response_of(3, 3, &y).unwrap(), [16, 0, -8, 0, 0, 0, 0]);
}

#[test]
fn p3_to_p6() {
    let r = |y: [i32; 7]| response_of(3, 3, &y).unwrap();
    assert_eq!(r([0, 0, 0, 5, 0, 0, 0]), [0, -10, -10, -10, 0, -10, 0]);
    assert_eq!(r([1; 7]), [-8; 7]);
    assert_eq!(r([0; 7]), [0; 7]);
    assert_eq!(r([LOWEST; 7]), [67_108_864; 7]);
}

#[test]
fn p7_to_p12() {
    assert_eq!(bits(2, 3), [1, 1, 0]);
    let answer = |order, taps| {
        let answer = check_taps(order, taps);
        (number(&answer), told_period(&answer))
    };
    assert_eq!(answer(2, 3), (0, Some(3)));
    assert_eq!(answer(2, 1), (4, Some(1)));
    assert_eq!(answer(2, 2), (3, None));
    assert_eq!(answer(2, 4), (2, None));
    assert_eq!(answer(4, 15), (4, Some(5)));
    assert_eq!(answer(4, 5), (4, Some(6)));
}

#[test]
fn orders_and_their_default_taps() {
    for order in [1, 17] {
        assert_eq!(number(&check_taps(order, 3)), 1);
        assert_eq!(number(&default_taps(order)), 1);
    }
    for order in 2..=16 {
        let taps = default_taps(order).unwrap();
        assert_eq!(check_taps(order, taps), Ok(period(order)), "order {order}");
    }
}

#[test]
fn refusals_of_one_recording_and_of_a_prediction() {
    let at_place_0 = |v: i32| number(&response_of(3, 3, &[v, 0, 0, 0, 0, 0, 0]));
    assert_eq!(number(&response_of(3, 3, &[0; 6])), 5);
    assert_eq!(number(&response_of(3, 3, &[0; 8])), 5);
    assert_eq!([8_388_606, HIGHEST, 8_388_608].map(at_place_0), [0, 0, 7]);
    assert_eq!([LOWEST, -8_388_609].map(at_place_0), [0, 7]);
    let predict = |h: &[i32]| number(&predict(3, 3, h, &mut [0; 7]));
    assert_eq!(predict(&[0; 6]), 5);
    assert_eq!(predict(&[8_388_608, 0, 0, 0, 0, 0, 0]), 7);
    assert_eq!(predict(&[HIGHEST, HIGHEST, 0, 0, 0, 0, 0]), 8);
}

#[test]
fn a_prediction_in_a_lent_room() {
    let (h, loud) = ([2, 0, -1, 0, 0, 0, 0], [HIGHEST, HIGHEST, 0, 0, 0, 0, 0]);
    let (mut y, mut room) = ([9; 8], [9; 9]);
    assert_eq!(
        number(&predict_in_room(3, 3, &h, &mut y, &mut room[..7])),
        6
    );
    assert_eq!(number(&predict_in_room(3, 3, &loud, &mut y, &mut room)), 8);
    assert_eq!((y, room), ([9; 8], [9; 9]));
    assert_eq!(predict_in_room(3, 3, &h, &mut y, &mut room), Ok(7));
    assert_eq!(y, [-1, -3, -1, 3, 3, -3, 1, 9]);
    assert_eq!(room, [0, 0, 0, 0, 0, 0, 0, 0, 9]);
}

#[test]
fn means() {
    let pairs = [
        (4, 1),
        (-4, -1),
        (-10, -1),
        (12, 2),
        (-12, -2),
        (3, 0),
        (-3, 0),
        (0, 0),
    ];
    for (r, expected) in pairs {
        assert_eq!(mean(Edition::First, r, 8), expected, "{r}/8");
    }
}

#[test]
fn responses_of_predictions_are_p_plus_1_times_h() {
    for order in 2..=10 {
        let taps = default_taps(order).unwrap();
        let h = pattern(order);
        let mut y = vec![0; period(order)];
        predict(order, taps, &h, &mut y).unwrap();
        let r = response_of(order, taps, &y).unwrap();
        let scaled: Vec<i64> = h
            .iter()
            .map(|&v| (period(order) as i64 + 1) * v as i64)
            .collect();
        assert_eq!(r, scaled, "order {order}");
        assert_eq!(digest(r), digest(scaled));
    }
}

#[test]
fn digests_count_order_and_sign() {
    assert_eq!(digest([]), 0);
    assert_eq!(digest([1, 2]), 133);
    assert_eq!(digest([-1]), 1_000_002);
}
