//! How soon a register returns: told by every call that can refuse with 4, and drawn in every kind.

use second::campaign::start;
use second::door::any_taps;
use second::numbers::response_of;
use second::refusal::{number, told_period, Refusal};
use second::register::{check_taps, default_taps, period, sequence};
use second::response::{one_recording, predict, predict_in_room};
use second::rng::Rng;
use second::room::Room;
use second::short::{short_taps, Short};
use std::collections::BTreeSet;

/// The answers of the six calls that have a period, each with all the memory it needs up to order 5.
fn answers(order: u32, taps: u32) -> [Result<usize, Refusal>; 6] {
    let p = if (2..=5).contains(&order) {
        period(order)
    } else {
        0
    };
    let samples = vec![1; p];
    let room = &mut Room {
        wide: &mut vec![0; p + 1],
        tags: &mut vec![0; p],
    };
    [
        check_taps(order, taps),
        sequence(order, taps, &mut vec![0; p]),
        one_recording(order, taps, &samples, &mut vec![0; p], room),
        predict(order, taps, &samples, &mut vec![0; p]),
        predict_in_room(order, taps, &samples, &mut vec![0; p], &mut vec![0; p + 1]),
        start(order, taps, 1, 1, &mut vec![0; p], &mut vec![0; p]).map(|campaign| campaign.p()),
    ]
}

#[test]
fn every_call_passes_the_first_return_on() {
    for (order, taps, first_return) in [(4, 15, 5), (4, 5, 6), (3, 7, 1), (2, 1, 1), (5, 3, 21)] {
        for answer in answers(order, taps) {
            assert_eq!(answer, Err(Refusal::NotMaximal { first_return }));
            assert_eq!(
                (number(&answer), told_period(&answer)),
                (4, Some(first_return))
            );
        }
    }
}

#[test]
fn every_accepted_call_tells_p() {
    for (order, taps, p) in [(2, 3, 3), (3, 5, 7), (4, 3, 15), (4, 9, 15), (5, 5, 31)] {
        assert_eq!(answers(order, taps), [Ok(p); 6]);
    }
}

#[test]
fn no_other_refusal_has_a_period() {
    for (order, taps, refusal) in [(1, 3, 1), (17, 3, 1), (4, 16, 2), (4, 2, 3)] {
        for answer in answers(order, taps) {
            assert_eq!((number(&answer), told_period(&answer)), (refusal, None));
        }
    }
    let loud = [8_388_607, 8_388_607, 0, 0, 0, 0, 0];
    let after_the_taps = [
        sequence(3, 3, &mut [0; 6]),
        response_of(3, 3, &[0; 6]).map(|r| r.len()),
        response_of(3, 3, &[8_388_608; 7]).map(|r| r.len()),
        predict(3, 3, &loud, &mut [0; 7]),
        predict_in_room(3, 3, &[0; 7], &mut [0; 7], &mut [0; 7]),
        start(3, 3, 65, 1, &mut [], &mut []).map(|campaign| campaign.p()),
    ];
    assert_eq!(after_the_taps.each_ref().map(number), [6, 5, 7, 8, 6, 9]);
    assert_eq!(after_the_taps.each_ref().map(told_period), [None; 6]);
}

/// The first k above 0 from which N ones stand in a row in the recurrence's bits; a window's bits are s(k) to s(k+N-1).
fn ones_again(order: u32, taps: u32) -> Option<usize> {
    let n = order as usize;
    let mut s = vec![true; n];
    for k in 0..1 << order {
        s.push((0..n).filter(|i| taps >> i & 1 == 1 && s[k + i]).count() % 2 == 1);
    }
    (1..=1 << order).find(|&k| s[k..k + n].iter().all(|&bit| bit))
}

#[test]
fn the_first_return_is_where_n_ones_stand_again() {
    for order in 2..=8 {
        for taps in (1..1 << order).step_by(2) {
            let told = told_period(&check_taps(order, taps));
            assert_eq!(told, ones_again(order, taps), "order {order} taps {taps}");
        }
    }
}

#[test]
fn kinds_by_hand() {
    use Short::*;
    let kinds = |order: u32, taps: &[u32]| -> Vec<Option<Short>> {
        taps.iter()
            .map(|&taps| Short::of_taps(order, taps))
            .collect()
    };
    assert_eq!(kinds(4, &[1, 7, 11, 13]), [Some(One); 4]);
    assert_eq!(kinds(4, &[15, 5]), [Some(Dividing), Some(NotDividing)]);
    assert_eq!(kinds(4, &[3, 9, 2, 16]), [None; 4]);
    assert_eq!(kinds(5, &[3, 7]), [Some(NotDividing), Some(One)]);
}

#[test]
fn short_taps_come_in_every_kind_that_the_order_has() {
    use Short::*;
    let rng = &mut Rng::for_log(1, 0);
    for order in 2..=10 {
        let drawn: BTreeSet<Option<Short>> = (0..60)
            .map(|_| Short::of_taps(order, short_taps(rng, order)))
            .collect();
        let has: &[Short] = match order {
            2 | 3 => &[One],
            5 | 7 => &[One, NotDividing],
            _ => &[One, Dividing, NotDividing],
        };
        assert_eq!(
            drawn,
            has.iter().copied().map(Some).collect(),
            "order {order}"
        );
    }
}

#[test]
fn the_door_draws_default_taps_most_often_and_short_ones_of_every_kind() {
    const DRAWS: usize = 1000;
    for order in [4, 6, 8, 9, 10] {
        let rng = &mut Rng::for_log(1, u64::from(order));
        let drawn: Vec<u32> = (0..DRAWS).map(|_| any_taps(rng, order)).collect();
        let count = |wanted: &dyn Fn(u32) -> bool| drawn.iter().filter(|&&t| wanted(t)).count();
        let default = default_taps(order).unwrap();
        assert!(count(&|taps| taps == default) > DRAWS / 2, "order {order}");
        for kind in Short::KINDS {
            let of_kind = count(&|taps| Short::of_taps(order, taps) == Some(kind));
            assert!(of_kind > DRAWS / 25, "order {order} {kind:?}: {of_kind}");
        }
    }
}
