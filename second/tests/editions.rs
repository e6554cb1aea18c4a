//! Request 9 of 02: edition 2 of the report rules rounds an exact half to the even neighbour, edition 1 away from zero; a campaign keeps the
//! edition of its start.

use second::campaign::{start, Campaign, Lent};
use second::edition::{check_edition, mean, Edition};
use second::entering::Verdict;
use second::judging::Judged;
use second::night::Night;
use second::numbers;
use second::reading::Summary;
use second::refusal::{number, Refusal};
use second::room::Room;

const P: usize = 7;
const SLOTS: usize = 2;
/// Order 3, taps 3: its r is -4, -12, 4, -24, 20, 20, 12, over 8.
const HALVES: [i32; P] = [-6, 9, 0, 5, -1, -1, -8];
const R: [i64; P] = [-4, -12, 4, -24, 20, 20, 12];
const MEANS_1: [i32; P] = [-1, -2, 1, -3, 3, 3, 2];
const MEANS_2: [i32; P] = [0, -2, 0, -3, 2, 2, 2];
const RAIL: [i32; P] = [0, 0, 8_388_607, 0, 0, 0, 0];
const STILL: [i32; P] = [5; P];

// ---- the mean

#[test]
fn the_quotients_of_the_request_and_below_zero() {
    let by_both = |r| [Edition::First, Edition::Second].map(|edition| mean(edition, r, 8));
    assert_eq!(by_both(4), [1, 0]);
    assert_eq!(by_both(12), [2, 2]);
    assert_eq!(by_both(-4), [-1, 0]);
    assert_eq!(by_both(-12), [-2, -2]);
    assert_eq!(by_both(20), [3, 2]);
    assert_eq!(by_both(-20), [-3, -2]);
    assert_eq!(by_both(28), [4, 4]);
    assert_eq!(by_both(-28), [-4, -4]);
}

#[test]
fn what_is_no_half_goes_to_the_nearest_in_both() {
    for (r, nearest) in [
        (0, 0),
        (3, 0),
        (5, 1),
        (8, 1),
        (11, 1),
        (13, 2),
        (16, 2),
        (19, 2),
        (21, 3),
    ] {
        for edition in [Edition::First, Edition::Second] {
            assert_eq!(mean(edition, r, 8), nearest, "{r}");
            assert_eq!(mean(edition, -r, 8), -nearest, "-{r}");
        }
    }
}

/// Each mean by what it must be, over divisors with and without halves.
#[test]
fn a_mean_is_within_a_half_and_the_edition_decides_of_the_half_alone() {
    for divisor in 1..=40i64 {
        for r in -500..=500i64 {
            let [first, second] = [Edition::First, Edition::Second].map(|e| mean(e, r, divisor));
            for mean in [first, second] {
                assert!(2 * (r - mean * divisor).abs() <= divisor, "{r}/{divisor}");
            }
            if 2 * (r - first * divisor).abs() == divisor {
                assert!(first.abs() * divisor > r.abs(), "{r}/{divisor}");
                assert_eq!(second & 1, 0, "{r}/{divisor}");
            } else {
                assert_eq!(first, second, "{r}/{divisor}");
            }
        }
    }
}

/// The loudest night there is at order 16 over 1,024 periods, and a half beside it.
#[test]
fn the_largest_numbers() {
    let divisor = 65_536 * 1_024;
    let largest = 8_388_606 * divisor;
    for edition in [Edition::First, Edition::Second] {
        assert_eq!(mean(edition, largest, divisor), 8_388_606);
        assert_eq!(mean(edition, -largest, divisor), -8_388_606);
    }
    let half = largest - divisor / 2;
    assert_eq!(mean(Edition::First, half, divisor), 8_388_606);
    assert_eq!(mean(Edition::Second, half, divisor), 8_388_606);
    assert_eq!(mean(Edition::First, half - divisor, divisor), 8_388_605);
    assert_eq!(mean(Edition::Second, half - divisor, divisor), 8_388_604);
}

#[test]
fn there_are_two_editions() {
    assert_eq!(check_edition(1), Ok(Edition::First));
    assert_eq!(check_edition(2), Ok(Edition::Second));
    for none in [0, 3, 255, 256, 257, 258, 65_537, u32::MAX] {
        assert_eq!(check_edition(none), Err(Refusal::NoSuchEdition));
    }
    assert_eq!(Refusal::NoSuchEdition.number(), 24);
}

#[test]
fn the_numbers_have_sixteen_means() {
    let mut printed = Vec::new();
    numbers::means(&mut printed).unwrap();
    let printed = String::from_utf8(printed).unwrap();
    let lines: Vec<&str> = printed.lines().collect();
    let expected = "mean 1 4 8 1,mean 1 -4 8 -1,mean 1 -10 8 -1,mean 1 12 8 2,mean 1 -12 8 -2,\
                    mean 1 3 8 0,mean 1 -3 8 0,mean 1 0 8 0,\
                    mean 2 4 8 0,mean 2 -4 8 0,mean 2 -10 8 -1,mean 2 12 8 2,mean 2 -12 8 -2,\
                    mean 2 3 8 0,mean 2 -3 8 0,mean 2 0 8 0";
    assert_eq!(lines.join(","), expected);
}

// ---- the start

/// Order 3, taps 3, with all that a start needs of memory.
fn lent() -> Lent {
    Lent {
        store: vec![9; SLOTS * P],
        sums: vec![9; P],
    }
}

fn campaign(edition: u32) -> (Campaign, Lent) {
    let mut lent = lent();
    let Lent { store, sums } = &mut lent;
    let campaign = start(3, 3, SLOTS as u32, edition, store, sums).unwrap();
    assert_eq!(campaign.edition, edition);
    (campaign, lent)
}

#[test]
fn a_start_refuses_1_2_3_4_9_24_6() {
    let refused =
        |order, taps, slots, edition| number(&start(order, taps, slots, edition, &mut [], &mut []));
    for edition in [0, 3, u32::MAX] {
        assert_eq!(refused(1, 0, 0, edition), 1);
        assert_eq!(refused(3, 8, 0, edition), 2);
        assert_eq!(refused(3, 2, 0, edition), 3);
        assert_eq!(refused(3, 1, 0, edition), 4);
        assert_eq!(refused(3, 3, 0, edition), 9);
        assert_eq!(refused(3, 3, 65, edition), 9);
        assert_eq!(refused(3, 3, 1, edition), 24);
        assert_eq!(refused(3, 3, 64, edition), 24);
    }
    assert_eq!(
        [1, 2].map(|edition| refused(3, 3, 1, edition)),
        [6, 6],
        "an edition there is leaves the room to be asked for"
    );
}

#[test]
fn a_start_refused_24_changes_nothing() {
    for edition in [0, 3, 255, 257, 258, u32::MAX] {
        let mut lent = lent();
        let before = lent.clone();
        let refused = start(3, 3, 2, edition, &mut lent.store, &mut lent.sums);
        assert_eq!(refused, Err(Refusal::NoSuchEdition));
        assert_eq!(lent, before);
    }
}

// ---- the calls

fn enter(at: &mut (Campaign, Lent), day: u16, samples: &[i32]) -> Verdict {
    at.0.enter(&mut at.1, day, Night::one_period(samples))
        .verdict
}

/// The answer with r and the means, as they were before where it is refused.
fn response(at: &(Campaign, Lent)) -> (u8, [i64; P], [i32; P]) {
    let (mut r, mut means) = ([77; P], [77; P]);
    let mut room = Room {
        wide: &mut [5; P + 1],
        tags: &mut [5; P],
    };
    let answer = number(&at.0.response(&at.1, &mut r, &mut means, &mut room));
    (answer, r, means)
}

fn summary(at: &(Campaign, Lent)) -> Summary {
    let mut room = Room {
        wide: &mut [5; P + 1],
        tags: &mut [5; P],
    };
    at.0.summary(&at.1, &mut room)
}

#[test]
fn the_example_in_both_editions() {
    for (edition, means) in [(1, MEANS_1), (2, MEANS_2)] {
        let at = &mut campaign(edition);
        assert_eq!(enter(at, 1, &HALVES), Verdict::Kept { slot: 0 });
        assert_eq!(response(at), (0, R, means));
    }
}

/// The divisor is 8 times the periods standing: 8·2 for one capture and 8·3 with a night beside it, whose r is 64, 0, -32, 0, ….
#[test]
fn halves_of_several_periods() {
    let run_in_and_two = [[8_388_607; P], HALVES, HALVES].concat();
    for (edition, means) in [(1, MEANS_1), (2, MEANS_2)] {
        let at = &mut campaign(edition);
        let night = Night::capture(2, &run_in_and_two);
        at.0.enter(&mut at.1, 1, night);
        assert_eq!(response(at), (0, R.map(|r| 2 * r), means));
        assert_eq!(
            enter(at, 2, &[-4, -12, -4, 12, 12, -12, 4]),
            Verdict::Kept { slot: 1 }
        );
        // 56/24, -24/24, -24/24, -48/24, 40/24, 40/24, 24/24: no half among them.
        let r = [56, -24, -24, -48, 40, 40, 24];
        assert_eq!(response(at), (0, r, [2, -1, -1, -2, 2, 2, 1]));
    }
}

#[test]
fn the_edition_is_kept_through_every_call() {
    for edition in [1, 2] {
        let means = [MEANS_1, MEANS_2][edition as usize - 1];
        let at = &mut campaign(edition);
        assert_eq!(response(at).0, 14);
        for (day, samples) in [(1, HALVES), (2, RAIL), (3, STILL), (4, HALVES)] {
            enter(at, day, &samples);
            assert_eq!(at.0.edition, edition);
        }
        assert_eq!(enter(at, 0, &HALVES).number(), 10);
        assert_eq!(enter(at, 1, &HALVES).number(), 11);
        assert_eq!(enter(at, 5, &HALVES).number(), 12);
        assert_eq!(at.0.withdraw(&mut at.1, 4), Ok(()));
        assert_eq!(number(&at.0.withdraw(&mut at.1, 4)), 13);
        assert_eq!(response(at), (0, R, means));
        assert_eq!(response(at), (0, R, means));
        assert_eq!(at.0.withdraw(&mut at.1, 1), Ok(()));
        assert_eq!(at.0.edition, edition);
        assert_eq!(
            enter(at, 366, &HALVES),
            Verdict::Kept { slot: 0 },
            "{edition}"
        );
        assert_eq!(response(at), (0, R, means));
    }
}

/// The same calls in both editions: verdicts, records, memory, counts, r and levels alike.
#[test]
fn the_editions_differ_in_nothing_but_means() {
    let (first, second) = (&mut campaign(1), &mut campaign(2));
    let nights = [
        (1, HALVES),
        (2, RAIL),
        (3, STILL),
        (0, HALVES),
        (4, [1, 2, 3, 4, 5, 6, -9]),
        (5, HALVES),
        (1, HALVES),
    ];
    let mut means_differed = false;
    for (day, samples) in nights {
        assert_eq!(enter(first, day, &samples), enter(second, day, &samples));
        let mut alike = second.0.clone();
        alike.edition = 1;
        assert_eq!((&first.0, &first.1), (&alike, &second.1));
        assert_eq!(first.0.counts(&first.1), second.0.counts(&second.1));
        assert_eq!(summary(first), summary(second));
        let ((answer, r, means), other) = (response(first), response(second));
        assert_eq!((answer, r), (other.0, other.1));
        means_differed |= means != other.2;
    }
    assert!(means_differed);
    for day in [2, 1, 4] {
        let of_first = first.0.withdraw(&mut first.1, day);
        assert_eq!(of_first, second.0.withdraw(&mut second.1, day));
    }
    assert_eq!(first.1, second.1);
    assert_eq!(first.1.sums, [0; P]);
}

#[test]
fn a_record_of_no_edition_is_refused_15_and_left() {
    for edition in [0, 3, 255, 257, 258, u32::MAX] {
        let mut at = campaign(1);
        enter(&mut at, 1, &HALVES);
        at.0.edition = edition;
        let before = at.clone();
        let capture = [HALVES, HALVES].concat();
        let capture = Night::capture(1, &capture);
        let night = Night::one_period(&HALVES);
        let broken = Verdict::Refused(Refusal::DoesNotHoldTogether);
        assert_eq!(enter(&mut at, 2, &HALVES), broken);
        assert_eq!(at.0.enter(&mut at.1, 2, capture).verdict, broken);
        for night in [night, capture] {
            let filed = at.0.file(&mut at.1, 2, night, Judged::Kept);
            assert_eq!(filed.verdict, broken);
        }
        assert_eq!(number(&at.0.withdraw(&mut at.1, 1)), 15);
        assert_eq!(number(&at.0.counts(&at.1)), 15);
        assert_eq!(response(&at), (15, [77; P], [77; P]));
        let refused = Summary::Refused(Refusal::DoesNotHoldTogether);
        assert_eq!(summary(&at), refused);
        assert_eq!(at, before, "{edition}");
    }
}

/// It still holds together, so that only the means can tell.
#[test]
fn a_record_handed_in_with_the_other_edition_gives_its_means() {
    let mut at = campaign(1);
    enter(&mut at, 1, &HALVES);
    at.0.edition = 2;
    assert_eq!(response(&at), (0, R, MEANS_2));
    assert_eq!(enter(&mut at, 2, &STILL), Verdict::Dead);
    assert_eq!(at.0.edition, 2);
}
