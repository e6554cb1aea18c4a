//! Request 5 of 02: filing takes the verdict that was shown, and is refused with 23 where judging gives another.

use second::campaign::{start, Campaign, DayState, Lent};
use second::entering::Verdict;
use second::judging::{judge, Judged};
use second::night::Night;
use second::refusal::{number, Refusal};
use second::response::{HIGHEST, LOWEST};

type At = (Campaign, Lent);

/// Order 2, taps 3.
const P: usize = 3;
const ONE: [i32; P] = [1, 2, 13];
const RAILS: [i32; P] = [HIGHEST, LOWEST, HIGHEST];
const RAIL_AT_2: [i32; P] = [0, 0, LOWEST];
const STILL: [i32; P] = [5; P];

fn campaign(slots: usize) -> At {
    let mut lent = Lent {
        store: vec![9; slots * P],
        sums: vec![9; P],
    };
    let campaign = start(2, 3, slots as u32, 1, &mut lent.store, &mut lent.sums).unwrap();
    (campaign, lent)
}

/// Day 1 stands, in the only slot of a full campaign.
fn with_day_1(slots: usize) -> At {
    let mut at = campaign(slots);
    let kept = file(&mut at, 1, Night::one_period(&ONE), Judged::Kept);
    assert_eq!(kept, Verdict::Kept { slot: 0 });
    at
}

fn file(at: &mut At, day: u16, night: Night, shown: Judged) -> Verdict {
    let entry = at.0.file(&mut at.1, day, night, shown);
    assert_eq!(entry.day, day);
    entry.verdict
}

/// The number of a filing that is refused, and that changes neither record, store nor sums.
fn refused(at: &At, day: u16, night: Night, shown: Judged) -> u8 {
    let mut after = at.clone();
    let verdict = file(&mut after, day, night, shown);
    assert_eq!(after, *at, "{shown:?}");
    match verdict {
        Verdict::Refused(refusal) => refusal.number(),
        verdict => panic!("{verdict:?} where {shown:?} was shown"),
    }
}

fn overloaded(place: usize) -> Judged {
    Judged::Overloaded { place }
}

/// Everything that can be handed in, each refusal among it.
fn everything_shown() -> Vec<Judged> {
    use Refusal::*;
    let first_return = 1;
    let refusals = [
        OrderOutOfRange,
        TapsNotBelow,
        Tap0Clear,
        NotMaximal { first_return },
        PeriodsOutOfRange,
        WrongLength,
        ValueOutsideRange,
        AlreadyStanding,
        AllSlotsUsed,
        NotAsJudged,
    ];
    let places = (0..10).chain([usize::MAX]).map(overloaded);
    [Judged::Kept, Judged::Dead]
        .into_iter()
        .chain(places)
        .chain(refusals.map(Judged::Refused))
        .collect()
}

fn everything_but(judged: Judged) -> Vec<Judged> {
    let mut shown = everything_shown();
    shown.retain(|&other| other != judged);
    assert_eq!(shown.len(), everything_shown().len() - 1);
    shown
}

/// Nights of both kinds, as m, samples and what judging gives.
fn nights() -> Vec<(Option<u32>, Vec<i32>, Judged)> {
    vec![
        (None, ONE.to_vec(), Judged::Kept),
        (None, RAILS.to_vec(), overloaded(0)),
        (None, RAIL_AT_2.to_vec(), overloaded(2)),
        (None, STILL.to_vec(), Judged::Dead),
        (Some(1), [RAILS, ONE].concat(), Judged::Kept),
        (Some(1), [RAILS, RAIL_AT_2].concat(), overloaded(2)),
        (Some(2), [RAILS, ONE, RAIL_AT_2].concat(), overloaded(5)),
        (Some(2), [RAILS, STILL, STILL].concat(), Judged::Dead),
        (Some(3), [STILL, STILL, STILL, ONE].concat(), Judged::Kept),
    ]
}

fn of_night(m: Option<u32>, samples: &[i32]) -> Night<'_> {
    m.map_or(Night::one_period(samples), |m| Night::capture(m, samples))
}

#[test]
fn every_other_verdict_is_23_on_a_day_of_every_state_and_changes_nothing() {
    use DayState::*;
    for (m, samples, judged) in nights() {
        let night = of_night(m, &samples);
        assert_eq!(judge(2, 3, night).verdict, judged);
        for state in [Unseen, Overloaded, Dead, Withdrawn] {
            let mut at = with_day_1(2);
            at.0.set_state(2, state);
            for shown in everything_but(judged) {
                assert_eq!(refused(&at, 2, night, shown), 23, "{shown:?}");
            }
        }
    }
}

#[test]
fn a_standing_day_is_11_whatever_was_shown() {
    for slots in [1, 2] {
        let at = with_day_1(slots);
        for (m, samples, _) in nights() {
            for shown in everything_shown() {
                let night = of_night(m, &samples);
                assert_eq!(refused(&at, 1, night, shown), 11, "{shown:?}");
            }
        }
    }
}

#[test]
fn without_a_free_slot_another_verdict_is_23_and_the_one_judged_is_12_only_if_kept() {
    let at = with_day_1(1);
    for (m, samples, judged) in nights() {
        let night = of_night(m, &samples);
        for shown in everything_but(judged) {
            assert_eq!(refused(&at, 2, night, shown), 23, "{shown:?}");
        }
        let told = file(&mut at.clone(), 2, night, judged);
        let expected = match judged {
            Judged::Kept => Verdict::Refused(Refusal::AllSlotsUsed),
            Judged::Overloaded { place } => Verdict::Overloaded { place },
            _ => Verdict::Dead,
        };
        assert_eq!(told, expected);
        if judged == Judged::Kept {
            assert_eq!(refused(&at, 2, night, judged), 12);
        }
    }
}

/// Each night is refused for the check named and for all that come after it, but for 12, which a wrong verdict never meets.
#[test]
fn the_checks_before_23_come_in_their_order() {
    let at = with_day_1(1);
    let mut broken = at.clone();
    broken.0.periods[1] = 1;
    let (short, outside) = ([HIGHEST + 1; P - 1], [HIGHEST + 1; P]);
    let behind_run_in = [[0; P], outside].concat();
    for shown in everything_shown() {
        let none = Night::capture(0, &short);
        let many = Night::capture(17, &short);
        assert_eq!(refused(&broken, 0, none, shown), 15);
        assert_eq!(refused(&at, 0, none, shown), 10);
        assert_eq!(refused(&at, 367, Night::one_period(&short), shown), 10);
        assert_eq!(refused(&at, 1, none, shown), 18);
        assert_eq!(refused(&at, 1, many, shown), 18);
        assert_eq!(refused(&at, 1, Night::capture(1, &short), shown), 5);
        assert_eq!(refused(&at, 1, Night::one_period(&short), shown), 5);
        assert_eq!(refused(&at, 1, Night::capture(1, &behind_run_in), shown), 7);
        assert_eq!(refused(&at, 1, Night::one_period(&outside), shown), 7);
    }
}

/// Each way in which the register of a record is no register, with a verdict that such a register refuses.
#[test]
fn a_record_whose_register_judging_refuses_is_15() {
    for (order, taps) in [(1, 3), (200, 3), (2, 4), (2, 2), (2, 1)] {
        let mut at = with_day_1(2);
        (at.0.order, at.0.taps) = (order, taps);
        let night = Night::one_period(&ONE);
        let judged = judge(order, taps, night).verdict;
        assert_ne!(judged.number(), 0);
        for shown in [judged, Judged::Kept] {
            assert_eq!(refused(&at, 2, night, shown), 15, "{order} {taps}");
        }
    }
}

#[test]
fn a_captures_place_is_compared_as_counted_after_the_run_in() {
    for m in 1..=16 {
        for place in 0..m * P {
            let mut samples = [RAILS.to_vec(), ONE.repeat(m)].concat();
            samples[P + place] = HIGHEST;
            let night = Night::capture(m as u32, &samples);
            let at = campaign(1);
            for wrong in [place + P, place + 1, place.wrapping_sub(1)] {
                assert_eq!(refused(&at, 1, night, overloaded(wrong)), 23);
            }
            assert_eq!(refused(&at, 1, night, Judged::Kept), 23);
            let filed = file(&mut at.clone(), 1, night, overloaded(place));
            assert_eq!(filed, Verdict::Overloaded { place });
        }
    }
}

#[test]
fn a_kept_verdict_is_shown_without_a_slot_and_filed_with_the_lowest_free_one() {
    let at = &mut campaign(3);
    for (day, slot) in [(5, 0), (6, 1), (7, 2)] {
        let shown = judge(2, 3, Night::one_period(&ONE)).verdict;
        assert_eq!(shown, Judged::Kept);
        let filed = file(at, day, Night::one_period(&ONE), shown);
        assert_eq!(filed, Verdict::Kept { slot });
    }
    assert_eq!(number(&at.0.withdraw(&mut at.1, 6)), 0);
    let night = [RAILS, ONE, STILL].concat();
    let filed = file(at, 9, Night::capture(2, &night), Judged::Kept);
    assert_eq!(filed, Verdict::Kept { slot: 1 });
    assert_eq!(at.1.store, [1, 2, 13, 6, 7, 18, 1, 2, 13]);
    assert_eq!(at.1.sums, [8, 11, 44]);
    assert_eq!(at.0.periods[..4], [1, 2, 1, 0]);
    assert_eq!(at.0.table[..4], [5, 9, 7, 0]);
}

#[test]
fn overloaded_and_dead_set_the_day_and_nothing_else() {
    for (m, samples, judged) in nights() {
        let mut at = with_day_1(2);
        let mut after = at.clone();
        match judged {
            Judged::Overloaded { .. } => after.0.set_state(2, DayState::Overloaded),
            Judged::Dead => after.0.set_state(2, DayState::Dead),
            _ => continue,
        }
        file(&mut at, 2, of_night(m, &samples), judged);
        assert_eq!(at, after);
    }
}

/// The verdict is compared, not the recording that it was shown for, and what is kept is the recording handed in.
#[test]
fn a_verdict_shown_for_another_recording_counts_where_judging_gives_the_same() {
    let other = [4, 5, -6];
    let shown = judge(2, 3, Night::one_period(&ONE)).verdict;
    let at = &mut campaign(1);
    let filed = file(at, 1, Night::one_period(&other), shown);
    assert_eq!(filed, Verdict::Kept { slot: 0 });
    assert_eq!(at.1.store, other);
}
