//! The campaign: its verdicts, its refusals in order, and what holds together.

use second::campaign::{start, Campaign, DayState, Lent};
use second::entering::Verdict::{self, *};
use second::night::Night;
use second::reading::{Levels, Summary};
use second::refusal::{number, Refusal};
use second::room::Room;

const KEPT: [i32; 7] = [-4, -12, -4, 12, 12, -12, 4];
const RAIL: [i32; 7] = [0, 0, 8_388_607, -8_388_608, 0, 0, 0];
const DITHER: [i32; 7] = [5, -2, 0, 1, 3, -1, 4];

fn lent(slots: usize) -> Lent {
    Lent {
        store: vec![9; slots * 7],
        sums: vec![9; 7],
    }
}

/// Order 3, taps 3.
fn campaign(slots: u32) -> (Campaign, Lent) {
    let mut lent = lent(slots as usize);
    let campaign = start(3, 3, slots, 1, &mut lent.store, &mut lent.sums).unwrap();
    (campaign, lent)
}

fn enter(at: &mut (Campaign, Lent), day: u16, recording: &[i32]) -> Verdict {
    let night = Night::one_period(recording);
    let entry = at.0.enter(&mut at.1, day, night);
    assert_eq!(entry.day, day);
    entry.verdict
}

/// The number of an entry that is refused.
fn refused(at: &mut (Campaign, Lent), day: u16, recording: &[i32]) -> u8 {
    match enter(at, day, recording) {
        Refused(refusal) => refusal.number(),
        verdict => panic!("{verdict:?}"),
    }
}

fn withdraw(at: &mut (Campaign, Lent), day: u16) -> u8 {
    number(&at.0.withdraw(&mut at.1, day))
}

fn counts(at: &(Campaign, Lent)) -> [usize; 5] {
    let c = at.0.counts(&at.1).unwrap();
    [c.unseen, c.standing, c.overloaded, c.dead, c.withdrawn]
}

fn summary(at: &(Campaign, Lent), wide: usize, tags: usize) -> Summary {
    at.0.summary(
        &at.1,
        &mut Room {
            wide: &mut vec![7; wide],
            tags: &mut vec![7; tags],
        },
    )
}

fn response(at: &(Campaign, Lent), r: usize, means: usize, wide: usize) -> u8 {
    let mut room = Room {
        wide: &mut vec![0; wide],
        tags: &mut [0; 7],
    };
    number(
        &at.0
            .response(&at.1, &mut vec![0; r], &mut vec![0; means], &mut room),
    )
}

#[test]
fn a_start_refuses_in_order() {
    let refused = |order, taps, slots| number(&start(order, taps, slots, 1, &mut [], &mut []));
    assert_eq!(refused(17, 0, 0), 1);
    assert_eq!(refused(3, 8, 0), 2);
    assert_eq!(refused(3, 2, 0), 3);
    assert_eq!(refused(3, 1, 0), 4);
    assert_eq!([refused(3, 3, 0), refused(3, 3, 65)], [9, 9]);
    assert_eq!([refused(3, 3, 1), refused(3, 3, 64)], [6, 6]);
    let mut no_sums = Lent {
        store: vec![9; 7],
        sums: vec![9; 6],
    };
    let refused = start(3, 3, 1, 1, &mut no_sums.store, &mut no_sums.sums);
    assert_eq!(refused, Err(Refusal::RoomTooShort));
    assert_eq!(
        no_sums,
        Lent {
            store: vec![9; 7],
            sums: vec![9; 6]
        }
    );
}

#[test]
fn a_start_clears_only_its_own_part() {
    let mut long = Lent {
        store: vec![9; 15],
        sums: vec![9; 8],
    };
    start(3, 3, 2, 1, &mut long.store, &mut long.sums).unwrap();
    assert_eq!(long.store, [[0; 14].as_slice(), &[9]].concat());
    assert_eq!(long.sums, [0, 0, 0, 0, 0, 0, 0, 9]);
}

#[test]
fn an_entry_refuses_in_order() {
    let at = &mut campaign(1);
    assert_eq!([0, 367].map(|day| refused(at, day, &[])), [10, 10]);
    assert_eq!(enter(at, 366, &KEPT), Kept { slot: 0 });
    assert_eq!(refused(at, 366, &[8_388_608; 6]), 5);
    assert_eq!(refused(at, 366, &[8_388_608; 7]), 7);
    assert_eq!(refused(at, 366, &RAIL), 11);
    assert_eq!(enter(at, 1, &RAIL), Overloaded { place: 2 });
    assert_eq!(enter(at, 2, &DITHER), Dead);
    assert_eq!(refused(at, 2, &KEPT), 12);
    assert_eq!(counts(at), [363, 1, 1, 1, 0]);
}

#[test]
fn overloaded_comes_before_dead_and_the_samples_next_to_the_rails_may_stand() {
    let at = &mut campaign(2);
    assert_eq!(enter(at, 1, &[-8_388_608; 7]), Overloaded { place: 0 });
    assert_eq!(
        enter(at, 1, &[8_388_606, 0, 0, 0, 0, 0, -8_388_607]),
        Kept { slot: 0 }
    );
    assert_eq!(enter(at, 2, &[8_388_606; 7]), Dead);
}

#[test]
fn a_withdrawal_frees_its_slot_and_leaves_zeros() {
    let at = &mut campaign(3);
    let fresh = at.1.clone();
    for day in [5, 6, 7] {
        enter(at, day, &KEPT);
    }
    assert_eq!(withdraw(at, 6), 0);
    assert_eq!(at.1.store[7..14], [0; 7]);
    assert_eq!(withdraw(at, 6), 13);
    assert_eq!(withdraw(at, 8), 13);
    assert_eq!([0, 367].map(|day| withdraw(at, day)), [10, 10]);
    assert_eq!(withdraw(at, 5), 0);
    assert_eq!(enter(at, 9, &KEPT), Kept { slot: 0 });
    assert_eq!(enter(at, 6, &KEPT), Kept { slot: 1 });
    for day in [6, 7, 9] {
        assert_eq!(withdraw(at, day), 0);
    }
    assert_eq!(at.1, fresh);
    assert_eq!(counts(at), [362, 0, 0, 0, 4]);
}

#[test]
fn response_and_summary_refuse_in_order() {
    let at = &mut campaign(1);
    assert_eq!(response(at, 6, 7, 8), 6);
    assert_eq!(response(at, 7, 6, 8), 6);
    assert_eq!(response(at, 7, 7, 7), 6);
    assert_eq!(response(at, 7, 7, 8), 14);
    let short = Summary::Refused(Refusal::RoomTooShort);
    assert_eq!([summary(at, 7, 7), summary(at, 8, 6)], [short, short]);
    assert_eq!(summary(at, 8, 7), Summary::NothingStands);
    enter(at, 1, &KEPT);
    let levels = Levels {
        highest: 8.0,
        lowest: -4.0,
        at_peak: 8.0,
    };
    assert_eq!(summary(at, 8, 7), Summary::Levels(levels));
}

#[test]
fn a_success_leaves_zeros_in_the_room_and_keeps_the_tails() {
    let at = &mut campaign(1);
    enter(at, 1, &KEPT);
    let (mut r, mut means, mut wide, mut tags) = ([5; 8], [5; 8], [5; 9], [5; 15]);
    let mut room = Room {
        wide: &mut wide,
        tags: &mut tags,
    };
    assert_eq!(at.0.response(&at.1, &mut r, &mut means, &mut room), Ok(()));
    assert_eq!(r, [64, 0, -32, 0, 0, 0, 0, 5]);
    assert_eq!(means, [8, 0, -4, 0, 0, 0, 0, 5]);
    assert_eq!(wide, [0, 0, 0, 0, 0, 0, 0, 0, 5]);
    assert_eq!(tags, [0, 0, 0, 0, 0, 0, 0, 5, 5, 5, 5, 5, 5, 5, 5]);
}

#[test]
fn the_peak_is_the_first_of_equal_sizes() {
    // r is 8, -8, -8, 0, … for the first recording and its negative for the second.
    for (recording, at_peak) in [
        ([0, 0, 0, 4, 0, -4, 0], 1.0),
        ([0, 0, 0, -4, 0, 4, 0], -1.0),
    ] {
        let at = &mut campaign(1);
        enter(at, 1, &recording);
        let levels = Levels {
            highest: 1.0,
            lowest: -1.0,
            at_peak,
        };
        assert_eq!(summary(at, 8, 7), Summary::Levels(levels));
    }
}

/// Every call on a record that does not hold together is refused 15 and changes nothing.
fn assert_refused_15(what: &str, spoil: impl Fn(&mut Campaign, &mut Lent)) {
    let mut at = campaign(2);
    enter(&mut at, 1, &KEPT);
    spoil(&mut at.0, &mut at.1);
    let before = at.clone();
    assert_eq!(refused(&mut at, 0, &[]), 15, "{what}");
    assert_eq!(withdraw(&mut at, 0), 15, "{what}");
    assert_eq!(number(&at.0.counts(&at.1)), 15, "{what}");
    assert_eq!(response(&at, 0, 0, 0), 15, "{what}");
    let broken = Summary::Refused(Refusal::DoesNotHoldTogether);
    assert_eq!(summary(&at, 0, 0), broken, "{what}");
    assert_eq!(at, before, "{what}");
}

#[test]
fn what_does_not_hold_together_is_refused_15() {
    assert_refused_15("order", |c, _| c.order = 200);
    assert_refused_15("taps", |c, _| c.taps = 1);
    assert_refused_15("no slots", |c, _| c.slots = 0);
    assert_refused_15("too many slots", |c, _| c.slots = 65);
    assert_refused_15("slot past C", |c, _| c.table[2] = 1);
    assert_refused_15("short store", |_, l| l.store.truncate(13));
    assert_refused_15("short sums", |_, l| l.sums.truncate(6));
    assert_refused_15("slot of no standing day", |c, _| c.days[0] = DayState::Dead);
    assert_refused_15("slot of no day", |c, _| c.table[0] = 367);
    assert_refused_15("standing without slot", |c, _| {
        c.days[1] = DayState::Standing
    });
    assert_refused_15("sample at a rail", |_, l| {
        l.store[0] = -8_388_608;
        l.sums[0] = -8_388_608;
    });
    assert_refused_15("free slot not zero", |_, l| l.store[7] = 1);
    assert_refused_15("sum not the total", |_, l| l.sums[6] += 1);
    assert_refused_15("two slots of one day", |c, l| {
        c.table[1] = 1;
        l.store.copy_within(0..7, 7);
        l.sums.iter_mut().for_each(|sum| *sum *= 2);
    });
}
