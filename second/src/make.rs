//! Random logs: whole campaigns, refused starts and editions, damaged ones and garbage.

use crate::campaign::DAYS;
use crate::captures::{capture, kept_capture, Capture};
use crate::damage::damaged;
use crate::edition::{FIRST, SECOND};
use crate::open_day::PROGRAM_PERIODS;
use crate::record::{encode, Record};
use crate::recordings::{kept, recording};
use crate::register::{check_taps, default_taps};
use crate::rng::Rng;
use crate::short::short_taps;

/// A log as its encoded records, so that damage can be done between them.
pub type Pieces = Vec<Vec<u8>>;

/// Log `number` of the logs that belong to `seed`.
pub fn log(seed: u64, number: u64) -> Vec<u8> {
    let rng = &mut Rng::for_log(seed, number);
    match rng.below(42) {
        0..=9 => refused_start(rng),
        10..=14 => campaign(rng, 9),
        15 => whole_year(rng),
        16..=37 => {
            let pieces = campaign(rng, 5);
            damaged(rng, pieces)
        }
        38 => vec![garbage(rng)],
        39 | 40 => refused_edition(rng),
        _ => vec![],
    }
    .concat()
}

fn garbage(rng: &mut Rng) -> Vec<u8> {
    let small_kinds = rng.once_in(2);
    let length = rng.below(200);
    let byte = |rng: &mut Rng| {
        if small_kinds {
            rng.below(10) as u8
        } else {
            rng.byte()
        }
    };
    (0..length).map(|_| byte(rng)).collect()
}

fn start(order: u8, taps: u16, slots: u8) -> Vec<u8> {
    encode(Record::Start { order, taps, slots })
}

fn accepted_taps(rng: &mut Rng, order: u32) -> u32 {
    if rng.once_in(2) {
        return default_taps(order).expect("the order is from 2 to 16");
    }
    loop {
        let taps = rng.below(1 << order) as u32;
        if check_taps(order, taps).is_ok() {
            return taps;
        }
    }
}

/// A start that is refused for one reason or several, sometimes with more behind it;
/// a few with everything random. The edge of each rule comes often.
fn refused_start(rng: &mut Rng) -> Pieces {
    let sort = rng.below(9);
    let any_order = rng.between(2, 16) as u32;
    let order = match sort {
        0 => rng.pick(&[0, 1, 17, 18, 255]),
        1 => rng.between(2, 15) as u32,
        5 if rng.once_in(3) => 10,
        5 => rng.between(10, 16) as u32,
        6 => rng.between(2, 9) as u32,
        7 => rng.below(20) as u32,
        _ => any_order,
    };
    let taps = match sort {
        0 => rng.pick(&[0, 1, 3, 5, 65535]),
        1 if rng.once_in(3) => 1 << order,
        1 => (1 << order) + rng.below(65536 - (1 << order)) as u32,
        2 => 2 * rng.below(1 << (order - 1)) as u32,
        3 | 8 => short_taps(rng, order),
        7 => rng.below(65536) as u32,
        _ => accepted_taps(rng, order),
    };
    let too_many = rng.between(65, 255) as u8;
    let too_many_here = rng.between(9, 64) as u8;
    let slots = match sort {
        4 => rng.pick(&[0, 65, too_many]),
        5 => rng.pick(&[1, 8, too_many_here]),
        6 => rng.pick(&[9, 64, too_many_here]),
        _ => rng.pick(&[0, 1, 8, 9, 64, 65, too_many]),
    };
    let mut pieces = vec![start(order as u8, taps as u16, slots)];
    pieces.extend(unread(rng));
    pieces
}

/// What stands behind a refusal, which nobody looks at: most often nothing.
fn unread(rng: &mut Rng) -> Pieces {
    match rng.below(6) {
        0 => vec![encode(Record::Ask), garbage(rng)],
        1 => vec![edition(SECOND), garbage(rng)],
        _ => vec![],
    }
}

fn edition(edition: u32) -> Vec<u8> {
    encode(Record::Edition(edition as u8))
}

/// An accepted start and an edition that is none.
fn refused_edition(rng: &mut Rng) -> Pieces {
    let order = rng.between(2, 9) as u32;
    let taps = accepted_taps(rng, order);
    let slots = rng.between(1, 8) as u8;
    let above = rng.between(4, 254) as u32;
    let none = rng.pick(&[0, 3, above, 255]);
    let mut pieces = vec![start(order as u8, taps as u16, slots), edition(none)];
    pieces.extend(unread(rng));
    pieces
}

/// Half of the campaigns are in an edition that the log names, most often the second.
fn named_edition(rng: &mut Rng) -> Option<Vec<u8>> {
    match rng.below(8) {
        0..=3 => None,
        4 => Some(edition(FIRST)),
        _ => Some(edition(SECOND)),
    }
}

/// An open day, its samples and its entry.
fn entry(day: u16, samples: &[i32]) -> Pieces {
    night(Record::Open(day), samples)
}

fn captured(day: u16, capture: &Capture) -> Pieces {
    let m = capture.m;
    night(Record::Capture { day, m }, &capture.samples)
}

fn night(opening: Record, samples: &[i32]) -> Pieces {
    let mut pieces = vec![encode(opening)];
    pieces.extend(samples.iter().map(|&v| encode(Record::Sample(v))));
    pieces.push(encode(Record::Enter));
    pieces
}

/// Few days, so that they meet again; now and then one that is no day.
fn day(rng: &mut Rng, few: &[u16]) -> u16 {
    if rng.once_in(12) {
        rng.pick(&[0, 367, 368, 65535, 32768, 366])
    } else {
        rng.pick(few)
    }
}

/// An accepted start and calls of every sort; it ends with an ask.
fn campaign(rng: &mut Rng, highest_order: u32) -> Pieces {
    let order = rng.between(2, highest_order as i32) as u32;
    let taps = accepted_taps(rng, order);
    let slots = rng.between(1, 8) as u8;
    let mut few: Vec<u16> = (0..slots + 2).map(|_| 1 + rng.below(DAYS) as u16).collect();
    few.extend([1, 366]);
    let most_calls = if order < 6 { 60 } else { 24 };
    let mut pieces = vec![start(order as u8, taps as u16, slots)];
    pieces.extend(named_edition(rng));
    if rng.once_in(2) {
        pieces.extend(full_slots(rng, order, taps, &few[..slots as usize]));
    }
    for _ in 0..rng.below(most_calls) {
        let day = day(rng, &few);
        match rng.below(12) {
            0..=4 => pieces.extend(entry(day, &recording(rng, order, taps))),
            5..=7 => pieces.extend(captured(day, &capture(rng, order, taps))),
            8..=9 => pieces.push(encode(Record::Withdraw(day))),
            _ => pieces.push(encode(Record::Ask)),
        }
    }
    pieces.push(encode(Record::Ask));
    pieces
}

/// As many kept days as there are slots, so that the calls after it meet no free slot. Each is one period, or at the shorter orders each is a
/// capture of so many as the program takes, and then the total is asked for.
fn full_slots(rng: &mut Rng, order: u32, taps: u32, days: &[u16]) -> Pieces {
    if order > 5 || rng.once_in(2) {
        let one = |&day| entry(day, &kept(rng, order, taps));
        return days.iter().flat_map(one).collect();
    }
    let several = |&day| captured(day, &kept_capture(rng, order, taps, PROGRAM_PERIODS));
    let mut pieces: Pieces = days.iter().flat_map(several).collect();
    pieces.push(encode(Record::Ask));
    pieces
}

/// Every day of the year entered at the smallest order, so that all counts grow large.
fn whole_year(rng: &mut Rng) -> Pieces {
    let slots = rng.between(1, 8) as u8;
    let mut pieces = vec![start(2, 3, slots)];
    pieces.extend(named_edition(rng));
    for day in 1..=DAYS as u16 {
        if rng.once_in(3) {
            pieces.extend(captured(day, &capture(rng, 2, 3)));
        } else {
            pieces.extend(entry(day, &recording(rng, 2, 3)));
        }
        if rng.once_in(3) {
            pieces.push(encode(Record::Withdraw(day)));
        }
        if rng.once_in(40) {
            pieces.push(encode(Record::Ask));
        }
    }
    pieces.push(encode(Record::Ask));
    pieces
}
