//! Damage to a whole log, between its records or inside them.

use crate::make::Pieces;
use crate::night::capture_length;
use crate::record::{encode, Record, ASK, CAPTURE, EDITION, ENTER, OPEN, SAMPLE, START, WITHDRAW};
use crate::register::period;
use crate::rng::Rng;

/// The log with one sort of damage; a flipped byte may leave it whole.
pub fn damaged(rng: &mut Rng, mut pieces: Pieces) -> Pieces {
    match rng.below(27) {
        0 => return vec![cut_anywhere(rng, pieces.concat())],
        1 => return vec![flipped(rng, pieces.concat())],
        2 | 3 => cut_body(rng, &mut pieces),
        4 => insert(rng, &mut pieces, unknown),
        5..=8 => insert(rng, &mut pieces, any_record),
        9 => sample_beyond_p(rng, &mut pieces),
        10..=12 => sample_beyond_a_capture(rng, &mut pieces),
        13 | 14 => end_in_open_day(rng, &mut pieces),
        15 => drop(pieces.remove(rng.below(pieces.len()))),
        16..=19 => {
            pieces[0] = if rng.once_in(4) {
                unknown(rng)
            } else {
                any_record(rng)
            }
        }
        20 => two_exchanged(rng, &mut pieces),
        21..=23 => misplaced_edition(rng, &mut pieces),
        24 | 25 => end_after_edition(rng, &mut pieces),
        _ => pieces.push((0..rng.below(9)).map(|_| rng.byte()).collect()),
    }
    pieces
}

fn cut_anywhere(rng: &mut Rng, mut log: Vec<u8>) -> Vec<u8> {
    log.truncate(rng.below(log.len()));
    log
}

fn flipped(rng: &mut Rng, mut log: Vec<u8>) -> Vec<u8> {
    for _ in 0..rng.between(1, 3) {
        let place = rng.below(log.len());
        log[place] ^= 1 << rng.below(8);
    }
    log
}

/// Ends the log inside the body of a record, its kind byte still there.
fn cut_body(rng: &mut Rng, pieces: &mut Pieces) {
    let kind = rng.pick(&[START, OPEN, SAMPLE, WITHDRAW, CAPTURE, EDITION]);
    let of_kind = places(pieces, |piece| piece[0] == kind);
    let place = if of_kind.is_empty() {
        0
    } else {
        rng.pick(&of_kind)
    };
    pieces.truncate(place + 1);
    let length = pieces[place].len();
    pieces[place].truncate(1 + rng.below(length - 1));
}

fn places(pieces: &Pieces, wanted: impl Fn(&[u8]) -> bool) -> Vec<usize> {
    (0..pieces.len()).filter(|&i| wanted(&pieces[i])).collect()
}

/// The places between records that lie outside the open days.
fn outside(pieces: &Pieces) -> Vec<usize> {
    let opens_none = [OPEN, CAPTURE, WITHDRAW, ASK];
    let mut outside = places(pieces, |piece| opens_none.contains(&piece[0]));
    outside.push(pieces.len());
    outside
}

/// Anywhere, or half the time at a place outside the open days.
fn insert(rng: &mut Rng, pieces: &mut Pieces, piece: fn(&mut Rng) -> Vec<u8>) {
    let outside = outside(pieces);
    let anywhere = rng.below(pieces.len() + 1);
    let place = if rng.once_in(2) {
        anywhere
    } else {
        rng.pick(&outside)
    };
    let piece = piece(rng);
    pieces.insert(place, piece);
}

fn unknown(rng: &mut Rng) -> Vec<u8> {
    let mut piece = vec![rng.pick(&[0, 9, 10, 49, 128, 255])];
    piece.extend((0..rng.below(4)).map(|_| rng.byte()));
    piece
}

fn any_record(rng: &mut Rng) -> Vec<u8> {
    encode(match rng.below(8) {
        0 => Record::Start {
            order: 3,
            taps: 3,
            slots: 2,
        },
        1 => Record::Open(rng.between(1, 366) as u16),
        2 => Record::Sample(rng.between(-9, 9)),
        3 => Record::Enter,
        4 => Record::Withdraw(rng.between(1, 366) as u16),
        5 => Record::Ask,
        6 => Record::Edition(any_edition(rng)),
        _ => Record::Capture {
            day: rng.between(1, 366) as u16,
            m: rng.pick(&[0, 1, 4, 5, 255]),
        },
    })
}

fn any_edition(rng: &mut Rng) -> u8 {
    rng.pick(&[0, 1, 1, 2, 2, 3, 255])
}

/// An edition at the very front, or directly behind a record of any kind but a start; behind another edition also where the log has none.
fn misplaced_edition(rng: &mut Rng, pieces: &mut Pieces) {
    let kind = rng.pick(&[START, OPEN, SAMPLE, ENTER, WITHDRAW, ASK, CAPTURE, EDITION]);
    if kind == EDITION && pieces[1][0] != EDITION {
        pieces.insert(1, encode(Record::Edition(2)));
    }
    let of_kind = places(pieces, |piece| piece[0] == kind);
    let place = match kind {
        START => 0,
        _ if of_kind.is_empty() => pieces.len(),
        _ => rng.pick(&of_kind) + 1,
    };
    let edition = encode(Record::Edition(any_edition(rng)));
    pieces.insert(place, edition);
}

/// The start and an edition, whole, cut or not even begun.
fn end_after_edition(rng: &mut Rng, pieces: &mut Pieces) {
    let mut edition = encode(Record::Edition(any_edition(rng)));
    edition.truncate(rng.pick(&[0, 1, 2, 2]));
    pieces.splice(1.., [edition]);
}

/// More samples just before an entry; now and then the log ends there with a lone kind byte.
fn sample_beyond_p(rng: &mut Rng, pieces: &mut Pieces) {
    let entries = places(pieces, |piece| piece[0] == ENTER);
    if entries.is_empty() {
        return;
    }
    let place = rng.pick(&entries);
    if rng.once_in(3) {
        pieces.truncate(place);
        pieces.push(vec![SAMPLE]);
        return;
    }
    for _ in 0..rng.between(1, 3) {
        let sample = encode(Record::Sample(rng.between(-9, 9)));
        pieces.insert(place, sample);
    }
}

/// Up to this P a capture of 255 periods is brought whole.
const SHORT_P: usize = 15;

/// A capture of as many samples as it may have and one to three more, at a place outside the open days.
fn sample_beyond_a_capture(rng: &mut Rng, pieces: &mut Pieces) {
    // The order stands behind the kind byte of the start.
    let p = period(u32::from(pieces[0][1]));
    let m = match rng.below(6) {
        0 => 0,
        1 => rng.between(1, 4) as u8,
        2 => rng.pick(&[5, 9, 16]),
        3 | 4 if p <= SHORT_P => 255,
        _ => rng.pick(&[17, 18]),
    };
    let place = rng.pick(&outside(pieces));
    let samples = capture_length(usize::from(m), p) + 1 + rng.below(3);
    let day = rng.between(0, 367) as u16;
    let mut overfull = vec![encode(Record::Capture { day, m })];
    overfull.extend((0..samples).map(|_| encode(Record::Sample(rng.between(-9, 9)))));
    overfull.push(encode(Record::Enter));
    pieces.splice(place..place, overfull);
}

fn end_in_open_day(rng: &mut Rng, pieces: &mut Pieces) {
    let in_a_day = places(pieces, |piece| [OPEN, CAPTURE, SAMPLE].contains(&piece[0]));
    if !in_a_day.is_empty() {
        pieces.truncate(1 + rng.pick(&in_a_day));
    }
}

fn two_exchanged(rng: &mut Rng, pieces: &mut Pieces) {
    let (a, b) = (rng.below(pieces.len()), rng.below(pieces.len()));
    pieces.swap(a, b);
}
