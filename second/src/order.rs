//! Document 01's "Order of checks", with 18, 23, 24 and 25 of requests 1, 5, 9 and 10 of document 02: for each two checks that stand side by
//! side in a call's list, an input to which both apply, so that the answer tells which comes first. `door/order.c` makes the same calls through
//! the C door.

use crate::campaign::start;
use crate::door::with_period;
use crate::edition::FIRST;
use crate::order_campaign;
use crate::order_legendre;
use crate::player::Player;
use crate::refusal::{number, Refusal};
use crate::register::{check_taps, sequence};
use crate::response::{one_recording, predict, predict_in_room};
use crate::room::Room;
use std::io::{self, Write};

/// Order 2, taps 3: P is 3.
pub const P: usize = 3;
pub const ROOM: usize = P + 1;
pub const TAGS: usize = P;

/// Those on either side of the editions there are.
pub const NEAR_EDITIONS: [u32; 2] = [0, 3];
/// With some whose lowest byte is that of an edition.
const NO_EDITIONS: [u32; 6] = [0, 3, 257, 258, 65_537, u32::MAX];

/// Prints a line for each case.
pub fn print(out: &mut impl Write) -> io::Result<()> {
    let mut lines = registers();
    lines.extend(recordings());
    lines.extend(starts());
    lines.extend(order_campaign::lines());
    lines.extend(order_legendre::lines());
    for line in lines {
        writeln!(out, "{line}")?;
    }
    Ok(())
}

pub fn line(call: &str, checks: &str, answer: u8) -> String {
    format!("{call}: {checks}: {answer}")
}

/// The answer of a call that has a period, which is P where it is accepted.
type Told = Result<usize, Refusal>;

fn told_line(call: &str, checks: &str, answer: Told) -> String {
    format!("{call}: {checks}: {}", with_period(&answer))
}

// ---- the calls that take order and taps

fn written(order: u32, taps: u32, n: usize) -> Told {
    sequence(order, taps, &mut vec![0; n])
}

/// One recording of `n` samples, with an output, wide numbers and tags of these lengths.
fn heard(order: u32, taps: u32, first: i32, n: usize, lengths: [usize; 3]) -> Told {
    let y = &[first, 0, 0][..n];
    let [out, wide, tags] = lengths;
    let room = &mut Room {
        wide: &mut vec![0; wide],
        tags: &mut vec![0; tags],
    };
    one_recording(order, taps, y, &mut vec![0; out], room)
}

fn predicted(order: u32, taps: u32, first: i32, n: usize, out: usize) -> Told {
    let h = &[first, 0, 0][..n];
    predict(order, taps, h, &mut vec![0; out])
}

/// With an output and a room of these lengths.
fn predicted_in_room(order: u32, taps: u32, first: i32, n: usize, lengths: [usize; 2]) -> Told {
    let h = &[first, 0, 0][..n];
    let [out, wide] = lengths;
    predict_in_room(order, taps, h, &mut vec![0; out], &mut vec![1; wide])
}

/// A start with a store and sums of these lengths.
fn started(order: u32, taps: u32, count: u32, edition: u32, lengths: [usize; 2]) -> Told {
    let [store, sums] = lengths;
    let (store, sums) = (&mut vec![0; store], &mut vec![0; sums]);
    start(order, taps, count, edition, store, sums).map(|campaign| campaign.p())
}

/// A block is refused for the same causes as a step.
fn players(order: u32, taps: u32, window: u32, checks: &str) -> [String; 2] {
    let mut player = Player {
        order,
        taps,
        window,
        count: 0,
    };
    let answer = number(&player.step());
    ["step", "play"].map(|call| line(call, checks, answer))
}

/// Orders 1 and 17 have taps that are not below 2^N as well.
fn registers() -> Vec<String> {
    let shapes = [
        (1, 2, "1 before 2"),
        (17, 131_072, "1 before 2"),
        (2, 4, "2 before 3"),
        (2, 2, "3 before 4"),
    ];
    let mut lines = vec![];
    for (order, taps, checks) in shapes {
        let mut add = |call, answer| lines.push(told_line(call, checks, answer));
        add("taps", check_taps(order, taps));
        add("sequence", written(order, taps, P));
        add("recording", heard(order, taps, 1, P, [P, ROOM, TAGS]));
        add("predict", predicted(order, taps, 1, P, P));
        add(
            "predict in a room",
            predicted_in_room(order, taps, 1, P, [P, ROOM]),
        );
        add("start", started(order, taps, 1, FIRST, [P, P]));
        if checks != "3 before 4" {
            let made = number(&Player::new(order, taps));
            lines.push(line("new player", checks, made));
            lines.extend(players(order, taps, 1, checks));
        }
    }
    lines.extend(players(2, 2, 0, "3 before 16"));
    lines.extend(players(2, 2, 4, "3 before 16"));
    lines.push(told_line("sequence", "4 before 6", written(2, 1, P - 1)));
    lines
}

/// A response of 8388608, 0, 0 predicts 8388608 at the last place.
fn recordings() -> Vec<String> {
    let too_short = [
        [P - 1, ROOM, TAGS],
        [P, ROOM - 1, TAGS],
        [P, ROOM, TAGS - 1],
    ];
    let mut lines = vec![];
    let mut add = |call, checks, answer| lines.push(told_line(call, checks, answer));
    add(
        "recording",
        "4 before 5",
        heard(2, 1, 1, P - 1, [P, ROOM, TAGS]),
    );
    for lengths in too_short {
        add("recording", "5 before 6", heard(2, 3, 1, P - 1, lengths));
    }
    for lengths in too_short {
        add(
            "recording",
            "6 before 7",
            heard(2, 3, 8_388_608, P, lengths),
        );
    }
    add("predict", "4 before 5", predicted(2, 1, 1, P - 1, P));
    add("predict", "5 before 6", predicted(2, 3, 1, P - 1, P - 1));
    add(
        "predict",
        "6 before 7",
        predicted(2, 3, 8_388_608, P, P - 1),
    );
    add("predict", "7 before 8", predicted(2, 3, 8_388_608, P, P));
    let in_a_room = "predict in a room";
    add(
        in_a_room,
        "4 before 5",
        predicted_in_room(2, 1, 1, P - 1, [P, ROOM]),
    );
    for lengths in [[P - 1, ROOM], [P, ROOM - 1]] {
        add(
            in_a_room,
            "5 before 6",
            predicted_in_room(2, 3, 1, P - 1, lengths),
        );
    }
    for lengths in [[P - 1, ROOM], [P, ROOM - 1]] {
        add(
            in_a_room,
            "6 before 7",
            predicted_in_room(2, 3, 8_388_608, P, lengths),
        );
    }
    add(
        in_a_room,
        "7 before 8",
        predicted_in_room(2, 3, 8_388_608, P, [P, ROOM]),
    );
    lines
}

/// The slot count, the edition and the room of a start.
fn starts() -> Vec<String> {
    let mut lines = vec![];
    let mut add = |checks, answer| lines.push(told_line("start", checks, answer));
    add("4 before 9", started(2, 1, 0, FIRST, [P, P]));
    add("9 before 6", started(2, 3, 65, FIRST, [64 * P, P]));
    add("9 before 6", started(2, 3, 0, FIRST, [P, P - 1]));
    for edition in NEAR_EDITIONS {
        add("9 before 24", started(2, 3, 0, edition, [P, P]));
        add("9 before 24", started(2, 3, 65, edition, [65 * P, P]));
    }
    for edition in NEAR_EDITIONS {
        add("24 before 6", started(2, 3, 1, edition, [P - 1, P]));
        add("24 before 6", started(2, 3, 1, edition, [P, P - 1]));
    }
    for edition in NO_EDITIONS {
        add("24 alone", started(2, 3, 1, edition, [P, P]));
    }
    lines
}
