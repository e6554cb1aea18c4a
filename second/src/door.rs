//! Random calls of every function that the C door has, each with the line that it prints. `door/random.c` draws the same calls in
//! the same order and makes them through the door.

use crate::door_campaign::campaign_case;
use crate::door_judging::judge_case;
use crate::door_legendre::legendre_case;
use crate::player::Player;
use crate::quiet::quiet;
use crate::refusal::{number, told_period, Refusal};
use crate::register::{check_taps, default_taps, sequence};
use crate::response::{one_recording, predict, predict_in_room, HIGHEST, LOWEST};
use crate::rng::Rng;
use crate::room::Room;
use crate::short::short_taps;
use crate::year_memory::digest_of;
use std::io::{self, Write};

/// Prints the lines of the cases 0 to `count` - 1, and behind them a tenth as many of short rooms.
pub fn print(seed: u64, count: u64, out: &mut impl Write) -> io::Result<()> {
    for case in 0..count {
        let mut rng = Rng::for_log(seed, case);
        let lines = match rng.below(10) {
            0 => taps_case(&mut rng),
            1 => sequence_case(&mut rng),
            2 => player_case(&mut rng),
            3 => recording_case(&mut rng),
            4 => predict_case(&mut rng),
            5 => predict_in_room_case(&mut rng),
            6..=8 => campaign_case(&mut rng),
            _ => judge_case(&mut rng),
        };
        for line in lines {
            writeln!(out, "{case} {line}")?;
        }
    }
    for case in count..count + count / 10 {
        let mut rng = Rng::for_log(seed, case);
        for line in legendre_case(&mut rng) {
            writeln!(out, "{case} {line}")?;
        }
    }
    Ok(())
}

// ---- the draws

pub fn any_order(rng: &mut Rng) -> u32 {
    match rng.below(40) {
        0 => rng.pick(&[0, 1, 17, 33]),
        1..=4 => 11 + rng.below(6) as u32,
        _ => 2 + rng.below(9) as u32,
    }
}

pub fn any_taps(rng: &mut Rng, order: u32) -> u32 {
    if !(2..=16).contains(&order) {
        return rng.below(65536) as u32;
    }
    let all = 1 << order;
    match rng.below(16) {
        0 => (all + rng.below(4)) as u32,
        1 => 2 * rng.below(all / 2) as u32,
        2 | 3 => rng.below(all) as u32,
        4..=6 => short_taps(rng, order),
        _ => default_taps(order).expect("the order is in range"),
    }
}

pub fn near(rng: &mut Rng, n: usize) -> usize {
    match rng.below(12) {
        0 => n - 1,
        1..=6 => n,
        _ => n + rng.below(5),
    }
}

/// One list in four is twice as long as it must be, so that a call which touches its second half shows.
pub fn near_tags(rng: &mut Rng, p: usize) -> usize {
    if rng.once_in(4) {
        2 * p
    } else {
        near(rng, p)
    }
}

pub fn period_of(order: u32) -> usize {
    if (2..=16).contains(&order) {
        (1 << order) - 1
    } else {
        7
    }
}

/// Quiet ones, one above the range, one at the lower rail, anything between the rails, or small ones.
pub fn samples(rng: &mut Rng, n: usize) -> Vec<i32> {
    let style = rng.below(6);
    if style < 2 {
        return quiet(rng, n);
    }
    let loud = rng.below(n);
    let mut sample = |j: usize| match style {
        2 if j == loud => HIGHEST + 1,
        3 if j == loud => LOWEST,
        2 | 3 => rng.between(-100, 100),
        4 => rng.between(LOWEST + 1, HIGHEST - 1),
        _ => rng.between(-50, 50),
    };
    (0..n).map(&mut sample).collect()
}

/// Place i holds i mod 7 at first.
pub fn filled<T: From<u8>>(length: usize) -> Vec<T> {
    (0..length).map(|i| T::from((i % 7) as u8)).collect()
}

// ---- the cases

/// What the caller's variable for a period holds before the call.
pub const UNWRITTEN: usize = 99_999;

/// The number of an answer, and what the caller's variable for the period holds after it.
pub fn with_period(answer: &Result<usize, Refusal>) -> String {
    let period = told_period(answer).unwrap_or(UNWRITTEN);
    format!("{} {period}", number(answer))
}

fn taps_case(rng: &mut Rng) -> Vec<String> {
    let order = any_order(rng);
    let taps = any_taps(rng, order);
    let found = default_taps(order);
    vec![
        format!("taps {}", with_period(&check_taps(order, taps))),
        format!("default {} {}", number(&found), found.unwrap_or(7)),
    ]
}

fn sequence_case(rng: &mut Rng) -> Vec<String> {
    let order = any_order(rng);
    let taps = any_taps(rng, order);
    let mut out: Vec<u8> = filled(near(rng, period_of(order)));
    let answer = with_period(&sequence(order, taps, &mut out));
    vec![format!("sequence {answer} {}", digest_of(&out))]
}

fn player_case(rng: &mut Rng) -> Vec<String> {
    let order = any_order(rng);
    let taps = any_taps(rng, order);
    let made = Player::new(order, taps);
    let answer = number(&made);
    let mut player = made.unwrap_or(Player {
        order: 1,
        taps: 2,
        window: 3,
        count: 4,
    });
    let shown = |p: &Player| format!("{} {} {} {}", p.order, p.taps, p.window, p.count);
    let mut lines = vec![format!("new {answer} {}", shown(&player))];
    if rng.once_in(4) {
        player.window = rng.below(131_072) as u32;
    }
    if rng.once_in(4) {
        player.count = u32::MAX - rng.below(4) as u32;
    }
    let mut sign = 9;
    for _ in 0..rng.below(20) {
        let stepped = player.step();
        sign = stepped.unwrap_or(sign);
        let answer = number(&stepped);
        lines.push(format!("step {answer} {sign} {}", shown(&player)));
    }
    let n = rng.below(40);
    let mut signs: Vec<i64> = filled(n + 1);
    // A block of no places is refused for the same causes.
    let answer = number(&player.clone().step());
    if answer == 0 {
        for place in &mut signs[..n] {
            *place = i64::from(player.step().expect("an accepted player stays so"));
        }
    }
    let digest = digest_of(&signs);
    lines.push(format!("play {answer} {digest} {}", shown(&player)));
    lines
}

fn recording_case(rng: &mut Rng) -> Vec<String> {
    let order = any_order(rng);
    let taps = any_taps(rng, order);
    let p = period_of(order);
    let n = near(rng, p);
    let mut out: Vec<i64> = filled(near(rng, p));
    let mut wide: Vec<i64> = filled(near(rng, p + 1));
    let mut tags: Vec<u32> = filled(near_tags(rng, p));
    let y = samples(rng, n);
    let room = &mut Room {
        wide: &mut wide,
        tags: &mut tags,
    };
    let answer = with_period(&one_recording(order, taps, &y, &mut out, room));
    vec![format!(
        "recording {answer} {} {} {}",
        digest_of(&out),
        digest_of(&wide),
        digest_of(&tags)
    )]
}

fn predict_case(rng: &mut Rng) -> Vec<String> {
    let order = any_order(rng);
    let taps = any_taps(rng, order);
    let p = period_of(order);
    let n = near(rng, p);
    let mut out: Vec<i32> = filled(near(rng, p));
    let h = samples(rng, n);
    let answer = with_period(&predict(order, taps, &h, &mut out));
    vec![format!("predict {answer} {}", digest_of(&out))]
}

/// The room holds zeros in every second case, and in all of the long orders.
fn predict_in_room_case(rng: &mut Rng) -> Vec<String> {
    let order = any_order(rng);
    let taps = any_taps(rng, order);
    let p = period_of(order);
    let n = near(rng, p);
    let mut out: Vec<i32> = filled(near(rng, p));
    let mut wide: Vec<i64> = filled(near(rng, p + 1));
    if rng.below(2) == 0 || order > 12 {
        wide.fill(0);
    }
    let h = samples(rng, n);
    let answer = with_period(&predict_in_room(order, taps, &h, &mut out, &mut wide));
    vec![format!(
        "predict in a room {answer} {} {}",
        digest_of(&out),
        digest_of(&wide)
    )]
}
