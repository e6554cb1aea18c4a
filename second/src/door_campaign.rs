//! The door's campaigns: a start, and a run of calls on what it left, some on a damaged record. `door/random.c` makes the same calls.

use crate::campaign::{Lent, DAYS, MOST_SLOTS};
use crate::door::{any_order, any_taps, filled, near, near_tags, period_of, with_period};
use crate::door_held::{told, Held};
use crate::door_judging::{judge_and_file, Drawn};
use crate::door_nights::{any_day, any_periods, capture, one_period};
use crate::edition::{FIRST, SECOND};
use crate::night::Night;
use crate::reading::Summary;
use crate::refusal::{number, Refusal};
use crate::register::default_taps;
use crate::rng::Rng;
use crate::room::Room;
use crate::year_memory::digest_of;

/// From this order on a campaign has few slots and few calls.
const LONG_ORDER: u32 = 12;

/// The lines of one campaign.
pub fn campaign_case(rng: &mut Rng) -> Vec<String> {
    let mut held = any_campaign(rng);
    let started = held.start();
    let answer = with_period(&started);
    let mut lines = vec![format!("start {answer} {}", held.memory())];
    // Where the start was refused the record is none, and every call is refused alike.
    let most_steps = match started {
        Ok(_) if held.order < LONG_ORDER => 15,
        _ => 4,
    };
    for _ in 0..2 + rng.below(most_steps) {
        let what = rng.below(22);
        let damage = held.damage(rng);
        let (answer, line) = match what {
            0..=3 => enter_line(&mut held, rng),
            4..=7 => capture_line(&mut held, rng),
            8 | 9 => withdraw_line(&mut held, rng),
            10 => counts_line(&held),
            11 => summary_line(&held, rng),
            12..=14 => judge_and_file(&mut held, rng, Drawn::one_period, &mut lines),
            15..=17 => judge_and_file(&mut held, rng, Drawn::capture, &mut lines),
            _ => response_lines(&held, rng, &mut lines),
        };
        lines.push(line);
        if answer == Refusal::DoesNotHoldTogether.number() {
            held.mend(&damage);
        }
    }
    lines
}

fn any_campaign(rng: &mut Rng) -> Held {
    let order = any_order(rng);
    let taps = campaign_taps(rng, order);
    let p = period_of(order);
    let count = any_count(rng, order);
    let edition = any_edition(rng);
    let store = filled(near(rng, count.max(1) as usize * p));
    let sums = filled(near(rng, p));
    Held {
        order,
        taps,
        count,
        edition,
        days: filled(table_length(rng, DAYS)),
        slots: filled(table_length(rng, MOST_SLOTS)),
        periods: filled(table_length(rng, MOST_SLOTS)),
        lent: Lent { store, sums },
    }
}

/// Most often the order's own, so that most starts are accepted.
fn campaign_taps(rng: &mut Rng, order: u32) -> u32 {
    let any = rng.once_in(4);
    match default_taps(order) {
        Ok(taps) if !any => taps,
        _ => any_taps(rng, order),
    }
}

/// One in three has a single slot, which is soon used.
fn any_count(rng: &mut Rng, order: u32) -> u32 {
    let few = 1 + rng.below(if order >= LONG_ORDER { 3 } else { 8 }) as u32;
    match rng.below(15) {
        0 if order < LONG_ORDER => rng.pick(&[0, 65, 64]),
        1..=5 => 1,
        _ => few,
    }
}

/// One in ten is none, and of these two have the lowest byte of one.
fn any_edition(rng: &mut Rng) -> u32 {
    match rng.below(10) {
        0 => rng.pick(&[0, 3, 257, 65_538, u32::MAX]),
        1..=4 => FIRST,
        _ => SECOND,
    }
}

/// One table in twenty is too short.
fn table_length(rng: &mut Rng, n: usize) -> usize {
    if rng.once_in(20) {
        n - 1
    } else {
        n + rng.below(3)
    }
}

fn enter_line(held: &mut Held, rng: &mut Rng) -> (u8, String) {
    let day = any_day(rng);
    let samples = one_period(rng, period_of(held.order));
    let (answer, state, value) = told(held.enter(day, Night::one_period(&samples)));
    let line = format!("enter {answer} {state} {value} {}", held.memory());
    (answer, line)
}

fn capture_line(held: &mut Held, rng: &mut Rng) -> (u8, String) {
    let day = any_day(rng);
    let m = any_periods(rng);
    let samples = capture(rng, m, period_of(held.order));
    let (answer, state, value) = told(held.enter(day, Night::capture(m, &samples)));
    let line = format!("capture {answer} {state} {value} {}", held.memory());
    (answer, line)
}

fn withdraw_line(held: &mut Held, rng: &mut Rng) -> (u8, String) {
    let answer = number(&held.withdraw(any_day(rng)));
    (answer, format!("withdraw {answer} {}", held.memory()))
}

fn counts_line(held: &Held) -> (u8, String) {
    match held.record().and_then(|c| c.counts(&held.lent)) {
        Ok(n) => (
            0,
            format!(
                "counts 0 {} {} {} {} {}",
                n.unseen, n.standing, n.overloaded, n.dead, n.withdrawn
            ),
        ),
        Err(refusal) => {
            let answer = refusal.number();
            (answer, format!("counts {answer} 9 9 9 9 9"))
        }
    }
}

/// The outputs and the room of a response; a summary draws them alike and takes the room.
struct Lists {
    r: Vec<i64>,
    means: Vec<i32>,
    wide: Vec<i64>,
    tags: Vec<u32>,
}

impl Lists {
    fn drawn(rng: &mut Rng, p: usize) -> Lists {
        Lists {
            r: filled(near(rng, p)),
            means: filled(near(rng, p)),
            wide: filled(near(rng, p + 1)),
            tags: filled(near_tags(rng, p)),
        }
    }

    /// The answer of a response, and what it leaves in every list.
    fn response(&mut self, held: &Held) -> (u8, String) {
        let room = &mut Room {
            wide: &mut self.wide,
            tags: &mut self.tags,
        };
        let (r, means) = (&mut self.r, &mut self.means);
        let record = held.record();
        let answer = number(&record.and_then(|c| c.response(&held.lent, r, means, room)));
        let outputs = format!("{} {}", digest_of(&self.r), digest_of(&self.means));
        (
            answer,
            format!("{answer} {outputs} {}", self.room_digests()),
        )
    }

    fn room_digests(&self) -> String {
        format!("{} {}", digest_of(&self.wide), digest_of(&self.tags))
    }
}

/// A response; where it is accepted, the same of the record in the other edition, into the same lists.
fn response_lines(held: &Held, rng: &mut Rng, lines: &mut Vec<String>) -> (u8, String) {
    let mut lists = Lists::drawn(rng, period_of(held.order));
    let (answer, told) = lists.response(held);
    let line = format!("response {told}");
    if answer != 0 {
        return (answer, line);
    }
    lines.push(line);
    let other = Held {
        edition: held.other_edition(),
        ..held.clone()
    };
    let (answer, told) = lists.response(&other);
    (answer, format!("other edition {told}"))
}

fn summary_line(held: &Held, rng: &mut Rng) -> (u8, String) {
    let mut lists = Lists::drawn(rng, period_of(held.order));
    let room = &mut Room {
        wide: &mut lists.wide,
        tags: &mut lists.tags,
    };
    let found = match held.record() {
        Ok(c) => c.summary(&held.lent, room),
        Err(refusal) => Summary::Refused(refusal),
    };
    let (answer, stands, levels) = match found {
        Summary::NothingStands => (0, 0, [9.0; 3]),
        Summary::Levels(l) => (0, 1, [l.highest, l.lowest, l.at_peak]),
        Summary::Refused(refusal) => (refusal.number(), 9, [9.0; 3]),
    };
    let [high, low, peak] = levels.map(f64::to_bits);
    let room = lists.room_digests();
    let line = format!("summary {answer} {stands} {high} {low} {peak} {room}");
    (answer, line)
}
