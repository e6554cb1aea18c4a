//! The order of checks in a campaign of one slot, at order 2 and taps 3. `door/order.c` makes the same calls through the C door.

use crate::campaign::{Lent, DAYS, MOST_SLOTS, NO_PERIODS};
use crate::door::with_period;
use crate::door_held::{told, Held};
use crate::door_judging::shown_by;
use crate::edition::FIRST;
use crate::entering::Verdict;
use crate::night::{Night, MOST_PERIODS};
use crate::order::{line, NEAR_EDITIONS, P, ROOM, TAGS};
use crate::order_filing;
use crate::order_shapes::{beyond, one, plain, two, Shape, BEYOND, KEPT, WHOLE};
use crate::reading::Summary;
use crate::refusal::number;
use crate::response::{HIGHEST, LOWEST};
use crate::room::Room;

/// A run-in and two periods.
const SUMS_TO_ZEROS: [i32; 3 * P] = [0, 0, 0, KEPT, 0, 0, -KEPT, 0, 0];

/// What is wrong with a record that does not hold together. Those from `NoPeriods` to `BeyondItsPeriods` are of a used slot, and that of
/// `NoPeriodsOfZeros` holds zeros, as a free one does.
#[derive(Clone, Copy, PartialEq, Eq, PartialOrd, Ord)]
pub enum Damage {
    Whole,
    Sum,
    FreePeriods,
    PastCPeriods,
    NoPeriods,
    NoPeriodsOfZeros,
    ManyPeriods,
    BeyondItsPeriods,
    ShortDays,
    ShortSlots,
    ShortPeriods,
    EditionBelow,
    EditionAbove,
}

impl Damage {
    pub const ALL: [Damage; 12] = [
        Damage::Sum,
        Damage::FreePeriods,
        Damage::PastCPeriods,
        Damage::NoPeriods,
        Damage::NoPeriodsOfZeros,
        Damage::ManyPeriods,
        Damage::BeyondItsPeriods,
        Damage::ShortDays,
        Damage::ShortSlots,
        Damage::ShortPeriods,
        Damage::EditionBelow,
        Damage::EditionAbove,
    ];

    pub fn stands(self) -> bool {
        (Damage::NoPeriods..=Damage::BeyondItsPeriods).contains(&self)
    }

    fn strike(self, held: &mut Held) {
        match self {
            Damage::Whole => {}
            Damage::Sum => held.lent.sums[0] += 1,
            Damage::FreePeriods => held.periods[0] = 1,
            Damage::PastCPeriods => held.periods[MOST_SLOTS - 1] = 1,
            Damage::NoPeriods | Damage::NoPeriodsOfZeros => held.periods[0] = NO_PERIODS,
            Damage::ManyPeriods => held.periods[0] = MOST_PERIODS as u8 + 1,
            Damage::BeyondItsPeriods => {
                held.lent.store[0] = HIGHEST;
                held.lent.sums[0] = i64::from(HIGHEST);
            }
            Damage::ShortDays => held.days.truncate(DAYS - 1),
            Damage::ShortSlots => held.slots.truncate(MOST_SLOTS - 1),
            Damage::ShortPeriods => held.periods.truncate(MOST_SLOTS - 1),
            Damage::EditionBelow => held.edition = NEAR_EDITIONS[0],
            Damage::EditionAbove => held.edition = NEAR_EDITIONS[1],
        }
    }
}

pub fn lines() -> Vec<String> {
    let mut lines = starts();
    lines.extend(enters());
    lines.extend(captures());
    lines.extend(order_filing::lines());
    for damage in Damage::ALL {
        let stands = damage.stands();
        lines.extend(before_10(damage, stands));
        lines.extend(asks(damage, stands, "15 before 6", "15 before 6"));
    }
    let (mut held, day) = (begun(Damage::Whole, false), 0);
    let answer = number(&held.withdraw(day));
    lines.push(line("withdraw", "10 before 13", answer));
    let nothing_stands = "6 before nothing stands";
    lines.extend(asks(Damage::Whole, false, "6 before 14", nothing_stands));
    lines
}

fn held(count: u32) -> Held {
    Held {
        order: 2,
        taps: 3,
        count,
        edition: FIRST,
        days: vec![0; DAYS],
        slots: vec![0; MOST_SLOTS],
        periods: vec![0; MOST_SLOTS],
        lent: Lent {
            store: vec![0; P],
            sums: vec![0; P],
        },
    }
}

/// A start; day 1 stands where asked, which uses the only slot; then the damage.
pub fn begun(damage: Damage, standing: bool) -> Held {
    let mut held = held(1);
    held.start().expect("it is accepted");
    if standing {
        let night = match damage {
            Damage::NoPeriodsOfZeros => Night::capture(2, &SUMS_TO_ZEROS),
            _ => Night::one_period(&[KEPT, 0, 0]),
        };
        held.enter(1, night);
    }
    damage.strike(&mut held);
    held
}

/// Each table too short, at a slot count that is none, at editions that are none, and alone.
fn starts() -> Vec<String> {
    let [below, above] = NEAR_EDITIONS;
    [
        ("9 before 6", 0, FIRST),
        ("24 before 6", 1, below),
        ("24 before 6", 1, above),
        ("6 alone", 1, FIRST),
    ]
    .into_iter()
    .flat_map(|(checks, count, edition)| started_short(checks, count, edition))
    .collect()
}

fn started_short(checks: &str, count: u32, edition: u32) -> [String; 3] {
    [Damage::ShortDays, Damage::ShortSlots, Damage::ShortPeriods].map(|damage| {
        let mut held = Held {
            edition,
            ..held(count)
        };
        damage.strike(&mut held);
        format!("start: {checks}: {}", with_period(&held.start()))
    })
}

/// The answer, and the state and value that the verdict gives, 9 and 9 where it gives none.
pub fn verdict_line(call: &str, checks: &str, verdict: Verdict) -> String {
    let (answer, state, value) = told(verdict);
    format!("{call}: {checks}: {answer} {state} {value}")
}

fn enter(checks: &str, standing: bool, day: u16, y: &[i32]) -> String {
    let verdict = begun(Damage::Whole, standing).enter(day, Night::one_period(y));
    verdict_line("enter", checks, verdict)
}

/// A dead input is still or dithers by a spread of 7; one that does so at a rail is overloaded.
fn enters() -> [String; 14] {
    let (still, dithers) = ([5; P], [5, -2, -2]);
    let upper = [HIGHEST, HIGHEST - 7, HIGHEST - 7];
    let lower = [LOWEST + 7, LOWEST, LOWEST];
    [
        enter("10 before 5", false, 0, &[KEPT, 0]),
        enter("5 before 7", false, 2, &[BEYOND, 0]),
        enter("7 before 11", true, 1, &[BEYOND, 0, 0]),
        enter("11 before the verdict", true, 1, &[HIGHEST, 0, 0]),
        enter("11 before the verdict", true, 1, &still),
        enter("11 before the verdict", true, 1, &dithers),
        enter("11 before 12", true, 1, &[KEPT, 0, 0]),
        enter("overloaded before dead", false, 2, &[HIGHEST; P]),
        enter("overloaded before dead", false, 2, &upper),
        enter("overloaded before dead", false, 2, &lower),
        enter("the verdict before 12", true, 2, &[HIGHEST, 0, 0]),
        enter("the verdict before 12", true, 2, &upper),
        enter("the verdict before 12", true, 2, &still),
        enter("the verdict before 12", true, 2, &dithers),
    ]
}

fn capture(checks: &str, standing: bool, day: u16, m: u32, shape: Shape) -> String {
    let samples = shape.samples();
    let night = Night::capture(m, &samples);
    let verdict = begun(Damage::Whole, standing).enter(day, night);
    verdict_line("capture", checks, verdict)
}

/// Those that are refused before the day's state is looked at.
fn refused_captures() -> [String; 14] {
    let last = Shape {
        last: BEYOND,
        ..WHOLE
    };
    [
        capture("10 before 18", false, 0, 0, plain(P)),
        capture("10 before 18", false, 367, 17, WHOLE),
        capture("10 before 18", false, 0, u32::MAX, WHOLE),
        capture("18 before 5", false, 2, 0, WHOLE),
        capture("18 before 5", false, 2, 17, WHOLE),
        capture("18 before 5", false, 2, 255, WHOLE),
        capture("18 before 5", false, 2, 256, plain(P)),
        capture("18 before 5", false, 2, u32::MAX, WHOLE),
        capture("5 before 7", false, 2, 1, beyond(P)),
        capture("5 before 7", false, 2, 1, beyond(2 * P - 1)),
        capture("5 before 7", false, 2, 1, beyond(2 * P + 1)),
        capture("5 before 7", false, 2, 2, beyond(2 * P)),
        capture("7 before 11", true, 1, 1, beyond(2 * P)),
        capture("7 before 11", true, 1, 1, last),
    ]
}

/// Those that are judged, or would be but for 11.
fn judged_captures() -> [String; 18] {
    let kept = one(KEPT, 0, 0);
    let (first, last) = (one(LOWEST, 0, 0), one(0, 0, HIGHEST));
    let (still, dithers) = (one(5, 5, 5), one(5, -2, -2));
    let (rail, near) = (HIGHEST, HIGHEST - 7);
    [
        capture("11 before the verdict", true, 1, 1, first),
        capture("11 before the verdict", true, 1, 1, still),
        capture("11 before the verdict", true, 1, 1, dithers),
        capture("11 before 12", true, 1, 1, kept),
        capture("overloaded before dead", false, 2, 1, one(near, near, rail)),
        capture("overloaded before dead", false, 2, 2, two(near, near, rail)),
        capture("the run-in is not judged", false, 2, 1, kept),
        capture("the run-in is not judged", false, 2, 1, still),
        capture("the run-in is not judged", false, 2, 2, two(5, -2, -2)),
        capture("the run-in is not counted", false, 2, 1, first),
        capture("the run-in is not counted", false, 2, 1, last),
        capture("the run-in is not counted", false, 2, 2, two(0, 0, HIGHEST)),
        capture("the verdict before 12", true, 2, 1, first),
        capture("the verdict before 12", true, 2, 2, two(0, 0, HIGHEST)),
        capture("the verdict before 12", true, 2, 1, still),
        capture("the verdict before 12", true, 2, 2, two(5, -2, -2)),
        capture("12 alone", true, 2, 1, kept),
        capture("12 alone", true, 2, 2, two(KEPT, 0, 0)),
    ]
}

fn captures() -> Vec<String> {
    let mut lines = refused_captures().to_vec();
    lines.extend(judged_captures());
    lines
}

/// Every call that names a day, on day 0.
fn before_10(damage: Damage, standing: bool) -> [String; 5] {
    let checks = "15 before 10";
    let mut held = begun(damage, standing);
    let samples = WHOLE.samples();
    let period = Night::one_period(&[KEPT, 0, 0]);
    let several = Night::capture(1, &samples);
    let dead = shown_by((3, 0));
    [
        verdict_line("enter", checks, held.enter(0, period)),
        verdict_line("capture", checks, held.enter(0, several)),
        verdict_line("file", checks, held.file(0, period, dead)),
        verdict_line("file capture", checks, held.file(0, several, dead)),
        line("withdraw", checks, number(&held.withdraw(0))),
    ]
}

/// Each of the lent lengths is one too short in its turn; a summary has no outputs but the room.
fn asks(
    damage: Damage,
    standing: bool,
    response_checks: &str,
    summary_checks: &str,
) -> Vec<String> {
    let held = begun(damage, standing);
    let too_short = [
        [P - 1, P, ROOM, TAGS],
        [P, P - 1, ROOM, TAGS],
        [P, P, ROOM - 1, TAGS],
        [P, P, ROOM, TAGS - 1],
    ];
    let responses =
        too_short.map(|lengths| line("response", response_checks, response(&held, lengths)));
    let summaries = [2, 3].map(|i| line("summary", summary_checks, summary(&held, too_short[i])));
    responses.into_iter().chain(summaries).collect()
}

fn response(held: &Held, [r, mean, wide, tags]: [usize; 4]) -> u8 {
    let room = &mut Room {
        wide: &mut vec![0; wide],
        tags: &mut vec![0; tags],
    };
    let (r, mean) = (&mut vec![0; r], &mut vec![0; mean]);
    let record = held.record();
    number(&record.and_then(|c| c.response(&held.lent, r, mean, room)))
}

fn summary(held: &Held, [_, _, wide, tags]: [usize; 4]) -> u8 {
    let room = &mut Room {
        wide: &mut vec![0; wide],
        tags: &mut vec![0; tags],
    };
    let record = match held.record() {
        Ok(record) => record,
        Err(refusal) => return refusal.number(),
    };
    match record.summary(&held.lent, room) {
        Summary::Refused(refusal) => refusal.number(),
        _ => 0,
    }
}
