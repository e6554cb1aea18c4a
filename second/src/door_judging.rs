//! Judging and filing as the C door has them, where a verdict is a pair of numbers, and random calls of both. `door/random.c` makes the
//! same calls.

use crate::campaign::DayState;
use crate::door::{any_order, any_taps, period_of, UNWRITTEN};
use crate::door_held::{told, Held, UNTOLD};
use crate::door_nights::{any_day, any_periods, capture, one_period};
use crate::judging::{judge, Judged, Judgement};
use crate::night::Night;
use crate::refusal::Refusal;
use crate::rng::Rng;

/// A state and a value.
pub type Pair = (usize, usize);

const STANDING: usize = DayState::Standing as usize;
const OVERLOADED: usize = DayState::Overloaded as usize;
const DEAD: usize = DayState::Dead as usize;

/// The caller's variables for the state and the value after a judgement.
pub fn pair_of(judged: Judged) -> Pair {
    match judged {
        Judged::Kept => (STANDING, 0),
        Judged::Overloaded { place } => (OVERLOADED, place),
        Judged::Dead => (DEAD, 0),
        Judged::Refused(_) => (UNTOLD, UNTOLD),
    }
}

/// The verdict that a pair is. One that is none counts as a refused verdict, which judging never gives where filing compares.
pub fn shown_by(pair: Pair) -> Judged {
    match pair {
        (STANDING, 0) => Judged::Kept,
        (OVERLOADED, place) => Judged::Overloaded { place },
        (DEAD, 0) => Judged::Dead,
        _ => Judged::Refused(Refusal::NotAsJudged),
    }
}

/// The answer, and what the caller's variables for the state, the value and the period hold after it.
pub fn judged_words(judgement: &Judgement) -> String {
    let answer = judgement.verdict.number();
    let (state, value) = pair_of(judgement.verdict);
    let period = judgement.period.unwrap_or(UNWRITTEN);
    format!("{answer} {state} {value} {period}")
}

// ---- the random calls

/// A drawn night: a capture where it has an m.
pub struct Drawn {
    m: Option<u32>,
    samples: Vec<i32>,
}

impl Drawn {
    pub fn one_period(rng: &mut Rng, p: usize) -> Drawn {
        let samples = one_period(rng, p);
        Drawn { m: None, samples }
    }

    pub fn capture(rng: &mut Rng, p: usize) -> Drawn {
        let m = any_periods(rng);
        let samples = capture(rng, m, p);
        Drawn {
            m: Some(m),
            samples,
        }
    }

    fn night(&self) -> Night<'_> {
        match self.m {
            None => Night::one_period(&self.samples),
            Some(m) => Night::capture(m, &self.samples),
        }
    }

    /// The call's name as its line has it.
    fn name(&self, call: &str) -> String {
        match self.m {
            None => call.to_string(),
            Some(_) => format!("{call} capture"),
        }
    }

    fn judge_line(&self, judgement: &Judgement) -> String {
        format!("{} {}", self.name("judge"), judged_words(judgement))
    }
}

/// A judgement alone, with no campaign about.
pub fn judge_case(rng: &mut Rng) -> Vec<String> {
    let order = any_order(rng);
    let taps = any_taps(rng, order);
    let p = period_of(order);
    let drawn = match rng.below(2) {
        0 => Drawn::one_period(rng, p),
        _ => Drawn::capture(rng, p),
    };
    vec![drawn.judge_line(&judge(order, taps, drawn.night()))]
}

/// A night judged, its line put to the others, and then filed with what was shown or with something else: the answer and its line.
pub fn judge_and_file(
    held: &mut Held,
    rng: &mut Rng,
    draw: fn(&mut Rng, usize) -> Drawn,
    lines: &mut Vec<String>,
) -> (u8, String) {
    let day = any_day(rng);
    let p = period_of(held.order);
    let drawn = draw(rng, p);
    let judgement = judge(held.order, held.taps, drawn.night());
    lines.push(drawn.judge_line(&judgement));
    let pair = any_pair(rng, pair_of(judgement.verdict), p);
    let (answer, state, value) = told(held.file(day, drawn.night(), shown_by(pair)));
    let (name, memory) = (drawn.name("file"), held.memory());
    let line = format!("{name} {answer} {state} {value} {memory}");
    (answer, line)
}

/// The pair handed in: half of them as judging left it.
fn any_pair(rng: &mut Rng, (state, value): Pair, p: usize) -> Pair {
    match rng.below(8) {
        0..=3 => (state, value),
        4 => (rng.below(6), value),
        5 => (state, value + 1),
        6 => {
            let any_state = rng.below(6);
            (any_state, rng.below(p))
        }
        _ => (state, rng.below(p)),
    }
}
