//! Names for what a log met, so that a comparison can show what it covered.

use crate::campaign::{check_day, Campaign, DayState};
use crate::edge::{self, KEPT_SPREAD};
use crate::entering::Verdict;
use crate::judging::{spread, verdict_on, Judged};
use crate::met_capture;
use crate::open_day::{OpenDay, Opened, PROGRAM_PERIODS};
use crate::refusal::{number, Refusal};
use crate::run::{PROGRAM_ORDER, PROGRAM_SLOTS};
use crate::short::Short;

/// The most periods that can stand in the program: each slot with as many as it takes.
const MOST_IN_PROGRAM: i64 = PROGRAM_SLOTS as i64 * PROGRAM_PERIODS as i64;

/// A start's answer, whether it was given at the edge of its rule, and the kind of a register that is not maximal.
pub fn start<T>(order: u32, taps: u32, slots: u32, answer: &Result<T, Refusal>) -> String {
    let circumstance = match answer {
        Ok(_) => format!(" order {order}"),
        Err(refusal) => refused_start(order, taps, slots, *refusal),
    };
    format!("start: {}{circumstance}", number(answer))
}

fn refused_start(order: u32, taps: u32, slots: u32, refusal: Refusal) -> String {
    use Refusal::*;
    match refusal {
        OrderOutOfRange if order < 2 => " below".to_string(),
        OrderOutOfRange => " above".to_string(),
        TapsNotBelow if taps == 1 << order => " just".to_string(),
        NotMaximal { first_return } => format!(" {}", Short::of(order, first_return).words()),
        SlotCount if slots == 0 || slots == 65 => format!(" at {slots} slots"),
        ProgramLimit if order > PROGRAM_ORDER && slots > PROGRAM_SLOTS => " for both".to_string(),
        ProgramLimit if order > 10 => " for the order".to_string(),
        ProgramLimit if order == 10 => " at order 10".to_string(),
        ProgramLimit if slots == 9 || slots == 64 => format!(" at {slots} slots"),
        ProgramLimit => " for the slots".to_string(),
        _ => String::new(),
    }
}

pub fn enter(before: &Campaign, open: &OpenDay, verdict: Verdict) -> Vec<String> {
    match open.opened {
        Opened::OnePeriod => one_period(before, &open.samples, open.day, verdict),
        Opened::Capture { m } => met_capture::names(before, open, m, verdict),
    }
}

/// An entry's answer, what else was true of the day when it was given, and an accepted verdict by its spread.
fn one_period(before: &Campaign, samples: &[i32], day: u16, verdict: Verdict) -> Vec<String> {
    let short = samples.len() < before.p();
    let standing = check_day(day).is_ok() && before.state(day) == DayState::Standing;
    let full = before.days_in(DayState::Standing) == before.slots as usize;
    let word = verdict.word();
    let names = match verdict {
        Verdict::Refused(Refusal::DayOutOfRange) if short => vec!["10 and short".to_string()],
        Verdict::Refused(Refusal::WrongLength) if standing => vec!["5 and standing".to_string()],
        Verdict::Refused(Refusal::AlreadyStanding) => match verdict_on(samples) {
            Judged::Overloaded { .. } => vec!["11 and at a rail".to_string()],
            Judged::Dead => vec!["11 and dead".to_string()],
            _ => vec!["11".to_string()],
        },
        Verdict::Refused(Refusal::AllSlotsUsed) if spread(samples) == KEPT_SPREAD => {
            vec![format!("12 at {KEPT_SPREAD}")]
        }
        Verdict::Refused(refusal) => vec![refusal.number().to_string()],
        _ if full => vec![on_state(word, before, day), format!("{word} when full")],
        _ => vec![on_state(word, before, day)],
    };
    let mut names: Vec<String> = names.iter().map(|name| format!("enter: {name}")).collect();
    if verdict.number() == 0 {
        names.extend(edge::names(samples, verdict));
    }
    names
}

/// Why the end of the input inside an open day is bad.
pub fn end(opened: Opened) -> &'static str {
    match opened {
        Opened::OnePeriod => "end in open day",
        Opened::Capture { .. } => "end in open capture",
    }
}

/// Why a sample beyond an open day's limit is bad.
pub fn beyond(opened: Opened) -> String {
    match opened {
        Opened::OnePeriod => "beyond P".to_string(),
        Opened::Capture { m: 0 } => "beyond m 0".to_string(),
        Opened::Capture { m: 1..=4 } => "beyond m 1 to 4".to_string(),
        Opened::Capture { m: 5..=16 } => "beyond m 5 to 16".to_string(),
        Opened::Capture { m: 17..=254 } => "beyond m 17 to 254".to_string(),
        Opened::Capture { m: 255 } => "beyond m 255".to_string(),
    }
}

fn on_state(word: &str, before: &Campaign, day: u16) -> String {
    format!("{word} on {}", state_word(before.state(day)))
}

pub fn withdraw(before: &Campaign, day: u16, answer: &Result<(), Refusal>) -> String {
    match answer {
        Err(Refusal::NotStanding) => format!("withdraw: 13 {}", state_word(before.state(day))),
        Ok(()) => format!("withdraw: 0 of {}", periods_word(before, day)),
        Err(_) => format!("withdraw: {}", number(answer)),
    }
}

/// A response's answer, by how many days and periods stood, and whether a mean was a half of either sign.
pub fn response(answer: u8, asked: &Campaign, r: &[i64]) -> Vec<String> {
    if answer != 0 {
        return vec![format!("response: {answer}")];
    }
    let days = asked.days_in(DayState::Standing);
    let periods = asked.periods_standing();
    let divisor = asked.divisor();
    let half = |r: i64| 2 * r % divisor == 0 && r % divisor != 0;
    let half_up = r.iter().any(|&r| r > 0 && half(r));
    let half_down = r.iter().any(|&r| r < 0 && half(r));
    let several = periods > days as i64;
    let power_of_two = periods.count_ones() == 1;
    let found = [
        (half_up, "response: half up"),
        (half_down, "response: half down"),
        (several && half_up, "total: half up"),
        (several && half_down, "total: half down"),
        (!several, "total: as many as days"),
        (several && power_of_two, "total: a power of two"),
        (several && !power_of_two, "total: no power of two"),
        (periods == MOST_IN_PROGRAM, "total: the most"),
    ];
    let mut names = vec![format!("response: 0 of {days}")];
    names.extend(
        found
            .iter()
            .filter(|(met, _)| *met)
            .map(|(_, name)| name.to_string()),
    );
    names
}

/// Of a day that stands.
fn periods_word(before: &Campaign, day: u16) -> &'static str {
    let slot = before
        .slot_holding(day)
        .expect("a standing day has its slot");
    match before.periods[slot] {
        1 => "one period",
        _ => "several periods",
    }
}

pub fn state_word(state: DayState) -> &'static str {
    match state {
        DayState::Unseen => "unseen",
        DayState::Standing => "standing",
        DayState::Overloaded => "overloaded",
        DayState::Dead => "dead",
        DayState::Withdrawn => "withdrawn",
    }
}
