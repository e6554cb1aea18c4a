//! Names for what a capture met at its entry.

use crate::campaign::{check_day, Campaign, DayState};
use crate::edge::KEPT_SPREAD;
use crate::entering::Verdict;
use crate::holding::{highest_sum, lowest_sum};
use crate::judging::{at_a_rail, spread, verdict_on, Judged, DEAD_SPREAD};
use crate::met::state_word;
use crate::night::summed;
use crate::open_day::OpenDay;
use crate::refusal::Refusal;

/// Names, each with whether it was met.
type Found = Vec<(bool, String)>;

fn found<const N: usize>(names: [(bool, &str); N]) -> Found {
    names.map(|(met, name)| (met, name.to_string())).to_vec()
}

/// The answer by the number of periods, what else was true when it was given, and an accepted verdict by its samples.
pub fn names(before: &Campaign, open: &OpenDay, m: u8, verdict: Verdict) -> Vec<String> {
    let answer = match verdict {
        Verdict::Refused(refusal) => refusal.number().to_string(),
        _ => verdict.word().to_string(),
    };
    let at_entry = match verdict {
        Verdict::Refused(Refusal::WrongLength) => too_short(before, open, m),
        Verdict::Refused(Refusal::AlreadyStanding) => standing_already(before, open),
        Verdict::Refused(Refusal::AllSlotsUsed) => no_slot(before, open),
        Verdict::Refused(_) => refused(before, open),
        _ => accepted(before, open),
    };
    let by_samples = match verdict.number() {
        0 => by_samples(open, before.p(), verdict),
        _ => vec![],
    };
    let met = |found: Found| {
        found
            .into_iter()
            .filter_map(|(met, name)| met.then_some(name))
    };
    let mut names = vec![format!(
        "periods: {} {answer}{}",
        class(m),
        counted(before, open, verdict)
    )];
    names.extend(met(at_entry).map(|name| format!("capture: {answer} {name}")));
    names.extend(met(by_samples));
    names
}

/// The numbers of periods that stand beside a limit have a name of their own.
fn class(m: u8) -> String {
    match m {
        0..=5 | 16 | 17 | 255 => format!("m {m}"),
        6..=15 => "m 6 to 15".to_string(),
        18..=254 => "m 18 to 254".to_string(),
    }
}

/// A capture that the program only counts is refused alike whether all of it came or not.
fn counted(before: &Campaign, open: &OpenDay, verdict: Verdict) -> &'static str {
    use Refusal::{PeriodsOutOfRange, ProgramLimit};
    let whole = open.count == open.opened.limit(before.p());
    match verdict {
        Verdict::Refused(PeriodsOutOfRange | ProgramLimit) if whole => " whole",
        _ => "",
    }
}

fn stands(before: &Campaign, day: u16) -> bool {
    check_day(day).is_ok() && before.state(day) == DayState::Standing
}

fn full(before: &Campaign) -> bool {
    before.days_in(DayState::Standing) == before.slots as usize
}

/// By how many samples came of those that a capture has.
fn too_short(before: &Campaign, open: &OpenDay, m: u8) -> Found {
    let p = before.p();
    let without_run_in = usize::from(m) * p;
    found([
        (open.count == 0, "with none"),
        (open.count == p, "with the run-in alone"),
        (m > 1 && open.count == without_run_in, "with m periods"),
        (open.count + 1 == open.opened.limit(p), "with one too few"),
        (stands(before, open.day), "and standing"),
    ])
}

/// By the verdict that comes too late.
fn standing_already(before: &Campaign, open: &OpenDay) -> Found {
    let late = verdict_on(&open.samples[before.p()..]);
    let at_a_rail = matches!(late, Judged::Overloaded { .. });
    found([
        (late == Judged::Kept, "and kept"),
        (at_a_rail, "and at a rail"),
        (late == Judged::Dead, "and dead"),
    ])
}

/// By how near the night came to being dead, which would have needed no slot.
fn no_slot(before: &Campaign, open: &OpenDay) -> Found {
    let barely = spread(&open.samples[before.p()..]) == KEPT_SPREAD;
    found([(barely, "at 8"), (!barely, "above 8")])
}

fn refused(before: &Campaign, open: &OpenDay) -> Found {
    let whole = open.count == open.opened.limit(before.p());
    found([
        (whole, "and whole"),
        (!whole, "and short"),
        (stands(before, open.day), "and standing"),
        (full(before), "when full"),
    ])
}

fn accepted(before: &Campaign, open: &OpenDay) -> Found {
    let state = state_word(before.state(open.day));
    vec![
        (true, format!("on {state}")),
        (full(before), "when full".to_string()),
    ]
}

fn by_samples(open: &OpenDay, p: usize, verdict: Verdict) -> Found {
    let (run_in, judged) = open.samples.split_at(p);
    let mut names = by_run_in(run_in, verdict.word());
    let several = judged.len() > p;
    names.extend(match verdict {
        Verdict::Overloaded { place } => by_place(place, judged, p),
        Verdict::Dead if several => together_dead(judged, p),
        Verdict::Kept { .. } if several => together_kept(judged, p),
        _ => vec![],
    });
    names
}

/// One who judges the run-in finds the first of these overloaded, and the second not dead.
fn by_run_in(run_in: &[i32], word: &str) -> Found {
    let rail = run_in.iter().any(at_a_rail);
    let still = spread(run_in) <= DEAD_SPREAD;
    vec![
        (rail, format!("run-in: {word} behind a rail")),
        (!rail && !still, format!("run-in: {word} behind a spread")),
        (!rail && still, format!("run-in: {word} behind a still one")),
    ]
}

fn by_place(place: usize, judged: &[i32], p: usize) -> Found {
    let more = judged[place + 1..].iter().any(at_a_rail);
    found([
        (place == 0, "place: first"),
        (place == judged.len() - 1, "place: last"),
        (place >= p, "place: in a later period"),
        (more, "place: before another rail"),
    ])
}

/// The spread is of all samples, not of what they sum to.
fn together_dead(judged: &[i32], p: usize) -> Found {
    let summed_apart = spread(&summed(judged, p)) > DEAD_SPREAD;
    found([
        (spread(judged) == DEAD_SPREAD, "together: dead at 7"),
        (summed_apart, "together: dead though summed apart"),
    ])
}

/// Nor is it of one period alone, or of all but one.
fn together_kept(judged: &[i32], p: usize) -> Found {
    let still = |samples: &[i32]| spread(samples) <= DEAD_SPREAD;
    let sums = summed(judged, p);
    let m = (judged.len() / p) as u8;
    found([
        (spread(judged) == KEPT_SPREAD, "together: kept at 8"),
        (still(&sums), "together: kept though summed still"),
        (
            sums.iter().all(|&sum| sum == 0),
            "together: kept though summed to zeros",
        ),
        (
            judged.chunks(p).all(still),
            "together: kept though each is still",
        ),
        (still(&judged[p..]), "together: kept by the first period"),
        (
            still(&judged[..judged.len() - p]),
            "together: kept by the last period",
        ),
        (
            sums.contains(&lowest_sum(m)),
            "together: kept at the lower bound",
        ),
        (
            sums.contains(&highest_sum(m)),
            "together: kept at the upper bound",
        ),
    ])
}
