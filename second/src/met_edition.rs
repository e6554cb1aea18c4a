//! Names for what a log met of the editions of request 9 of 02.

use crate::campaign::{Campaign, DayState};
use crate::edition::{mean, Edition, FIRST};
use crate::record::{Record, EDITION};
use crate::refusal::{number, Refusal};
use crate::run::After;

/// The answer to an edition, by its number.
pub fn edition<T>(edition: u32, answer: &Result<T, Refusal>) -> String {
    let class = match edition {
        4..=254 => "4 to 254".to_string(),
        _ => edition.to_string(),
    };
    format!("edition: {} of {class}", number(answer))
}

/// What stands behind a start or an edition: the end, kind 8 or another. Behind a refused one it is not looked at.
pub fn behind(record: Record, after: &After, rest: &[u8]) -> Option<String> {
    let word = match record {
        Record::Start { .. } => "start",
        Record::Edition(_) => "edition",
        _ => return None,
    };
    let next = match rest.first() {
        None => "the end",
        Some(&EDITION) => "kind 8",
        Some(_) => "other",
    };
    Some(match after {
        After::Stop => format!("behind: {next} after a refused {word}"),
        After::GoOn => format!("behind: {next} after an accepted {word}"),
    })
}

/// An ask by the edition, and the exact halves of its response.
pub fn asked(answer: u8, asked: &Campaign, named: bool, r: &[i64]) -> Vec<String> {
    let edition = match (asked.edition, named) {
        (FIRST, true) => "1 named".to_string(),
        (edition, _) => edition.to_string(),
    };
    let mut names = vec![format!("asked: {answer} in {edition}")];
    if answer == 0 {
        let met = halves(asked, r);
        names.extend(met.map(|name| format!("halves: {name} in {edition}")));
    }
    names
}

/// On either side of zero, and whether the two editions take the same neighbour; where they do not, what else is true of the campaign.
fn halves(asked: &Campaign, r: &[i64]) -> impl Iterator<Item = &'static str> {
    let divisor = asked.divisor();
    let half = |r: i64| 2 * r % divisor == 0 && r % divisor != 0;
    let apart = |r: i64| mean(Edition::First, r, divisor) != mean(Edition::Second, r, divisor);
    let any = |wanted: &dyn Fn(i64) -> bool| r.iter().any(|&r| half(r) && wanted(r));
    let any_apart = any(&apart);
    let several = asked.periods_standing() > asked.days_in(DayState::Standing) as i64;
    let withdrawn = asked.days_in(DayState::Withdrawn) > 0;
    [
        (any(&|r| r > 0 && apart(r)), "above 0 apart"),
        (any(&|r| r > 0 && !apart(r)), "above 0 alike"),
        (any(&|r| r < 0 && apart(r)), "below 0 apart"),
        (any(&|r| r < 0 && !apart(r)), "below 0 alike"),
        (!any(&|_| true), "none"),
        (several && any_apart, "of several periods apart"),
        (withdrawn && any_apart, "after a withdrawal apart"),
    ]
    .into_iter()
    .filter_map(|(met, name)| met.then_some(name))
}
