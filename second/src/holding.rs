//! When a record holds together with the memory lent to it.

use crate::campaign::{Campaign, DayState, Lent, DAYS, FREE, MOST_SLOTS, NO_PERIODS};
use crate::edition::check_edition;
use crate::night::check_periods;
use crate::register::{check_taps, period};
use crate::response::{HIGHEST, LOWEST};

/// Every day state is one of the five by its type; the rest is looked at here.
pub fn holds_together(campaign: &Campaign, lent: &Lent) -> bool {
    if check_taps(campaign.order, campaign.taps).is_err()
        || check_edition(campaign.edition).is_err()
    {
        return false;
    }
    let slots = campaign.slots as usize;
    if !(1..=MOST_SLOTS).contains(&slots) {
        return false;
    }
    let p = period(campaign.order);
    lent.store.len() >= slots * p
        && lent.sums.len() >= p
        && campaign.table[slots..].iter().all(|&day| day == FREE)
        && slots_and_days_agree(campaign)
        && slots_and_periods_agree(campaign)
        && slots_hold_what_they_should(campaign, lent)
        && sums_are_totals(campaign, lent)
}

/// Each used slot names a standing day, each standing day has exactly one slot.
fn slots_and_days_agree(campaign: &Campaign) -> bool {
    let used = || campaign.table.iter().filter(|&&day| day != FREE);
    let names_a_standing_day =
        |&day: &u16| day as usize <= DAYS && campaign.state(day) == DayState::Standing;
    let slots_of = |day: usize| used().filter(|&&d| d as usize == day).count();
    used().all(names_a_standing_day)
        && (1..=DAYS)
            .filter(|&day| campaign.days[day - 1] == DayState::Standing)
            .all(|day| slots_of(day) == 1)
}

/// Each used slot's night had 1 to 16 periods; a slot without a night has none, past C as well.
fn slots_and_periods_agree(campaign: &Campaign) -> bool {
    let slots = campaign.table.iter().zip(&campaign.periods);
    slots.into_iter().all(|(&day, &m)| match day {
        FREE => m == NO_PERIODS,
        _ => check_periods(u32::from(m)).is_ok(),
    })
}

/// A used slot holds what m periods strictly between the rails can sum to; free slots hold zeros.
fn slots_hold_what_they_should(campaign: &Campaign, lent: &Lent) -> bool {
    let slots = lent
        .store
        .chunks(campaign.p())
        .take(campaign.slots as usize);
    // A free slot has no periods, so that both of its bounds are 0.
    campaign.periods.iter().zip(slots).all(|(&m, sums)| {
        let bounds = lowest_sum(m)..=highest_sum(m);
        sums.iter().all(|v| bounds.contains(v))
    })
}

/// The lowest that m samples can sum to which stand strictly between the rails.
pub fn lowest_sum(m: u8) -> i32 {
    (LOWEST + 1) * i32::from(m)
}

/// The highest likewise.
pub fn highest_sum(m: u8) -> i32 {
    (HIGHEST - 1) * i32::from(m)
}

/// Each sum is the total of the used slots at its place.
fn sums_are_totals(campaign: &Campaign, lent: &Lent) -> bool {
    let p = campaign.p();
    let used = || (0..campaign.slots as usize).filter(|&s| campaign.table[s] != FREE);
    (0..p).all(|place| {
        let total: i64 = used()
            .map(|slot| i64::from(lent.store[slot * p + place]))
            .sum();
        lent.sums[place] == total
    })
}
