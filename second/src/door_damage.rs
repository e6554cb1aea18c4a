//! Damage to what the door's caller holds, and its mending. `door/random.c` does the same.

use crate::campaign::{FREE, NO_PERIODS};
use crate::door::period_of;
use crate::door_held::Held;
use crate::holding::{highest_sum, lowest_sum};
use crate::night::MOST_PERIODS;
use crate::rng::Rng;

/// Where damage strikes, one place of each list.
#[derive(Clone, Copy)]
struct Places {
    day: usize,
    slot: usize,
    period: usize,
    sample: usize,
    sum: usize,
}

/// Where damage struck, and what stood there.
pub struct Damage {
    places: Places,
    day_was: u8,
    slot_was: u16,
    period_was: u8,
    sample_was: i32,
    sum_was: i64,
    count_was: u32,
    edition_was: u32,
}

/// Those from `TO_AN_EDGE` to `TO_ONE_PERIOD` strike a used slot; `IN_THE_FIRST_C` strikes one of the first C, which may be free.
const TO_AN_EDGE: usize = 5;
const TO_NO_PERIODS: usize = 6;
const TO_TOO_MANY: usize = 7;
const TO_ONE_PERIOD: usize = 8;
const ANY_PERIODS: usize = 9;
const IN_THE_FIRST_C: usize = 10;
/// This one leaves a record that holds together.
const OTHER_EDITION: usize = 11;
const NO_EDITION: usize = 12;
/// So many kinds of damage there are; this one is none at all.
const KINDS: usize = 13;

/// The lowest byte of the third is that of an edition.
const NO_EDITIONS: [u32; 4] = [0, 3, 258, u32::MAX];

impl Held {
    /// The first used slot from `slot` on that the periods reach, going round.
    fn used_slot(&self, slot: usize) -> Option<usize> {
        let n = self.slots.len();
        (0..n)
            .map(|i| (slot + i) % n)
            .find(|&s| self.slots[s] != FREE && s < self.periods.len())
    }

    /// A drawn place of each list; where the kind strikes a used slot, its places. The search for one begins in the first C, so that each
    /// used slot is struck.
    fn places(&self, rng: &mut Rng, kind: usize) -> Places {
        let mut places = Places {
            day: rng.below(self.days.len()),
            slot: rng.below(self.slots.len()),
            period: rng.below(self.periods.len()),
            sample: rng.below(self.lent.store.len()),
            sum: rng.below(self.lent.sums.len()),
        };
        let first_c = self.count.max(1) as usize;
        let used = self.used_slot(places.slot % first_c);
        if let (TO_AN_EDGE..=TO_ONE_PERIOD, Some(used)) = (kind, used) {
            places.period = used;
            let sample = used * period_of(self.order) + places.sum;
            if sample < self.lent.store.len() {
                places.sample = sample;
            }
        }
        if kind == IN_THE_FIRST_C {
            places.period %= first_c;
        }
        places
    }

    /// One call in five meets damage.
    pub fn damage(&mut self, rng: &mut Rng) -> Damage {
        let kind = if rng.once_in(5) {
            rng.below(KINDS)
        } else {
            KINDS
        };
        let places = self.places(rng, kind);
        let edge = rng.below(4);
        let damage = self.standing_at(places);
        match kind {
            0 => self.days[places.day] += 1,
            1 => self.slots[places.slot] ^= 1,
            2 => self.lent.store[places.sample] += 1,
            3 => self.lent.sums[places.sum] -= 1,
            4 => self.count += 1,
            TO_AN_EDGE => self.move_to_edge(places, edge),
            TO_NO_PERIODS => self.periods[places.period] = NO_PERIODS,
            TO_TOO_MANY => self.periods[places.period] = MOST_PERIODS as u8 + 1,
            TO_ONE_PERIOD => self.periods[places.period] = 1,
            ANY_PERIODS | IN_THE_FIRST_C => self.periods[places.period] += 1,
            OTHER_EDITION => self.edition = self.other_edition(),
            NO_EDITION => self.edition = NO_EDITIONS[edge],
            _ => {}
        }
        damage
    }

    /// A stored number moves to the lowest or the highest that its periods allow, or one beyond, and the sum of its place with it, so that
    /// only the slot itself tells.
    fn move_to_edge(&mut self, places: Places, edge: usize) {
        let m = self.periods[places.period];
        let edges = [
            lowest_sum(m),
            lowest_sum(m) - 1,
            highest_sum(m),
            highest_sum(m) + 1,
        ];
        let moved = i64::from(edges[edge]) - i64::from(self.lent.store[places.sample]);
        self.lent.store[places.sample] = edges[edge];
        self.lent.sums[places.sum] += moved;
    }

    fn standing_at(&self, places: Places) -> Damage {
        Damage {
            places,
            day_was: self.days[places.day],
            slot_was: self.slots[places.slot],
            period_was: self.periods[places.period],
            sample_was: self.lent.store[places.sample],
            sum_was: self.lent.sums[places.sum],
            count_was: self.count,
            edition_was: self.edition,
        }
    }

    pub fn mend(&mut self, damage: &Damage) {
        let places = damage.places;
        self.days[places.day] = damage.day_was;
        self.slots[places.slot] = damage.slot_was;
        self.periods[places.period] = damage.period_was;
        self.lent.store[places.sample] = damage.sample_was;
        self.lent.sums[places.sum] = damage.sum_was;
        self.count = damage.count_was;
        self.edition = damage.edition_was;
    }
}
