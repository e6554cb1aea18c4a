//! The calls of the year on one campaign and its memory, each with the line that it prints.

use crate::campaign::{self, Campaign, Lent};
use crate::edition::FIRST;
use crate::entering::Entry;
use crate::night::Night;
use crate::player::Player;
use crate::reading::Summary;
use crate::refusal::{number, Refusal};
use crate::response::predict;
use crate::room::Room;
use crate::year_memory::{digest_of, Lengths, Memory, STORE, SUMS};

/// What a start in the first edition is asked for, and how much of the store and of the sums it is lent.
#[derive(Clone, Copy)]
pub struct Start {
    pub order: u32,
    pub taps: u32,
    pub slots: u32,
    pub store: usize,
    pub sums: usize,
}

impl Start {
    pub fn with_whole_memory(order: u32, taps: u32, slots: u32) -> Start {
        Start {
            order,
            taps,
            slots,
            store: STORE,
            sums: SUMS,
        }
    }

    fn call(&self, lent: &mut Lent) -> Result<Campaign, Refusal> {
        campaign::start(
            self.order,
            self.taps,
            self.slots,
            FIRST,
            &mut lent.store[..self.store],
            &mut lent.sums[..self.sums],
        )
    }
}

/// An entry's answer, its verdict's word, and the slot or the place.
fn told(entry: &Entry) -> String {
    let verdict = entry.verdict;
    format!(
        "{} {} {}",
        verdict.number(),
        verdict.word(),
        verdict.value()
    )
}

#[derive(Clone, Debug)]
pub struct Calls {
    pub campaign: Campaign,
    pub memory: Memory,
    pub lines: Vec<String>,
}

impl Calls {
    /// An accepted start on fresh memory.
    pub fn begin(asked: &Start) -> Calls {
        let mut memory = Memory::fresh();
        let started = asked.call(&mut memory.lent);
        let lines = vec![format!("start {}", number(&started))];
        Calls {
            campaign: started.expect("the year's campaigns have accepted starts"),
            memory,
            lines,
        }
    }

    pub fn start(&mut self, asked: &Start) {
        let started = asked.call(&mut self.memory.lent);
        self.lines.push(format!("start {}", number(&started)));
        if let Ok(campaign) = started {
            self.campaign = campaign;
        }
    }

    /// Enters the first `length` samples of the recording at hand as one period.
    pub fn enter(&mut self, day: u16, length: usize) {
        let night = Night::one_period(&self.memory.recording[..length]);
        let entry = self.campaign.enter(&mut self.memory.lent, day, night);
        let told = told(&entry);
        self.lines.push(format!("enter {} {told}", entry.day));
    }

    /// Enters them as a capture of m.
    pub fn capture(&mut self, day: u16, m: u32, length: usize) {
        let night = Night::capture(m, &self.memory.recording[..length]);
        let entry = self.campaign.enter(&mut self.memory.lent, day, night);
        let told = told(&entry);
        self.lines.push(format!("capture {} {m} {told}", entry.day));
    }

    pub fn withdraw(&mut self, day: u16) {
        let answer = number(&self.campaign.withdraw(&mut self.memory.lent, day));
        self.lines.push(format!("withdraw {day} {answer}"));
    }

    pub fn counts(&mut self) {
        let line = match self.campaign.counts(&self.memory.lent) {
            Ok(c) => format!(
                "counts 0 {} {} {} {} {}",
                c.unseen, c.standing, c.overloaded, c.dead, c.withdrawn
            ),
            Err(refusal) => format!("counts {} 0 0 0 0 0", refusal.number()),
        };
        self.lines.push(line);
    }

    pub fn response(&mut self, lengths: Lengths) {
        let memory = &mut self.memory;
        let answer = number(&self.campaign.response(
            &memory.lent,
            &mut memory.r[..lengths.r],
            &mut memory.means[..lengths.means],
            &mut Room {
                wide: &mut memory.wide[..lengths.wide],
                tags: &mut memory.tags[..lengths.tags],
            },
        ));
        let (r, means) = (digest_of(&memory.r), digest_of(&memory.means));
        let line = format!("response {answer} {r} {means} {}", self.room_digests());
        self.lines.push(line);
    }

    pub fn summary(&mut self, lengths: Lengths) {
        let memory = &mut self.memory;
        let mut room = Room {
            wide: &mut memory.wide[..lengths.wide],
            tags: &mut memory.tags[..lengths.tags],
        };
        let told = match self.campaign.summary(&memory.lent, &mut room) {
            Summary::NothingStands => "nothing".to_string(),
            Summary::Levels(levels) => {
                let [highest, lowest, at_peak] =
                    [levels.highest, levels.lowest, levels.at_peak].map(f64::to_bits);
                format!("0 {highest} {lowest} {at_peak}")
            }
            Summary::Refused(refusal) => format!("{} 0 0 0", refusal.number()),
        };
        let line = format!("summary {told} {}", self.room_digests());
        self.lines.push(line);
    }

    fn room_digests(&self) -> String {
        let (wide, tags) = (digest_of(&self.memory.wide), digest_of(&self.memory.tags));
        format!("{wide} {tags}")
    }

    pub fn memory(&mut self) {
        let Lent { store, sums } = &self.memory.lent;
        let line = format!("memory {} {}", digest_of(store), digest_of(sums));
        self.lines.push(line);
    }

    /// Predicts at the campaign's order and taps into the room for a recording.
    pub fn predict(&mut self, h: &[i32]) {
        let Campaign { order, taps, .. } = self.campaign;
        let answer = number(&predict(order, taps, h, &mut self.memory.recording));
        self.lines.push(format!("predict {answer}"));
    }

    /// Steps a player of the campaign's order and taps.
    pub fn step(&mut self, window: u32) {
        let mut player = Player {
            order: self.campaign.order,
            taps: self.campaign.taps,
            window,
            count: 0,
        };
        self.lines.push(format!("step {}", number(&player.step())));
    }
}
