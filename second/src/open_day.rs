//! The log program's open day: how many samples it may have, which of them are kept, and what closing it answers.

use crate::campaign::{check_day, Campaign, Lent};
use crate::entering::Verdict;
use crate::judging::judge;
use crate::night::{capture_length, check_periods, Night};
use crate::refusal::Refusal;

/// The most periods that the program keeps the samples of.
pub const PROGRAM_PERIODS: u8 = 4;

/// What a day was opened for.
#[derive(Clone, Copy, Debug, PartialEq, Eq)]
pub enum Opened {
    OnePeriod,
    Capture { m: u8 },
}

impl Opened {
    /// How many samples may come.
    pub fn limit(self, p: usize) -> usize {
        match self {
            Opened::OnePeriod => p,
            Opened::Capture { m } => capture_length(usize::from(m), p),
        }
    }

    fn keeps_samples(self) -> bool {
        match self {
            Opened::OnePeriod => true,
            Opened::Capture { m } => (1..=PROGRAM_PERIODS).contains(&m),
        }
    }
}

pub struct OpenDay {
    pub day: u16,
    pub opened: Opened,
    /// How many samples have come.
    pub count: usize,
    /// Those that came, none of a capture that the program does not take.
    pub samples: Vec<i32>,
}

impl OpenDay {
    pub fn new(day: u16, opened: Opened) -> OpenDay {
        OpenDay {
            day,
            opened,
            count: 0,
            samples: Vec::new(),
        }
    }

    pub fn sample(&mut self, value: i32) {
        self.count += 1;
        if self.opened.keeps_samples() {
            self.samples.push(value);
        }
    }

    /// The verdict on what came, judged and then filed where the program takes so many periods.
    pub fn enter(&self, campaign: &mut Campaign, lent: &mut Lent) -> Verdict {
        let night = match self.opened {
            Opened::Capture { m } if !self.opened.keeps_samples() => {
                return Verdict::Refused(not_taken(self.day, m));
            }
            Opened::Capture { m } => Night::capture(u32::from(m), &self.samples),
            Opened::OnePeriod => Night::one_period(&self.samples),
        };
        let shown = judge(campaign.order, campaign.taps, night).verdict;
        campaign.file(lent, self.day, night, shown).verdict
    }
}

/// Why a capture without its samples is refused: 10, 18 or 17, the first that applies.
fn not_taken(day: u16, m: u8) -> Refusal {
    let day = check_day(day).err();
    let periods = check_periods(u32::from(m)).err();
    day.or(periods).unwrap_or(Refusal::ProgramLimit)
}
