//! A run of the log program: its campaign, its open day and the lines it prints.

use crate::campaign::{check_start, start, Campaign, Lent};
use crate::edition::FIRST;
use crate::met;
use crate::met_edition;
use crate::open_day::{OpenDay, Opened};
use crate::reading::Counts;
use crate::record::{kind_of, Record, ASK, CAPTURE, EDITION, ENTER, OPEN, SAMPLE, START, WITHDRAW};
use crate::refusal::{number, Refusal};
use crate::room::Room;
use std::fmt::Write;

/// The printed lines, and the names of everything met on the way.
#[derive(Default)]
pub struct Answer {
    pub text: String,
    pub met: Vec<String>,
}

impl Answer {
    pub fn line(&mut self, line: std::fmt::Arguments) {
        self.text
            .write_fmt(line)
            .expect("a string takes every line");
        self.text.push('\n');
    }
}

#[derive(Default)]
pub struct Run {
    campaign: Option<(Campaign, Lent)>,
    open: Option<OpenDay>,
    /// The kind of the last record that was carried out.
    last: Option<u8>,
    /// Whether the log itself has named the campaign's edition.
    edition_named: bool,
    pub answer: Answer,
}

pub enum After {
    GoOn,
    Stop,
}

/// The largest order and the most slots that the program takes.
pub const PROGRAM_ORDER: u32 = 9;
pub const PROGRAM_SLOTS: u32 = 8;

/// Accepts a start within the program's limits: 17 stands in the place of 6.
fn start_in_program(
    order: u32,
    taps: u32,
    slots: u32,
    edition: u32,
) -> Result<(Campaign, Lent), Refusal> {
    let p = check_start(order, taps, slots, edition)?;
    if order > PROGRAM_ORDER || slots > PROGRAM_SLOTS {
        return Err(Refusal::ProgramLimit);
    }
    let mut lent = Lent {
        store: vec![0; slots as usize * p],
        sums: vec![0; p],
    };
    let campaign = start(order, taps, slots, edition, &mut lent.store, &mut lent.sums)?;
    Ok((campaign, lent))
}

/// A start's answer as its line has it: after 4 stands how soon the register returns.
fn start_words<T>(started: &Result<T, Refusal>) -> String {
    match started {
        Err(Refusal::NotMaximal { first_return }) => format!("{} {first_return}", number(started)),
        _ => number(started).to_string(),
    }
}

impl Run {
    /// What the open day was opened for.
    pub fn opened(&self) -> Option<Opened> {
        self.open.as_ref().map(|open| open.opened)
    }

    /// Where the next record stands, in words.
    pub fn place(&self) -> &'static str {
        match (&self.campaign, &self.open) {
            (None, _) => "first",
            (Some(_), Some(_)) => "in a day",
            (Some(_), None) => "outside",
        }
    }

    /// Why a record of a kind that may not stand next is bad: of an edition the kind just before it tells, of any other its place.
    pub fn misplaced(&self, kind: u8) -> String {
        match (kind, self.last) {
            (EDITION, Some(last)) => format!("kind {kind} after {last}"),
            _ => format!("kind {kind} {}", self.place()),
        }
    }

    /// Whether a record of this kind may stand next.
    pub fn allows(&self, kind: u8) -> bool {
        match (&self.campaign, &self.open) {
            (None, _) => kind == START,
            (Some(_), Some(_)) => kind == SAMPLE || kind == ENTER,
            (Some(_), None) if kind == EDITION => self.last == Some(START),
            (Some(_), None) => [OPEN, WITHDRAW, ASK, CAPTURE].contains(&kind),
        }
    }

    /// What the open day was opened for, where as many samples have come as it may have.
    pub fn full_day(&self) -> Option<Opened> {
        let (campaign, _) = self.campaign.as_ref()?;
        let open = self.open.as_ref()?;
        (open.count == open.opened.limit(campaign.p())).then_some(open.opened)
    }

    pub fn carry_out(&mut self, record: Record) -> After {
        self.last = Some(kind_of(record));
        match record {
            Record::Start { order, taps, slots } => {
                return self.start(u32::from(order), u32::from(taps), u32::from(slots));
            }
            Record::Edition(edition) => return self.edition(u32::from(edition)),
            Record::Open(day) => self.open = Some(OpenDay::new(day, Opened::OnePeriod)),
            Record::Capture { day, m } => {
                self.open = Some(OpenDay::new(day, Opened::Capture { m }))
            }
            Record::Sample(value) => self.sample(value),
            Record::Enter => self.enter(),
            Record::Withdraw(day) => self.withdraw(day),
            Record::Ask => self.ask(),
        }
        After::GoOn
    }

    fn start(&mut self, order: u32, taps: u32, slots: u32) -> After {
        let started = start_in_program(order, taps, slots, FIRST);
        self.answer
            .line(format_args!("start {}", start_words(&started)));
        self.answer
            .met
            .push(met::start(order, taps, slots, &started));
        self.begin(started)
    }

    /// The campaign just started, afresh in this edition.
    fn edition(&mut self, edition: u32) -> After {
        let (begun, _) = self.campaign();
        let started = start_in_program(begun.order, begun.taps, begun.slots, edition);
        let answer = number(&started);
        self.answer.line(format_args!("edition {answer}"));
        self.answer
            .met
            .push(met_edition::edition(edition, &started));
        self.edition_named = true;
        self.begin(started)
    }

    fn begin(&mut self, started: Result<(Campaign, Lent), Refusal>) -> After {
        match started {
            Ok(campaign) => {
                self.campaign = Some(campaign);
                After::GoOn
            }
            Err(_) => After::Stop,
        }
    }

    /// The campaign of a run whose start was accepted.
    fn campaign(&mut self) -> &mut (Campaign, Lent) {
        self.campaign
            .as_mut()
            .expect("only a start may come before the campaign")
    }

    fn sample(&mut self, value: i32) {
        let open = self
            .open
            .as_mut()
            .expect("a sample stands only in an open day");
        open.sample(value);
    }

    fn enter(&mut self) {
        let open = self.open.take().expect("4 stands only in an open day");
        let (campaign, lent) = self.campaign();
        let before = campaign.clone();
        let verdict = open.enter(campaign, lent);
        let (answer, word) = (verdict.number(), verdict.word());
        self.answer
            .line(format_args!("enter {} {answer} {word}", open.day));
        self.answer.met.extend(met::enter(&before, &open, verdict));
    }

    fn withdraw(&mut self, day: u16) {
        let (campaign, lent) = self.campaign();
        let before = campaign.clone();
        let withdrawn = campaign.withdraw(lent, day);
        let answer = number(&withdrawn);
        self.answer.line(format_args!("withdraw {day} {answer}"));
        self.answer
            .met
            .push(met::withdraw(&before, day, &withdrawn));
    }

    fn ask(&mut self) {
        let (campaign, lent) = self.campaign();
        let p = campaign.p();
        let (mut r, mut means) = (vec![0; p], vec![0; p]);
        let mut room = Room {
            wide: &mut vec![0; p + 1],
            tags: &mut vec![0; p],
        };
        let answer = number(&campaign.response(lent, &mut r, &mut means, &mut room));
        let counts = campaign.counts(lent).expect("a run never meets 15");
        let Counts {
            standing,
            overloaded,
            dead,
            withdrawn,
            ..
        } = counts;
        self.answer.line(format_args!(
            "response {answer} {standing} {overloaded} {dead} {withdrawn}"
        ));
        if answer == 0 {
            for (k, (r, mean)) in r.iter().zip(&means).enumerate() {
                self.answer.line(format_args!("{k} {r} {mean}"));
            }
        }
        let named = self.edition_named;
        let (campaign, _) = self.campaign();
        let mut names = met::response(answer, campaign, &r);
        names.extend(met_edition::asked(answer, campaign, named, &r));
        self.answer.met.extend(names);
    }
}
