//! Request 5 of 02 over random nights of both kinds: a judged verdict filed is an entry bit for bit, and a run of filings leaves what its
//! accepted calls say.

use second::campaign::{start, Campaign, DayState, Lent};
use second::door_nights::{any_day, any_periods, capture, one_period};
use second::entering::Verdict::{self, *};
use second::judging::{judge, Judged};
use second::log::answer;
use second::make::log;
use second::night::Night;
use second::refusal::{number, Refusal};
use second::response::{HIGHEST, LOWEST};
use second::rng::Rng;
use std::collections::{BTreeMap, BTreeSet};

type At = (Campaign, Lent);

/// Order 2, taps 3.
const P: usize = 3;
const SLOTS: usize = 3;

fn campaign() -> At {
    let mut lent = Lent {
        store: vec![9; SLOTS * P],
        sums: vec![9; P],
    };
    let campaign = start(2, 3, SLOTS as u32, 1, &mut lent.store, &mut lent.sums).unwrap();
    (campaign, lent)
}

/// A capture where it has an m.
struct Drawn {
    m: Option<u32>,
    samples: Vec<i32>,
}

impl Drawn {
    fn any(rng: &mut Rng) -> Drawn {
        let m = rng.once_in(2).then(|| any_periods(rng));
        let samples = match m {
            None => one_period(rng, P),
            Some(m) => capture(rng, m, P),
        };
        Drawn { m, samples }
    }

    fn night(&self) -> Night<'_> {
        let samples = &self.samples;
        let capture = |m| Night::capture(m, samples);
        self.m.map_or(Night::one_period(samples), capture)
    }

    /// The lengths of the run-in and of what counts.
    fn lengths(&self) -> (usize, usize) {
        self.m.map_or((0, P), |m| (P, m as usize * P))
    }
}

/// An entry's refusals on a record that holds together, as 01 and request 1 of 02 tell them, but for 12.
fn refused_entry(campaign: &Campaign, day: u16, drawn: &Drawn) -> Option<Refusal> {
    let (run_in, counting) = drawn.lengths();
    let no_day = !(1..=366).contains(&day);
    let outside = |&v: &i32| !(-8_388_608..=8_388_607).contains(&v);
    let refusals = [
        (no_day, Refusal::DayOutOfRange),
        (
            drawn.m.is_some_and(|m| m == 0 || m > 16),
            Refusal::PeriodsOutOfRange,
        ),
        (
            drawn.samples.len() != run_in + counting,
            Refusal::WrongLength,
        ),
        (
            drawn.samples.iter().any(outside),
            Refusal::ValueOutsideRange,
        ),
        (
            !no_day && campaign.state(day) == DayState::Standing,
            Refusal::AlreadyStanding,
        ),
    ];
    refusals
        .into_iter()
        .find_map(|(met, refusal)| met.then_some(refusal))
}

/// An entry as those papers tell it, without judging and without filing.
fn entered(at: &mut At, day: u16, drawn: &Drawn) -> Verdict {
    if let Some(refusal) = refused_entry(&at.0, day, drawn) {
        return Refused(refusal);
    }
    let counted = &drawn.samples[drawn.lengths().0..];
    let rail = |v: &i32| *v == LOWEST || *v == HIGHEST;
    if let Some(place) = counted.iter().position(rail) {
        at.0.set_state(day, DayState::Overloaded);
        return Overloaded { place };
    }
    if counted.iter().max().unwrap() - counted.iter().min().unwrap() <= 7 {
        at.0.set_state(day, DayState::Dead);
        return Dead;
    }
    let Some(slot) = at.0.table[..SLOTS].iter().position(|&day| day == 0) else {
        return Refused(Refusal::AllSlotsUsed);
    };
    for (j, &sample) in counted.iter().enumerate() {
        at.1.store[slot * P + j % P] += sample;
        at.1.sums[j % P] += i64::from(sample);
    }
    at.0.table[slot] = day;
    at.0.periods[slot] = (counted.len() / P) as u8;
    at.0.set_state(day, DayState::Standing);
    Kept { slot }
}

fn withdraw_any(at: &mut At, rng: &mut Rng) {
    let day = any_day(rng);
    let _ = at.0.withdraw(&mut at.1, day);
}

#[test]
fn judged_then_filed_is_entered() {
    let rng = &mut Rng::for_log(5, 0);
    let mut at = campaign();
    let mut met = BTreeSet::new();
    for _ in 0..20_000 {
        let (day, drawn) = (any_day(rng), Drawn::any(rng));
        let mut by_papers = at.clone();
        let expected = entered(&mut by_papers, day, &drawn);
        let mut by_entering = at.clone();
        let entry = by_entering.0.enter(&mut by_entering.1, day, drawn.night());
        let shown = judge(2, 3, drawn.night()).verdict;
        let filed = at.0.file(&mut at.1, day, drawn.night(), shown);
        assert_eq!((filed, filed.verdict), (entry, expected));
        assert_eq!((&at, &at), (&by_entering, &by_papers));
        met.insert(format!("{} {}", filed.verdict.word(), expected.number()));
        if rng.once_in(3) {
            withdraw_any(&mut at, rng);
        }
    }
    let expected = "kept 0, overload 0, dead 0, - 5, - 7, - 10, - 11, - 12, - 18";
    let expected = expected.split(", ").map(str::to_string);
    assert_eq!(met, expected.collect());
}

#[test]
fn any_other_verdict_leaves_all_as_it_was() {
    let rng = &mut Rng::for_log(5, 1);
    let mut at = campaign();
    let mut met = BTreeMap::new();
    for _ in 0..20_000 {
        let (day, drawn) = (any_day(rng), Drawn::any(rng));
        let judged = judge(2, 3, drawn.night()).verdict;
        let shown = judge(2, 3, Drawn::any(rng).night()).verdict;
        let mut after = at.clone();
        let filed = after
            .0
            .file(&mut after.1, day, drawn.night(), shown)
            .verdict;
        if shown != judged {
            let refusal = refused_entry(&at.0, day, &drawn).unwrap_or(Refusal::NotAsJudged);
            assert_eq!(filed, Refused(refusal));
            assert_eq!(after, at);
            *met.entry(filed.number()).or_insert(0) += 1;
        }
        at = after;
        if rng.once_in(3) {
            withdraw_any(&mut at, rng);
        }
    }
    assert_eq!(
        met.keys().copied().collect::<Vec<_>>(),
        [5, 7, 10, 11, 18, 23]
    );
    assert!(met[&23] > 1000);
}

/// What a run's accepted filings and withdrawals leave: each day's last state, and the periods of each that stands summed.
#[derive(Default)]
struct History {
    states: BTreeMap<u16, DayState>,
    standing: BTreeMap<u16, Vec<i32>>,
}

impl History {
    fn filed(&mut self, day: u16, verdict: Verdict, drawn: &Drawn) {
        let state = match verdict {
            Kept { .. } => DayState::Standing,
            Overloaded { .. } => DayState::Overloaded,
            Dead => DayState::Dead,
            Refused(_) => return,
        };
        self.states.insert(day, state);
        if state == DayState::Standing {
            let counted = drawn.samples[drawn.lengths().0..].to_vec();
            self.standing.insert(day, counted);
        }
    }

    fn withdrawn(&mut self, day: u16) {
        self.states.insert(day, DayState::Withdrawn);
        self.standing.remove(&day);
    }

    fn days_in(&self, state: DayState) -> usize {
        self.states.values().filter(|&&s| s == state).count()
    }

    fn sums(&self) -> Vec<i64> {
        let at = |place: usize| {
            let nights = self.standing.values();
            let samples = nights.flat_map(|night| night.iter().skip(place).step_by(P));
            samples.map(|&v| i64::from(v)).sum()
        };
        (0..P).map(at).collect()
    }

    fn assert_left(&self, at: &At) {
        let counts = at.0.counts(&at.1).expect("a run never meets 15");
        assert_eq!(counts.standing, self.days_in(DayState::Standing));
        assert_eq!(counts.overloaded, self.days_in(DayState::Overloaded));
        assert_eq!(counts.dead, self.days_in(DayState::Dead));
        assert_eq!(counts.withdrawn, self.days_in(DayState::Withdrawn));
        assert_eq!(counts.unseen, 366 - self.states.len());
        assert_eq!(at.1.sums, self.sums());
    }
}

/// Half the filings have the verdict of another night; each night is judged, and no judgement counts.
#[test]
fn a_filing_stands_in_the_history_where_an_entry_stood() {
    let rng = &mut Rng::for_log(5, 2);
    let (mut at, mut history) = (campaign(), History::default());
    for _ in 0..5_000 {
        let (day, drawn) = (any_day(rng), Drawn::any(rng));
        if rng.once_in(3) {
            if at.0.withdraw(&mut at.1, day).is_ok() {
                history.withdrawn(day);
            }
        } else {
            let other = Drawn::any(rng);
            let shown_for = rng.pick(&[&drawn, &other]);
            let shown = judge(2, 3, shown_for.night()).verdict;
            let filed = at.0.file(&mut at.1, day, drawn.night(), shown);
            history.filed(day, filed.verdict, &drawn);
        }
        history.assert_left(&at);
    }
}

#[test]
fn a_kept_filing_and_its_withdrawal_give_back_all_but_the_days_state() {
    let mut at = campaign();
    let night = Night::one_period(&[1, 2, 13]);
    at.0.file(&mut at.1, 1, night, Judged::Kept);
    let mut before = at.clone();
    at.0.file(&mut at.1, 2, night, Judged::Kept);
    assert_eq!(number(&at.0.withdraw(&mut at.1, 2)), 0);
    before.0.set_state(2, DayState::Withdrawn);
    assert_eq!(at, before);
}

#[test]
fn the_log_program_never_meets_23() {
    let mut refused = BTreeSet::new();
    for number in 0..1000 {
        let text = answer(&log(4, number)).text;
        let entries = text.lines().filter(|line| line.starts_with("enter "));
        refused.extend(entries.map(|line| line.split(' ').nth(2).unwrap().to_string()));
    }
    let expected = "0 5 10 11 12 17 18".split(' ').map(str::to_string);
    assert_eq!(refused, expected.collect());
}
