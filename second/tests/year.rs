//! Facts about the year, each worked out apart from the lines that are printed.

use second::numbers::digest;
use second::register::period;
use second::year::Brought::{self, Capture, OnePeriod};
use second::year::{
    be_refused, begin, day_of, lines, recording, visit, Plan, PLANS, REFUSED_AFTER, VISITS,
};
use std::collections::BTreeSet;

fn words(line: &str) -> Vec<&str> {
    line.split(' ').collect()
}

/// The answer that a line prints; a memory line and a summary of nothing print none.
fn answer(line: &str) -> Option<u8> {
    match words(line)[..] {
        ["memory", ..] | ["summary", "nothing", ..] => None,
        ["enter" | "withdraw", _, answer, ..] => Some(answer.parse().unwrap()),
        ["capture", _, _, answer, ..] => Some(answer.parse().unwrap()),
        [_, answer, ..] => Some(answer.parse().unwrap()),
        _ => panic!("`{line}` is no line of the year"),
    }
}

/// The digest of a list whose first places hold these values and place i beyond them i mod 7.
fn digest_with_tail(front: &[i64], length: usize) -> i64 {
    let tail = (front.len()..length).map(|i| i as i64 % 7);
    digest(front.iter().copied().chain(tail))
}

#[test]
fn each_day_comes_twice() {
    for day in 1..=366 {
        assert_eq!((0..VISITS).filter(|&i| day_of(i) == day).count(), 2);
    }
}

#[test]
fn each_campaign_meets_every_refusal() {
    for plan in PLANS {
        let met = |of_the_campaign: bool| -> BTreeSet<u8> {
            let calls = lines(plan).into_iter().filter(|line| {
                of_the_campaign != (line.starts_with("predict") || line.starts_with("step"))
            });
            calls.filter_map(|line| answer(&line)).collect()
        };
        let every = (0..=7).chain(9..=15).chain([18]).collect();
        assert_eq!(met(true), every, "order {}", plan.order);
        assert_eq!(met(false), BTreeSet::from([8, 16]), "order {}", plan.order);
    }
}

/// The verdict's word of a line about an entry, and the slot or place behind it.
fn verdict(line: &str) -> Option<(&str, &str)> {
    match words(line)[..] {
        ["enter", _, _, word, value] | ["capture", _, _, _, word, value] => Some((word, value)),
        _ => None,
    }
}

#[test]
fn each_campaign_meets_every_verdict_of_both_calls() {
    for plan in PLANS {
        let lines = lines(plan);
        for call in ["enter", "capture"] {
            let entries = lines.iter().filter(|line| line.starts_with(call));
            let met: BTreeSet<&str> = entries.map(|line| verdict(line).unwrap().0).collect();
            assert_eq!(met, BTreeSet::from(["-", "dead", "kept", "overload"]));
        }
    }
}

#[test]
fn two_visits_in_five_are_captures_of_every_number_of_periods() {
    for (plan, most) in PLANS.into_iter().zip([16, 4]) {
        let brought: Vec<Brought> = (0..VISITS)
            .map(|i| Brought::at(i, plan.most_periods))
            .collect();
        let captures = brought.iter().filter(|&&b| b != OnePeriod).count();
        assert_eq!(captures, 292);
        for m in 1..=most {
            assert!(brought.contains(&Capture { m }), "{m}");
        }
        assert!(!brought.contains(&Capture { m: most + 1 }));
        assert!(!brought.contains(&Capture { m: 0 }));
    }
}

#[test]
fn a_visit_by_hand_is_one_period_or_a_capture() {
    let brought = [0, 1, 2, 3, 4, 5, 7, 14, 79, 82, 84].map(|i| Brought::at(i, 16));
    let expected = [
        OnePeriod,
        OnePeriod,
        Capture { m: 1 },
        OnePeriod,
        Capture { m: 1 },
        OnePeriod,
        Capture { m: 2 },
        Capture { m: 3 },
        Capture { m: 16 },
        Capture { m: 1 },
        Capture { m: 1 },
    ];
    assert_eq!(brought, expected);
    assert_eq!(Brought::at(22, 4), Capture { m: 1 });
    assert_eq!(Brought::at(REFUSED_AFTER, 4), OnePeriod);
}

/// The quiet visits: what their recordings are, and that each campaign judges one of every spread on both sides of the edge.
#[test]
fn each_campaign_meets_quiet_nights_that_are_dead_and_that_are_kept() {
    for plan in PLANS {
        let p = period(plan.order);
        let mut met = BTreeSet::new();
        let mut calls = begin(plan);
        for i in 0..VISITS {
            calls.lines.clear();
            visit(&mut calls, plan, i);
            let brought = Brought::at(i, plan.most_periods);
            let samples = &recording(i, p, brought)[brought.lengths(p).0..];
            let (largest, smallest) = (samples.iter().max(), samples.iter().min());
            let spread = largest.unwrap() - smallest.unwrap();
            assert_eq!(i % 11 == 7, spread < 10);
            if i % 11 == 7 {
                assert_eq!(spread as usize, i / 11 % 10);
                met.insert((spread, verdict(&calls.lines[0]).unwrap().0.to_string()));
            }
        }
        let verdicts = (0..8)
            .map(|s| (s, "dead"))
            .chain([(8, "kept"), (9, "kept")]);
        for (spread, verdict) in verdicts {
            assert!(met.remove(&(spread, verdict.to_string())), "{spread}");
        }
        // What is left are nights that were not dead and found no slot.
        assert!(met.iter().all(|(spread, word)| *spread > 7 && word == "-"));
    }
}

#[test]
fn the_quiet_recording_of_a_visit_by_hand() {
    let from = |b: i32, above: [i32; 7]| above.map(|above| b + above);
    // s is 4, b next to the lower rail, and 31·51·j mod 5 is j mod 5.
    let above = [0, 1, 0, 3, 4, 4, 1];
    assert_eq!(recording(51, 7, OnePeriod), from(-8_388_607, above));
    // s is 6, b + s next to the upper rail, and 31·73·j mod 7 is 2·j mod 7.
    let above = [0, 2, 4, 0, 1, 3, 6];
    assert_eq!(recording(73, 7, OnePeriod), from(8_388_600, above));
    // s is 8, b is -5, and 31·95·j mod 9 is 2·j mod 9.
    let above = [8, 2, 4, 6, 0, 1, 3];
    assert_eq!(recording(95, 7, OnePeriod), from(-5, above));
}

/// Sample j of visit 2 is 15,838 + 104,791·j - 8,388,606, but for place 2, which is at a rail.
#[test]
fn the_recording_of_a_kept_capture_by_hand() {
    let whole = recording(2, 7, Capture { m: 1 });
    let expected = [
        -8_372_768, -8_267_977, 8_388_607, -8_058_395, -7_953_604, -7_848_813, -7_744_022,
        -7_639_231, -7_534_440, -7_429_649, -7_324_858, -7_220_067, -7_115_276, -7_010_485,
    ];
    assert_eq!(whole, expected);
}

/// Visit 29 has s = 2 and b = -71, and 31·29·j mod 3 is 2·j mod 3; places 29 mod 6 = 5 and 32 mod 6 = 2 are b and b + s.
#[test]
fn the_recording_of_a_quiet_capture_by_hand() {
    let whole = recording(29, 3, Capture { m: 2 });
    assert_eq!(whole.len(), 9);
    assert_eq!(whole[2], 8_388_607);
    assert_eq!(whole[3..], [-71, -69, -69, -71, -69, -71]);
}

/// Behind the run-in of 7, visit 14 has its first rail at place 14 of 21 and visit 47 at place 47 of 70; the last place is at a rail too.
#[test]
fn overloaded_captures_by_hand() {
    let told = |i: usize| {
        let mut calls = begin(PLANS[0]);
        visit(&mut calls, PLANS[0], i);
        calls.lines[1].clone()
    };
    assert_eq!(told(14), "capture 257 3 0 overload 14");
    assert_eq!(told(47), "capture 50 10 0 overload 47");
    let (even, odd) = (
        recording(14, 7, Capture { m: 3 }),
        recording(47, 7, Capture { m: 10 }),
    );
    assert_eq!(
        [even[0], even[21], even[27]],
        [8_388_607, -8_388_608, 8_388_607]
    );
    assert_eq!([odd[5], odd[54], odd[76]], [8_388_607; 3]);
    assert_eq!((even.len(), odd.len()), (28, 77));
}

/// What being refused says of entries, in the order of docs/YEAR.md.
#[test]
fn the_refused_entries_by_hand() {
    for plan in PLANS {
        let mut calls = begin(plan);
        for i in 0..=REFUSED_AFTER {
            visit(&mut calls, plan, i);
        }
        calls.lines.clear();
        be_refused(&mut calls);
        let expected = [
            "enter 0 10 - 0",
            "enter 367 10 - 0",
            "enter 1 5 - 0",
            "enter 1 5 - 0",
            "enter 1 7 - 0",
            "enter 1 7 - 0",
            "capture 0 17 10 - 0",
            "capture 1 0 18 - 0",
            "capture 1 17 18 - 0",
            "capture 1 1 5 - 0",
            "capture 1 1 5 - 0",
            "capture 1 1 7 - 0",
            "withdraw 0 10",
            "withdraw 367 10",
        ];
        assert_eq!(calls.lines[..expected.len()], expected);
    }
}

/// A recording leaves what was longer of those before it.
#[test]
fn the_recording_at_hand_keeps_its_tail() {
    for plan in PLANS {
        let mut calls = begin(plan);
        let mut expected = vec![0; 2_600];
        for i in 0..VISITS {
            visit(&mut calls, plan, i);
            let samples = recording(i, period(plan.order), Brought::at(i, plan.most_periods));
            expected[..samples.len()].copy_from_slice(&samples);
            assert_eq!(calls.memory.recording, expected, "visit {i}");
        }
    }
}

#[test]
fn accepted_counts_total_366() {
    for line in PLANS.into_iter().flat_map(lines) {
        if line.starts_with("counts 0 ") {
            let total: u32 = words(&line)[2..]
                .iter()
                .map(|n| n.parse::<u32>().unwrap())
                .sum();
            assert_eq!(total, 366, "{line}");
        }
    }
}

/// What is accepted with just enough room tells and writes what asking at that visit did.
#[test]
fn being_refused_changes_nothing() {
    for plan in PLANS {
        let mut calls = begin(plan);
        for i in 0..=REFUSED_AFTER {
            visit(&mut calls, plan, i);
        }
        let before = calls.clone();
        be_refused(&mut calls);
        assert_eq!(calls.campaign, before.campaign);
        assert_eq!(calls.memory, before.memory);
        let [_, response, summary, memory] = before.lines.last_chunk().unwrap();
        let (last, told) = calls.lines[before.lines.len()..].split_last().unwrap();
        let (accepted, refused): (Vec<_>, Vec<_>) =
            told.iter().partition(|line| answer(line) == Some(0));
        assert_eq!(accepted, [response, summary]);
        assert!(refused.iter().all(|line| answer(line) > Some(0)));
        assert!(memory.starts_with("memory "));
        assert_eq!(last, memory);
    }
}

#[test]
fn each_campaign_ends_with_nothing_standing() {
    for plan in PLANS {
        let p = period(plan.order);
        let zeros = |count, length| digest_with_tail(&vec![0; count], length);
        let store = zeros(plan.slots as usize * p, 24_600);
        let (sums, wide, tags) = (zeros(p, 600), zeros(p + 1, 600), zeros(p, 1_100));
        let lines = lines(plan);
        let [counts, response, summary, memory] = lines.last_chunk().unwrap();
        assert_eq!(words(counts)[3], "0");
        assert!(response.starts_with("response 14 "));
        assert!(response.ends_with(&format!(" {wide} {tags}")));
        assert_eq!(*summary, format!("summary nothing {wide} {tags}"));
        assert_eq!(*memory, format!("memory {store} {sums}"));
    }
}

/// The day and the visit in each slot, as the lines tell it.
struct Told {
    plan: Plan,
    slots: Vec<Option<(u16, usize)>>,
}

impl Told {
    fn slot_of(&self, day: &str) -> Option<usize> {
        let holds = |slot: &Option<(u16, usize)>| slot.is_some_and(|(d, _)| d.to_string() == day);
        self.slots.iter().position(holds)
    }

    fn hear(&mut self, line: &str, visit: usize) {
        let free = self.slots.iter().position(Option::is_none);
        match words(line)[..] {
            ["enter", _, "0", "kept", slot] | ["capture", _, _, "0", "kept", slot] => {
                assert_eq!(Some(slot.parse().unwrap()), free);
                self.slots[free.unwrap()] = Some((day_of(visit), visit));
            }
            ["enter", day, "11", ..] | ["capture", day, _, "11", ..] => {
                assert!(self.slot_of(day).is_some())
            }
            ["enter", _, "12", ..] | ["capture", _, _, "12", ..] => assert_eq!(free, None),
            ["withdraw", day, "0"] => {
                let slot = self.slot_of(day).unwrap();
                self.slots[slot] = None;
            }
            ["withdraw", day, "13"] => assert_eq!(self.slot_of(day), None),
            ["counts", "0", _, standing, ..] => {
                let told = self.slots.iter().flatten().count();
                assert_eq!(standing, told.to_string());
            }
            ["memory", ..] => assert_eq!(line, self.memory()),
            _ => {}
        }
    }

    /// The memory's line, from the recordings of the visits that stand.
    fn memory(&self) -> String {
        let p = period(self.plan.order);
        let samples = |slot: &Option<(u16, usize)>| match slot {
            Some((_, visit)) => {
                let brought = Brought::at(*visit, self.plan.most_periods);
                let whole = recording(*visit, p, brought);
                let periods = || whole[brought.lengths(p).0..].chunks(p);
                (0..p)
                    .map(|place| periods().map(|one| one[place]).sum())
                    .collect()
            }
            None => vec![0; p],
        };
        let store: Vec<i64> = self.slots.iter().flat_map(samples).map(i64::from).collect();
        let sum = |place| store.iter().skip(place).step_by(p).sum();
        let sums: Vec<i64> = (0..p).map(sum).collect();
        let digests = [(&store, 24_600), (&sums, 600)].map(|(list, n)| digest_with_tail(list, n));
        format!("memory {} {}", digests[0], digests[1])
    }
}

#[test]
fn the_lines_alone_tell_slots_store_and_sums() {
    for plan in PLANS {
        let slots = vec![None; plan.slots as usize];
        let mut told = Told { plan, slots };
        let mut calls = begin(plan);
        for i in 0..VISITS {
            calls.lines.clear();
            visit(&mut calls, plan, i);
            for line in &calls.lines {
                told.hear(line, i);
            }
        }
    }
}
