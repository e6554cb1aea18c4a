//! The working room of one recording, a response and a summary: P+1 wide numbers and P tags, and 6 exactly below either.

use second::campaign::{start, Campaign, Lent};
use second::entering::Verdict;
use second::night::Night;
use second::numbers::pattern;
use second::reading::Summary;
use second::refusal::number;
use second::register::{default_taps, period};
use second::response::{one_recording, predict, HIGHEST};
use second::room::Room;

const ORDERS: [u32; 3] = [2, 3, 9];
/// What each place of the outputs and of the room holds before a call.
const HELD: u8 = 7;

#[derive(Clone, Copy, Debug)]
enum Call {
    Recording,
    Response,
    Summary,
}

const CALLS: [Call; 3] = [Call::Recording, Call::Response, Call::Summary];

#[derive(Debug, PartialEq)]
enum Answer {
    Accepted,
    NothingStands,
    Refused(u8),
}

const SHORT: Answer = Answer::Refused(6);

fn answer_of(number: u8) -> Answer {
    match number {
        0 => Answer::Accepted,
        refusal => Answer::Refused(refusal),
    }
}

fn held<T: Copy + From<u8>>(length: usize) -> Vec<T> {
    vec![T::from(HELD); length]
}

/// All that a caller has: a campaign of one slot, a recording, the outputs and the room.
#[derive(Clone, Debug, PartialEq)]
struct Caller {
    campaign: Campaign,
    lent: Lent,
    recording: Vec<i32>,
    r: Vec<i64>,
    means: Vec<i32>,
    wide: Vec<i64>,
    tags: Vec<u32>,
}

impl Caller {
    /// Nothing stands yet; the recording is predicted from the pattern, and the room is just enough.
    fn new(order: u32) -> Caller {
        let (p, taps) = (period(order), default_taps(order).unwrap());
        let mut recording = vec![0; p];
        predict(order, taps, &pattern(order), &mut recording).unwrap();
        let mut lent = Lent {
            store: held(p),
            sums: held(p),
        };
        Caller {
            campaign: start(order, taps, 1, 1, &mut lent.store, &mut lent.sums).unwrap(),
            lent,
            recording,
            r: held(p),
            means: held(p),
            wide: held(p + 1),
            tags: held(p),
        }
    }

    /// The recording stands on day 1.
    fn standing(order: u32) -> Caller {
        let mut caller = Caller::new(order);
        let night = Night::one_period(&caller.recording);
        let entry = caller.campaign.enter(&mut caller.lent, 1, night);
        assert_eq!(entry.verdict, Verdict::Kept { slot: 0 });
        caller
    }

    fn with_tags(self, tags: usize) -> Caller {
        Caller {
            tags: held(tags),
            ..self
        }
    }

    fn make(&mut self, call: Call) -> Answer {
        let room = &mut Room {
            wide: &mut self.wide,
            tags: &mut self.tags,
        };
        let Campaign { order, taps, .. } = self.campaign;
        match call {
            Call::Recording => {
                let told = one_recording(order, taps, &self.recording, &mut self.r, room);
                answer_of(number(&told))
            }
            Call::Response => {
                let (r, means) = (&mut self.r, &mut self.means);
                answer_of(number(&self.campaign.response(&self.lent, r, means, room)))
            }
            Call::Summary => match self.campaign.summary(&self.lent, room) {
                Summary::NothingStands => Answer::NothingStands,
                Summary::Levels(_) => Answer::Accepted,
                Summary::Refused(refusal) => answer_of(refusal.number()),
            },
        }
    }

    /// What an accepted call leaves: the pattern in the outputs that it has, and zeros in the room and nowhere behind it.
    fn after(&self, call: Call) -> Caller {
        let (p, h) = (self.campaign.p(), pattern(self.campaign.order));
        let mut after = self.clone();
        if !matches!(call, Call::Summary) {
            after.r = h.iter().map(|&v| (p as i64 + 1) * i64::from(v)).collect();
        }
        if matches!(call, Call::Response) {
            after.means = h;
        }
        after.wide = [vec![0; p + 1], self.wide[p + 1..].to_vec()].concat();
        after.tags = [vec![0; p], self.tags[p..].to_vec()].concat();
        after
    }
}

/// Makes each call at each order with a room of these lengths, which P decides.
fn assert_each_call(lengths: impl Fn(usize) -> (usize, usize), expected: Answer) {
    for order in ORDERS {
        let (wide, tags) = lengths(period(order));
        let before = Caller {
            wide: held(wide),
            tags: held(tags),
            ..Caller::standing(order)
        };
        for call in CALLS {
            let mut caller = before.clone();
            let answer = caller.make(call);
            let after = match answer {
                Answer::Accepted => before.after(call),
                _ => before.clone(),
            };
            let what = format!("{call:?}, order {order}, {wide} wide numbers, {tags} tags");
            assert_eq!(answer, expected, "{what}");
            assert_eq!(caller, after, "{what}");
        }
    }
}

#[test]
fn p_tags_are_enough_and_those_behind_them_are_kept() {
    assert_each_call(|p| (p + 1, p - 1), SHORT);
    assert_each_call(|p| (p + 1, p), Answer::Accepted);
    assert_each_call(|p| (p + 1, p + 1), Answer::Accepted);
    assert_each_call(|p| (p + 1, 2 * p), Answer::Accepted);
}

#[test]
fn p_and_1_wide_numbers_are_enough_and_those_behind_them_are_kept() {
    assert_each_call(|p| (p, p), SHORT);
    assert_each_call(|p| (p + 1, p), Answer::Accepted);
    assert_each_call(|p| (p + 2, p), Answer::Accepted);
    assert_each_call(|p| (2 * p, p), Answer::Accepted);
}

/// The answers of a call with the tags one short and with just enough of them; neither may change anything.
fn short_and_enough(caller: Caller, call: Call) -> [Answer; 2] {
    let p = caller.campaign.p();
    [p - 1, p].map(|tags| {
        let before = caller.clone().with_tags(tags);
        let mut after = before.clone();
        let answer = after.make(call);
        assert_eq!(after, before, "{call:?} with {tags} of {p} tags");
        answer
    })
}

#[test]
fn short_tags_are_met_after_5_and_before_7() {
    use Answer::Refused;
    for order in ORDERS {
        let mut cut = Caller::new(order);
        cut.recording.pop();
        assert_eq!(
            short_and_enough(cut, Call::Recording),
            [Refused(5), Refused(5)]
        );
        let mut loud = Caller::new(order);
        loud.recording[0] = HIGHEST + 1;
        assert_eq!(short_and_enough(loud, Call::Recording), [SHORT, Refused(7)]);
    }
}

#[test]
fn short_tags_are_met_after_15_and_before_nothing_stands() {
    use Answer::{NothingStands, Refused};
    for order in ORDERS {
        let mut broken = Caller::standing(order);
        broken.lent.sums[0] += 1;
        for call in [Call::Response, Call::Summary] {
            let answers = short_and_enough(broken.clone(), call);
            assert_eq!(answers, [Refused(15), Refused(15)]);
        }
        let empty = || Caller::new(order);
        assert_eq!(
            short_and_enough(empty(), Call::Response),
            [SHORT, Refused(14)]
        );
        assert_eq!(
            short_and_enough(empty(), Call::Summary),
            [SHORT, NothingStands]
        );
    }
}
