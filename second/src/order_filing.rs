//! The order of checks in judging and filing, at order 2, taps 3 and one slot. `door/order.c` makes the same calls through the C door.

use crate::door_judging::{judged_words, shown_by, Pair};
use crate::judging::judge;
use crate::night::Night;
use crate::order::P;
use crate::order_campaign::{begun, verdict_line, Damage};
use crate::order_shapes::{beyond, one, plain, two, Shape, BEYOND, KEPT};
use crate::response::{HIGHEST, LOWEST};

const KEPT_NIGHT: [i32; P] = [KEPT, 0, 0];
const STILL: [i32; P] = [5; P];
/// A spread of 7.
const DITHERS: [i32; P] = [5, -2, -2];
const FIRST_AT_RAIL: [i32; P] = [HIGHEST, 0, 0];
const LAST_AT_RAIL: [i32; P] = [0, 0, HIGHEST];

/// The pairs of a kept and of a dead verdict.
const SHOWN_KEPT: Pair = (1, 0);
const SHOWN_DEAD: Pair = (3, 0);

pub fn lines() -> Vec<String> {
    let mut lines = judgements().to_vec();
    lines.extend(judged_captures());
    lines.extend(refused_filings());
    lines.extend(wrong_verdicts());
    lines.extend(judged_filings());
    lines.extend(refused_captures());
    lines.extend(filed_captures());
    lines
}

// ---- judging

fn judge_line(checks: &str, order: u32, taps: u32, y: &[i32]) -> String {
    let words = judged_words(&judge(order, taps, Night::one_period(y)));
    format!("judge: {checks}: {words}")
}

fn judgements() -> [String; 12] {
    let at_order_2 = |checks: &str, y: &[i32]| judge_line(checks, 2, 3, y);
    let lower = [LOWEST + 7, LOWEST, LOWEST];
    [
        judge_line("1 before 2", 1, 2, &KEPT_NIGHT),
        judge_line("2 before 3", 2, 4, &KEPT_NIGHT),
        judge_line("3 before 4", 2, 2, &KEPT_NIGHT),
        judge_line("4 before 5", 2, 1, &KEPT_NIGHT[..P - 1]),
        at_order_2("5 before 7", &[BEYOND, 0]),
        at_order_2("7 before the verdict", &[BEYOND, HIGHEST, HIGHEST]),
        at_order_2("overloaded before dead", &[HIGHEST; P]),
        at_order_2("overloaded before dead", &lower),
        at_order_2("overloaded", &LAST_AT_RAIL),
        at_order_2("dead", &STILL),
        at_order_2("dead", &DITHERS),
        at_order_2("kept", &KEPT_NIGHT),
    ]
}

fn judge_capture(checks: &str, order: u32, taps: u32, m: u32, shape: Shape) -> String {
    let samples = shape.samples();
    let words = judged_words(&judge(order, taps, Night::capture(m, &samples)));
    format!("judge capture: {checks}: {words}")
}

fn judged_captures() -> [String; 12] {
    let at_order_2 = |checks: &str, m: u32, shape: Shape| judge_capture(checks, 2, 3, m, shape);
    let rails = Shape {
        run_in: BEYOND,
        ..one(HIGHEST, HIGHEST, HIGHEST)
    };
    [
        judge_capture("1 before 2", 1, 2, 1, plain(2 * P)),
        judge_capture("4 before 18", 2, 1, 0, plain(P)),
        judge_capture("4 before 18", 2, 1, 17, plain(2 * P)),
        at_order_2("18 before 5", 0, plain(2 * P)),
        at_order_2("18 before 5", 17, plain(2 * P)),
        at_order_2("18 before 5", u32::MAX, plain(2 * P)),
        at_order_2("5 before 7", 1, beyond(P)),
        at_order_2("5 before 7", 2, beyond(2 * P)),
        at_order_2("7 before the verdict", 1, rails),
        at_order_2("the run-in is not judged", 1, one(KEPT, 0, 0)),
        at_order_2("the run-in is not counted", 2, two(0, 0, HIGHEST)),
        at_order_2("dead", 1, one(5, -2, -2)),
    ]
}

// ---- filing

/// A filing for this day of one period and the pair that is handed in; day 1 stands in the only slot where asked.
fn file(checks: &str, standing: bool, day: u16, y: &[i32], pair: Pair) -> String {
    let night = Night::one_period(y);
    let verdict = begun(Damage::Whole, standing).file(day, night, shown_by(pair));
    verdict_line("file", checks, verdict)
}

fn refused_filings() -> [String; 7] {
    let short = [BEYOND, 0];
    let outside = [BEYOND, 0, 0];
    [
        file("10 before 5", false, 0, &KEPT_NIGHT[..P - 1], SHOWN_KEPT),
        file("5 before 7", false, 2, &short, SHOWN_KEPT),
        file("7 before 11", true, 1, &outside, SHOWN_KEPT),
        file("11 before 23", true, 1, &KEPT_NIGHT, SHOWN_DEAD),
        file("11 before 23", true, 1, &STILL, SHOWN_KEPT),
        file("23 before 12", true, 2, &KEPT_NIGHT, SHOWN_DEAD),
        file("23 before 12", true, 2, &KEPT_NIGHT, (1, 1)),
    ]
}

/// Each verdict for each other, an overload at another place and past the end, and pairs that are no verdict.
fn wrong_verdicts() -> [String; 16] {
    let wrong = |(y, pair): ([i32; P], Pair)| file("23 before the verdict", false, 2, &y, pair);
    [
        (STILL, SHOWN_KEPT),
        (FIRST_AT_RAIL, SHOWN_KEPT),
        (KEPT_NIGHT, SHOWN_DEAD),
        (FIRST_AT_RAIL, SHOWN_DEAD),
        (KEPT_NIGHT, (2, 0)),
        (STILL, (2, 0)),
        (LAST_AT_RAIL, (2, 1)),
        (LAST_AT_RAIL, (2, 3)),
        (STILL, (3, 1)),
        (KEPT_NIGHT, (1, 1)),
        (KEPT_NIGHT, (0, 0)),
        (KEPT_NIGHT, (4, 0)),
        (KEPT_NIGHT, (5, 0)),
        (KEPT_NIGHT, (23, 0)),
        (KEPT_NIGHT, (9, 9)),
        (KEPT_NIGHT, (u32::MAX as usize, 0)),
    ]
    .map(wrong)
}

fn judged_filings() -> [String; 6] {
    [
        file("12 alone", true, 2, &KEPT_NIGHT, SHOWN_KEPT),
        file("the verdict before 12", true, 2, &FIRST_AT_RAIL, (2, 0)),
        file("the verdict before 12", true, 2, &STILL, SHOWN_DEAD),
        file("shown", false, 2, &KEPT_NIGHT, SHOWN_KEPT),
        file("shown", false, 2, &LAST_AT_RAIL, (2, 2)),
        file("shown", false, 2, &DITHERS, SHOWN_DEAD),
    ]
}

/// The same of a capture of m.
fn file_capture(
    checks: &str,
    standing: bool,
    day: u16,
    (m, shape): (u32, Shape),
    pair: Pair,
) -> String {
    let samples = shape.samples();
    let night = Night::capture(m, &samples);
    let verdict = begun(Damage::Whole, standing).file(day, night, shown_by(pair));
    verdict_line("file capture", checks, verdict)
}

fn refused_captures() -> [String; 5] {
    let (none, many) = ((0, plain(P)), (17, plain(2 * P)));
    let (short, outside) = ((1, beyond(P)), (1, beyond(2 * P)));
    let kept = (1, one(KEPT, 0, 0));
    [
        file_capture("10 before 18", false, 0, none, SHOWN_KEPT),
        file_capture("18 before 5", false, 2, many, SHOWN_KEPT),
        file_capture("5 before 7", false, 2, short, SHOWN_KEPT),
        file_capture("7 before 11", true, 1, outside, SHOWN_KEPT),
        file_capture("11 before 23", true, 1, kept, SHOWN_DEAD),
    ]
}

/// The overload is at the last place of two periods, which is 5, and would be 8 from the run-in's first.
fn filed_captures() -> [String; 7] {
    let kept = (1, one(KEPT, 0, 0));
    let two_kept = (2, two(KEPT, 0, 0));
    let last = (2, two(0, 0, HIGHEST));
    let dithers = (1, one(5, -2, -2));
    [
        file_capture("23 before 12", true, 2, two_kept, SHOWN_DEAD),
        file_capture("23 before the verdict", false, 2, last, (2, 8)),
        file_capture("23 before the verdict", false, 2, kept, (2, 0)),
        file_capture("12 alone", true, 2, kept, SHOWN_KEPT),
        file_capture("shown", false, 2, last, (2, 5)),
        file_capture("shown", false, 2, kept, SHOWN_KEPT),
        file_capture("shown", false, 2, dithers, SHOWN_DEAD),
    ]
}
