//! Reading a log: each record in turn, and every way in which one is bad.

use crate::met;
use crate::met_edition;
use crate::record::{body_length, decode, Record, SAMPLE};
use crate::run::{After, Answer, Run};

/// What the log program prints for this input.
pub fn answer(input: &[u8]) -> Answer {
    let mut run = Run::default();
    let mut at = 0;
    while at < input.len() {
        match next_record(&run, &input[at..]) {
            Ok((record, length)) => {
                at += length;
                let after = run.carry_out(record);
                run.answer
                    .met
                    .extend(met_edition::behind(record, &after, &input[at..]));
                if let After::Stop = after {
                    return run.answer;
                }
            }
            Err(why) => return bad(run, &why, at),
        }
    }
    if input.is_empty() {
        return bad(run, "no input", 0);
    }
    if let Some(opened) = run.opened() {
        return bad(run, met::end(opened), input.len());
    }
    run.answer
}

/// The record at the front of `rest` and its length with its kind byte, or why it is bad.
fn next_record(run: &Run, rest: &[u8]) -> Result<(Record, usize), String> {
    let kind = rest[0];
    let Some(length) = body_length(kind) else {
        return Err(format!("unknown {}", run.place()));
    };
    if !run.allows(kind) {
        return Err(run.misplaced(kind));
    }
    if let (SAMPLE, Some(opened)) = (kind, run.full_day()) {
        return Err(met::beyond(opened));
    }
    match rest.get(1..1 + length) {
        Some(body) => Ok((decode(kind, body), 1 + length)),
        None => Err(format!("cut kind {kind}")),
    }
}

fn bad(run: Run, why: &str, offset: usize) -> Answer {
    let mut answer = run.answer;
    answer.line(format_args!("bad {offset}"));
    answer.met.push(format!("bad: {why}"));
    answer
}
