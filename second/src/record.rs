//! The records of a log as bytes: one byte of kind, then the kind's body.

#[derive(Clone, Copy, Debug, PartialEq, Eq)]
pub enum Record {
    Start {
        order: u8,
        taps: u16,
        slots: u8,
    },
    Open(u16),
    Sample(i32),
    Enter,
    Withdraw(u16),
    Ask,
    /// Opens a day with a capture of m periods behind a run-in.
    Capture {
        day: u16,
        m: u8,
    },
    /// The edition of the report rules.
    Edition(u8),
}

pub const START: u8 = 1;
pub const OPEN: u8 = 2;
pub const SAMPLE: u8 = 3;
pub const ENTER: u8 = 4;
pub const WITHDRAW: u8 = 5;
pub const ASK: u8 = 6;
pub const CAPTURE: u8 = 7;
pub const EDITION: u8 = 8;

/// The length of a kind's body, or none for an unknown kind.
pub fn body_length(kind: u8) -> Option<usize> {
    match kind {
        START => Some(4),
        OPEN | WITHDRAW => Some(2),
        SAMPLE | CAPTURE => Some(3),
        EDITION => Some(1),
        ENTER | ASK => Some(0),
        _ => None,
    }
}

/// The record of a known kind with its whole body.
pub fn decode(kind: u8, body: &[u8]) -> Record {
    let day = || u16::from_le_bytes([body[0], body[1]]);
    match kind {
        START => Record::Start {
            order: body[0],
            taps: u16::from_le_bytes([body[1], body[2]]),
            slots: body[3],
        },
        OPEN => Record::Open(day()),
        // The three bytes sit on top of a zero byte, so the shift brings the sign down.
        SAMPLE => Record::Sample(i32::from_le_bytes([0, body[0], body[1], body[2]]) >> 8),
        ENTER => Record::Enter,
        WITHDRAW => Record::Withdraw(day()),
        ASK => Record::Ask,
        CAPTURE => Record::Capture {
            day: day(),
            m: body[2],
        },
        EDITION => Record::Edition(body[0]),
        _ => panic!("kind {kind} has no record"),
    }
}

pub fn encode(record: Record) -> Vec<u8> {
    match record {
        Record::Start { order, taps, slots } => {
            let [low, high] = taps.to_le_bytes();
            vec![START, order, low, high, slots]
        }
        Record::Open(day) => with_day(OPEN, day),
        Record::Sample(value) => {
            let [a, b, c, _] = value.to_le_bytes();
            vec![SAMPLE, a, b, c]
        }
        Record::Enter => vec![ENTER],
        Record::Withdraw(day) => with_day(WITHDRAW, day),
        Record::Ask => vec![ASK],
        Record::Capture { day, m } => [with_day(CAPTURE, day), vec![m]].concat(),
        Record::Edition(edition) => vec![EDITION, edition],
    }
}

pub fn kind_of(record: Record) -> u8 {
    encode(record)[0]
}

fn with_day(kind: u8, day: u16) -> Vec<u8> {
    let [low, high] = day.to_le_bytes();
    vec![kind, low, high]
}
