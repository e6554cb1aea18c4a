//! Readable text turned into a log.

use crate::record::{encode, Record};
use crate::response::{HIGHEST, LOWEST};

/// The log's bytes, or the first bad line with its number.
pub fn log_from_text(text: &str) -> Result<Vec<u8>, String> {
    let mut log = Vec::new();
    for (index, line) in text.lines().enumerate() {
        let records = records(line).map_err(|fault| format!("line {}: {fault}", index + 1))?;
        log.extend(records.into_iter().flat_map(encode));
    }
    Ok(log)
}

fn records(line: &str) -> Result<Vec<Record>, String> {
    let words = line.split('#').next().unwrap_or("");
    let words: Vec<&str> = words.split_whitespace().collect();
    match words[..] {
        [] => Ok(vec![]),
        ["start", order, taps, slots] => Ok(vec![Record::Start {
            order: value("order", order, 0, 255)? as u8,
            taps: value("taps", taps, 0, 65535)? as u16,
            slots: value("slots", slots, 0, 255)? as u8,
        }]),
        ["edition", edition] => Ok(vec![Record::Edition(
            value("edition", edition, 0, 255)? as u8
        )]),
        ["edition", ..] => Err("write `edition N`".to_string()),
        ["start", ..] => Err("write `start ORDER TAPS SLOTS`".to_string()),
        ["day", day] => Ok(vec![Record::Open(value("day", day, 0, 65535)? as u16)]),
        ["day", ..] => Err("write `day N`, and the samples on lines of their own".to_string()),
        ["capture", day, m] => Ok(vec![Record::Capture {
            day: value("day", day, 0, 65535)? as u16,
            m: value("m", m, 0, 255)? as u8,
        }]),
        ["capture", ..] => {
            Err("write `capture DAY M`, and the samples on lines of their own".to_string())
        }
        ["samples"] => Err("write `samples` and at least one value".to_string()),
        ["samples", ref values @ ..] => values
            .iter()
            .map(|word| Ok(Record::Sample(value("sample", word, LOWEST, HIGHEST)?)))
            .collect(),
        ["enter"] => Ok(vec![Record::Enter]),
        ["withdraw", day] => Ok(vec![Record::Withdraw(value("day", day, 0, 65535)? as u16)]),
        ["withdraw", ..] => Err("write `withdraw N`".to_string()),
        ["ask"] => Ok(vec![Record::Ask]),
        ["enter" | "ask", ..] => Err(format!("nothing may follow `{}`", words[0])),
        [word, ..] => Err(format!(
            "`{word}` is not one of start, edition, day, capture, samples, enter, withdraw, ask"
        )),
    }
}

/// A whole number that its place in a log can hold.
fn value(name: &str, word: &str, low: i32, high: i32) -> Result<i32, String> {
    match word.parse::<i32>() {
        Ok(value) if (low..=high).contains(&value) => Ok(value),
        _ => Err(format!(
            "{name} `{word}` is not a whole number from {low} to {high}"
        )),
    }
}
