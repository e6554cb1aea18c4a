//! The commands.

use second::compare::compare;
use second::feeding::Other;
use second::{door, legendre_cases, log, make, numbers, order, signs, text, year};
use std::io::{self, BufRead, Read, Write};
use std::process::ExitCode;
use std::{env, fs};

const USAGE: &str = "usage:
  second answer                                       log on standard input, its lines out
  second make SEED COUNT DIR                          random logs into DIR
  second compare PROGRAM SEED COUNT [WRAPPER...]      PROGRAM's lines against ours
  second pieces PROGRAM [WRAPPER...]                  PROGRAM's lines on the log on standard input, fed in pieces
  second text                                         readable text in, log out
  second numbers                                      the numbers by direct formulas
  second door SEED COUNT                              random calls of the C door, by our own
  second order                                        two checks at once, at every place of the order of checks
  second legendre                                     Legendre sequences at their periods and edges
  second signs                                        a player's runs, from the sequence
  second year                                         the year's two campaigns, call by call";

/// 0 done, 1 differences found or a bad line of text, 2 not usable as asked.
fn main() -> ExitCode {
    let words: Vec<String> = env::args().skip(1).collect();
    match run(&words) {
        Ok(code) => code,
        Err(fault) => {
            eprintln!("second: {fault}");
            ExitCode::from(2)
        }
    }
}

fn run(words: &[String]) -> Result<ExitCode, String> {
    let plain: Vec<&str> = words.iter().map(String::as_str).collect();
    let done = match plain[..] {
        ["answer"] => answer(),
        ["make", seed, count, dir] => make_logs(whole(seed)?, whole(count)?, dir),
        ["compare", program, seed, count, ..] => {
            let other = Other {
                program,
                wrapper: &words[4..],
            };
            compare(&other, whole(seed)?, whole(count)?)
                .map(|differences| ExitCode::from(u8::from(differences > 0)))
        }
        ["pieces", program, ..] => feed_pieces(&Other {
            program,
            wrapper: &words[2..],
        }),
        ["text"] => turn_text(),
        ["numbers"] => numbers::print(&mut io::stdout()).map(|()| ExitCode::SUCCESS),
        ["order"] => order::print(&mut io::stdout()).map(|()| ExitCode::SUCCESS),
        ["legendre"] => legendre_cases::print(&mut io::stdout()).map(|()| ExitCode::SUCCESS),
        ["signs"] => signs::print(&mut io::stdout()).map(|()| ExitCode::SUCCESS),
        ["door", seed, count] => door::print(
            whole(seed)?,
            whole(count)?,
            &mut io::BufWriter::new(io::stdout()),
        )
        .map(|()| ExitCode::SUCCESS),
        ["year"] => year::print(&mut io::stdout()).map(|()| ExitCode::SUCCESS),
        _ => return Err(format!("no such command\n{USAGE}")),
    };
    done.map_err(|fault| fault.to_string())
}

fn whole(word: &str) -> Result<u64, String> {
    word.parse()
        .map_err(|_| format!("`{word}` is not a whole number"))
}

/// Standard input to its end, each read with a whole buffer's room, so that no piece is cut.
fn input() -> io::Result<Vec<u8>> {
    let mut from = io::stdin().lock();
    let mut input = Vec::new();
    loop {
        let piece = from.fill_buf()?;
        if piece.is_empty() {
            return Ok(input);
        }
        input.extend_from_slice(piece);
        let length = piece.len();
        from.consume(length);
    }
}

fn answer() -> io::Result<ExitCode> {
    let input = input()?;
    io::stdout().write_all(log::answer(&input).text.as_bytes())?;
    Ok(ExitCode::SUCCESS)
}

fn feed_pieces(other: &Other) -> io::Result<ExitCode> {
    let input = input()?;
    io::stdout().write_all(&other.in_pieces(&input)?.stdout)?;
    Ok(ExitCode::SUCCESS)
}

fn make_logs(seed: u64, count: u64, dir: &str) -> io::Result<ExitCode> {
    fs::create_dir_all(dir)?;
    for number in 0..count {
        fs::write(format!("{dir}/{number:05}.log"), make::log(seed, number))?;
    }
    Ok(ExitCode::SUCCESS)
}

fn turn_text() -> io::Result<ExitCode> {
    let mut readable = String::new();
    io::stdin().read_to_string(&mut readable)?;
    match text::log_from_text(&readable) {
        Ok(log) => {
            io::stdout().write_all(&log)?;
            Ok(ExitCode::SUCCESS)
        }
        Err(fault) => {
            eprintln!("second: {fault}");
            Ok(ExitCode::FAILURE)
        }
    }
}
