//! Another program, with a log handed to its standard input whole or in pieces.

use crate::rng::Rng;
use std::io::{self, Write};
use std::os::fd::OwnedFd;
use std::os::unix::net::UnixDatagram;
use std::process::{Child, Command, Output, Stdio};
use std::thread;

pub struct Other<'a> {
    pub program: &'a str,
    pub wrapper: &'a [String],
}

impl Other<'_> {
    fn command(&self) -> Command {
        match self.wrapper {
            [] => Command::new(self.program),
            [first, rest @ ..] => {
                let mut command = Command::new(first);
                command.args(rest).arg(self.program);
                command
            }
        }
    }

    fn spawn(&self, input: impl Into<Stdio>) -> io::Result<Child> {
        self.command()
            .stdin(input)
            .stdout(Stdio::piped())
            .spawn()
            .map_err(|fault| io::Error::other(format!("cannot run {}: {fault}", self.program)))
    }

    /// The program on a log that comes through a pipe.
    pub fn whole(&self, log: &[u8]) -> io::Result<Output> {
        let (theirs, mut ours) = io::pipe()?;
        let child = self.spawn(theirs)?;
        output(child, move || ours.write_all(log))
    }

    /// The program on a log of which each read gets one piece. A pipe joins what is
    /// written to it between two reads; datagrams stay apart. What a read has no room
    /// for of a datagram is lost, so the program must read with room for a piece.
    pub fn in_pieces(&self, log: &[u8]) -> io::Result<Output> {
        let (ours, theirs) = UnixDatagram::pair()?;
        let child = self.spawn(OwnedFd::from(theirs))?;
        output(child, move || send_pieces(&ours, log))
    }
}

/// What the program prints while it is fed. It may stop before it has read everything,
/// so a failed write is no fault.
fn output(child: Child, feed: impl FnOnce() -> io::Result<()> + Send) -> io::Result<Output> {
    thread::scope(|scope| {
        scope.spawn(move || drop(feed()));
        child.wait_with_output()
    })
}

/// Pieces of 1 to 7 bytes, the same for the same log.
pub fn pieces(log: &[u8]) -> Vec<&[u8]> {
    let mut rng = Rng::for_log(0, log.len() as u64);
    let mut pieces = Vec::new();
    let mut rest = log;
    while !rest.is_empty() {
        let (piece, after) = rest.split_at(rest.len().min(1 + rng.below(7)));
        pieces.push(piece);
        rest = after;
    }
    pieces
}

/// Goes on until the program has closed its input: an empty datagram reads as the end
/// of the input, and a program that asks again is told again.
fn send_pieces(to: &UnixDatagram, log: &[u8]) -> io::Result<()> {
    for piece in pieces(log) {
        to.send(piece)?;
    }
    loop {
        to.send(&[])?;
    }
}
