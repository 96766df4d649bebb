//! A player (`host/play_calls.c` with an archive) as a process of its own: it is sent operations and
//! sends back what each call left. README.md, "Player", has their bytes.

use super::compare::{parts, Call, PARTS};
use super::left::{changed, Left};
use super::product::{Difference, Made, Product};
use crate::areas::Settings;
use std::io::{self, BufReader, BufWriter, Read, Write};
use std::process::{Child, ChildStdin, Command, Stdio};
use std::sync::mpsc::{channel, Receiver, Sender};
use std::thread::JoinHandle;

/// A call's number, and what it must leave.
type Expected = (usize, Left);

pub struct Player {
    child: Child,
    /// None once a difference or the end has been found.
    line: Option<Line>,
    reader: Option<JoinHandle<Result<(), Difference>>>,
}

/// The way to the player, and to the thread that compares what comes back.
struct Line {
    operations: BufWriter<ChildStdin>,
    expected: Sender<Expected>,
    /// The areas as the player holds them.
    held: [Vec<u8>; PARTS],
    /// After so many calls, what was left by them is sent back.
    batch: usize,
}

impl Player {
    /// Starts a player; `words` is its command.
    pub fn start(words: &str, guard: usize, batch: usize) -> io::Result<Player> {
        let mut words = words.split_whitespace();
        let name = words.next().ok_or_else(|| io::Error::other("no command"))?;
        let mut command = Command::new(name);
        command.args(words).stdin(Stdio::piped()).stdout(Stdio::piped());
        let mut child = command.spawn()?;
        let (Some(stdin), Some(stdout)) = (child.stdin.take(), child.stdout.take()) else {
            return Err(io::Error::other("no way to the player"));
        };
        let (expected, receiver) = channel();
        let reader = std::thread::spawn(move || compare(BufReader::new(stdout), &receiver));
        let mut line = Line {
            operations: BufWriter::with_capacity(1 << 16, stdin),
            expected,
            held: Default::default(),
            batch: batch.max(1),
        };
        line.operation(b'G', &[(guard as u64, 4)])?;
        Ok(Player { child, line: Some(line), reader: Some(reader) })
    }

    /// Closes the line and waits for all that comes back, and for the player's end.
    fn close(&mut self) -> Result<(), Difference> {
        let flushed = self.line.take().map_or(Ok(()), |mut line| line.operations.flush());
        let compared = self.reader.take().map_or(Ok(()), |reader| match reader.join() {
            Ok(compared) => compared,
            Err(_) => Err(Difference::End("comparing failed".to_string())),
        });
        if compared.is_err() {
            // It may be busy with a call that doesn't end; what it does now is of no interest.
            let _ = self.child.kill();
        }
        let status = self.child.wait();
        compared?;
        flushed.map_err(|error| Difference::End(format!("the player took no more: {error}")))?;
        match status {
            Ok(status) if status.success() => Ok(()),
            Ok(status) => Err(Difference::End(format!("the player ended with {status}"))),
            Err(error) => Err(Difference::End(format!("the player's end: {error}"))),
        }
    }
}

impl Product for Player {
    fn make(&mut self, made: &Made) -> Result<(), Difference> {
        let sent = self.line.as_mut().map_or(Ok(()), |line| line.make(made));
        match sent {
            Ok(()) => Ok(()),
            // Either end is closed: what came back says why.
            Err(error) => {
                self.close()?;
                Err(Difference::End(format!("the player took no more: {error}")))
            }
        }
    }

    fn end(&mut self) -> Result<(), Difference> {
        self.close()
    }
}

impl Line {
    fn make(&mut self, made: &Made) -> io::Result<()> {
        for (part, bytes) in parts(made.call, made.before).into_iter().enumerate() {
            self.set(part, bytes)?;
        }
        let left = made.left();
        for (held, area) in self.held.iter_mut().zip(&left.areas) {
            area.apply(held);
        }
        let closed = |_| io::Error::other("comparing has ended");
        self.expected.send((made.number, left)).map_err(closed)?;
        let kind = match made.call {
            Call::Answer { .. } => b'F',
            Call::Check { .. } => b'C',
            Call::Act { .. } => b'A',
            Call::StepBack => b'S',
            Call::Receive { .. } => b'R',
        };
        let Settings { fitted, station, release, unchecked, firsts } = made.before.settings;
        let numbers = [
            (made.before.board.used as u64, 8),
            (made.before.board.effective as u64, 8),
            (u64::from(fitted), 1),
            (u64::from(station), 1),
            (u64::from(release), 1),
            (u64::from(unchecked), 1),
            (u64::from(firsts.integer), 2),
            (u64::from(firsts.flag), 2),
        ];
        self.operation(kind, &numbers)?;
        if made.number.is_multiple_of(self.batch) {
            self.operation(b'Q', &[])?;
            self.operations.flush()?;
        }
        Ok(())
    }

    /// Makes the player hold these bytes in an area.
    fn set(&mut self, part: usize, bytes: &[u8]) -> io::Result<()> {
        if self.held[part].len() != bytes.len() {
            self.operation(b'L', &[(part as u64, 1), (bytes.len() as u64, 4)])?;
            self.held[part].resize(bytes.len(), 0);
        }
        if let Some(place) = changed(&self.held[part], bytes) {
            let (at, count) = (place.start as u64, place.len() as u64);
            self.operation(b'W', &[(part as u64, 1), (at, 4), (count, 4)])?;
            self.operations.write_all(&bytes[place.clone()])?;
            self.held[part][place.clone()].copy_from_slice(&bytes[place]);
        }
        Ok(())
    }

    /// One operation: its letter and its numbers, each of so many bytes, high byte first.
    fn operation(&mut self, letter: u8, numbers: &[(u64, usize)]) -> io::Result<()> {
        self.operations.write_all(&[letter])?;
        for &(value, width) in numbers {
            self.operations.write_all(&value.to_be_bytes()[8 - width..])?;
        }
        Ok(())
    }
}

/// Compares what comes back with what is expected, until nothing more is.
fn compare(mut from: impl Read, expected: &Receiver<Expected>) -> Result<(), Difference> {
    for (number, left) in expected {
        match Left::read(&mut from) {
            Ok(given) if given == left => {}
            Ok(given) => return Err(Difference::Left(number, Box::new(given))),
            Err(error) => return Err(Difference::Nothing(number, error.to_string())),
        }
    }
    match from.read(&mut [0]) {
        Ok(0) => Ok(()),
        _ => Err(Difference::End("the player sent more than was asked".to_string())),
    }
}
