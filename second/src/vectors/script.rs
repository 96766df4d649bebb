//! Writing operations: one letter, then its numbers, high byte first.

use crate::areas::Settings;
use crate::bench::{command, SETTINGS};

/// An area that may be spoiled or lent at another length, by its number in the format.
#[derive(Clone, Copy, Debug, PartialEq, Eq)]
pub enum Part {
    Points = 0,
    Columns = 1,
    Integers = 2,
    Flags = 3,
    Journal = 4,
    Reply = 5,
    Axes = 6,
}

/// Station of the bench listing.
pub const STATION: u8 = SETTINGS.station;

#[derive(Default)]
pub struct Script {
    bytes: Vec<u8>,
    station: u8,
}

impl Script {
    /// A fresh board as on the bench.
    pub fn board(&mut self, points: u16, journal_length: u32) {
        self.board_with(points, journal_length, SETTINGS);
    }

    pub fn board_with(&mut self, points: u16, journal_length: u32, settings: Settings) {
        self.bytes.push(b'B');
        self.bytes.extend(points.to_be_bytes());
        self.four(settings);
        self.bytes.extend(journal_length.to_be_bytes());
        self.firsts(settings);
    }

    /// Fitted axes, station, release, and whether '@@' is allowed.
    fn four(&mut self, settings: Settings) {
        let Settings { fitted, station, release, unchecked, .. } = settings;
        self.bytes.extend([fitted, station, release, unchecked]);
    }

    fn firsts(&mut self, settings: Settings) {
        self.bytes.extend(settings.firsts.integer.to_be_bytes());
        self.bytes.extend(settings.firsts.flag.to_be_bytes());
        self.station = settings.station;
    }

    pub fn spoil(&mut self, part: Part, offset: u32, value: u8) {
        self.bytes.extend([b'X', part as u8]);
        self.bytes.extend(offset.to_be_bytes());
        self.bytes.push(value);
    }

    pub fn spoil_run(&mut self, part: Part, offset: u32, values: &[u8]) {
        for (offset, &value) in (offset..).zip(values) {
            self.spoil(part, offset, value);
        }
    }

    pub fn used(&mut self, used: u64) {
        self.bytes.push(b'U');
        self.bytes.extend(used.to_be_bytes());
    }

    /// Sets the kept count of effective points.
    pub fn effective(&mut self, effective: u64) {
        self.bytes.push(b'N');
        self.bytes.extend(effective.to_be_bytes());
    }

    pub fn lend(&mut self, part: Part, length: u32) {
        self.bytes.extend([b'L', part as u8]);
        self.bytes.extend(length.to_be_bytes());
    }

    pub fn settings(&mut self, settings: Settings) {
        self.bytes.push(b'P');
        self.four(settings);
        self.firsts(settings);
    }

    /// Answers these bytes.
    pub fn frame(&mut self, frame: &[u8]) {
        self.long(b'F', frame);
    }

    /// Answers the command with this message ID and content, true SC, at the board's station.
    pub fn ask(&mut self, id_and_content: &str) {
        let frame = command(self.station, id_and_content.as_bytes());
        self.frame(&frame);
    }

    pub fn ask_all(&mut self, several: &[&str]) {
        for id_and_content in several {
            self.ask(id_and_content);
        }
    }

    /// Checks these bytes.
    pub fn check(&mut self, frame: &[u8]) {
        self.long(b'C', frame);
    }

    /// Acts on these bytes.
    pub fn act(&mut self, frame: &[u8]) {
        self.long(b'A', frame);
    }

    /// Checks these bytes and then acts on them.
    pub fn look(&mut self, frame: &[u8]) {
        self.check(frame);
        self.act(frame);
    }

    /// Checks the command with this message ID and content and then acts on it.
    pub fn look_at(&mut self, id_and_content: &str) {
        let frame = command(self.station, id_and_content.as_bytes());
        self.look(&frame);
    }

    pub fn look_at_all(&mut self, several: &[&str]) {
        for id_and_content in several {
            self.look_at(id_and_content);
        }
    }

    /// Answers a line of the documents; CR LF is added.
    pub fn line(&mut self, line: &str) {
        self.frame(&[line.as_bytes(), b"\r\n"].concat());
    }

    pub fn step_back(&mut self) {
        self.bytes.push(b'S');
    }

    pub fn steps_back(&mut self, several: usize) {
        for _ in 0..several {
            self.step_back();
        }
    }

    /// Looks for a frame in these bytes.
    pub fn find(&mut self, received: &[u8]) {
        self.long(b'R', received);
    }

    pub fn end(mut self) -> Vec<u8> {
        self.bytes.push(b'E');
        self.bytes
    }

    fn long(&mut self, letter: u8, bytes: &[u8]) {
        self.bytes.push(letter);
        self.bytes.extend((bytes.len() as u16).to_be_bytes());
        self.bytes.extend(bytes);
    }
}
