//! A board on the bench: one set of areas and settings, fed with frames or with received bytes
//! as the bench program of document 01 ("Bench listing") is.

use crate::areas::{Board, Firsts, Settings, AXES, RECORD};
use crate::digits;
use crate::frames::{self, Found, LONGEST_REPLY};
use crate::link::{self, Shown, UNTESTED};

/// The bench's own settings.
pub const SETTINGS: Settings = Settings {
    fitted: 0xFF,
    station: 0x99,
    release: 1,
    unchecked: 1,
    firsts: Firsts { integer: 200, flag: 600 },
};

#[derive(Clone, Debug)]
pub struct Bench {
    pub board: Board,
    pub axes: Vec<u8>,
    pub settings: Settings,
    pub reply: Vec<u8>,
    /// What the sum test said of the last frame handed over.
    pub sum: u8,
    received: Vec<u8>,
}

impl Bench {
    /// A fresh board: station 99H, release 1, '@@' allowed, all eight axes fitted, zero records,
    /// integers from 200 on and flags from 600 on.
    pub fn fresh(points: usize, journal_length: usize) -> Bench {
        Bench {
            board: Board::fresh(points, journal_length),
            axes: vec![0; AXES * RECORD],
            settings: SETTINGS,
            reply: vec![0; LONGEST_REPLY],
            sum: UNTESTED,
            received: Vec::new(),
        }
    }

    /// Hands over one frame; the number and the reply.
    pub fn hand(&mut self, frame: &[u8]) -> (u16, Vec<u8>) {
        let Bench { board, axes, settings, reply, .. } = self;
        let outcome = link::answer(frame, board, axes, *settings, reply);
        self.sum = outcome.sum;
        (outcome.number, self.reply[..outcome.reply_length].to_vec())
    }

    /// Checks one frame: what the panel would show.
    pub fn check(&self, frame: &[u8]) -> Shown {
        link::check(frame, &self.board, &self.axes, self.settings)
    }

    /// Acts on one frame; the number and the reply.
    pub fn act(&mut self, frame: &[u8]) -> (u16, Vec<u8>) {
        let Bench { board, axes, settings, reply, .. } = self;
        let outcome = link::act(frame, board, axes, *settings, reply);
        self.sum = outcome.sum;
        (outcome.number, self.reply[..outcome.reply_length].to_vec())
    }

    /// Hands over the command with this message ID and content, at the bench's own station.
    pub fn ask(&mut self, id_and_content: &str) -> (u16, Vec<u8>) {
        self.hand(&command(self.settings.station, id_and_content.as_bytes()))
    }

    /// The step back; its number.
    pub fn step_back(&mut self) -> u16 {
        link::step_back(&mut self.board, self.settings.firsts)
    }

    /// Receives more bytes from the line; the replies, one after the other.
    pub fn receive(&mut self, bytes: &[u8]) -> Vec<u8> {
        self.received.extend(bytes);
        let mut replies = Vec::new();
        loop {
            match frames::find(&self.received) {
                Found::Frame { start, length, used } => {
                    let frame = self.received[start..start + length].to_vec();
                    replies.extend(self.hand(&frame).1);
                    self.received.drain(..used);
                }
                Found::TooLong { drop } => {
                    self.received.drain(..drop);
                }
                Found::Nothing { drop } | Found::Wait { drop } => {
                    self.received.drain(..drop);
                    return replies;
                }
            }
        }
    }
}

/// A command frame with a true SC.
pub fn command(station: u8, id_and_content: &[u8]) -> Vec<u8> {
    let mut text = vec![b'!'];
    digits::push(&mut text, u32::from(station), 2);
    text.extend(id_and_content);
    frames::closed(text)
}
