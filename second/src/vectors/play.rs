//! Playing operations on the second program: what the vectors program must write.

use super::script::Part;
use crate::areas::{Board, Firsts, Settings};
use crate::bench::SETTINGS;
use crate::differential::Finding;
use crate::frames;
use crate::link::{self, Outcome, Shown};
use std::fmt::Write;

/// How many areas there are, and the buffers they are lent from, in the order of `Part`.
const PARTS: usize = 7;
const BUFFERS: [usize; PARTS] = [60_000, 720, 420, 320, 65_600, 1_100, 80];
const PRIME: u64 = 4_294_967_291;

/// A call that may change the board and write a reply.
type Done = fn(&[u8], &mut Board, &[u8], Settings, &mut [u8]) -> Outcome;

/// The text that these operations write. They are our own: a wrong one is a panic.
pub fn play(stdin: &[u8]) -> String {
    let mut player = Player::new(stdin);
    while player.next() {}
    assert!(player.rest.is_empty(), "operations after the end");
    player.text
}

struct Player<'a> {
    rest: &'a [u8],
    buffers: [Vec<u8>; PARTS],
    lent: [usize; PARTS],
    used: usize,
    effective: usize,
    settings: Settings,
    text: String,
}

impl Player<'_> {
    fn new(stdin: &[u8]) -> Player<'_> {
        Player {
            rest: stdin,
            buffers: BUFFERS.map(|length| vec![0; length]),
            lent: [0; PARTS],
            used: 0,
            effective: 0,
            settings: SETTINGS,
            text: String::new(),
        }
    }

    /// Plays one operation; false after the end.
    fn next(&mut self) -> bool {
        match self.number(1) as u8 {
            b'B' => self.board(),
            b'X' => self.spoil(),
            b'U' => self.used = self.number(8) as usize,
            b'N' => self.effective = self.number(8) as usize,
            b'L' => self.lend(),
            b'P' => self.change_settings(),
            b'F' => self.answer(),
            b'C' => self.check(),
            b'A' => self.act(),
            b'S' => self.step_back(),
            b'R' => self.find(),
            b'E' => return false,
            letter => panic!("no operation {letter:02X}"),
        }
        true
    }

    fn take(&mut self, count: usize) -> Vec<u8> {
        let (taken, rest) = self.rest.split_at(count);
        self.rest = rest;
        taken.to_vec()
    }

    fn number(&mut self, width: usize) -> u64 {
        self.take(width).iter().fold(0, |number, &byte| number << 8 | u64::from(byte))
    }

    /// A fresh board. Whole buffers are cleared, so that nothing of another board is ever lent.
    fn board(&mut self) {
        let points = 40 * self.number(2) as usize;
        let four = self.four();
        let journal = self.number(4) as usize;
        self.settings = settings(four, self.firsts());
        for buffer in &mut self.buffers {
            buffer.fill(0);
        }
        self.buffers[Part::Reply as usize].fill(0xEE);
        self.lent = [points, 700, 400, 300, journal, 1_024, 72];
        self.used = 0;
        self.effective = 0;
        assert!(self.lent.iter().zip(BUFFERS).all(|(&lent, length)| lent <= length));
    }

    fn change_settings(&mut self) {
        self.settings = settings(self.four(), self.firsts());
    }

    /// Fitted axes, station, release, and whether '@@' is allowed.
    fn four(&mut self) -> [u8; 4] {
        std::array::from_fn(|_| self.number(1) as u8)
    }

    fn firsts(&mut self) -> Firsts {
        Firsts { integer: self.number(2) as u16, flag: self.number(2) as u16 }
    }

    fn spoil(&mut self) {
        let (part, offset) = (self.number(1) as usize, self.number(4) as usize);
        self.buffers[part][offset] = self.number(1) as u8;
    }

    fn lend(&mut self) {
        let (part, length) = (self.number(1) as usize, self.number(4) as usize);
        assert!(length <= BUFFERS[part], "lends more than there is");
        self.lent[part] = length;
    }

    fn lent(&self, part: Part) -> &[u8] {
        &self.buffers[part as usize][..self.lent[part as usize]]
    }

    fn board_lent(&self) -> Board {
        Board {
            points: self.lent(Part::Points).to_vec(),
            columns: self.lent(Part::Columns).to_vec(),
            integers: self.lent(Part::Integers).to_vec(),
            flags: self.lent(Part::Flags).to_vec(),
            journal: self.lent(Part::Journal).to_vec(),
            used: self.used,
            effective: self.effective,
        }
    }

    /// Lays bytes back to the front of a buffer.
    fn lay(&mut self, part: Part, bytes: &[u8]) {
        self.buffers[part as usize][..bytes.len()].copy_from_slice(bytes);
    }

    fn lay_board(&mut self, board: &Board) {
        self.lay(Part::Points, &board.points);
        self.lay(Part::Columns, &board.columns);
        self.lay(Part::Integers, &board.integers);
        self.lay(Part::Flags, &board.flags);
        self.lay(Part::Journal, &board.journal);
        self.used = board.used;
        self.effective = board.effective;
    }

    fn answer(&mut self) {
        self.done('F', link::answer);
    }

    fn act(&mut self) {
        self.done('A', link::act);
    }

    /// A frame answered or acted on, and its line, headed by this letter.
    fn done(&mut self, letter: char, call: Done) {
        let frame = self.frame();
        let mut board = self.board_lent();
        let mut reply = self.lent(Part::Reply).to_vec();
        let outcome = call(&frame, &mut board, self.lent(Part::Axes), self.settings, &mut reply);
        self.lay_board(&board);
        self.lay(Part::Reply, &reply);
        let Outcome { number, reply_length, sum } = outcome;
        let digests = [self.kept(), self.digest(Part::Reply)].concat();
        let kept = self.kept_numbers();
        self.write(format!("{letter} {number} {reply_length} {kept} {sum}{digests}"));
    }

    fn check(&mut self) {
        let frame = self.frame();
        let board = self.board_lent();
        let shown = link::check(&frame, &board, self.lent(Part::Axes), self.settings);
        let Shown { number, message, start, count, sum } = shown;
        self.write(format!("C {number} {message} {start} {count} {sum}{}", self.kept()));
    }

    fn frame(&mut self) -> Vec<u8> {
        let length = self.number(2) as usize;
        self.take(length)
    }

    fn step_back(&mut self) {
        let mut board = self.board_lent();
        let number = link::step_back(&mut board, self.settings.firsts);
        self.lay_board(&board);
        self.write(format!("S {number} {}{}", self.kept_numbers(), self.kept()));
    }

    fn find(&mut self) {
        let length = self.number(2) as usize;
        let Finding { code, start, length, drop } = frames::find(&self.take(length)).into();
        self.write(format!("R {code} {start} {length} {drop}"));
    }

    /// The used length and the count of effective points.
    fn kept_numbers(&self) -> String {
        format!("{} {}", self.used, self.effective)
    }

    /// Digests of the areas that the board keeps.
    fn kept(&self) -> String {
        [Part::Points, Part::Columns, Part::Integers, Part::Flags, Part::Journal]
            .map(|part| self.digest(part))
            .concat()
    }

    fn digest(&self, part: Part) -> String {
        format!(" {:08X}", digest(self.lent(part)))
    }

    fn write(&mut self, line: String) {
        let _ = writeln!(self.text, "{line}");
    }
}

fn settings([fitted, station, release, unchecked]: [u8; 4], firsts: Firsts) -> Settings {
    Settings { fitted, station, release, unchecked, firsts }
}

/// For each byte h becomes (31·h + byte + 1) mod 4,294,967,291, from 0.
fn digest(bytes: &[u8]) -> u64 {
    bytes.iter().fold(0, |h, &byte| (31 * h + u64::from(byte) + 1) % PRIME)
}

#[cfg(test)]
mod tests {
    use super::*;

    #[test]
    fn digests_tell_lengths_and_bytes_apart() {
        assert_eq!(digest(&[]), 0);
        assert_eq!(digest(&[0]), 1);
        assert_eq!(digest(&[0, 0]), 32);
        assert_eq!(digest(&[0xFF, 0x01]), 31 * 256 + 2);
        // 31 to the power of 6 and so on, by hand: seven bytes of FF pass the prime.
        let by_hand = (0..7).fold(0u64, |h, _| (31 * h + 256) % 4_294_967_291);
        assert_eq!(digest(&[0xFF; 7]), by_hand);
    }

    /// The message of each frame of these operations that this operation accepts.
    fn accepted(stdin: &[u8], letter: char) -> Vec<String> {
        let mut player = Player::new(stdin);
        let mut messages = Vec::new();
        loop {
            let operation = player.rest;
            if !player.next() {
                return messages;
            }
            let last = player.text.lines().next_back().unwrap_or("");
            if operation[0] == letter as u8 && last.starts_with(&format!("{letter} 0 ")) {
                messages.push(String::from_utf8_lossy(&operation[6..9]).into_owned());
            }
        }
    }

    #[test]
    fn the_vectors_accept_each_message_often() {
        let stdin = super::super::stdin();
        let accepted = |letter: char| accepted(&stdin, letter);
        for (letter, least) in [('F', 5), ('C', 2), ('A', 2)] {
            let accepted = accepted(letter);
            for message in crate::differential::tally::MESSAGES {
                let count = accepted.iter().filter(|&accepted| accepted == message).count();
                assert!(count >= least, "{letter} {message}: {count}");
            }
        }
        let accepted = accepted('F');
        for message in ["20d", "20e", "24b", "24c", "24e"] {
            let count = accepted.iter().filter(|&accepted| accepted == message).count();
            assert!(count >= 2, "{message}: {count}");
        }
    }

    #[test]
    fn a_small_script_by_hand() {
        let script = [
            &b"B\x00\x01\xFF\x99\x01\x80\x00\x00\x02\x1C\x00\xC8\x02\x58"[..],
            b"F\x00\x0A!99208@@\r\n",
            b"P\x01\x98\x02\x01\x00\xC8\x02\x58F\x00\x0A!992082D\r\n",
            b"P\x01\x98\x02\x00\x00\xC8\x02\x58F\x00\x0A!98208@@\r\n",
            b"P\x01\x98\x00\x01\x00\xC8\x02\x58F\x00\x0A!98208@@\r\n",
            b"P\x01\x98\x02\x00\x0F\x9D\x02\x58SP\x01\x98\x01\x01\x00\xC8\x02\x58",
            b"U\x00\x00\x00\x00\x00\x00\x00\x01S",
            b"L\x00\x00\x00\x00\x00X\x02\x00\x00\x00\x00\x07S",
            b"R\x00\x03!\r\n",
            b"B\x00\x01\xFF\x99\x01\x01\x00\x00\x02\x1C\x00\xC8\x02\x58",
            b"C\x00\x10!99246001001@@\r\nA\x00\x10!99246001001@@\r\n",
            b"C\x00\x10!99246001002@@\r\nA\x00\x10!99246001002@@\r\n",
            b"N\x00\x00\x00\x00\x00\x00\x00\x01F\x00\x0A!99208@@\r\n",
            b"N\xFF\xFF\xFF\xFF\xFF\xFF\xFF\xFFF\x00\x0A!99208@@\r\nS",
            b"B\x00\x01\xFF\x99\x01\x01\x00\x00\x02\x1C\x00\xC8\x02\x58SE",
        ]
        .concat();
        let text = play(&script);
        let lines: Vec<&str> = text.lines().collect();
        assert_eq!(lines.len(), 16);
        assert!(lines[0].starts_with("F 0 13 0 0 2 "));
        assert_eq!(lines[0].split(' ').count(), 12);
        assert!(lines[1].starts_with("F 8 0 0 0 1 "));
        assert_eq!(lines[0].split(' ').next_back(), lines[1].split(' ').next_back());
        assert!(lines[2].starts_with("F 12 0 0 0 2 "));
        assert!(lines[3].starts_with("F 13 0 0 0 0 "));
        assert!(lines[4].starts_with("S 10 0 0 "));
        assert!(lines[5].starts_with("S 4 1 0 "));
        assert_eq!(lines[5].split(' ').count(), 9);
        assert!(lines[6].starts_with("S 2 1 0 00000000 "));
        assert_ne!(lines[5].split(' ').nth(6), lines[6].split(' ').nth(6));
        assert_eq!(lines[7], "R 0 0 3 3");
        assert!(lines[8].starts_with("C 0 582 1 1 2 "));
        assert_eq!(lines[8].split(' ').count(), 11);
        assert!(lines[9].starts_with("A 0 10 45 0 2 "));
        assert_eq!(lines[9].split(' ').count(), 12);
        assert!(lines[10].starts_with("C 106 0 0 0 2 "));
        assert!(lines[11].starts_with("A 106 10 45 0 2 "));
        // The journal's digest: another after the act alone.
        let journals: Vec<Option<&str>> =
            lines[8..12].iter().map(|line| line.split(' ').nth(10)).collect();
        assert_ne!(journals[0], journals[1]);
        assert_eq!(journals[1..], [journals[1]; 3]);
        // A count that is set stays until a board is fresh.
        assert!(lines[12].starts_with("F 0 13 45 1 2 "));
        assert!(lines[13].starts_with("F 11 0 45 18446744073709551615 2 "));
        assert!(lines[14].starts_with("S 11 45 18446744073709551615 "));
        assert!(lines[15].starts_with("S 9 0 0 "));
        assert!(text.ends_with('\n'));
    }
}
