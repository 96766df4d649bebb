//! Demands 1 and 3 on drawn inputs: any call ends and writes only what it may, and any sequence
//! leaves what the writes not taken back would leave alone.

use second::areas::{Firsts, Settings};
use second::bench::{command, Bench, SETTINGS};
use second::frames::{closed, error_reply};
use second::link::{answer, step_back};
use second::{Board, Outcome};
use std::collections::{BTreeSet, VecDeque};

/// Drawn numbers, the same in every run (xorshift).
struct Dice(u64);

impl Dice {
    fn roll(&mut self, sides: usize) -> usize {
        self.0 ^= self.0 << 13;
        self.0 ^= self.0 >> 7;
        self.0 ^= self.0 << 17;
        (self.0 >> 11) as usize % sides
    }

    fn pick<T: Clone>(&mut self, from: &[T]) -> T {
        from[self.roll(from.len())].clone()
    }

    fn bytes(&mut self, count: usize) -> Vec<u8> {
        (0..count).map(|_| self.roll(256) as u8).collect()
    }

    fn digits(&mut self, count: usize) -> String {
        (0..count).map(|_| self.pick(&["0", "1", "7", "8", "A", "F"])).collect()
    }
}

/// The axes fitted throughout.
const FITTED: u8 = 0x7F;

/// ID and content of a command near the limits of a board with three points.
fn content(dice: &mut Dice) -> String {
    let start = dice.pick(&[1, 1, 1, 2, 2, 3, 0, 4]);
    let count = dice.pick(&[1, 1, 1, 2, 2, 3, 0]);
    let column = dice.pick(&[300, 300, 301, 500, 900, 998, 999, 299, 1_000]);
    let columns = dice.pick(&[0, 1, 2, 30, 100, 255]);
    let program = dice.pick(&["00", "00", "00", "00", "01"]);
    let integer = dice.pick(&[200, 200, 201, 250, 290, 298, 299, 199, 300]);
    let integers = dice.pick(&[0, 1, 2, 8, 50, 100]);
    let flag = dice.pick(&[600, 600, 601, 607, 608, 700, 898, 899, 599, 900]);
    let flags = dice.pick(&[0, 1, 2, 8, 13, 300]);
    match dice.roll(21) {
        0 => format!("200{}", dice.digits(10)),
        1 => "208".to_string(),
        2 => format!("209{start:03X}{count:03X}"),
        3 => format!("210{program}{column:03X}{columns:02X}"),
        4 => format!("212{}", dice.digits(2)),
        5 | 6 => format!("246{start:03X}{count:03X}"),
        7..=9 => format!("24E{program}{column:03X}{columns:02X}{}", dice.digits(2 * columns)),
        10 => format!("2{}", dice.digits(2)),
        11 => format!("20D{program}{flag:04X}{flags:04X}"),
        12 => format!("20E{program}{integer:03X}{integers:02X}"),
        13 | 14 => format!("24B{program}{flag:04X}{}", dice.pick(&["0", "1", "1", "2", "F"])),
        15..=17 => {
            format!("24C{program}{integer:03X}{integers:02X}{}", dice.digits(8 * integers))
        }
        _ => {
            let points: String = (0..count).map(|_| point(dice)).collect();
            format!("244{start:03X}{count:03X}{points}")
        }
    }
}

/// A point for 244H, sometimes with no axis or an unfitted one.
fn point(dice: &mut Dice) -> String {
    let pattern =
        dice.pick(&[0x01u8, 0x03, 0x05, 0x40, 0x7F, 0x2A, 0x10, 0x08, 0x1C, 0x42, 0x00, 0x81]);
    format!("{pattern:02X}{}", dice.digits(12 + 8 * pattern.count_ones() as usize))
}

/// A frame, most often a good one.
fn frame(dice: &mut Dice) -> Vec<u8> {
    let text = content(dice);
    let mut frame = command(0x99, text.as_bytes());
    match dice.roll(12) {
        0 => {
            let at = dice.roll(frame.len());
            frame[at] = dice.roll(256) as u8;
        }
        1 => {
            let at = dice.roll(frame.len() - 4);
            frame.truncate(frame.len() - 4);
            frame[at] = dice.pick(b"0F!ag@ \r\n");
            frame = closed(frame);
        }
        2 => {
            let sc = frame.len() - 4;
            frame[sc..sc + 2].copy_from_slice(b"@@");
        }
        3 => frame = command(0x99, [text, dice.digits(1)].concat().as_bytes()),
        4 | 5 => frame = command(0x99, text.to_ascii_lowercase().as_bytes()),
        _ => {}
    }
    frame
}

fn bench(journal_length: usize) -> Bench {
    let mut bench = Bench::fresh(3, journal_length);
    bench.settings.fitted = FITTED;
    bench
}

/// Bytes of the entry an accepted write adds: 5+40p, 5+c, 5+4i or 6 for a flag; None for a query.
fn entry_length(frame: &[u8]) -> Option<usize> {
    let field = |from: usize, to: usize| {
        usize::from_str_radix(&String::from_utf8_lossy(&frame[from..to]), 16).unwrap_or(0)
    };
    match frame[3..6].to_ascii_uppercase().as_slice() {
        b"244" | b"246" => Some(5 + 40 * field(9, 12)),
        b"24B" => Some(6),
        b"24C" => Some(5 + 4 * field(11, 13)),
        b"24E" => Some(5 + field(11, 13)),
        _ => None,
    }
}

/// A board, the accepted writes not taken back, and the entries its journal must hold.
struct Sequence {
    bench: Bench,
    writes: Vec<Vec<u8>>,
    entries: VecDeque<usize>,
    dropped: usize,
}

impl Sequence {
    fn hand(&mut self, frame: &[u8]) -> u16 {
        let (number, _) = self.bench.hand(frame);
        if let (0, Some(new)) = (number, entry_length(frame)) {
            while self.entries.iter().sum::<usize>() + new > self.bench.board.journal.len() {
                self.entries.pop_front();
                self.dropped += 1;
            }
            self.entries.push_back(new);
            self.writes.push(frame.to_vec());
        }
        number
    }

    /// A step back is refused only when the journal has no entry left.
    fn step_back(&mut self) {
        let expected = if self.entries.pop_back().is_some() { 0 } else { 9 };
        assert_eq!(self.bench.step_back(), expected);
        self.writes.truncate(self.writes.len() - usize::from(expected == 0));
    }

    /// The kept count is the slots', and so 11 never comes.
    fn check_count(&self) {
        let patterns = self.bench.board.points.chunks(40).map(|slot| slot[0]);
        let slots = patterns.filter(|&pattern| pattern != 0).count();
        assert_eq!(self.bench.board.effective, slots);
    }

    fn check_journal(&self) {
        let board = &self.bench.board;
        assert_eq!(board.used, self.entries.iter().sum::<usize>());
        assert!(board.journal[board.used..].iter().all(|&byte| byte == 0));
    }

    /// Points, columns, integers and flags are as after the writes alone, in order, from fresh: under
    /// release 2, which answers what release 1 accepts the same.
    fn check_by_replay(&self) {
        let mut alone = bench(65_536);
        alone.settings.release = 2;
        for frame in &self.writes {
            assert_eq!(alone.hand(frame).0, 0);
        }
        assert_eq!(self.bench.board.points, alone.board.points);
        assert_eq!(self.bench.board.effective, alone.board.effective);
        assert_eq!(self.bench.board.columns, alone.board.columns);
        assert_eq!(self.bench.board.integers, alone.board.integers);
        assert_eq!(self.bench.board.flags, alone.board.flags);
    }
}

#[test]
fn a_sequence_leaves_what_the_writes_not_taken_back_leave() {
    let (mut seen, mut dropped, mut small_accepted) = (BTreeSet::new(), 0, 0);
    for seed in 1..=80u64 {
        let mut dice = Dice(seed * 0x9E37_79B9);
        let bench = bench(dice.pick(&[620, 621, 700, 1_200]));
        let mut sequence =
            Sequence { bench, writes: Vec::new(), entries: VecDeque::new(), dropped: 0 };
        for _ in 0..200 {
            if dice.roll(50) == 0 {
                sequence.bench.settings.release = dice.pick(&[1, 2, 2]);
            }
            if dice.roll(12) == 0 {
                sequence.step_back();
            } else {
                let (release, frame) = (sequence.bench.settings.release, frame(&mut dice));
                let number = sequence.hand(&frame);
                seen.insert(number);
                let small = frame[3..6].iter().any(u8::is_ascii_lowercase);
                assert!(number != 0 || !small || release == 2);
                small_accepted += usize::from(number == 0 && small);
            }
            sequence.check_journal();
            sequence.check_count();
            if dice.roll(10) == 0 {
                sequence.check_by_replay();
            }
        }
        dropped += sequence.dropped;
    }
    // The draw reaches what it is for, and 11 isn't among it.
    let seen: Vec<u16> = seen.into_iter().collect();
    assert_eq!(seen, [0, 6, 7, 8, 101, 102, 103, 104, 105, 106, 107, 108]);
    assert!(dropped > 500, "{dropped}");
    assert!(small_accepted > 100, "{small_accepted}");
}

/// A board of drawn lengths and bytes, often sound.
fn any_board(dice: &mut Dice) -> Board {
    let mut bench = bench(620);
    for _ in 0..dice.roll(4) {
        bench.hand(&frame(dice));
    }
    let mut board = bench.board;
    let length = dice.pick(&[0, 1, 39, 40, 80, 120, 121, 60_000, 60_040]);
    let at = dice.roll(20);
    match dice.roll(16) {
        0 => board.points.resize(length, 0x55),
        1 => board.columns = dice.bytes(length.min(700)),
        2 => board.journal.resize(length + 500, 0x50),
        3 => board.used = dice.pick(&[1, 45, 619, 620, 621, usize::MAX]),
        4 => board.journal[at] = dice.roll(256) as u8,
        5 => board.points = dice.bytes(120),
        6 => board = Board { points: vec![], columns: vec![], used: at, ..Board::fresh(0, 0) },
        7 => board.integers = dice.bytes(length.min(400)),
        8 => board.flags = dice.bytes(length.min(300)),
        9 => board.flags = dice.bytes(300),
        10 | 11 => board.effective = dice.pick(&[0, 1, 2, 3, 4, 1_500, usize::MAX]),
        _ => {}
    }
    board
}

/// First numbers, often the bench's, now and then ones that run past.
fn any_firsts(dice: &mut Dice) -> Firsts {
    let bench = SETTINGS.firsts;
    match dice.roll(8) {
        0 => Firsts { integer: dice.pick(&[0, 199, 201, 0xF9C, 0xF9D, 0xFFFF]), ..bench },
        1 => Firsts { flag: dice.pick(&[0, 599, 601, 0xFED4, 0xFED5, 0xFFFF]), ..bench },
        _ => bench,
    }
}

/// Checks the reply area after a call; `text` is the reply and `frame` what was answered.
fn check_reply(number: u16, text: &[u8], frame: &[u8]) {
    match number {
        0 => {
            assert!(text.len() <= 1_024);
            assert_eq!(text[..6], [b"#99", frame[3..6].to_ascii_uppercase().as_slice()].concat());
            assert_eq!(text, closed(text[..text.len() - 4].to_vec()));
        }
        1..=13 => assert!(text.is_empty()),
        _ => assert_eq!(text, error_reply(0x99, number)),
    }
}

/// What is told of the sum goes with the number and with what stands for the SC.
fn check_sum(number: u16, sum: u8, frame: &[u8], unchecked: u8) {
    let marked = frame.ends_with(b"@@\r\n");
    let expected = match number {
        1..=6 | 10 | 13 => 0,
        7 => 3,
        _ if marked => 2,
        _ => 1,
    };
    assert_eq!(sum, expected, "{number} {frame:?}");
    assert_eq!(number == 12, sum == 2 && unchecked == 0, "{number} {frame:?}");
}

#[test]
fn any_call_ends_and_writes_only_what_it_may() {
    let mut dice = Dice(20_261_115);
    let mut seen = BTreeSet::new();
    for _ in 0..20_000 {
        let mut board = any_board(&mut dice);
        let count = dice.roll(30);
        let frame = if dice.roll(10) == 0 { dice.bytes(count) } else { frame(&mut dice) };
        let axes = if dice.roll(20) == 0 { dice.bytes(72) } else { vec![0; 72] };
        let fitted = dice.pick(&[0x7F, 0x7F, 0xFF, 0x01, 0x7F, 0x00, 0x7F]);
        let area = dice.pick(&[1_024, 1_024, 1_024, 1_500, 1_023, 1_024, 1_024, 0]);
        let mut reply = dice.bytes(area);
        let (board_before, reply_before) = (board.clone(), reply.clone());
        let release = dice.pick(&[1, 1, 1, 1, 2, 2, 2, 2, 0, 3]);
        let unchecked = dice.pick(&[0, 1, 0x80, 0xFF]);
        let firsts = any_firsts(&mut dice);
        let settings = Settings { fitted, station: 0x99, release, unchecked, firsts };
        let Outcome { number, reply_length, sum } =
            answer(&frame, &mut board, &axes, settings, &mut reply);
        seen.insert(number);
        check_reply(number, &reply[..reply_length], &frame);
        check_sum(number, sum, &frame, unchecked);
        assert_eq!(reply[reply_length..], reply_before[reply_length..]);
        assert!(number == 0 || board == board_before);
    }
    let expected: Vec<u16> = (0..=8).chain(10..=13).chain(101..=108).collect();
    assert_eq!(seen.into_iter().collect::<Vec<u16>>(), expected);
}

#[test]
fn any_step_back_ends_and_a_refused_one_changes_nothing() {
    let mut dice = Dice(987_654_321);
    let mut seen = BTreeSet::new();
    for _ in 0..5_000 {
        let mut board = any_board(&mut dice);
        let before = board.clone();
        let number = step_back(&mut board, any_firsts(&mut dice));
        seen.insert(number);
        if number == 0 {
            assert!(board.used < before.used);
            assert_eq!(before.effective, before.effective_slots());
            assert_eq!(board.effective, board.effective_slots());
        } else {
            assert_eq!(board, before);
        }
    }
    assert_eq!(seen.into_iter().collect::<Vec<u16>>(), [0, 2, 3, 4, 9, 10, 11]);
}

#[test]
fn a_line_gives_the_same_replies_however_it_is_cut() {
    let mut dice = Dice(47);
    for _ in 0..200 {
        let mut line = Vec::new();
        for _ in 0..dice.roll(12) {
            let noise = dice.pick(&[0, 0, 1, 5, 600]);
            line.extend((0..noise).map(|_| dice.pick(b"!\r\n 0#")));
            line.extend(frame(&mut dice));
            if dice.roll(8) == 0 {
                line.push(b'!');
                line.extend(vec![b'0'; 1_000 + dice.roll(40)]);
            }
        }
        let mut whole = bench(620);
        let replies = whole.receive(&line);
        let mut cut = bench(620);
        let mut pieces = Vec::new();
        let mut rest = line.as_slice();
        while !rest.is_empty() {
            let (piece, after) = rest.split_at((1 + dice.roll(200)).min(rest.len()));
            pieces.extend(cut.receive(piece));
            rest = after;
        }
        assert_eq!(pieces, replies);
        assert_eq!(cut.board, whole.board);
    }
}
