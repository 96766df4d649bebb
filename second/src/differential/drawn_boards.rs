//! Drawn boards: from 1 to 1,500 points, journals from the least length on, fresh or in use.

use super::compare::Lent;
use super::dice::Dice;
use crate::areas::{
    Board, Firsts, Kinds, Settings, AXES, FLAGS, INTEGERS, LAST_FLAG_NUMBER, LAST_INTEGER_NUMBER,
    MOST_POINTS, RECORD, SLOT,
};
use crate::frames::LONGEST_REPLY;
use crate::journal::least_length;

/// Numbers of points: small boards, those near the limits of a list, large ones.
const SMALL: [usize; 14] = [1, 1, 2, 2, 3, 3, 4, 5, 6, 8, 10, 12, 13, 20];
const MIDDLE: [usize; 8] = [36, 40, 41, 45, 46, 50, 64, 100];
const LARGE: [usize; 8] = [150, 255, 256, 500, 999, 1_000, 1_499, 1_500];

const LONGEST_JOURNAL: usize = 65_536;

/// The greatest first numbers from which all integers and all flags have a number.
const LAST_FIRST_INTEGER: usize = LAST_INTEGER_NUMBER + 1 - INTEGERS;
const LAST_FIRST_FLAG: usize = LAST_FLAG_NUMBER + 1 - FLAGS;

/// A sound board with its settings, records and reply area.
pub fn lent(dice: &mut Dice) -> Lent {
    let points = match dice.roll(12) {
        0 => dice.pick(&LARGE),
        1 => dice.between(1, MOST_POINTS),
        2..=4 => dice.pick(&MIDDLE),
        _ => dice.pick(&SMALL),
    };
    let board = Board::fresh(points, journal_length(dice, points));
    let mut lent = Lent { board, axes: axes(dice), settings: settings(dice), reply: reply(dice) };
    if dice.one_in(3) {
        use_points(dice, &mut lent.board.points);
        dice.fill(&mut lent.board.columns);
        dice.fill(&mut lent.board.integers);
        use_flags(dice, &mut lent.board.flags);
        lent.board.effective = lent.board.effective_slots();
    }
    if dice.one_in(4) {
        let kinds = lent.kinds();
        use_journal(dice, &mut lent.board, &kinds);
    }
    lent
}

/// How many calls a board gets: fewer where each compares many bytes.
pub fn calls(dice: &mut Dice, lent: &Lent) -> usize {
    match lent.board.points.len() + lent.board.journal.len() {
        0..=12_000 => dice.between(50, 400),
        _ => dice.between(20, 100),
    }
}

fn journal_length(dice: &mut Dice, points: usize) -> usize {
    let least = least_length(points);
    match dice.roll(24) {
        0..=9 => least,
        10..=15 => (least + dice.roll(60)).min(LONGEST_JOURNAL),
        16..=21 => (least + dice.roll(2_000)).min(LONGEST_JOURNAL),
        22 => dice.between(least, LONGEST_JOURNAL),
        _ => LONGEST_JOURNAL,
    }
}

/// Slots with patterns of one kind or many; the other bytes drawn.
pub fn use_points(dice: &mut Dice, points: &mut [u8]) {
    let kind = dice.roll(6);
    // 35 points with 52 axes make a list of 1,024 bytes: 17 of two axes, or nearly so many.
    let two_axes = dice.between(15, 19);
    for (at, slot) in points.chunks_mut(SLOT).enumerate() {
        dice.fill(slot);
        slot[0] = match kind {
            0 => 1 << dice.roll(AXES),
            1 => 0xFF,
            2 => dice.pick(&[0x03, 0x01, 0x05, 0x80]),
            3 => dice.pick(&[0, 0, 0x01, 0xFF]),
            4 if at < two_axes => 0x30,
            4 => 0x40,
            _ => dice.byte(),
        };
    }
}

/// A count that the slots haven't: one off, none, all, past all, or one of which only low bytes may be right.
pub fn wrong_count(dice: &mut Dice, board: &Board) -> usize {
    let (slots, points) = (board.effective_slots(), board.points.len() / SLOT);
    let count = match dice.roll(10) {
        0 => slots + 1,
        1 => slots.wrapping_sub(1),
        2 => 0,
        3 => points,
        4 => points + 1,
        5 => dice.roll(points + 1),
        6 => points + dice.between(1, 5_000),
        7 => usize::MAX - dice.roll(3),
        8 => slots | 1 << dice.pick(&[8, 11, 12, 16, 31, 32, 63]),
        _ => dice.bits() as usize,
    };
    match count == slots {
        true => slots + 1,
        false => count,
    }
}

/// Flags on and off, and bytes that only something else can have written.
pub fn use_flags(dice: &mut Dice, flags: &mut [u8]) {
    for flag in flags {
        *flag = match dice.roll(8) {
            0..=2 => 0x00,
            3..=5 => 0x01,
            6 => dice.pick(&[0x30, 0x31, 0x80, 0xFF]),
            _ => dice.byte(),
        };
    }
}

/// Well-formed entries of drawn bytes, and anything beyond the used length.
fn use_journal(dice: &mut Dice, board: &mut Board, kinds: &Kinds) {
    if dice.one_in(2) {
        dice.fill(&mut board.journal);
    }
    let most = dice.between(0, board.journal.len());
    while let Some(entry) = entry(dice, kinds, most - board.used) {
        board.journal[board.used..board.used + entry.len()].copy_from_slice(&entry);
        board.used += entry.len();
    }
}

/// An entry of at most `room` bytes; None ends the journal.
fn entry(dice: &mut Dice, kinds: &Kinds, room: usize) -> Option<Vec<u8>> {
    let kind = dice.pick(&kinds.all());
    let start = dice.between(kind.first, kind.last());
    let most = kind.most.min(kind.last() - start + 1).min(room.checked_sub(5)? / kind.unit);
    if most == 0 {
        return None;
    }
    let count = match dice.roll(4) {
        0 => most,
        _ => dice.between(1, most.min(40)),
    };
    let old = dice.bytes(count * kind.unit);
    let mut entry = vec![kind.tag];
    entry.extend(((2 + old.len()) as u16).to_be_bytes());
    entry.extend((start as u16).to_be_bytes());
    entry.extend(old);
    Some(entry)
}

/// Eight records within their limits.
pub fn axes(dice: &mut Dice) -> Vec<u8> {
    let mut axes = match dice.roll(4) {
        0 => vec![0; AXES * RECORD],
        1 => vec![0xFF; AXES * RECORD],
        _ => dice.bytes(AXES * RECORD),
    };
    for record in axes.chunks_mut(RECORD) {
        record[1] &= 0x0F;
        record[2] &= 0x0F;
    }
    axes
}

pub fn settings(dice: &mut Dice) -> Settings {
    let fitted = match dice.roll(4) {
        0 | 1 => 0xFF,
        2 => 1 << dice.roll(AXES),
        _ => dice.between(1, 255) as u8,
    };
    let station = match dice.roll(4) {
        0 => 0x99,
        1 => dice.pick(&[0xAB, 0x9F, 0xF9, 0xCD, 0x0E, 0xA0]),
        _ => dice.byte(),
    };
    let (release, unchecked) = (dice.pick(&[1, 2]), unchecked(dice));
    Settings { fitted, station, release, unchecked, firsts: firsts(dice) }
}

/// Whether '@@' is allowed: 0 forbids it, any other value allows it.
pub fn unchecked(dice: &mut Dice) -> u8 {
    match dice.roll(12) {
        0..=3 => 0,
        4..=6 => 1,
        7..=10 => dice.pick(&[0x80, 0xFF, 0x02, 0x10]),
        _ => dice.byte(),
    }
}

/// A release that names no rule; any drawn one may be 1 or 2.
pub fn wrong_release(dice: &mut Dice) -> u8 {
    match dice.one_in(4) {
        true => dice.byte(),
        false => dice.pick(&[0, 3, 255]),
    }
}

/// First numbers as on the bench, from the least to the greatest that don't run past.
pub fn firsts(dice: &mut Dice) -> Firsts {
    let mut draw = |bench: usize, greatest: usize| match dice.roll(5) {
        0 => bench,
        1 => greatest - dice.pick(&[0, 0, 1]),
        2 => dice.pick(&[0, 0, 1]),
        _ => dice.between(0, greatest),
    } as u16;
    Firsts { integer: draw(200, LAST_FIRST_INTEGER), flag: draw(600, LAST_FIRST_FLAG) }
}

/// First numbers of which one runs past its field, or both do.
pub fn firsts_that_run_past(dice: &mut Dice) -> Firsts {
    let mut past = |greatest: usize| match dice.roll(3) {
        0 => greatest + 1,
        1 => dice.pick(&[greatest + 2, 0xFFF, 0x1000, 0xFFFE, 0xFFFF]).max(greatest + 1),
        _ => dice.between(greatest + 1, 0xFFFF),
    } as u16;
    let (integer, flag) = (past(LAST_FIRST_INTEGER), past(LAST_FIRST_FLAG));
    let sound = firsts(dice);
    match dice.roll(5) {
        0 | 1 => Firsts { integer, ..sound },
        2 | 3 => Firsts { flag, ..sound },
        _ => Firsts { integer, flag },
    }
}

pub fn reply(dice: &mut Dice) -> Vec<u8> {
    let length = match dice.roll(4) {
        0 => dice.between(LONGEST_REPLY, LONGEST_REPLY + 200),
        _ => LONGEST_REPLY,
    };
    match dice.one_in(2) {
        true => vec![0xEE; length],
        false => dice.bytes(length),
    }
}
