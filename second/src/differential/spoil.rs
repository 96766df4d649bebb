//! Spoiled calls: wrong lengths, spoiled bytes, a spoiled used length, a wrong count, bad records, no fitted
//! axis, first numbers that run past, a release that is none.

use super::compare::Lent;
use super::dice::Dice;
use super::drawn_boards;
use crate::areas::{Settings, AXES, RECORD, SLOT};
use crate::journal::{self, least_length};

/// Spoils one thing, or a few, so that the order of the tests shows.
pub fn spoil(dice: &mut Dice, lent: &mut Lent) {
    for _ in 0..dice.pick(&[1, 1, 1, 1, 2, 3]) {
        spoil_one(dice, lent);
    }
}

fn spoil_one(dice: &mut Dice, lent: &mut Lent) {
    match dice.roll(30) {
        0 | 1 => reply_length(dice, lent),
        2 | 3 => points_length(dice, lent),
        4 => columns_length(dice, lent),
        5 | 6 => journal_length(dice, lent),
        7 | 8 => used_length(dice, lent),
        9..=11 => entry_bytes(dice, lent),
        12 => axes_length(dice, lent),
        13 | 14 => record_bytes(dice, lent),
        15..=18 => odd_entry(dice, lent),
        19 => integers_length(dice, lent),
        20 => flags_length(dice, lent),
        21 => lent.settings.firsts = drawn_boards::firsts_that_run_past(dice),
        22 => lent.settings.firsts = drawn_boards::firsts(dice),
        23..=25 => lent.settings.release = drawn_boards::wrong_release(dice),
        26..=28 => wrong_count(dice, lent),
        _ => lent.settings.fitted = 0,
    }
}

/// Changes that leave the board sound: settings, records, old bytes, bytes beyond the used length. The count
/// is most often made true again where slots changed, and now and then it becomes a wrong one.
pub fn change(dice: &mut Dice, lent: &mut Lent) {
    let used = lent.board.used.min(lent.board.journal.len());
    match dice.roll(18) {
        0 => lent.settings = other_settings(dice, lent),
        1 => lent.axes = drawn_boards::axes(dice),
        2 => lent.reply = drawn_boards::reply(dice),
        3 => points_byte(dice, lent),
        4 => dice.spoil_byte(&mut lent.board.columns),
        5 => dice.spoil_byte(&mut lent.board.journal[used..]),
        6 => other_points(dice, lent),
        7 => dice.spoil_byte(&mut lent.board.integers),
        8 => dice.spoil_byte(&mut lent.board.flags),
        9 => drawn_boards::use_flags(dice, &mut lent.board.flags),
        10 | 11 => lent.settings.release = other_release(lent.settings.release),
        12 | 13 => lent.settings.unchecked = drawn_boards::unchecked(dice),
        14..=16 => wrong_count(dice, lent),
        _ => dice.spoil_byte(&mut lent.reply),
    }
}

fn points_byte(dice: &mut Dice, lent: &mut Lent) {
    dice.spoil_byte(&mut lent.board.points);
    mend_count_most_often(dice, lent);
}

fn other_points(dice: &mut Dice, lent: &mut Lent) {
    drawn_boards::use_points(dice, &mut lent.board.points);
    mend_count_most_often(dice, lent);
}

fn mend_count_most_often(dice: &mut Dice, lent: &mut Lent) {
    if !dice.one_in(4) {
        mend_count(lent);
    }
}

/// A wrong count stays for a few calls: while it does, no points are written and nothing is stepped back.
pub fn mend_count_at_last(dice: &mut Dice, lent: &mut Lent) {
    if dice.one_in(4) {
        mend_count(lent);
    }
}

fn mend_count(lent: &mut Lent) {
    lent.board.effective = lent.board.effective_slots();
}

pub fn wrong_count(dice: &mut Dice, lent: &mut Lent) {
    lent.board.effective = drawn_boards::wrong_count(dice, &lent.board);
}

/// First numbers stay while entries may name the numbers that they give.
fn other_settings(dice: &mut Dice, lent: &Lent) -> Settings {
    let drawn = drawn_boards::settings(dice);
    match lent.board.used {
        0 => drawn,
        _ => Settings { firsts: lent.settings.firsts, ..drawn },
    }
}

fn other_release(release: u8) -> u8 {
    match release {
        1 => 2,
        _ => 1,
    }
}

fn reply_length(dice: &mut Dice, lent: &mut Lent) {
    let length = match dice.roll(3) {
        0 => dice.roll(1_024),
        _ => dice.pick(&[0, 1, 10, 1_000, 1_023, 1_024, 1_025]),
    };
    lent.reply.resize(length, 0xEE);
}

/// Not a multiple of 40, none, too many, or another number of points.
fn points_length(dice: &mut Dice, lent: &mut Lent) {
    let length = lent.board.points.len();
    let other = match dice.roll(6) {
        0 => dice.pick(&[0, 1, 39, 41]),
        1 => length + dice.between(1, 39),
        2 => length.saturating_sub(dice.between(1, 39)),
        3 => dice.pick(&[60_000, 60_001, 60_040, 61_000]),
        4 => length.saturating_sub(SLOT),
        _ => length + SLOT * dice.between(1, 2),
    };
    lent.board.points.resize(other, 0x01);
    if dice.one_in(2) {
        mend_count(lent);
    }
}

fn columns_length(dice: &mut Dice, lent: &mut Lent) {
    let length = dice.pick(&[0, 1, 40, 699, 701, 720, 999, 1_000, 1_400]);
    lent.board.columns.resize(length, 0x41);
}

fn integers_length(dice: &mut Dice, lent: &mut Lent) {
    let length = dice.pick(&[0, 1, 4, 100, 300, 396, 399, 401, 404, 420, 800]);
    lent.board.integers.resize(length, 0x49);
}

fn flags_length(dice: &mut Dice, lent: &mut Lent) {
    let length = dice.pick(&[0, 1, 38, 100, 299, 301, 320, 400, 600]);
    lent.board.flags.resize(length, 0x01);
}

/// Too short, too long, not as long as what is used, or right in another way.
fn journal_length(dice: &mut Dice, lent: &mut Lent) {
    let least = least_length(lent.board.points.len() / SLOT);
    let used = lent.board.used.min(100_000);
    let length = match dice.roll(8) {
        0 => dice.pick(&[0, 1, 5, 299, 300, 499, 500, least - 200]),
        1 => least - 1,
        2 => least,
        3 => least + dice.roll(100),
        4 => used,
        5 => used.saturating_sub(dice.between(1, 50)),
        6 => dice.pick(&[65_535, 65_536, 65_537, 65_600]),
        _ => dice.roll(least),
    };
    let byte = dice.pick(&[0, 0x50, 0x53, 0x49, 0x46]);
    lent.board.journal.resize(length, byte);
}

/// Beyond the journal, a little off, none, or the end of an earlier entry, which is well-formed.
fn used_length(dice: &mut Dice, lent: &mut Lent) {
    let (length, used) = (lent.board.journal.len(), lent.board.used);
    lent.board.used = match dice.roll(10) {
        0 => 0,
        1 => used.wrapping_add(dice.between(1, 50)),
        2 => used.wrapping_sub(dice.between(1, 50)),
        3 => length,
        4 => length + 1,
        5 => usize::MAX - dice.roll(3),
        6 => dice.pick(&[1, 2, 3, 4, 5, 6, 45, 1 << 31, 1 << 32, 1 << 63]),
        7 => dice.roll(length + 1),
        _ => entry_starts(lent).get(dice.roll(6)).copied().unwrap_or(used),
    };
}

/// Where entries begin in a sound journal.
fn entry_starts(lent: &Lent) -> Vec<usize> {
    let board = &lent.board;
    let used = board.journal.get(..board.used).unwrap_or(&[]);
    let entries = journal::entries(used, &lent.kinds()).unwrap_or_default();
    entries.iter().map(|entry| entry.at).collect()
}

/// A byte of an entry's head most often, else any byte of the used part.
fn entry_bytes(dice: &mut Dice, lent: &mut Lent) {
    let starts = entry_starts(lent);
    let used = lent.board.used.min(lent.board.journal.len());
    if starts.is_empty() || dice.one_in(5) {
        dice.spoil_byte(&mut lent.board.journal[..used]);
        return;
    }
    let at = dice.pick(&starts) + dice.roll(5);
    let byte = &mut lent.board.journal[at];
    *byte = match dice.roll(5) {
        0 => dice.pick(&[0x50, 0x53, 0x49, 0x46]),
        1 => byte.wrapping_add(1),
        2 => byte.wrapping_sub(1),
        3 => byte.wrapping_add(dice.pick(&[40, 216, 128])),
        _ => dice.byte(),
    };
}

/// Adds an entry whose length is as it says, with count, start or tag at a limit or past it.
fn odd_entry(dice: &mut Dice, lent: &mut Lent) {
    let kind = dice.pick(&lent.kinds().all());
    let count = dice.pick(&[0, 1, 2, kind.most, kind.most, kind.most + 1, kind.most + 2]);
    let part = if dice.one_in(3) { dice.roll(kind.unit) } else { 0 };
    let start = match dice.roll(6) {
        0 => kind.first,
        1 => kind.first.wrapping_sub(1),
        2 => kind.last() + 1,
        3 => (kind.last() + 1).saturating_sub(count),
        4 => (kind.last() + 2).saturating_sub(count),
        _ => kind.last(),
    };
    let old = kind.unit * count + part;
    let mut entry = vec![if dice.one_in(8) { dice.pick(&[0x47, 0x52, 0x54, 0]) } else { kind.tag }];
    entry.extend(((2 + old) as u16).to_be_bytes());
    entry.extend((start as u16).to_be_bytes());
    entry.extend(dice.bytes(old));
    let board = &mut lent.board;
    let end = board.used.saturating_add(entry.len());
    if let Some(place) = board.journal.get_mut(board.used..end) {
        place.copy_from_slice(&entry);
        board.used = end;
    }
}

fn axes_length(dice: &mut Dice, lent: &mut Lent) {
    lent.axes.resize(dice.pick(&[0, 1, 8, 9, 63, 71, 73, 80, 81, 144]), 0);
}

/// A sensor over 15 or an error code over 4,095, or just not.
fn record_bytes(dice: &mut Dice, lent: &mut Lent) {
    let at = RECORD * dice.roll(AXES) + dice.between(1, 2);
    let byte = dice.pick(&[0x0F, 0x10, 0x10, 0x11, 0x80, 0xFF]);
    if let Some(place) = lent.axes.get_mut(at) {
        *place = byte;
    }
}
