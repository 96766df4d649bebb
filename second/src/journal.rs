//! The journal (document 01, "Journal"): entries of tag, length, start number, old bytes.

use crate::areas::{Board, Kinds, Run, SLOT};

/// Tag (1), length (2), start number (2).
const HEAD: usize = 5;
/// The length counts what follows it: the start number and the old bytes.
const START: usize = 2;
const LONGEST: usize = 65_536;

/// A well-formed entry and where it stands.
#[derive(Clone, Copy, Debug, PartialEq, Eq)]
pub struct Entry {
    pub run: Run,
    pub at: usize,
    pub length: usize,
}

/// The least length of a journal where N points are held.
pub fn least_length(points: usize) -> usize {
    SLOT * points + 500
}

/// Whether a journal may have this length where N points are held.
pub fn length_is_right(length: usize, points: usize) -> bool {
    (least_length(points)..=LONGEST).contains(&length)
}

/// The entries of a used part, oldest first; None unless it is whole well-formed entries.
pub fn entries(used: &[u8], kinds: &Kinds) -> Option<Vec<Entry>> {
    let mut entries = Vec::new();
    let mut at = 0;
    while at < used.len() {
        let entry = entry_at(used, at, kinds)?;
        at += entry.length;
        entries.push(entry);
    }
    Some(entries)
}

/// The entry at `at`: of a kind, naming from 1 to the kind's most, all held, all its bytes there.
fn entry_at(used: &[u8], at: usize, kinds: &Kinds) -> Option<Entry> {
    let (head, after) = used.get(at..)?.split_at_checked(HEAD)?;
    let pair = |high: u8, low: u8| usize::from(u16::from_be_bytes([high, low]));
    let kind = kinds.with_tag(head[0])?;
    let old = pair(head[1], head[2]).checked_sub(START)?;
    let run = Run { kind, start: pair(head[3], head[4]), count: old / kind.unit };
    let whole = old.is_multiple_of(kind.unit) && old <= after.len();
    let well_formed = whole && (1..=kind.most).contains(&run.count) && run.is_held();
    well_formed.then_some(Entry { run, at, length: HEAD + old })
}

/// The entry that keeps the present bytes of a run about to be written.
fn entry_for(board: &Board, run: &Run) -> Vec<u8> {
    let old = &board.area(run.kind.area)[run.place()];
    let mut entry = vec![run.kind.tag];
    // Both numbers fit two bytes: at most 2 + 60,000, and at most a flag's FFFF.
    entry.extend(((START + old.len()) as u16).to_be_bytes());
    entry.extend((run.start as u16).to_be_bytes());
    entry.extend(old);
    entry
}

/// Adds an entry for a held run, dropping the oldest ones and no more than needed.
/// The board must have passed tests 2, 3, 10 and 4: then the journal holds any one entry.
pub(crate) fn add(board: &mut Board, run: &Run, entries: &[Entry]) {
    let entry = entry_for(board, run);
    let mut dropped = 0;
    for oldest in entries {
        if board.used - dropped + entry.len() <= board.journal.len() {
            break;
        }
        dropped += oldest.length;
    }
    let kept = [&board.journal[dropped..board.used], entry.as_slice()].concat();
    set_used(board, &kept);
}

/// Puts an entry's old bytes back and removes it; it must be the last one.
pub(crate) fn take_back(board: &mut Board, last: &Entry) {
    let old = board.journal[last.at + HEAD..last.at + last.length].to_vec();
    board.area_mut(last.run.kind.area)[last.run.place()].copy_from_slice(&old);
    let kept = board.journal[..last.at].to_vec();
    set_used(board, &kept);
}

/// The journal becomes these bytes; those beyond the used length are 00.
fn set_used(board: &mut Board, bytes: &[u8]) {
    board.journal.fill(0);
    board.journal[..bytes.len()].copy_from_slice(bytes);
    board.used = bytes.len();
}

#[cfg(test)]
mod tests {
    use super::*;
    use crate::areas::Firsts;

    /// Integers from 200 on, flags from 600 on.
    fn kinds(points: usize) -> Kinds {
        Kinds::of(points, Firsts { integer: 200, flag: 600 })
    }

    fn columns(start: usize, count: usize) -> Run {
        Run { kind: kinds(1).columns, start, count }
    }

    /// One point, and the least journal.
    fn fresh() -> Board {
        Board::fresh(1, 540)
    }

    /// An entry of the given tag, length value, start number and old bytes.
    fn raw(tag: u8, length: u16, start: u16, old: usize) -> Vec<u8> {
        let mut entry = vec![tag];
        entry.extend(length.to_be_bytes());
        entry.extend(start.to_be_bytes());
        entry.extend(vec![0xAA; old]);
        entry
    }

    fn well_formed(used: &[u8]) -> bool {
        entries(used, &kinds(3)).is_some()
    }

    fn add_now(board: &mut Board, run: Run) {
        let entries = entries(&board.journal[..board.used], &kinds(1)).unwrap_or_default();
        add(board, &run, &entries);
    }

    #[test]
    fn journal_lengths() {
        assert!(!length_is_right(340, 1));
        assert!(!length_is_right(539, 1));
        assert!(length_is_right(540, 1));
        assert!(length_is_right(65_536, 1));
        assert!(!length_is_right(65_537, 1));
        assert!(!length_is_right(60_499, 1_500));
        assert!(length_is_right(60_500, 1_500));
    }

    #[test]
    fn entries_of_points_are_well_formed_when_all_numbers_are_held() {
        assert!(well_formed(&[]));
        assert!(well_formed(&raw(0x50, 42, 1, 40)));
        assert!(well_formed(&raw(0x50, 122, 1, 120)));
        assert!(well_formed(&raw(0x50, 42, 3, 40)));
        assert!(!well_formed(&raw(0x50, 42, 0, 40)));
        assert!(!well_formed(&raw(0x50, 42, 4, 40)));
        assert!(!well_formed(&raw(0x50, 122, 2, 120)));
        assert!(!well_formed(&raw(0x50, 2, 1, 0)));
        assert!(!well_formed(&raw(0x50, 43, 1, 41)));
        assert!(!well_formed(&raw(0x50, 40, 1, 40)));
    }

    #[test]
    fn entries_of_columns_have_1_to_255_held_columns() {
        assert!(well_formed(&raw(0x53, 3, 300, 1)));
        assert!(well_formed(&raw(0x53, 3, 999, 1)));
        assert!(well_formed(&raw(0x53, 257, 745, 255)));
        assert!(!well_formed(&raw(0x53, 2, 300, 0)));
        assert!(!well_formed(&raw(0x53, 258, 300, 256)));
        assert!(!well_formed(&raw(0x53, 257, 746, 255)));
        assert!(!well_formed(&raw(0x53, 3, 299, 1)));
        assert!(!well_formed(&raw(0x53, 3, 1_000, 1)));
    }

    #[test]
    fn entries_of_integers_have_1_to_100_held_integers() {
        assert!(well_formed(&raw(0x49, 6, 200, 4)));
        assert!(well_formed(&raw(0x49, 6, 299, 4)));
        assert!(well_formed(&raw(0x49, 402, 200, 400)));
        assert!(!well_formed(&raw(0x49, 406, 200, 404)));
        assert!(!well_formed(&raw(0x49, 402, 201, 400)));
        assert!(!well_formed(&raw(0x49, 2, 200, 0)));
        assert!(!well_formed(&raw(0x49, 6, 199, 4)));
        assert!(!well_formed(&raw(0x49, 6, 300, 4)));
        for part in [1, 2, 3, 5, 6, 7] {
            assert!(!well_formed(&raw(0x49, 2 + part, 200, usize::from(part))), "{part}");
        }
    }

    #[test]
    fn entries_of_flags_have_one_held_flag() {
        assert!(well_formed(&raw(0x46, 3, 600, 1)));
        assert!(well_formed(&raw(0x46, 3, 899, 1)));
        assert!(!well_formed(&raw(0x46, 2, 600, 0)));
        assert!(!well_formed(&raw(0x46, 4, 600, 2)));
        assert!(!well_formed(&raw(0x46, 3, 599, 1)));
        assert!(!well_formed(&raw(0x46, 3, 900, 1)));
    }

    #[test]
    fn spoiled_used_parts() {
        assert!(!well_formed(&raw(0x51, 42, 1, 40)));
        assert!(!well_formed(&raw(0x00, 0, 0, 0)));
        assert!(!well_formed(&raw(0x53, 0, 300, 1)));
        assert!(!well_formed(&raw(0x53, 1, 300, 1)));
        assert!(!well_formed(&raw(0x53, 0xFFFF, 300, 600)));
        let all = [
            raw(0x53, 4, 300, 2),
            raw(0x50, 42, 1, 40),
            raw(0x49, 10, 200, 8),
            raw(0x46, 3, 600, 1),
        ]
        .concat();
        let whole: Vec<usize> =
            (0..=all.len()).filter(|&length| well_formed(&all[..length])).collect();
        assert_eq!(whole, [0, 7, 52, 65, 71]);
    }

    #[test]
    fn an_entry_is_tag_length_start_and_old_bytes() {
        let mut board = fresh();
        board.columns[12..15].copy_from_slice(&[0x00, 0x34, 0x37]);
        add_now(&mut board, columns(312, 3));
        assert_eq!(board.used, 8);
        assert_eq!(board.journal[..9], [0x53, 0, 5, 0x01, 0x38, 0x00, 0x34, 0x37, 0]);
        board.points[0] = 0x03;
        add_now(&mut board, Run { kind: kinds(1).points, start: 1, count: 1 });
        assert_eq!(board.used, 53);
        assert_eq!(board.journal[8..15], [0x50, 0, 42, 0, 1, 0x03, 0]);
        board.integers[392..].copy_from_slice(&[1, 2, 3, 4, 5, 6, 7, 8]);
        add_now(&mut board, Run { kind: kinds(1).integers, start: 298, count: 2 });
        assert_eq!(board.journal[53..66], [0x49, 0, 10, 0x01, 0x2A, 1, 2, 3, 4, 5, 6, 7, 8]);
        board.flags[299] = 0x30;
        add_now(&mut board, Run { kind: kinds(1).flags, start: 899, count: 1 });
        assert_eq!(board.journal[66..73], [0x46, 0, 3, 0x03, 0x83, 0x30, 0]);
        assert_eq!(board.used, 72);
    }

    #[test]
    fn the_oldest_are_dropped_and_no_more_than_needed() {
        let mut board = fresh();
        for (start, count) in [(300, 95), (400, 15), (500, 215), (600, 195)] {
            add_now(&mut board, columns(start, count));
        }
        // 100 + 20 + 220 + 200 fill the journal to the last byte.
        assert_eq!(board.used, 540);
        // 6 more bytes cost the oldest entry, 100 bytes, and that one only.
        add_now(&mut board, columns(300, 1));
        assert_eq!(board.used, 446);
        assert_eq!(board.journal[..5], [0x53, 0, 17, 0x01, 0x90]);
        assert!(board.journal[446..].iter().all(|&byte| byte == 0));
        // 94 more bytes just fit; then 21 find the oldest entry's 20 one too few.
        add_now(&mut board, columns(300, 89));
        assert_eq!(board.used, 540);
        add_now(&mut board, columns(300, 16));
        assert_eq!(board.used, 540 - 20 - 220 + 21);
        assert_eq!(board.journal[..5], [0x53, 0, 197, 0x02, 0x58]);
    }

    #[test]
    fn a_big_entry_may_drop_them_all() {
        let mut board = fresh();
        for _ in 0..3 {
            add_now(&mut board, columns(300, 175));
        }
        assert_eq!(board.used, 540);
        add_now(&mut board, Run { kind: kinds(1).integers, start: 200, count: 100 });
        assert_eq!(board.used, 405);
        let left = entries(&board.journal[..405], &kinds(1));
        assert_eq!(left.map(|entries| entries.len()), Some(1));
    }

    #[test]
    fn bytes_beyond_the_used_length_become_00() {
        let mut board = fresh();
        board.journal.fill(0xEE);
        add_now(&mut board, columns(300, 1));
        assert_eq!(board.used, 6);
        assert!(board.journal[6..].iter().all(|&byte| byte == 0));
        board.journal[6..].fill(0xEE);
        let last = entries(&board.journal[..6], &kinds(1)).unwrap_or_default()[0];
        take_back(&mut board, &last);
        assert_eq!(board, fresh());
    }

    #[test]
    fn each_kind_is_taken_back_to_its_own_area() {
        for kind in kinds(1).all() {
            let mut board = fresh();
            let run = Run { kind, start: kind.last(), count: 1 };
            board.area_mut(kind.area)[run.place()].fill(0x5A);
            let before = board.clone();
            add_now(&mut board, run);
            board.area_mut(kind.area)[run.place()].fill(0x01);
            let last = entries(&board.journal[..board.used], &kinds(1)).unwrap_or_default()[0];
            take_back(&mut board, &last);
            assert_eq!(board, before, "{kind:?}");
        }
    }
}
