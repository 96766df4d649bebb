//! Contents of normal replies that carry data (document 000, the "Normal response" tables).

use crate::areas::{axes_of, Axis, Board, Point, Run, SLOT};
use crate::digits::push;
use crate::frames::{LONGEST_REPLY, SHORTEST_FRAME};

/// 4-3-4: the number of effective points, 3 digits: the kept count, and no slot is looked at.
pub(crate) fn point_count(effective: usize) -> Vec<u8> {
    let mut content = Vec::new();
    push(&mut content, effective as u32, 3);
    content
}

/// 4-3-5: number listed 3 digits, then the leading effective points that fit into the reply.
pub(crate) fn point_list(board: &Board, run: &Run) -> Vec<u8> {
    let room = LONGEST_REPLY - SHORTEST_FRAME - 3;
    let slots = board.points[run.place()].chunks_exact(SLOT);
    let mut listed = 0;
    let mut list = Vec::new();
    for (number, slot) in (run.start..).zip(slots).filter(|(_, slot)| slot[0] != 0) {
        let entry = listed_point(number, &Point::from_slot(slot));
        // The first that doesn't fit ends the list: only leading ones are given.
        if list.len() + entry.len() > room {
            break;
        }
        list.extend(entry);
        listed += 1;
    }
    let mut content = Vec::new();
    push(&mut content, listed, 3);
    content.extend(list);
    content
}

/// 4-3-5 (*1): number 3, pattern 2, acceleration, deceleration, speed 4 each, 8 for each axis.
fn listed_point(number: usize, point: &Point) -> Vec<u8> {
    let mut text = Vec::new();
    push(&mut text, number as u32, 3);
    push(&mut text, u32::from(point.pattern), 2);
    for pair in [point.acceleration, point.deceleration, point.speed] {
        push(&mut text, u32::from(pair), 4);
    }
    for axis in axes_of(point.pattern) {
        push(&mut text, point.positions[axis] as u32, 8);
    }
    text
}

/// 4-3-8: the command's fields again, then two digits for each eight flags begun: the first of the
/// eight in bit 0, bits beyond the count 0.
pub(crate) fn flags(board: &Board, program: u32, run: &Run) -> Vec<u8> {
    let mut content = fields(program, run, 4, 4);
    for eight in board.area(run.kind.area)[run.place()].chunks(8) {
        // A flag is on where its byte isn't 00.
        let bits = eight.iter().zip(0..).map(|(&byte, bit)| u32::from(byte != 0) << bit);
        push(&mut content, bits.sum(), 2);
    }
    content
}

/// 4-3-9 and 4-3-11: the command's fields again, then two digits for each byte: eight for an
/// integer, two for a column.
pub(crate) fn run(board: &Board, program: u32, run: &Run) -> Vec<u8> {
    let mut content = named(program, run);
    for &byte in &board.area(run.kind.area)[run.place()] {
        push(&mut content, u32::from(byte), 2);
    }
    content
}

/// 4-3-28, and the front of 4-3-9 and 4-3-11: program 2 digits, start 3, count 2.
pub(crate) fn named(program: u32, run: &Run) -> Vec<u8> {
    fields(program, run, 3, 2)
}

/// Program 2 digits, then start and count of so many.
fn fields(program: u32, run: &Run, start: usize, count: usize) -> Vec<u8> {
    let mut content = Vec::new();
    push(&mut content, program, 2);
    push(&mut content, run.start as u32, start);
    push(&mut content, run.count as u32, count);
    content
}

/// 4-3-12: the asked pattern without unfitted axes, then 16 digits for each axis left.
pub(crate) fn axis_status(records: &[Axis], pattern: u8) -> Vec<u8> {
    let mut content = Vec::new();
    push(&mut content, u32::from(pattern), 2);
    for axis in axes_of(pattern).map(|axis| &records[axis]) {
        push(&mut content, u32::from(axis.status), 2);
        push(&mut content, u32::from(axis.sensor), 1);
        push(&mut content, u32::from(axis.error), 3);
        push(&mut content, u32::from(axis.encoder), 2);
        push(&mut content, axis.position as u32, 8);
    }
    content
}

/// 4-3-23: start and count, 3 digits each.
pub(crate) fn points_written(run: &Run) -> Vec<u8> {
    let mut content = Vec::new();
    push(&mut content, run.start as u32, 3);
    push(&mut content, run.count as u32, 3);
    content
}

#[cfg(test)]
mod tests {
    use super::*;
    use crate::areas::{Firsts, Kinds};

    /// Integers from 200 on, flags from 600 on.
    fn kinds(points: usize) -> Kinds {
        Kinds::of(points, Firsts { integer: 200, flag: 600 })
    }

    fn all_of(points: usize) -> Run {
        Run { kind: kinds(points).points, start: 1, count: points }
    }

    /// A board whose slots have these patterns, first point first.
    fn board_of(patterns: &[u8]) -> Board {
        let mut board = Board::fresh(patterns.len(), 0);
        for (slot, &pattern) in board.points.chunks_exact_mut(SLOT).zip(patterns) {
            slot[0] = pattern;
        }
        board
    }

    #[test]
    fn a_count_has_three_digits() {
        assert_eq!(point_count(0), b"000");
        assert_eq!(point_count(0x2F), b"02F");
        assert_eq!(point_count(1_500), b"5DC");
    }

    #[test]
    fn lists_each_effective_point_with_its_number() {
        let mut board = Board::fresh(20, 0);
        let point = Point {
            pattern: 0x05,
            acceleration: 30,
            deceleration: 31,
            speed: 100,
            positions: [50_000, 9, -1, 0, 0, 0, 0, 0],
        };
        board.points[15 * SLOT..16 * SLOT].copy_from_slice(&point.to_slot());
        let expected = b"00101005001E001F00640000C350FFFFFFFF";
        assert_eq!(point_list(&board, &all_of(20)), expected);
        let after = Run { start: 17, count: 4, ..all_of(20) };
        assert_eq!(point_list(&board, &after), b"000");
    }

    #[test]
    fn lists_what_keeps_the_reply_within_1024_bytes() {
        // 40 one-axis points of 25 digits, 12 eight-axis points of 81 (4-3-5: "Max 81 bytes").
        assert_eq!(point_list(&board_of(&[1; 50]), &all_of(50)).len(), 3 + 40 * 25);
        assert_eq!(point_list(&board_of(&[0xFF; 50]), &all_of(50)).len(), 3 + 12 * 81);
        // 35 points with 52 axes make 1,024 bytes exactly; with 53 axes the 35th is left out.
        let mut patterns = [0x01; 36];
        patterns[..17].fill(0x03);
        assert_eq!(point_list(&board_of(&patterns), &all_of(36)).len(), 1_024 - 10);
        patterns[17] = 0x03;
        let shorter = point_list(&board_of(&patterns), &all_of(36));
        assert_eq!((&shorter[..3], shorter.len()), (&b"022"[..], 3 + 34 * 17 + 52 * 8));
        // 36 points with 50 axes would make 1,025.
        let mut patterns = [0x01; 36];
        patterns[..14].fill(0x03);
        let shorter = point_list(&board_of(&patterns), &all_of(36));
        assert_eq!((&shorter[..3], shorter.len()), (&b"023"[..], 3 + 35 * 17 + 49 * 8));
    }

    #[test]
    fn a_point_that_does_not_fit_ends_the_list() {
        // 12 of 81 leave 39 digits: a second long point doesn't fit, a short one after it would.
        let mut patterns = [0xFF; 14];
        patterns[13] = 0x01;
        let content = point_list(&board_of(&patterns), &all_of(14));
        assert_eq!((&content[..3], content.len()), (&b"00C"[..], 3 + 12 * 81));
        patterns[12] = 0x00;
        let content = point_list(&board_of(&patterns), &all_of(14));
        assert_eq!((&content[..3], content.len()), (&b"00D"[..], 3 + 12 * 81 + 25));
    }

    #[test]
    fn columns_and_integers_keep_every_digit() {
        let mut board = Board::fresh(1, 0);
        board.columns[..4].copy_from_slice(&[0x00, 0x30, 0x00, 0x47]);
        let columns = Run { kind: kinds(1).columns, start: 300, count: 4 };
        assert_eq!(run(&board, 0, &columns), b"0012C0400300047");
        board.integers[392..].copy_from_slice(&[0x00, 0x00, 0x00, 0x47, 0x80, 0x01, 0x02, 0x03]);
        let integers = Run { kind: kinds(1).integers, start: 298, count: 2 };
        assert_eq!(run(&board, 0, &integers), b"0012A020000004780010203");
        assert_eq!(named(0, &integers), b"0012A02");
        let all = Run { start: 200, count: 100, ..integers };
        assert_eq!(run(&board, 0, &all).len(), 7 + 800);
    }

    #[test]
    fn flags_are_bits_from_bit_0_and_none_beyond_the_count() {
        let mut board = Board::fresh(1, 0);
        let text = |board: &Board, start: usize, count: usize| {
            let run = Run { kind: kinds(1).flags, start, count };
            String::from_utf8_lossy(&flags(board, 0, &run)).into_owned()
        };
        for (at, byte) in [(0, 0x01), (3, 0xFF), (8, 0x30), (9, 0x01), (299, 0x80)] {
            board.flags[at] = byte;
        }
        assert_eq!(text(&board, 600, 8), "000258000809");
        assert_eq!(text(&board, 600, 9), "00025800090901");
        assert_eq!(text(&board, 600, 10), "000258000A0903");
        // From any start: 603 is the first of the eight, and 608 and 609 its sixth and seventh.
        assert_eq!(text(&board, 603, 7), "00025B000761");
        assert_eq!(text(&board, 603, 6), "00025B000621");
        assert_eq!(text(&board, 899, 1), "000383000101");
        let all = text(&board, 600, 300);
        assert_eq!((all.len(), &all[10..14], &all[84..]), (86, "0903", "08"));
        board.flags.fill(0x01);
        assert_eq!(text(&board, 601, 3), "000259000307");
    }

    #[test]
    fn axes_are_given_lowest_first() {
        let zero = Axis { status: 0, sensor: 0, error: 0, encoder: 0, position: 0 };
        let mut records = vec![zero; 8];
        records[0] =
            Axis { status: 0x1C, sensor: 0x4, error: 0x0A5, encoder: 0x02, position: 50_000 };
        records[7] = Axis { status: 0xFF, sensor: 0xF, error: 0xFFF, encoder: 0xFE, position: -1 };
        let expected = b"811C40A5020000C350FFFFFFFEFFFFFFFF";
        assert_eq!(axis_status(&records, 0x81), expected);
        assert_eq!(axis_status(&records, 0), b"00");
        assert_eq!(axis_status(&records, 0xFF).len(), 140 - 10);
    }
}
