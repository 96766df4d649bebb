//! Drawn frames with a true SC of which exactly one byte is changed: at any place, to any other value
//! (document 02, n).

use super::compare::Lent;
use super::dice::Dice;
use super::drawn_frames::{damaged, good, mend_sc, odd_letters};
use super::drawn_letters::{small_sc, BESIDE};
use super::drawn_test_calls;
use crate::bench::command;
use crate::frames;
use std::ops::Range;

/// A frame with a true SC, and the same frame with one byte changed.
pub fn one_byte(dice: &mut Dice, lent: &Lent) -> [Vec<u8>; 2] {
    let unchanged = true_frame(dice, lent);
    let mut changed = unchanged.clone();
    let (at, byte) = change(dice, &unchanged);
    changed[at] = byte;
    [unchanged, changed]
}

/// Accepted most often, else refused by a later test than 7; under release 2 with small SC letters too.
fn true_frame(dice: &mut Dice, lent: &Lent) -> Vec<u8> {
    let drawn = match dice.roll(8) {
        0 | 1 => damaged(dice, lent),
        2 => odd_letters(dice, lent),
        3 => of_20_bytes(dice, lent),
        _ => good(dice, lent),
    };
    let mut frame = match frames::has_shape(&drawn) {
        true => drawn,
        false => good(dice, lent),
    };
    if dice.one_in(10) {
        let station = dice.digits(2);
        frame[1..3].copy_from_slice(&station);
    }
    mend_sc(&mut frame);
    if lent.settings.release == 2 && dice.one_in(2) {
        small_sc(dice, &mut frame);
    }
    frame
}

/// A test call, or a frame as long whose ID is one byte from a test call's.
fn of_20_bytes(dice: &mut Dice, lent: &Lent) -> Vec<u8> {
    let id = dice.pick(&[b"200", b"200", b"20D", b"201", b"2A0", b"\xB200"]);
    let text = [&id[..], &drawn_test_calls::text(dice)].concat();
    command(lent.settings.station, &text)
}

/// A place and another value for its byte.
fn change(dice: &mut Dice, frame: &[u8]) -> (usize, u8) {
    let sc = frame.len() - 4..frame.len() - 2;
    let chosen = match dice.roll(12) {
        0..=2 => other_size(dice, frame, sc),
        3 => other_size(dice, frame, 0..sc.start),
        4 => to_or_from_test_call(dice, frame),
        5 => Some((sc.start + dice.roll(2), b'@')),
        _ => None,
    };
    chosen.unwrap_or_else(|| {
        let at = place(dice, frame.len());
        (at, other_value(dice, frame[at]))
    })
}

/// A letter among these places, small for capital or capital for small; None where there is none.
fn other_size(dice: &mut Dice, frame: &[u8], places: Range<usize>) -> Option<(usize, u8)> {
    let letters: Vec<usize> = places.filter(|&at| frame[at].is_ascii_alphabetic()).collect();
    let at = *letters.get(dice.roll(letters.len()))?;
    Some((at, frame[at] ^ 0x20))
}

/// A byte of a 200H's ID, or the one that alone keeps a frame from being a 200H.
fn to_or_from_test_call(dice: &mut Dice, frame: &[u8]) -> Option<(usize, u8)> {
    let others = (3..6).zip(*b"200").filter(|&(at, byte)| frame[at] != byte);
    match others.collect::<Vec<_>>()[..] {
        [] => {
            let at = dice.between(3, 5);
            Some((at, other_value(dice, frame[at])))
        }
        [only] => Some(only),
        _ => None,
    }
}

/// One of the seven parts of a frame, or any place.
fn place(dice: &mut Dice, length: usize) -> usize {
    match dice.roll(9) {
        0 => 0,
        1 => dice.between(1, 2),
        2 => dice.between(3, 5),
        3 => dice.between(length - 4, length - 3),
        4 => length - 2,
        5 => length - 1,
        _ => dice.roll(length),
    }
}

/// A bit flipped, a neighbour, 80H or 20H off, a mark or line end, a digit, a byte beside them, any.
fn other_value(dice: &mut Dice, old: u8) -> u8 {
    let new = match dice.roll(11) {
        0 => old ^ 1 << dice.roll(8),
        1 => old.wrapping_add(1),
        2 => old.wrapping_sub(1),
        3 => old ^ 0x80,
        4 => old ^ 0x20,
        5 => dice.pick(b"@\r\n!#&\x00"),
        6 => dice.pick(b"0123456789ABCDEFabcdef"),
        7 => dice.pick(BESIDE),
        _ => dice.byte(),
    };
    match new == old {
        true => old.wrapping_add(dice.between(1, 255) as u8),
        false => new,
    }
}

#[cfg(test)]
mod tests {
    use super::super::drawn_boards;
    use super::super::one_byte::OneByte;
    use super::*;
    use crate::digits::Rule;
    use crate::frames::Sum;

    #[test]
    fn exactly_one_byte_of_a_true_frame_is_another() {
        let mut dice = Dice::new(1);
        for _ in 0..300 {
            let lent = drawn_boards::lent(&mut dice);
            let rule = Rule::of_release(lent.settings.release).expect("a sound board");
            for _ in 0..10 {
                let [unchanged, changed] = one_byte(&mut dice, &lent);
                assert!(frames::has_shape(&unchanged));
                assert_eq!(frames::sum_test(&unchanged, rule), Sum::True);
                assert!(OneByte::of(&unchanged, &changed).is_some());
            }
        }
    }

    #[test]
    fn every_other_value_is_drawn_at_every_place() {
        let mut dice = Dice::new(2);
        let frame = b"!992082D\r\n";
        let mut seen = [[false; 256]; 10];
        for _ in 0..300_000 {
            let (at, byte) = change(&mut dice, frame);
            seen[at][usize::from(byte)] = true;
        }
        for (at, seen) in seen.iter().enumerate() {
            let missing: Vec<usize> = (0..256).filter(|&byte| !seen[byte]).collect();
            assert_eq!(missing, [usize::from(frame[at])], "{at}");
        }
    }
}
