//! Small letters in drawn frames (document 02, l), in station, ID, content and SC each, and bytes that
//! stand just beside the digits.

use super::dice::Dice;
use super::drawn_frames::{mend_sc, set_sc, MARKS};
use std::ops::Range;

/// The bytes next to '0' to '9', 'A' to 'F' and 'a' to 'f'.
pub const BESIDE: &[u8] = b"/:@G`g";

/// Station, ID and content of a frame with an end of four bytes.
fn before_sc(frame: &[u8]) -> [Range<usize>; 3] {
    [1..3, 3..6, 6..frame.len() - 4]
}

fn sc(frame: &[u8]) -> Range<usize> {
    frame.len() - 4..frame.len() - 2
}

/// Makes letters of a frame in capitals small; its SC stays '@@', or is true of the bytes as sent.
pub fn small(dice: &mut Dice, frame: &mut [u8]) {
    let marked = &frame[sc(frame)] == MARKS;
    small_before_sc(dice, frame);
    if !marked {
        mend_sc(frame);
    }
    let place = sc(frame);
    if dice.one_in(2) {
        small_in(dice, &mut frame[place]);
    }
}

/// Makes letters small under an SC that was true of the capitals and stays so.
pub fn sum_of_capitals(dice: &mut Dice, frame: &mut [u8]) {
    mend_sc(frame);
    small_before_sc(dice, frame);
    let place = sc(frame);
    if dice.one_in(4) {
        small_in(dice, &mut frame[place]);
    }
}

/// Makes letters of the SC small, under whatever stands before it.
pub fn small_sc(dice: &mut Dice, frame: &mut [u8]) {
    let place = sc(frame);
    small_in(dice, &mut frame[place]);
}

/// In one of station, ID and content, or in each of them by itself.
fn small_before_sc(dice: &mut Dice, frame: &mut [u8]) {
    let places = before_sc(frame);
    let one = dice.roll(2 * places.len());
    let in_one = one < places.len();
    for (at, place) in places.into_iter().enumerate() {
        if at == one || !in_one && dice.one_in(2) {
            small_in(dice, &mut frame[place]);
        }
    }
}

/// All letters, one only, or each by itself.
fn small_in(dice: &mut Dice, bytes: &mut [u8]) {
    let letters: Vec<usize> = (0..bytes.len()).filter(|&at| is_letter(bytes[at])).collect();
    let kind = dice.roll(3);
    let one = letters.get(dice.roll(letters.len())).copied();
    for at in letters {
        let small = match kind {
            0 => true,
            1 => Some(at) == one,
            _ => dice.one_in(2),
        };
        if small {
            bytes[at].make_ascii_lowercase();
        }
    }
}

fn is_letter(byte: u8) -> bool {
    (b'A'..=b'F').contains(&byte)
}

/// Puts a byte that stands beside the digits over one, in any place; before the SC this is mended.
pub fn beside(dice: &mut Dice, frame: &mut [u8]) {
    let [station, id, content] = before_sc(frame);
    let place = [station, id, content, sc(frame)][dice.roll(4)].clone();
    let at = place.start + dice.roll(place.len());
    if !place.is_empty() {
        frame[at] = dice.pick(BESIDE);
    }
    if place != sc(frame) {
        match dice.one_in(3) {
            true => set_sc(frame, MARKS),
            false => mend_sc(frame),
        }
    }
}

#[cfg(test)]
mod tests {
    use super::*;
    use crate::frames::{closed, sc as true_sc};

    /// A frame with letters in all four places, one with '@@'.
    fn frames() -> [Vec<u8>; 2] {
        [closed(b"!AB24E003E701F9".to_vec()), b"!AB24E003E701F9@@\r\n".to_vec()]
    }

    #[test]
    fn small_letters_are_drawn_in_each_place_under_a_true_sc() {
        let mut dice = Dice::new(1);
        let mut seen = [false; 19];
        for _ in 0..500 {
            let [mut frame, mut marked] = frames();
            let capitals = frame.clone();
            small(&mut dice, &mut frame);
            small(&mut dice, &mut marked);
            assert_eq!(frame[..15].to_ascii_uppercase(), capitals[..15]);
            assert_eq!(frame[15..17].to_ascii_uppercase(), true_sc(&frame[..15]));
            assert!(marked.ends_with(b"@@\r\n"));
            for (seen, byte) in seen.iter_mut().zip(&frame) {
                *seen |= byte.is_ascii_lowercase();
            }
        }
        let letters = [1, 2, 5, 9, 13, 15, 16];
        assert_eq!(seen, std::array::from_fn(|at| letters.contains(&at)));
    }

    #[test]
    fn bytes_beside_are_drawn_in_each_place() {
        let mut dice = Dice::new(1);
        let mut seen = [false; 19];
        for _ in 0..2_000 {
            let mut frame = frames()[0].clone();
            beside(&mut dice, &mut frame);
            for at in 1..17 {
                seen[at] |= frame[at] == b'g';
            }
        }
        assert_eq!(seen, std::array::from_fn(|at| (1..17).contains(&at)));
    }
}
