//! Drawn test calls (200H), with line ends, '!' and other test calls' heads among their ten bytes.

use super::dice::Dice;
use crate::frames::{self, TEST_CALL_FRAME};

/// Ten bytes of any kind.
pub fn text(dice: &mut Dice) -> Vec<u8> {
    match dice.roll(7) {
        0 => dice.digits(10),
        1 => dice.bytes(10),
        5 => dice.bytes_of(b"abcdefABCDEFg`", 10),
        2 => dice.bytes_of(b"\r\n", 10),
        3 => dice.bytes_of(b"!\r\n@a0", 10),
        4 => b"\r\n".repeat(5),
        _ => text_with_head(dice),
    }
}

fn text_with_head(dice: &mut Dice) -> Vec<u8> {
    let mut text = dice.bytes_of(b"\r\n0", 10);
    let at = dice.roll(5);
    text[at..at + 6].copy_from_slice(&head(dice));
    text
}

/// '!', two bytes and '200'; where the two are CR LF it is no test call's.
pub fn head(dice: &mut Dice) -> Vec<u8> {
    let two = match dice.roll(12) {
        0 => b"\r\n".to_vec(),
        1 | 2 => dice.bytes_of(b"\r\n!9", 2),
        3 => dice.bytes(2),
        _ => dice.digits(2),
    };
    [b"!", two.as_slice(), b"200"].concat()
}

/// A whole one; its SC is true or not, as the finder doesn't look at it.
pub fn whole(dice: &mut Dice) -> Vec<u8> {
    let mut frame = frames::closed([head(dice), text(dice)].concat());
    if dice.one_in(2) {
        let sc = dice.bytes_of(b"@\r\n!0", 2);
        frame[16..18].copy_from_slice(&sc);
    }
    frame
}

/// One of which the end isn't there yet.
pub fn cut(dice: &mut Dice) -> Vec<u8> {
    let mut frame = whole(dice);
    frame.truncate(dice.between(1, TEST_CALL_FRAME - 1));
    frame
}
