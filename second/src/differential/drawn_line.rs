//! Drawn received bytes for the finder: noise, frames, runs near 1,023 bytes, and test calls.

use super::dice::Dice;
use super::drawn_test_calls::{cut, head, whole};
use crate::frames::LONGEST_FRAME;

const MOST: usize = 5_000;

/// From 0 to 5,000 received bytes.
pub fn received(dice: &mut Dice) -> Vec<u8> {
    let mut line = match dice.roll(10) {
        0 => few_bytes(dice),
        1..=3 => near_the_window(dice),
        4 => {
            let count = dice.roll(MOST + 1);
            noise(dice, count)
        }
        5 => several(dice),
        6..=8 => test_calls(dice),
        _ => heads(dice),
    };
    line.truncate(MOST);
    line
}

fn few_bytes(dice: &mut Dice) -> Vec<u8> {
    let count = dice.roll(24);
    dice.bytes_of(b"!\r\n0A#", count)
}

/// Bytes of one kind: any, without '!', rich in marks, pairs rare.
fn noise(dice: &mut Dice, count: usize) -> Vec<u8> {
    match dice.roll(5) {
        0 => dice.bytes(count),
        1 => dice.bytes_of(b"0123456789ABCDEF", count),
        2 => dice.bytes_of(b"!!\r0A ", count),
        3 => dice.bytes_of(b"\n\n!0A \n", count),
        _ => vec![dice.pick(b"!\r\n0\x00\xFF"); count],
    }
}

/// Something before, a '!', and a run whose pair stands inside the 1,023 bytes, over their end or after.
fn near_the_window(dice: &mut Dice) -> Vec<u8> {
    let before = dice.pick(&[0, 0, 1, 2, 40, 1_022, 1_023, 1_024, 2_500]);
    let few = dice.pick(&[&b"#0A \r\n"[..], b"\r", b"\n", b"x"]);
    let mut line = dice.bytes_of(few, before);
    line.push(b'!');
    let inside = dice.pick(&[&b"0"[..], b"0!", b"\r", b"\n", b"\n0!", b"\r0!"]);
    let run = match dice.roll(4) {
        0 => dice.roll(1_100),
        _ => dice.between(LONGEST_FRAME - 6, LONGEST_FRAME + 3),
    };
    line.extend(dice.bytes_of(inside, run));
    line.extend(dice.pick(&[&b""[..], b"\r", b"\n", b"\r\n", b"\r\r\n", b"\n\r", b"\r\n\r\n"]));
    let after = dice.pick(&[0, 0, 1, 30, 1_500]);
    line.extend(noise(dice, after));
    line
}

/// Short frames and noise one after the other.
fn several(dice: &mut Dice) -> Vec<u8> {
    let mut line = Vec::new();
    for _ in 0..dice.roll(30) {
        let count = dice.pick(&[0, 0, 1, 5, 200]);
        line.extend(noise(dice, count));
        line.extend(short_frame(dice));
    }
    line
}

fn short_frame(dice: &mut Dice) -> Vec<u8> {
    let count = dice.roll(60);
    [b"!", dice.digits(count).as_slice(), b"\r\n"].concat()
}

/// Something without '!', test calls that are skipped most often, and something inside or behind them.
fn test_calls(dice: &mut Dice) -> Vec<u8> {
    let before = dice.pick(&[0, 0, 1, 2, 40, 1_022, 2_500]);
    let mut line = dice.bytes_of(b"#0A \r\n", before);
    for _ in 0..dice.pick(&[0, 0, 1, 1, 2, 5]) {
        line.extend(head(dice));
        // With 14 bytes or more what follows stands behind the test call, else inside.
        let (few, count) = (dice.pick(&[&b"0"[..], b"\r\n", b"0\r\n "]), dice.roll(20));
        line.extend(dice.bytes_of(few, count));
    }
    line.extend(after_test_calls(dice));
    line
}

/// A whole test call, a cut one, no '!' any more, a run of any length, a short frame.
fn after_test_calls(dice: &mut Dice) -> Vec<u8> {
    match dice.roll(8) {
        0 | 1 => {
            let count = dice.pick(&[0, 0, 1, 30]);
            [whole(dice), noise(dice, count)].concat()
        }
        2 | 3 => cut(dice),
        4 => {
            let count = dice.between(12, 40);
            dice.bytes_of(b"0 \r\n#", count)
        }
        5 | 6 => near_the_window(dice),
        _ => [short_frame(dice), whole(dice)].concat(),
    }
}

/// The head of a test call again and again, the last one cut; now and then something follows.
fn heads(dice: &mut Dice) -> Vec<u8> {
    let head = match dice.one_in(2) {
        true => b"!99200".to_vec(),
        false => head(dice),
    };
    let count = match dice.roll(3) {
        0 => dice.between(4_090, 4_100),
        _ => dice.roll(MOST),
    };
    let mut line: Vec<u8> = head.into_iter().cycle().take(count).collect();
    match dice.roll(4) {
        0 => line.extend(b"\r\n"),
        1 => line.extend(after_test_calls(dice)),
        _ => {}
    }
    line
}
