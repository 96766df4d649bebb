//! Drawn boards with a few drawn calls each, all from fresh.

use super::script::Script;
use crate::areas::Board;
use crate::differential::compare::Lent;
use crate::differential::dice::Dice;
use crate::differential::{drawn_boards, drawn_frames, drawn_line};
use crate::journal::least_length;
use crate::link;

const BOARDS: usize = 40;
/// One that reaches many numbers with few bytes.
const SEED: u64 = 105;

pub fn add(script: &mut Script) {
    let mut dice = Dice::new(SEED);
    for _ in 0..BOARDS {
        board(script, &mut dice);
    }
    for _ in 0..5 {
        let mut received = drawn_line::received(&mut dice);
        received.truncate(1_200);
        script.find(&received);
    }
}

/// One board; the second program follows, so that frames suit what the board then holds.
fn board(script: &mut Script, dice: &mut Dice) {
    let points = dice.pick(&[1, 2, 3, 4, 5, 8, 13, 20, 46]);
    let journal = least_length(points) + dice.pick(&[0, 0, 1, 45, 300]);
    let mut lent = Lent {
        board: Board::fresh(points, journal),
        axes: vec![0; 72],
        settings: drawn_boards::settings(dice),
        reply: vec![0xEE; 1_024],
    };
    script.board_with(points as u16, journal as u32, lent.settings);
    for _ in 0..dice.between(1, 3) {
        call(script, dice, &mut lent);
    }
}

fn call(script: &mut Script, dice: &mut Dice, lent: &mut Lent) {
    if lent.board.used > 0 && dice.one_in(4) {
        script.step_back();
        link::step_back(&mut lent.board, lent.settings.firsts);
        return;
    }
    let frame = match dice.roll(8) {
        0 | 1 => drawn_frames::damaged(dice, lent),
        2 => drawn_frames::odd_letters(dice, lent),
        _ => drawn_frames::good(dice, lent),
    };
    script.frame(&frame);
    let Lent { board, axes, settings, reply } = lent;
    link::answer(&frame, board, axes, *settings, reply);
}
