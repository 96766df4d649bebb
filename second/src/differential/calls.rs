//! The five calls of `include/cabinet.h`, as the comparison makes them.

use crate::areas::{Board, Firsts, Settings};
use crate::frames::{self, Found};
use crate::link::{self, Outcome, Shown};

/// The areas that calls may write, and the used length and the count handed over and handed back.
pub struct Areas<'a> {
    pub points: &'a mut [u8],
    pub columns: &'a mut [u8],
    pub integers: &'a mut [u8],
    pub flags: &'a mut [u8],
    pub journal: &'a mut [u8],
    pub used: usize,
    pub effective: usize,
}

/// What the finder answers, as numbers: code 0 a frame, 1 nothing, 2 wait, 3 too long.
#[derive(Clone, Copy, Debug, PartialEq, Eq)]
pub struct Finding {
    pub code: u8,
    pub start: usize,
    pub length: usize,
    pub drop: usize,
}

impl From<Found> for Finding {
    fn from(found: Found) -> Finding {
        let without = |code: u8, drop: usize| Finding { code, start: 0, length: 0, drop };
        match found {
            Found::Frame { start, length, used } => Finding { code: 0, start, length, drop: used },
            Found::Nothing { drop } => without(1, drop),
            Found::Wait { drop } => without(2, drop),
            Found::TooLong { drop } => without(3, drop),
        }
    }
}

/// Something that is compared with the second program.
pub trait Calls {
    fn receive(&self, received: &[u8]) -> Finding;

    fn answer(
        &self,
        frame: &[u8],
        areas: &mut Areas,
        axes: &[u8],
        settings: Settings,
        reply: &mut [u8],
    ) -> Outcome;

    /// What is lent may be written, so that a board which does is found. One that is wrong in something
    /// else checks as the second program does.
    fn check(&self, frame: &[u8], areas: &mut Areas, axes: &[u8], settings: Settings) -> Shown {
        on_board(areas, |board| link::check(frame, board, axes, settings))
    }

    /// A board that is wrong in its answers is as wrong in its acts.
    fn act(
        &self,
        frame: &[u8],
        areas: &mut Areas,
        axes: &[u8],
        settings: Settings,
        reply: &mut [u8],
    ) -> Outcome {
        self.answer(frame, areas, axes, settings, reply)
    }

    fn step_back(&self, areas: &mut Areas, firsts: Firsts) -> u16;
}

/// The second program itself, to try the comparison on.
pub struct SecondProgram;

impl Calls for SecondProgram {
    fn receive(&self, received: &[u8]) -> Finding {
        frames::find(received).into()
    }

    fn answer(
        &self,
        frame: &[u8],
        areas: &mut Areas,
        axes: &[u8],
        settings: Settings,
        reply: &mut [u8],
    ) -> Outcome {
        on_board(areas, |board| link::answer(frame, board, axes, settings, reply))
    }

    fn act(
        &self,
        frame: &[u8],
        areas: &mut Areas,
        axes: &[u8],
        settings: Settings,
        reply: &mut [u8],
    ) -> Outcome {
        on_board(areas, |board| link::act(frame, board, axes, settings, reply))
    }

    fn step_back(&self, areas: &mut Areas, firsts: Firsts) -> u16 {
        on_board(areas, |board| link::step_back(board, firsts))
    }
}

/// Makes a call on a board with the bytes of these areas, and lays them back.
fn on_board<T>(areas: &mut Areas, call: impl FnOnce(&mut Board) -> T) -> T {
    let mut board = Board {
        points: areas.points.to_vec(),
        columns: areas.columns.to_vec(),
        integers: areas.integers.to_vec(),
        flags: areas.flags.to_vec(),
        journal: areas.journal.to_vec(),
        used: areas.used,
        effective: areas.effective,
    };
    let answer = call(&mut board);
    areas.points.copy_from_slice(&board.points);
    areas.columns.copy_from_slice(&board.columns);
    areas.integers.copy_from_slice(&board.integers);
    areas.flags.copy_from_slice(&board.flags);
    areas.journal.copy_from_slice(&board.journal);
    areas.used = board.used;
    areas.effective = board.effective;
    answer
}
