//! One call and all that is lent to it, the same call on the second program, and both as text.

use super::calls::Finding;
use crate::areas::{Board, Kinds, Settings, SLOT};
use crate::frames;
use crate::link::{self, Outcome, Shown};
use std::fmt::Write;

/// All that is lent to a call.
#[derive(Clone, Debug, PartialEq, Eq)]
pub struct Lent {
    pub board: Board,
    pub axes: Vec<u8>,
    pub settings: Settings,
    pub reply: Vec<u8>,
}

impl Lent {
    /// The kinds of the board; with a spoiled points area, of the points it has room for.
    pub fn kinds(&self) -> Kinds {
        Kinds::of((self.board.points.len() / SLOT).max(1), self.settings.firsts)
    }
}

#[derive(Clone, Debug, PartialEq, Eq)]
pub enum Call {
    Answer { frame: Vec<u8> },
    Check { frame: Vec<u8> },
    Act { frame: Vec<u8> },
    StepBack,
    Receive { received: Vec<u8> },
}

/// What the second program answered.
#[derive(Clone, Copy, Debug, PartialEq, Eq)]
pub enum Answer {
    /// Of a frame answered or acted on.
    Answered(Outcome),
    Checked(Shown),
    SteppedBack(u16),
    Received(Finding),
}

impl Answer {
    /// 0 or the refusal; the finder has none.
    pub fn number(&self) -> Option<u16> {
        match self {
            Answer::Answered(Outcome { number, .. }) | Answer::Checked(Shown { number, .. }) => {
                Some(*number)
            }
            Answer::SteppedBack(number) => Some(*number),
            Answer::Received(_) => None,
        }
    }
}

/// How many areas a call has, with the bytes handed over.
pub const PARTS: usize = 8;

/// Their names, in the order of `parts`.
pub const NAMES: [&str; PARTS] =
    ["handed bytes", "points", "columns", "integers", "flags", "journal", "axes", "reply area"];

/// All areas of a call, in the player's order.
pub fn parts<'a>(call: &'a Call, lent: &'a Lent) -> [&'a [u8]; PARTS] {
    let Lent { board, axes, reply, .. } = lent;
    let Board { points, columns, integers, flags, journal, .. } = board;
    [handed(call), points, columns, integers, flags, journal, axes, reply]
}

/// The bytes a call reads and may not write.
fn handed(call: &Call) -> &[u8] {
    match call {
        Call::Answer { frame } | Call::Check { frame } | Call::Act { frame } => frame,
        Call::StepBack => &[],
        Call::Receive { received } => received,
    }
}

/// What answers a call: `second`, or another to try a run with.
pub type Model<'a> = &'a dyn Fn(&Call, &mut Lent) -> Answer;

/// The same call on the second program.
pub fn second(call: &Call, lent: &mut Lent) -> Answer {
    let Lent { board, axes, settings, reply } = lent;
    match call {
        Call::Answer { frame } => {
            Answer::Answered(link::answer(frame, board, axes, *settings, reply))
        }
        Call::Check { frame } => Answer::Checked(link::check(frame, board, axes, *settings)),
        Call::Act { frame } => Answer::Answered(link::act(frame, board, axes, *settings, reply)),
        Call::StepBack => Answer::SteppedBack(link::step_back(board, settings.firsts)),
        Call::Receive { received } => Answer::Received(frames::find(received).into()),
    }
}

/// All inputs of a call as text, zero lines left out.
pub fn dump(call: &Call, lent: &Lent) -> String {
    let Settings { fitted, station, release, unchecked, firsts } = lent.settings;
    let name = match call {
        Call::Answer { .. } => "answer",
        Call::Check { .. } => "check",
        Call::Act { .. } => "act",
        Call::StepBack => "step back",
        Call::Receive { .. } => "receive",
    };
    let mut text = format!("call: {name}\n");
    let _ = writeln!(
        text,
        "fitted {fitted:02X} station {station:02X} release {release} unchecked {unchecked:02X}"
    );
    let _ = writeln!(text, "used {} effective {}", lent.board.used, lent.board.effective);
    let _ = writeln!(text, "first integer {:04X} first flag {:04X}", firsts.integer, firsts.flag);
    for (name, bytes) in NAMES.into_iter().zip(parts(call, lent)) {
        dump_bytes(&mut text, name, bytes);
    }
    text
}

fn dump_bytes(text: &mut String, name: &str, bytes: &[u8]) {
    let _ = writeln!(text, "{name}: {} bytes", bytes.len());
    for (row, line) in bytes.chunks(32).enumerate() {
        if line.iter().any(|&byte| byte != 0) {
            let digits: String = line.iter().map(|byte| format!("{byte:02X}")).collect();
            let _ = writeln!(text, "  {:5} {digits}", 32 * row);
        }
    }
}

#[cfg(test)]
mod tests {
    use super::*;
    use crate::bench::SETTINGS;

    #[test]
    fn a_dump_has_all_inputs() {
        let lent = Lent {
            board: Board::fresh(1, 540),
            axes: vec![7; 72],
            settings: SETTINGS,
            reply: vec![0xEE; 33],
        };
        let text = dump(&Call::Answer { frame: b"!99".to_vec() }, &lent);
        let settings = "fitted FF station 99 release 1 unchecked 01\nused 0 effective 0\n";
        let firsts = "first integer 00C8 first flag 0258\n";
        let front = ["call: answer\n", settings, firsts, "handed bytes: 3 bytes\n"].concat();
        assert!(text.starts_with(&front));
        assert!(text.contains("      0 213939\npoints: 40 bytes\ncolumns: 700 bytes\n"));
        assert!(text.contains("integers: 400 bytes\nflags: 300 bytes\njournal: 540 bytes\n"));
        assert!(text.ends_with("     32 EE\n"));
    }
}
