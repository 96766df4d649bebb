//! A count that is kept (document 02, b): whether the second program's own answer to a call keeps to the
//! rule. A count that is true stays true, so that from fresh, each call handed the count that the last one
//! handed back, it always is, and 11 never comes; one that isn't is handed back, and nothing is done by it.

use super::compare::Call;
use super::product::Made;
use crate::areas::{Board, SLOT};

/// What a run says where it is broken.
pub const RULE: &str = "rule of the kept count";

/// The slots with a non-zero pattern, counted here anew and not by what is judged.
pub fn slots(board: &Board) -> usize {
    let patterns = board.points.iter().step_by(SLOT).take(board.points.len() / SLOT);
    patterns.filter(|&&pattern| pattern != 0).count()
}

pub fn is_true(board: &Board) -> bool {
    board.effective == slots(board)
}

/// Whether the count is a reason for 11, whatever an earlier test says of the call.
pub fn holds_11(call: &Call, board: &Board) -> bool {
    match call {
        Call::Answer { frame } | Call::Check { frame } | Call::Act { frame } => {
            match frame.get(3..6) {
                Some(b"244" | b"246") => !is_true(board),
                Some(b"208") => board.effective > board.points.len() / SLOT,
                _ => false,
            }
        }
        Call::StepBack => !is_true(board),
        Call::Receive { .. } => false,
    }
}

/// Judges the second program's answer to one call; Err says how it breaks the rule.
pub fn judged(made: &Made) -> Result<(), String> {
    let Some(how) = broken(made) else {
        return Ok(());
    };
    let [before, after] = [&made.before.board, &made.after.board]
        .map(|board| format!("count {} of {} slots", board.effective, slots(board)));
    Err(format!("{how}: {before}, then {after}, {:?}", made.answer))
}

/// The first part of the rule that doesn't hold.
fn broken(made: &Made) -> Option<&'static str> {
    let number = made.answer.number()?;
    let (before, after) = (&made.before.board, &made.after.board);
    let holds = holds_11(made.call, before);
    if number == 11 && !holds {
        return Some("11 where it doesn't hold");
    }
    if number == 0 && holds {
        return Some("done where 11 holds");
    }
    let must_be = match is_true(before) {
        true => slots(after),
        false => before.effective,
    };
    if after.effective != must_be {
        return Some("another count is handed back");
    }
    match number == 0 && replies_another_count(made) {
        true => Some("another count is replied"),
        false => None,
    }
}

/// Whether an accepted 208H replies another count than the one given.
fn replies_another_count(made: &Made) -> bool {
    match made.call {
        Call::Answer { frame } | Call::Act { frame } if &frame[3..6] == b"208" => {
            let count = format!("{:03X}", made.before.board.effective);
            made.after.reply.get(6..9) != Some(count.as_bytes())
        }
        _ => false,
    }
}

#[cfg(test)]
mod tests {
    use super::super::compare::{second, Answer, Lent};
    use super::super::product::made;
    use super::*;
    use crate::bench::{command, SETTINGS};

    const WRITE: &str = "24400200201001E001E00640000C35001001E001E00640000C350";

    /// Three points, the second of them effective, and an entry of it.
    fn lent() -> Lent {
        let mut lent = Lent {
            board: Board::fresh(3, 620),
            axes: vec![0; 72],
            settings: SETTINGS,
            reply: vec![0xEE; 1_024],
        };
        second(&answer("24400200101001E001E00640000C350"), &mut lent);
        lent
    }

    fn answer(id_and_content: &str) -> Call {
        Call::Answer { frame: command(0x99, id_and_content.as_bytes()) }
    }

    /// Judges a call whose answer and what it left are changed so.
    fn judged_as(
        call: &Call,
        effective: usize,
        change: impl Fn(&mut Answer, &mut Lent),
    ) -> Result<(), String> {
        let mut before = lent();
        before.board.effective = effective;
        let mut after = before.clone();
        let mut answer = made(&second, 1, call, &before, &mut after).answer;
        change(&mut answer, &mut after);
        judged(&Made { number: 1, call, before: &before, after: &after, answer })
    }

    #[test]
    fn slots_are_counted_by_their_pattern() {
        let mut board = lent().board;
        assert_eq!((slots(&board), board.effective), (1, 1));
        board.points.fill(0xFF);
        assert_eq!((slots(&board), is_true(&board)), (3, false));
        board.points.push(0xFF);
        assert_eq!(slots(&board), 3);
        board.points.clear();
        assert_eq!(slots(&board), 0);
    }

    #[test]
    fn the_rule_is_kept_with_true_counts_and_with_others() {
        for effective in [0, 1, 2, 3, 4, usize::MAX] {
            for text in ["208", "20800", WRITE, "244", "246001003", "24E0012C0141", "299"] {
                let judged = judged_as(&answer(text), effective, |_, _| {});
                assert_eq!(judged, Ok(()), "{text}, {effective}");
            }
            assert_eq!(judged_as(&Call::StepBack, effective, |_, _| {}), Ok(()));
        }
    }

    /// Changes what a call answered and left.
    type Change = fn(&mut Answer, &mut Lent);

    fn number(answer: &mut Answer, number: u16) {
        if let Answer::Answered(outcome) = answer {
            outcome.number = number;
        }
    }

    #[test]
    fn each_part_of_the_rule_may_be_broken() {
        let cases: [(&str, &str, usize, Change); 11] = [
            ("11 where", WRITE, 1, |answer, _| number(answer, 11)),
            ("11 where", "208", 3, |answer, _| number(answer, 11)),
            ("11 where", "24E0012C0141", 4, |answer, _| number(answer, 11)),
            ("done where", "246001001", 2, |answer, _| number(answer, 0)),
            ("done where", "208", 4, |answer, _| number(answer, 0)),
            ("another count is handed", WRITE, 1, |_, after| after.board.effective = 3),
            ("another count is handed", "246001002", 1, |_, after| after.board.effective = 1),
            ("another count is handed", "246001002", 0, |_, after| after.board.effective = 1),
            ("another count is handed", "24E0012C0141", 7, |_, after| after.board.effective = 1),
            ("another count is handed", "208", 2, |_, after| after.board.effective = 1),
            ("another count is replied", "208", 2, |_, after| after.reply[8] = b'1'),
        ];
        for (what, text, effective, change) in cases {
            let how = judged_as(&answer(text), effective, change).err().unwrap_or_default();
            assert!(how.starts_with(what), "{what}: {text}, {effective}: {how}");
        }
        let back = |answer: Answer| {
            judged_as(&Call::StepBack, 0, move |given, _| *given = answer).err().unwrap_or_default()
        };
        assert!(back(Answer::SteppedBack(0)).starts_with("done where 11 holds: count 0 of 1 slots"));
    }
}
