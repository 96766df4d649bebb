//! Look before storing (document 02, g): a frame that is checked and then acted on with nothing between,
//! and whether the second program's own answers keep to the rule. Both calls together are one answer, and
//! what is shown is what is done.

use super::compare::{Answer, Call, Lent, Model};
use crate::areas::{Board, Kind, Kinds, Run};
use crate::frames::LONGEST_REPLY;
use crate::link::{Outcome, Shown, UNTESTED};

/// What a run says where it is broken.
pub const RULE: &str = "rule of looking first";

/// A frame checked, then acted on with nothing between.
#[derive(Clone, Copy, Debug)]
pub struct Looked<'a> {
    pub frame: &'a [u8],
    /// What was lent before the check, between the two, and what acting left.
    pub before: &'a Lent,
    pub between: &'a Lent,
    pub after: &'a Lent,
    pub checked: Answer,
    pub acted: Answer,
}

/// What a pair of calls said that kept to the rule.
#[derive(Clone, Copy, Debug, PartialEq, Eq)]
pub struct Judged {
    pub shown: Shown,
    pub outcome: Outcome,
}

/// Judges the second program's answers to both calls; Err says how they break the rule.
pub fn judged(model: Model, looked: &Looked) -> Result<Judged, String> {
    let (Answer::Checked(shown), Answer::Answered(outcome)) = (looked.checked, looked.acted) else {
        return Err("these are no check and act".to_string());
    };
    let judged = Judged { shown, outcome };
    match broken(model, looked, judged) {
        None => Ok(judged),
        Some(how) => {
            let frame = looked.frame.escape_ascii();
            Err(format!("{how}: {frame}, checked {shown:?}, acted on {outcome:?}"))
        }
    }
}

/// The first part of the rule that doesn't hold.
fn broken(model: Model, looked: &Looked, judged: Judged) -> Option<&'static str> {
    let Judged { shown, outcome } = judged;
    if looked.between != looked.before {
        return Some("the check changed something");
    }
    if shown.number == 1 {
        return Some("the check gives 1");
    }
    if (outcome.number, outcome.sum) != must_give(shown, looked.before.reply.len()) {
        return Some("acting gives something else than the check");
    }
    if Some((shown.message, shown.start, shown.count)) != must_show(shown.number, looked.frame) {
        return Some("something else is shown than the frame names");
    }
    if !does_what_was_shown(looked, judged) {
        return Some("something else is done than was shown");
    }
    let mut lent = looked.before.clone();
    let answered = model(&Call::Answer { frame: looked.frame.to_vec() }, &mut lent);
    match (looked.acted, looked.after) == (answered, &lent) {
        true => None,
        false => Some("check and act aren't the answer"),
    }
}

/// Number and sum of acting: 1 where the reply area is too short, else as the check gave them.
fn must_give(shown: Shown, reply_area: usize) -> (u16, u8) {
    match reply_area < LONGEST_REPLY {
        true => (1, UNTESTED),
        false => (shown.number, shown.sum),
    }
}

/// Message, start and count: none of a refusal, else read here anew by their places in the frame and not
/// by the tests that are judged. None where the frame has no such places.
fn must_show(number: u16, frame: &[u8]) -> Option<(u16, usize, usize)> {
    if number != 0 {
        return Some((0, 0, 0));
    }
    let field = |from: usize, to: usize| {
        let digits = std::str::from_utf8(frame.get(from..to)?).ok()?;
        usize::from_str_radix(digits, 16).ok()
    };
    let message = field(3, 6)?;
    let (start, count) = match message {
        0x200 | 0x208 | 0x212 => (0, 0),
        0x209 | 0x244 | 0x246 => (field(6, 9)?, field(9, 12)?),
        0x20D => (field(8, 12)?, field(12, 16)?),
        0x20E | 0x210 | 0x24C | 0x24E => (field(8, 11)?, field(11, 13)?),
        0x24B => (field(8, 12)?, 1),
        _ => return None,
    };
    Some((message as u16, start, count))
}

/// A write that is done leaves all bytes but those of the shown run, and an entry of it; anything else
/// leaves all.
fn does_what_was_shown(looked: &Looked, judged: Judged) -> bool {
    let Judged { shown, outcome } = judged;
    let (before, after) = (&looked.before.board, &looked.after.board);
    match written(shown.message, &looked.before.kinds()) {
        Some(kind) if outcome.number == 0 => {
            let run = Run { kind, start: shown.start, count: shown.count };
            run.is_held()
                && changes_only(before, after, &run)
                && ends_with_its_entry(before, after, &run)
        }
        _ => before == after,
    }
}

/// The kind that a message writes; None of a query.
fn written(message: u16, kinds: &Kinds) -> Option<Kind> {
    match message {
        0x244 | 0x246 => Some(kinds.points),
        0x24B => Some(kinds.flags),
        0x24C => Some(kinds.integers),
        0x24E => Some(kinds.columns),
        _ => None,
    }
}

/// Whether no byte of the four areas is another but those of a held run; of the kept count nothing is said.
fn changes_only(before: &Board, after: &Board, run: &Run) -> bool {
    let Board { journal, used, effective, .. } = after.clone();
    let mut expected = Board { journal, used, effective, ..before.clone() };
    let (area, place) = (run.kind.area, run.place());
    expected.area_mut(area)[place.clone()].copy_from_slice(&after.area(area)[place]);
    expected == *after
}

/// Whether the journal's last entry has the old bytes of a held run.
fn ends_with_its_entry(before: &Board, after: &Board, run: &Run) -> bool {
    let old = &before.area(run.kind.area)[run.place()];
    let mut entry = vec![run.kind.tag];
    entry.extend(((2 + old.len()) as u16).to_be_bytes());
    entry.extend((run.start as u16).to_be_bytes());
    entry.extend(old);
    after.journal.get(..after.used).is_some_and(|used| used.ends_with(&entry))
}

#[cfg(test)]
mod tests {
    use super::super::compare::second;
    use super::*;
    use crate::bench::{command, SETTINGS};

    fn lent() -> Lent {
        Lent {
            board: Board::fresh(3, 620),
            axes: vec![0; 72],
            settings: SETTINGS,
            reply: vec![0xEE; 1_024],
        }
    }

    /// Judges a frame whose check, act and what they leave are changed so.
    fn judged_as(
        id_and_content: &str,
        before: &Lent,
        change: impl Fn(&mut Shown, &mut Outcome, &mut [Lent; 2]),
    ) -> Result<Judged, String> {
        let frame = command(0x99, id_and_content.as_bytes());
        let [mut between, mut after] = [before.clone(), before.clone()];
        let checked = second(&Call::Check { frame: frame.clone() }, &mut between);
        let acted = second(&Call::Act { frame: frame.clone() }, &mut after);
        let (Answer::Checked(mut shown), Answer::Answered(mut outcome)) = (checked, acted) else {
            panic!("checked and acted on");
        };
        let mut left = [between, after];
        change(&mut shown, &mut outcome, &mut left);
        let [between, after] = &left;
        let (checked, acted) = (Answer::Checked(shown), Answer::Answered(outcome));
        judged(&second, &Looked { frame: &frame, before, between, after, checked, acted })
    }

    const WRITE: &str = "24E0012D0230FF";

    #[test]
    fn the_rule_is_kept_by_each_message_and_by_refusals() {
        for (text, number, message, start, count) in [
            ("2000123456789", 0, 0x200, 0, 0),
            ("208", 0, 0x208, 0, 0),
            ("209002002", 0, 0x209, 2, 2),
            ("20D000259012B", 0, 0x20D, 601, 299),
            ("20E000C964", 106, 0, 0, 0),
            ("20E000C863", 0, 0x20E, 200, 99),
            ("2100012CFF", 0, 0x210, 300, 255),
            ("212FF", 0, 0x212, 0, 0),
            ("24400300101001E001E00640000C350", 0, 0x244, 3, 1),
            ("246001003", 0, 0x246, 1, 3),
            ("24B0003831", 0, 0x24B, 899, 1),
            ("24C0012B0112345678", 0, 0x24C, 299, 1),
            (WRITE, 0, 0x24E, 301, 2),
            ("299", 101, 0, 0, 0),
        ] {
            let Ok(judged) = judged_as(text, &lent(), |_, _, _| {}) else {
                panic!("{text} breaks the rule");
            };
            assert_eq!(judged.shown, Shown { number, message, start, count, sum: 1 }, "{text}");
            assert_eq!(judged.outcome.number, number, "{text}");
        }
    }

    #[test]
    fn where_the_reply_area_is_short_acting_gives_1() {
        let short = Lent { reply: vec![0xEE; 1_023], ..lent() };
        let of = |text: &str| judged_as(text, &short, |_, _, _| {});
        let numbers = |text: &str| of(text).map(|both| (both.shown.number, both.outcome.number));
        assert_eq!(numbers(WRITE), Ok((0, 1)));
        assert_eq!(numbers("299"), Ok((101, 1)));
        let given = judged_as(WRITE, &short, |_, outcome, _| outcome.number = 0);
        assert!(given.is_err_and(|how| how.starts_with("acting gives something else")));
    }

    /// Changes what a check and an act say and leave.
    type Change = fn(&mut Shown, &mut Outcome, &mut [Lent; 2]);

    #[test]
    fn each_part_of_the_rule_may_be_broken() {
        let changes: [(&str, Change); 14] = [
            ("the check changed", |_, _, [between, _]| between.board.used = 1),
            ("the check changed", |_, _, [between, _]| between.reply[0] = 0),
            ("the check gives 1", |shown, _, _| shown.number = 1),
            ("acting gives", |shown, _, _| shown.number = 105),
            ("acting gives", |_, outcome, _| outcome.number = 105),
            ("acting gives", |shown, _, _| shown.sum = 2),
            ("something else is shown", |shown, _, _| shown.message = 0x244),
            ("something else is shown", |shown, _, _| shown.start = 2),
            ("something else is shown", |shown, _, _| shown.count += 1),
            ("something else is done", |_, _, [_, after]| after.board.columns[0] = 1),
            ("something else is done", |_, _, [_, after]| after.board.flags[1] = 1),
            ("something else is done", |_, _, [_, after]| after.board.journal[4] += 1),
            ("check and act aren't", |_, _, [_, after]| after.board.columns[1] += 1),
            ("check and act aren't", |_, outcome, _| outcome.reply_length = 9),
        ];
        for (what, change) in changes {
            let how = judged_as(WRITE, &lent(), change).err().unwrap_or_default();
            assert!(how.starts_with(what), "{what}: {how}");
        }
        let refused = judged_as("299", &lent(), |shown, _, _| shown.message = 0x299);
        assert!(refused.is_err_and(|how| how.starts_with("something else is shown")));
        let query = judged_as("208", &lent(), |_, _, [_, after]| after.board.journal[0] = 1);
        assert!(query.is_err_and(|how| how.starts_with("something else is done")));
    }
}
