//! What the sum really catches (document 02, n): a frame with a true SC, the same frame with exactly one
//! byte changed, what must come of it, and whether the second program's own answer keeps to that.

use super::compare::{Answer, Call, Model};
use super::product::Made;
use crate::areas::Settings;
use crate::frames::{Sum, TEST_CALL_FRAME};
use crate::link::{sum_number, Outcome, UNTESTED};

/// What a run says where it is broken.
pub const RULE: &str = "rule of one changed byte";

/// The parts of a frame, in their order.
#[derive(Clone, Copy, Debug, PartialEq, Eq)]
pub enum Part {
    Header,
    Station,
    Id,
    Content,
    Sc,
    Cr,
    Lf,
}

/// Two frames that differ in one byte.
#[derive(Clone, Copy, Debug, PartialEq, Eq)]
pub struct OneByte<'a> {
    pub unchanged: &'a [u8],
    pub changed: &'a [u8],
    /// Where they differ.
    pub at: usize,
}

/// What must come of the changed frame, where nothing before 6 refuses the call.
#[derive(Clone, Copy, Debug, PartialEq, Eq)]
pub enum Must {
    RefusedBy6,
    RefusedBy7,
    /// Only the size of an SC letter is another, which release 2 doesn't read.
    AnsweredAsUnchanged,
}

/// A change that the rule speaks of, and that kept to it.
#[derive(Clone, Copy, Debug)]
pub struct Judged<'a> {
    pub change: OneByte<'a>,
    pub must: Must,
    pub release: u8,
    pub unchecked: u8,
    /// The number that the unchanged frame is given.
    pub number: u16,
}

impl<'a> OneByte<'a> {
    /// None unless both have one length and exactly one place where they differ.
    pub fn of(unchanged: &'a [u8], changed: &'a [u8]) -> Option<OneByte<'a>> {
        if unchanged.len() != changed.len() {
            return None;
        }
        let mut places = (0..changed.len()).filter(|&at| unchanged[at] != changed[at]);
        let at = places.next()?;
        places.next().is_none().then_some(OneByte { unchanged, changed, at })
    }

    pub fn old_byte(&self) -> u8 {
        self.unchanged[self.at]
    }

    pub fn new_byte(&self) -> u8 {
        self.changed[self.at]
    }

    /// Where the change stands in a frame that passed 6.
    pub fn part(&self) -> Part {
        match (self.at, self.changed.len() - self.at) {
            (0, _) => Part::Header,
            (_, 1) => Part::Lf,
            (_, 2) => Part::Cr,
            (_, 3 | 4) => Part::Sc,
            (1 | 2, _) => Part::Station,
            (3..=5, _) => Part::Id,
            _ => Part::Content,
        }
    }

    /// Whether a letter changed between capital and small, and nothing else.
    pub fn is_size_alone(&self) -> bool {
        self.old_byte().eq_ignore_ascii_case(&self.new_byte())
    }

    /// Whether the changed frame is a 200H for its ID, which the unchanged one isn't.
    pub fn is_made_200(&self) -> bool {
        self.part() == Part::Id && &self.changed[3..6] == b"200"
    }

    /// Of a frame that passed 6 with a true SC. It is never 12: one change makes no '@@' of two digits.
    pub fn must(&self, release: u8) -> Must {
        match self.part() {
            Part::Header | Part::Cr | Part::Lf => Must::RefusedBy6,
            Part::Id if self.is_made_200() && self.changed.len() != TEST_CALL_FRAME => {
                Must::RefusedBy6
            }
            Part::Sc if release == 2 && self.is_size_alone() => Must::AnsweredAsUnchanged,
            _ => Must::RefusedBy7,
        }
    }
}

/// Judges the second program's answer to a changed frame. None where the rule doesn't speak of it: not
/// exactly one byte is another, or the unchanged frame is refused before 7, or its SC isn't true.
pub fn judged<'a>(
    model: Model,
    unchanged: &'a [u8],
    made: &Made<'a>,
) -> Result<Option<Judged<'a>>, String> {
    let Some(change) = change_of(unchanged, made.call) else {
        return Ok(None);
    };
    let mut lent = made.before.clone();
    let as_unchanged = model(&Call::Answer { frame: unchanged.to_vec() }, &mut lent);
    let Settings { release, unchecked, .. } = lent.settings;
    let Some(number) = number_with_true_sc(unchanged, release, as_unchanged)? else {
        return Ok(None);
    };
    let must = change.must(release);
    let refused = |number: u16, sum: u8| Answer::Answered(Outcome { number, reply_length: 0, sum });
    let expected = match must {
        Must::RefusedBy6 => (refused(6, UNTESTED), made.before),
        Must::RefusedBy7 => (refused(7, sum_number(Sum::Wrong)), made.before),
        Must::AnsweredAsUnchanged => (as_unchanged, &lent),
    };
    match (made.answer, made.after) == expected {
        true => Ok(Some(Judged { change, must, release, unchecked, number })),
        false => Err(broken(&change, must, made.answer)),
    }
}

fn change_of<'a>(unchanged: &'a [u8], call: &'a Call) -> Option<OneByte<'a>> {
    match call {
        Call::Answer { frame } => OneByte::of(unchanged, frame),
        _ => None,
    }
}

/// The number of a frame that passed 6 with a true SC; None of another, Err where its SC is told wrong.
fn number_with_true_sc(frame: &[u8], release: u8, answer: Answer) -> Result<Option<u16>, String> {
    let Answer::Answered(Outcome { number, sum, .. }) = answer else {
        return Ok(None);
    };
    let told_true = sum == sum_number(Sum::True);
    match sum != UNTESTED && told_true != has_true_sc(frame, release) {
        true => Err(format!("the SC of {} is told as {sum}", frame.escape_ascii())),
        false => Ok(told_true.then_some(number)),
    }
}

/// Whether the SC is the sum's low byte, reckoned here anew and not by the tests that are judged.
fn has_true_sc(frame: &[u8], release: u8) -> bool {
    let (before, end) = frame.split_at(frame.len() - 4);
    let low = before.iter().fold(0u8, |low, &byte| low.wrapping_add(byte));
    let capitals = format!("{low:02X}");
    match release {
        2 => end[..2].eq_ignore_ascii_case(capitals.as_bytes()),
        _ => end[..2] == *capitals.as_bytes(),
    }
}

/// A broken rule as text.
fn broken(change: &OneByte, must: Must, answer: Answer) -> String {
    let OneByte { unchanged, changed, at } = change;
    format!(
        "byte {at} of {} is another in {}: it must be {must:?}, but is {answer:?}",
        unchanged.escape_ascii(),
        changed.escape_ascii()
    )
}

#[cfg(test)]
mod tests {
    use super::super::compare::{second, Lent};
    use super::super::product::made;
    use super::*;
    use crate::areas::Board;
    use crate::bench::SETTINGS;

    const QUERY: &[u8] = b"!992082D\r\n";

    fn lent(release: u8) -> Lent {
        Lent {
            board: Board::fresh(1, 540),
            axes: vec![0; 72],
            settings: Settings { release, ..SETTINGS },
            reply: vec![0xEE; 1_024],
        }
    }

    #[test]
    fn one_byte_is_neither_none_nor_two_nor_another_length() {
        assert_eq!(OneByte::of(b"", b""), None);
        assert_eq!(OneByte::of(QUERY, QUERY), None);
        assert_eq!(OneByte::of(QUERY, &QUERY[..9]), None);
        assert_eq!(OneByte::of(&QUERY[..9], QUERY), None);
        assert_eq!(OneByte::of(QUERY, b"!892082E\r\n"), None);
        for at in 0..QUERY.len() {
            let mut changed = QUERY.to_vec();
            changed[at] ^= 0xFF;
            let change = OneByte::of(QUERY, &changed);
            assert_eq!(change, Some(OneByte { unchanged: QUERY, changed: &changed, at }));
        }
    }

    #[test]
    fn each_place_is_of_one_part() {
        let frame = b"!992120133\r\n";
        let part = |at: usize| OneByte { unchanged: frame, changed: frame, at }.part();
        let parts: Vec<Part> = (0..frame.len()).map(part).collect();
        assert_eq!(parts[..3], [Part::Header, Part::Station, Part::Station]);
        assert_eq!(parts[3..8], [Part::Id, Part::Id, Part::Id, Part::Content, Part::Content]);
        assert_eq!(parts[8..], [Part::Sc, Part::Sc, Part::Cr, Part::Lf]);
    }

    /// Judges this answer to a changed frame in place of the second program's own.
    fn judged_as(
        unchanged: &[u8],
        frame: &[u8],
        before: &Lent,
        answer: impl Fn(Outcome) -> Outcome,
    ) -> Result<Option<(Must, u16)>, String> {
        let call = Call::Answer { frame: frame.to_vec() };
        let mut after = before.clone();
        let mut made = made(&second, 1, &call, before, &mut after);
        if let Answer::Answered(outcome) = &mut made.answer {
            *outcome = answer(*outcome);
        }
        let judged = judged(&second, unchanged, &made)?;
        Ok(judged.map(|judged| (judged.must, judged.number)))
    }

    #[test]
    fn the_rule_speaks_only_of_true_frames_that_nothing_before_6_refuses() {
        let judged = |unchanged: &[u8], frame: &[u8], before: &Lent| {
            judged_as(unchanged, frame, before, |outcome| outcome)
        };
        assert_eq!(judged(QUERY, b"!992083D\r\n", &lent(1)), Ok(Some((Must::RefusedBy7, 0))));
        assert_eq!(judged(QUERY, b"!992002D\r\n", &lent(1)), Ok(Some((Must::RefusedBy6, 0))));
        let as_unchanged = Must::AnsweredAsUnchanged;
        assert_eq!(judged(QUERY, b"!992082d\r\n", &lent(2)), Ok(Some((as_unchanged, 0))));
        assert_eq!(judged(QUERY, QUERY, &lent(1)), Ok(None));
        assert_eq!(judged(b"!99208@@\r\n", b"!99218@@\r\n", &lent(1)), Ok(None));
        assert_eq!(judged(b"!992082E\r\n", QUERY, &lent(1)), Ok(None));
        assert_eq!(judged(b"?992082D\r\n", QUERY, &lent(1)), Ok(None));
        assert_eq!(judged(b"!992082d\r\n", QUERY, &lent(1)), Ok(None));
        assert_eq!(judged(QUERY, b"!992083D\r\n", &lent(3)), Ok(None));
        let no_axis = Lent { settings: Settings { fitted: 0, ..SETTINGS }, ..lent(1) };
        assert_eq!(judged(QUERY, b"!992083D\r\n", &no_axis), Ok(None));
    }

    #[test]
    fn another_answer_breaks_the_rule() {
        for (release, frame) in
            [(1, b"!992083D\r\n"), (2, b"!892082D\r\n"), (1, b"!992082d\r\n"), (2, b"!992082D\r\r")]
        {
            for number in (0..=13).chain(101..=108) {
                let right = judged_as(QUERY, frame, &lent(release), |outcome| outcome);
                let given = judged_as(QUERY, frame, &lent(release), |outcome| Outcome {
                    number,
                    ..outcome
                });
                let is_right = number == if frame.ends_with(b"\r\n") { 7 } else { 6 };
                assert_eq!((right.is_ok(), given.is_ok()), (true, is_right), "{number}");
            }
        }
        for number in [6, 7, 8, 12, 101] {
            let exception = b"!992082d\r\n";
            let given = judged_as(QUERY, exception, &lent(2), |_| Outcome {
                number,
                reply_length: 0,
                sum: UNTESTED,
            });
            assert!(given.is_err(), "{number}");
        }
    }
}
