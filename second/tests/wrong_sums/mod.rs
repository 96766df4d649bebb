//! Boards that are wrong in what the sum test says or in refusal 12 (document 02, f), for the comparison
//! to find.

use super::wrong_letters::sound;
use second::areas::{Firsts, Settings};
use second::differential::{Areas, Calls, Finding, SecondProgram};
use second::frames::{closed, sc};
use second::Outcome;

const UNTESTED: u8 = 0;
const TRUE: u8 = 1;
const SWITCHED_OFF: u8 = 2;
const WRONG: u8 = 3;

/// What stands in the sum where a call doesn't set it.
const UNSET: u8 = 0x55;

/// What such a board does otherwise than the second program.
#[derive(Clone, Copy, Debug, PartialEq)]
pub enum WrongSums {
    Gives12ForAWrongSc,
    Gives7ForForbiddenMarks,
    TellsMarksAsTrue,
    TellsForbiddenMarksAsWrong,
    TellsAWrongScAsUntested,
    TellsTheSumWhere6Refused,
    TellsTheSumWhere13Refused,
    TellsTheSumWhere1Refused,
    ForgetsTheSumWhere8Refuses,
    ForgetsTheSumInAnErrorReply,
    ForgetsTheSumOfAnAcceptedFrame,
    LeavesTheSumUnset,
    LeavesTheSumUnsetWhereUntested,
    Tests12After8,
    Tests12Before6,
    Tests12BehindTheErrorReplies,
    TakesOneMarkAsSwitchedOff,
    TakesAFirstMarkAsSwitchedOff,
    AllowsMarksAlways,
    ForbidsMarksUnless1,
    ForbidsMarksFrom80,
    ForbidsMarksAt80Alone,
    ForbidsWhere1Allows,
    Gives12AnErrorReply,
    StoresWhere12Refuses,
    RefusesATrueScWhereMarksAreForbidden,
}

pub const ALL: [WrongSums; 26] = [
    WrongSums::Gives12ForAWrongSc,
    WrongSums::Gives7ForForbiddenMarks,
    WrongSums::TellsMarksAsTrue,
    WrongSums::TellsForbiddenMarksAsWrong,
    WrongSums::TellsAWrongScAsUntested,
    WrongSums::TellsTheSumWhere6Refused,
    WrongSums::TellsTheSumWhere13Refused,
    WrongSums::TellsTheSumWhere1Refused,
    WrongSums::ForgetsTheSumWhere8Refuses,
    WrongSums::ForgetsTheSumInAnErrorReply,
    WrongSums::ForgetsTheSumOfAnAcceptedFrame,
    WrongSums::LeavesTheSumUnset,
    WrongSums::LeavesTheSumUnsetWhereUntested,
    WrongSums::Tests12After8,
    WrongSums::Tests12Before6,
    WrongSums::Tests12BehindTheErrorReplies,
    WrongSums::TakesOneMarkAsSwitchedOff,
    WrongSums::TakesAFirstMarkAsSwitchedOff,
    WrongSums::AllowsMarksAlways,
    WrongSums::ForbidsMarksUnless1,
    WrongSums::ForbidsMarksFrom80,
    WrongSums::ForbidsMarksAt80Alone,
    WrongSums::ForbidsWhere1Allows,
    WrongSums::Gives12AnErrorReply,
    WrongSums::StoresWhere12Refuses,
    WrongSums::RefusesATrueScWhereMarksAreForbidden,
];

/// The two bytes that stand for an SC, where the frame is long enough to have them.
fn given(frame: &[u8]) -> &[u8] {
    let end = frame.len().saturating_sub(2);
    &frame[end.saturating_sub(2)..end]
}

/// What the sum test would say of a frame in capitals, whatever its shape.
fn said(frame: &[u8]) -> u8 {
    let before = &frame[..frame.len().saturating_sub(4)];
    match given(frame) {
        b"@@" => SWITCHED_OFF,
        given if given == sc(before) => TRUE,
        _ => WRONG,
    }
}

impl WrongSums {
    /// The frame and the setting that the board takes for those handed over.
    fn takes(self, frame: &[u8], unchecked: u8) -> (Vec<u8>, u8) {
        let same = (frame.to_vec(), unchecked);
        let marks = given(frame).iter().filter(|&&byte| byte == b'@').count();
        let marked = || [&frame[..frame.len() - 4], b"@@", &frame[frame.len() - 2..]].concat();
        match self {
            WrongSums::AllowsMarksAlways => (same.0, 1),
            WrongSums::ForbidsMarksUnless1 => (same.0, u8::from(unchecked == 1)),
            WrongSums::ForbidsMarksFrom80 => (same.0, u8::from((1..0x80).contains(&unchecked))),
            WrongSums::ForbidsMarksAt80Alone => (same.0, unchecked & 0x7F),
            WrongSums::ForbidsWhere1Allows => (same.0, u8::from(unchecked == 0)),
            WrongSums::TakesOneMarkAsSwitchedOff if marks == 1 && frame.len() >= 10 => {
                (marked(), unchecked)
            }
            WrongSums::TakesAFirstMarkAsSwitchedOff
                if frame.len() >= 10 && given(frame)[0] == b'@' =>
            {
                (marked(), unchecked)
            }
            _ => same,
        }
    }

    /// The number with which it refuses a frame to which a sound board gives this answer.
    fn refuses(self, frame: &[u8], unchecked: u8, sound: Outcome) -> Option<u16> {
        let forbidden = unchecked == 0 && given(frame) == b"@@";
        match (self, sound.number) {
            (WrongSums::Gives12ForAWrongSc, 7) if unchecked == 0 => Some(12),
            (WrongSums::Gives7ForForbiddenMarks, 12) => Some(7),
            (WrongSums::Tests12Before6, 6) if forbidden => Some(12),
            (WrongSums::RefusesATrueScWhereMarksAreForbidden, 0) if unchecked == 0 => Some(12),
            _ => None,
        }
    }

    /// What it tells instead of a sound board's answer.
    fn tells(self, frame: &[u8], outcome: Outcome) -> u8 {
        let Outcome { number, sum, .. } = outcome;
        match self {
            WrongSums::TellsMarksAsTrue if sum == SWITCHED_OFF => TRUE,
            WrongSums::TellsForbiddenMarksAsWrong if number == 12 => WRONG,
            WrongSums::TellsAWrongScAsUntested if sum == WRONG => UNTESTED,
            WrongSums::TellsTheSumWhere6Refused if number == 6 => said(frame),
            WrongSums::TellsTheSumWhere13Refused if number == 13 => said(frame),
            WrongSums::TellsTheSumWhere1Refused if number == 1 => said(frame),
            WrongSums::ForgetsTheSumWhere8Refuses if number == 8 => UNTESTED,
            WrongSums::ForgetsTheSumInAnErrorReply if number > 100 => UNTESTED,
            WrongSums::ForgetsTheSumOfAnAcceptedFrame if number == 0 => UNTESTED,
            WrongSums::LeavesTheSumUnset => UNSET,
            WrongSums::LeavesTheSumUnsetWhereUntested if sum == UNTESTED => UNSET,
            _ => sum,
        }
    }

    /// Whether it gives this number of a later test where a sound board gives 12.
    fn tests_before_12(self, number: u16) -> bool {
        match self {
            WrongSums::Tests12After8 => number == 8,
            WrongSums::Tests12BehindTheErrorReplies => number > 100,
            _ => false,
        }
    }
}

impl Calls for WrongSums {
    fn receive(&self, received: &[u8]) -> Finding {
        SecondProgram.receive(received)
    }

    fn answer(
        &self,
        frame: &[u8],
        areas: &mut Areas,
        axes: &[u8],
        settings: Settings,
        reply: &mut [u8],
    ) -> Outcome {
        let sound = sound(frame, areas, axes, settings, reply);
        if let Some(number) = self.refuses(frame, settings.unchecked, sound) {
            return Outcome { number, reply_length: 0, sum: sound.sum };
        }
        let (taken, unchecked) = self.takes(frame, settings.unchecked);
        let allowing = Settings { unchecked: 1, ..settings };
        let settings = Settings { unchecked, ..settings };
        if sound.number == 12 {
            let allowed = self::sound(frame, areas, axes, allowing, reply);
            if self.tests_before_12(allowed.number) {
                return SecondProgram.answer(frame, areas, axes, allowing, reply);
            }
            if *self == WrongSums::StoresWhere12Refuses {
                SecondProgram.answer(frame, areas, axes, allowing, &mut reply.to_vec());
                return sound;
            }
        }
        let mut outcome = SecondProgram.answer(&taken, areas, axes, settings, reply);
        if *self == WrongSums::Gives12AnErrorReply && outcome.number == 12 {
            let error = closed(b"&99012".to_vec());
            reply[..error.len()].copy_from_slice(&error);
            outcome.reply_length = error.len();
        }
        outcome.sum = self.tells(frame, outcome);
        outcome
    }

    fn step_back(&self, areas: &mut Areas, firsts: Firsts) -> u16 {
        SecondProgram.step_back(areas, firsts)
    }
}
