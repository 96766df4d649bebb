//! Boards that are wrong in checking or in acting (document 02, g) and answer soundly: for the rule of
//! looking first and for the comparison to find.

use second::areas::{Firsts, Settings, FLAGS, INTEGERS, SLOT};
use second::differential::{Areas, Calls, Finding, SecondProgram};
use second::frames::closed;
use second::{Outcome, Shown};
use std::cell::RefCell;

/// What such a board does otherwise than the second program.
#[derive(Clone, Copy, Debug, PartialEq)]
pub enum WrongLooks {
    ChecksWith1WhereItWouldStore,
    ChecksWith1For2,
    ExchangesStartAndCount,
    ShowsAMessageWhereRefused,
    ShowsARunWhereRefused,
    ShowsNoMessage,
    ShowsTheIdInDecimal,
    ShowsNoRunOfAQuery,
    ShowsARunWhereNoneIsNamed,
    ShowsNoCountOfAFlag,
    ShowsOffsets,
    ShowsTheLastNumber,
    Checks106Before105,
    ChecksNoStation,
    ChecksNoSum,
    ForgetsTheSumOfACheck,
    LeavesTheMessageUnset,
    LeavesTheRunUnset,
    StoresWhileChecking,
    ClearsTheJournalsRestWhileChecking,
    InventsTheUsedLengthWhileChecking,
    ActsWithoutTheSumTest,
    ActsAtAnyStation,
    ActsWhereMarksAreForbidden,
    ActsOnUnfittedPatterns,
    ActsWith1Last,
    ActsOnTheFirstPointAlone,
    ActsBesideTheRun,
    ActsOnNothing,
    StepsBackAtAQuery,
    ActsWithoutAnErrorReply,
    ForgetsTheSumOfAnAct,
}

pub const ALL: [WrongLooks; 32] = [
    WrongLooks::ChecksWith1WhereItWouldStore,
    WrongLooks::ChecksWith1For2,
    WrongLooks::ExchangesStartAndCount,
    WrongLooks::ShowsAMessageWhereRefused,
    WrongLooks::ShowsARunWhereRefused,
    WrongLooks::ShowsNoMessage,
    WrongLooks::ShowsTheIdInDecimal,
    WrongLooks::ShowsNoRunOfAQuery,
    WrongLooks::ShowsARunWhereNoneIsNamed,
    WrongLooks::ShowsNoCountOfAFlag,
    WrongLooks::ShowsOffsets,
    WrongLooks::ShowsTheLastNumber,
    WrongLooks::Checks106Before105,
    WrongLooks::ChecksNoStation,
    WrongLooks::ChecksNoSum,
    WrongLooks::ForgetsTheSumOfACheck,
    WrongLooks::LeavesTheMessageUnset,
    WrongLooks::LeavesTheRunUnset,
    WrongLooks::StoresWhileChecking,
    WrongLooks::ClearsTheJournalsRestWhileChecking,
    WrongLooks::InventsTheUsedLengthWhileChecking,
    WrongLooks::ActsWithoutTheSumTest,
    WrongLooks::ActsAtAnyStation,
    WrongLooks::ActsWhereMarksAreForbidden,
    WrongLooks::ActsOnUnfittedPatterns,
    WrongLooks::ActsWith1Last,
    WrongLooks::ActsOnTheFirstPointAlone,
    WrongLooks::ActsBesideTheRun,
    WrongLooks::ActsOnNothing,
    WrongLooks::StepsBackAtAQuery,
    WrongLooks::ActsWithoutAnErrorReply,
    WrongLooks::ForgetsTheSumOfAnAct,
];

const UNTESTED: u8 = 0;

/// The messages that write.
const WRITES: [u16; 5] = [0x244, 0x246, 0x24B, 0x24C, 0x24E];

/// The number in these digits of a frame, capitals or not; 0 where they are none.
fn field(frame: &[u8], from: usize, to: usize) -> usize {
    let digits = String::from_utf8_lossy(frame.get(from..to).unwrap_or(&[]));
    usize::from_str_radix(&digits, 16).unwrap_or(0)
}

/// The same frame with a true SC.
fn mended(frame: &[u8]) -> Vec<u8> {
    closed(frame[..frame.len() - 4].to_vec())
}

/// The same frame for this station, with a true SC.
fn readdressed(frame: &[u8], station: u8) -> Vec<u8> {
    let mut frame = frame.to_vec();
    frame[1..3].copy_from_slice(format!("{station:02X}").as_bytes());
    mended(&frame)
}

/// Whether the first number that a frame names, its layout being right, isn't held.
fn starts_unheld(frame: &[u8], points: usize, firsts: Firsts) -> bool {
    let held = |start: usize, first: usize, count: usize| (first..first + count).contains(&start);
    let (integer, flag) = (usize::from(firsts.integer), usize::from(firsts.flag));
    !match field(frame, 3, 6) {
        0x209 | 0x244 | 0x246 => held(field(frame, 6, 9), 1, points / SLOT),
        0x210 | 0x24E => held(field(frame, 8, 11), 300, 700),
        0x20E | 0x24C => held(field(frame, 8, 11), integer, INTEGERS),
        _ => held(field(frame, 8, 12), flag, FLAGS),
    }
}

impl WrongLooks {
    /// The frame that it checks in place of one to which a sound board gives this number.
    fn checks(self, frame: &[u8], number: u16, station: u8) -> Option<Vec<u8>> {
        match (self, number) {
            (WrongLooks::ChecksNoSum, 7) => Some(mended(frame)),
            (WrongLooks::ChecksNoStation, 8) => Some(readdressed(frame, station)),
            _ => None,
        }
    }

    /// What it shows in place of a sound check.
    fn shows(self, frame: &[u8], sound: Shown, points: usize, firsts: Firsts) -> Shown {
        let Shown { number, message, start, count, sum } = sound;
        let refused = number != 0;
        let unset = 0x5555_5555_5555_5555;
        match self {
            WrongLooks::ChecksWith1WhereItWouldStore if WRITES.contains(&message) => {
                Shown::refused(1, sum)
            }
            WrongLooks::ChecksWith1For2 if number == 2 => Shown::refused(1, sum),
            WrongLooks::ExchangesStartAndCount => Shown { start: count, count: start, ..sound },
            WrongLooks::ShowsAMessageWhereRefused if number > 100 => {
                Shown { message: field(frame, 3, 6) as u16, ..sound }
            }
            WrongLooks::ShowsARunWhereRefused if number > 102 => {
                Shown { start: field(frame, 6, 9), count: field(frame, 9, 12), ..sound }
            }
            WrongLooks::ShowsNoMessage => Shown { message: 0, ..sound },
            WrongLooks::ShowsTheIdInDecimal => {
                Shown { message: format!("{message:X}").parse().unwrap_or(message), ..sound }
            }
            WrongLooks::ShowsNoRunOfAQuery if !WRITES.contains(&message) => {
                Shown { start: 0, count: 0, ..sound }
            }
            WrongLooks::ShowsARunWhereNoneIsNamed if message == 0x208 => {
                Shown { start: 1, count: points / SLOT, ..sound }
            }
            WrongLooks::ShowsNoCountOfAFlag if message == 0x24B => Shown { count: 0, ..sound },
            WrongLooks::ShowsOffsets if message == 0x24B => {
                Shown { start: start - usize::from(firsts.flag), ..sound }
            }
            WrongLooks::ShowsTheLastNumber if count > 0 => {
                Shown { count: start + count - 1, ..sound }
            }
            WrongLooks::Checks106Before105
                if number == 105 && starts_unheld(frame, points, firsts) =>
            {
                Shown::refused(106, sum)
            }
            WrongLooks::ForgetsTheSumOfACheck => Shown { sum: UNTESTED, ..sound },
            WrongLooks::LeavesTheMessageUnset if refused => Shown { message: 0x5555, ..sound },
            WrongLooks::LeavesTheRunUnset if refused => {
                Shown { start: unset, count: unset, ..sound }
            }
            _ => sound,
        }
    }

    /// What it writes while it checks.
    fn writes(self, shown: Shown, areas: &mut Areas) {
        match self {
            WrongLooks::StoresWhileChecking if shown.message == 0x246 => {
                areas.points[SLOT * (shown.start - 1)] ^= 1;
            }
            WrongLooks::ClearsTheJournalsRestWhileChecking if shown.number == 0 => {
                areas.journal[areas.used..].fill(0);
            }
            WrongLooks::InventsTheUsedLengthWhileChecking if shown.message == 0x24E => {
                areas.used += 1;
            }
            _ => {}
        }
    }

    /// The frame and the settings with which it acts where a sound board gives this number.
    fn acts(self, frame: &[u8], settings: Settings, number: u16) -> Option<(Vec<u8>, Settings)> {
        match (self, number) {
            (WrongLooks::ActsWithoutTheSumTest, 7) => Some((mended(frame), settings)),
            (WrongLooks::ActsAtAnyStation, 8) => {
                Some((readdressed(frame, settings.station), settings))
            }
            (WrongLooks::ActsWhereMarksAreForbidden, 12) => Some((mended(frame), settings)),
            (WrongLooks::ActsOnUnfittedPatterns, 107) => {
                Some((frame.to_vec(), Settings { fitted: 0xFF, ..settings }))
            }
            _ => None,
        }
    }

    /// Spoils what an accepted frame left.
    fn spoils(self, message: usize, frame: &[u8], areas: &mut Areas, old: &[u8], firsts: Firsts) {
        match self {
            WrongLooks::ActsOnTheFirstPointAlone if message == 0x244 => {
                let after = SLOT * field(frame, 6, 9);
                areas.points[after..].copy_from_slice(&old[after..]);
            }
            WrongLooks::ActsBesideTheRun if message == 0x24B => areas.columns[0] ^= 1,
            WrongLooks::ActsOnNothing if message == 0x246 => areas.points.copy_from_slice(old),
            WrongLooks::StepsBackAtAQuery if message == 0x208 => {
                SecondProgram.step_back(areas, firsts);
            }
            _ => {}
        }
    }
}

impl Calls for WrongLooks {
    fn receive(&self, received: &[u8]) -> Finding {
        SecondProgram.receive(received)
    }

    fn answer(
        &self,
        frame: &[u8],
        areas: &mut Areas,
        axes: &[u8],
        settings: Settings,
        reply: &mut [u8],
    ) -> Outcome {
        SecondProgram.answer(frame, areas, axes, settings, reply)
    }

    fn check(&self, frame: &[u8], areas: &mut Areas, axes: &[u8], settings: Settings) -> Shown {
        let sound = SecondProgram.check(frame, areas, axes, settings);
        if let Some(other) = self.checks(frame, sound.number, settings.station) {
            return SecondProgram.check(&other, areas, axes, settings);
        }
        self.writes(sound, areas);
        self.shows(frame, sound, areas.points.len(), settings.firsts)
    }

    fn act(
        &self,
        frame: &[u8],
        areas: &mut Areas,
        axes: &[u8],
        settings: Settings,
        reply: &mut [u8],
    ) -> Outcome {
        let (points, area) = (areas.points.to_vec(), reply.to_vec());
        let checked = SecondProgram.check(frame, areas, axes, settings);
        let mut outcome = SecondProgram.act(frame, areas, axes, settings, reply);
        if let Some((frame, settings)) = self.acts(frame, settings, outcome.number) {
            return SecondProgram.act(&frame, areas, axes, settings, reply);
        }
        match self {
            _ if outcome.number == 0 => {
                self.spoils(field(frame, 3, 6), frame, areas, &points, settings.firsts);
            }
            WrongLooks::ActsWith1Last if outcome.number == 1 && checked.number != 0 => {
                outcome.number = checked.number;
            }
            WrongLooks::ActsWithoutAnErrorReply => {
                reply.copy_from_slice(&area);
                outcome.reply_length = 0;
            }
            _ => {}
        }
        if *self == WrongLooks::ForgetsTheSumOfAnAct {
            outcome.sum = UNTESTED;
        }
        outcome
    }

    fn step_back(&self, areas: &mut Areas, firsts: Firsts) -> u16 {
        SecondProgram.step_back(areas, firsts)
    }
}

/// A board that refuses by 106 before 105 in all three calls: they agree with each other.
#[derive(Clone, Copy, Debug)]
pub struct Tests106Before105;

impl Calls for Tests106Before105 {
    fn receive(&self, received: &[u8]) -> Finding {
        SecondProgram.receive(received)
    }

    fn answer(
        &self,
        frame: &[u8],
        areas: &mut Areas,
        axes: &[u8],
        settings: Settings,
        reply: &mut [u8],
    ) -> Outcome {
        let outcome = SecondProgram.answer(frame, areas, axes, settings, reply);
        let both = starts_unheld(frame, areas.points.len(), settings.firsts);
        if outcome.number != 105 || !both {
            return outcome;
        }
        let text = closed(format!("&{:02X}106", settings.station).into_bytes());
        reply[..10].copy_from_slice(&text);
        Outcome { number: 106, ..outcome }
    }

    fn check(&self, frame: &[u8], areas: &mut Areas, axes: &[u8], settings: Settings) -> Shown {
        WrongLooks::Checks106Before105.check(frame, areas, axes, settings)
    }

    fn step_back(&self, areas: &mut Areas, firsts: Firsts) -> u16 {
        SecondProgram.step_back(areas, firsts)
    }
}

/// A board whose act goes by what the check of the same frame said, whatever changed since; but not by 11, of
/// which the rule of the kept count speaks.
#[derive(Debug, Default)]
pub struct GoesByTheCheck(RefCell<Option<(Vec<u8>, Shown)>>);

impl Calls for GoesByTheCheck {
    fn receive(&self, received: &[u8]) -> Finding {
        SecondProgram.receive(received)
    }

    fn answer(
        &self,
        frame: &[u8],
        areas: &mut Areas,
        axes: &[u8],
        settings: Settings,
        reply: &mut [u8],
    ) -> Outcome {
        SecondProgram.answer(frame, areas, axes, settings, reply)
    }

    fn check(&self, frame: &[u8], areas: &mut Areas, axes: &[u8], settings: Settings) -> Shown {
        let shown = SecondProgram.check(frame, areas, axes, settings);
        self.0.replace(Some((frame.to_vec(), shown)));
        shown
    }

    fn act(
        &self,
        frame: &[u8],
        areas: &mut Areas,
        axes: &[u8],
        settings: Settings,
        reply: &mut [u8],
    ) -> Outcome {
        match self.0.take() {
            Some((checked, shown))
                if checked == frame && (2..=13).contains(&shown.number) && shown.number != 11 =>
            {
                let number = if reply.len() < 1_024 { 1 } else { shown.number };
                let sum = if number == 1 { UNTESTED } else { shown.sum };
                Outcome { number, reply_length: 0, sum }
            }
            _ => SecondProgram.act(frame, areas, axes, settings, reply),
        }
    }

    fn step_back(&self, areas: &mut Areas, firsts: Firsts) -> u16 {
        SecondProgram.step_back(areas, firsts)
    }
}
