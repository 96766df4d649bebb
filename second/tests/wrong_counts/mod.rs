//! Boards that keep the count of effective points wrongly, or refuse by 11 otherwise than document 02, b,
//! says: for histories from fresh, the rule of the kept count and the comparison to find.

use second::areas::{Firsts, Settings, SLOT};
use second::differential::{Areas, Calls, Finding, SecondProgram};
use second::frames::error_reply;
use second::{Outcome, Shown};

/// What such a board does otherwise than the second program.
#[derive(Clone, Copy, Debug, PartialEq)]
pub enum WrongCounts {
    CountsOverwrittenPointsTwice,
    CountsTheFirstPointAlone,
    ClearsAllSlotsNamed,
    LeavesTheCountAtAClear,
    StepsBackWithTheCountGiven,
    StepsBackByTheEntrysPoints,
    CountsSlotsWithAnyByte,
    WalksAt208,
    Wants208True,
    Takes208AboveN,
    Refuses208AtN,
    Refuses24EByTheCount,
    MendsAFalseCount,
    MendsTheCountAt24E,
    MendsTheCountAtAQuery,
    MendsTheCountWhereRefused,
    ChecksNoCount,
    ComparesThirtyTwoBits,
    StepsBackColumnsWithAnyCount,
    Tests11Before8,
    Tests11AfterTheErrors,
    Tests11Before4,
    Tests9Before11,
    ForgetsTheSumWith11,
    RepliesWith11,
}

pub const ALL: [WrongCounts; 25] = [
    WrongCounts::CountsOverwrittenPointsTwice,
    WrongCounts::CountsTheFirstPointAlone,
    WrongCounts::ClearsAllSlotsNamed,
    WrongCounts::LeavesTheCountAtAClear,
    WrongCounts::StepsBackWithTheCountGiven,
    WrongCounts::StepsBackByTheEntrysPoints,
    WrongCounts::CountsSlotsWithAnyByte,
    WrongCounts::WalksAt208,
    WrongCounts::Wants208True,
    WrongCounts::Takes208AboveN,
    WrongCounts::Refuses208AtN,
    WrongCounts::Refuses24EByTheCount,
    WrongCounts::MendsAFalseCount,
    WrongCounts::MendsTheCountAt24E,
    WrongCounts::MendsTheCountAtAQuery,
    WrongCounts::MendsTheCountWhereRefused,
    WrongCounts::ChecksNoCount,
    WrongCounts::ComparesThirtyTwoBits,
    WrongCounts::StepsBackColumnsWithAnyCount,
    WrongCounts::Tests11Before8,
    WrongCounts::Tests11AfterTheErrors,
    WrongCounts::Tests11Before4,
    WrongCounts::Tests9Before11,
    WrongCounts::ForgetsTheSumWith11,
    WrongCounts::RepliesWith11,
];

/// A call: a frame of this message, or a step back.
#[derive(Clone, Copy, PartialEq)]
enum At<'a> {
    Frame(&'a [u8]),
    StepBack,
}

impl<'a> At<'a> {
    fn frame(frame: &'a [u8]) -> At<'a> {
        At::Frame(frame.get(3..6).unwrap_or(&[]))
    }

    fn is(self, message: &[u8]) -> bool {
        self == At::Frame(message)
    }

    /// Whether it wants a count that is true.
    fn wants_a_true_count(self) -> bool {
        self.is(b"244") || self.is(b"246") || self == At::StepBack
    }
}

pub fn slots(points: &[u8]) -> usize {
    points.chunks_exact(SLOT).filter(|slot| slot[0] != 0).count()
}

/// Points that a frame of the right layout names: the slots from one on.
fn named(frame: &[u8], points: &[u8]) -> Vec<u8> {
    let field = |from: usize, to: usize| {
        let digits = String::from_utf8_lossy(&frame[from..to]);
        usize::from_str_radix(&digits, 16).unwrap_or(0)
    };
    let (start, count) = (field(6, 9), field(9, 12));
    points[SLOT * (start - 1)..SLOT * (start - 1 + count)].to_vec()
}

impl WrongCounts {
    /// The count with which it lets a sound board make the call.
    fn takes(self, at: At, areas: &Areas) -> usize {
        let (given, slots) = (areas.effective, slots(areas.points));
        let points = areas.points.len() / SLOT;
        match self {
            WrongCounts::WalksAt208 if at.is(b"208") && given <= points => slots,
            WrongCounts::Wants208True if at.is(b"208") && given != slots => points + 1,
            WrongCounts::Takes208AboveN if at.is(b"208") => given.min(points),
            WrongCounts::Refuses208AtN if at.is(b"208") && given == points => points + 1,
            WrongCounts::MendsAFalseCount if at.wants_a_true_count() => slots,
            WrongCounts::ComparesThirtyTwoBits => given & 0xFFFF_FFFF,
            WrongCounts::StepsBackColumnsWithAnyCount if at == At::StepBack => {
                let columns = ends_with_columns(areas);
                if columns {
                    slots
                } else {
                    given
                }
            }
            _ => given,
        }
    }

    /// The count that it hands back where a sound board, handed the count that it takes, left these areas.
    fn hands_back(self, at: At, frame: &[u8], areas: &Areas, old: &Old, number: u16) -> usize {
        let done = number == 0;
        let sound = match done && at.wants_a_true_count() {
            true => areas.effective,
            false => old.given,
        };
        let (write, clear) = (done && at.is(b"244"), done && at.is(b"246"));
        match self {
            WrongCounts::CountsOverwrittenPointsTwice if write => {
                old.given + named(frame, &old.points).len() / SLOT
            }
            WrongCounts::CountsTheFirstPointAlone if write => {
                old.given + usize::from(named(frame, &old.points)[0] == 0)
            }
            WrongCounts::ClearsAllSlotsNamed if clear => {
                old.given.saturating_sub(named(frame, &old.points).len() / SLOT)
            }
            WrongCounts::LeavesTheCountAtAClear if clear => old.given,
            WrongCounts::StepsBackWithTheCountGiven if at == At::StepBack => old.given,
            WrongCounts::StepsBackByTheEntrysPoints if done && at == At::StepBack => {
                old.given.saturating_sub(old.last_points)
            }
            WrongCounts::CountsSlotsWithAnyByte if write || clear => {
                let any = |slot: &&[u8]| slot.iter().any(|&byte| byte != 0);
                areas.points.chunks(SLOT).filter(any).count()
            }
            WrongCounts::MendsTheCountAt24E if done && at.is(b"24E") => slots(areas.points),
            WrongCounts::MendsTheCountAtAQuery if done && at.is(b"208") => slots(areas.points),
            WrongCounts::MendsTheCountWhereRefused if number == 11 => slots(areas.points),
            _ => sound,
        }
    }

    /// The number that it gives where a sound board gives this one.
    fn gives(self, at: At, number: u16, given: usize, points: &[u8], used: usize) -> u16 {
        let is_false = given != slots(points);
        match self {
            WrongCounts::Tests11Before8 if number == 8 && is_false && at.wants_a_true_count() => 11,
            WrongCounts::Tests11Before4 if number == 4 && is_false && at.wants_a_true_count() => 11,
            WrongCounts::Tests9Before11 if at == At::StepBack && number == 11 && used == 0 => 9,
            WrongCounts::Refuses24EByTheCount
                if at.is(b"24E") && is_false && (number == 0 || number > 100) =>
            {
                11
            }
            _ => number,
        }
    }
}

/// What a call found.
struct Old {
    given: usize,
    points: Vec<u8>,
    /// Points of the last entry; 0 where it is of another kind.
    last_points: usize,
}

impl Old {
    fn of(areas: &Areas) -> Old {
        let (_, points) = last_entry(areas);
        Old { given: areas.effective, points: areas.points.to_vec(), last_points: points }
    }
}

/// Tag of the last entry, and how many points it has, as far as entries lead to the used length.
fn last_entry(areas: &Areas) -> (u8, usize) {
    let mut rest = areas.journal.get(..areas.used).unwrap_or(&[]);
    let mut last = (0, 0);
    while let [tag, high, low, after @ ..] = rest {
        let length = usize::from(u16::from_be_bytes([*high, *low]));
        let points = if *tag == 0x50 { length / SLOT } else { 0 };
        last = (*tag, points);
        rest = after.get(length..).unwrap_or(&[]);
    }
    last
}

fn ends_with_columns(areas: &Areas) -> bool {
    last_entry(areas).0 == 0x53
}

impl Calls for WrongCounts {
    fn receive(&self, received: &[u8]) -> Finding {
        SecondProgram.receive(received)
    }

    fn answer(
        &self,
        frame: &[u8],
        areas: &mut Areas,
        axes: &[u8],
        settings: Settings,
        reply: &mut [u8],
    ) -> Outcome {
        let (at, old) = (At::frame(frame), Old::of(areas));
        let Shown { number, sum, .. } = SecondProgram.check(frame, areas, axes, settings);
        let long = reply.len() >= 1_024;
        let other = self.gives(at, number, old.given, areas.points, areas.used);
        if long && other != number {
            return Outcome {
                number: other,
                reply_length: 0,
                sum: if number == 4 { 0 } else { sum },
            };
        }
        areas.effective = self.takes(at, areas);
        if long && number == 11 && *self == WrongCounts::Tests11AfterTheErrors {
            areas.effective = true_count_for(at, areas);
            let mended = SecondProgram.check(frame, areas, axes, settings);
            areas.effective = if mended.number > 100 { areas.effective } else { old.given };
        }
        let mut outcome = SecondProgram.answer(frame, areas, axes, settings, reply);
        areas.effective = self.hands_back(at, frame, areas, &old, outcome.number);
        match self {
            WrongCounts::ForgetsTheSumWith11 if outcome.number == 11 => outcome.sum = 0,
            WrongCounts::RepliesWith11 if outcome.number == 11 => {
                reply[..10].copy_from_slice(&error_reply(settings.station, 111));
                outcome.reply_length = 10;
            }
            _ => {}
        }
        outcome
    }

    fn check(&self, frame: &[u8], areas: &mut Areas, axes: &[u8], settings: Settings) -> Shown {
        let given = areas.effective;
        if *self == WrongCounts::ChecksNoCount {
            areas.effective = true_count_for(At::frame(frame), areas);
        }
        let shown = SecondProgram.check(frame, areas, axes, settings);
        areas.effective = given;
        shown
    }

    fn step_back(&self, areas: &mut Areas, firsts: Firsts) -> u16 {
        let old = Old::of(areas);
        let used = areas.used;
        areas.effective = self.takes(At::StepBack, areas);
        let number = SecondProgram.step_back(areas, firsts);
        areas.effective = self.hands_back(At::StepBack, &[], areas, &old, number);
        self.gives(At::StepBack, number, old.given, areas.points, used)
    }
}

/// A count with which 11 doesn't hold.
fn true_count_for(at: At, areas: &Areas) -> usize {
    match at.is(b"208") {
        true => areas.effective.min(areas.points.len() / SLOT),
        false => slots(areas.points),
    }
}
