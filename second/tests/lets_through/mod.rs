//! Boards that let one changed byte through, or catch it otherwise than document 02, n, says: for the
//! rule's check and for the comparison to find.

use second::areas::{Firsts, Settings};
use second::differential::{Areas, Calls, Finding, SecondProgram};
use second::frames::{closed, has_shape, sc, sum};
use second::{Outcome, Shown};

/// What such a board does otherwise than the second program.
#[derive(Clone, Copy, Debug, PartialEq)]
pub enum LetsThrough {
    SumsSevenBits,
    ComparesSevenBits,
    LeavesTheFirstByteOut,
    LeavesTheLastByteOut,
    ComparesTheFirstDigitAlone,
    ComparesTheSecondDigitAlone,
    ReadsTheScBySevenBits,
    SumsTheCapitals,
    TakesASmallScUnderRelease1,
    WantsACapitalScUnderRelease2,
    TakesOneMarkAsSwitchedOff,
    TestsNoHeader,
    TestsNoCr,
    TestsNoLf,
    TestsNoLengthOfATestCall,
    Tests8Before7,
    StoresWhere7Refuses,
    RepliesWhere7Refuses,
}

pub const ALL: [LetsThrough; 18] = [
    LetsThrough::SumsSevenBits,
    LetsThrough::ComparesSevenBits,
    LetsThrough::LeavesTheFirstByteOut,
    LetsThrough::LeavesTheLastByteOut,
    LetsThrough::ComparesTheFirstDigitAlone,
    LetsThrough::ComparesTheSecondDigitAlone,
    LetsThrough::ReadsTheScBySevenBits,
    LetsThrough::SumsTheCapitals,
    LetsThrough::TakesASmallScUnderRelease1,
    LetsThrough::WantsACapitalScUnderRelease2,
    LetsThrough::TakesOneMarkAsSwitchedOff,
    LetsThrough::TestsNoHeader,
    LetsThrough::TestsNoCr,
    LetsThrough::TestsNoLf,
    LetsThrough::TestsNoLengthOfATestCall,
    LetsThrough::Tests8Before7,
    LetsThrough::StoresWhere7Refuses,
    LetsThrough::RepliesWhere7Refuses,
];

const WRONG: u8 = 3;

/// A refusal for a wrong SC, or one in its place.
fn refused(number: u16) -> Outcome {
    Outcome { number, reply_length: 0, sum: WRONG }
}

/// The same frame with another SC.
fn with_sc(frame: &[u8], sc: &[u8]) -> Vec<u8> {
    [&frame[..frame.len() - 4], sc, &frame[frame.len() - 2..]].concat()
}

/// The same frame with another byte.
fn with_byte(frame: &[u8], at: usize, byte: u8) -> Vec<u8> {
    let mut frame = frame.to_vec();
    frame[at] = byte;
    frame
}

impl LetsThrough {
    /// Whether it finds these two digits, in capitals where the release reads them so, true.
    fn finds_true(self, before: &[u8], given: &[u8], release: u8) -> bool {
        let digits = match release {
            2 => given.to_ascii_uppercase(),
            _ => given.to_vec(),
        };
        let low = sum(before) as u8;
        match self {
            LetsThrough::SumsSevenBits => digits == sc(&[low & 0x7F]),
            LetsThrough::ComparesSevenBits => digits == sc(before) || digits == sc(&[low ^ 0x80]),
            LetsThrough::LeavesTheFirstByteOut => digits == sc(&before[1..]),
            LetsThrough::LeavesTheLastByteOut => digits == sc(&before[..before.len() - 1]),
            LetsThrough::ComparesTheFirstDigitAlone => digits[0] == sc(before)[0],
            LetsThrough::ComparesTheSecondDigitAlone => digits[1] == sc(before)[1],
            LetsThrough::ReadsTheScBySevenBits => {
                let seven: Vec<u8> = digits.iter().map(|digit| digit & 0x7F).collect();
                seven == sc(before)
            }
            LetsThrough::SumsTheCapitals => digits == sc(&before.to_ascii_uppercase()),
            LetsThrough::TakesASmallScUnderRelease1 => given.eq_ignore_ascii_case(&sc(before)),
            LetsThrough::WantsACapitalScUnderRelease2 => given == sc(before),
            _ => digits == sc(before),
        }
    }

    /// The frame as it takes it: the end mended that it doesn't test, the SC true where it finds it so.
    fn takes(self, frame: &[u8], release: u8) -> Vec<u8> {
        let end = frame.len();
        let mended = match self {
            LetsThrough::TestsNoCr if end > 9 => with_byte(frame, end - 2, b'\r'),
            LetsThrough::TestsNoLf if end > 9 => with_byte(frame, end - 1, b'\n'),
            _ => frame.to_vec(),
        };
        if !has_shape(&mended) || &mended[end - 4..end - 2] == b"@@" {
            return mended;
        }
        let (before, given) = (&mended[..end - 4], &mended[end - 4..end - 2]);
        let marked = self == LetsThrough::TakesOneMarkAsSwitchedOff && given.contains(&b'@');
        match self.finds_true(before, given, release) {
            _ if marked => with_sc(&mended, b"@@"),
            true => closed(before.to_vec()),
            false => with_sc(&mended, b"  "),
        }
    }

    /// The number with which it refuses a frame that a sound board gives this one.
    fn refuses(self, frame: &[u8], settings: Settings, number: u16) -> Option<u16> {
        let mut other = frame.to_vec();
        let station = format!("{:02X}", settings.station);
        match self {
            LetsThrough::TestsNoHeader if number == 6 && frame.len() > 9 => {
                other[0] = b'!';
                (has_shape(&other) && frame[0] != b'!').then_some(7)
            }
            LetsThrough::TestsNoLengthOfATestCall if number == 6 && frame.len() > 9 => {
                other[3] = b'3';
                (has_shape(&other) && &frame[3..6] == b"200").then_some(7)
            }
            LetsThrough::Tests8Before7 if number == 7 => {
                (!frame[1..3].eq_ignore_ascii_case(station.as_bytes())).then_some(8)
            }
            _ => None,
        }
    }
}

impl Calls for LetsThrough {
    fn receive(&self, received: &[u8]) -> Finding {
        SecondProgram.receive(received)
    }

    fn answer(
        &self,
        frame: &[u8],
        areas: &mut Areas,
        axes: &[u8],
        settings: Settings,
        reply: &mut [u8],
    ) -> Outcome {
        let taken = self.takes(frame, settings.release);
        let outcome = SecondProgram.answer(&taken, areas, axes, settings, reply);
        if let Some(number) = self.refuses(frame, settings, outcome.number) {
            return refused(number);
        }
        if outcome.number == 7 && *self == LetsThrough::StoresWhere7Refuses {
            let mended = closed(frame[..frame.len() - 4].to_vec());
            SecondProgram.answer(&mended, areas, axes, settings, &mut reply.to_vec());
        }
        if outcome.number == 7 && *self == LetsThrough::RepliesWhere7Refuses {
            reply[..10].copy_from_slice(&closed(b"&99007".to_vec()));
        }
        outcome
    }

    /// By the same rules as it answers.
    fn check(&self, frame: &[u8], areas: &mut Areas, axes: &[u8], settings: Settings) -> Shown {
        let taken = self.takes(frame, settings.release);
        let shown = SecondProgram.check(&taken, areas, axes, settings);
        let refused = self.refuses(frame, settings, shown.number);
        refused.map_or(shown, |number| Shown::refused(number, WRONG))
    }

    fn step_back(&self, areas: &mut Areas, firsts: Firsts) -> u16 {
        SecondProgram.step_back(areas, firsts)
    }
}
