//! Boards that are wrong in their letters or in refusal 13 (document 02, l), for the comparison to find.

use second::areas::{Firsts, Settings};
use second::differential::{Areas, Calls, Finding, SecondProgram};
use second::frames::{closed, has_shape, sc};
use second::Outcome;

/// What such a board does otherwise than the second program.
#[derive(Clone, Copy, Debug, PartialEq)]
pub enum WrongLetters {
    AdmitsSmallLettersUnderRelease1,
    AdmitsASmallScUnderRelease1,
    WantsTheScInCapitals,
    WantsTheStationInCapitals,
    WantsTheIdInCapitals,
    WantsTheContentInCapitals,
    SumsTheCapitals,
    AdmitsG,
    AdmitsTheByteBeforeA,
    TakesRelease0As1,
    TakesRelease3As2,
    Tests13Before5,
    Tests13After6,
    Gives13AnErrorReply,
    RepliesTheIdAsSent,
    RepliesTheStationAsSent,
    RepliesProgramStartAndCountAsSent,
    RepliesTheTenBytesInCapitals,
}

pub const ALL: [WrongLetters; 18] = [
    WrongLetters::AdmitsSmallLettersUnderRelease1,
    WrongLetters::AdmitsASmallScUnderRelease1,
    WrongLetters::WantsTheScInCapitals,
    WrongLetters::WantsTheStationInCapitals,
    WrongLetters::WantsTheIdInCapitals,
    WrongLetters::WantsTheContentInCapitals,
    WrongLetters::SumsTheCapitals,
    WrongLetters::AdmitsG,
    WrongLetters::AdmitsTheByteBeforeA,
    WrongLetters::TakesRelease0As1,
    WrongLetters::TakesRelease3As2,
    WrongLetters::Tests13Before5,
    WrongLetters::Tests13After6,
    WrongLetters::Gives13AnErrorReply,
    WrongLetters::RepliesTheIdAsSent,
    WrongLetters::RepliesTheStationAsSent,
    WrongLetters::RepliesProgramStartAndCountAsSent,
    WrongLetters::RepliesTheTenBytesInCapitals,
];

fn has_small(bytes: &[u8]) -> bool {
    bytes.iter().any(u8::is_ascii_lowercase)
}

/// Whether the SC of a frame is true of these bytes.
fn is_sum_of(frame: &[u8], bytes: &[u8]) -> bool {
    frame[frame.len() - 4..frame.len() - 2].eq_ignore_ascii_case(&sc(bytes))
}

/// The same frame with another SC.
fn with_sc(frame: &[u8], sc: &[u8; 2]) -> Vec<u8> {
    [&frame[..frame.len() - 4], sc, &frame[frame.len() - 2..]].concat()
}

/// The same frame with an SC that is true or wrong.
fn judged(frame: &[u8], is_true: bool) -> Vec<u8> {
    match is_true {
        true => closed(frame[..frame.len() - 4].to_vec()),
        false => with_sc(frame, b"  "),
    }
}

/// The frame whose sum is taken of the capitals.
fn sum_of_capitals(frame: &[u8]) -> Vec<u8> {
    let before = &frame[..frame.len() - 4];
    if !has_shape(frame) || !has_small(before) || frame.ends_with(b"@@\r\n") {
        return frame.to_vec();
    }
    judged(frame, is_sum_of(frame, &before.to_ascii_uppercase()))
}

/// The frame with this byte taken as the digit F, its SC judged of the bytes as sent.
fn with_digit(frame: &[u8], byte: u8) -> Vec<u8> {
    if !has_shape(frame) || !frame.contains(&byte) || &frame[3..6] == b"200" {
        return frame.to_vec();
    }
    let read: Vec<u8> = frame.iter().map(|&b| if b == byte { b'F' } else { b }).collect();
    match frame.ends_with(b"@@\r\n") {
        true => read,
        false => judged(&read, is_sum_of(&read, &frame[..frame.len() - 4])),
    }
}

impl WrongLetters {
    /// The frame and the release that the board takes for those handed over.
    fn takes(self, frame: &[u8], release: u8) -> (Vec<u8>, u8) {
        let same = (frame.to_vec(), release);
        match self {
            WrongLetters::AdmitsSmallLettersUnderRelease1 if release == 1 => (same.0, 2),
            WrongLetters::TakesRelease0As1 if release == 0 => (same.0, 1),
            WrongLetters::TakesRelease3As2 if release == 3 => (same.0, 2),
            _ if frame.len() < 10 => same,
            WrongLetters::AdmitsASmallScUnderRelease1 => {
                let (before, end) = frame.split_at(frame.len() - 4);
                ([before, &end.to_ascii_uppercase()].concat(), release)
            }
            WrongLetters::SumsTheCapitals => (sum_of_capitals(frame), release),
            WrongLetters::AdmitsG if release == 2 => (with_digit(frame, b'g'), 2),
            WrongLetters::AdmitsTheByteBeforeA if release == 2 => (with_digit(frame, b'`'), 2),
            _ => same,
        }
    }

    /// The number with which it refuses a frame that a sound board gives this one.
    fn refuses(self, frame: &[u8], release: u8, number: u16) -> Option<u16> {
        let after_8 = number == 0 || number > 100;
        let after_7 = after_8 || number == 8;
        let small = |from: usize, to_end: usize| {
            frame.get(from..frame.len().saturating_sub(to_end)).is_some_and(has_small)
        };
        let sc = small(frame.len().saturating_sub(4), 2);
        let test_call = frame.get(3..6) == Some(b"200");
        match self {
            WrongLetters::WantsTheScInCapitals if after_7 && sc => Some(7),
            WrongLetters::WantsTheStationInCapitals if after_8 && has_small(&frame[1..3]) => {
                Some(8)
            }
            WrongLetters::WantsTheIdInCapitals if number == 0 && has_small(&frame[3..6]) => {
                Some(101)
            }
            WrongLetters::WantsTheContentInCapitals if number == 0 && !test_call && small(6, 4) => {
                Some(102)
            }
            WrongLetters::Tests13Before5 if number == 5 && ![1, 2].contains(&release) => Some(13),
            WrongLetters::Tests13After6 if number == 13 && !has_shape(frame) => Some(6),
            _ => None,
        }
    }

    /// Replies otherwise than a sound board, with a true SC.
    fn spoil_reply(self, frame: &[u8], outcome: &mut Outcome, reply: &mut [u8]) {
        if self == WrongLetters::Gives13AnErrorReply && outcome.number == 13 {
            let error = closed(b"&99013".to_vec());
            reply[..error.len()].copy_from_slice(&error);
            outcome.reply_length = error.len();
        }
        if outcome.number != 0 {
            return;
        }
        let length = outcome.reply_length;
        let mut text = reply[..length - 4].to_vec();
        match self {
            WrongLetters::RepliesTheIdAsSent => text[3..6].copy_from_slice(&frame[3..6]),
            WrongLetters::RepliesTheStationAsSent => text[1..3].copy_from_slice(&frame[1..3]),
            WrongLetters::RepliesProgramStartAndCountAsSent => {
                let repeated = 6..6 + repeated_digits(&text[3..6]);
                text[repeated.clone()].copy_from_slice(&frame[repeated]);
            }
            WrongLetters::RepliesTheTenBytesInCapitals if &frame[3..6] == b"200" => {
                text[6..16].make_ascii_uppercase();
            }
            _ => {}
        }
        reply[..length].copy_from_slice(&closed(text));
    }
}

/// How many digits of the command a reply of this message repeats.
fn repeated_digits(id: &[u8]) -> usize {
    match id {
        b"210" | b"20E" | b"24C" => 7,
        b"20D" => 10,
        b"244" => 6,
        _ => 0,
    }
}

/// What a sound board answers; nothing is written.
pub fn sound(
    frame: &[u8],
    areas: &Areas,
    axes: &[u8],
    settings: Settings,
    reply: &[u8],
) -> Outcome {
    let parts = [&*areas.points, areas.columns, areas.integers, areas.flags, areas.journal];
    let [points, columns, integers, flags, journal] = &mut parts.map(<[u8]>::to_vec);
    let (used, effective) = (areas.used, areas.effective);
    let mut copy = Areas { points, columns, integers, flags, journal, used, effective };
    SecondProgram.answer(frame, &mut copy, axes, settings, &mut reply.to_vec())
}

impl Calls for WrongLetters {
    fn receive(&self, received: &[u8]) -> Finding {
        SecondProgram.receive(received)
    }

    fn answer(
        &self,
        frame: &[u8],
        areas: &mut Areas,
        axes: &[u8],
        settings: Settings,
        reply: &mut [u8],
    ) -> Outcome {
        let sound = sound(frame, areas, axes, settings, reply);
        if let Some(number) = self.refuses(frame, settings.release, sound.number) {
            return Outcome { number, reply_length: 0, sum: sound.sum };
        }
        let (taken, release) = self.takes(frame, settings.release);
        let settings = Settings { release, ..settings };
        let mut outcome = SecondProgram.answer(&taken, areas, axes, settings, reply);
        self.spoil_reply(frame, &mut outcome, reply);
        outcome
    }

    fn step_back(&self, areas: &mut Areas, firsts: Firsts) -> u16 {
        SecondProgram.step_back(areas, firsts)
    }
}
