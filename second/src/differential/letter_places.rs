//! Places of small letters (document 02, l): where they stand in a frame and what each release says of
//! them, and refusal 13 among its neighbours.

use super::compare::{second, Answer, Call, Lent};
use super::drawn_letters::BESIDE;
use super::places::Place;
use crate::digits::{capitals, Rule};
use crate::frames::{self, SHORTEST_FRAME};
use crate::link::Outcome;

/// Places a run must come by, as those of `places`.
pub const LETTER_PLACES: [&str; 22] = [
    "release 0 refused",
    "release 3 refused",
    "release 255 refused",
    "13 beaten by 5",
    "13 before 6",
    "small letter in the ID accepted",
    "small letter in the station accepted",
    "small letter in the content accepted",
    "small letter in the SC accepted",
    "small letter in the ID refused by 101",
    "small letter in the station refused by 8",
    "small letter in the content refused by 102",
    "small letter in the SC refused by 7",
    "true sum of small letters accepted",
    "'@@' with a small letter accepted",
    "sum of the capitals refused by 7",
    "'g' or '`' in the ID refused by 101",
    "'g' or '`' in the station refused by 8",
    "'g' or '`' in the content refused by 102",
    "'g' or '`' in the SC refused by 7",
    "200H of small letters under release 1",
    "200H of small letters under release 2",
];

/// The parts of a frame that are digits; the ten bytes of a 200H are none.
struct Parts<'a> {
    id: &'a [u8],
    station: &'a [u8],
    content: &'a [u8],
    sc: &'a [u8],
}

impl Parts<'_> {
    /// None where the frame is too short for them.
    fn of(frame: &[u8]) -> Option<Parts<'_>> {
        if frame.len() < SHORTEST_FRAME {
            return None;
        }
        let (id, content) = frames::id_and_content(frame);
        let content = if id == b"200" { &[] } else { content };
        let sc = &frame[frame.len() - 4..frame.len() - 2];
        Some(Parts { id, station: &frame[1..3], content, sc })
    }

    /// ID, station, content, SC.
    fn all(&self) -> [&[u8]; 4] {
        [self.id, self.station, self.content, self.sc]
    }
}

fn has_small(bytes: &[u8]) -> bool {
    bytes.iter().any(|byte| (b'a'..=b'f').contains(byte))
}

/// Whether a small letter stands for a digit in a frame.
pub fn has_small_digit(frame: &[u8]) -> bool {
    Parts::of(frame).is_some_and(|parts| parts.all().into_iter().any(has_small))
}

/// The places that one frame came by.
pub fn of_letters(frame: &[u8], before: &Lent, number: u16) -> Vec<Place> {
    let mut places = of_release(frame, before.settings.release, number);
    let Some(parts) = Parts::of(frame) else {
        return places;
    };
    match before.settings.release {
        1 => places.extend(under_release_1(frame, &parts, before, number)),
        2 => places.extend(under_release_2(frame, &parts, number)),
        _ => {}
    }
    places
}

fn of_release(frame: &[u8], release: u8, number: u16) -> Vec<Place> {
    let refused = |other: u8| number == 13 && release == other;
    let none = Rule::of_release(release).is_none();
    vec![
        ("release 0 refused", refused(0)),
        ("release 3 refused", refused(3)),
        ("release 255 refused", refused(255)),
        ("13 beaten by 5", number == 5 && none),
        ("13 before 6", number == 13 && !frames::has_shape(frame)),
    ]
}

/// Frames that are refused for their small letters alone: release 2 accepts them.
fn under_release_1(frame: &[u8], parts: &Parts, before: &Lent, number: u16) -> Vec<Place> {
    let [id, station, content, sc] = parts.all().map(has_small);
    let by = |refusal: u16, small: bool| number == refusal && small;
    let refused = [by(101, id), by(8, station), by(102, content), by(7, sc)];
    let alone = refused.contains(&true) && release_2_accepts(frame, before);
    vec![
        ("small letter in the ID refused by 101", alone && refused[0]),
        ("small letter in the station refused by 8", alone && refused[1]),
        ("small letter in the content refused by 102", alone && refused[2]),
        ("small letter in the SC refused by 7", alone && refused[3]),
        ("200H of small letters under release 1", of_small_letters(frame, number)),
    ]
}

fn release_2_accepts(frame: &[u8], before: &Lent) -> bool {
    let mut lent = before.clone();
    lent.settings.release = 2;
    let answer = second(&Call::Answer { frame: frame.to_vec() }, &mut lent);
    matches!(answer, Answer::Answered(Outcome { number: 0, .. }))
}

fn of_small_letters(frame: &[u8], number: u16) -> bool {
    number == 0 && &frame[3..6] == b"200" && has_small(&frame[6..16])
}

fn under_release_2(frame: &[u8], parts: &Parts, number: u16) -> Vec<Place> {
    let [id, station, content, sc] = parts.all().map(|part| number == 0 && has_small(part));
    let [id_beside, station_beside, content_beside, sc_beside] =
        parts.all().map(|part| part.iter().any(|byte| BESIDE[4..].contains(byte)));
    let small_before_sc = id || station || content;
    let marked = parts.sc == b"@@";
    vec![
        ("small letter in the ID accepted", id),
        ("small letter in the station accepted", station),
        ("small letter in the content accepted", content),
        ("small letter in the SC accepted", sc),
        ("true sum of small letters accepted", small_before_sc && !marked),
        ("'@@' with a small letter accepted", small_before_sc && marked),
        ("sum of the capitals refused by 7", number == 7 && is_sum_of_capitals(frame, parts)),
        ("'g' or '`' in the ID refused by 101", number == 101 && id_beside),
        ("'g' or '`' in the station refused by 8", number == 8 && station_beside),
        ("'g' or '`' in the content refused by 102", number == 102 && content_beside),
        ("'g' or '`' in the SC refused by 7", number == 7 && sc_beside),
        ("200H of small letters under release 2", of_small_letters(frame, number)),
    ]
}

/// Whether the SC would be true if the letters before it were capitals.
fn is_sum_of_capitals(frame: &[u8], parts: &Parts) -> bool {
    let before = frame[..frame.len() - 4].to_ascii_uppercase();
    capitals(parts.sc, Rule::SmallToo) == Some(frames::sc(&before))
}
