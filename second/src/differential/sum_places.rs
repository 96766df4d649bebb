//! Places of what the sum test says (document 02, f): with each later refusal, left untested by each
//! earlier one, and refusal 12 among its neighbours.

use super::compare::{second, Answer, Call, Lent};
use super::drawn_frames::MARKS;
use super::places::Place;
use crate::digits::{capitals, Rule};
use crate::frames::{self, Sum, SHORTEST_FRAME};
use crate::link::{sum_number, Outcome};

/// A refusal and the name of a place where it is given.
type By = (u16, &'static str);

/// The sum was true, and a later test refuses the frame.
const TRUE_BY: [By; 10] = [
    (8, "true SC refused by 8"),
    (11, "true SC refused by 11"),
    (101, "true SC refused by 101"),
    (102, "true SC refused by 102"),
    (103, "true SC refused by 103"),
    (104, "true SC refused by 104"),
    (105, "true SC refused by 105"),
    (106, "true SC refused by 106"),
    (107, "true SC refused by 107"),
    (108, "true SC refused by 108"),
];

/// The sum was switched off, which is allowed, and a later test refuses the frame.
const MARKED_BY: [By; 10] = [
    (8, "'@@' refused by 8"),
    (11, "'@@' refused by 11"),
    (101, "'@@' refused by 101"),
    (102, "'@@' refused by 102"),
    (103, "'@@' refused by 103"),
    (104, "'@@' refused by 104"),
    (105, "'@@' refused by 105"),
    (106, "'@@' refused by 106"),
    (107, "'@@' refused by 107"),
    (108, "'@@' refused by 108"),
];

/// An earlier test refuses the call while '@@' is forbidden and stands in the frame.
const FORBIDDEN_BY: [By; 8] = [
    (1, "'@@' forbidden refused by 1"),
    (2, "'@@' forbidden refused by 2"),
    (3, "'@@' forbidden refused by 3"),
    (10, "'@@' forbidden refused by 10"),
    (4, "'@@' forbidden refused by 4"),
    (5, "'@@' forbidden refused by 5"),
    (13, "'@@' forbidden refused by 13"),
    (6, "'@@' forbidden refused by 6"),
];

/// An earlier test refuses the call while the SC is wrong.
const WRONG_BY: [By; 8] = [
    (1, "wrong SC refused by 1"),
    (2, "wrong SC refused by 2"),
    (3, "wrong SC refused by 3"),
    (10, "wrong SC refused by 10"),
    (4, "wrong SC refused by 4"),
    (5, "wrong SC refused by 5"),
    (13, "wrong SC refused by 13"),
    (6, "wrong SC refused by 6"),
];

/// Places that aren't one of several refusals.
const ALONE: [&str; 15] = [
    "true SC accepted with '@@' forbidden",
    "'@@' accepted with unchecked 1",
    "'@@' accepted with unchecked 80H",
    "'@@' accepted with unchecked FFH",
    "'@@' refused by 12 under release 1",
    "'@@' refused by 12 under release 2",
    "'@@' refused by 12 at another station",
    "'@@' refused by 12 alone",
    "write with '@@' refused by 12 alone",
    "200H with '@@' refused by 12",
    "wrong SC refused by 7 at another station",
    "wrong SC refused by 7, '@@' forbidden",
    "'@' first only refused by 7",
    "'@' second only refused by 7",
    "'@' once refused by 7, '@@' forbidden",
];

/// The messages that write.
const WRITES: [&[u8]; 5] = [b"244", b"246", b"24B", b"24C", b"24E"];

/// Places a run must come by, as those of `places`.
pub fn all() -> impl Iterator<Item = &'static str> {
    let several = TRUE_BY.into_iter().chain(MARKED_BY).chain(FORBIDDEN_BY).chain(WRONG_BY);
    several.map(|(_, name)| name).chain(ALONE)
}

/// The places that one frame came by.
pub fn of_sum(frame: &[u8], before: &Lent, outcome: Outcome) -> Vec<Place> {
    if frame.len() < SHORTEST_FRAME {
        return Vec::new();
    }
    let Outcome { number, sum, .. } = outcome;
    let marked = sc_of(frame) == MARKS;
    let forbidden = marked && before.settings.unchecked == 0;
    let mut places = Vec::new();
    let mut by = |several: &[By], holds: bool| {
        let reached = |&(refusal, name): &By| (name, holds && number == refusal);
        places.extend(several.iter().map(reached));
    };
    by(&TRUE_BY, sum == sum_number(Sum::True));
    by(&MARKED_BY, marked);
    by(&FORBIDDEN_BY, forbidden);
    by(&WRONG_BY, !marked && !is_true(frame));
    places.extend(match number {
        0 => of_accepted(marked, before),
        7 => of_7(frame, before),
        12 => of_12(frame, before),
        _ => Vec::new(),
    });
    places
}

fn sc_of(frame: &[u8]) -> &[u8] {
    &frame[frame.len() - 4..frame.len() - 2]
}

/// Whether an SC is true under release 2, and so under either.
fn is_true(frame: &[u8]) -> bool {
    capitals(sc_of(frame), Rule::SmallToo) == Some(frames::sc(&frame[..frame.len() - 4]))
}

fn of_accepted(marked: bool, before: &Lent) -> Vec<Place> {
    let unchecked = before.settings.unchecked;
    vec![
        ("true SC accepted with '@@' forbidden", unchecked == 0),
        ("'@@' accepted with unchecked 1", marked && unchecked == 1),
        ("'@@' accepted with unchecked 80H", marked && unchecked == 0x80),
        ("'@@' accepted with unchecked FFH", marked && unchecked == 0xFF),
    ]
}

fn of_7(frame: &[u8], before: &Lent) -> Vec<Place> {
    let [first, second] = [0, 1].map(|at| sc_of(frame)[at] == b'@');
    let forbidden = before.settings.unchecked == 0;
    vec![
        ("wrong SC refused by 7 at another station", is_for_another(frame, before)),
        ("wrong SC refused by 7, '@@' forbidden", forbidden),
        ("'@' first only refused by 7", first),
        ("'@' second only refused by 7", second),
        ("'@' once refused by 7, '@@' forbidden", forbidden && (first || second)),
    ]
}

fn of_12(frame: &[u8], before: &Lent) -> Vec<Place> {
    let mut allowed = before.clone();
    allowed.settings.unchecked = 1;
    let answer = second(&Call::Answer { frame: frame.to_vec() }, &mut allowed);
    let accepted = matches!(answer, Answer::Answered(Outcome { number: 0, .. }));
    let written = accepted && WRITES.contains(&&frame[3..6].to_ascii_uppercase()[..]);
    vec![
        ("'@@' refused by 12 under release 1", before.settings.release == 1),
        ("'@@' refused by 12 under release 2", before.settings.release == 2),
        ("'@@' refused by 12 at another station", is_for_another(frame, before)),
        ("'@@' refused by 12 alone", accepted),
        ("write with '@@' refused by 12 alone", written),
        ("200H with '@@' refused by 12", &frame[3..6] == b"200"),
    ]
}

/// Whether the station's two digits are those of another, or no digits under either release.
fn is_for_another(frame: &[u8], before: &Lent) -> bool {
    !frames::has_station(frame, before.settings.station, Rule::SmallToo)
}
