//! Places of one changed byte (document 02, n): where it stands in a frame with a true SC, and which of
//! 6, 7 and neither comes of it under each release.

use super::one_byte::{Judged, Must, Part};
use super::places::Place;
use crate::frames::TEST_CALL_FRAME;

/// Whether a change is one of a place's.
type Holds = fn(&Judged) -> bool;

/// Under release 1 and under release 2.
const UNDER_EACH: [([&str; 2], Holds); 13] = [
    (["'!' changed refused by 6, release 1", "'!' changed refused by 6, release 2"], |judged| {
        by_6(judged, Part::Header)
    }),
    (
        ["station changed refused by 7, release 1", "station changed refused by 7, release 2"],
        |judged| by_7(judged, Part::Station),
    ),
    (["ID changed refused by 7, release 1", "ID changed refused by 7, release 2"], |judged| {
        by_7(judged, Part::Id)
    }),
    (
        ["content changed refused by 7, release 1", "content changed refused by 7, release 2"],
        |judged| by_7(judged, Part::Content),
    ),
    (["SC changed refused by 7, release 1", "SC changed refused by 7, release 2"], |judged| {
        by_7(judged, Part::Sc)
    }),
    (["CR changed refused by 6, release 1", "CR changed refused by 6, release 2"], |judged| {
        by_6(judged, Part::Cr)
    }),
    (["LF changed refused by 6, release 1", "LF changed refused by 6, release 2"], |judged| {
        by_6(judged, Part::Lf)
    }),
    (["ID made 200 refused by 6, release 1", "ID made 200 refused by 6, release 2"], |judged| {
        by_6(judged, Part::Id)
    }),
    (
        ["ID of 20 bytes made 200 by 7, release 1", "ID of 20 bytes made 200 by 7, release 2"],
        |judged| by_7(judged, Part::Id) && judged.change.is_made_200(),
    ),
    (["ID of a 200H changed by 7, release 1", "ID of a 200H changed by 7, release 2"], |judged| {
        by_7(judged, Part::Id) && is_test_call(judged)
    }),
    (["byte changed by 80H by 7, release 1", "byte changed by 80H by 7, release 2"], |judged| {
        is_refused_by_7(judged) && judged.change.old_byte() ^ judged.change.new_byte() == 0x80
    }),
    (["SC digit made '@' by 7, release 1", "SC digit made '@' by 7, release 2"], |judged| {
        by_7(judged, Part::Sc) && judged.change.new_byte() == b'@'
    }),
    (
        ["letter's size before SC by 7, release 1", "letter's size before SC by 7, release 2"],
        |judged| judged.change.part() != Part::Sc && is_size_refused(judged),
    ),
];

/// Under one release, or under either.
const ALONE: [(&str, Holds); 14] = [
    ("SC letter made small by 7, release 1", |judged| {
        judged.change.part() == Part::Sc && is_size_refused(judged)
    }),
    ("first SC letter made small passes 7", |judged| passes(judged, 4, u8::is_ascii_lowercase)),
    ("second SC letter made small passes 7", |judged| passes(judged, 3, u8::is_ascii_lowercase)),
    ("first SC letter made capital passes 7", |judged| passes(judged, 4, u8::is_ascii_uppercase)),
    ("second SC letter made capital passes 7", |judged| passes(judged, 3, u8::is_ascii_uppercase)),
    ("SC letter's size changed accepted", |judged| !is_refused(judged) && judged.number == 0),
    ("write, SC letter's size changed, accepted", |judged| {
        !is_refused(judged) && is_good_write(judged)
    }),
    ("SC letter's size changed refused by 8", |judged| !is_refused(judged) && judged.number == 8),
    ("SC letter's size changed, error reply", |judged| !is_refused(judged) && judged.number > 100),
    ("changed byte of a good frame refused", |judged| is_refused(judged) && judged.number == 0),
    ("changed byte of a good write refused", |judged| is_refused(judged) && is_good_write(judged)),
    ("changed byte, else 8, refused", |judged| is_refused(judged) && judged.number == 8),
    ("changed byte, else an error reply, refused", |judged| {
        is_refused(judged) && judged.number > 100
    }),
    ("changed byte refused, '@@' forbidden", |judged| is_refused(judged) && judged.unchecked == 0),
];

/// Places a run must come by, as those of `places`.
pub fn all() -> impl Iterator<Item = &'static str> {
    UNDER_EACH
        .into_iter()
        .flat_map(|(names, _)| names)
        .chain(ALONE.into_iter().map(|(name, _)| name))
}

/// The places that one changed byte came by.
pub fn of_one_byte(judged: &Judged) -> Vec<Place> {
    let release = usize::from(judged.release == 2);
    let of_release = UNDER_EACH.iter().map(|(names, holds)| (names[release], holds(judged)));
    of_release.chain(ALONE.iter().map(|&(name, holds)| (name, holds(judged)))).collect()
}

fn by_6(judged: &Judged, part: Part) -> bool {
    judged.must == Must::RefusedBy6 && judged.change.part() == part
}

fn by_7(judged: &Judged, part: Part) -> bool {
    is_refused_by_7(judged) && judged.change.part() == part
}

fn is_refused_by_7(judged: &Judged) -> bool {
    judged.must == Must::RefusedBy7
}

fn is_refused(judged: &Judged) -> bool {
    judged.must != Must::AnsweredAsUnchanged
}

fn is_size_refused(judged: &Judged) -> bool {
    is_refused_by_7(judged) && judged.change.is_size_alone()
}

/// Whether the SC letter so far from the frame's end passes, and is of this size now.
fn passes(judged: &Judged, from_end: usize, size: fn(&u8) -> bool) -> bool {
    let at = judged.change.changed.len() - from_end;
    !is_refused(judged) && judged.change.at == at && size(&judged.change.new_byte())
}

fn is_test_call(judged: &Judged) -> bool {
    let frame = judged.change.unchanged;
    frame.len() == TEST_CALL_FRAME && &frame[3..6] == b"200"
}

/// Whether the unchanged frame would be accepted and write.
fn is_good_write(judged: &Judged) -> bool {
    judged.number == 0 && judged.change.unchanged[3..5] == *b"24"
}
