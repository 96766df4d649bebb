//! Places of the kept count (document 02, b): 11 by each call and at each message, and among its neighbours;
//! counts that 208H takes; what writes, clears and steps back do to the count, and what leaves a false one.

use super::compare::{second, Answer, Call, Lent};
use super::kept_count::{holds_11, is_true, slots};
use super::places::{as_read, run_of, Place};
use crate::areas::{Area, Board, Run, SLOT};

/// The messages that look at the count, and 11 at each: answered, checked and acted on.
const AT_11: [(&[u8], [&str; 3]); 3] = [
    (b"208", ["208H answered with 11", "208H checked with 11", "208H acted on with 11"]),
    (b"244", ["244H answered with 11", "244H checked with 11", "244H acted on with 11"]),
    (b"246", ["246H answered with 11", "246H checked with 11", "246H acted on with 11"]),
];

/// 11, with what the same call is given where the count is true.
const LATER: [(u16, &str); 7] = [
    (0, "11 alone"),
    (102, "11 where 102 holds too"),
    (103, "11 where 103 holds too"),
    (105, "11 where 105 holds too"),
    (106, "11 where 106 holds too"),
    (107, "11 where 107 holds too"),
    (9, "11 where 9 holds too"),
];

/// An earlier refusal while the count is a reason for 11.
const EARLIER: [(u16, &str); 5] = [
    (4, "4 where 11 holds too"),
    (6, "6 where 11 holds too"),
    (12, "12 where 11 holds too"),
    (7, "7 where 11 holds too"),
    (8, "8 where 11 holds too"),
];

/// Messages that don't look at the count, done with one that isn't true.
const LEFT_FALSE: [(&[u8], &str); 5] = [
    (b"209", "209H with a false count accepted"),
    (b"20D", "20DH with a false count accepted"),
    (b"24B", "24BH with a false count accepted"),
    (b"24C", "24CH with a false count accepted"),
    (b"24E", "24EH with a false count accepted"),
];

/// Places that aren't one of several.
const ALONE: [&str; 23] = [
    "208H with a false count accepted",
    "208H with a count of N accepted",
    "208H with a count of N+1 refused by 11",
    "208H with 2^32 or more refused by 11",
    "11 at 208H where 103 holds too",
    "11 for one too many",
    "11 for one too few",
    "11 for a count of 0",
    "11 with 2^32 or more",
    "4 in a step back where 11 holds too",
    "101 to 108 with a false count",
    "244H over effective points alone",
    "244H over empty slots alone",
    "244H over effective points and empty slots",
    "246H of effective points alone",
    "246H of empty slots alone",
    "246H of effective points and empty slots",
    "all points effective after a 244H",
    "none effective after a 246H",
    "step back to more effective points",
    "step back to fewer effective points",
    "step back of points to as many",
    "step back of another kind with a count",
];

/// Places a run must come by, as those of `places`.
pub fn all() -> impl Iterator<Item = &'static str> {
    let at_11 = AT_11.into_iter().flat_map(|(_, names)| names);
    let by_others = LATER.into_iter().chain(EARLIER).map(|(_, name)| name);
    let left_false = LEFT_FALSE.into_iter().map(|(_, name)| name);
    at_11.chain(by_others).chain(left_false).chain(ALONE)
}

/// The places that one call came by.
pub fn of_count(call: &Call, before: &Lent, after: &Lent, answer: Answer) -> Vec<Place> {
    let Some(number) = answer.number() else {
        return Vec::new();
    };
    let mut places = of_neighbours(call, before, number);
    if number == 11 {
        places.extend(of_11(&before.board));
    }
    match call {
        Call::StepBack if number == 0 => places.extend(of_step_back(before, after)),
        Call::Answer { frame } => places.extend(of_frame(0, frame, before, after, number)),
        Call::Check { frame } => places.extend(of_frame(1, frame, before, before, number)),
        Call::Act { frame } => places.extend(of_frame(2, frame, before, after, number)),
        _ => {}
    }
    places
}

/// 11 with what comes later in the order, and what comes earlier while the count is a reason for 11.
fn of_neighbours(call: &Call, before: &Lent, number: u16) -> Vec<Place> {
    let mut places = Vec::new();
    if number == 11 {
        let otherwise = with_a_true_count(call, before);
        places.extend(LATER.map(|(later, name)| (name, otherwise == Some(later))));
        let counts = matches!(call, Call::Answer { frame } if &frame[3..6] == b"208");
        places.push(("11 at 208H where 103 holds too", counts && otherwise == Some(103)));
    } else if holds_11(call, &before.board) {
        places.extend(EARLIER.map(|(earlier, name)| (name, number == earlier)));
        let stepped_back = *call == Call::StepBack;
        places.push(("4 in a step back where 11 holds too", stepped_back && number == 4));
    }
    places
}

/// The number that the same call is given where the count is true.
fn with_a_true_count(call: &Call, before: &Lent) -> Option<u16> {
    let mut lent = before.clone();
    lent.board.effective = slots(&lent.board);
    second(call, &mut lent).number()
}

/// The counts that 11 refuses.
fn of_11(board: &Board) -> Vec<Place> {
    let (given, slots) = (board.effective, slots(board));
    vec![
        ("11 for one too many", given == slots + 1),
        ("11 for one too few", slots.checked_sub(1) == Some(given)),
        ("11 for a count of 0", given == 0),
        ("11 with 2^32 or more", given >> 32 != 0),
    ]
}

/// Of a frame that is answered (way 0), checked (1) or acted on (2).
fn of_frame(way: usize, frame: &[u8], before: &Lent, after: &Lent, number: u16) -> Vec<Place> {
    let frame = as_read(frame, before.settings.release);
    let id = frame.get(3..6).unwrap_or(&[]);
    let is_false = !is_true(&before.board);
    let mut places = Vec::new();
    places.extend(AT_11.map(|(message, names)| (names[way], number == 11 && id == message)));
    let left = is_false && number == 0;
    places.extend(LEFT_FALSE.map(|(message, name)| (name, left && id == message)));
    places.push(("101 to 108 with a false count", is_false && number > 100));
    if id == b"208" {
        places.extend(of_208(&before.board, number));
    }
    let run = run_of(&frame, &before.kinds());
    if let (0, Some(run), 0 | 2) = (number, run, way) {
        places.extend(of_points(id, &run, &before.board, &after.board));
    }
    places
}

fn of_208(board: &Board, number: u16) -> Vec<Place> {
    let (given, points) = (board.effective, board.points.len() / SLOT);
    let (accepted, refused) = (number == 0, number == 11);
    vec![
        ("208H with a false count accepted", accepted && !is_true(board)),
        ("208H with a count of N accepted", accepted && given == points),
        ("208H with a count of N+1 refused by 11", refused && given == points + 1),
        ("208H with 2^32 or more refused by 11", refused && given >> 32 != 0),
    ]
}

/// What a write or a clear of points found in its run, and what it made of the count.
fn of_points(id: &[u8], run: &Run, before: &Board, after: &Board) -> Vec<Place> {
    let (write, clear) = (id == b"244", id == b"246");
    if !write && !clear {
        return Vec::new();
    }
    let named = before.points[run.place()].chunks(SLOT).map(|slot| slot[0] != 0);
    let effective = named.filter(|&effective| effective).count();
    let [none, all] = [0, run.count].map(|count| effective == count);
    vec![
        ("244H over effective points alone", write && all),
        ("244H over empty slots alone", write && none),
        ("244H over effective points and empty slots", write && !all && !none),
        ("246H of effective points alone", clear && all),
        ("246H of empty slots alone", clear && none),
        ("246H of effective points and empty slots", clear && !all && !none),
        (
            "all points effective after a 244H",
            write && after.effective == after.points.len() / SLOT,
        ),
        ("none effective after a 246H", clear && after.effective == 0),
    ]
}

/// An accepted step back: the entry's tag stood where the used length now ends.
fn of_step_back(before: &Lent, after: &Lent) -> Vec<Place> {
    let kind = before.kinds().with_tag(before.board.journal[after.board.used]);
    let points = kind.is_some_and(|kind| kind.area == Area::Points);
    let (old, new) = (before.board.effective, after.board.effective);
    vec![
        ("step back to more effective points", points && new > old),
        ("step back to fewer effective points", points && new < old),
        ("step back of points to as many", points && new == old),
        ("step back of another kind with a count", !points && new > 0),
    ]
}
