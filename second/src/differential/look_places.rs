//! Places of looking first (document 02, g): what checks show, and what acting gives after them.

use super::compare::Lent;
use super::look_first::Judged;
use super::places::{as_read, run_of, Place};
use crate::areas::{Kinds, FLAGS, INTEGERS};
use crate::frames::LONGEST_REPLY;
use crate::link::{Outcome, Shown};

/// Places a check must come by, as those of `places`.
const CHECKED: [&str; 13] = [
    "244H of 12 points or more shown",
    "all points shown",
    "last point shown",
    "255 columns shown",
    "column 999 shown",
    "100 integers shown",
    "integer FFFH shown",
    "300 flags shown",
    "flag FFFFH shown",
    "first flag shown for a 24BH",
    "message with a small letter shown",
    "105 by check where 106 holds too",
    "check where the reply area is too short",
];

/// Places that a frame checked and then acted on must come by.
const LOOKED: [&str; 6] = [
    "check 0, then act 1",
    "check 2 to 13, then act 1",
    "check 101 to 108, then act 1",
    "check 0, changed between, act refuses",
    "check refuses, changed between, act 0",
    "check and act by two refusals",
];

pub fn all() -> impl Iterator<Item = &'static str> {
    CHECKED.into_iter().chain(LOOKED)
}

/// The places that one check came by.
pub fn of_check(frame: &[u8], before: &Lent, shown: Shown) -> Vec<Place> {
    let mut places = vec![
        ("105 by check where 106 holds too", shown.number == 105 && !starts_held(frame, before)),
        ("check where the reply area is too short", before.reply.len() < LONGEST_REPLY),
    ];
    if shown.number == 0 {
        places.extend(of_run(shown, &before.kinds()));
        let small = frame[3..6].iter().any(u8::is_ascii_lowercase);
        places.push(("message with a small letter shown", small));
    }
    places
}

/// The runs at their limits, of the kind that the message names.
fn of_run(shown: Shown, kinds: &Kinds) -> Vec<Place> {
    let Shown { message, start, count, .. } = shown;
    let last = (start + count).saturating_sub(1);
    let [points, columns, integers, flags] =
        [[0x209, 0x244, 0x246], [0x210, 0x24E, 0], [0x20E, 0x24C, 0], [0x20D, 0x24B, 0]]
            .map(|messages| messages.contains(&message));
    vec![
        ("244H of 12 points or more shown", message == 0x244 && count >= 12),
        ("all points shown", points && count == kinds.points.held),
        ("last point shown", points && last == kinds.points.last()),
        ("255 columns shown", columns && count == 255),
        ("column 999 shown", columns && last == 999),
        ("100 integers shown", integers && count == INTEGERS),
        ("integer FFFH shown", integers && last == 0xFFF),
        ("300 flags shown", flags && count == FLAGS),
        ("flag FFFFH shown", flags && last == 0xFFFF),
        ("first flag shown for a 24BH", message == 0x24B && start == kinds.flags.first),
    ]
}

/// Whether the first number that a frame names is held.
fn starts_held(frame: &[u8], before: &Lent) -> bool {
    let read = as_read(frame, before.settings.release);
    run_of(&read, &before.kinds())
        .is_some_and(|run| (run.kind.first..=run.kind.last()).contains(&run.start))
}

/// The places of a frame checked and then acted on, nothing having changed between.
pub fn of_looked(judged: &Judged) -> Vec<Place> {
    let Judged { shown: Shown { number, .. }, outcome } = judged;
    let short = outcome.number == 1;
    vec![
        ("check 0, then act 1", short && *number == 0),
        ("check 2 to 13, then act 1", short && (2..=13).contains(number)),
        ("check 101 to 108, then act 1", short && *number > 100),
    ]
}

/// The places of a frame checked, and acted on after something changed.
pub fn of_changed(shown: Shown, outcome: Outcome) -> Vec<Place> {
    let (checked, acted) = (shown.number, outcome.number);
    let refused = checked != 0 && acted != 0;
    vec![
        ("check 0, changed between, act refuses", checked == 0 && acted != 0),
        ("check refuses, changed between, act 0", checked != 0 && acted == 0),
        ("check and act by two refusals", refused && checked != acted),
    ]
}
