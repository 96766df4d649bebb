//! Places near a limit: those a run of calls must come by, and those one call came by.

use super::calls::Finding;
use super::compare::{Answer, Call, Lent};
use super::count_places::{self, of_count};
use super::letter_places::{of_letters, LETTER_PLACES};
use super::look_places::{self, of_check};
use super::one_byte_places;
use super::sum_places::{self, of_sum};
use crate::areas::{Area, Board, Kinds, Run, Settings, FLAGS, INTEGER, INTEGERS, SLOT};
use crate::digits;
use crate::frames::{LONGEST_FRAME, LONGEST_REPLY, SHORTEST_FRAME, TEST_CALL_FRAME};
use crate::journal::{least_length, length_is_right};
use crate::link::Outcome;

/// All places a run must come by, besides numbers and messages.
pub fn all() -> impl Iterator<Item = &'static str> {
    let of_calls = PLACES.into_iter().chain(LETTER_PLACES).chain(sum_places::all());
    of_calls.chain(one_byte_places::all()).chain(look_places::all()).chain(count_places::all())
}

/// All but those of small letters, of what the sum test says, of one changed byte, of looking first and of
/// the kept count.
const PLACES: [&str; 60] = [
    "true SC accepted",
    "'@@' accepted",
    "frame of 1,023 bytes",
    "frame of 1,024 bytes",
    "entries dropped",
    "all entries dropped",
    "journal full to its last byte",
    "list shorter than the effective points",
    "list of 1,020 to 1,024 bytes",
    "244H of 12 points or more",
    "1,000 points or more",
    "least journal",
    "journal one byte short refused",
    "journal of 40·N+300 refused",
    "integers area one byte off refused",
    "flags area one byte off refused",
    "first integer F9CH accepted",
    "first integer F9DH refused",
    "first flag FED4H accepted",
    "first flag FED5H refused",
    "first integer named",
    "last integer named",
    "first flag named",
    "last flag named",
    "integer FFFH named",
    "flag FFFFH named",
    "integer before the first refused",
    "integer after the last refused",
    "flag before the first refused",
    "flag after the last refused",
    "20EH of 100 integers",
    "24CH of 100 integers",
    "20DH of 300 flags",
    "20DH not from a multiple of eight",
    "20DH with a flag on beyond its count",
    "20DH of a byte neither 00 nor 01",
    "24BH over a byte neither 00 nor 01",
    "24BH to 0",
    "24BH to 1",
    "entry of 101 integers refused",
    "entry of a part of an integer refused",
    "entry of two flags refused",
    "points stepped back",
    "columns stepped back",
    "integers stepped back",
    "flags stepped back",
    "200H with CR LF among its ten accepted",
    "200H of 19 bytes refused by 6",
    "200H of 21 bytes refused by 6",
    "200H of another length refused by 6",
    "test call with CR LF among its ten found",
    "test call with '!' among its ten found",
    "CR LF and '200' after a '!' found",
    "wait at a cut test call",
    "wait at a cut test call with CR LF",
    "frame after a skipped '!'",
    "test call after a skipped '!'",
    "nothing after a skipped '!'",
    "wait after a skipped '!'",
    "too long after a skipped '!'",
];

/// A place, and whether a call came by it.
pub type Place = (&'static str, bool);

/// The places that one call came by; `before` and `after` are what was lent.
pub fn reached(call: &Call, before: &Lent, after: &Lent, answer: Answer) -> Vec<&'static str> {
    let mut places = of_count(call, before, after, answer);
    match (call, answer) {
        (Call::Answer { frame } | Call::Act { frame }, Answer::Answered(outcome)) => {
            places.extend(of_areas(before, outcome.number));
            places.extend(of_letters(frame, before, outcome.number));
            places.extend(of_sum(frame, before, outcome));
            let frame = as_read(frame, before.settings.release);
            places.extend(of_frame(&frame, before, after, outcome));
        }
        (Call::Check { frame }, Answer::Checked(shown)) => {
            places.extend(of_check(frame, before, shown));
        }
        (Call::StepBack, Answer::SteppedBack(number)) => {
            places.extend(of_areas(before, number));
            if number == 0 {
                places.extend(of_step_back(before, after));
            }
        }
        (Call::Receive { received }, Answer::Received(finding)) => {
            places.extend(of_line(received, finding));
        }
        _ => {}
    }
    places.into_iter().filter(|(_, reached)| *reached).map(|(name, _)| name).collect()
}

/// The frame as a board of this release reads it: under release 2 small letters are capitals.
pub fn as_read(frame: &[u8], release: u8) -> Vec<u8> {
    match release {
        2 => frame.to_ascii_uppercase(),
        _ => frame.to_vec(),
    }
}

/// What frames and steps back test: lengths, first numbers, entries.
fn of_areas(before: &Lent, number: u16) -> Vec<Place> {
    let Lent { board, settings: Settings { firsts, .. }, .. } = before;
    let (integers, flags) = (board.integers.len(), board.flags.len());
    let wrong = [
        integers != INTEGER * INTEGERS,
        flags != FLAGS,
        firsts.integer > 0xF9C,
        firsts.flag > 0xFED4,
    ];
    // One thing wrong, so that 10 is given for this one.
    let for_one = number == 10 && wrong.iter().filter(|&&wrong| wrong).count() == 1;
    let points = board.points.len() / SLOT;
    let short = |by: usize| number == 4 && board.journal.len() + by == least_length(points);
    let heads = match number == 4 && length_is_right(board.journal.len(), points) {
        true => heads(board),
        false => Vec::new(),
    };
    let part = |&(tag, old): &(u8, usize)| tag == 0x49 && !old.is_multiple_of(INTEGER);
    vec![
        ("journal one byte short refused", short(1)),
        ("journal of 40·N+300 refused", short(200)),
        ("integers area one byte off refused", for_one && integers.abs_diff(400) == 1),
        ("flags area one byte off refused", for_one && flags.abs_diff(300) == 1),
        ("first integer F9CH accepted", number == 0 && firsts.integer == 0xF9C),
        ("first integer F9DH refused", for_one && firsts.integer == 0xF9D),
        ("first flag FED4H accepted", number == 0 && firsts.flag == 0xFED4),
        ("first flag FED5H refused", for_one && firsts.flag == 0xFED5),
        ("entry of 101 integers refused", heads.contains(&(0x49, 404))),
        ("entry of a part of an integer refused", heads.iter().any(part)),
        ("entry of two flags refused", heads.contains(&(0x46, 2))),
    ]
}

/// Tag and number of old bytes of each entry, where their lengths lead to the used length's end.
fn heads(board: &Board) -> Vec<(u8, usize)> {
    let mut rest = board.journal.get(..board.used).unwrap_or(&[]);
    let mut heads = Vec::new();
    while let [tag, high, low, after @ ..] = rest {
        let length = usize::from(u16::from_be_bytes([*high, *low]));
        let Some(next) = after.get(length..) else {
            return Vec::new();
        };
        heads.push((*tag, length.saturating_sub(2)));
        rest = next;
    }
    heads
}

fn of_frame(frame: &[u8], before: &Lent, after: &Lent, outcome: Outcome) -> Vec<Place> {
    let refused = outcome.number != 0;
    let mut places = vec![
        ("frame of 1,024 bytes", frame.len() == LONGEST_FRAME + 1),
        ("frame of 1,023 bytes", refused && frame.len() == LONGEST_FRAME),
    ];
    if frame.get(3..6) == Some(b"200") {
        places.extend(of_test_call(frame, outcome.number));
    }
    let run = run_of(frame, &before.kinds());
    match outcome.number {
        0 => places.extend(of_accepted(frame, before)),
        106 => places.extend(run.map_or(Vec::new(), |run| of_not_held(&run))),
        _ => {}
    }
    if let (0, Some(run)) = (outcome.number, run) {
        places.extend(of_run(&run));
        match &frame[3..6] {
            b"209" => places.extend(of_list(&run, &before.board, outcome.reply_length)),
            b"20D" => places.extend(of_flag_query(&run, &before.board)),
            b"20E" => places.push(("20EH of 100 integers", run.count == INTEGERS)),
            b"210" => {}
            _ => places.extend(of_write(frame, &run, before, after)),
        }
    }
    places
}

fn of_test_call(frame: &[u8], number: u16) -> Vec<Place> {
    let length = frame.len();
    let marked = frame.starts_with(b"!") && frame.ends_with(b"\r\n");
    // Nothing else is wrong with the shape, so that 6 is given for the length.
    let by_6 = number == 6 && marked && (SHORTEST_FRAME..=LONGEST_FRAME).contains(&length);
    vec![
        ("200H with CR LF among its ten accepted", number == 0 && has_pair(&frame[6..16])),
        ("200H of 19 bytes refused by 6", by_6 && length == 19),
        ("200H of 21 bytes refused by 6", by_6 && length == 21),
        ("200H of another length refused by 6", by_6),
    ]
}

fn has_pair(bytes: &[u8]) -> bool {
    bytes.windows(2).any(|pair| pair == b"\r\n")
}

/// The numbers that a frame of the right length names.
pub fn run_of(frame: &[u8], kinds: &Kinds) -> Option<Run> {
    let number = |from: usize, to: usize| {
        let field = frame.get(from..to).and_then(digits::number);
        field.map(|number| number as usize)
    };
    let run = |kind, start: Option<usize>, count: Option<usize>| {
        Some(Run { kind, start: start?, count: count? })
    };
    match frame.get(3..6)? {
        b"209" | b"244" | b"246" => run(kinds.points, number(6, 9), number(9, 12)),
        b"20D" => run(kinds.flags, number(8, 12), number(12, 16)),
        b"20E" | b"24C" => run(kinds.integers, number(8, 11), number(11, 13)),
        b"210" | b"24E" => run(kinds.columns, number(8, 11), number(11, 13)),
        b"24B" => run(kinds.flags, number(8, 12), Some(1)),
        _ => None,
    }
}

fn of_accepted(frame: &[u8], before: &Lent) -> Vec<Place> {
    let marked = frame.ends_with(b"@@\r\n");
    let points = before.kinds().points.held;
    vec![
        ("'@@' accepted", marked),
        ("true SC accepted", !marked),
        ("1,000 points or more", points >= 1_000),
        ("least journal", before.board.journal.len() == least_length(points)),
    ]
}

/// The ends of both ranges that the settings give, from inside.
fn of_run(run: &Run) -> Vec<Place> {
    let (first, last) = (run.kind.first, run.kind.last());
    let end = run.start + run.count - 1;
    match run.kind.area {
        Area::Integers => vec![
            ("first integer named", run.start == first),
            ("last integer named", end == last),
            ("integer FFFH named", end == 0xFFF),
        ],
        Area::Flags => vec![
            ("first flag named", run.start == first),
            ("last flag named", end == last),
            ("flag FFFFH named", end == 0xFFFF),
        ],
        Area::Points | Area::Columns => Vec::new(),
    }
}

/// The same ends, one number outside.
fn of_not_held(run: &Run) -> Vec<Place> {
    let (first, last) = (run.kind.first, run.kind.last());
    let before = run.start + 1 == first;
    let after = run.start >= first && run.start + run.count == last + 2;
    match run.kind.area {
        Area::Integers => vec![
            ("integer before the first refused", before),
            ("integer after the last refused", after),
        ],
        Area::Flags => {
            vec![("flag before the first refused", before), ("flag after the last refused", after)]
        }
        Area::Points | Area::Columns => Vec::new(),
    }
}

fn of_list(run: &Run, board: &Board, reply_length: usize) -> Vec<Place> {
    let named = board.points[run.place()].chunks(SLOT);
    let whole: usize =
        named.filter(|slot| slot[0] != 0).map(|slot| 17 + 8 * slot[0].count_ones() as usize).sum();
    vec![
        ("list shorter than the effective points", 13 + whole > reply_length),
        ("list of 1,020 to 1,024 bytes", reply_length >= LONGEST_REPLY - 4),
    ]
}

fn of_flag_query(run: &Run, board: &Board) -> Vec<Place> {
    let place = run.place();
    let next = board.flags.get(place.end).copied().unwrap_or(0);
    let beyond = !run.count.is_multiple_of(8) && next != 0;
    vec![
        ("20DH of 300 flags", run.count == FLAGS),
        ("20DH not from a multiple of eight", !place.start.is_multiple_of(8)),
        ("20DH with a flag on beyond its count", beyond),
        ("20DH of a byte neither 00 nor 01", board.flags[place].iter().any(|&byte| byte > 1)),
    ]
}

fn of_write(frame: &[u8], run: &Run, before: &Lent, after: &Lent) -> Vec<Place> {
    let entry = 5 + run.kind.unit * run.count;
    let used = after.board.used;
    let id = &frame[3..6];
    let flag = id == b"24B";
    vec![
        ("entries dropped", used < before.board.used + entry),
        ("all entries dropped", used == entry && before.board.used > 0),
        ("journal full to its last byte", used == after.board.journal.len()),
        ("244H of 12 points or more", id == b"244" && run.count >= 12),
        ("24CH of 100 integers", id == b"24C" && run.count == INTEGERS),
        ("24BH over a byte neither 00 nor 01", flag && before.board.flags[run.place().start] > 1),
        ("24BH to 0", flag && frame[12] == b'0'),
        ("24BH to 1", flag && frame[12] == b'1'),
    ]
}

/// The kind of the entry that was taken away: its tag stood where the used length now ends.
fn of_step_back(before: &Lent, after: &Lent) -> Vec<Place> {
    let kind = before.kinds().with_tag(before.board.journal[after.board.used]);
    let name = match kind.map(|kind| kind.area) {
        Some(Area::Points) => "points stepped back",
        Some(Area::Columns) => "columns stepped back",
        Some(Area::Integers) => "integers stepped back",
        Some(Area::Flags) => "flags stepped back",
        None => return Vec::new(),
    };
    vec![(name, true)]
}

/// What the finder came by: test calls, and '!' that it skipped.
fn of_line(received: &[u8], finding: Finding) -> Vec<Place> {
    let [frame, nothing, wait, too_long] = [0, 1, 2, 3].map(|code| finding.code == code);
    // The '!' that decided; where there is none, all were skipped.
    let decided = match finding.code {
        0 => Some(finding.start),
        1 => None,
        2 => Some(finding.drop),
        _ => Some(finding.drop - 1),
    };
    let skipped = received.iter().position(|&byte| byte == b'!') != decided;
    let from_it = decided.map_or(&[][..], |at| &received[at..]);
    let id = from_it.get(3..6) == Some(b"200");
    let test_call = frame && id && finding.length == TEST_CALL_FRAME;
    let ten = from_it.get(6..16).unwrap_or(&[]);
    vec![
        ("test call with CR LF among its ten found", test_call && has_pair(ten)),
        ("test call with '!' among its ten found", test_call && ten.contains(&b'!')),
        ("CR LF and '200' after a '!' found", frame && id && finding.length == 3),
        ("wait at a cut test call", wait && id),
        ("wait at a cut test call with CR LF", wait && id && has_pair(from_it)),
        ("frame after a skipped '!'", skipped && frame && !test_call),
        ("test call after a skipped '!'", skipped && test_call),
        ("nothing after a skipped '!'", skipped && nothing),
        ("wait after a skipped '!'", skipped && wait),
        ("too long after a skipped '!'", skipped && too_long),
    ]
}
