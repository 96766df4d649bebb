//! Drawn frames: good ones of every message, and ones damaged in each way.

use super::compare::Lent;
use super::dice::Dice;
use super::{drawn_letters, drawn_test_calls};
use crate::areas::{Kind, Settings, AXES};
use crate::bench::command;
use crate::digits;
use crate::frames::{self, LONGEST_FRAME, SHORTEST_FRAME};

pub const MARKS: &[u8] = b"@@";
const ENTRY_HEAD: usize = 5;

/// The fields of a command, as far as its message has them.
#[derive(Clone)]
struct Asking {
    id: [u8; 3],
    program: Option<u8>,
    run: Option<Named>,
    rest: Vec<u8>,
}

/// Start and count of a run, and how many digits each has; a count of no digits is one.
#[derive(Clone, Copy)]
struct Named {
    kind: Kind,
    start: usize,
    count: usize,
    widths: [usize; 2],
}

/// Digits of start and count: of points; of columns and integers; of flags asked for; of one changed.
const OF_POINTS: [usize; 2] = [3, 3];
const OF_BYTES: [usize; 2] = [3, 2];
const OF_FLAGS: [usize; 2] = [4, 4];
const OF_ONE_FLAG: [usize; 2] = [4, 0];

impl Asking {
    fn plain(id: &[u8; 3], rest: Vec<u8>) -> Asking {
        Asking { id: *id, program: None, run: None, rest }
    }

    /// A run of points, which have no program number.
    fn points(id: &[u8; 3], run: Named, rest: Vec<u8>) -> Asking {
        Asking { run: Some(run), ..Asking::plain(id, rest) }
    }

    /// A run of another kind, of program 00.
    fn global(id: &[u8; 3], run: Named, rest: Vec<u8>) -> Asking {
        Asking { program: Some(0), ..Asking::points(id, run, rest) }
    }

    /// Message ID and content.
    fn text(&self) -> Vec<u8> {
        let mut text = self.id.to_vec();
        if let Some(program) = self.program {
            digits::push(&mut text, u32::from(program), 2);
        }
        if let Some(Named { start, count, widths, .. }) = self.run {
            digits::push(&mut text, start as u32, widths[0]);
            digits::push(&mut text, count as u32, widths[1]);
        }
        text.extend(&self.rest);
        text
    }
}

/// A frame that no refusal meets, where the areas are sound; but 12 now and then where '@@' is forbidden.
pub fn good(dice: &mut Dice, lent: &Lent) -> Vec<u8> {
    let mut frame = in_capitals(dice, lent);
    small_where_allowed(dice, lent, &mut frame);
    frame
}

fn in_capitals(dice: &mut Dice, lent: &Lent) -> Vec<u8> {
    let asking = asking(dice, lent);
    closed(dice, lent.settings, &asking.text())
}

/// Under release 2 every second frame gets small letters.
fn small_where_allowed(dice: &mut Dice, lent: &Lent, frame: &mut [u8]) {
    if lent.settings.release == 2 && dice.one_in(2) {
        drawn_letters::small(dice, frame);
    }
}

/// A frame good but for its letters: small ones under either release, a sum of capitals, or a byte
/// beside the digits.
pub fn odd_letters(dice: &mut Dice, lent: &Lent) -> Vec<u8> {
    let mut frame = in_capitals(dice, lent);
    match dice.roll(4) {
        0 => drawn_letters::sum_of_capitals(dice, &mut frame),
        1 => drawn_letters::beside(dice, &mut frame),
        _ => drawn_letters::small(dice, &mut frame),
    }
    frame
}

/// A frame good but for its SC, which is '@@' or wrong, and now and then for its station as well.
pub fn odd_sc(dice: &mut Dice, lent: &Lent) -> Vec<u8> {
    let mut frame = in_capitals(dice, lent);
    if dice.one_in(3) {
        other_station(dice, &mut frame);
    }
    match dice.one_in(3) {
        true => set_sc(&mut frame, MARKS),
        false => wrong_sc(dice, &mut frame),
    }
    frame
}

/// A frame of a message that looks at the count, now and then with a fault or another station.
pub fn of_count(dice: &mut Dice, lent: &Lent) -> Vec<u8> {
    let mut asking = match dice.roll(3) {
        0 => Asking::plain(b"208", Vec::new()),
        1 => point_write(dice, lent),
        _ => Asking::points(b"246", points_named(dice, lent), Vec::new()),
    };
    if dice.one_in(3) {
        fault(dice, lent, &mut asking);
    }
    let mut frame = closed(dice, lent.settings, &asking.text());
    if dice.one_in(12) {
        other_station(dice, &mut frame);
    }
    frame
}

/// A frame with one fault or more.
pub fn damaged(dice: &mut Dice, lent: &Lent) -> Vec<u8> {
    match dice.roll(17) {
        0 => odd_bytes(dice),
        1 | 2 => overlong(dice, lent),
        3 => odd_test_call(dice, lent),
        4..=8 => {
            let frame = good(dice, lent);
            spoiled(dice, frame)
        }
        _ => {
            let mut asking = asking(dice, lent);
            for _ in 0..dice.pick(&[1, 1, 1, 2, 3]) {
                fault(dice, lent, &mut asking);
            }
            let mut text = asking.text();
            lengthened(dice, &mut text);
            let mut frame = closed(dice, lent.settings, &text);
            small_where_allowed(dice, lent, &mut frame);
            if dice.one_in(12) {
                return spoiled(dice, frame);
            }
            frame
        }
    }
}

/// '!', station, the text, then a true SC or '@@', CR and LF; '@@' is rare where it is forbidden.
fn closed(dice: &mut Dice, settings: Settings, text: &[u8]) -> Vec<u8> {
    let mut frame = command(settings.station, text);
    let one_in = match settings.unchecked {
        0 => 12,
        _ => 3,
    };
    if dice.one_in(one_in) {
        set_sc(&mut frame, MARKS);
    }
    frame
}

pub fn set_sc(frame: &mut [u8], sc: &[u8]) {
    let at = frame.len() - 4;
    frame[at..at + 2].copy_from_slice(sc);
}

/// Makes the SC true again after a change before it.
pub fn mend_sc(frame: &mut [u8]) {
    let sc = frames::sc(&frame[..frame.len() - 4]);
    set_sc(frame, &sc);
}

// ---- good commands ----

fn asking(dice: &mut Dice, lent: &Lent) -> Asking {
    let kinds = lent.kinds();
    match dice.roll(74) {
        0..=2 => Asking::plain(b"200", drawn_test_calls::text(dice)),
        3..=6 => Asking::plain(b"208", Vec::new()),
        7..=14 => Asking::points(b"209", points_named(dice, lent), Vec::new()),
        15..=19 => Asking::global(b"210", bytes_named(dice, lent, kinds.columns), Vec::new()),
        20..=24 => Asking::plain(b"212", dice.digits(2)),
        25..=36 => point_write(dice, lent),
        37..=41 => Asking::points(b"246", points_named(dice, lent), Vec::new()),
        42..=49 => change(dice, lent, b"24E", kinds.columns),
        50..=54 => Asking::global(b"20D", flags_named(dice, kinds.flags), Vec::new()),
        55..=59 => Asking::global(b"20E", bytes_named(dice, lent, kinds.integers), Vec::new()),
        60..=66 => flag_change(dice, kinds.flags),
        _ => change(dice, lent, b"24C", kinds.integers),
    }
}

/// A held run of points: few, many, to the last, all.
fn points_named(dice: &mut Dice, lent: &Lent) -> Named {
    let kind = lent.kinds().points;
    let start = start(dice, kind);
    let left = kind.last() - start + 1;
    let count = match dice.roll(4) {
        0 => left,
        1 => dice.between(1, left),
        _ => dice.between(1, left.min(3)),
    };
    Named { kind, start, count, widths: OF_POINTS }
}

/// A held number: the first, the last ones, any.
fn start(dice: &mut Dice, kind: Kind) -> usize {
    match dice.roll(4) {
        0 => kind.first,
        1 => kind.last() - dice.pick(&[0, 0, 1, 2]).min(kind.held - 1),
        _ => dice.between(kind.first, kind.last()),
    }
}

/// A held run of columns or integers, now and then one whose entry just fits the journal's rest or
/// just doesn't.
fn bytes_named(dice: &mut Dice, lent: &Lent, kind: Kind) -> Named {
    let start = start(dice, kind);
    let most = kind.most.min(kind.last() - start + 1);
    let room = lent.board.journal.len().saturating_sub(lent.board.used);
    let fitting = room.saturating_sub(ENTRY_HEAD) / kind.unit;
    let count = match dice.roll(6) {
        0 => most,
        1 => dice.between(1, most),
        2 | 3 => (fitting + dice.roll(3)).saturating_sub(1),
        _ => dice.between(1, most.min(12)),
    };
    Named { kind, start, count: count.clamp(1, most), widths: OF_BYTES }
}

/// A held run of flags from any start: few, near a multiple of eight, to the last.
fn flags_named(dice: &mut Dice, kind: Kind) -> Named {
    let start = start(dice, kind);
    let left = kind.last() - start + 1;
    let count = match dice.roll(4) {
        0 => left,
        1 => dice.between(1, left),
        2 => 8 * dice.between(1, 5) + dice.roll(3) - 1,
        _ => dice.between(1, 17),
    };
    Named { kind, start, count: count.min(left), widths: OF_FLAGS }
}

/// A 24BH of one held flag, on or off.
fn flag_change(dice: &mut Dice, kind: Kind) -> Asking {
    let run = Named { kind, start: start(dice, kind), count: 1, widths: OF_ONE_FLAG };
    Asking::global(b"24B", run, vec![dice.pick(b"01")])
}

/// A 24CH or 24EH: two digits for each byte of the run.
fn change(dice: &mut Dice, lent: &Lent, id: &[u8; 3], kind: Kind) -> Asking {
    let run = bytes_named(dice, lent, kind);
    Asking::global(id, run, dice.digits(2 * kind.unit * run.count))
}

/// A 244H of one point, a few, or as many as fit into the frame.
fn point_write(dice: &mut Dice, lent: &Lent) -> Asking {
    let named = points_named(dice, lent);
    let left = named.kind.last() - named.start + 1;
    let most = if dice.one_in(4) { left } else { named.count };
    let kind = dice.roll(4);
    let mut rest = Vec::new();
    let mut points = 0;
    while points < most {
        let point = point(dice, kind, lent.settings.fitted.max(1));
        if SHORTEST_FRAME + 6 + rest.len() + point.len() > LONGEST_FRAME {
            break;
        }
        rest.extend(point);
        points += 1;
    }
    Asking::points(b"244", Named { count: points, ..named }, rest)
}

/// One point whose pattern has one axis, all, or some of the fitted ones.
fn point(dice: &mut Dice, kind: usize, fitted: u8) -> Vec<u8> {
    let one = || (0..AXES).map(|axis| 1 << axis).filter(move |bit| fitted & bit != 0);
    let single = one().nth(dice.roll(one().count())).unwrap_or(fitted);
    let pattern = match kind {
        0 => single,
        1 => fitted,
        _ => match dice.byte() & fitted {
            0 => single,
            some => some,
        },
    };
    point_of(dice, pattern)
}

/// One point of this pattern, as long as it says.
fn point_of(dice: &mut Dice, pattern: u8) -> Vec<u8> {
    let mut text = Vec::new();
    digits::push(&mut text, u32::from(pattern), 2);
    text.extend(dice.digits(12 + 8 * pattern.count_ones() as usize));
    text
}

// ---- faults ----

/// One fault of 101 to 108 in a command that may have it, else another.
fn fault(dice: &mut Dice, lent: &Lent, asking: &mut Asking) {
    match dice.roll(8) {
        0 => asking.id = unknown_id(dice),
        1 => not_a_digit(dice, &mut asking.rest),
        2 => wrong_length(dice, asking),
        3 => asking.program = asking.program.map(|_| dice.pick(&[1, 2, 0x10, 0x80, 0xFF])),
        4 => count_zero(dice, asking),
        5 => not_held(dice, asking),
        6 => *asking = faulty_patterns(dice, lent),
        _ => *asking = unlisted_change(dice, lent),
    }
}

/// IDs of the source, lower case, near ones, any bytes.
fn unknown_id(dice: &mut Dice) -> [u8; 3] {
    match dice.roll(4) {
        0 => *dice.pick(&[b"201", b"245", b"20C", b"299", b"20F", b"24D", b"000", b"FFF"]),
        1 => *dice.pick(&[b"24e", b"20d", b"2 0", b"\r\n2", b"@@@", b"2A0", b"!20", b"200"]),
        2 => [b'2', dice.pick(b"0123456789ABCDEF"), dice.pick(b"0123456789ABCDEF")],
        _ => [dice.byte(), dice.byte(), dice.byte()],
    }
}

/// Puts a byte that is no digit over one, or after them.
fn not_a_digit(dice: &mut Dice, rest: &mut Vec<u8>) {
    let byte = match dice.roll(3) {
        0 => dice.pick(b"abcdef"),
        1 => dice.pick(b"/:@G`g \r\n!\x00\xB0\xC1"),
        _ => dice.byte(),
    };
    let at = dice.roll(rest.len());
    match rest.get_mut(at) {
        Some(digit) => *digit = byte,
        None => rest.push(byte),
    }
}

/// Digits too many or too few, or a count that isn't that of what follows.
fn wrong_length(dice: &mut Dice, asking: &mut Asking) {
    let several = dice.pick(&[1, 1, 2, 4, 8, 14, 22]);
    match dice.roll(4) {
        0 => asking.rest.extend(dice.digits(several)),
        1 => asking.rest.truncate(asking.rest.len().saturating_sub(several)),
        2 => change_count(dice, asking),
        _ => {
            asking.program = None;
            asking.run = None;
            asking.rest = dice.digits(several - 1);
        }
    }
}

fn change_count(dice: &mut Dice, asking: &mut Asking) {
    let by = dice.pick(&[1, 1, 2, 255, 4_095, 65_535]);
    if let Some(run) = &mut asking.run {
        run.count = run.count.wrapping_add(by);
    }
}

/// A count of zero, most often with nothing after it, so that no length is wrong.
fn count_zero(dice: &mut Dice, asking: &mut Asking) {
    if let Some(run) = &mut asking.run {
        run.count = 0;
        if !dice.one_in(5) {
            asking.rest.clear();
        }
    }
}

/// A start below the first number, past the last, or a run that leaves them.
fn not_held(dice: &mut Dice, asking: &mut Asking) {
    if let Some(run) = &mut asking.run {
        let last = run.kind.last();
        run.start = match dice.roll(5) {
            0 => run.kind.first.wrapping_sub(1),
            1 => last + 1,
            2 => dice.roll(16usize.pow(run.widths[0] as u32)),
            3 => (last + 1).saturating_sub(run.count.saturating_sub(1)),
            _ => (last + 2).saturating_sub(run.count),
        };
    }
}

/// A 244H with a pattern 00 or one with an unfitted axis among good ones.
fn faulty_patterns(dice: &mut Dice, lent: &Lent) -> Asking {
    let points = lent.kinds().points;
    let count = dice.between(1, points.held.min(9));
    let faulty = dice.roll(count);
    let kind = dice.roll(3);
    let fitted = lent.settings.fitted;
    let mut rest = Vec::new();
    for at in 0..count {
        if at == faulty {
            let pattern = if dice.one_in(3) { 0 } else { dice.byte() };
            rest.extend(point_of(dice, pattern));
        } else {
            rest.extend(point(dice, kind, fitted.max(1)));
        }
    }
    let start = dice.between(1, points.held - count + 1);
    Asking::points(b"244", Named { kind: points, start, count, widths: OF_POINTS }, rest)
}

/// A 24BH with a change type that the section doesn't list.
fn unlisted_change(dice: &mut Dice, lent: &Lent) -> Asking {
    Asking { rest: vec![dice.pick(b"23456789ABCDEF")], ..flag_change(dice, lent.kinds().flags) }
}

/// Now and then digits until the frame has 1,022 to 1,024 bytes.
fn lengthened(dice: &mut Dice, text: &mut Vec<u8>) {
    if dice.one_in(40) {
        let length = dice.between(LONGEST_FRAME - 1, LONGEST_FRAME + 1) - 7;
        let more = length.saturating_sub(text.len());
        text.extend(dice.digits(more));
    }
}

/// A frame longer than is received: good points, but too many.
fn overlong(dice: &mut Dice, lent: &Lent) -> Vec<u8> {
    let pattern = dice.pick(&[lent.settings.fitted, 0x01, 0xFF]);
    let length = dice.between(LONGEST_FRAME - 30, LONGEST_FRAME + 120);
    let mut rest = Vec::new();
    let mut count = 0;
    while rest.len() + 16 < length {
        rest.extend(point_of(dice, pattern));
        count += 1;
    }
    let run = Named { kind: lent.kinds().points, start: 1, count, widths: OF_POINTS };
    let asking = Asking::points(b"244", run, rest);
    closed(dice, lent.settings, &asking.text())
}

/// A 200H of another length than 20 bytes, now and then with another fault besides.
fn odd_test_call(dice: &mut Dice, lent: &Lent) -> Vec<u8> {
    let length = match dice.roll(3) {
        0 => dice.pick(&[10, 11, 18, 22, 40, 1_022, 1_023, 1_024]),
        1 => dice.pick(&[19, 21]),
        _ => dice.between(SHORTEST_FRAME, LONGEST_FRAME),
    };
    let content = match dice.one_in(2) {
        true => dice.digits(length - SHORTEST_FRAME),
        false => dice.bytes_of(b"!\r\n0", length - SHORTEST_FRAME),
    };
    let text = [b"200", content.as_slice()].concat();
    let mut frame = closed(dice, lent.settings, &text);
    match dice.roll(4) {
        0 => other_station(dice, &mut frame),
        1 => wrong_sc(dice, &mut frame),
        _ => {}
    }
    frame
}

/// Bytes that make no frame, or hardly one.
fn odd_bytes(dice: &mut Dice) -> Vec<u8> {
    let count = dice.pick(&[0, 1, 2, 3, 9, 10, 11, 16, 40, 1_022, 1_023, 1_024, 3_000]);
    let few = dice.pick(&[&b"!\r\n@09"[..], b"0123456789ABCDEF", b"!", b"\r\n"]);
    let mut bytes = match dice.one_in(2) {
        true => dice.bytes(count),
        false => dice.bytes_of(few, count),
    };
    if dice.one_in(2) && count >= 3 {
        bytes[0] = b'!';
        bytes[count - 2..].copy_from_slice(b"\r\n");
    }
    bytes
}

/// Damages the bytes of a closed frame: marks, SC, station, length, any byte.
fn spoiled(dice: &mut Dice, mut frame: Vec<u8>) -> Vec<u8> {
    let length = frame.len();
    match dice.roll(12) {
        0 => frame[0] = dice.pick(b"#&\"\x00 1"),
        1 => frame[length - 1 - dice.roll(2)] = dice.pick(b"\r\n\x00 0"),
        2 => frame.truncate(dice.roll(length)),
        3 => frame.extend(dice.pick(&[&b"\r"[..], b"\n", b"\r\n", b" "])),
        4 | 5 => wrong_sc(dice, &mut frame),
        6 | 7 => other_station(dice, &mut frame),
        8 => dice.spoil_byte(&mut frame),
        9 => {
            dice.spoil_byte(&mut frame[..length - 4]);
            mend_sc(&mut frame);
        }
        10 => {
            dice.spoil_byte(&mut frame[..length - 4]);
            set_sc(&mut frame, MARKS);
        }
        _ => frame = small_letters(dice, frame),
    }
    frame
}

/// Another digit, small letters, one mark only, digits swapped, CR LF or its own digits in the sum.
fn wrong_sc(dice: &mut Dice, frame: &mut [u8]) {
    mend_sc(frame);
    let at = frame.len() - 4;
    match dice.roll(7) {
        0 => frame[at + dice.roll(2)] = dice.pick(b"0123456789ABCDEF"),
        1 => frame[at..at + 2].make_ascii_lowercase(),
        2 | 5 => frame[at + dice.roll(2)] = b'@',
        3 => frame.swap(at, at + 1),
        4 => {
            let with_end = frames::sc(&frame[..at + 2]);
            set_sc(frame, &with_end);
        }
        _ => frame[at + dice.roll(2)] = dice.byte(),
    }
}

fn other_station(dice: &mut Dice, frame: &mut [u8]) {
    match dice.roll(3) {
        0 => frame[1..3].make_ascii_lowercase(),
        1 => frame[1 + dice.roll(2)] = dice.pick(b"0123456789ABCDEF"),
        _ => frame[1 + dice.roll(2)] = dice.pick(b"@ag/: \r"),
    }
    match dice.one_in(3) {
        true => set_sc(frame, MARKS),
        false => mend_sc(frame),
    }
}

/// The whole frame in small letters, with an SC true for it or not.
fn small_letters(dice: &mut Dice, mut frame: Vec<u8>) -> Vec<u8> {
    frame.make_ascii_lowercase();
    if dice.one_in(2) {
        mend_sc(&mut frame);
    }
    frame
}
