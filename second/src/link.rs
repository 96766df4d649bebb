//! The calls: answering a frame, in one call or in two, and stepping back (document 01, "Refusal
//! numbers"; document 02, g). `looked` has the tests of a frame, and checking, acting and answering go
//! through it.

use crate::areas::{self, Area, Axis, Board, Firsts, Kind, Kinds, Run, Settings};
use crate::digits::{self, Rule};
use crate::frames::{self, Sum, LONGEST_REPLY};
use crate::journal::{self, Entry};
use crate::messages::{self, Asked};
use crate::replies;

/// Number 0 is accepted; `reply_length` is 0 where there is no reply.
#[derive(Clone, Copy, Debug, PartialEq, Eq)]
pub struct Outcome {
    pub number: u16,
    pub reply_length: usize,
    /// What the sum test said (document 02, f): `UNTESTED` or a `sum_number`.
    pub sum: u8,
}

/// What checking shows of a frame (document 02, g): number 0 and what would be done, or the refusal.
#[derive(Clone, Copy, Debug, PartialEq, Eq)]
pub struct Shown {
    /// Never 1: checking writes no reply.
    pub number: u16,
    /// The message ID as a number, 0x244 for 244H; 0 where the frame is refused.
    pub message: u16,
    /// The run that the message names; both 0 where it names none or is refused.
    pub start: usize,
    pub count: usize,
    /// As an answer tells it.
    pub sum: u8,
}

impl Shown {
    /// A refusal shows its number and what the sum test said, and nothing that would be done.
    pub fn refused(number: u16, sum: u8) -> Shown {
        Shown { number, message: 0, start: 0, count: 0, sum }
    }
}

/// An earlier test refused the call, so that the sum wasn't tested.
pub const UNTESTED: u8 = 0;

/// The number by which an answer tells what the sum test said.
pub fn sum_number(said: Sum) -> u8 {
    match said {
        Sum::True => 1,
        Sum::SwitchedOff => 2,
        Sum::Wrong => 3,
    }
}

/// What the tests of the areas found out on the way.
struct Sound {
    kinds: Kinds,
    entries: Vec<Entry>,
}

/// What a frame that passed all tests asks, and all that doing it needs.
struct Order {
    id: Vec<u8>,
    asked: Asked,
    entries: Vec<Entry>,
    records: Vec<Axis>,
}

/// Says what would be done, or the refusal, and changes nothing.
pub fn check(frame: &[u8], board: &Board, axes: &[u8], settings: Settings) -> Shown {
    match looked(frame, board, axes, settings) {
        (sum, Ok(order)) => order.shown(sum),
        (sum, Err(number)) => Shown::refused(number, sum),
    }
}

/// Checks again, by the same rules, and does it: changes the board and writes the reply; or refuses.
/// 1 comes first, as it is the reply's.
pub fn act(
    frame: &[u8],
    board: &mut Board,
    axes: &[u8],
    settings: Settings,
    reply: &mut [u8],
) -> Outcome {
    if reply.len() < LONGEST_REPLY {
        return Outcome { number: 1, reply_length: 0, sum: UNTESTED };
    }
    let (sum, order) = looked(frame, board, axes, settings);
    let (number, text) = match order {
        Ok(order) => (0, done(&order, board, settings)),
        Err(number) if number > 100 => (number, frames::error_reply(settings.station, number)),
        Err(number) => (number, Vec::new()),
    };
    reply[..text.len()].copy_from_slice(&text);
    Outcome { number, reply_length: text.len(), sum }
}

/// Answers one frame in a single call: acting needs no check before it.
pub fn answer(
    frame: &[u8],
    board: &mut Board,
    axes: &[u8],
    settings: Settings,
    reply: &mut [u8],
) -> Outcome {
    act(frame, board, axes, settings, reply)
}

/// Takes the latest accepted write back; answers 0 or the refusal (2, 3, 10, 4, 11, then 9).
pub fn step_back(board: &mut Board, firsts: Firsts) -> u16 {
    match area_tests(board, firsts) {
        Err(number) => number,
        Ok(_) if !count_is_true(board) => 11,
        Ok(sound) => match sound.entries.last() {
            None => 9,
            Some(last) => {
                journal::take_back(board, last);
                board.effective = board.effective_slots();
                0
            }
        },
    }
}

/// All tests of a frame but 1, in their order: what the sum test said, and the order or the refusal.
fn looked(
    frame: &[u8],
    board: &Board,
    axes: &[u8],
    settings: Settings,
) -> (u8, Result<Order, u16>) {
    let (sound, records, rule) = match earlier_tests(frame, board, axes, settings) {
        Ok(found) => found,
        Err(number) => return (UNTESTED, Err(number)),
    };
    let said = frames::sum_test(frame, rule);
    let asked = sum_and_station(frame, said, settings, rule)
        .and_then(|()| kept_count(frame, board, sound.kinds.points.held))
        .and_then(|()| messages::ask(frame, &sound.kinds, settings.fitted, rule));
    let order = |(id, asked)| Order { id, asked, entries: sound.entries, records };
    (sum_number(said), asked.map(order))
}

/// The tests before the sum's, whose refusals have no reply: 2 to 6, with 10 after 3 and 13 after 5.
fn earlier_tests(
    frame: &[u8],
    board: &Board,
    axes: &[u8],
    settings: Settings,
) -> Result<(Sound, Vec<Axis>, Rule), u16> {
    let sound = area_tests(board, settings.firsts)?;
    let records = areas::records(axes).ok_or(5u16)?;
    if settings.fitted == 0 {
        return Err(5);
    }
    let rule = Rule::of_release(settings.release).ok_or(13u16)?;
    if !frames::has_shape(frame) {
        return Err(6);
    }
    Ok((sound, records, rule))
}

/// 7 for a wrong SC, 12 in its place for '@@' where it is forbidden, then 8; these have no reply either.
fn sum_and_station(frame: &[u8], said: Sum, settings: Settings, rule: Rule) -> Result<(), u16> {
    match said {
        Sum::Wrong => Err(7),
        Sum::SwitchedOff if settings.unchecked == 0 => Err(12),
        _ if !frames::has_station(frame, settings.station, rule) => Err(8),
        _ => Ok(()),
    }
}

/// 11, by the frame's ID and whatever its content (document 02, b): a write and a clear want a count that is
/// true, a 208H one that points can have, and looks at no slot; no other message looks at the count.
fn kept_count(frame: &[u8], board: &Board, points: usize) -> Result<(), u16> {
    let (id, _) = frames::id_and_content(frame);
    let fits = match id {
        b"244" | b"246" => count_is_true(board),
        b"208" => board.effective <= points,
        _ => true,
    };
    fits.then_some(()).ok_or(11)
}

/// Whether the kept count is the slots'.
fn count_is_true(board: &Board) -> bool {
    board.effective == board.effective_slots()
}

/// Tests 2, 3, 10 and 4, which a step back makes too.
fn area_tests(board: &Board, firsts: Firsts) -> Result<Sound, u16> {
    let points = board.points_held().ok_or(2u16)?;
    let kinds = Kinds::of(points, firsts);
    let has_its_length = |kind: Kind| board.area(kind.area).len() == kind.bytes();
    if !has_its_length(kinds.columns) {
        return Err(3);
    }
    let new_areas = has_its_length(kinds.integers) && has_its_length(kinds.flags);
    if !new_areas || !kinds.fit_their_fields() {
        return Err(10);
    }
    if !journal::length_is_right(board.journal.len(), points) {
        return Err(4);
    }
    let used = board.journal.get(..board.used).ok_or(4u16)?;
    let entries = journal::entries(used, &kinds).ok_or(4u16)?;
    Ok(Sound { kinds, entries })
}

impl Order {
    /// The message, and the run that it names: of a 24BH its flag, of a query what is asked for.
    fn shown(&self, sum: u8) -> Shown {
        let message = digits::number(&self.id).unwrap_or(0) as u16;
        let (start, count) = self.asked.run().map_or((0, 0), |run| (run.start, run.count));
        Shown { number: 0, message, start, count, sum }
    }
}

/// Does what is ordered, and answers the whole reply.
fn done(order: &Order, board: &mut Board, settings: Settings) -> Vec<u8> {
    let content = carry_out(order, board, settings.fitted);
    frames::normal_reply(settings.station, &order.id, &content)
}

/// Does what is asked, all of it, and answers the reply's content.
fn carry_out(order: &Order, board: &mut Board, fitted: u8) -> Vec<u8> {
    let Order { asked, entries, records, .. } = order;
    match asked {
        Asked::TestCall { text } => text.clone(),
        Asked::PointCount => replies::point_count(board.effective),
        Asked::PointList { run } => replies::point_list(board, run),
        Asked::FlagQuery { program, run } => replies::flags(board, *program, run),
        Asked::Query { program, run } => replies::run(board, *program, run),
        Asked::AxisStatus { pattern } => replies::axis_status(records, pattern & fitted),
        Asked::PointWrite { run, points } => {
            let slots: Vec<u8> = points.iter().flat_map(|point| point.to_slot()).collect();
            write_points(board, entries, run, &slots);
            replies::points_written(run)
        }
        // 4-3-25, 4-3-27 and 4-3-30: these replies have no content.
        Asked::PointClear { run } => {
            write_points(board, entries, run, &vec![0; run.place().len()]);
            Vec::new()
        }
        Asked::FlagChange { run, change, .. } => {
            write(board, entries, run, &[*change]);
            Vec::new()
        }
        Asked::Change { program, run, bytes } => {
            write(board, entries, run, bytes);
            match run.kind.area {
                Area::Integers => replies::named(*program, run),
                _ => Vec::new(),
            }
        }
    }
}

/// One accepted write of slots, which keeps the count true; one of any other kind leaves it as it was given.
fn write_points(board: &mut Board, entries: &[Entry], run: &Run, slots: &[u8]) {
    write(board, entries, run, slots);
    board.effective = board.effective_slots();
}

/// One accepted write: the old bytes go to the journal before the new ones take their place.
fn write(board: &mut Board, entries: &[Entry], run: &Run, new: &[u8]) {
    journal::add(board, run, entries);
    board.area_mut(run.kind.area)[run.place()].copy_from_slice(new);
}
