//! The lent areas (document 01, "The areas"; document 02, a): slots, columns, integers, flags and
//! axis records; the numbers kept with them (document 02, b), and the settings beside them.

use std::ops::Range;

pub const SLOT: usize = 40;
pub const MOST_POINTS: usize = 1_500;
pub const COLUMNS: usize = 700;
pub const FIRST_COLUMN: usize = 300;
/// Bytes of one integer, high byte first, and how many are held.
pub const INTEGER: usize = 4;
pub const INTEGERS: usize = 100;
pub const FLAGS: usize = 300;
/// The greatest numbers that fields of three and of four digits give.
pub const LAST_INTEGER_NUMBER: usize = 0xFFF;
pub const LAST_FLAG_NUMBER: usize = 0xFFFF;
pub const RECORD: usize = 9;
pub const AXES: usize = 8;

/// The areas the board keeps, as lent: of any length, and `used` and `effective` any number.
#[derive(Clone, Debug, PartialEq, Eq)]
pub struct Board {
    pub points: Vec<u8>,
    pub columns: Vec<u8>,
    pub integers: Vec<u8>,
    pub flags: Vec<u8>,
    pub journal: Vec<u8>,
    pub used: usize,
    /// The kept count of effective points (document 02, b).
    pub effective: usize,
}

impl Board {
    /// Fresh is all zero bytes, used length 0 and count 0.
    pub fn fresh(points: usize, journal_length: usize) -> Board {
        Board {
            points: vec![0; SLOT * points],
            columns: vec![0; COLUMNS],
            integers: vec![0; INTEGER * INTEGERS],
            flags: vec![0; FLAGS],
            journal: vec![0; journal_length],
            used: 0,
            effective: 0,
        }
    }

    /// The slots with a non-zero pattern, counted: what the kept count must be.
    pub fn effective_slots(&self) -> usize {
        self.points.chunks_exact(SLOT).filter(|slot| slot[0] != 0).count()
    }

    /// N, the area's length over 40; None is refusal 2.
    pub fn points_held(&self) -> Option<usize> {
        let held = self.points.len() / SLOT;
        let whole = self.points.len().is_multiple_of(SLOT);
        (whole && (1..=MOST_POINTS).contains(&held)).then_some(held)
    }

    pub fn area(&self, area: Area) -> &[u8] {
        match area {
            Area::Points => &self.points,
            Area::Columns => &self.columns,
            Area::Integers => &self.integers,
            Area::Flags => &self.flags,
        }
    }

    pub fn area_mut(&mut self, area: Area) -> &mut [u8] {
        match area {
            Area::Points => &mut self.points,
            Area::Columns => &mut self.columns,
            Area::Integers => &mut self.integers,
            Area::Flags => &mut self.flags,
        }
    }
}

/// The settings that number integers and flags: the number of the first of each.
#[derive(Clone, Copy, Debug, PartialEq, Eq)]
pub struct Firsts {
    pub integer: u16,
    pub flag: u16,
}

/// All settings handed to a frame's answer; a step back is handed the first numbers alone.
#[derive(Clone, Copy, Debug, PartialEq, Eq)]
pub struct Settings {
    pub fitted: u8,
    pub station: u8,
    /// The cabinet release, which names the rule of digits (document 02, l).
    pub release: u8,
    /// 0 forbids '@@' for an SC, any other value allows it (document 02, f).
    pub unchecked: u8,
    pub firsts: Firsts,
}

#[derive(Clone, Copy, Debug, PartialEq, Eq)]
pub enum Area {
    Points,
    Columns,
    Integers,
    Flags,
}

/// A kind of thing that the board keeps in an area of its own, one after the other.
#[derive(Clone, Copy, Debug, PartialEq, Eq)]
pub struct Kind {
    pub area: Area,
    /// The tag of its journal entries.
    pub tag: u8,
    /// The number of the first.
    pub first: usize,
    /// Bytes of each.
    pub unit: usize,
    /// How many are held, from the first on.
    pub held: usize,
    /// How many one write can name, and so one entry.
    pub most: usize,
}

impl Kind {
    /// The number of the last.
    pub fn last(&self) -> usize {
        self.first + self.held - 1
    }

    /// Bytes of all.
    pub fn bytes(&self) -> usize {
        self.unit * self.held
    }
}

/// The four kinds of a board.
#[derive(Clone, Copy, Debug, PartialEq, Eq)]
pub struct Kinds {
    pub points: Kind,
    pub columns: Kind,
    pub integers: Kind,
    pub flags: Kind,
}

impl Kinds {
    /// The kinds of a board with N points and these settings.
    pub fn of(points: usize, firsts: Firsts) -> Kinds {
        let kind = |area, tag, first, unit, held, most| Kind { area, tag, first, unit, held, most };
        let (integer, flag) = (usize::from(firsts.integer), usize::from(firsts.flag));
        Kinds {
            points: kind(Area::Points, 0x50, 1, SLOT, points, points),
            // A count of two digits names at most 255 columns.
            columns: kind(Area::Columns, 0x53, FIRST_COLUMN, 1, COLUMNS, 255),
            integers: kind(Area::Integers, 0x49, integer, INTEGER, INTEGERS, INTEGERS),
            // 24BH names one flag.
            flags: kind(Area::Flags, 0x46, flag, 1, FLAGS, 1),
        }
    }

    pub fn all(&self) -> [Kind; 4] {
        [self.points, self.columns, self.integers, self.flags]
    }

    /// The kind whose entries have this tag.
    pub fn with_tag(&self, tag: u8) -> Option<Kind> {
        self.all().into_iter().find(|kind| kind.tag == tag)
    }

    /// Whether no number of a setting's kind runs past its field (else refusal 10).
    pub fn fit_their_fields(&self) -> bool {
        self.integers.last() <= LAST_INTEGER_NUMBER && self.flags.last() <= LAST_FLAG_NUMBER
    }
}

/// The numbers from `start` to `start + count - 1` of one kind.
#[derive(Clone, Copy, Debug, PartialEq, Eq)]
pub struct Run {
    pub kind: Kind,
    pub start: usize,
    pub count: usize,
}

impl Run {
    /// Whether every number of the run is held.
    pub fn is_held(&self) -> bool {
        let (first, last) = (self.kind.first, self.kind.last());
        // The count is compared with what is left, as start + count might overflow.
        (first..=last).contains(&self.start) && self.count <= last - self.start + 1
    }

    /// Where the bytes of a held run stand in its area.
    pub(crate) fn place(&self) -> Range<usize> {
        let from = self.kind.unit * (self.start - self.kind.first);
        from..from + self.kind.unit * self.count
    }
}

/// The axes (0 for axis 1) whose bit is set in a pattern, lowest first.
pub fn axes_of(pattern: u8) -> impl Iterator<Item = usize> {
    (0..AXES).filter(move |axis| pattern >> axis & 1 == 1)
}

/// One shelf place; a slot's 40 bytes.
#[derive(Clone, Copy, Debug, PartialEq, Eq)]
pub struct Point {
    /// Bit 0 for axis 1; 00 means not effective.
    pub pattern: u8,
    /// In 0.01 G.
    pub acceleration: u16,
    /// In 0.01 G.
    pub deceleration: u16,
    /// In mm/sec.
    pub speed: u16,
    /// In 0.001 mm, axis 1 first; 0 for an absent axis.
    pub positions: [i32; AXES],
}

impl Point {
    /// Pattern, a zero byte, three pairs, eight positions of four, high byte first.
    pub fn to_slot(&self) -> Vec<u8> {
        let mut slot = vec![self.pattern, 0];
        for pair in [self.acceleration, self.deceleration, self.speed] {
            slot.extend(pair.to_be_bytes());
        }
        for position in self.positions {
            slot.extend(position.to_be_bytes());
        }
        slot
    }

    /// Reads a slot of 40 bytes; the second byte, zero in any slot we write, says nothing.
    pub(crate) fn from_slot(slot: &[u8]) -> Point {
        let pair = |at: usize| u16::from_be_bytes([slot[at], slot[at + 1]]);
        Point {
            pattern: slot[0],
            acceleration: pair(2),
            deceleration: pair(4),
            speed: pair(6),
            positions: std::array::from_fn(|axis| signed(&slot[8 + 4 * axis..])),
        }
    }
}

/// One axis record lent by the motion board.
#[derive(Clone, Copy, Debug, PartialEq, Eq)]
pub struct Axis {
    pub status: u8,
    pub sensor: u8,
    pub error: u16,
    pub encoder: u8,
    /// In 0.001 mm.
    pub position: i32,
}

/// The eight records in 72 bytes; None where refusal 5 holds for them, fitted or not.
pub fn records(bytes: &[u8]) -> Option<Vec<Axis>> {
    if bytes.len() != AXES * RECORD {
        return None;
    }
    let records: Vec<Axis> = bytes.chunks_exact(RECORD).map(record).collect();
    records.iter().all(|axis| axis.sensor <= 15 && axis.error <= 4_095).then_some(records)
}

/// One record: 1, 1, 2, 1 and 4 bytes, high byte first.
fn record(bytes: &[u8]) -> Axis {
    Axis {
        status: bytes[0],
        sensor: bytes[1],
        error: u16::from_be_bytes([bytes[2], bytes[3]]),
        encoder: bytes[4],
        position: signed(&bytes[5..]),
    }
}

/// Signed 32 bits from the first four bytes, high byte first.
fn signed(bytes: &[u8]) -> i32 {
    i32::from_be_bytes([bytes[0], bytes[1], bytes[2], bytes[3]])
}

#[cfg(test)]
mod tests {
    use super::*;

    /// 500 points, integers from 200 on, flags from 600 on.
    fn kinds() -> Kinds {
        Kinds::of(500, Firsts { integer: 200, flag: 600 })
    }

    fn is_held(kind: Kind, start: usize, count: usize) -> bool {
        Run { kind, start, count }.is_held()
    }

    #[test]
    fn a_points_area_is_a_multiple_of_40_from_40_to_60000() {
        let held =
            |length: usize| Board { points: vec![0; length], ..Board::fresh(1, 0) }.points_held();
        assert_eq!(held(0), None);
        assert_eq!(held(39), None);
        assert_eq!(held(40), Some(1));
        assert_eq!(held(41), None);
        assert_eq!(held(60_000), Some(1_500));
        assert_eq!(held(60_040), None);
    }

    #[test]
    fn slots_are_counted_by_their_pattern_alone() {
        let mut board = Board::fresh(4, 0);
        assert_eq!((board.effective_slots(), board.effective), (0, 0));
        for (at, byte) in [(0, 0x01), (41, 0xFF), (80, 0x80), (120, 0x00), (159, 0x01)] {
            board.points[at] = byte;
        }
        assert_eq!((board.effective_slots(), board.effective), (2, 0));
        board.points.fill(0xFF);
        assert_eq!(board.effective_slots(), 4);
    }

    #[test]
    fn each_kind_is_held_from_its_first_number_to_its_last() {
        let Kinds { points, columns, integers, flags } = kinds();
        for (kind, first, last) in
            [(points, 1, 500), (columns, 300, 999), (integers, 200, 299), (flags, 600, 899)]
        {
            assert_eq!((kind.first, kind.last()), (first, last));
            let all = last - first + 1;
            assert!(is_held(kind, first, all));
            assert!(is_held(kind, last, 1));
            assert!(!is_held(kind, first, all + 1));
            assert!(!is_held(kind, first - 1, 1));
            assert!(!is_held(kind, last, 2));
            assert!(!is_held(kind, last + 1, 1));
            assert!(!is_held(kind, usize::MAX, usize::MAX));
            assert!(!is_held(kind, first + 1, usize::MAX));
        }
    }

    #[test]
    fn settings_may_not_run_past_their_fields() {
        let fit =
            |integer: u16, flag: u16| Kinds::of(1, Firsts { integer, flag }).fit_their_fields();
        assert!(fit(0, 0));
        assert!(fit(0xF9C, 0xFED4));
        assert!(!fit(0xF9D, 0));
        assert!(!fit(0, 0xFED5));
        assert!(!fit(0xFFFF, 0xFFFF));
    }

    #[test]
    fn runs_stand_in_their_area() {
        let Kinds { points, columns, integers, flags } = kinds();
        let place = |kind: Kind, start: usize, count: usize| Run { kind, start, count }.place();
        assert_eq!(place(points, 1, 2), 0..80);
        assert_eq!(place(points, 16, 1), 600..640);
        assert_eq!(place(columns, 300, 4), 0..4);
        assert_eq!(place(columns, 999, 1), 699..700);
        assert_eq!(place(integers, 200, 100), 0..400);
        assert_eq!(place(integers, 299, 1), 396..400);
        assert_eq!(place(flags, 600, 1), 0..1);
        assert_eq!(place(flags, 899, 1), 299..300);
    }

    #[test]
    fn entries_are_told_apart_by_their_tags() {
        let kinds = kinds();
        assert_eq!(kinds.all().map(|kind| kind.tag), [0x50, 0x53, 0x49, 0x46]);
        assert_eq!(kinds.with_tag(0x49), Some(kinds.integers));
        assert_eq!(kinds.with_tag(0x47), None);
        assert_eq!(kinds.all().map(|kind| kind.bytes()), [20_000, 700, 400, 300]);
    }

    #[test]
    fn patterns_list_their_axes_lowest_first() {
        // 000, "General Rules" 1.2 (3): axes 1, 2 and 4 are 0B.
        assert_eq!(axes_of(0x0B).collect::<Vec<usize>>(), [0, 1, 3]);
        assert_eq!(axes_of(0).count(), 0);
        assert_eq!(axes_of(0xFF).count(), 8);
    }

    #[test]
    fn a_slot_holds_its_fields_high_byte_first() {
        let point = Point {
            pattern: 0x81,
            acceleration: 0x0102,
            deceleration: 0x0304,
            speed: 0x0506,
            positions: [1, 0, 0, 0, 0, 0, 0, -2],
        };
        let mut slot = vec![0x81, 0, 1, 2, 3, 4, 5, 6, 0, 0, 0, 1];
        slot.extend([0; 24]);
        slot.extend([0xFF, 0xFF, 0xFF, 0xFE]);
        assert_eq!(point.to_slot(), slot);
        assert_eq!(Point::from_slot(&slot), point);
        slot[1] = 0xEE;
        assert_eq!(Point::from_slot(&slot), point);
    }

    #[test]
    fn records_are_eight_of_nine_bytes_within_their_limits() {
        let mut bytes = vec![0; 72];
        bytes[63..].copy_from_slice(&[0xFF, 15, 0x0F, 0xFF, 0xFE, 0x80, 0, 0, 0]);
        let last = Axis { status: 255, sensor: 15, error: 4_095, encoder: 254, position: i32::MIN };
        assert_eq!(records(&bytes).map(|records| records[7]), Some(last));
        assert_eq!(records(&bytes[..71]), None);
        assert_eq!(records(&[bytes.as_slice(), &[0]].concat()), None);
        let with = |at: usize, byte: u8| {
            let mut bytes = bytes.clone();
            bytes[at] = byte;
            records(&bytes)
        };
        assert_eq!(with(1, 16), None);
        assert_eq!(with(64, 16), None);
        assert_eq!(with(2, 0x10), None);
        assert!(with(2, 0x0F).is_some());
    }
}
