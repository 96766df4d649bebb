//! What a frame asks, and the refusals 101 to 108 in their order (document 01, "Each message" and
//! "Refusal numbers"; document 02, a and l; layouts of commands from document 000, 4-3-2 to 4-3-30).

use crate::areas::{axes_of, Kind, Kinds, Point, Run, AXES};
use crate::digits::{capitals, Fields, Rule};
use crate::frames;

/// What the content of a command asks, its layout being right. A query and a change are of the bytes
/// of a run, of integers (20EH, 24CH) or of columns (210H, 24EH).
#[derive(Clone, Debug, PartialEq, Eq)]
pub enum Asked {
    TestCall { text: Vec<u8> },
    PointCount,
    PointList { run: Run },
    FlagQuery { program: u32, run: Run },
    Query { program: u32, run: Run },
    AxisStatus { pattern: u8 },
    PointWrite { run: Run, points: Vec<Point> },
    PointClear { run: Run },
    FlagChange { program: u32, run: Run, change: u8 },
    Change { program: u32, run: Run, bytes: Vec<u8> },
}

/// Reads a frame that passed the tests without a reply: its message ID in capitals, and what it asks;
/// Err is the refusal, the earliest that holds.
pub(crate) fn ask(
    frame: &[u8],
    kinds: &Kinds,
    fitted: u8,
    rule: Rule,
) -> Result<(Vec<u8>, Asked), u16> {
    let (id, content) = frames::id_and_content(frame);
    let id = capitals(id, rule).ok_or(101u16)?;
    let layout = layout_of(&id).ok_or(101u16)?;
    let content = match id.as_slice() {
        // Ten bytes of any kind, which stay as sent.
        b"200" => content.to_vec(),
        _ => capitals(content, rule).ok_or(102u16)?,
    };
    let asked = layout(&content, kinds).ok_or(103u16)?;
    if asked.program().is_some_and(|program| program != 0) {
        return Err(104);
    }
    if asked.run().is_some_and(|run| run.count == 0) {
        return Err(105);
    }
    if asked.run().is_some_and(|run| !run.is_held()) {
        return Err(106);
    }
    if asked.patterns().any(|pattern| pattern == 0 || pattern & !fitted != 0) {
        return Err(107);
    }
    // 4-3-27 lists 0 (OFF) and 1 (ON); the other bits are reserved.
    if matches!(asked, Asked::FlagChange { change, .. } if change > 1) {
        return Err(108);
    }
    Ok((id, asked))
}

/// Reads the content of one message; None when its length isn't this message's.
type Layout = fn(&[u8], &Kinds) -> Option<Asked>;

/// The layout of a known message, its ID in capitals; any other ID is an unknown message.
fn layout_of(id: &[u8]) -> Option<Layout> {
    match id {
        b"200" => Some(|content, _| Some(test_call(content))),
        b"208" => Some(|content, _| point_count(content)),
        b"209" => Some(|content, kinds| point_list(content, kinds.points)),
        b"20D" => Some(|content, kinds| flag_query(content, kinds.flags)),
        b"20E" => Some(|content, kinds| query(content, kinds.integers)),
        b"210" => Some(|content, kinds| query(content, kinds.columns)),
        b"212" => Some(|content, _| axis_status(content)),
        b"244" => Some(|content, kinds| point_write(content, kinds.points)),
        b"246" => Some(|content, kinds| point_clear(content, kinds.points)),
        b"24B" => Some(|content, kinds| flag_change(content, kinds.flags)),
        b"24C" => Some(|content, kinds| change(content, kinds.integers)),
        b"24E" => Some(|content, kinds| change(content, kinds.columns)),
        _ => None,
    }
}

/// 4-3-2: an arbitrary string, digits or not; test 6 has seen that it is ten bytes (document 02, c).
fn test_call(content: &[u8]) -> Asked {
    Asked::TestCall { text: content.to_vec() }
}

/// 4-3-4: no content.
fn point_count(content: &[u8]) -> Option<Asked> {
    content.is_empty().then_some(Asked::PointCount)
}

/// 4-3-5: head number 3 digits, number of records 3.
fn point_list(content: &[u8], points: Kind) -> Option<Asked> {
    Some(Asked::PointList { run: points_named(content, points)? })
}

/// 4-3-25: the same fields.
fn point_clear(content: &[u8], points: Kind) -> Option<Asked> {
    Some(Asked::PointClear { run: points_named(content, points)? })
}

fn points_named(content: &[u8], points: Kind) -> Option<Run> {
    let mut fields = Fields::of(content);
    let run = take_run(&mut fields, points, 3, 3)?;
    fields.end()?;
    Some(run)
}

/// 4-3-8: program number 2 digits, start 4, count 4. The start may be any held flag.
fn flag_query(content: &[u8], flags: Kind) -> Option<Asked> {
    let mut fields = Fields::of(content);
    let program = fields.take(2)?;
    let run = take_run(&mut fields, flags, 4, 4)?;
    fields.end()?;
    Some(Asked::FlagQuery { program, run })
}

/// 4-3-9 and 4-3-11: program number 2 digits, start 3, count 2.
fn query(content: &[u8], kind: Kind) -> Option<Asked> {
    let mut fields = Fields::of(content);
    let program = fields.take(2)?;
    let run = take_run(&mut fields, kind, 3, 2)?;
    fields.end()?;
    Some(Asked::Query { program, run })
}

/// 4-3-12: axis pattern 2 digits.
fn axis_status(content: &[u8]) -> Option<Asked> {
    let mut fields = Fields::of(content);
    let pattern = fields.take(2)? as u8;
    fields.end()?;
    Some(Asked::AxisStatus { pattern })
}

/// 4-3-23: start 3 digits, count 3, then exactly count points.
fn point_write(content: &[u8], points: Kind) -> Option<Asked> {
    let mut fields = Fields::of(content);
    let run = take_run(&mut fields, points, 3, 3)?;
    let mut points = Vec::new();
    for _ in 0..run.count {
        points.push(take_point(&mut fields)?);
    }
    fields.end()?;
    Some(Asked::PointWrite { run, points })
}

/// 4-3-27: program number 2 digits, flag number 4, change type 1.
fn flag_change(content: &[u8], flags: Kind) -> Option<Asked> {
    let mut fields = Fields::of(content);
    let program = fields.take(2)?;
    let run = Run { kind: flags, start: fields.take(4)? as usize, count: 1 };
    let change = fields.take(1)? as u8;
    fields.end()?;
    Some(Asked::FlagChange { program, run, change })
}

/// 4-3-28 and 4-3-30: program number 2 digits, start 3, count 2, then two digits for each byte,
/// high byte first: eight for an integer, two for a column.
fn change(content: &[u8], kind: Kind) -> Option<Asked> {
    let mut fields = Fields::of(content);
    let program = fields.take(2)?;
    let run = take_run(&mut fields, kind, 3, 2)?;
    let mut bytes = Vec::new();
    for _ in 0..kind.unit * run.count {
        bytes.push(fields.take(2)? as u8);
    }
    fields.end()?;
    Some(Asked::Change { program, run, bytes })
}

/// A start number and a count of so many digits.
fn take_run(fields: &mut Fields, kind: Kind, start: usize, count: usize) -> Option<Run> {
    let start = fields.take(start)? as usize;
    let count = fields.take(count)? as usize;
    Some(Run { kind, start, count })
}

/// One point; its own pattern says how many positions follow, and those of absent axes are 0.
fn take_point(fields: &mut Fields) -> Option<Point> {
    let pattern = fields.take(2)? as u8;
    let mut point = Point {
        pattern,
        acceleration: fields.take(4)? as u16,
        deceleration: fields.take(4)? as u16,
        speed: fields.take(4)? as u16,
        positions: [0; AXES],
    };
    for axis in axes_of(pattern) {
        // Two's complement: the same 32 bits with a sign.
        point.positions[axis] = fields.take(8)? as i32;
    }
    Some(point)
}

impl Asked {
    /// The program number, in the six messages that have one.
    fn program(&self) -> Option<u32> {
        match self {
            Asked::FlagQuery { program, .. }
            | Asked::Query { program, .. }
            | Asked::FlagChange { program, .. }
            | Asked::Change { program, .. } => Some(*program),
            _ => None,
        }
    }

    /// The numbers named, in the nine messages that name some.
    pub(crate) fn run(&self) -> Option<Run> {
        match self {
            Asked::PointList { run }
            | Asked::FlagQuery { run, .. }
            | Asked::Query { run, .. }
            | Asked::PointWrite { run, .. }
            | Asked::PointClear { run }
            | Asked::FlagChange { run, .. }
            | Asked::Change { run, .. } => Some(*run),
            Asked::TestCall { .. } | Asked::PointCount | Asked::AxisStatus { .. } => None,
        }
    }

    /// The patterns to be stored; a pattern only asked for, as in 212H, may be any.
    fn patterns(&self) -> impl Iterator<Item = u8> + '_ {
        let points = match self {
            Asked::PointWrite { points, .. } => points.as_slice(),
            _ => &[],
        };
        points.iter().map(|point| point.pattern)
    }
}

#[cfg(test)]
mod tests {
    use super::*;
    use crate::areas::Firsts;

    /// 500 points, integers 200 to 299 (0C8H to 12BH), flags 600 to 899 (0258H to 0383H).
    fn kinds() -> Kinds {
        Kinds::of(500, Firsts { integer: 200, flag: 600 })
    }

    /// What ID and content ask of such a board with axes 1 to 4 fitted.
    fn asked(id_and_content: &str) -> Result<Asked, u16> {
        asked_under(Rule::CapitalsOnly, id_and_content).map(|(_, asked)| asked)
    }

    fn asked_under(rule: Rule, id_and_content: &str) -> Result<(Vec<u8>, Asked), u16> {
        let frame = ["!99", id_and_content, "@@\r\n"].concat();
        ask(frame.as_bytes(), &kinds(), 0x0F, rule)
    }

    fn refusal(id_and_content: &str) -> Option<u16> {
        asked(id_and_content).err()
    }

    fn run(kind: Kind, start: usize, count: usize) -> Run {
        Run { kind, start, count }
    }

    #[test]
    fn the_messages_are_read() {
        let Kinds { points, columns, integers, flags } = kinds();
        assert_eq!(asked("200any bytes!"), Ok(Asked::TestCall { text: b"any bytes!".to_vec() }));
        assert_eq!(asked("208"), Ok(Asked::PointCount));
        assert_eq!(asked("209010005"), Ok(Asked::PointList { run: run(points, 16, 5) }));
        let query = Asked::FlagQuery { program: 0, run: run(flags, 601, 299) };
        assert_eq!(asked("20D000259012B"), Ok(query));
        let query = Asked::Query { program: 0, run: run(integers, 200, 100) };
        assert_eq!(asked("20E000C864"), Ok(query));
        let query = Asked::Query { program: 0, run: run(columns, 300, 4) };
        assert_eq!(asked("2100012C04"), Ok(query));
        assert_eq!(asked("212C3"), Ok(Asked::AxisStatus { pattern: 0xC3 }));
        assert_eq!(asked("2460011F4"), Ok(Asked::PointClear { run: run(points, 1, 500) }));
        let change = Asked::FlagChange { program: 0, run: run(flags, 899, 1), change: 1 };
        assert_eq!(asked("24B0003831"), Ok(change));
        let bytes = vec![0x80, 0, 0, 0x47, 0x01, 0x23, 0x45, 0x67];
        let change = Asked::Change { program: 0, run: run(integers, 298, 2), bytes };
        assert_eq!(asked("24C0012A028000004701234567"), Ok(change));
        let bytes = vec![0x00, 0x47];
        let change = Asked::Change { program: 0, run: run(columns, 998, 2), bytes };
        assert_eq!(asked("24E003E6020047"), Ok(change));
    }

    #[test]
    fn each_point_has_the_length_of_its_own_pattern() {
        let first = "01001E001F006480000000";
        let second = "0A000100020003FFFFFFFF00000001";
        let Ok(Asked::PointWrite { points, .. }) = asked(&["244002002", first, second].concat())
        else {
            panic!("not read as a point write");
        };
        assert_eq!(points.len(), 2);
        assert_eq!(points[0].positions, [i32::MIN, 0, 0, 0, 0, 0, 0, 0]);
        assert_eq!(
            (points[0].acceleration, points[0].deceleration, points[0].speed),
            (30, 31, 100)
        );
        assert_eq!(points[1].pattern, 0x0A);
        assert_eq!(points[1].positions, [0, -1, 0, 1, 0, 0, 0, 0]);
        assert_eq!((points[1].acceleration, points[1].deceleration, points[1].speed), (1, 2, 3));
        // Lengths that only the first point's pattern would make right.
        let wrong = ["244002002", first, &second[..22]].concat();
        assert_eq!(refusal(&wrong), Some(103));
    }

    #[test]
    fn other_ids_are_unknown_whatever_follows() {
        for id in ["299", "201", "245", "24e", "24b", "2  ", "000", "20A", "20C", "24D", "\r\n2"] {
            assert_eq!(refusal(id), Some(101));
            assert_eq!(refusal(&[id, "xyz"].concat()), Some(101));
        }
    }

    #[test]
    fn small_letters_ask_the_same_under_release_2() {
        for text in ["20D000259012B", "20E000C864", "2100012C04", "212C3", "24E003E6020A4F"] {
            let small = text.to_ascii_lowercase();
            let [of_capitals, of_small] =
                [text, &small].map(|text| asked_under(Rule::SmallToo, text));
            assert_eq!(
                of_capitals.as_ref().map(|(id, _)| id.as_slice()),
                Ok(&text.as_bytes()[..3])
            );
            assert_eq!(of_small, of_capitals, "{text}");
            assert_eq!(of_capitals.map(|(_, asked)| asked), asked(text));
        }
        assert_eq!(refusal("24e003E6020A4F"), Some(101));
        assert_eq!(refusal("24E003e6020A4F"), Some(102));
        // The ten bytes of a test call stay as sent.
        let text = Asked::TestCall { text: b"abcdefABCD".to_vec() };
        assert_eq!(asked_under(Rule::SmallToo, "200abcdefABCD"), Ok((b"200".to_vec(), text)));
    }

    #[test]
    fn content_bytes_must_be_digits_before_all_else() {
        let wrong = [
            "208x",
            "20900100a",
            "20D01FFFF000g",
            "20E0107c00",
            "2100112c04",
            "212 1",
            "24400x",
            "246000 00",
            "24B010000g",
            "24C01FFF00:",
            "24E0112B0141 ",
        ];
        for frame in wrong {
            assert_eq!(refusal(frame), Some(102), "{frame}");
        }
    }

    #[test]
    fn contents_have_their_messages_length() {
        let wrong = [
            "2080",
            "209",
            "20900100",
            "2090010050",
            "20D",
            "20D000258001",
            "20D00025800010",
            "20E",
            "20E000C80",
            "20E000C8010",
            "210",
            "2100012C0",
            "2100012C040",
            "212",
            "2121",
            "212011",
            "244",
            "24400100",
            "2440010010",
            "246",
            "24600100",
            "2460010010",
            "24B",
            "24B000258",
            "24B00025801",
            "24C",
            "24C000C80",
            "24C000C801",
            "24C000C8010000000",
            "24C000C801000000000",
            "24C000C80200000000",
            "24C000C80000000000",
            "24E",
            "24E0012C0",
            "24E0012C02004",
            "24E0012C020",
            "24E0012C0200",
            "24E0012C02000000",
            "24E0012C0000",
        ];
        for frame in wrong {
            assert_eq!(refusal(frame), Some(103), "{frame}");
        }
    }

    #[test]
    fn a_point_write_has_exactly_count_points() {
        let point = "01001E001E006400000000";
        assert_eq!(refusal(&["244001001", point].concat()), None);
        assert_eq!(refusal(&["244001002", point].concat()), Some(103));
        assert_eq!(refusal(&["244001001", point, "0"].concat()), Some(103));
        assert_eq!(refusal(&["244001001", point, point].concat()), Some(103));
        assert_eq!(refusal(&["244001001", &point[1..]].concat()), Some(103));
        assert_eq!(refusal(&["244001000", point].concat()), Some(103));
        assert_eq!(refusal(&["244FFFFFF", point].concat()), Some(103));
        assert_eq!(refusal("244001000"), Some(105));
        assert_eq!(refusal("244000000"), Some(105));
    }

    #[test]
    fn programs_counts_and_numbers() {
        assert_eq!(refusal("2100112C00"), Some(104));
        assert_eq!(refusal("24E0112C00"), Some(104));
        for frame in ["20D0102580000", "20E010C800", "24B0102582", "24C010C800"] {
            assert_eq!(refusal(frame), Some(104), "{frame}");
        }
        for frame in ["209001000", "2100000000", "246FFF000", "24E0000000", "209000000"] {
            assert_eq!(refusal(frame), Some(105), "{frame}");
        }
        for frame in ["20D0000000000", "20D00FFFF0000", "20E0000000", "20E00FFF00", "24C00FFF00"] {
            assert_eq!(refusal(frame), Some(105), "{frame}");
        }
        for frame in ["209000001", "2091F5001", "2091F4002", "209FFFFFF", "246000001", "2460011F5"]
        {
            assert_eq!(refusal(frame), Some(106), "{frame}");
        }
        for frame in ["2100012B01", "210003E801", "210003E702", "24E0012B0100", "24E003E7020000"] {
            assert_eq!(refusal(frame), Some(106), "{frame}");
        }
        for frame in ["20E000C701", "20E0012B02", "20E0012C01", "20E000C865", "20E000C8FF"] {
            assert_eq!(refusal(frame), Some(106), "{frame}");
        }
        for frame in ["24C000C70100000000", "24C0012C0100000000", "24C0012B020000000000000000"] {
            assert_eq!(refusal(frame), Some(106), "{frame}");
        }
        for frame in ["20D0002570001", "20D0003840001", "20D0003830002", "20D000258012D"] {
            assert_eq!(refusal(frame), Some(106), "{frame}");
        }
        for frame in ["20D000258FFFF", "20D00FFFFFFFF", "24B0002570", "24B0003841"] {
            assert_eq!(refusal(frame), Some(106), "{frame}");
        }
        for frame in ["20D000258012C", "20D0003830001", "20E0012B01", "24B0002580", "24B0003830"] {
            assert_eq!(refusal(frame), None, "{frame}");
        }
        assert_eq!(refusal("2091F4001"), None);
        assert_eq!(refusal("210003E701"), None);
    }

    #[test]
    fn stored_patterns_are_fitted_and_not_00() {
        let none = "00001E001E0064";
        let fifth = "10001E001E006400000000";
        let good = "01001E001E006400000000";
        assert_eq!(refusal(&["244001001", none].concat()), Some(107));
        assert_eq!(refusal(&["244001001", fifth].concat()), Some(107));
        assert_eq!(refusal(&["244001003", good, good, fifth].concat()), Some(107));
        assert_eq!(refusal(&["244001003", good, none, good].concat()), Some(107));
        assert_eq!(refusal(&["2441F4002", good, none].concat()), Some(106));
        // Asking for an unfitted axis, or for none, is no fault.
        assert_eq!(refusal("21210"), None);
        assert_eq!(refusal("21200"), None);
    }

    #[test]
    fn a_flag_is_changed_to_0_or_1() {
        for digit in "23456789ABCDEF".chars() {
            assert_eq!(refusal(&format!("24B000258{digit}")), Some(108), "{digit}");
            assert_eq!(refusal(&format!("24B000257{digit}")), Some(106), "{digit}");
            assert_eq!(refusal(&format!("24B010258{digit}")), Some(104), "{digit}");
        }
        assert_eq!(refusal("24B0002580"), None);
        assert_eq!(refusal("24B0002581"), None);
    }
}
