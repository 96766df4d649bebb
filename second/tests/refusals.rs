//! Each refusal number, and that the earliest whose condition holds is given (document 01,
//! "Refusal numbers, in the order tested").

use second::areas::{Firsts, Settings};
use second::bench::{Bench, SETTINGS};
use second::frames::{closed, error_reply};
use second::link::{answer, step_back};
use second::{Board, Outcome};

/// All that is handed to one call.
#[derive(Clone, Debug, PartialEq)]
struct Call {
    frame: Vec<u8>,
    board: Board,
    axes: Vec<u8>,
    settings: Settings,
    reply: Vec<u8>,
}

impl Call {
    /// A good call on a board with two points and one entry in the journal.
    fn good(id_and_content: &str) -> Call {
        let mut bench = Bench::fresh(2, 580);
        assert_eq!(bench.ask("24E0012C0141").0, 0);
        Call {
            frame: frame(b"!99", id_and_content),
            board: bench.board,
            axes: vec![0; 72],
            settings: Settings { fitted: 0x0F, ..SETTINGS },
            reply: vec![0xEE; 1_024],
        }
    }

    /// Makes the call and checks what any refused one leaves.
    fn refused(&self) -> u16 {
        let mut after = self.clone();
        let outcome = after.make();
        let mut expected = self.clone();
        if outcome.number >= 100 {
            let error = error_reply(self.settings.station, outcome.number);
            expected.reply[..10].copy_from_slice(&error);
            assert_eq!(outcome.reply_length, 10);
        } else {
            assert_eq!(outcome.reply_length, 0);
        }
        assert_ne!(outcome.number, 0);
        assert_eq!(after, expected);
        outcome.number
    }

    fn make(&mut self) -> Outcome {
        let Call { frame, board, axes, settings, reply } = self;
        answer(frame, board, axes, *settings, reply)
    }
}

/// A frame with a true SC.
fn frame(header_and_station: &[u8], id_and_content: &str) -> Vec<u8> {
    closed([header_and_station, id_and_content.as_bytes()].concat())
}

/// The number of a good call after one change.
fn after(change: impl Fn(&mut Call)) -> u16 {
    let mut call = Call::good("208");
    change(&mut call);
    call.refused()
}

#[test]
fn number_1_short_reply_areas() {
    assert_eq!(after(|call| call.reply.truncate(1_023)), 1);
    assert_eq!(after(|call| call.reply.clear()), 1);
    let mut longer = Call::good("208");
    longer.reply.resize(5_000, 0xEE);
    assert_eq!(longer.make().number, 0);
}

#[test]
fn number_2_points_areas() {
    for length in [0, 1, 39, 41, 79, 81, 60_040, 100_000] {
        assert_eq!(after(|call| call.board.points.resize(length, 0)), 2, "{length}");
    }
}

#[test]
fn number_3_columns_areas() {
    for length in [0, 699, 701] {
        assert_eq!(after(|call| call.board.columns.resize(length, 0)), 3, "{length}");
    }
}

#[test]
fn number_4_journals() {
    for length in [0, 5, 6, 380, 579, 65_537] {
        assert_eq!(after(|call| call.board.journal.resize(length, 0)), 4, "{length}");
    }
    for used in [1, 5, 7, 12, 580, 581, usize::MAX] {
        assert_eq!(after(|call| call.board.used = used), 4, "{used}");
    }
    // Tag, length, start number of the entry 53 00 03 01 2C 00.
    for (at, byte) in [(0, 0x54), (0, 0x50), (1, 1), (2, 2), (2, 4), (3, 4), (4, 0x2B)] {
        assert_eq!(after(|call| call.board.journal[at] = byte), 4, "{at} {byte}");
    }
    let mut call = Call::good("208");
    call.board.journal[5] = 0x99; // an old byte may be any
    call.board.journal[6..].fill(0xEE); // and so may bytes beyond the used length
    let board = call.board.clone();
    assert_eq!(call.make().number, 0);
    assert_eq!(call.board, board);
}

#[test]
fn number_5_axis_records_and_fitted_axes() {
    for length in [0, 71, 73, 144] {
        assert_eq!(after(|call| call.axes.resize(length, 0)), 5, "{length}");
    }
    for axis in 0..8 {
        assert_eq!(after(|call| call.axes[9 * axis + 1] = 16), 5, "sensor of {axis}");
        assert_eq!(after(|call| call.axes[9 * axis + 2] = 16), 5, "error code of {axis}");
    }
    assert_eq!(after(|call| call.settings.fitted = 0), 5);
    let mut call = Call::good("208");
    for record in call.axes.chunks_mut(9) {
        record.copy_from_slice(&[255, 15, 0x0F, 0xFF, 255, 255, 255, 255, 255]);
    }
    assert_eq!(call.make().number, 0);
}

#[test]
fn number_6_frames() {
    let with = |bytes: &[u8]| after(|call| call.frame = bytes.to_vec());
    assert_eq!(with(b""), 6);
    assert_eq!(with(b"!"), 6);
    assert_eq!(with(b"\r\n"), 6);
    assert_eq!(with(b"!99208@\r\n"), 6);
    assert_eq!(with(b"#99208@@\r\n"), 6);
    assert_eq!(with(b" !99208@@\r\n"), 6);
    assert_eq!(with(b"!99208@@\r\n\r"), 6);
    assert_eq!(with(b"!99208@@\n\r"), 6);
    assert_eq!(with(b"!99208@@\r"), 6);
    assert_eq!(with(&frame(b"!99", &"0".repeat(1_017))), 6);
    assert_eq!(with(&vec![b'!'; 100_000]), 6);
}

/// A 200H of `length` bytes with these station bytes and a true SC.
fn test_call_of(length: usize, station: &str) -> Vec<u8> {
    frame(&[b"!", station.as_bytes()].concat(), &["200", &"0".repeat(length - 10)].concat())
}

#[test]
fn number_6_test_calls_of_another_length() {
    for station in ["99", "98", "9G", "@@", "\r\n"] {
        for length in (10..=1_023).filter(|&length| length != 20) {
            let good = test_call_of(length, station);
            assert_eq!(good.len(), length);
            for sc in [&good[length - 4..length - 2], b"@@", b"00"] {
                let frame = [&good[..length - 4], sc, b"\r\n"].concat();
                let given = after(|call| call.frame = frame.clone());
                assert_eq!(given, 6, "{length} bytes, station {station:?}, SC {sc:?}");
            }
        }
    }
    // Of 20 bytes it has the right shape, and the sum test and test 8 look at it.
    let with = |frame: Vec<u8>| {
        let mut call = Call::good("208");
        call.frame = frame;
        call.make().number
    };
    assert_eq!(with(test_call_of(20, "99")), 0);
    for station in ["98", "9G", "@@", "\r\n"] {
        assert_eq!(with(test_call_of(20, station)), 8, "{station:?}");
    }
    assert_eq!(with(b"!992000000000000  \r\n".to_vec()), 7);
    // Line ends among the bytes don't change the length that is asked for.
    assert_eq!(with(frame(b"!99", "200\r\n\r\n\r\n\r\n\r\n")), 0);
    assert_eq!(with(frame(b"!99", "200\r\n\r\n\r\n\r\n\r\n0")), 6);
    assert_eq!(with(frame(b"!99", "200\r\n\r\n\r\n\r\n\r")), 6);
}

#[test]
fn number_6_of_a_test_call_comes_before_7_and_8_and_after_5() {
    let mut call = Call::good("208");
    call.frame = b"!9820000000000000  \r\n".to_vec();
    assert_eq!((call.frame.len(), call.refused()), (21, 6));
    call.settings.fitted = 0;
    assert_eq!(call.refused(), 5);
}

#[test]
fn a_frame_of_1023_bytes_has_the_right_shape() {
    let frame = frame(b"!99", &"2".repeat(1_016));
    assert_eq!(frame.len(), 1_023);
    assert_eq!(after(|call| call.frame = frame.clone()), 101);
}

#[test]
fn number_7_sums() {
    // 21+39+39+32+30+38 (hexadecimal) is 12D.
    let with = |sc: &[u8]| after(|call| call.frame = [b"!99208", sc, b"\r\n"].concat());
    for sc in [b"2E", b"2d", b"@D", b"2@", b"00", b"D2", b" 2", b"\r\n"] {
        assert_eq!(with(sc), 7);
    }
    for sc in [b"2D", b"@@"] {
        let mut call = Call::good("208");
        call.frame = [b"!99208", &sc[..], b"\r\n"].concat();
        assert_eq!(call.make().number, 0);
    }
}

#[test]
fn number_8_stations() {
    for station in ["98", "00", "9G", "@@", " 9", "\r\n"] {
        let bytes = ["!", station].concat();
        assert_eq!(after(|call| call.frame = frame(bytes.as_bytes(), "208")), 8);
    }
    assert_eq!(after(|call| call.settings.station = 0x9A), 8);
    assert_eq!(after(|call| call.settings.station = 99), 8);
    let with = |station: u8, digits: &[u8]| {
        let mut call = Call::good("208");
        call.settings.station = station;
        call.frame = frame(&[b"!", digits].concat(), "208");
        call.make().number
    };
    assert_eq!(with(0xAF, b"AF"), 0);
    assert_eq!(with(0xAF, b"af"), 8);
    assert_eq!(with(0x00, b"00"), 0);
}

#[test]
fn number_9_step_back_without_entries() {
    let mut board = Board::fresh(2, 580);
    assert_eq!(step_back(&mut board, SETTINGS.firsts), 9);
    assert_eq!(board, Board::fresh(2, 580));
    board.journal.fill(0xEE);
    let before = board.clone();
    assert_eq!(step_back(&mut board, SETTINGS.firsts), 9);
    assert_eq!(board, before);
}

#[test]
fn number_10_new_areas_and_first_numbers() {
    for length in [0, 4, 300, 399, 401, 404] {
        assert_eq!(after(|call| call.board.integers.resize(length, 0)), 10, "{length}");
    }
    for length in [0, 38, 299, 301, 400] {
        assert_eq!(after(|call| call.board.flags.resize(length, 0)), 10, "{length}");
    }
    let with = |integer: u16, flag: u16| {
        let mut call = Call::good("208");
        call.settings.firsts = Firsts { integer, flag };
        call
    };
    // FFFH and FFFFH are the greatest numbers of three and four digits.
    for (integer, flag) in [(0xF9D, 600), (0xFFFF, 600), (200, 0xFED5), (200, 0xFFFF)] {
        let call = with(integer, flag);
        assert_eq!(call.refused(), 10, "{integer:X} {flag:X}");
        let mut board = call.board.clone();
        assert_eq!(step_back(&mut board, call.settings.firsts), 10);
        assert_eq!(board, call.board);
    }
    for (integer, flag) in [(0, 0), (0xF9C, 600), (200, 0xFED4), (0xF9C, 0xFED4)] {
        assert_eq!(with(integer, flag).make().number, 0, "{integer:X} {flag:X}");
    }
}

/// A good call on a board of two points, so many of them effective, with this count.
fn with_count(id_and_content: &str, slots: usize, effective: usize) -> Call {
    let mut call = Call::good(id_and_content);
    for slot in call.board.points.chunks_mut(40).take(slots) {
        slot[0] = 0x80;
    }
    call.board.effective = effective;
    call
}

/// Counts near those of two points, and some of which only the low bytes are.
const COUNTS: [usize; 12] =
    [0, 1, 2, 3, 4, 0x100, 0x102, 0x1_0001, 1 << 32, 1 << 32 | 2, 1 << 63, usize::MAX];

#[test]
fn number_11_counts_that_the_slots_have_not() {
    let point = "24400200101001E001E00640000C350";
    for slots in 0..=2 {
        for effective in COUNTS {
            for text in [point, "246001001", "246002001", "246001002"] {
                let mut call = with_count(text, slots, effective);
                if effective == slots {
                    assert_eq!(call.make().number, 0, "{text} {slots}");
                } else {
                    assert_eq!(call.refused(), 11, "{text} {slots} {effective}");
                }
            }
        }
    }
}

#[test]
fn number_11_whatever_the_content() {
    for (text, number) in [
        ("244", 103),
        ("244g", 102),
        ("24400100", 103),
        ("244001001", 103),
        ("244001000", 105),
        ("24400300101001E001E00640000C350", 106),
        ("24400100110001E001E00640000C350", 107),
        ("246", 103),
        ("24600100/", 102),
        ("246001000", 105),
        ("246003001", 106),
    ] {
        assert_eq!(with_count(text, 1, 1).refused(), number, "{text}");
        assert_eq!(with_count(text, 1, 2).refused(), 11, "{text}");
        assert_eq!(with_count(text, 0, usize::MAX).refused(), 11, "{text}");
    }
    for (text, number) in [("2080", 103), ("208g", 102)] {
        assert_eq!(with_count(text, 0, 2).refused(), number, "{text}");
        assert_eq!(with_count(text, 2, 3).refused(), 11, "{text}");
    }
}

#[test]
fn number_11_at_208_above_n_alone() {
    for slots in 0..=2 {
        for effective in COUNTS {
            let mut call = with_count("208", slots, effective);
            match effective <= 2 {
                true => assert_eq!(call.make().number, 0, "{slots} {effective}"),
                false => assert_eq!(call.refused(), 11, "{slots} {effective}"),
            }
        }
    }
}

#[test]
fn number_11_at_no_other_message() {
    for (text, number) in [
        ("2000123456789", 0),
        ("209001002", 0),
        ("20D0002580008", 0),
        ("20E000C801", 0),
        ("2100012C01", 0),
        ("212FF", 0),
        ("24B0002581", 0),
        ("24C000C80100000001", 0),
        ("24E0012C0142", 0),
        ("245001001", 101),
        ("2\r\n", 101),
        ("20F", 101),
        ("209003001", 106),
        ("24E0012C01", 103),
    ] {
        for (slots, effective) in [(0, 1), (2, 1), (1, 3), (0, usize::MAX)] {
            let mut call = with_count(text, slots, effective);
            assert_eq!(call.make().number, number, "{text} {slots} {effective}");
            assert_eq!(call.board.effective, effective, "{text}");
        }
    }
}

#[test]
fn number_11_in_each_release_with_either_sum() {
    for release in [1, 2] {
        for (sc, sum) in [("2D", 1), ("@@", 2)] {
            let mut call = with_count("208", 0, 3);
            call.settings.release = release;
            call.frame = ["!99208", sc, "\r\n"].concat().into_bytes();
            assert_eq!(call.refused(), 11);
            assert_eq!(call.make(), Outcome { number: 11, reply_length: 0, sum });
        }
    }
}

#[test]
fn number_12_marks_where_they_are_forbidden() {
    let with = |unchecked: u8, sc: &[u8]| {
        let mut call = Call::good("208");
        call.settings.unchecked = unchecked;
        call.frame = [b"!99208", sc, b"\r\n"].concat();
        call
    };
    assert_eq!(with(0, b"@@").refused(), 12);
    for sc in [b"2E", b"2d", b"@D", b"2@", b"00", b"D2", b" 2", b"\r\n"] {
        assert_eq!(with(0, sc).refused(), 7);
    }
    assert_eq!(with(0, b"2D").make().number, 0);
    for unchecked in 1..=255 {
        assert_eq!(with(unchecked, b"@@").make().number, 0, "{unchecked}");
    }
}

#[test]
fn number_13_releases() {
    for release in (0..=255).filter(|release| ![1, 2].contains(release)) {
        assert_eq!(after(|call| call.settings.release = release), 13, "{release}");
    }
    for release in [1, 2] {
        let mut call = Call::good("208");
        call.settings.release = release;
        assert_eq!(call.make().number, 0);
    }
}

#[test]
fn number_4_entries_of_integers_and_flags() {
    // Entries of integer 200 and of flag 600, each in the journal alone.
    let integer = [0x49, 0, 6, 0x00, 0xC8, 1, 2, 3, 4];
    let flag = [0x46, 0, 3, 0x02, 0x58, 0x30];
    let with = |entry: &[u8], firsts: Firsts| {
        let mut call = Call::good("208");
        call.board.journal.fill(0);
        call.board.journal[..entry.len()].copy_from_slice(entry);
        call.board.used = entry.len();
        call.settings.firsts = firsts;
        call.make().number
    };
    let bench = SETTINGS.firsts;
    assert_eq!(with(&integer, bench), 0);
    assert_eq!(with(&flag, bench), 0);
    // Tags of other kinds, parts of an integer, two flags, numbers not held.
    for (at, byte) in [(0, 0x53), (0, 0x46), (0, 0x4A), (2, 5), (2, 7), (4, 0xC7), (3, 0x01)] {
        let mut entry = integer;
        entry[at] = byte;
        assert_eq!(with(&entry, bench), 4, "{at} {byte:02X}");
    }
    for (at, byte) in [(0, 0x49), (0, 0x47), (2, 2), (2, 4), (4, 0x57), (3, 0x04)] {
        let mut entry = flag;
        entry[at] = byte;
        assert_eq!(with(&entry, bench), 4, "{at} {byte:02X}");
    }
    assert_eq!(with(&[0x46, 0, 4, 0x02, 0x58, 0, 0], bench), 4);
    // Other first numbers hold other numbers.
    for (firsts, of_integer, of_flag) in [
        (Firsts { integer: 101, flag: 301 }, 0, 0),
        (Firsts { integer: 100, flag: 300 }, 4, 4),
        (Firsts { integer: 201, flag: 600 }, 4, 0),
        (Firsts { integer: 200, flag: 601 }, 0, 4),
    ] {
        assert_eq!(with(&integer, firsts), of_integer, "{firsts:?}");
        assert_eq!(with(&flag, firsts), of_flag, "{firsts:?}");
    }
}

/// Tests 1 to 8 and 10 to 13, in their order; where the SC is wrong 12 doesn't hold.
const SILENT: [u16; 12] = [1, 2, 3, 10, 4, 5, 13, 6, 12, 7, 8, 11];

/// Those of some numbers whose bit is set, in their order.
fn chosen(numbers: &[u16], set: usize) -> Vec<u16> {
    let bits = numbers.iter().enumerate().filter(|(at, _)| set >> at & 1 == 1);
    bits.map(|(_, &number)| number).collect()
}

/// Breaks what test `number` looks at; the frame's parts come in `parts`: header, station, SC.
fn spoil(call: &mut Call, parts: &mut [&str; 3], number: u16) {
    match number {
        1 => call.reply.truncate(1_000),
        2 => call.board.points.push(0),
        3 => call.board.columns.clear(),
        10 => call.settings.firsts.flag = 0xFED5,
        4 => call.board.used = 1,
        5 => call.settings.fitted = 0,
        13 => call.settings.release = 3,
        6 => parts[0] = "?",
        12 => call.settings.unchecked = 0,
        7 => parts[2] = "  ",
        11 => call.board.effective = 3,
        _ => parts[1] = "9a",
    }
}

#[test]
fn among_1_to_8_and_10_to_13_the_earliest_is_given() {
    for set in 1..1 << SILENT.len() {
        let broken = chosen(&SILENT, set);
        let wrong = broken.contains(&7);
        // An unknown message besides: silent refusals come before the error replies, but 11 isn't of it.
        for (message, release) in
            [("208", 1), ("299", 1), ("208", 2), ("299", 2), ("246", 1), ("244", 2)]
        {
            let holds = |number: u16| match number {
                11 => message != "299",
                12 => !wrong,
                _ => true,
            };
            let earliest = broken.iter().copied().find(|&number| holds(number)).or(Some(101));
            let mut call = Call::good(message);
            call.settings.release = release;
            let mut parts = ["!", "99", "@@"];
            for &number in &broken {
                spoil(&mut call, &mut parts, number);
            }
            call.frame = [parts[0], parts[1], message, parts[2], "\r\n"].concat().into_bytes();
            assert_eq!(Some(call.refused()), earliest, "{broken:?}");
        }
    }
}

#[test]
fn step_back_tests_2_3_10_4_11_then_9() {
    for set in 0..64 {
        let broken = chosen(&[2, 3, 10, 4, 11, 9], set);
        let mut board = Call::good("208").board;
        for &number in broken.iter().rev() {
            match number {
                2 => board.points.clear(),
                3 => board.columns.push(0),
                10 => board.integers.push(0),
                4 => board.journal.resize(board.used, 0),
                11 => board.effective = 1,
                _ => board.used = 0,
            }
        }
        let before = board.clone();
        let number = step_back(&mut board, SETTINGS.firsts);
        assert_eq!(number, broken.first().copied().unwrap_or(0), "{broken:?}");
        assert_eq!(board == before, !broken.is_empty());
    }
}

/// One text where a number is among these, else another.
fn pick<'a>(broken: &[u16], number: u16, bad: &'a str, good: &'a str) -> &'a str {
    match broken.contains(&number) {
        true => bad,
        false => good,
    }
}

/// A 24EH command in which these of 101 to 106 hold, as far as none earlier hides them.
fn column_write(broken: &[u16]) -> String {
    let pick = |number, bad, good| pick(broken, number, bad, good);
    [
        pick(101, "24F", "24E"),
        pick(104, "01", "00"),
        pick(106, "3E7", "3E6"),
        pick(105, "00", "02"),
        pick(105, "", "3034"),
        pick(103, "0", ""),
        pick(102, "g0", ""),
    ]
    .concat()
}

/// A 24CH command of integers 298 and 299, likewise.
fn integer_change(broken: &[u16]) -> String {
    let pick = |number, bad, good| pick(broken, number, bad, good);
    [
        pick(101, "24D", "24C"),
        pick(104, "80", "00"),
        pick(106, "12B", "12A"),
        pick(105, "00", "02"),
        pick(105, "", "0000002F80000000"),
        pick(103, "0000000", ""),
        pick(102, "a", ""),
    ]
    .concat()
}

/// A 20EH command of all integers, likewise.
fn integer_query(broken: &[u16]) -> String {
    let pick = |number, bad, good| pick(broken, number, bad, good);
    [
        pick(101, "20F", "20E"),
        pick(104, "FF", "00"),
        pick(106, "0C7", "0C8"),
        pick(105, "00", "64"),
        pick(103, "00", ""),
        pick(102, "@", ""),
    ]
    .concat()
}

/// A 20DH command of all flags, likewise.
fn flag_query(broken: &[u16]) -> String {
    let pick = |number, bad, good| pick(broken, number, bad, good);
    [
        pick(101, "20C", "20D"),
        pick(104, "10", "00"),
        pick(106, "0259", "0258"),
        pick(105, "0000", "012C"),
        pick(103, "0", ""),
        pick(102, "/", ""),
    ]
    .concat()
}

/// A 24BH command in which these of 101 to 104, 106 and 108 hold, likewise.
fn flag_change(broken: &[u16]) -> String {
    let pick = |number, bad, good| pick(broken, number, bad, good);
    [
        pick(101, "24A", "24B"),
        pick(104, "01", "00"),
        pick(106, "0384", "0383"),
        pick(108, "2", "1"),
        pick(103, "1", ""),
        pick(102, ":", ""),
    ]
    .concat()
}

/// A 244H command in which these of 101, 102, 103, 105, 106 and 107 hold, likewise.
fn point_write(broken: &[u16]) -> String {
    let pick = |number, bad, good| pick(broken, number, bad, good);
    let second = pick(107, "10000000000000FFFFFFFF", "08000000000000FFFFFFFF");
    let points = ["01000000000000FFFFFFFF", second].concat();
    [
        pick(101, "245", "244"),
        pick(106, "002", "001"),
        pick(105, "000", "002"),
        pick(105, "", &points),
        pick(103, "0", ""),
        pick(102, "f", ""),
    ]
    .concat()
}

#[test]
fn among_101_to_108_the_earliest_is_given() {
    const OF_A_RUN: [u16; 6] = [101, 102, 103, 104, 105, 106];
    for (text, numbers) in [
        (column_write as fn(&[u16]) -> String, OF_A_RUN),
        (integer_change, OF_A_RUN),
        (integer_query, OF_A_RUN),
        (flag_query, OF_A_RUN),
        (flag_change, [101, 102, 103, 104, 106, 108]),
        (point_write, [101, 102, 103, 105, 106, 107]),
    ] {
        let good = text(&[]);
        assert_eq!(Call::good(&good).make().number, 0, "{good}");
        for set in 1..64 {
            let broken = chosen(&numbers, set);
            let text = text(&broken);
            assert_eq!(Call::good(&text).refused(), broken[0], "{text}");
        }
    }
}

#[test]
fn an_error_reply_depends_on_frame_settings_and_n_only() {
    let first = Call::good("2440010011000000000000000000000");
    let mut other = first.clone();
    other.board.points.fill(0x55);
    other.board.effective = 2;
    other.board.columns.fill(0x66);
    other.board.integers.fill(0x77);
    other.board.flags.fill(0x88);
    other.board.journal = vec![0; 65_536];
    other.board.used = 0;
    other.axes[0] = 0x77;
    assert_eq!(first.refused(), 107);
    assert_eq!(other.refused(), 107);
    // Whether '@@' is allowed says nothing of a frame with a true SC.
    other.settings.unchecked = 0;
    assert_eq!(other.refused(), 107);
    // Which numbers are held is a setting's: 300 is the last of integers from 201 on.
    let mut query = Call::good("20E0012C01");
    assert_eq!(query.refused(), 106);
    query.settings.firsts.integer = 201;
    assert_eq!(query.make().number, 0);
    // Whether a small letter is a digit is the release's: no digit, or one too many.
    let mut count = Call::good("208a");
    assert_eq!(count.refused(), 102);
    count.settings.release = 2;
    assert_eq!(count.refused(), 103);
}

#[test]
fn fixed_error_replies() {
    // Sums by hand: 26+39+39+31+30 is F9, the last digit's byte makes 12A to 131.
    let cases = [
        ("299", 101, "&991012A\r\n"),
        ("20800x", 102, "&991022B\r\n"),
        ("20800", 103, "&991032C\r\n"),
        ("2100112C01", 104, "&991042D\r\n"),
        ("246001000", 105, "&991052E\r\n"),
        ("246003001", 106, "&991062F\r\n"),
        ("24400100100000000000000", 107, "&9910730\r\n"),
        ("24B0002582", 108, "&9910831\r\n"),
    ];
    for (text, number, reply) in cases {
        let mut call = Call::good(text);
        let outcome = call.make();
        assert_eq!((outcome.number, outcome.reply_length), (number, 10), "{text}");
        assert_eq!(call.reply[..10], *reply.as_bytes());
        assert!(call.reply[10..].iter().all(|&byte| byte == 0xEE));
    }
}
