//! Frames: finding them, their sum, test 6, the sum test (7 and 12) and test 8 (document 01, "Finding a
//! frame" and "Frame"; document 02, c, f and l; document 000, sections 3 and 4-3-1).

use crate::digits::{self, Rule};
use std::ops::Range;

/// Longest frame the board receives (000, 4-3: "maximum receivable size ... 1023 bytes").
pub const LONGEST_FRAME: usize = 1_023;
/// Longest reply it sends (000, 4-3: "maximum transmittable size is 1024 bytes").
pub const LONGEST_REPLY: usize = 1_024;
/// Header, station, message ID, SC, CR and LF without any content.
pub const SHORTEST_FRAME: usize = 10;
/// A test call's frame: its ten bytes of content and these (document 02, c).
pub const TEST_CALL_FRAME: usize = SHORTEST_FRAME + 10;

const END: &[u8] = b"\r\n";
/// What stands for an SC that isn't checked.
const MARKS: &[u8] = b"@@";
/// Message ID of a test call.
const TEST_CALL: &[u8] = b"200";
/// Where the message ID stands in a frame.
const ID: Range<usize> = 3..6;

/// What the finder answers; `used` and `drop` count bytes from the front of the received ones.
#[derive(Clone, Copy, Debug, PartialEq, Eq)]
pub enum Found {
    /// A frame of `length` bytes stands at `start`; it ends where `used` ends.
    Frame { start: usize, length: usize, used: usize },
    /// No '!' that isn't skipped.
    Nothing { drop: usize },
    /// A '!' whose frame may still end.
    Wait { drop: usize },
    /// A '!' followed by too many bytes without CR LF.
    TooLong { drop: usize },
}

/// Finds the first frame (document 01, "Finding a frame in the received bytes", mended by document 02,
/// c): the first '!' that isn't skipped decides.
pub fn find(received: &[u8]) -> Found {
    let marks = (0..received.len()).filter(|&at| received[at] == b'!');
    for start in marks {
        match from_mark(&received[start..]) {
            FromMark::Frame { length } => {
                return Found::Frame { start, length, used: start + length };
            }
            FromMark::Wait => return Found::Wait { drop: start },
            // Only the '!' goes: a true frame may begin inside the overlong run.
            FromMark::TooLong => return Found::TooLong { drop: start + 1 },
            FromMark::Skip => {}
        }
    }
    Found::Nothing { drop: received.len() }
}

/// What one '!' and the bytes after it are.
enum FromMark {
    Frame { length: usize },
    Wait,
    TooLong,
    Skip,
}

fn from_mark(bytes: &[u8]) -> FromMark {
    match begins_test_call(bytes) {
        true => test_call_from(bytes),
        false => line_from(bytes),
    }
}

/// Whether '!', two bytes that aren't CR LF, and '200' stand first: all six must be there.
fn begins_test_call(bytes: &[u8]) -> bool {
    bytes.starts_with(b"!") && bytes.get(1..3) != Some(END) && bytes.get(ID) == Some(TEST_CALL)
}

/// A test call's frame is 20 bytes long, whatever stands among its ten (document 02, c).
fn test_call_from(bytes: &[u8]) -> FromMark {
    match bytes.get(..TEST_CALL_FRAME) {
        None => FromMark::Wait,
        Some(frame) if frame.ends_with(END) => FromMark::Frame { length: TEST_CALL_FRAME },
        Some(_) => FromMark::Skip,
    }
}

/// Any other frame ends at the first CR LF among the first 1,023 bytes (document 01).
fn line_from(bytes: &[u8]) -> FromMark {
    let looked_at = &bytes[..bytes.len().min(LONGEST_FRAME)];
    match looked_at.windows(END.len()).position(|pair| pair == END) {
        Some(pair) => FromMark::Frame { length: pair + END.len() },
        None if looked_at.len() == LONGEST_FRAME => FromMark::TooLong,
        None => FromMark::Wait,
    }
}

/// Sum of all bytes (000, section 3: "the total sum").
pub fn sum(bytes: &[u8]) -> u64 {
    bytes.iter().map(|&byte| u64::from(byte)).sum()
}

/// SC of the bytes before it: the low byte of their sum as two digits.
pub fn sc(before: &[u8]) -> Vec<u8> {
    let mut text = Vec::new();
    digits::push(&mut text, (sum(before) % 256) as u32, 2);
    text
}

/// Test 6: '!' first, CR LF last, 10 to 1,023 bytes, and 20 of a 200H (document 02, c).
pub fn has_shape(frame: &[u8]) -> bool {
    (SHORTEST_FRAME..=LONGEST_FRAME).contains(&frame.len())
        && frame.starts_with(b"!")
        && frame.ends_with(END)
        && (&frame[ID] != TEST_CALL || frame.len() == TEST_CALL_FRAME)
}

/// What the sum test says (document 02, f).
#[derive(Clone, Copy, Debug, PartialEq, Eq)]
pub enum Sum {
    /// The SC is true of the bytes as sent.
    True,
    /// '@@' stands for it.
    SwitchedOff,
    /// Anything else.
    Wrong,
}

/// The sum test, of a frame that passed 6. '@' is no digit, so '@@' is never true as well.
pub(crate) fn sum_test(frame: &[u8], rule: Rule) -> Sum {
    let (before, end) = frame.split_at(frame.len() - 4);
    match &end[..2] {
        MARKS => Sum::SwitchedOff,
        given if digits::capitals(given, rule) == Some(sc(before)) => Sum::True,
        _ => Sum::Wrong,
    }
}

/// Test 8, of a frame that passed 6: two digits with the value of the station.
pub(crate) fn has_station(frame: &[u8], station: u8, rule: Rule) -> bool {
    let given = digits::capitals(&frame[1..3], rule);
    given.and_then(|given| digits::number(&given)) == Some(u32::from(station))
}

/// Message ID and content of a frame that passed 6.
pub(crate) fn id_and_content(frame: &[u8]) -> (&[u8], &[u8]) {
    (&frame[ID], &frame[ID.end..frame.len() - 4])
}

/// Adds SC, CR and LF; every reply carries a true SC (document 01, "Frame").
pub fn closed(mut text: Vec<u8>) -> Vec<u8> {
    let sc = sc(&text);
    text.extend(sc);
    text.extend(END);
    text
}

/// Normal reply: '#', station, the command's message ID in capitals, content (000, section 3 (2)).
pub fn normal_reply(station: u8, id: &[u8], content: &[u8]) -> Vec<u8> {
    let mut text = vec![b'#'];
    digits::push(&mut text, u32::from(station), 2);
    text.extend(id);
    text.extend(content);
    closed(text)
}

/// Error reply, ten bytes (000, 4-3-1): 101 is written '101', as the bench listing shows.
pub fn error_reply(station: u8, number: u16) -> Vec<u8> {
    let mut text = vec![b'&'];
    digits::push(&mut text, u32::from(station), 2);
    text.extend(format!("{number:03}").bytes());
    closed(text)
}

#[cfg(test)]
mod tests {
    use super::*;

    #[test]
    fn sums_of_document_000() {
        // Section 3, and "General Rules" 1.3.
        assert_eq!(sum(b"!99209001005"), 0x254);
        assert_eq!(sc(b"!99209001005"), b"54");
        assert_eq!(sum(b"!99209000032"), 0x253);
        assert_eq!(sc(b"!99209000032"), b"53");
    }

    #[test]
    fn sc_is_the_low_byte_as_two_digits() {
        assert_eq!(sc(b""), b"00");
        assert_eq!(sc(&[0x05]), b"05");
        assert_eq!(sc(&[0xFF, 0x01]), b"00");
        assert_eq!(sc(&[0xFF, 0xFF]), b"FE");
    }

    #[test]
    fn finder_skips_to_the_first_mark() {
        assert_eq!(find(b""), Found::Nothing { drop: 0 });
        assert_eq!(find(b"#99\r\n"), Found::Nothing { drop: 5 });
        assert_eq!(find(b"!"), Found::Wait { drop: 0 });
        assert_eq!(find(b"\r\n!99\r"), Found::Wait { drop: 2 });
        assert_eq!(find(b"!\r\n"), Found::Frame { start: 0, length: 3, used: 3 });
        assert_eq!(find(b"ab!9!9\r\n!\r\n"), Found::Frame { start: 2, length: 6, used: 8 });
        assert_eq!(find(b"!\n\r\r\n"), Found::Frame { start: 0, length: 5, used: 5 });
    }

    #[test]
    fn finder_looks_at_1023_bytes_and_no_more() {
        let run = |spaces: usize, end: &[u8]| [b"xy!", vec![b' '; spaces].as_slice(), end].concat();
        assert_eq!(find(&run(1_021, b"")), Found::Wait { drop: 2 });
        assert_eq!(find(&run(1_022, b"")), Found::TooLong { drop: 3 });
        assert_eq!(
            find(&run(1_020, b"\r\n")),
            Found::Frame { start: 2, length: 1_023, used: 1_025 }
        );
        // The pair must stand inside the 1,023 bytes whole.
        assert_eq!(find(&run(1_021, b"\r")), Found::TooLong { drop: 3 });
        assert_eq!(find(&run(1_021, b"\r\n")), Found::TooLong { drop: 3 });
    }

    #[test]
    fn finder_takes_a_test_call_by_its_length() {
        let frame = |start: usize| Found::Frame { start, length: 20, used: start + 20 };
        assert_eq!(find(b"!99200\r\n\r\n\r\n\r\n\r\n@@\r\n"), frame(0));
        assert_eq!(find(b"\r\n!99200!99200\r\n12@@\r\n!"), frame(2));
        // The SC may be any two bytes, and so may the station's, but for CR LF.
        assert_eq!(find(b"!\r\r200\r\n01234567\r\n\r\n"), frame(0));
        assert_eq!(
            find(b"!\r\n200001234567829\r\n"),
            Found::Frame { start: 0, length: 3, used: 3 }
        );
        // Other IDs end at their first pair.
        assert_eq!(
            find(b"!99201\r\n1234567829\r\n"),
            Found::Frame { start: 0, length: 8, used: 8 }
        );
        assert_eq!(find(b"!99200\r\n12345678@@\r"), Found::Wait { drop: 0 });
    }

    #[test]
    fn finder_looks_on_after_a_test_call_that_does_not_end() {
        // Bytes 19 and 20 are LF CR; the '!' inside has a frame of document 01.
        assert_eq!(find(b"x!99200001234567829\n\r"), Found::Nothing { drop: 21 });
        let inside = b"x!992000012!45678@@\n\r\n";
        assert_eq!(find(inside), Found::Frame { start: 11, length: 11, used: 22 });
        assert_eq!(find(&inside[..21]), Found::Wait { drop: 11 });
    }

    #[test]
    fn test_six_asks_for_marks_and_length() {
        assert!(has_shape(b"!99208AB\r\n"));
        assert!(!has_shape(b""));
        assert!(!has_shape(b"!99208A\r\n"));
        assert!(!has_shape(b"#99208AB\r\n"));
        assert!(!has_shape(b"!99208AB\n\r"));
        assert!(!has_shape(b"!99208AB\rX"));
        let of_length = |length: usize| [b"!", vec![b'0'; length - 3].as_slice(), END].concat();
        assert!(has_shape(&of_length(1_023)));
        assert!(!has_shape(&of_length(1_024)));
        // A pair inside is not this test's concern.
        assert!(has_shape(b"!99200\r\n01234567AB\r\n"));
    }

    #[test]
    fn test_six_asks_for_twenty_bytes_of_a_test_call() {
        for station in [b"99", b"9a", b"\r\n", b"20"] {
            for length in SHORTEST_FRAME..=LONGEST_FRAME {
                let of_id =
                    |id: &[u8]| [b"!", &station[..], id, &vec![b'0'; length - 8], END].concat();
                assert_eq!(has_shape(&of_id(b"200")), length == 20, "{length}");
                assert!(has_shape(&of_id(b"201")), "{length}");
            }
        }
    }

    #[test]
    fn the_sum_test_tells_the_true_capitals_the_two_marks_and_all_else_apart() {
        for rule in [Rule::CapitalsOnly, Rule::SmallToo] {
            let of = |sc: &str| sum_test(["!99209001005", sc, "\r\n"].concat().as_bytes(), rule);
            assert_eq!(of("54"), Sum::True);
            assert_eq!(of("@@"), Sum::SwitchedOff);
            for sc in ["55", "5@", "@4", "@5", "``", "  ", "\r\n"] {
                assert_eq!(of(sc), Sum::Wrong, "{sc}");
            }
        }
        // Where the sum ends in 00 the marks aren't true either: '@' isn't the digit 0.
        let before = b"!99200+000000000";
        assert_eq!(sc(before), b"00");
        for (sc, said) in [("00", Sum::True), ("@@", Sum::SwitchedOff), ("@0", Sum::Wrong)] {
            let frame = [&before[..], sc.as_bytes(), END].concat();
            assert_eq!(sum_test(&frame, Rule::CapitalsOnly), said, "{sc}");
        }
    }

    #[test]
    fn the_sum_test_takes_small_letters_under_release_2_and_sums_what_was_sent() {
        let of =
            |frame: &[u8]| [Rule::CapitalsOnly, Rule::SmallToo].map(|rule| sum_test(frame, rule));
        // 21+39+39+32+30+38 is 12D; FF in 212FF makes 1B4, and a small letter 20 more.
        assert_eq!(of(b"!992082D\r\n"), [Sum::True, Sum::True]);
        assert_eq!(of(b"!992082d\r\n"), [Sum::Wrong, Sum::True]);
        assert_eq!(of(b"!99212FFb4\r\n"), [Sum::Wrong, Sum::True]);
        assert_eq!(of(b"!99212fFD4\r\n"), [Sum::True, Sum::True]);
        assert_eq!(of(b"!99212ffF4\r\n"), [Sum::True, Sum::True]);
        assert_eq!(of(b"!99212fff4\r\n"), [Sum::Wrong, Sum::True]);
        assert_eq!(of(b"!99212ffB4\r\n"), [Sum::Wrong, Sum::Wrong]);
        assert_eq!(of(b"!99212ff@@\r\n"), [Sum::SwitchedOff, Sum::SwitchedOff]);
    }

    #[test]
    fn test_eight_reads_the_station_as_digits() {
        for rule in [Rule::CapitalsOnly, Rule::SmallToo] {
            assert!(has_station(b"!99208@@\r\n", 0x99, rule));
            assert!(!has_station(b"!99208@@\r\n", 99, rule));
            assert!(has_station(b"!0F208@@\r\n", 15, rule));
            assert!(!has_station(b"! F208@@\r\n", 15, rule));
            assert!(!has_station(b"!0g208@@\r\n", 16, rule));
        }
        assert!(!has_station(b"!0f208@@\r\n", 15, Rule::CapitalsOnly));
        assert!(has_station(b"!0f208@@\r\n", 15, Rule::SmallToo));
    }

    #[test]
    fn parts_and_replies() {
        let (id, content) = id_and_content(b"!9920900100554\r\n");
        assert_eq!((id, content), (&b"209"[..], &b"001005"[..]));
        let (id, content) = id_and_content(b"!99208@@\r\n");
        assert_eq!((id, content), (&b"208"[..], &b""[..]));
        assert_eq!(normal_reply(0x99, b"200", b"0012345678"), b"#9920000123456782B\r\n");
        assert_eq!(error_reply(0x99, 101), b"&991012A\r\n");
        assert_eq!(error_reply(0x0A, 107).len(), 10);
        assert!(error_reply(0x0A, 107).starts_with(b"&0A107"));
    }
}
