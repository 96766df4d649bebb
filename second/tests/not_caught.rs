//! What the sum does not catch (document 02, n): two bytes changed so that the SC is true again, two bytes
//! exchanged, any byte changed under '@@'; and that on a line the finder comes before the sum.

use second::areas::{Settings, FIRST_COLUMN};
use second::bench::{Bench, SETTINGS};
use second::frames::{closed, find, has_shape, sc, Found};
use second::Board;
use std::collections::BTreeMap;

const TRUE: u8 = 1;
const SWITCHED_OFF: u8 = 2;
const WRONG: u8 = 3;

/// Column 300 becomes 41H; the sum is 30AH.
const WRITE: &[u8] = b"!9924E0012C01410A\r\n";
/// The same, and the sum isn't checked.
const MARKED: &[u8] = b"!9924E0012C0141@@\r\n";

fn bench(release: u8, unchecked: u8) -> Bench {
    let mut bench = Bench::fresh(1, 600);
    bench.settings = Settings { release, unchecked, ..SETTINGS };
    bench
}

/// The number, what is told of the sum, and the board after a frame that found it fresh.
fn told(frame: &[u8], release: u8, unchecked: u8) -> (u16, u8, Board) {
    let mut bench = bench(release, unchecked);
    let number = bench.hand(frame).0;
    (number, bench.sum, bench.board)
}

/// The columns that aren't 00, by their numbers.
fn stored(board: &Board) -> Vec<(usize, u8)> {
    let columns = board.columns.iter().copied().enumerate().filter(|&(_, byte)| byte != 0);
    columns.map(|(at, byte)| (FIRST_COLUMN + at, byte)).collect()
}

/// Accepted with a true SC under both releases, '@@' forbidden and allowed; what is then stored.
fn accepted(frame: &[u8]) -> Vec<(usize, u8)> {
    let [first, others @ ..] = [(1, 0), (1, 1), (2, 0), (2, 1)].map(|(release, unchecked)| {
        let (number, sum, board) = told(frame, release, unchecked);
        assert_eq!((number, sum), (0, TRUE), "{}", frame.escape_ascii());
        stored(&board)
    });
    assert!(others.iter().all(|other| *other == first));
    first
}

/// The frame with these bytes at these places.
fn with(frame: &[u8], bytes: &[(usize, u8)]) -> Vec<u8> {
    let mut changed = frame.to_vec();
    for &(at, byte) in bytes {
        changed[at] = byte;
    }
    changed
}

fn differences(one: &[u8], other: &[u8]) -> usize {
    one.iter().zip(other).filter(|(one, other)| one != other).count()
}

// ---- two bytes ----

#[test]
fn two_bytes_changed_so_that_the_sum_stays() {
    assert_eq!(accepted(WRITE), [(300, 0x41)]);
    let changed = b"!9924E0012C01500A\r\n";
    assert_eq!(differences(WRITE, changed), 2);
    assert_eq!(accepted(changed), [(300, 0x50)]);
    // Another column.
    let changed = b"!9924E0021C01410A\r\n";
    assert_eq!(differences(WRITE, changed), 2);
    assert_eq!(accepted(changed), [(0x21C, 0x41)]);
}

#[test]
fn one_byte_and_the_sc_changed_so_that_it_is_true_again() {
    let changed = b"!9924E0012C01420B\r\n";
    assert_eq!(differences(WRITE, changed), 2);
    assert_eq!(accepted(changed), [(300, 0x42)]);
}

#[test]
fn any_two_bytes_between_header_and_sc_by_as_much_up_as_down() {
    for (up, down) in (1..15).flat_map(|up| (1..15).map(move |down| (up, down))) {
        for by in [0x01, 0x20, 0x80, 0xFF] {
            let bytes = [(up, WRITE[up].wrapping_add(by)), (down, WRITE[down].wrapping_sub(by))];
            if up != down {
                let (number, sum, _) = told(&with(WRITE, &bytes), 1, 0);
                assert_eq!((sum, [6, 7, 12].contains(&number)), (TRUE, false), "{up} {down}");
            }
        }
    }
}

#[test]
fn two_bytes_exchanged() {
    let changed = b"!9924E0012C01140A\r\n";
    assert_eq!(differences(WRITE, changed), 2);
    assert_eq!(accepted(changed), [(300, 0x14)]);
    assert_eq!(accepted(b"!9924E0021C01410A\r\n"), [(0x21C, 0x41)]);
}

#[test]
fn every_exchange_of_two_bytes() {
    let end = WRITE.len();
    let mut seen = BTreeMap::new();
    for (first, second) in (0..end).flat_map(|at| (0..at).map(move |before| (before, at))) {
        let mut changed = WRITE.to_vec();
        changed.swap(first, second);
        let (number, sum, _) = told(&changed, 1, 0);
        let expected = match (first, second) {
            _ if changed == WRITE => TRUE,
            (0, _) => 0,
            (_, second) if second >= end - 2 => 0,
            (_, second) if second >= end - 4 => WRONG,
            _ => TRUE,
        };
        assert_eq!(sum, expected, "{}", changed.escape_ascii());
        *seen.entry(number).or_insert(0) += 1;
    }
    // 91 pairs stand between header and SC: none of these is caught, and all others are.
    let caught = seen[&6] + seen[&7];
    assert_eq!(seen.values().sum::<usize>(), end * (end - 1) / 2);
    assert_eq!(seen.values().sum::<usize>() - caught, 91 + same_with_the_sc());
    assert!(seen[&0] > 10, "{seen:?}");
}

/// Pairs of equal bytes of which one is the SC's: exchanging these changes nothing.
fn same_with_the_sc() -> usize {
    (15..17).flat_map(|at| (0..at).filter(move |&before| WRITE[before] == WRITE[at])).count()
}

// ---- '@@' ----

/// How many of the 255 changes of a byte get each number.
fn numbers(at: usize, release: u8, unchecked: u8) -> Vec<(u16, usize)> {
    let mut numbers = BTreeMap::new();
    for byte in (0..=255).filter(|&byte| byte != MARKED[at]) {
        let number = told(&with(MARKED, &[(at, byte)]), release, unchecked).0;
        *numbers.entry(number).or_insert(0) += 1;
    }
    numbers.into_iter().collect()
}

#[test]
fn under_marks_any_byte_may_change() {
    let expected: [&[(u16, usize)]; 19] = [
        &[(6, 255)],
        &[(8, 255)],
        &[(8, 255)],
        &[(101, 255)],
        // 20EH, and 244H, 246H, 24BH and 24CH, have other lengths.
        &[(101, 254), (103, 1)],
        &[(101, 251), (103, 4)],
        &[(102, 240), (104, 15)],
        &[(102, 240), (104, 15)],
        // Starts 22CH and 32CH, 13CH to 1FCH, 12DH to 12FH are held too.
        &[(0, 2), (102, 240), (106, 13)],
        &[(0, 13), (102, 240), (106, 2)],
        &[(0, 3), (102, 240), (106, 12)],
        &[(102, 240), (103, 15)],
        &[(102, 240), (103, 15)],
        &[(0, 15), (102, 240)],
        &[(0, 15), (102, 240)],
        &[(7, 255)],
        &[(7, 255)],
        &[(6, 255)],
        &[(6, 255)],
    ];
    for (at, expected) in expected.into_iter().enumerate() {
        assert_eq!(numbers(at, 1, 1), expected, "{at}");
    }
}

#[test]
fn where_marks_are_forbidden_none_of_it_is_answered() {
    for release in [1, 2] {
        for at in 0..MARKED.len() {
            let expected = match at {
                0 | 17 | 18 => 6,
                15 | 16 => 7,
                _ => 12,
            };
            assert_eq!(numbers(at, release, 0), [(expected, 255)], "{at}");
        }
    }
}

#[test]
fn under_marks_a_changed_digit_is_stored() {
    for (at, byte, expected) in [
        (13, b'5', (300, 0x51)),
        (14, b'F', (300, 0x4F)),
        (10, b'D', (301, 0x41)),
        (8, b'3', (0x32C, 0x41)),
    ] {
        let (number, sum, board) = told(&with(MARKED, &[(at, byte)]), 1, 1);
        assert_eq!((number, sum), (0, SWITCHED_OFF), "{at}");
        assert_eq!(stored(&board), [expected], "{at}");
    }
    // With the true SC each of them is refused.
    for (at, byte) in [(13, b'5'), (14, b'F'), (10, b'D'), (8, b'3')] {
        assert_eq!(told(&with(WRITE, &[(at, byte)]), 1, 1).0, 7, "{at}");
    }
}

// ---- on a line the finder comes first ----

/// What a bench replies to these received bytes.
fn replies(received: &[u8]) -> Vec<u8> {
    bench(1, 1).receive(received)
}

/// The frames that the finder hands over of these bytes.
fn handed(mut received: &[u8]) -> Vec<Vec<u8>> {
    let mut frames = Vec::new();
    while let Found::Frame { start, length, used } = find(received) {
        frames.push(received[start..start + length].to_vec());
        received = &received[used..];
    }
    frames
}

const QUERY: &[u8] = b"!992082D\r\n";
const REPLY: &[u8] = b"#99208000BF\r\n";
/// No CR LF among its ten.
const TEST_CALL: &[u8] = b"!99200001234567829\r\n";
/// A 20DH of eight flags, before its SC.
const FLAGS: &[u8] = b"!9920D0002580008";

/// All of these bytes are handed over as one frame, and it is 7.
fn handed_over_whole(line: &[u8]) {
    assert_eq!(handed(line), [line]);
    assert_eq!(told(line, 1, 1).0, 7, "{}", line.escape_ascii());
}

/// Of these bytes the query alone is handed over, and answered.
fn only_the_query_is_found(line: &[u8]) {
    assert_eq!(handed(line), [QUERY], "{}", line.escape_ascii());
    assert_eq!(replies(line), REPLY);
}

/// By itself this is 6; on a line its '!' is skipped, and a query behind it is found.
fn skipped(changed: &[u8]) {
    assert_eq!(told(changed, 1, 1).0, 6, "{}", changed.escape_ascii());
    only_the_query_is_found(&[changed, QUERY].concat());
}

#[test]
fn a_changed_header_is_never_handed_over() {
    assert_eq!(replies(&[QUERY, QUERY].concat()), [REPLY, REPLY].concat());
    assert_eq!(handed(b"\"992082D\r\n"), Vec::<Vec<u8>>::new());
    only_the_query_is_found(&[b"\"992082D\r\n", QUERY].concat());
}

#[test]
fn after_a_changed_line_end_two_frames_are_handed_over_as_one() {
    handed_over_whole(&[b"!992082D\rJ", QUERY].concat());
    // The first frame's bytes but CR make 1ADH, with 53H 200H: the second's SC is true of both.
    for (second, said) in [(WRITE, TRUE), (MARKED, SWITCHED_OFF)] {
        let line = [b"!992082DS\n", second].concat();
        assert_eq!(handed(&line), [&line[..]]);
        let (number, sum, board) = told(&line, 1, 1);
        assert_eq!((number, sum, stored(&board)), (102, said, Vec::new()));
    }
}

#[test]
fn a_test_call_with_a_changed_line_end_is_skipped() {
    skipped(&with(TEST_CALL, &[(18, b'J')]));
    skipped(&with(TEST_CALL, &[(19, b'J')]));
}

#[test]
fn a_208h_made_200h_takes_the_next_frame_with_it() {
    let changed = with(QUERY, &[(5, b'0')]);
    let line = [&changed, QUERY].concat();
    handed_over_whole(&line);
    assert!(has_shape(&line));
    assert_eq!(told(&changed, 1, 1).0, 6);
    // But not where that ends elsewhere: the '!' is skipped.
    assert_eq!(handed(&[&changed, WRITE].concat()), [WRITE]);
}

#[test]
fn a_frame_of_20_bytes_made_200h_is_handed_over_whole() {
    let flags = closed(FLAGS.to_vec());
    assert_eq!((flags.len(), accepted(&flags)), (20, Vec::new()));
    handed_over_whole(&with(&flags, &[(5, b'0')]));
}

#[test]
fn a_longer_frame_made_200h_is_skipped() {
    let long = closed([FLAGS, b"0"].concat());
    let (number, sum, _) = told(&long, 1, 1);
    assert_eq!((long.len(), number, sum), (21, 103, TRUE));
    skipped(&with(&long, &[(5, b'0')]));
}

#[test]
fn a_test_call_without_line_ends_made_another_is_handed_over_whole() {
    assert_eq!(accepted(TEST_CALL), []);
    for at in 3..6 {
        handed_over_whole(&with(TEST_CALL, &[(at, b'1')]));
    }
}

#[test]
fn a_frame_inside_a_test_call_is_found_where_the_test_calls_header_changed() {
    let test_call = closed([b"!99200", QUERY].concat());
    assert_eq!(test_call.len(), 20);
    assert_eq!(replies(&test_call), closed([b"#99200", QUERY].concat()));
    let changed = with(&test_call, &[(0, b' ')]);
    assert_eq!(told(&changed, 1, 1).0, 6);
    only_the_query_is_found(&changed);
    // A changed ID ends the frame at the query's line end, with its SC for that of all.
    let changed = with(&test_call, &[(5, b'1')]);
    assert_eq!(told(&changed, 1, 1).0, 7);
    assert_eq!(handed(&changed), [changed[..16].to_vec()]);
    assert_eq!(sc(&changed[..12]), b"53");
    assert_eq!(replies(&changed), b"");
}
