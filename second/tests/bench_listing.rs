//! The bench listing of document 01, played through the finder.

use second::bench::{command, Bench};

const INPUT: &[u8] = b"!99200001234567829\r\n\
    !9924400100103001E001E00640000C350FFFFFFFFF3\r\n\
    !99299@@\r\n";
const OUTPUT: &[u8] = b"#9920000123456782B\r\n#9924400100151\r\n&991012A\r\n";

fn bench() -> Bench {
    Bench::fresh(500, 32_768)
}

/// Slot of point 1 after the second frame: axes 1 and 2, 0.30 G both, 100 mm/sec, 50.000 mm, -0.001 mm.
fn point_1() -> Vec<u8> {
    let mut slot = vec![0x03, 0, 0, 30, 0, 30, 0, 100];
    slot.extend(50_000i32.to_be_bytes());
    slot.extend((-1i32).to_be_bytes());
    slot.extend([0; 24]);
    slot
}

#[test]
fn whole_input_gives_whole_output() {
    let mut bench = bench();
    assert_eq!(bench.receive(INPUT), OUTPUT);
    assert_eq!(bench.board.points[..40], point_1());
    assert!(bench.board.points[40..].iter().all(|&byte| byte == 0));
    for area in [&bench.board.columns, &bench.board.integers, &bench.board.flags] {
        assert!(area.iter().all(|&byte| byte == 0));
    }
    assert_eq!(bench.board.used, 45);
    assert_eq!(bench.board.journal[..5], [0x50, 0, 42, 0, 1]);
    assert!(bench.board.journal[5..].iter().all(|&byte| byte == 0));
}

#[test]
fn byte_for_byte() {
    let mut bench = bench();
    let output: Vec<u8> = INPUT.iter().flat_map(|&byte| bench.receive(&[byte])).collect();
    assert_eq!(output, OUTPUT);
    assert_eq!(bench.board.points[..40], point_1());
}

#[test]
fn cut_in_two_anywhere() {
    for cut in 0..=INPUT.len() {
        let mut bench = bench();
        let mut output = bench.receive(&INPUT[..cut]);
        output.extend(bench.receive(&INPUT[cut..]));
        assert_eq!(output, OUTPUT, "cut at {cut}");
    }
}

#[test]
fn cut_in_pieces_of_each_length() {
    for length in 1..=INPUT.len() {
        let mut bench = bench();
        let output: Vec<u8> = INPUT.chunks(length).flat_map(|piece| bench.receive(piece)).collect();
        assert_eq!(output, OUTPUT, "pieces of {length}");
    }
}

#[test]
fn noise_between_frames_is_skipped() {
    let mut bench = bench();
    let lines: Vec<&[u8]> = INPUT.split_inclusive(|&byte| byte == b'\n').collect();
    let noisy = [b"\r\n?#99", lines[0], b"\xFF\x00", lines[1], b"!\r\n", lines[2], b"!99"].concat();
    assert_eq!(bench.receive(&noisy), OUTPUT);
}

#[test]
fn a_frame_begins_inside_an_overlong_run() {
    let mut bench = bench();
    let run = [b"!", vec![b'x'; 1_100].as_slice(), INPUT].concat();
    assert_eq!(bench.receive(&run), OUTPUT);
    // A lone '!' before a frame spoils that frame, and only that one.
    assert_eq!(bench.receive(&[b"!", INPUT].concat()), OUTPUT[20..]);
}

#[test]
fn commands_of_this_program_are_those_of_the_listing() {
    let first = command(0x99, b"2000012345678");
    let second = command(0x99, b"24400100103001E001E00640000C350FFFFFFFF");
    assert_eq!(INPUT[..20], first);
    assert_eq!(INPUT[20..20 + second.len()], second);
}
