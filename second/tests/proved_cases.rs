//! "Proved cases" (1) to (12) and "Run and compared" of document 01.

use second::areas::SLOT;
use second::bench::{command, Bench};
use second::frames::{find, sc, sum};
use second::Found;

fn bench() -> Bench {
    Bench::fresh(500, 32_768)
}

/// The bench's number and reply to a line without its CR LF.
fn line(bench: &mut Bench, text: &str) -> (u16, String) {
    let (number, reply) = bench.hand(&[text.as_bytes(), b"\r\n"].concat());
    (number, String::from_utf8_lossy(&reply).into_owned())
}

#[test]
fn case_1_sum_and_sc_of_document_000() {
    assert_eq!(sum(b"!99209001005"), 0x254);
    assert_eq!(sc(b"!99209001005"), b"54");
    assert_eq!(line(&mut bench(), "!9920900100554").0, 0);
}

#[test]
fn case_2_a_wrong_sc_is_refusal_7() {
    assert_eq!(line(&mut bench(), "!9920900100555"), (7, String::new()));
}

#[test]
fn case_3_two_marks_are_not_checked_and_not_replied() {
    let expected = line(&mut bench(), "!9920900100554");
    let (number, reply) = line(&mut bench(), "!99209001005@@");
    assert_eq!((number, reply.clone()), expected);
    // 23+39+39+32+30+39+30+30+30 (hexadecimal) is 1C0.
    assert_eq!((number, reply.as_str()), (0, "#99209000C0\r\n"));
}

#[test]
fn cases_4_to_6_the_bench_frames() {
    let mut bench = bench();
    assert_eq!(line(&mut bench, "!99200001234567829"), (0, "#9920000123456782B\r\n".into()));
    let write = "!9924400100103001E001E00640000C350FFFFFFFFF3";
    assert_eq!(line(&mut bench, write), (0, "#9924400100151\r\n".into()));
    assert_eq!(line(&mut bench, "!99299@@"), (101, "&991012A\r\n".into()));
}

#[test]
fn case_7_a_lot_code_is_never_a_number() {
    let mut bench = bench();
    bench.board.columns[..4].copy_from_slice(&[0x30, 0x30, 0x34, 0x37]);
    let expected = (0, "#992100012C043030343729\r\n".to_string());
    assert_eq!(line(&mut bench, "!992100012C0490"), expected);
}

#[test]
fn case_8_column_999_is_the_last() {
    let mut bench = bench();
    bench.board.columns[699] = 0xA5;
    let (number, reply) = bench.ask("210003E701");
    assert_eq!((number, &reply[..15]), (0, &b"#99210003E701A5"[..]));
    assert_eq!(bench.ask("210003E702").0, 106);
}

#[test]
fn case_9_number_010_is_point_16() {
    let mut bench = bench();
    assert_eq!(bench.ask("24401000101000100020003FFFFFFFF").0, 0);
    assert_eq!(bench.board.points[15 * SLOT..15 * SLOT + 8], [1, 0, 0, 1, 0, 2, 0, 3]);
    assert_eq!(bench.board.points[9 * SLOT], 0);
    let (number, reply) = bench.ask("209010001");
    assert_eq!((number, &reply[..34]), (0, &b"#9920900101001000100020003FFFFFFFF"[..]));
}

#[test]
fn case_10_position_80000000() {
    let mut bench = bench();
    assert_eq!(bench.ask("2440010010100000000000080000000").0, 0);
    assert_eq!(bench.board.points[8..12], i32::MIN.to_be_bytes());
    assert_eq!(i32::MIN, -2_147_483_648);
    assert_eq!(bench.ask("209001001").1[26..34], *b"80000000");
}

#[test]
fn case_11_empty_input() {
    assert_eq!(find(b""), Found::Nothing { drop: 0 });
    assert_eq!(bench().receive(b""), b"");
}

#[test]
fn case_12_start_5dc_is_the_last_of_1500() {
    let mut bench = Bench::fresh(1_500, 60_500);
    assert_eq!(bench.ask("2095DC001").0, 0);
    assert_eq!(bench.ask("2095DD001").0, 106);
    let point = "01000000000000FFFFFFFF";
    assert_eq!(bench.ask(&["2445DD001", point].concat()).0, 106);
    assert_eq!(bench.ask(&["2445DC001", point].concat()).0, 0);
    assert_eq!(bench.board.points[1_499 * SLOT], 1);
}

/// A 244H command of `count` points with this pattern, every field at its greatest.
fn bulk(count: usize, pattern: u8) -> Vec<u8> {
    let digits = 12 + 8 * pattern.count_ones() as usize;
    let point = format!("{pattern:02X}{}", "F".repeat(digits));
    command(0x99, format!("244001{count:03X}{}", point.repeat(count)).as_bytes())
}

#[test]
fn run_45_one_axis_points_fit() {
    let mut bench = bench();
    let frame = bulk(45, 0x80);
    assert_eq!(frame.len(), 1_006);
    assert_eq!(bench.receive(&frame), b"#9924400102D66\r\n");
    assert!(bench.board.points[..45 * SLOT]
        .chunks(SLOT)
        .all(|slot| slot[0] == 0x80 && slot[39] == 0xFF));
    assert_eq!(bench.board.points[45 * SLOT], 0);
    assert_eq!(bench.board.used, 5 + 45 * SLOT);
}

#[test]
fn run_46_one_axis_points_do_not() {
    let mut bench = bench();
    let frame = bulk(46, 0x80);
    assert_eq!(frame.len(), 1_028);
    assert_eq!(bench.hand(&frame), (6, Vec::new()));
    assert_eq!(find(&frame), Found::TooLong { drop: 1 });
    assert_eq!(bench.receive(&frame), b"");
    assert_eq!(bench.board, Bench::fresh(500, 32_768).board);
}

#[test]
fn run_12_eight_axis_points_fit_and_13_do_not() {
    let mut bench = bench();
    let frame = bulk(12, 0xFF);
    assert_eq!(frame.len(), 952);
    assert_eq!(bench.receive(&frame), b"#9924400100C63\r\n");
    assert!(bench.board.points[..12 * SLOT]
        .chunks(SLOT)
        .all(|slot| slot[0] == 0xFF && slot[1] == 0));
    let before = bench.board.clone();
    let frame = bulk(13, 0xFF);
    assert_eq!(frame.len(), 1_030);
    assert_eq!(bench.hand(&frame), (6, Vec::new()));
    assert_eq!(bench.receive(&frame), b"");
    assert_eq!(bench.board, before);
}

#[test]
fn run_sc_5a_for_5a_is_refused() {
    let mut bench = bench();
    assert_eq!(sc(b"!99209001029"), b"5A");
    assert_eq!(line(&mut bench, "!992090010295A").0, 0);
    assert_eq!(line(&mut bench, "!992090010295a"), (7, String::new()));
}
