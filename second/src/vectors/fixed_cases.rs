//! Document 01's own examples, and each message near its limits.

use super::script::{Part, Script, STATION};
use crate::areas::Settings;
use crate::bench::{command, SETTINGS};

const LISTING: [&str; 3] =
    ["!99200001234567829", "!9924400100103001E001E00640000C350FFFFFFFFF3", "!99299@@"];

pub fn add(script: &mut Script) {
    bench_listing(script);
    proved_cases(script);
    run_and_compared(script);
    finder(script);
    test_calls(script);
    counts_and_lists(script);
    lists_at_the_limit(script);
    rewriting(script);
    columns(script);
    axis_status(script);
    settings(script);
}

fn bench_listing(script: &mut Script) {
    let input: Vec<u8> =
        LISTING.iter().flat_map(|line| [line.as_bytes(), b"\r\n"].concat()).collect();
    for cut in [0, 19, 20, 21, input.len() - 1] {
        script.find(&input[..cut]);
        script.find(&input[cut..]);
    }
    script.board(500, 32_768);
    for line in LISTING {
        script.line(line);
    }
    script.ask("209001005");
    script.step_back();
    script.ask("209001005");
    script.step_back();
}

fn proved_cases(script: &mut Script) {
    script.board(20, 1_300);
    for line in ["!9920900100554", "!9920900100555", "!99209001005@@"] {
        script.line(line);
    }
    script.spoil_run(Part::Columns, 0, &[0x30, 0x30, 0x34, 0x37]);
    script.line("!992100012C0490");
    script.ask_all(&["210003E701", "210003E702", "24401000101000100020003FFFFFFFF", "209010001"]);
    script.ask_all(&["2440010010100000000000080000000", "209001001"]);
    script.find(b"");
    script.board(1_500, 60_500);
    let point = "01000000000000FFFFFFFF";
    script.ask_all(&["2095DC001", "2095DD001", &["2445DD001", point].concat()]);
    script.ask_all(&[&["2445DC001", point].concat(), "208", "2095DC001"]);
    script.step_back();
}

/// A 244H of `count` points with this pattern, every other digit at its greatest.
fn bulk(count: usize, pattern: u8) -> Vec<u8> {
    let point = format!("{pattern:02X}{}", "F".repeat(12 + 8 * pattern.count_ones() as usize));
    command(STATION, format!("244001{count:03X}{}", point.repeat(count)).as_bytes())
}

fn run_and_compared(script: &mut Script) {
    for (count, pattern) in [(45, 0x80), (46, 0x80), (12, 0xFF), (13, 0xFF)] {
        script.board(50, 2_500);
        let frame = bulk(count, pattern);
        script.find(&frame);
        script.frame(&frame);
        script.ask("208");
        script.step_back();
    }
    script.board(50, 2_500);
    script.line("!992090010295A");
    script.line("!992090010295a");
}

fn finder(script: &mut Script) {
    for received in
        ["", "#99\r\n", "!", "\r\n!99\r", "!\r\n", "ab!9!9\r\n!\r\n", "!\n\r\r\n", "!!!\r\r"]
    {
        script.find(received.as_bytes());
    }
    for run in 1_019..=1_022 {
        for end in ["", "\r", "\r\n"] {
            let received = [b"xy!", vec![b'0'; run].as_slice(), end.as_bytes()].concat();
            script.find(&received);
        }
    }
    // Of 1,022, 1,023 and 1,024 bytes from the '!' on, without a pair.
    for window in [1_022, 1_023, 1_024] {
        script.find(&vec![b'!'; window]);
        script.find(&[vec![b'\n'; 3], vec![b'!'; window]].concat());
    }
    script.find(&[vec![b'!'; 1_100], b"\r\n".to_vec()].concat());
    script.find(&vec![b'0'; 2_500]);
}

fn test_calls(script: &mut Script) {
    script.board(1, 540);
    script.ask_all(&["2000012345678", "200aZ !@#\r\n. ", "200!!!!!!!!!!"]);
    script.frame(&command(
        STATION,
        &[&b"200"[..], &[0, 1, 127, 128, 200, 255, 13, 10, 33, 64]].concat(),
    ));
    script.line("!99200zzzzzzzzzz@@");
}

/// A 244H at this start; each point has the pattern named and drawn-looking digits.
fn points(start: usize, patterns: &[u8]) -> String {
    let mut text = format!("244{start:03X}{:03X}", patterns.len());
    for (at, &pattern) in patterns.iter().enumerate() {
        text += &format!("{pattern:02X}{:04X}{:04X}{:04X}", at + 30, at + 0xFF00, 0x8000 + at);
        for axis in 0..pattern.count_ones() {
            text += &format!("{:08X}", 0xFFFF_FF00u32.wrapping_add(17 * axis + at as u32));
        }
    }
    text
}

fn counts_and_lists(script: &mut Script) {
    script.board(20, 2_000);
    script.ask_all(&["208", "209001014", &points(3, &[0x01, 0x82, 0xFF]), "208"]);
    script.ask_all(&["209001014", "209004001", "209005010", "209006001", "246004001", "209001014"]);
    // Slots as they are stored: an odd second byte, any pattern, and a pattern cleared by hand.
    script.spoil_run(Part::Points, 0, &[0x12; 40]);
    script.spoil(Part::Points, 81, 0x77);
    script.effective(3);
    script.ask_all(&["208", "209001014"]);
    script.spoil(Part::Points, 0, 0x00);
    script.effective(2);
    script.ask_all(&["208", "209001014"]);
    script.steps_back(3);
    script.board(255, 10_700);
    script.ask_all(&[
        &points(254, &[1, 2]),
        &points(1, &[0x40; 40]),
        "208",
        "2090010FF",
        "2090FE002",
    ]);
}

/// Points with these patterns from 1 on, then a list of all of them.
fn list_of(script: &mut Script, patterns: &[u8]) {
    script.board(patterns.len() as u16, 40 * patterns.len() as u32 + 500);
    let (mut rest, mut start) = (patterns, 1);
    while !rest.is_empty() {
        // As many as one frame holds: 1,007 digits of 14 and 8 for each axis.
        let lengths = rest.iter().scan(0, |sum, pattern| {
            *sum += 14 + 8 * pattern.count_ones();
            Some(*sum)
        });
        let (some, after) = rest.split_at(lengths.take_while(|&sum| sum <= 1_007).count());
        script.ask(&points(start, some));
        (rest, start) = (after, start + some.len());
    }
    script.ask(&format!("209001{:03X}", patterns.len()));
}

fn lists_at_the_limit(script: &mut Script) {
    // 40 of one axis and 12 of eight fit; 35 points with 52 axes are 1,024 bytes exactly.
    list_of(script, &[0x01; 41]);
    list_of(script, &[0x80; 40]);
    list_of(script, &[0xFF; 12]);
    list_of(script, &[0xFF; 13]);
    let two_then_one = |two: usize, all: usize| {
        let mut patterns = vec![0x01; all];
        patterns[..two].fill(0x03);
        patterns
    };
    list_of(script, &two_then_one(17, 35));
    list_of(script, &two_then_one(17, 36));
    list_of(script, &two_then_one(18, 35));
    list_of(script, &two_then_one(14, 36));
    // A point that doesn't fit ends the list, though a shorter one follows.
    let mut patterns = vec![0xFF; 14];
    patterns[13] = 0x01;
    list_of(script, &patterns);
    script.ask_all(&["24600D001", "20900100E", "20900200D"]);
    // The list's limit is 1,024 bytes also where more are lent.
    list_of(script, &[0x01; 41]);
    script.spoil_run(Part::Reply, 1_024, &[0xEE; 4]);
    script.lend(Part::Reply, 1_028);
    script.ask("209001029");
}

/// Slots are rewritten whole: what stood in a slot before shows nowhere.
fn rewriting(script: &mut Script) {
    script.board(4, 660);
    script.ask(&points(1, &[0xFF, 0x7E, 0xFF, 0x81]));
    for slot in [40, 80] {
        script.spoil(Part::Points, slot + 1, 0x5A);
    }
    script.ask_all(&[&points(2, &[0x05, 0x80]), "209001004", &points(3, &[0x10]), "209001004"]);
    script.steps_back(2);
    script.ask("209001004");
}

fn columns(script: &mut Script) {
    script.board(1, 700);
    script.ask_all(&["24E0012C0430303437", "2100012C04", "24E003E6020047", "210003E503"]);
    script.ask_all(&[&["24E0012CFF", &"C3".repeat(255)].concat(), "2100012CFF", "2100022C01"]);
    script.ask_all(&["24E0012C04003000FF", "2100012C05", "24E002E9FF00"]);
    script.ask_all(&[&["24E002E9FF", &"5A".repeat(255)].concat(), "210002E9FF", "210002EAFF"]);
    script.steps_back(3);
}

fn axis_status(script: &mut Script) {
    script.board(1, 540);
    script.ask_all(&["212FF", "21200"]);
    for axis in 0..8u8 {
        let record = [0x10 + axis, axis, 0x0A, 0xB0 + axis, 0xC0 + axis, 0xFF, 0xF9, 0xE5, 0x80];
        script.spoil_run(Part::Axes, 9 * u32::from(axis), &record);
    }
    script.ask_all(&["212FF", "21285", "21200", "21210"]);
    script.settings(Settings { fitted: 0x84, ..SETTINGS });
    script.ask_all(&["212FF", "21287", "21203"]);
    script.spoil_run(Part::Axes, 63, &[0xFF, 15, 0x0F, 0xFF, 0xFE, 0x80, 0, 0, 0]);
    script.ask("21280");
}

fn settings(script: &mut Script) {
    for (station, fitted) in [(0x00, 0x01), (0xFA, 0xAA), (99, 0x7F)] {
        script.board_with(3, 620, Settings { fitted, station, ..SETTINGS });
        script.ask_all(&["208", "299", "212FF"]);
        script.ask_all(&[&points(1, &[fitted]), &points(2, &[fitted, 0xFF]), "209001003"]);
        script.line("!99208@@");
        script.settings(SETTINGS);
        script.ask(&points(2, &[fitted, 0xFF]));
    }
}
