//! Entries, dropping at exact boundaries, and sequences of steps back.

use super::script::{Part, Script};
use super::variable_cases::integer_change;

pub fn add(script: &mut Script) {
    steps_back_in_order(script);
    writes_that_change_nothing(script);
    queries_and_refused_writes(script);
    dropping_no_more_than_needed(script);
    room_to_the_last_byte(script);
    bytes_beyond(script);
    largest(script);
}

/// A 24EH of `count` columns from 300 on.
fn columns(count: usize, digits: &str) -> String {
    format!("24E0012C{count:02X}{}", digits.repeat(count))
}

/// A 24CH of all integers: with 405 bytes the longest entry but those of points.
fn all_integers(value: u32) -> String {
    integer_change(200, &[value; 100])
}

fn steps_back_in_order(script: &mut Script) {
    script.board(3, 620);
    script.ask("24400100201000100010001000000010100010001000100000002");
    script.ask("244002002010009000900090000000901000800080008FFFFFFFF");
    script.ask_all(&["24E0012C0430303437", "246001003", "24E0012C04FFFFFFFF", "24E003E701AA"]);
    script.steps_back(3);
    script.ask_all(&["2100012C04", "209001003"]);
    script.steps_back(5);
}

fn writes_that_change_nothing(script: &mut Script) {
    script.board(1, 540);
    script.ask_all(&["246001001", "24E0012C0100", "246001001"]);
    script.steps_back(4);
}

fn queries_and_refused_writes(script: &mut Script) {
    script.board(1, 540);
    script.ask_all(&["24E0012C0141", "24E0012C0142", "208", "209001001", "2100012C02", "212FF"]);
    script.ask_all(&[
        "24E0012C0043",
        "24E0112C0143",
        "246002001",
        "24400100100000000000000",
        "299",
    ]);
    script.line("!9924E0012C014300");
    script.step_back();
    script.ask("2100012C01");
}

fn dropping_no_more_than_needed(script: &mut Script) {
    script.board(1, 560);
    // Twelve entries of 45 make 540, the 13th drops one; 15 columns then fill all 560.
    for number in 1..=13 {
        script.ask(&format!("24400100101000000000000000000{number:X}0"));
    }
    script.ask(&columns(15, "41"));
    script.ask(&columns(1, "42"));
    script.steps_back(14);
    script.board(1, 540);
    // Three entries of 180; then one of 405 drops them all, and 135 fill the journal.
    for count in [175, 175, 175] {
        script.ask(&columns(count, "43"));
    }
    script.ask_all(&[&all_integers(0x4744_4342), &columns(130, "43"), &columns(1, "43")]);
    // 135 and 6 and 405 are six bytes too many.
    script.ask(&all_integers(0x8000_0001));
    script.steps_back(3);
}

/// Entries of 100, 20, 220 and 200 fill the journal; then the next has just room, or one byte too
/// little.
fn room_to_the_last_byte(script: &mut Script) {
    for (journal, last) in [(540, 95), (540, 96), (545, 1), (546, 1)] {
        script.board(1, journal);
        for count in [95, 15, 215, 195, last] {
            script.ask(&columns(count, "44"));
        }
        script.step_back();
    }
    // 85, 260, 170 and 85 make 600.
    for journal in [599, 600] {
        script.board(2, journal);
        script.ask_all(&["246001002", &columns(255, "45"), &columns(165, "46"), "246001002"]);
        script.ask("246002001");
        script.steps_back(3);
    }
    // 405, 405 and 85 make 895; a flag takes 6 and an integer 9.
    let (flag, integer) = ("24B0002591", "24C000C90100000001");
    for (journal, last) in [(901, flag), (900, flag), (904, integer), (903, integer)] {
        script.board(10, journal);
        script.ask_all(&["24600100A", "24600100A", "246001002", last]);
        script.steps_back(3);
    }
}

fn bytes_beyond(script: &mut Script) {
    script.board(1, 540);
    script.spoil_run(Part::Journal, 0, &[0xEE; 8]);
    script.spoil(Part::Journal, 539, 0xEE);
    script.ask("208");
    script.step_back();
    script.ask("24E0012C0141");
    script.spoil(Part::Journal, 539, 0xEE);
    script.ask("2100012C01");
    script.step_back();
    // Old bytes may be any; they come back as they stand in the journal.
    script.ask("2440010010100000000000000000001");
    script.spoil_run(Part::Journal, 5, &[0xA5; 12]);
    script.spoil(Part::Journal, 44, 0xA5);
    script.spoil(Part::Journal, 100, 0x01);
    script.step_back();
    script.ask("209001001");
}

fn largest(script: &mut Script) {
    script.board(1_500, 60_500);
    script.ask("24401000201000100020003FFFFFFFF0200010002000380000000");
    // 60,005 and 405 leave 90: an entry of 91 costs the longest one.
    script.ask_all(&["2460015DC", "2460015DC", &all_integers(0xFFFF_FFFF), &columns(86, "42")]);
    script.steps_back(3);
    script.board(1_500, 65_536);
    script.ask_all(&["2460015DC", "2460015DB", "2460FF088", "2460015DC"]);
    script.steps_back(2);
    script.board(1, 65_536);
    script.ask_all(&[&columns(255, "41"), "246001001"]);
    script.steps_back(3);
}
