//! Look before storing (document 02, g): every message checked and then acted on, each refusal by both,
//! reply areas that are too short, runs at their limits, and acts after something changed.

use super::script::{Part, Script};
use crate::areas::{Firsts, Settings};
use crate::bench::{command, SETTINGS};
use crate::frames::closed;

pub fn add(script: &mut Script) {
    each_message(script);
    as_one_answer(script);
    many_points(script);
    runs_at_their_limits(script);
    small_letters(script);
    sums(script);
    error_replies(script);
    the_order(script);
    silent_refusals(script);
    short_reply_area(script);
    changed_between(script);
    entries_dropped(script);
}

/// All twelve messages, each accepted on a board of three points.
const MESSAGES: [&str; 12] = [
    "2000123456789",
    "208",
    "24400200201001E001E00640000C35003000A000B000CFFFFFFFF80000000",
    "209001003",
    "246002001",
    "24E0012C0230FF",
    "2100012C03",
    "24C000C90100000047",
    "20E000C802",
    "24B0002591",
    "20D0002580009",
    "212FF",
];

/// Three points, one column's entry, and bytes beyond the used length that only a write clears.
fn board(script: &mut Script, settings: Settings) {
    script.board_with(3, 620, settings);
    script.ask("24E0012C0141");
    script.spoil_run(Part::Journal, 6, &[0xDD, 0xEE]);
}

/// Checked and acted on, and at last all writes stepped back; then acted on without a check.
fn each_message(script: &mut Script) {
    board(script, SETTINGS);
    script.look_at_all(&MESSAGES);
    script.steps_back(6);
    board(script, SETTINGS);
    for message in MESSAGES {
        script.act(&command(SETTINGS.station, message.as_bytes()));
    }
    script.steps_back(2);
}

/// A check before each answer.
fn as_one_answer(script: &mut Script) {
    board(script, SETTINGS);
    for message in MESSAGES {
        let frame = command(SETTINGS.station, message.as_bytes());
        script.check(&frame);
        script.frame(&frame);
    }
    script.step_back();
}

/// A point of so many digits with this pattern.
fn point(pattern: &str) -> String {
    let axes = u8::from_str_radix(pattern, 16).map_or(0, u8::count_ones) as usize;
    [pattern, "001E001F0064", &"0000C350".repeat(axes)].concat()
}

/// "45 points from 001", as many as fit into a frame, and a point of eight axes behind them.
fn many_points(script: &mut Script) {
    script.board(46, 2_340);
    script.look_at(&["24400102D", &point("01").repeat(45)].concat());
    script.look_at(&["24402E001", &point("FF")].concat());
    script.steps_back(2);
}

/// The first and the last of each kind, and all; then one number further.
fn runs_at_their_limits(script: &mut Script) {
    let firsts = Firsts { integer: 0xF9C, flag: 0xFED4 };
    script.board_with(1_500, 60_500, Settings { firsts, ..SETTINGS });
    script.look_at_all(&["2095DC001", "2460015DC", "2465DC001", "2095DC002", "2465DD001"]);
    script.look_at(&["2445DC001", &point("80")].concat());
    script.look_at(&["2445DC002", &point("80").repeat(2)].concat());
    script.look_at_all(&["2100012CFF", "24E003E70130", "210003E702", "24E0012B0130"]);
    script.look_at_all(&["20E00F9C64", "24C00FFF0180000000", "20E00F9C65", "24C00F9B0100000000"]);
    script.look_at_all(&["20D00FED4012C", "24B00FED41", "24B00FFFF1", "20D00FED4012D"]);
    script.look_at_all(&["24B00FED31", "20D00FED30001"]);
    script.steps_back(3);
    script.board_with(1, 540, Settings { firsts: Firsts { integer: 0, flag: 0 }, ..SETTINGS });
    script.look_at_all(&["24C0000001FFFFFFFF", "20E0000064", "24B0000001", "20D000000012C"]);
    script.steps_back(2);
}

/// The same message shown for an ID in small letters under release 2; 101 and 102 under release 1.
fn small_letters(script: &mut Script) {
    for release in [1, 2] {
        script.board_with(1, 540, Settings { station: 0xAB, release, ..SETTINGS });
        script.look_at_all(&["24e0012c02aBcD", "20e000c80a", "24b00025d1", "2100012c02"]);
        script.look(&closed(b"!ab208".to_vec()));
        script.look_at("200abcdefABCD");
    }
}

/// True, switched off and wrong, '@@' allowed and forbidden; 12D is the sum.
fn sums(script: &mut Script) {
    board(script, SETTINGS);
    for unchecked in [1, 0, 0x80] {
        script.settings(Settings { unchecked, ..SETTINGS });
        for frame in ["!992082D", "!99208@@", "!992082E", "!992082@", "!98208@@", "!982082C"] {
            script.look(&[frame, "\r\n"].concat().into_bytes());
        }
        script.look(b"!9924E0012C0147@@\r\n");
    }
    script.steps_back(2);
}

/// 101 to 108, with a true SC.
fn error_replies(script: &mut Script) {
    board(script, Settings { fitted: 0x0F, ..SETTINGS });
    script.look_at_all(&["299", "24D", "212g1", "24E0012C014:", "2080", "24E0012C0200"]);
    script.look_at_all(&["2100112C01", "24B0102581", "246001000", "20E000C800", "244001000"]);
    script.look_at_all(&["246003002", "24C0012B020000000000000001", "24B0003841"]);
    for points in [point("00"), point("10"), [point("01"), point("1F")].concat()] {
        let count = if points.len() > 60 { "002" } else { "001" };
        script.look_at(&["244001", count, &points].concat());
    }
    script.look_at_all(&["24B0002582", "24B000258F"]);
    script.step_back();
}

/// Frames in which several hold, each one fault fewer than the last.
fn the_order(script: &mut Script) {
    board(script, Settings { fitted: 0x0F, ..SETTINGS });
    script.look_at_all(&["24F013E8000g", "24E013E8000g", "24E013E8000", "24E013E800"]);
    script.look_at_all(&["24E003E800", "24E003E8023034", "24E003E6023034"]);
    script.look_at_all(&["244004000", "246FFF000", "209000000", "20D0000000000", "20E00FFF00"]);
    for start in ["004", "003"] {
        script.look_at(&["244", start, "001", &point("00")].concat());
    }
    script.look_at_all(&["24B0103842", "24B0003842", "24B0003832", "24B0003831"]);
}

/// From 8 to 2, each added to the ones before; of frames whose SC is '@@' and forbidden, too.
fn silent_refusals(script: &mut Script) {
    board(script, SETTINGS);
    script.look(b"!98299@@\r\n");
    script.look(b"!98299  \r\n");
    let forbidden = Settings { unchecked: 0, ..SETTINGS };
    script.settings(forbidden);
    script.look(b"!98299@@\r\n");
    for frame in [&b"?98299@@\r\n"[..], b"", b"!99200000000000000\r\n", b"!992082D\n\r"] {
        script.look(frame);
    }
    let no_release = Settings { release: 0, ..forbidden };
    let no_axis = Settings { fitted: 0, ..no_release };
    let frame = b"?98299@@\r\n";
    script.settings(no_release);
    script.look(frame);
    script.settings(no_axis);
    script.look(frame);
    script.lend(Part::Axes, 71);
    script.look(frame);
    script.used(1);
    script.look(frame);
    script.used(u64::MAX);
    script.look(frame);
    script.lend(Part::Flags, 299);
    script.look(frame);
    script.lend(Part::Columns, 699);
    script.look(frame);
    script.lend(Part::Points, 119);
    script.look(frame);
    // All of them, and 1 before them where acting.
    script.lend(Part::Reply, 1_023);
    script.look(frame);
}

/// Checked as ever, 0 or its number, and acted on with 1, which comes first.
fn short_reply_area(script: &mut Script) {
    for length in [0, 10, 1_023] {
        board(script, SETTINGS);
        script.lend(Part::Reply, length);
        script.look_at_all(&["208", "24E0012C0147", "24600A001", "299"]);
        script.look(b"!992082E\r\n");
        script.look(b"!98208@@\r\n");
        script.look(b"");
    }
    script.look_at_all(&["2000123456789", "246001003", "24B0002591", "24C000C90100000047"]);
    script.lend(Part::Reply, 1_024);
    script.look_at("24E0012C0147");
    script.steps_back(2);
}

/// A check is of what is there then: refused and then done, shown and then refused.
fn changed_between(script: &mut Script) {
    board(script, SETTINGS);
    let frame = command(SETTINGS.station, b"24E0012C0147");
    let firsts = Firsts { integer: 200, flag: 0xFED5 };
    for other in [
        Settings { fitted: 0, ..SETTINGS },
        Settings { station: 0x98, ..SETTINGS },
        Settings { release: 3, ..SETTINGS },
        Settings { firsts, ..SETTINGS },
    ] {
        script.check(&frame);
        script.settings(other);
        script.look(&frame);
        script.settings(SETTINGS);
    }
    script.check(&frame);
    script.used(5);
    script.look(&frame);
    script.used(6);
    script.act(&frame);
    // Forbidden, then allowed.
    script.settings(Settings { unchecked: 0, ..SETTINGS });
    script.check(b"!9924E0012C0148@@\r\n");
    script.settings(SETTINGS);
    script.act(b"!9924E0012C0148@@\r\n");
    points_changed_between(script);
}

/// The axis fitted, then not; fewer points lent, then all; the point stepped back, then written again.
fn points_changed_between(script: &mut Script) {
    let point = command(SETTINGS.station, ["244003001", &point("10")].concat().as_bytes());
    script.check(&point);
    script.settings(Settings { fitted: 0x0F, ..SETTINGS });
    script.act(&point);
    script.settings(SETTINGS);
    script.lend(Part::Points, 80);
    script.check(&point);
    script.lend(Part::Points, 120);
    script.act(&point);
    script.check(&point);
    script.steps_back(1);
    script.check(&point);
    script.act(&point);
    script.steps_back(4);
}

/// A check drops no entry, an act as many as are needed: four of 125 bytes leave room for 120.
fn entries_dropped(script: &mut Script) {
    script.board(3, 620);
    script.look_at_all(&["246001003"; 4]);
    script.look_at_all(&["24B0002581", "246001003", "246001002"]);
    script.steps_back(5);
}
