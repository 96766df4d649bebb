//! Who turned the checksum off (document 02, f): what the sum test says of each frame, '@@' allowed and
//! forbidden, and refusal 12 in its order.

use super::script::{Part, Script};
use crate::areas::Settings;
use crate::bench::SETTINGS;
use crate::frames::{closed, sum};

pub fn add(script: &mut Script) {
    each_setting(script);
    each_message(script);
    forbidden_writes(script);
    wrong_sums(script);
    sums_with_zeros(script);
    marks_elsewhere(script);
    other_stations(script);
    other_shapes(script);
    error_replies(script);
    small_letters(script);
    left_untested(script);
}

const ALLOWED: Settings = SETTINGS;
const FORBIDDEN: Settings = Settings { unchecked: 0, ..SETTINGS };

/// All twelve messages, each accepted on a board of two points.
const MESSAGES: [&str; 12] = [
    "2000123456789",
    "208",
    "24400200101001E001E00640000C350",
    "209001002",
    "246002001",
    "24E0012C0141",
    "2100012C01",
    "24C000C801FFFFFFFF",
    "20E000C801",
    "24B0002581",
    "20D0002580001",
    "21201",
];

/// The command with '@@' at the bench's station.
fn marked(script: &mut Script, id_and_content: &str) {
    script.line(&["!99", id_and_content, "@@"].concat());
}

/// The same frames where '@@' is forbidden, and where it is allowed.
fn under_both(script: &mut Script, frames: impl Fn(&mut Script)) {
    for settings in [FORBIDDEN, ALLOWED] {
        script.settings(settings);
        frames(script);
    }
}

/// '@@' and a true SC under each value: 0 alone forbids.
fn each_setting(script: &mut Script) {
    script.board_with(1, 540, FORBIDDEN);
    for unchecked in [0, 1, 0x80, 0xFF, 0, 2, 0xFE] {
        script.settings(Settings { unchecked, ..SETTINGS });
        script.line("!99208@@");
    }
    for unchecked in [0, 0x80] {
        script.settings(Settings { unchecked, ..SETTINGS });
        script.line("!992082D");
    }
}

/// Accepted with a true SC where '@@' is forbidden, and with '@@' where it is allowed.
fn each_message(script: &mut Script) {
    script.board_with(2, 580, FORBIDDEN);
    script.ask_all(&MESSAGES);
    script.steps_back(2);
    script.board_with(2, 580, Settings { unchecked: 0xFF, ..SETTINGS });
    for message in MESSAGES {
        marked(script, message);
    }
    script.steps_back(2);
}

/// 12 for each message, whatever it would write; what was there stays, and a step back takes it.
fn forbidden_writes(script: &mut Script) {
    script.board_with(2, 580, FORBIDDEN);
    script.ask_all(&["24E0012C0130", "24C000C80100000047"]);
    for message in MESSAGES {
        marked(script, message);
    }
    script.ask_all(&["2100012C01", "20E000C801"]);
    script.step_back();
    script.settings(Settings { release: 2, ..FORBIDDEN });
    marked(script, "24e0012c01aF");
    script.ask("24e0012c01aF");
    script.steps_back(2);
}

/// 7 under either setting: another digit, one mark, no digits; 12D is the sum.
fn wrong_sums(script: &mut Script) {
    script.board(1, 540);
    under_both(script, |script| {
        for sc in ["2E", "2d", "@D", "2@", "@5", "5@", "@ ", "``"] {
            script.line(&["!99208", sc].concat());
        }
    });
    under_both(script, |script| script.line("!9924E0012C014100"));
}

/// Sums that end in 05, 50 and 00: a mark isn't the digit 0, and '@@' isn't true.
fn sums_with_zeros(script: &mut Script) {
    script.board(1, 540);
    under_both(script, |script| {
        for (low, scs) in [(0x05, ["05", "@5"]), (0x50, ["50", "5@"]), (0x00, ["@0", "@@"])] {
            let mut before = b"!99200000000000".to_vec();
            let last = 0x100 + low - sum(&before) % 0x100;
            before.push(last as u8);
            for sc in scs {
                script.frame(&[before.as_slice(), sc.as_bytes(), b"\r\n"].concat());
            }
        }
    });
}

/// Marks that don't stand for the SC.
fn marks_elsewhere(script: &mut Script) {
    script.board_with(1, 540, FORBIDDEN);
    script.ask_all(&["200@@@@@@@@@@", "200@@\r\n@@\r\n@@", "24E0012C01@@", "@@@", "208@@"]);
    script.frame(&closed(b"!@@208".to_vec()));
}

/// 12 and 7 come before 8, and what the sum test says is told with 8 too; 2C is true.
fn other_stations(script: &mut Script) {
    script.board(1, 540);
    under_both(script, |script| {
        for line in ["!98208@@", "!982082C", "!982082D", "!982082@"] {
            script.line(line);
        }
    });
}

/// 6 leaves the sum untested: '@@', a true SC, a wrong one; and 200H, of 20 bytes alone tested.
fn other_shapes(script: &mut Script) {
    script.board(1, 540);
    under_both(script, |script| {
        for frame in ["?99208@@\r\n", "!99208@@\n\r", "!99208@\r\n", "@@\r\n", "!992082E\n\r"] {
            script.frame(frame.as_bytes());
        }
        script.frame(&closed(b"?99208".to_vec()));
        for line in
            ["0000000000@@", "00000000000@@", "000000000@@", "0000000000  ", "00000000000  "]
        {
            script.line(&["!99200", line].concat());
        }
    });
    script.settings(FORBIDDEN);
    script.ask_all(&["20000000000000", "2000000000000"]);
}

/// 101 to 108 with a true SC and with '@@'.
fn error_replies(script: &mut Script) {
    script.board(1, 540);
    under_both(script, |script| {
        for faulty in [
            "299",
            "212g1",
            "2080",
            "2100112C01",
            "246001000",
            "246002001",
            "24400100100000000000000",
            "24B0002582",
        ] {
            script.ask(faulty);
            marked(script, faulty);
        }
    });
}

/// A small letter in the SC is true under release 2 and wrong under release 1; 13E is the sum.
fn small_letters(script: &mut Script) {
    script.board(1, 540);
    for (release, unchecked) in [(1, 0), (2, 0), (2, 0x80)] {
        script.settings(Settings { station: 0xAB, release, unchecked, ..SETTINGS });
        for line in ["!AB2083E", "!AB2083e", "!ab208@@", "!ab2087e", "!AB2083`"] {
            script.line(line);
        }
    }
}

/// From 13 to 1, each added to the ones before: none of them tests the sum.
fn left_untested(script: &mut Script) {
    script.board(1, 540);
    script.ask("24E0012C0141");
    let frames = |script: &mut Script, wrong: Settings| {
        for unchecked in [0, 1] {
            script.settings(Settings { unchecked, ..wrong });
            script.line("!99208@@");
            script.line("!992082E");
        }
    };
    let no_release = Settings { release: 0, ..SETTINGS };
    let no_axis = Settings { fitted: 0, ..no_release };
    frames(script, no_release);
    frames(script, no_axis);
    script.used(1);
    frames(script, no_axis);
    script.lend(Part::Integers, 399);
    frames(script, no_axis);
    script.lend(Part::Columns, 699);
    frames(script, no_axis);
    script.lend(Part::Points, 39);
    frames(script, no_axis);
    script.lend(Part::Reply, 1_023);
    frames(script, no_axis);
}
