//! Hosts with small letters (document 02, l): each place of a frame under both releases, replies in
//! capitals, sums of what was sent, and refusal 13 in its order.

use super::script::{Part, Script};
use crate::areas::Settings;
use crate::bench::SETTINGS;
use crate::frames::{closed, sc};

pub fn add(script: &mut Script) {
    one_small_letter(script);
    ids(script);
    columns_and_integers(script);
    points(script);
    flags(script);
    axis_status(script);
    test_calls(script);
    sums(script);
    beside_the_digits(script);
    error_replies(script);
    steps_back(script);
    capitals_under_both(script);
    other_releases(script);
    thirteen_in_its_order(script);
}

/// A station with two letters; '@@' is allowed by another value than 1.
const AB: Settings = Settings { station: 0xAB, unchecked: 0x80, ..SETTINGS };

fn release_2(settings: Settings) -> Settings {
    Settings { release: 2, ..settings }
}

/// Three points, a station with letters, under release 2.
fn board(script: &mut Script) {
    script.board_with(3, 620, release_2(AB));
}

/// A frame of these bytes and this SC.
fn with_sc(script: &mut Script, before: &str, sc: &str) {
    script.frame(&[before, sc, "\r\n"].concat().into_bytes());
}

/// A frame of these bytes and the SC that is true of other ones.
fn with_sum_of(script: &mut Script, before: &str, summed: &str) {
    let sc = sc(summed.as_bytes());
    script.frame(&[before.as_bytes(), &sc, b"\r\n"].concat());
}

/// In ID, station, content and SC each, under 1 and under 2.
fn one_small_letter(script: &mut Script) {
    for settings in [AB, release_2(AB)] {
        script.board_with(3, 620, settings);
        script.ask_all(&["24E003E701F2", "24e003E701F2"]);
        for station in ["AB", "aB", "Ab", "ab"] {
            script.frame(&closed(["!", station, "208"].concat().into_bytes()));
        }
        script.ask_all(&["24E003e701F2", "24E003E701f2", "24E003E701F2"]);
        // 13E and 1C5 are the sums, and of 212AF 1C0.
        for (before, sc) in [("!AB208", "3e"), ("!AB212FF", "c5"), ("!AB212AF", "c0")] {
            with_sc(script, before, sc);
        }
        // 1AF: either letter, both.
        for sc in ["AF", "aF", "Af", "af"] {
            with_sc(script, "!AB212A5", sc);
        }
        script.step_back();
    }
}

/// Each message that has a letter in its ID; where it is accepted the reply has a capital.
fn ids(script: &mut Script) {
    for settings in [SETTINGS, release_2(SETTINGS)] {
        script.board_with(1, 540, settings);
        script.ask_all(&["24b0002581", "24c000C80112345678", "24e0012C0141"]);
        script.ask_all(&["20d0002580001", "20e000C801"]);
        script.steps_back(2);
    }
    // Unknown in small letters as in capitals.
    script.ask_all(&["24a", "24d", "20c", "20f", "2aa", "b00", "f4e"]);
}

/// What is stored is the value; start and count are replied in capitals.
fn columns_and_integers(script: &mut Script) {
    board(script);
    script.ask_all(&["24E0012C034a4b4c", "2100012C03", "2100012c03", "24e003e602aFfA"]);
    script.ask_all(&["210003e602", "210003E602", "2100012cff"]);
    script.ask_all(&["24C000C802deadbeef0A0b0C0d", "20E000C802", "20e000c802"]);
    script.ask_all(&["24c000ca01ABCDEFab", "20e000c903", "20E000cA01"]);
    // A count of ten: 0a.
    script.ask_all(&["24E0012C0a0102030405060708090a", "2100012c0a", "20e000c80a"]);
    script.steps_back(3);
}

/// Every field of a point in small letters: one axis, then eight, then a frame full of points.
fn points(script: &mut Script) {
    board(script);
    script.ask_all(&["24400100101aabbccddeeffabcdef01", "209001003"]);
    let eight = "fedcba98".repeat(8);
    script.ask_all(&[&format!("244002001ff000a000b000c{eight}"), "209001003", "208"]);
    script.ask_all(&["24400300180FfFfEeEeDdDdCcCcBbBb", "209003001", "246003001"]);
    script.steps_back(2);
    script.board_with(50, 2_500, release_2(AB));
    let point = "80abcdefabcdefabcdefab";
    script.ask_all(&[&format!("24400102d{}", point.repeat(45)), "20900102d", "208"]);
    script.ask_all(&["24600a00a", "20900100d", "20900A00b"]);
    script.step_back();
}

fn flags(script: &mut Script) {
    board(script);
    // Flags 605 (25DH) and 699 (2BBH).
    script.ask_all(&["24B00025d1", "24b0002bb1", "20D00025d0001", "20d0002580064"]);
    script.ask_all(&["20D000258000a", "24b0002Bb0", "20d0002bb000A"]);
    script.steps_back(2);
}

fn axis_status(script: &mut Script) {
    board(script);
    script.spoil_run(Part::Axes, 0, &[0xAB, 0x0C, 0x0D, 0xEF, 0xFA, 0xBC, 0xDE, 0xF0, 0xAA]);
    script.ask_all(&["21201", "2120f", "212Ff", "212a0"]);
}

/// The ten bytes stay as sent under either release; station and SC go by the rule.
fn test_calls(script: &mut Script) {
    for settings in [AB, release_2(AB)] {
        script.board_with(1, 540, settings);
        script.ask_all(&["200abcdefABCD", "200a!F`g\r\n@0f", "200ffffffffff"]);
        for station in ["aB", "ab"] {
            script.frame(&closed(["!", station, "200abcdefABCD"].concat().into_bytes()));
        }
        // Eight small letters are eight times 20H more, which leaves the low byte; seven don't.
        with_sum_of(script, "!AB200aaaaaaaa00", "!AB200AAAAAAAA00");
        with_sum_of(script, "!AB200aaaaaaa000", "!AB200AAAAAAA000");
    }
}

/// The sum is of the bytes as sent: that of the capitals is refused, but where both are the same.
fn sums(script: &mut Script) {
    board(script);
    for (sent, capitals) in [
        ("!AB24e003E701F2", "!AB24E003E701F2"),
        ("!ab208", "!AB208"),
        ("!AB212ff", "!AB212FF"),
        ("!ab24e003e701f2", "!AB24E003E701F2"),
        ("!AB24E0012C04abcdefab", "!AB24E0012C04ABCDEFAB"),
    ] {
        with_sum_of(script, sent, capitals);
        with_sum_of(script, sent, sent);
        with_sum_of(script, sent, &sent.to_ascii_lowercase());
        with_sc(script, sent, "@@");
    }
    for sc in ["@a", "a@", "  ", "0g", "e3"] {
        with_sc(script, "!AB208", sc);
    }
    script.steps_back(2);
}

/// 'g', '`' and their like are digits in no place under either release.
fn beside_the_digits(script: &mut Script) {
    for settings in [AB, release_2(AB)] {
        script.board_with(3, 620, settings);
        for byte in ["g", "`", "@", "G", "/", ":"] {
            script.ask(&["24", byte, "003E701F2"].concat());
            script.frame(&closed(["!A", byte, "208"].concat().into_bytes()));
            script.ask_all(&[&["24E003E701F", byte].concat(), &["212", byte, "1"].concat()]);
            with_sc(script, "!AB208", &["3", byte].concat());
        }
    }
}

/// Each error reply to a frame with small letters; under release 1 it is 101, or 102.
fn error_replies(script: &mut Script) {
    for settings in [AB, release_2(AB)] {
        script.board_with(3, 620, Settings { fitted: 0x0F, ..settings });
        script.ask_all(&["24a003E701F2", "24eg", "24Eag", "208a", "212a", "24E003e701F2f"]);
        script.ask_all(&["210a012C01", "20d0f02580001", "246001aaa", "24600a001", "246aaa000"]);
        script.ask_all(&["24e0012C00", "20e00fff01", "24b000fff1", "24b00025da", "24B00025df"]);
        script.ask_all(&["244001001ff000a000b000c", "244001001f0000a000b000c00000000"]);
        script.ask(&["244001001f0000a000b000c", &"0000000a".repeat(4)].concat());
    }
}

/// Writes under release 2 taken back under either.
fn steps_back(script: &mut Script) {
    board(script);
    script.ask_all(&["24e0012c02abcd", "24c000c801a1b2c3d4", "24b00025d1"]);
    script.ask("24400200101aabbccddeeffabcdef01");
    script.settings(AB);
    script.steps_back(2);
    script.ask_all(&["24E0012C01EF", "24e0012c01ef"]);
    script.settings(release_2(AB));
    script.ask_all(&["2100012c02", "20e000c801", "20d0002580008", "209001003"]);
    script.steps_back(4);
    script.ask_all(&["2100012c02", "20e000c801"]);
}

/// The bench listing and other capitals, answered the same under both releases.
fn capitals_under_both(script: &mut Script) {
    for settings in [SETTINGS, release_2(SETTINGS)] {
        script.board_with(3, 620, settings);
        script.line("!99200001234567829");
        script.line("!9924400100103001E001E00640000C350FFFFFFFFF3");
        script.line("!99299@@");
        script.ask_all(&["24E0012C044A4B4C4D", "2100012C04", "24C000C801ABCDEF01", "20E000C801"]);
        script.ask_all(&["24B00025D1", "20D000258000A", "212FF", "209001003", "246001001", "208"]);
        script.steps_back(2);
    }
}

/// 13 for every other release; the step back and the finder have none.
fn other_releases(script: &mut Script) {
    script.board_with(3, 620, release_2(SETTINGS));
    script.ask_all(&["24e0012c01ab", "24E0012C01CD"]);
    for release in [0, 3, 255, 4, 12, 128, 0x31, 0x32] {
        script.settings(Settings { release, ..SETTINGS });
        script.ask_all(&["208", "24E0012C0141"]);
        script.find(b"!99208@@\r\n");
    }
    script.step_back();
    script.settings(SETTINGS);
    script.ask("2100012C01");
}

/// 13 with each later refusal, then with each earlier one.
fn thirteen_in_its_order(script: &mut Script) {
    script.board(2, 580);
    script.ask("24E0012C0141");
    script.settings(Settings { release: 3, ..SETTINGS });
    script.ask_all(&["299", "24E0012C014g", "208a", "2100112C01", "246001000", "246003001"]);
    script.ask_all(&["24400100100000000000000", "24B0002582"]);
    script.line("!98208@@");
    script.line("!99208  ");
    script.frame(b"?99208@@\r\n");
    script.frame(b"");
    script.settings(Settings { release: 0, fitted: 0, ..SETTINGS });
    script.ask("208");
    script.frame(b"?99208@@\r\n");
    script.settings(Settings { release: 0, ..SETTINGS });
    script.lend(Part::Axes, 71);
    script.ask("208");
    script.lend(Part::Axes, 72);
    script.spoil(Part::Axes, 1, 0x10);
    script.ask("208");
    script.spoil(Part::Axes, 1, 0x0F);
    script.ask("208");
    script.used(1);
    script.ask("208");
    script.used(6);
    script.lend(Part::Flags, 299);
    script.ask("208");
    script.lend(Part::Columns, 699);
    script.ask("208");
    script.lend(Part::Points, 79);
    script.ask("208");
    script.lend(Part::Reply, 1_023);
    script.ask("208");
}
