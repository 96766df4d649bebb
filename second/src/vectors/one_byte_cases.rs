//! What the sum really catches (document 02, n): one byte of a frame with a true SC changed, under each
//! release; and what it doesn't catch.

use super::script::Script;
use crate::areas::Settings;
use crate::bench::SETTINGS;
use crate::frames::closed;

pub fn add(script: &mut Script) {
    for settings in [SETTINGS, FORBIDDEN_2] {
        script.board_with(1, 540, settings);
        caught(script);
        script.ask("2100012C02");
    }
    size_of_an_sc_letter(script);
    not_caught(script);
    marked(script);
    on_a_line(script);
}

/// Release 2, '@@' forbidden.
const FORBIDDEN_2: Settings = Settings { release: 2, unchecked: 0, ..SETTINGS };

/// Columns 300 and 301 become 5D and FF; the sum is 3ABH.
const WRITE: &[u8] = b"!9924E0012C025DFFAB\r\n";

/// The frame with this byte at this place.
fn with(frame: &[u8], at: usize, byte: u8) -> Vec<u8> {
    let mut changed = frame.to_vec();
    changed[at] = byte;
    changed
}

/// In each part of a frame; by 80H; a letter's size; one '@'; and a 200H made or unmade.
fn caught(script: &mut Script) {
    for (at, byte) in [
        (0, b'"'),
        (2, b'8'),
        (5, b'C'),
        (13, 0xB5),
        (15, b'f'),
        (16, b'E'),
        (17, b'B'),
        (18, b'@'),
        (18, b'C'),
        (19, b'\n'),
        (20, b'\r'),
    ] {
        script.frame(&with(WRITE, at, byte));
    }
    // 208H and 209H made 200H are 6; a 20DH has a 200H's length, and a 200H made another is 7.
    script.line("!992002D");
    script.line("!9920000100150");
    script.frame(&with(&closed(b"!9920D0002580001".to_vec()), 5, b'0'));
    script.line("!99208001234567829");
}

/// Not read under release 2, whatever comes of the frame; 7 under release 1.
fn size_of_an_sc_letter(script: &mut Script) {
    for settings in [SETTINGS, FORBIDDEN_2] {
        script.board_with(1, 540, settings);
        for sc in ["AB", "aB", "Ab", "ab"] {
            script.line(&["!9924E0012C025DFF", sc].concat());
        }
        for line in ["!992082d", "!982082c", "!992072c", "!99200000000000:0f"] {
            script.line(line);
        }
    }
    script.steps_back(2);
}

/// Two bytes changed so that the SC is true, and two exchanged: something else is stored.
fn not_caught(script: &mut Script) {
    script.board_with(1, 540, Settings { unchecked: 0, ..SETTINGS });
    for line in [
        "!9924E0012C025DFFAB",
        "!9924E0012C026CFFAB",
        "!9924E0012C025DFEAA",
        "!9924E0012C02D5FFAB",
        "!9924E0021C025DFFAB",
        "!9942E0012C025DFFAB",
    ] {
        script.line(line);
    }
    script.ask_all(&["2100012C02", "2100021C02"]);
}

/// '@@' with a byte changed: each number that may come of it; where it is forbidden 6, 7 and 12.
fn marked(script: &mut Script) {
    let marked = b"!9924E0012C0141@@\r\n";
    script.board(1, 540);
    for (at, byte) in [
        (0, b' '),
        (1, b'8'),
        (4, b'5'),
        (5, b'B'),
        (6, b'1'),
        (8, b'4'),
        (10, b'D'),
        (12, b'2'),
        (13, b'/'),
        (14, b'F'),
        (15, b'0'),
        (18, b'\0'),
    ] {
        script.frame(&with(marked, at, byte));
    }
    script.settings(FORBIDDEN_2);
    for (at, byte) in [(0, b' '), (5, b'B'), (14, b'F'), (15, b'0')] {
        script.frame(&with(marked, at, byte));
    }
}

/// A changed header or line end isn't handed over as this frame; a 200H may have another inside.
fn on_a_line(script: &mut Script) {
    script.find(b"\"992082D\r\n!992082D\r\n");
    script.find(b"!992082DS\n!9924E0012C01410A\r\n");
    script.find(b"!992002D\r\n!992082D\r\n");
    script.find(b" 99200!992082D\r\n2D\r\n");
    script.frame(b"!992082DS\n!9924E0012C01410A\r\n");
}
