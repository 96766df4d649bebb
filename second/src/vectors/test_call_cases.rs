//! Test calls with line ends in them (document 02, c): found, cut, skipped, answered, of another length.

use super::script::{Script, STATION};
use crate::areas::Settings;
use crate::bench::{command, SETTINGS};
use crate::frames::{closed, LONGEST_FRAME};

pub fn add(script: &mut Script) {
    found_whole(script);
    cut(script);
    station_bytes(script);
    last_two_bytes(script);
    inside_a_skipped_one(script);
    runs_of_heads(script);
    answered(script);
    of_another_length(script);
}

const HEAD: &[u8] = b"!99200";
const LINE_ENDS: &[u8] = b"\r\n\r\n\r\n\r\n\r\n";
/// Ten bytes each: line ends at any place, '!', heads of test calls, a whole short frame.
const TEXTS: [&[u8]; 8] = [
    LINE_ENDS,
    b"\r\n12345678",
    b"1234\r\n5678",
    b"12345678\r\n",
    b"!!\r\n!!\r\n!!",
    b"\r\n!99200\r\n",
    b"!\r\n200\r\n00",
    b"!99208@@\r\n",
];

fn test_call(text: &[u8]) -> Vec<u8> {
    command(STATION, &[b"200", text].concat())
}

/// The head of a test call and so many bytes without '!' or line ends.
fn head(fill: usize) -> Vec<u8> {
    [HEAD, &vec![b'.'; fill]].concat()
}

fn found_whole(script: &mut Script) {
    for text in TEXTS {
        script.find(&[b"99\r\n", test_call(text).as_slice(), b"!\r\n"].concat());
    }
}

fn cut(script: &mut Script) {
    let frame = test_call(LINE_ENDS);
    for length in 1..frame.len() {
        script.find(&[b"\r\n", &frame[..length]].concat());
    }
    // Before six bytes document 01's rule stands.
    for received in ["!\r\n20", "x!9\r\n0", "!99\r\n", "!992\r\n", "!9920\r\n"] {
        script.find(received.as_bytes());
    }
}

fn station_bytes(script: &mut Script) {
    for two in ["\r\r", "9\r", "\n\r", "\r\n"] {
        script.find(["x!", two, "200\r\n345678\r\n@@\r\n"].concat().as_bytes());
    }
}

/// CR LF as bytes 19 and 20, one byte early or late, and either half.
fn last_two_bytes(script: &mut Script) {
    for end in ["\r\n\r\n0", "@\r\n@0", "@@0\r\n", "@@\n\r0", "@@\r\r\n", "@@0!0"] {
        script.find(["ab!992000012345678", end].concat().as_bytes());
    }
}

fn inside_a_skipped_one(script: &mut Script) {
    let inner = test_call(b"1234\r\n5678");
    for fill in [0, 13, 14] {
        script.find(&[b"ab", head(fill).as_slice(), &inner].concat());
    }
    // With four bytes before it the inner frame's end is the test call's own.
    for fill in [0, 4, 14] {
        script.find(&[b"ab", head(fill).as_slice(), b"!99208@@\r\n......"].concat());
    }
    for waiting in ["!", "!99208@@\r", "!99200\r\n"] {
        script.find(&[b"ab", head(13).as_slice(), waiting.as_bytes()].concat());
    }
    for run in [LONGEST_FRAME - 1, LONGEST_FRAME] {
        script.find(&[head(7), vec![b'!'; run]].concat());
    }
    // No further '!': everything goes, the skipped one too, and it isn't too long.
    for fill in [14, LONGEST_FRAME] {
        script.find(&[b"ab", head(fill).as_slice(), b"\r\n"].concat());
    }
    for received in ["!!!20001234567829???", "x!!!20001234567829???\r\n"] {
        script.find(received.as_bytes());
    }
}

fn runs_of_heads(script: &mut Script) {
    script.find(&HEAD.iter().copied().cycle().take(2_500).collect::<Vec<u8>>());
    for end in ["", "\r\n", "99999999999999", "!99208@@\r\n...."] {
        script.find(&[HEAD.repeat(20).as_slice(), end.as_bytes()].concat());
    }
}

fn answered(script: &mut Script) {
    script.board_with(1, 540, Settings { unchecked: 0xFF, ..SETTINGS });
    for text in TEXTS {
        script.frame(&test_call(text));
    }
    script.frame(&[HEAD, LINE_ENDS, b"@@\r\n"].concat());
    script.frame(&[HEAD, LINE_ENDS, b"00\r\n"].concat());
}

/// Refusal 6, whatever SC and station are; of 20 bytes 7 or 8 look at the frame.
fn of_another_length(script: &mut Script) {
    script.board(1, 540);
    let text = |length: usize| ["200", &"0".repeat(length - 10)].concat();
    for length in [10, 19, 21, 1_023] {
        script.ask(&text(length));
    }
    script.line("!9920000000000000@@");
    script.line("!9920000000000000  ");
    for station in ["98", "9G", "\r\n"] {
        script.frame(&closed(["!", station, &text(21)].concat().into_bytes()));
        script.frame(&closed(["!", station, &text(20)].concat().into_bytes()));
    }
}
