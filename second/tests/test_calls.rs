//! Test calls with line ends in them (document 02, c): found by their 20 bytes, answered with the ten
//! bytes unchanged, skipped where they don't end, and all other frames found as before.

use second::bench::{command, Bench};
use second::differential::dice::Dice;
use second::frames::{closed, find, LONGEST_FRAME};
use second::Found;

/// Ten bytes: digits, line ends, '!', heads of test calls, a whole short frame.
const TEXTS: [&[u8; 10]; 14] = [
    b"0012345678",
    b"\r\n\r\n\r\n\r\n\r\n",
    b"\n\r\n\r\n\r\n\r\n\r",
    b"\r\n12345678",
    b"12345678\r\n",
    b"1234\r\n5678",
    b"\r\r\r\r\r\r\r\r\r\r",
    b"\n12345678\r",
    b"!!!!!!!!!!",
    b"!99200\r\n34",
    b"1234!99200",
    b"\r\n!!!200\r\n",
    b"\r\n!\r\n200\r\n",
    b"!99208@@\r\n",
];

/// Bytes without '!' that may stand before a frame.
fn junk() -> [Vec<u8>; 6] {
    let long = vec![b'0'; 2_000];
    [vec![], b"\r\n".to_vec(), b"\n".to_vec(), b"99200".to_vec(), b"#99\r\n\r".to_vec(), long]
}

/// The same frame with '@@' for its SC.
fn marked(mut frame: Vec<u8>) -> Vec<u8> {
    let at = frame.len() - 4;
    frame[at..at + 2].copy_from_slice(b"@@");
    frame
}

fn test_call(station: u8, text: &[u8]) -> Vec<u8> {
    command(station, &[b"200", text].concat())
}

fn frame_at(start: usize, length: usize) -> Found {
    Found::Frame { start, length, used: start + length }
}

// ---- found whole and answered ----

/// Both frames of this text, true SC and '@@', are found after all junk and say the text back.
fn comes_back(station: u8, text: &[u8]) {
    let mut bench = Bench::fresh(2, 580);
    bench.settings.station = station;
    let fresh = bench.board.clone();
    let reply = closed(format!("#{station:02X}200").bytes().chain(text.to_vec()).collect());
    let frame = test_call(station, text);
    for frame in [frame.clone(), marked(frame)] {
        assert_eq!(frame.len(), 20);
        for junk in junk() {
            let line = [junk.as_slice(), &frame, b"\r\n!"].concat();
            assert_eq!(find(&line[..junk.len() + 20]), frame_at(junk.len(), 20), "{text:?}");
            assert_eq!(find(&line), frame_at(junk.len(), 20), "{text:?}");
            assert_eq!(bench.receive(&line[..junk.len() + 20]), reply, "{text:?}");
        }
        assert_eq!(bench.hand(&frame), (0, reply.clone()), "{text:?}");
    }
    assert_eq!(bench.board, fresh);
}

#[test]
fn any_ten_bytes_come_back_unchanged() {
    for station in [0x99, 0x00, 0x0A, 0x20, 0xFF] {
        for text in TEXTS {
            comes_back(station, text);
        }
    }
}

#[test]
fn drawn_ten_bytes_come_back_unchanged() {
    let mut dice = Dice::new(200);
    for _ in 0..500 {
        let station = dice.byte();
        let few = dice.pick(&[&b"\r\n"[..], b"\r\n!", b"!\r\n20", b"!920\r\n@"]);
        comes_back(station, &dice.bytes_of(few, 10));
        comes_back(station, &dice.bytes(10));
    }
}

#[test]
fn the_two_bytes_may_be_any_but_cr_lf() {
    let of = |two: &[u8]| [b"!", two, b"200\r\n345678\r\n@@\r\n"].concat();
    for two in [b"99", b"\r\r", b"\n\r", b"9\r", b"\n\n", b"\n9", b"!!", b"!9", b"\x00\xFF"] {
        assert_eq!(find(&of(two)), frame_at(0, 20), "{two:?}");
    }
    // Document 01's rule: the two end a frame of 3 bytes.
    assert_eq!(find(&of(b"\r\n")), frame_at(0, 3));
    assert_eq!(find(&[b"ab", of(b"\r\n").as_slice()].concat()), frame_at(2, 3));
    assert_eq!(Bench::fresh(2, 580).receive(&of(b"\r\n")), b"");
}

#[test]
fn two_test_calls_after_each_other_are_two_frames() {
    let [first, second] = [test_call(0x99, b"\r\n!99200\r\n"), test_call(0x99, b"!99200!992")];
    let line = [first, second].concat();
    assert_eq!(find(&line), frame_at(0, 20));
    assert_eq!(find(&line[20..]), frame_at(0, 20));
    assert_eq!(Bench::fresh(2, 580).receive(&line).len(), 40);
}

// ---- cut ----

#[test]
fn a_cut_test_call_waits() {
    for text in TEXTS {
        let frame = test_call(0x99, text);
        for junk in junk() {
            for length in 1..20 {
                let line = [&junk, &frame[..length]].concat();
                assert_eq!(find(&line), Found::Wait { drop: junk.len() }, "{length} of {text:?}");
            }
        }
    }
}

#[test]
fn before_six_bytes_the_rule_of_document_01_stands() {
    for (line, found) in [
        (&b"!\r\n"[..], frame_at(0, 3)),
        (b"!\r\n20", frame_at(0, 3)),
        (b"!\r\n200", frame_at(0, 3)),
        (b"!9\r\n", frame_at(0, 4)),
        (b"!9\r\n0", frame_at(0, 4)),
        (b"!99\r\n", frame_at(0, 5)),
        (b"x!992\r\n", frame_at(1, 6)),
        (b"x!9920\r\n", frame_at(1, 7)),
        (b"!9920\r", Found::Wait { drop: 0 }),
        (b"!!!20", Found::Wait { drop: 0 }),
        // Six bytes make it a test call.
        (b"!99200", Found::Wait { drop: 0 }),
        (b"!99200\r\n", Found::Wait { drop: 0 }),
    ] {
        assert_eq!(find(line), found, "{line:?}");
    }
}

#[test]
fn twenty_bytes_no_longer_wait() {
    let mut line = b"x!9920000123456782".to_vec();
    for byte in b"9\r" {
        line.push(*byte);
        assert_eq!(find(&line), Found::Wait { drop: 1 });
    }
    assert_eq!(find(&[line.as_slice(), b"\n"].concat()), frame_at(1, 20));
    for last in [b'\r', b'!', b'0', 0x8A] {
        let found = find(&[line.as_slice(), &[last]].concat());
        let expected = match last {
            b'!' => Found::Wait { drop: 20 },
            _ => Found::Nothing { drop: 21 },
        };
        assert_eq!(found, expected, "{last}");
    }
}

// ---- skipped ----

/// A head of a test call, and so many bytes after it without '!' or line ends.
fn head(fill: usize) -> Vec<u8> {
    [b"!99200".as_slice(), &vec![b'.'; fill]].concat()
}

#[test]
fn a_test_call_inside_a_skipped_one_is_found() {
    for fill in 0..=14 {
        for before in junk() {
            let inner = test_call(0x99, b"0012345678");
            let line = [before.as_slice(), &head(fill), &inner].concat();
            assert_eq!(find(&line), frame_at(before.len() + 6 + fill, 20), "{fill}");
            let reply = b"#9920000123456782B\r\n";
            assert_eq!(Bench::fresh(2, 580).receive(&line), reply, "{fill}");
        }
    }
}

#[test]
fn another_frame_inside_a_skipped_one_is_found() {
    for fill in 0..=14 {
        let inner = b"!99208@@\r\n##########";
        let line = [b"ab", head(fill).as_slice(), inner].concat();
        // With four bytes before it the inner frame's end is the test call's own.
        let expected = match fill {
            4 => frame_at(2, 20),
            _ => frame_at(2 + 6 + fill, 10),
        };
        assert_eq!(find(&line), expected, "{fill}");
    }
    // The longest frame, and one whose station bytes are CR LF.
    let longest = command(0x99, "2".repeat(1_016).as_bytes());
    assert_eq!(find(&[head(5), longest].concat()), frame_at(11, 1_023));
    assert_eq!(find(&[head(5).as_slice(), b"!\r\n200......"].concat()), frame_at(11, 3));
}

#[test]
fn a_wait_inside_a_skipped_one_drops_what_stood_before_it() {
    for fill in 0..=14 {
        for inner in [&b"!"[..], b"!99", b"!99200", b"!99200\r\n", b"!99208@@\r", b"!!!20"] {
            let line = [b"ab", head(fill).as_slice(), inner].concat();
            let expected = match line.get(2..2 + 20) {
                None => Found::Wait { drop: 2 }, // the outer one is cut
                Some(outer) if outer.ends_with(b"\r\n") => frame_at(2, 20),
                Some(_) => Found::Wait { drop: 2 + 6 + fill },
            };
            assert_eq!(find(&line), expected, "{fill} {inner:?}");
        }
    }
}

#[test]
fn a_too_long_inside_a_skipped_one_drops_up_to_its_own_mark() {
    for fill in 0..=14 {
        let window = |length: usize| [head(fill), vec![b'!'], vec![b'0'; length - 1]].concat();
        let inner = 6 + fill;
        assert_eq!(find(&window(1_022)), Found::Wait { drop: inner }, "{fill}");
        assert_eq!(find(&window(1_023)), Found::TooLong { drop: inner + 1 }, "{fill}");
        let ended = [window(1_023).as_slice(), b"\r\n"].concat();
        assert_eq!(find(&ended), Found::TooLong { drop: inner + 1 }, "{fill}");
    }
    // A skipped '!' isn't too long itself, though no CR LF stands in 1,023 bytes.
    let line = [b"ab", head(LONGEST_FRAME).as_slice()].concat();
    assert_eq!(find(&line), Found::Nothing { drop: line.len() });
}

#[test]
fn with_no_further_mark_everything_is_dropped() {
    for fill in [14, 15, 100, 5_000] {
        for junk in junk() {
            let line = [junk, head(fill)].concat();
            assert_eq!(find(&line), Found::Nothing { drop: line.len() }, "{fill}");
            let ended = [line.as_slice(), b"\r\n"].concat();
            assert_eq!(find(&ended), Found::Nothing { drop: ended.len() }, "{fill}");
        }
    }
}

#[test]
fn bytes_19_and_20_alone_end_a_test_call() {
    // A pair one byte early or late, and each half of it.
    for end in [b"\r\n@@0", b"@\r\n@0", b"@@0\r\n", b"@@\r0\n", b"@@\n\r0", b"@@\r\r\n", b"@@0\n0"]
    {
        let line = [b"!992000012345678", &end[..]].concat();
        assert_eq!(find(&line), Found::Nothing { drop: 21 }, "{end:?}");
    }
    assert_eq!(find(b"!992000012345678\r\n\r\n0"), frame_at(0, 20));
}

#[test]
fn marks_are_looked_at_one_after_the_other() {
    // '!!!200': only the first is a test call's; the second's line ends at CR LF.
    assert_eq!(find(b"!!!20001234567829??"), Found::Wait { drop: 0 });
    assert_eq!(find(b"!!!20001234567829???"), Found::Wait { drop: 1 });
    assert_eq!(find(b"x!!!20001234567829???\r\n"), frame_at(2, 21));
    // Many skipped ones, then each kind of end.
    let run = b"!99200".repeat(1_000);
    let with = |end: &[u8]| find(&[run.as_slice(), end].concat());
    assert_eq!(with(b""), Found::Wait { drop: 6_000 - 18 });
    assert_eq!(with(b"!"), Found::Wait { drop: 6_000 - 18 });
    assert_eq!(with(b"!9"), Found::Wait { drop: 6_000 - 12 });
    assert_eq!(with(b"\r\n"), frame_at(6_000 - 18, 20));
    assert_eq!(with(&[b'0'; 14]), Found::Nothing { drop: 6_014 });
    assert_eq!(with(b"!99208@@\r\n"), Found::Wait { drop: 6_000 - 6 });
    assert_eq!(with(b"!99208@@\r\n...."), frame_at(6_000, 10));
    assert_eq!(with(&[b'!'; 1_040]), Found::TooLong { drop: 6_001 });
}

// ---- as before ----

/// Document 01's own finder, before request c.
fn found_before(received: &[u8]) -> Found {
    let Some(start) = received.iter().position(|&byte| byte == b'!') else {
        return Found::Nothing { drop: received.len() };
    };
    let looked_at = &received[start..received.len().min(start + LONGEST_FRAME)];
    match looked_at.windows(2).position(|pair| pair == b"\r\n") {
        Some(pair) => frame_at(start, pair + 2),
        None if looked_at.len() == LONGEST_FRAME => Found::TooLong { drop: start + 1 },
        None => Found::Wait { drop: start },
    }
}

/// Drawn pieces of frames, one after the other.
fn drawn_line(dice: &mut Dice) -> Vec<u8> {
    const PIECES: [&[u8]; 16] = [
        b"!",
        b"!",
        b"\r\n",
        b"\r\n",
        b"\r",
        b"\n",
        b"200",
        b"99",
        b"!99200",
        b"!99208@@\r\n",
        b"0",
        b"!!",
        b"0012345678",
        b"@@\r\n",
        b".",
        b"!99201",
    ];
    let mut line = Vec::new();
    for _ in 0..dice.roll(14) {
        line.extend(dice.pick(&PIECES));
    }
    if dice.one_in(8) {
        line.extend(vec![dice.pick(b"0!\r"); dice.between(1_000, 1_030)]);
        line.extend(dice.pick(&[&b""[..], b"\r\n"]));
    }
    line
}

#[test]
fn every_other_frame_is_found_as_before() {
    let mut dice = Dice::new(20);
    let (mut frames, mut test_calls) = (0, 0);
    for _ in 0..100_000 {
        let line = drawn_line(&mut dice);
        let (before, now) = (found_before(&line), find(&line));
        if let Found::Frame { start, length, .. } = before {
            // A frame of three bytes has no ID, whatever follows it.
            match line[start..start + length].get(3..6) == Some(b"200") {
                true => test_calls += 1,
                false => {
                    assert_eq!(now, before, "{line:?}");
                    frames += 1;
                }
            }
        }
        // Without a '200' the answer is document 01's, whatever it is.
        if !line.windows(3).any(|id| id == b"200") {
            assert_eq!(now, before, "{line:?}");
        }
    }
    assert!(frames > 30_000 && test_calls > 3_000, "{frames} {test_calls}");
}

#[test]
fn what_is_found_has_the_shape_that_the_documents_say() {
    let mut dice = Dice::new(21);
    for _ in 0..100_000 {
        let line = drawn_line(&mut dice);
        match find(&line) {
            Found::Frame { start, length, used } => {
                let frame = &line[start..used];
                assert_eq!(length, frame.len());
                assert!(frame.starts_with(b"!") && frame.ends_with(b"\r\n") && length <= 1_023);
                let is_test_call = frame.get(3..6) == Some(b"200");
                assert!(!is_test_call || length == 20, "{line:?}");
            }
            Found::Nothing { drop } => assert_eq!(drop, line.len()),
            Found::Wait { drop } => assert!(line[drop] == b'!' && line.len() - drop < 1_023),
            Found::TooLong { drop } => assert!(line[drop - 1] == b'!'),
        }
    }
}

#[test]
fn a_line_gives_the_same_replies_however_it_is_cut() {
    let mut dice = Dice::new(22);
    for _ in 0..2_000 {
        let mut line = Vec::new();
        for _ in 0..dice.between(1, 4) {
            line.extend(drawn_line(&mut dice));
            let text = dice.bytes_of(b"!\r\n20", 10);
            line.extend(test_call(0x99, &text));
        }
        let replies = Bench::fresh(2, 580).receive(&line);
        let mut cut = Bench::fresh(2, 580);
        let longest = dice.pick(&[1, 1, 3, 30]);
        let mut pieces = Vec::new();
        let mut rest = line.as_slice();
        while !rest.is_empty() {
            let (piece, after) = rest.split_at(dice.between(1, longest).min(rest.len()));
            pieces.extend(cut.receive(piece));
            rest = after;
        }
        assert_eq!(pieces, replies, "{line:?}");
    }
}
