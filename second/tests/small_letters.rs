//! Hosts with small letters (document 02, l): each place of a frame under both releases, sums of the bytes
//! as sent, replies in capitals, and what both releases answer alike.

use second::bench::{command, Bench};
use second::differential::compare::{second as answered, Answer, Call, Lent};
use second::differential::dice::Dice;
use second::differential::{drawn_boards, drawn_frames, drawn_letters, spoil};
use second::frames::{closed, error_reply, sc};
use second::{Board, Outcome};

/// Three points, station ABH, under this release; the reply area full of a byte that no reply has.
fn bench(release: u8) -> Bench {
    let mut bench = Bench::fresh(3, 2_000);
    bench.settings.station = 0xAB;
    bench.settings.release = release;
    bench.reply.fill(0xEE);
    bench
}

/// The numbers that fresh boards of release 1 and 2 give a frame.
fn numbers(frame: &[u8]) -> [u16; 2] {
    [1, 2].map(|release| {
        let mut bench = bench(release);
        let before = bench.board.clone();
        let (number, reply) = bench.hand(frame);
        match number {
            0 => assert!(reply.starts_with(b"#AB")),
            1..=13 => assert_eq!(reply, b""),
            _ => assert_eq!(reply, error_reply(0xAB, number)),
        }
        assert!(number == 0 || bench.board == before);
        number
    })
}

fn with_sc(before: &str, sc: &str) -> Vec<u8> {
    [before, sc, "\r\n"].concat().into_bytes()
}

/// The numbers of a frame of these bytes with an SC true of them.
fn of(before: &str) -> [u16; 2] {
    numbers(&closed(before.into()))
}

/// A frame with these bytes as sent and the SC of others.
fn with_sum_of(sent: &str, summed: &str) -> Vec<u8> {
    [sent.as_bytes(), &sc(summed.as_bytes()), b"\r\n"].concat()
}

// ---- each place ----

#[test]
fn one_small_letter_in_each_place() {
    assert_eq!(of("!AB24E0012C01AF"), [0, 0]);
    assert_eq!(of("!AB24e0012C01AF"), [101, 0]);
    assert_eq!(of("!aB24E0012C01AF"), [8, 0]);
    assert_eq!(of("!Ab24E0012C01AF"), [8, 0]);
    assert_eq!(of("!AB24E0012c01AF"), [102, 0]);
    assert_eq!(of("!AB24E0012C01aF"), [102, 0]);
    assert_eq!(of("!AB24E0012C01Af"), [102, 0]);
    // 21+41+42+32+30+38 is 13E, and of 212A5 1AF.
    assert_eq!(numbers(&with_sc("!AB208", "3E")), [0, 0]);
    assert_eq!(numbers(&with_sc("!AB208", "3e")), [7, 0]);
    for sc in ["aF", "Af", "af"] {
        assert_eq!(numbers(&with_sc("!AB212A5", sc)), [7, 0], "{sc}");
    }
}

#[test]
fn of_several_small_letters_the_earliest_test_refuses_under_release_1() {
    let mut with_letters = 0;
    for value in 0..=255 {
        let sent = format!("!ab24e0012c01{value:02x}");
        let sum = String::from_utf8_lossy(&sc(sent.as_bytes())).into_owned();
        let small = sum.to_ascii_lowercase();
        if small != sum {
            assert_eq!(numbers(&with_sc(&sent, &small)), [7, 0], "{sent}");
            with_letters += 1;
        }
        assert_eq!(numbers(&with_sc(&sent, &sum)), [8, 0], "{sent}");
    }
    assert!(with_letters > 100, "{with_letters}");
    assert_eq!(of("!AB24e0012c01af"), [101, 0]);
    assert_eq!(of("!AB24E0012c01af"), [102, 0]);
}

/// The digit that this byte is under a release, by Rust's own reading.
fn digit(byte: u8, release: u8) -> Option<u32> {
    let small = byte.is_ascii_lowercase();
    (release == 2 || !small).then(|| char::from(byte).to_digit(16)).flatten()
}

#[test]
fn every_byte_in_every_place() {
    for byte in 0..=255u8 {
        let with = |before: &[u8], after: &[u8]| closed([before, &[byte], after].concat());
        let [id, station, content] =
            [with(b"!AB24", b"0012C0141"), with(b"!A", b"208"), with(b"!AB24E0012C014", b"")];
        let sc = [b"!AB2083", &[byte][..], b"\r\n"].concat();
        for release in [1, 2] {
            let given = |frame: &[u8]| numbers(frame)[usize::from(release) - 1];
            let digit = digit(byte, release);
            // Known messages of other layouts.
            let in_id = match digit {
                Some(0xE) => 0,
                Some(0x4 | 0x6 | 0xB | 0xC) => 103,
                _ => 101,
            };
            assert_eq!(given(&id), in_id, "{byte:02X} {release}");
            assert_eq!(given(&station), if digit == Some(0xB) { 0 } else { 8 }, "{byte:02X}");
            assert_eq!(given(&content), if digit.is_some() { 0 } else { 102 }, "{byte:02X}");
            assert_eq!(given(&sc), if digit == Some(0xE) { 0 } else { 7 }, "{byte:02X}");
        }
    }
}

#[test]
fn contents_that_only_release_2_reads_are_refused_further_on() {
    for (text, number) in [
        ("208a", 103),
        ("212a", 103),
        ("24E003e701F2f", 103),
        ("210a012C01", 104),
        ("246aaa000", 105),
        ("246001aaa", 106),
        ("24600a001", 106),
        ("24B00025da", 108),
    ] {
        assert_eq!(of(&["!AB", text].concat()), [102, number], "{text}");
    }
    assert_eq!(of("!AB20e00fff01"), [101, 106]);
    assert_eq!(of("!AB24eg"), [101, 102]);
    assert_eq!(of("!AB24d"), [101, 101]);
    let mut fitted = bench(2);
    fitted.settings.fitted = 0x0F;
    assert_eq!(fitted.ask("244001001a0000a000b000c0000000a0000000a").0, 107);
}

// ---- sums ----

#[test]
fn the_sum_is_of_the_bytes_as_sent() {
    for (sent, capitals) in [
        ("!AB24e0012C01AF", "!AB24E0012C01AF"),
        ("!ab208", "!AB208"),
        ("!AB212ff", "!AB212FF"),
        ("!ab24e003e701f2", "!AB24E003E701F2"),
    ] {
        assert_eq!(numbers(&with_sum_of(sent, capitals)), [7, 7], "{sent}");
        let [marked, summed] =
            [with_sc(sent, "@@"), with_sum_of(sent, sent)].map(|frame| numbers(&frame));
        assert_eq!((marked, summed[1]), (summed, 0), "{sent}");
    }
    // Eight small letters are 100H more: both sums are one.
    let (sent, capitals) = ("!AB24E0012C04abcdefab", "!AB24E0012C04ABCDEFAB");
    assert_eq!(sc(sent.as_bytes()), sc(capitals.as_bytes()));
    assert_eq!(numbers(&with_sum_of(sent, capitals)), [102, 0]);
}

#[test]
fn the_marks_are_as_before() {
    for release in [1, 2] {
        let mut bench = bench(release);
        assert_eq!(bench.hand(b"!AB208@@\r\n").0, 0);
        for sc in ["@a", "a@", "@E", "3@", "``", "  "] {
            assert_eq!(bench.hand(&with_sc("!AB208", sc)).0, 7, "{sc}");
        }
    }
}

// ---- replies in capitals ----

/// The reply to an accepted command under release 2, without its end, whose sum is checked.
fn reply(bench: &mut Bench, station_id_and_content: &str) -> String {
    let sent = closed(["!", station_id_and_content].concat().into_bytes());
    let (number, reply) = bench.hand(&sent);
    assert_eq!(number, 0, "{station_id_and_content}");
    let text = reply[..reply.len() - 4].to_vec();
    assert_eq!(closed(text.clone()), reply);
    assert!(bench.reply[reply.len()..].iter().all(|&byte| byte == 0xEE));
    bench.reply.fill(0xEE);
    String::from_utf8_lossy(&text).into_owned()
}

#[test]
fn every_message_is_replied_in_capitals() {
    let mut bench = bench(2);
    bench.axes[..9].copy_from_slice(&[0xAB, 0x0C, 0x0D, 0xEF, 0xFA, 0xBC, 0xDE, 0xF0, 0xAA]);
    for (sent, replied) in [
        ("ab208", "#AB208000"),
        ("ab24e0012c034a4b4c", "#AB24E"),
        ("aB2100012c03", "#AB2100012C034A4B4C"),
        ("Ab24c000c802deadbeef0a0B0c0D", "#AB24C000C802"),
        ("ab20e000c802", "#AB20E000C802DEADBEEF0A0B0C0D"),
        ("ab24b00025d1", "#AB24B"),
        ("ab20d00025d000a", "#AB20D00025D000A0100"),
        ("ab24400200101aabbccddeeffabcdef01", "#AB244002001"),
        ("ab209001003", "#AB20900100201AABBCCDDEEFFABCDEF01"),
        ("ab246002001", "#AB246"),
        ("ab21201", "#AB21201ABCDEFFABCDEF0AA"),
        ("ab200abcdefABCD", "#AB200abcdefABCD"),
    ] {
        assert_eq!(reply(&mut bench, sent), replied, "{sent}");
    }
}

#[test]
fn start_count_and_numbers_are_replied_in_capitals() {
    let mut bench = Bench::fresh(500, 65_536);
    bench.settings.release = 2;
    bench.reply.fill(0xEE);
    let point = "01000a000b000c000000aa";
    let sent = format!("992441ab00a{}", point.repeat(10));
    assert_eq!(reply(&mut bench, &sent), "#992441AB00A");
    let listed = "#9920900A1AB01000A000B000C000000AA1AC01000A000B000C000000AA1AD01";
    assert!(reply(&mut bench, "992091ab00a").starts_with(listed));
    assert_eq!(reply(&mut bench, "992461ac009"), "#99246");
    let one_left = "#992090011AB01000A000B000C000000AA";
    assert_eq!(reply(&mut bench, "992091ab00a"), one_left);
}

#[test]
fn ten_bytes_stay_as_sent_under_either_release() {
    let mut dice = Dice::new(12);
    for release in [1, 2] {
        let mut bench = bench(release);
        for _ in 0..300 {
            let few = dice.pick(&[&b"abcdef"[..], b"aAfF", b"g`@Ga0\r\n!"]);
            let text = dice.bytes_of(few, 10);
            let (number, reply) = bench.hand(&command(0xAB, &[b"200", text.as_slice()].concat()));
            assert_eq!((number, &reply[..6], &reply[6..16]), (0, &b"#AB200"[..], &text[..]));
        }
    }
}

// ---- what is stored ----

/// Digits in capitals, and the same with some of them small.
fn digits(dice: &mut Dice, count: usize) -> [String; 2] {
    let capitals = dice.digits(count);
    let sent = capitals.iter().map(|digit| match dice.one_in(2) {
        true => digit.to_ascii_lowercase(),
        false => *digit,
    });
    [sent.collect(), capitals].map(|digits: Vec<u8>| String::from_utf8_lossy(&digits).into_owned())
}

#[test]
fn what_was_sent_reads_back_in_capitals() {
    let mut dice = Dice::new(5);
    let mut bench = bench(2);
    for _ in 0..200 {
        let [sent, capitals] = digits(&mut dice, 24);
        reply(&mut bench, &format!("AB24e0012c0c{sent}"));
        assert_eq!(reply(&mut bench, "AB2100012C0C"), format!("#AB2100012C0C{capitals}"));
        reply(&mut bench, &format!("AB24c000c803{sent}"));
        assert_eq!(reply(&mut bench, "AB20E000C803"), format!("#AB20E000C803{capitals}"));
        let [sent, capitals] = digits(&mut dice, 20);
        reply(&mut bench, &format!("AB24400200180{sent}"));
        assert_eq!(reply(&mut bench, "AB209002001"), format!("#AB20900100280{capitals}"));
    }
    // A release 1 board with the same areas holds the same values.
    bench.settings.release = 1;
    let stored = bench.board.columns[0];
    assert_eq!(reply(&mut bench, "AB2100012C01"), format!("#AB2100012C01{stored:02X}"));
}

#[test]
fn writes_with_small_letters_are_entered_and_stepped_back_as_the_capitals() {
    for text in [
        "24E0012C03ABCDEF",
        "24C000C801FEDCBA98",
        "24B00025D1",
        "24400200101AABBCCDDEEFFABCDEF01",
        "246001003",
    ] {
        let [mut capitals, mut small] = [bench(2), bench(2)];
        for bench in [&mut capitals, &mut small] {
            bench.board.points.fill(0x11);
            bench.board.effective = bench.board.effective_slots();
            bench.board.columns.fill(0x22);
            bench.board.integers.fill(0x33);
        }
        let before = small.board.clone();
        assert_eq!(capitals.ask(text), small.ask(&text.to_ascii_lowercase()), "{text}");
        assert_eq!(capitals.board, small.board, "{text}");
        assert_ne!(small.board, before, "{text}");
        // The step back has no release.
        small.settings.release = 3;
        assert_eq!(small.step_back(), 0);
        assert_eq!(small.board, before, "{text}");
    }
}

#[test]
fn a_received_line_in_small_letters_is_answered_as_the_capitals() {
    let listing =
        b"!99200001234567829\r\n!99244001001030a1e001e00640000c350ffffffff@@\r\n!99299@@\r\n";
    let replies = b"#9920000123456782B\r\n#9924400100151\r\n&991012A\r\n";
    let of = |release: u8, line: &[u8]| {
        let mut bench = Bench::fresh(3, 620);
        bench.settings.release = release;
        (bench.receive(line), bench.board)
    };
    assert_eq!(of(2, listing).0, replies);
    assert_eq!(of(2, listing), of(2, &listing.to_ascii_uppercase()));
    assert_eq!(of(1, listing).0, b"#9920000123456782B\r\n&991022B\r\n&991012A\r\n");
    // Without a release that names a rule frames are found, and none is answered.
    assert_eq!(of(3, listing), (Vec::new(), Board::fresh(3, 620)));
}

// ---- drawn ----

/// What a call under this release leaves: its outcome, the board and the reply area.
fn under(release: u8, frame: &[u8], lent: &Lent) -> (Outcome, Board, Vec<u8>) {
    let mut lent = lent.clone();
    lent.settings.release = release;
    let Answer::Answered(outcome) = answered(&Call::Answer { frame: frame.to_vec() }, &mut lent)
    else {
        panic!("a frame is answered");
    };
    (outcome, lent.board, lent.reply)
}

/// A frame of any kind; its letters are drawn for the release that the board has now.
fn any_frame(dice: &mut Dice, lent: &mut Lent) -> Vec<u8> {
    lent.settings.release = dice.pick(&[1, 2]);
    match dice.roll(5) {
        0 => drawn_frames::damaged(dice, lent),
        1 | 2 => drawn_frames::odd_letters(dice, lent),
        _ => drawn_frames::good(dice, lent),
    }
}

#[test]
fn what_release_1_accepts_release_2_answers_with_the_same_bytes() {
    let mut dice = Dice::new(101);
    let (mut accepted, mut by_2_alone) = (0, 0);
    for _ in 0..150 {
        let mut lent = drawn_boards::lent(&mut dice);
        for _ in 0..40 {
            let frame = any_frame(&mut dice, &mut lent);
            let mut copy = lent.clone();
            if dice.one_in(8) {
                spoil::spoil(&mut dice, &mut copy);
            }
            let [first, second] = [1, 2].map(|release| under(release, &frame, &copy));
            // What doesn't look at a digit is the same in any case.
            if matches!(first.0.number, 0..=6 | 10) {
                assert_eq!(first, second, "{frame:?}");
                accepted += usize::from(first.0.number == 0);
            } else if second.0.number == 0 {
                assert!(frame.iter().any(u8::is_ascii_lowercase), "{frame:?}");
                by_2_alone += 1;
            }
            if copy == lent {
                (_, lent.board, lent.reply) = second;
            }
        }
    }
    assert!(accepted > 2_000 && by_2_alone > 500, "{accepted} {by_2_alone}");
}

/// What the frame in capitals leaves, with the ten bytes of a 200H as they were sent in this one.
fn with_ten_of(frame: &[u8], left: (Outcome, Board, Vec<u8>)) -> (Outcome, Board, Vec<u8>) {
    let (outcome, board, mut reply) = left;
    if outcome.number == 0 && &frame[3..6] == b"200" {
        let text = closed([&reply[..6], &frame[6..16]].concat());
        reply[..20].copy_from_slice(&text);
    }
    (outcome, board, reply)
}

#[test]
fn under_release_2_small_letters_are_answered_as_the_capitals() {
    let mut dice = Dice::new(102);
    let mut small_ones = [0; 2];
    for _ in 0..150 {
        let mut lent = drawn_boards::lent(&mut dice);
        for _ in 0..40 {
            let mut capitals = any_frame(&mut dice, &mut lent);
            if capitals.len() < 10 {
                continue;
            }
            if !capitals.ends_with(b"@@\r\n") {
                drawn_frames::mend_sc(&mut capitals);
            }
            let mut small = capitals.clone();
            drawn_letters::small(&mut dice, &mut small);
            let expected = with_ten_of(&small, under(2, &capitals, &lent));
            assert_eq!(under(2, &small, &lent), expected, "{capitals:?} {small:?}");
            if small != capitals {
                small_ones[usize::from(expected.0.number != 0)] += 1;
            }
            (_, lent.board, lent.reply) = expected;
        }
    }
    assert!(small_ones[0] > 2_000 && small_ones[1] > 200, "{small_ones:?}");
}
