//! Who turned the checksum off (document 02, f): what the sum test says of each frame, with each other
//! refusal; '@@' allowed and forbidden; refusal 12 and its place in the order.

use second::areas::Settings;
use second::bench::Bench;
use second::differential::compare::{second as answered, Answer, Call, Lent};
use second::differential::dice::Dice;
use second::differential::{drawn_boards, drawn_frames, spoil};
use second::frames::{closed, error_reply, sc, sum};
use second::{Board, Outcome};

const UNTESTED: u8 = 0;
const TRUE: u8 = 1;
const SWITCHED_OFF: u8 = 2;
const WRONG: u8 = 3;

/// Values of the setting: the first forbids '@@', the others allow it.
const VALUES: [u8; 4] = [0, 1, 0x80, 0xFF];

/// Three points, with this setting; the reply area full of a byte that no reply begins with.
fn bench(unchecked: u8) -> Bench {
    let mut bench = Bench::fresh(3, 2_000);
    bench.settings.unchecked = unchecked;
    bench.reply.fill(0xEE);
    bench
}

/// The number and what is told of the sum; and that a refused frame leaves what it must.
fn told_by(bench: &mut Bench, frame: &[u8]) -> (u16, u8) {
    let (board, mut area) = (bench.board.clone(), bench.reply.clone());
    let (number, reply) = bench.hand(frame);
    if number > 100 {
        assert_eq!(reply, error_reply(bench.settings.station, number));
        area[..10].copy_from_slice(&reply);
    }
    if number != 0 {
        assert_eq!((&bench.board, &bench.reply), (&board, &area), "{frame:?}");
        assert_eq!(reply.is_empty(), number < 100, "{frame:?}");
    }
    (number, bench.sum)
}

/// The same on a board fresh but for its setting.
fn told(unchecked: u8, frame: &[u8]) -> (u16, u8) {
    told_by(&mut bench(unchecked), frame)
}

fn with_sc(before: &str, sc: &str) -> Vec<u8> {
    [before, sc, "\r\n"].concat().into_bytes()
}

fn marked(before: &str) -> Vec<u8> {
    with_sc(before, "@@")
}

/// An SC that is neither true nor '@@'.
fn wrong(before: &str) -> Vec<u8> {
    let other = if sc(before.as_bytes()) == b"00" { "01" } else { "00" };
    with_sc(before, other)
}

fn true_sc(before: &str) -> Vec<u8> {
    closed(before.into())
}

// ---- what the sum test says ----

#[test]
fn one_of_three_under_every_value_of_the_setting() {
    for unchecked in 0..=255 {
        let number = if unchecked == 0 { 12 } else { 0 };
        assert_eq!(told(unchecked, b"!99208@@\r\n"), (number, SWITCHED_OFF), "{unchecked}");
        assert_eq!(told(unchecked, b"!992082D\r\n"), (0, TRUE), "{unchecked}");
        assert_eq!(told(unchecked, b"!992082E\r\n"), (7, WRONG), "{unchecked}");
    }
}

/// Whether two bytes are the sum 2FH, by Rust's own reading.
fn is_2f(sc: [u8; 2], release: u8) -> bool {
    sc[0] == b'2' && (sc[1] == b'F' || release == 2 && sc[1] == b'f')
}

#[test]
fn every_pair_of_bytes_in_the_place_of_the_sc() {
    assert_eq!(sc(b"!9920:"), b"2F");
    for (unchecked, release) in [(0, 1), (0, 2), (1, 1), (1, 2)] {
        let mut bench = Bench::fresh(1, 540);
        bench.settings = Settings { unchecked, release, ..bench.settings };
        for pair in 0..=0xFFFF_u16 {
            let pair = pair.to_be_bytes();
            let expected = match pair {
                [b'@', b'@'] if unchecked == 0 => (12, SWITCHED_OFF),
                // 20:H is unknown.
                [b'@', b'@'] => (101, SWITCHED_OFF),
                pair if is_2f(pair, release) => (101, TRUE),
                _ => (7, WRONG),
            };
            let frame = [b"!9920:", &pair[..], b"\r\n"].concat();
            let number = bench.hand(&frame).0;
            assert_eq!((number, bench.sum), expected, "{frame:?}");
        }
    }
}

#[test]
fn one_mark_is_wrong() {
    // Sums that end in 05, 50, 00 and 2D.
    for low in [0x05, 0x50, 0x00, 0x2D] {
        let mut before = b"!99200000000000".to_vec();
        before.push((0x100 + low - sum(&before) % 0x100) as u8);
        let good = sc(&before);
        let of = |unchecked: u8, sc: [u8; 2]| {
            told(unchecked, &[before.as_slice(), &sc, b"\r\n"].concat())
        };
        for unchecked in VALUES {
            assert_eq!(of(unchecked, [good[0], good[1]]), (0, TRUE));
            for sc in [[b'@', good[1]], [good[0], b'@'], *b"@5", *b"5@", *b"@ ", *b"\r@"] {
                assert_eq!(of(unchecked, sc), (7, WRONG), "{sc:?}");
            }
            let number = if unchecked == 0 { 12 } else { 0 };
            assert_eq!(of(unchecked, *b"@@"), (number, SWITCHED_OFF));
        }
    }
}

#[test]
fn marks_elsewhere_switch_nothing_off() {
    for unchecked in VALUES {
        assert_eq!(told(unchecked, &true_sc("!99200@@@@@@@@@@")), (0, TRUE));
        assert_eq!(told(unchecked, &true_sc("!99200@@\r\n@@\r\n@@")), (0, TRUE));
        assert_eq!(told(unchecked, &true_sc("!9924E0012C01@@")), (102, TRUE));
        assert_eq!(told(unchecked, &true_sc("!99@@@")), (101, TRUE));
        assert_eq!(told(unchecked, &true_sc("!@@208")), (8, TRUE));
        assert_eq!(told(unchecked, &wrong("!99200@@@@@@@@@@")), (7, WRONG));
    }
}

#[test]
fn small_letters_of_an_sc_are_true_under_release_2_and_wrong_under_release_1() {
    let of = |release: u8, unchecked: u8, frame: &[u8]| {
        let mut bench = bench(unchecked);
        bench.settings = Settings { station: 0xAB, release, ..bench.settings };
        told_by(&mut bench, frame)
    };
    for unchecked in VALUES {
        let [accepted, to_station] = if unchecked == 0 { [12, 12] } else { [0, 8] };
        // 21+41+42+32+30+38 is 13E; each small letter is 20 more.
        for release in [1, 2] {
            assert_eq!(of(release, unchecked, b"!AB2083E\r\n"), (0, TRUE));
            assert_eq!(of(release, unchecked, b"!AB2083`\r\n"), (7, WRONG));
            assert_eq!(of(release, unchecked, b"!AB208@@\r\n"), (accepted, SWITCHED_OFF));
        }
        assert_eq!(of(1, unchecked, b"!AB2083e\r\n"), (7, WRONG));
        assert_eq!(of(2, unchecked, b"!AB2083e\r\n"), (0, TRUE));
        assert_eq!(of(1, unchecked, b"!ab2087e\r\n"), (7, WRONG));
        assert_eq!(of(2, unchecked, b"!ab2087e\r\n"), (0, TRUE));
        assert_eq!(of(1, unchecked, b"!ab2087E\r\n"), (8, TRUE));
        assert_eq!(of(1, unchecked, b"!ab208@@\r\n"), (to_station, SWITCHED_OFF));
        assert_eq!(of(2, unchecked, b"!ab208@@\r\n"), (accepted, SWITCHED_OFF));
        // The sum of the capitals is wrong.
        assert_eq!(of(2, unchecked, b"!ab2083E\r\n"), (7, WRONG));
        assert_eq!(of(2, unchecked, &true_sc("!ab24e0012c01fe")), (0, TRUE));
    }
}

// ---- with other refusals ----

#[test]
fn twelve_and_seven_come_before_8_and_the_sum_is_told_with_it() {
    for station in ["98", "9G", "@@", "\r\n"] {
        let before = ["!", station, "208"].concat();
        for unchecked in VALUES {
            let number = if unchecked == 0 { 12 } else { 8 };
            assert_eq!(told(unchecked, &marked(&before)), (number, SWITCHED_OFF), "{station:?}");
            assert_eq!(told(unchecked, &wrong(&before)), (7, WRONG), "{station:?}");
            assert_eq!(told(unchecked, &true_sc(&before)), (8, TRUE), "{station:?}");
        }
    }
}

#[test]
fn the_sum_is_told_with_each_error_reply() {
    for (text, number) in [
        ("299", 101),
        ("212g1", 102),
        ("2080", 103),
        ("2100112C01", 104),
        ("246001000", 105),
        ("246004001", 106),
        ("24400100100000000000000", 107),
        ("24B0002582", 108),
    ] {
        let before = ["!99", text].concat();
        for unchecked in VALUES {
            assert_eq!(told(unchecked, &true_sc(&before)), (number, TRUE), "{text}");
            let number = if unchecked == 0 { 12 } else { number };
            assert_eq!(told(unchecked, &marked(&before)), (number, SWITCHED_OFF), "{text}");
            assert_eq!(told(unchecked, &wrong(&before)), (7, WRONG), "{text}");
        }
    }
}

#[test]
fn six_leaves_the_sum_untested() {
    for unchecked in VALUES {
        for frame in [
            &b"?99208@@\r\n"[..],
            b"#99208@@\r\n",
            b"!99208@@\n\r",
            b"!99208@@\r ",
            b"!99208@@\r\n\n",
            b"!99208@\r\n",
            b"!9908@@\r\n",
            b"@@\r\n",
            b"",
            b"!992082D\n\r",
            b"!992082E\n\r",
        ] {
            assert_eq!(told(unchecked, frame), (6, UNTESTED), "{frame:?}");
        }
        let overlong = ["!99", &"2".repeat(1_017)].concat();
        for frame in [marked(&overlong), true_sc(&overlong), wrong(&overlong)] {
            assert_eq!((frame.len(), told(unchecked, &frame)), (1_024, (6, UNTESTED)));
        }
    }
}

#[test]
fn test_calls() {
    let of_length = |length: usize| ["!99200", &"0".repeat(length - 10)].concat();
    for unchecked in VALUES {
        for length in [10, 19, 21, 1_023] {
            for frame in [marked, true_sc, wrong].map(|close| close(&of_length(length))) {
                assert_eq!(told(unchecked, &frame), (6, UNTESTED), "{frame:?}");
            }
        }
        let number = if unchecked == 0 { 12 } else { 0 };
        assert_eq!(told(unchecked, &marked(&of_length(20))), (number, SWITCHED_OFF));
        assert_eq!(told(unchecked, &true_sc(&of_length(20))), (0, TRUE));
        assert_eq!(told(unchecked, &wrong(&of_length(20))), (7, WRONG));
        let line_ends = "!99200\r\n\r\n\r\n\r\n\r\n";
        assert_eq!(told(unchecked, &marked(line_ends)), (number, SWITCHED_OFF));
        assert_eq!(told(unchecked, &true_sc(line_ends)), (0, TRUE));
    }
}

/// Spoils a board so that an earlier test refuses each frame.
type Spoil = fn(&mut Bench);

#[test]
fn each_earlier_refusal_leaves_the_sum_untested() {
    let spoils: [(u16, Spoil); 16] = [
        (1, |bench| bench.reply.truncate(1_023)),
        (1, |bench| bench.reply.clear()),
        (2, |bench| bench.board.points.truncate(119)),
        (2, |bench| bench.board.points.clear()),
        (3, |bench| bench.board.columns.push(0)),
        (10, |bench| bench.board.integers.truncate(399)),
        (10, |bench| bench.board.flags.push(0)),
        (10, |bench| bench.settings.firsts.integer = 0xF9D),
        (10, |bench| bench.settings.firsts.flag = 0xFED5),
        (4, |bench| bench.board.journal.truncate(619)),
        (4, |bench| bench.board.used = 1),
        (5, |bench| bench.axes.truncate(71)),
        (5, |bench| bench.axes[1] = 16),
        (5, |bench| bench.settings.fitted = 0),
        (13, |bench| bench.settings.release = 0),
        (13, |bench| bench.settings.release = 3),
    ];
    for (number, spoil) in spoils {
        for unchecked in VALUES {
            for before in ["!99208", "!98208", "?99208", "!9924E0012C0141", "!99299"] {
                for frame in [marked, true_sc, wrong].map(|close| close(before)) {
                    let mut bench = bench(unchecked);
                    // What was told of an earlier frame doesn't stay.
                    assert_eq!(told_by(&mut bench, b"!992082E\r\n"), (7, WRONG));
                    spoil(&mut bench);
                    assert_eq!(told_by(&mut bench, &frame), (number, UNTESTED), "{frame:?}");
                }
            }
        }
    }
}

// ---- forbidden and allowed ----

/// Each message, accepted on a board with three points.
const MESSAGES: [&str; 12] = [
    "2000123456789",
    "24400200101001E001E00640000C350",
    "208",
    "209001003",
    "246002001",
    "24E0012C0230FF",
    "2100012C02",
    "24C000C80112345678",
    "20E000C801",
    "24B0002581",
    "20D0002580001",
    "212FF",
];

/// A board on which every message changes or shows something.
fn used_bench(unchecked: u8) -> Bench {
    let mut bench = bench(unchecked);
    bench.board.points.fill(0x11);
    bench.board.effective = bench.board.effective_slots();
    bench.board.columns.fill(0x22);
    bench.board.integers.fill(0x33);
    bench
}

#[test]
fn a_frame_with_marks_is_answered_as_one_with_a_true_sc_where_they_are_allowed() {
    for text in MESSAGES {
        let before = ["!99", text].concat();
        let mut expected = used_bench(0);
        assert_eq!(told_by(&mut expected, &true_sc(&before)), (0, TRUE), "{text}");
        for unchecked in VALUES {
            let mut bench = used_bench(unchecked);
            assert_eq!(told_by(&mut bench, &true_sc(&before)), (0, TRUE), "{text}");
            assert_eq!((&bench.board, &bench.reply), (&expected.board, &expected.reply), "{text}");
            if unchecked != 0 {
                let mut bench = used_bench(unchecked);
                assert_eq!(told_by(&mut bench, &marked(&before)), (0, SWITCHED_OFF), "{text}");
                let left = (&bench.board, &bench.reply);
                assert_eq!(left, (&expected.board, &expected.reply), "{text}");
            }
        }
    }
}

#[test]
fn a_frame_with_marks_changes_nothing_where_they_are_forbidden() {
    let mut bench = used_bench(0);
    assert_eq!(bench.ask("24E0012C0130").0, 0);
    let (board, area) = (bench.board.clone(), bench.reply.clone());
    for release in [1, 2] {
        bench.settings.release = release;
        for text in MESSAGES {
            let frame = marked(&["!99", text].concat());
            assert_eq!(bench.hand(&frame), (12, Vec::new()), "{text}");
            assert_eq!((&bench.board, &bench.reply), (&board, &area), "{text}");
        }
    }
    assert_eq!(bench.step_back(), 0);
    assert_eq!(bench.board.columns[0], 0x22);
}

#[test]
fn the_setting_may_change_from_call_to_call_and_a_step_back_has_none() {
    let mut bench = bench(0x80);
    let fresh = bench.board.clone();
    let write = marked("!9924E0012C0147");
    assert_eq!(told_by(&mut bench, &write), (0, SWITCHED_OFF));
    bench.settings.unchecked = 0;
    assert_eq!(told_by(&mut bench, &write), (12, SWITCHED_OFF));
    assert_eq!(told_by(&mut bench, &true_sc("!9924E0012C0148")), (0, TRUE));
    assert_eq!(told_by(&mut bench, &marked("!992100012C01")), (12, SWITCHED_OFF));
    assert_eq!(bench.step_back(), 0);
    assert_eq!(bench.board.columns[0], 0x47);
    assert_eq!(bench.step_back(), 0);
    assert_eq!(bench.board, fresh);
    assert_eq!(bench.step_back(), 9);
}

#[test]
fn the_bench_listing_where_marks_are_forbidden() {
    let listing =
        b"!99200001234567829\r\n!9924400100103001E001E00640000C350FFFFFFFFF3\r\n!99299@@\r\n";
    let replies = b"#9920000123456782B\r\n#9924400100151\r\n&991012A\r\n";
    let mut allowed = Bench::fresh(500, 32_768);
    assert_eq!(allowed.receive(listing), replies);
    let mut forbidden = Bench::fresh(500, 32_768);
    forbidden.settings.unchecked = 0;
    assert_eq!(forbidden.receive(listing), replies[..replies.len() - 10]);
    assert_eq!(forbidden.board, allowed.board);
}

// ---- drawn ----

/// What a call with this setting leaves: its outcome, the board and the reply area.
fn under(unchecked: u8, frame: &[u8], lent: &Lent) -> (Outcome, Board, Vec<u8>) {
    let mut lent = lent.clone();
    lent.settings.unchecked = unchecked;
    let Answer::Answered(outcome) = answered(&Call::Answer { frame: frame.to_vec() }, &mut lent)
    else {
        panic!("a frame is answered");
    };
    (outcome, lent.board, lent.reply)
}

/// A frame of any kind, '@@' as often as the board's setting makes it.
fn any_frame(dice: &mut Dice, lent: &Lent) -> Vec<u8> {
    match dice.roll(6) {
        0 => drawn_frames::damaged(dice, lent),
        1 => drawn_frames::odd_letters(dice, lent),
        2 => drawn_frames::odd_sc(dice, lent),
        _ => drawn_frames::good(dice, lent),
    }
}

fn has_marks(frame: &[u8]) -> bool {
    frame.len() >= 4 && &frame[frame.len() - 4..frame.len() - 2] == b"@@"
}

/// Makes drawn calls, some on spoiled areas; the check is handed each frame and what is lent to it.
fn on_drawn_boards(seed: u64, mut check: impl FnMut(&mut Dice, &[u8], &Lent)) {
    let mut dice = Dice::new(seed);
    for _ in 0..150 {
        let mut lent = drawn_boards::lent(&mut dice);
        for _ in 0..40 {
            lent.settings.unchecked = drawn_boards::unchecked(&mut dice);
            let frame = any_frame(&mut dice, &lent);
            let mut copy = lent.clone();
            if dice.one_in(6) {
                spoil::spoil(&mut dice, &mut copy);
            }
            check(&mut dice, &frame, &copy);
            (_, lent.board, lent.reply) = under(1, &frame, &lent);
        }
    }
}

#[test]
fn all_values_but_0_are_one_and_with_them_marks_are_as_a_true_sc() {
    let mut seen = [0; 4];
    on_drawn_boards(201, |dice, frame, lent| {
        let allowed = under(1, frame, lent);
        let other = dice.between(2, 255) as u8;
        assert_eq!(under(other, frame, lent), allowed, "{frame:?}");
        seen[usize::from(allowed.0.sum)] += 1;
        if !has_marks(frame) {
            return;
        }
        let mut mended = frame.to_vec();
        drawn_frames::mend_sc(&mut mended);
        let (outcome, board, reply) = under(1, &mended, lent);
        let sum = if outcome.sum == TRUE { SWITCHED_OFF } else { UNTESTED };
        assert_eq!(allowed, (Outcome { sum, ..outcome }, board, reply), "{frame:?}");
    });
    assert!(seen.iter().all(|&count| count > 200), "{seen:?}");
}

#[test]
fn without_marks_the_setting_says_nothing() {
    let mut seen = [0; 4];
    on_drawn_boards(202, |_, frame, lent| {
        if !has_marks(frame) {
            let forbidden = under(0, frame, lent);
            assert_eq!(forbidden, under(1, frame, lent), "{frame:?}");
            assert_ne!(forbidden.0.number, 12);
            seen[usize::from(forbidden.0.sum)] += 1;
        }
    });
    assert!(seen[0] > 200 && seen[1] > 2_000 && seen[2] == 0 && seen[3] > 200, "{seen:?}");
}

#[test]
fn no_frame_with_marks_changes_anything_where_they_are_forbidden() {
    let mut seen = [0; 2];
    on_drawn_boards(203, |_, frame, lent| {
        if !has_marks(frame) {
            return;
        }
        let (outcome, board, reply) = under(0, frame, lent);
        assert_eq!((&board, &reply), (&lent.board, &lent.reply), "{frame:?}");
        let allowed = under(1, frame, lent).0;
        let expected = match allowed.sum {
            SWITCHED_OFF => Outcome { number: 12, reply_length: 0, sum: SWITCHED_OFF },
            _ => allowed,
        };
        assert_eq!(outcome, expected, "{frame:?}");
        seen[usize::from(outcome.number == 12)] += 1;
    });
    assert!(seen[0] > 100 && seen[1] > 500, "{seen:?}");
}

#[test]
fn a_history_where_marks_are_forbidden_is_that_of_the_other_frames() {
    let mut dice = Dice::new(204);
    let mut dropped = 0;
    for _ in 0..60 {
        let mut lent = drawn_boards::lent(&mut dice);
        let mut without = lent.board.clone();
        for _ in 0..60 {
            if dice.one_in(5) {
                let firsts = lent.settings.firsts;
                let steps = [&mut lent.board, &mut without]
                    .map(|board| second::link::step_back(board, firsts));
                assert_eq!(steps[0], steps[1]);
                continue;
            }
            lent.settings.unchecked = dice.pick(&[1, 0]);
            let frame = any_frame(&mut dice, &lent);
            let other = Lent { board: without.clone(), ..lent.clone() };
            (_, lent.board, lent.reply) = under(0, &frame, &lent);
            match has_marks(&frame) {
                true => dropped += 1,
                false => (_, without, _) = under(1, &frame, &other),
            }
            assert_eq!(lent.board, without, "{frame:?}");
        }
    }
    assert!(dropped > 300, "{dropped}");
}
