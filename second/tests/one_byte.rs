//! What the sum really catches (document 02, n): a frame with a true SC of which exactly one byte is
//! changed is refused by 6 or 7 and changes nothing, but for the size of an SC letter under release 2;
//! and wrong boards, on which the same check fails.

use second::areas::Settings;
use second::bench::{Bench, SETTINGS};
use second::differential::compare::{Answer, Call, Lent};
use second::differential::product::make_on;
use second::differential::{run_with, Calls, Here, Plan, SecondProgram};
use second::frames::{closed, sc, LONGEST_FRAME};
use second::Outcome;

mod lets_through;

use lets_through::LetsThrough;

const UNTESTED: u8 = 0;
const TRUE: u8 = 1;
const WRONG: u8 = 3;

/// Both releases, '@@' forbidden and allowed.
fn all_settings() -> [Settings; 4] {
    [(1, 0), (1, 1), (2, 0), (2, 0x80)].map(|(release, unchecked)| Settings {
        release,
        unchecked,
        ..SETTINGS
    })
}

/// One point, something in every area, one write that can be stepped back.
fn lent(settings: Settings) -> Lent {
    let mut bench = Bench::fresh(1, 600);
    bench.board.points.fill(0x11);
    bench.board.effective = bench.board.effective_slots();
    bench.board.columns.fill(0x22);
    bench.board.integers.fill(0x33);
    bench.board.flags.fill(0x01);
    assert_eq!(bench.ask("24E0012C0230FF").0, 0);
    let Bench { board, axes, .. } = bench;
    Lent { board, axes, settings, reply: vec![0xEE; 1_024] }
}

/// What a call answers, and what it leaves.
fn answered(calls: &dyn Calls, frame: &[u8], before: &Lent) -> (Outcome, Lent) {
    let mut lent = before.clone();
    match make_on(calls, &Call::Answer { frame: frame.to_vec() }, &mut lent) {
        Answer::Answered(outcome) => (outcome, lent),
        other => panic!("a frame is answered, not {other:?}"),
    }
}

/// A refusal without a reply.
fn refused(number: u16, sum: u8) -> Outcome {
    Outcome { number, reply_length: 0, sum }
}

fn true_frame(before: &str) -> Vec<u8> {
    closed(before.into())
}

/// The frame with this byte at this place.
fn with_byte(frame: &[u8], at: usize, byte: u8) -> Vec<u8> {
    let mut changed = frame.to_vec();
    changed[at] = byte;
    changed
}

/// Whether two bytes are one digit's letter, one small and one capital.
fn is_one_letter(old: u8, new: u8) -> bool {
    let pairs = b"ABCDEF".iter().zip(b"abcdef");
    pairs
        .into_iter()
        .any(|(&capital, &small)| [old, new] == [capital, small] || [old, new] == [small, capital])
}

/// The number that a change must be refused with; None where the frame must be answered as before.
fn must(frame: &[u8], at: usize, byte: u8, release: u8) -> Option<u16> {
    let end = frame.len();
    let made_200 = &with_byte(frame, at, byte)[3..6] == b"200" && &frame[3..6] != b"200";
    let in_sc = at == end - 4 || at == end - 3;
    if at == 0 || at == end - 2 || at == end - 1 || made_200 && end != 20 {
        return Some(6);
    }
    match release == 2 && in_sc && is_one_letter(frame[at], byte) {
        true => None,
        false => Some(7),
    }
}

/// How many changes were refused by 6, by 7, and answered as the unchanged frame.
type Counts = [usize; 3];

/// Makes these changes of a frame with a true SC; Err is the first that isn't as it must be.
fn check(
    calls: &dyn Calls,
    frame: &[u8],
    before: &Lent,
    values: impl Fn(u8) -> Vec<u8>,
) -> Result<Counts, String> {
    let unchanged = answered(calls, frame, before);
    if unchanged.0.sum != TRUE {
        return Err(format!("{} has a true SC: {:?}", frame.escape_ascii(), unchanged.0));
    }
    let mut counts = [0; 3];
    for at in 0..frame.len() {
        for byte in values(frame[at]) {
            let changed = with_byte(frame, at, byte);
            let given = answered(calls, &changed, before);
            let (is_right, kind) = match must(frame, at, byte, before.settings.release) {
                Some(6) => (given == (refused(6, UNTESTED), before.clone()), 0),
                Some(_) => (given == (refused(7, WRONG), before.clone()), 1),
                None => (given == unchanged, 2),
            };
            if !is_right {
                let (frame, changed) = (frame.escape_ascii(), changed.escape_ascii());
                return Err(format!("{frame}, changed to {changed}: {:?}", given.0));
            }
            counts[kind] += 1;
        }
    }
    Ok(counts)
}

/// All 255 other values.
fn every_other(old: u8) -> Vec<u8> {
    (0..=255).filter(|&byte| byte != old).collect()
}

/// Frames with a true SC: what is written before it, and how many changes make a 200H of another length.
const FRAMES: [(&str, usize); 11] = [
    ("!99208", 1),
    ("!992000012345678", 0),
    ("!99200\r\n!a@\"`fF~", 0),
    ("!9924E0012C025DFF", 0),
    ("!9924e0012c01fa", 0),
    ("!99209001001", 1),
    // 20 bytes, so that as a 200H it still passes 6.
    ("!9920D0002590001", 0),
    // Refused by a later test, if nothing is changed: by 8, 101, 102 and 105.
    ("!98208", 1),
    ("!99201", 1),
    ("!99212gg", 0),
    ("!99246001000", 0),
];

/// The frame in capitals as FRAMES has it, and under release 2 with a small SC too.
fn with_each_sc(before: &str, release: u8) -> Vec<Vec<u8>> {
    let capital = true_frame(before);
    let mut small = capital.clone();
    let end = small.len();
    small[end - 4..].make_ascii_lowercase();
    match release == 2 && small != capital {
        true => vec![capital, small],
        false => vec![capital],
    }
}

#[test]
fn every_place_and_every_other_value() {
    let mut passed = 0;
    for settings in all_settings() {
        let before = lent(settings);
        for (text, made_200) in FRAMES {
            for frame in with_each_sc(text, settings.release) {
                let letters = sc(text.as_bytes()).iter().filter(|digit| **digit >= b'A').count();
                let by_6 = 3 * 255 + made_200;
                let by_neither = if settings.release == 2 { letters } else { 0 };
                let by_7 = 255 * frame.len() - by_6 - by_neither;
                let counts = check(&SecondProgram, &frame, &before, every_other);
                assert_eq!(counts, Ok([by_6, by_7, by_neither]), "{text}");
                passed += by_neither;
            }
        }
    }
    assert!(passed > 20, "{passed}");
}

#[test]
fn every_place_of_the_longest_frame() {
    let content = "7".repeat(LONGEST_FRAME - 10);
    let frame = true_frame(&["!99246", &content].concat());
    assert_eq!(frame.len(), LONGEST_FRAME);
    for settings in all_settings() {
        let few = |old: u8| vec![old ^ 0x80, old ^ 0x01, old.wrapping_add(1), 0x00];
        let counts = check(&SecondProgram, &frame, &lent(settings), few);
        assert_eq!(counts, Ok([12, 4 * (LONGEST_FRAME - 3), 0]));
    }
}

/// The number on a board with these settings.
fn number(frame: &[u8], release: u8, unchecked: u8) -> u16 {
    answered(&SecondProgram, frame, &lent(Settings { release, unchecked, ..SETTINGS })).0.number
}

#[test]
fn which_of_the_two() {
    for (release, unchecked) in [(1, 0), (1, 1), (2, 0), (2, 1)] {
        let number = |frame: &[u8]| number(frame, release, unchecked);
        // 12D is the sum of the 208H's first six.
        assert_eq!(number(b"!992082D\r\n"), 0);
        for changed in [&b"\"992082D\r\n"[..], b"!992082D\n\n", b"!992082D\r\r", b"!992002D\r\n"] {
            assert_eq!(number(changed), 6, "{}", changed.escape_ascii());
        }
        for changed in [
            &b"!89208"[..],
            b"!9:208",
            b"!99308",
            b"!99218",
            b"!99209",
            b"!\xB99208",
            b"!99\xB208",
            b"!99!08",
            b"!\x009208",
        ] {
            assert_eq!(number(&[changed, b"2D\r\n"].concat()), 7, "{}", changed.escape_ascii());
        }
        for sc in [b"2C", b"2E", b"3D", b"AD", b"2@", b"@D", b"2\xC4", b"\xB2D", b"2\r", b"\nD"] {
            assert_eq!(number(&[b"!99208", &sc[..], b"\r\n"].concat()), 7, "{sc:?}");
        }
        // A 200H made another, and a 20DH of 20 bytes made a 200H: 6 has nothing to say of these.
        assert_eq!(number(b"!99200001234567829\r\n"), 0);
        assert_eq!(number(b"!99208001234567829\r\n"), 7);
        let query = true_frame("!9920D0002580001");
        assert_eq!((number(&query), query.len()), (0, 20));
        assert_eq!(number(&with_byte(&query, 5, b'0')), 7);
    }
}

// ---- the size of an SC letter ----

/// What the second program answers with these settings, and what it leaves.
fn left(frame: &[u8], station: u8, release: u8) -> (Outcome, Lent) {
    answered(&SecondProgram, frame, &lent(Settings { station, release, ..SETTINGS }))
}

#[test]
fn an_sc_letter_may_change_its_size_under_release_2_alone() {
    for (before, scs) in [
        ("!AB212A5", &["AF", "aF", "Af", "af"][..]),
        ("!AB200=\r\n!a@\"`fF", &["7A", "7a"]),
        ("!AB24E0012C03FE47FF", &["3A", "3a"]),
    ] {
        let unchanged = true_frame(before);
        assert_eq!(sc(before.as_bytes()), scs[0].as_bytes());
        let as_unchanged = left(&unchanged, 0xAB, 2);
        assert_eq!((as_unchanged.0.number, as_unchanged.0.sum), (0, TRUE), "{before}");
        assert!(as_unchanged.0.reply_length > 0);
        for &sc in scs {
            let frame = [before, sc, "\r\n"].concat().into_bytes();
            assert!(left(&frame, 0xAB, 2) == as_unchanged, "{before} {sc}");
            let (outcome, after) = left(&frame, 0xAB, 1);
            match sc == scs[0] {
                true => assert_eq!((outcome.number, outcome.sum), (0, TRUE), "{before} {sc}"),
                false => assert_eq!(outcome, refused(7, WRONG), "{before} {sc}"),
            }
            let untouched = after == lent(Settings { station: 0xAB, ..SETTINGS });
            assert_eq!(untouched, sc != scs[0], "{before} {sc}");
        }
    }
}

#[test]
fn such_a_frame_is_carried_out_or_refused_as_the_unchanged_one() {
    for (before, number) in [
        ("!9924E0012C025DFF", 0),
        ("!9924400100101001E001E00640000C350", 0),
        ("!98208", 8),
        ("!99207", 101),
        ("!99212gg", 102),
        ("!992080", 103),
        ("!99209001000", 105),
    ] {
        let unchanged = true_frame(before);
        let as_unchanged = left(&unchanged, 0x99, 2);
        assert_eq!((as_unchanged.0.number, as_unchanged.0.sum), (number, TRUE), "{before}");
        let mut changes = 0;
        for at in unchanged.len() - 4..unchanged.len() - 2 {
            let changed = with_byte(&unchanged, at, unchanged[at].to_ascii_lowercase());
            changes += usize::from(changed != unchanged);
            assert!(left(&changed, 0x99, 2) == as_unchanged, "{before}");
        }
        assert!(changes > 0, "{before} has no letter in its SC");
    }
}

#[test]
fn a_letters_size_before_the_sc_is_summed() {
    // Read the same under release 2, but the sum is of the bytes as sent.
    let frame = true_frame("!AB24E003E701F9");
    for settings in all_settings() {
        let settings = Settings { station: 0xAB, ..settings };
        for at in (0..15).filter(|&at| frame[at].is_ascii_alphabetic()) {
            let changed = with_byte(&frame, at, frame[at].to_ascii_lowercase());
            let given = answered(&SecondProgram, &changed, &lent(settings));
            assert_eq!(given.0, refused(7, WRONG), "{at}");
            // With the SC mended it is the same write.
            let mended = closed(changed[..15].to_vec());
            let number = answered(&SecondProgram, &mended, &lent(settings)).0.number;
            assert_eq!(number == 0, settings.release == 2, "{at}");
        }
    }
}

// ---- where an earlier test refuses ----

/// Spoils what is lent so that a test before 6 refuses each frame.
type Spoil = fn(&mut Lent);

#[test]
fn where_an_earlier_test_refuses_the_rule_says_nothing() {
    let spoils: [(u16, Spoil); 7] = [
        (1, |lent| lent.reply.truncate(1_023)),
        (2, |lent| lent.board.points.truncate(39)),
        (3, |lent| lent.board.columns.push(0)),
        (10, |lent| lent.board.flags.push(0)),
        (4, |lent| lent.board.used = 1),
        (5, |lent| lent.settings.fitted = 0),
        (13, |lent| lent.settings.release = 0),
    ];
    let frame = true_frame("!9924E0012C025DFF");
    for (expected, spoil) in spoils {
        let mut before = lent(SETTINGS);
        spoil(&mut before);
        for at in 0..frame.len() {
            let changed = with_byte(&frame, at, frame[at] ^ 0x04);
            let given = answered(&SecondProgram, &changed, &before);
            assert!(given == (refused(expected, UNTESTED), before.clone()), "{expected} {at}");
        }
    }
}

// ---- wrong boards ----

/// The first of the changes above that this board answers otherwise than it must.
fn first_fault(calls: &dyn Calls) -> Option<String> {
    all_settings().into_iter().find_map(|settings| {
        let before = lent(settings);
        let frames = FRAMES.iter().flat_map(|(text, _)| with_each_sc(text, settings.release));
        frames.into_iter().find_map(|frame| check(calls, &frame, &before, every_other).err())
    })
}

#[test]
fn the_check_finds_each_wrong_board() {
    for wrong in lets_through::ALL {
        assert!(first_fault(&wrong).is_some(), "{wrong:?} was not found");
    }
}

#[test]
fn what_the_check_says_of_them() {
    for (wrong, fault) in [
        (LetsThrough::SumsSevenBits, r"changed to !\xb992082D\r\n: Outcome { number: 8,"),
        // 6 looks at '!', so that this sum lets no change through; but its true SCs are others.
        (LetsThrough::LeavesTheFirstByteOut, r"!992082D\r\n has a true SC: Outcome { number: 7,"),
        (LetsThrough::ComparesTheFirstDigitAlone, r"changed to !,92082D\r\n: Outcome { number: 8,"),
        (LetsThrough::TakesASmallScUnderRelease1, r"changed to !992082d\r\n: Outcome { number: 0,"),
        (LetsThrough::WantsACapitalScUnderRelease2, r"to !992082d\r\n: Outcome { number: 7,"),
        (LetsThrough::TestsNoLf, r"changed to !992082D\r\x00: Outcome { number: 0,"),
    ] {
        let found = first_fault(&wrong).unwrap_or_default();
        assert!(found.contains(fault), "{wrong:?}: {found}");
    }
}

#[test]
fn a_run_fails_whose_own_model_breaks_the_rule() {
    let plan = Plan { seed: 20_261_115, calls: 20_000, show: 0 };
    for wrong in lets_through::ALL {
        // The product is as wrong as the model, so that no difference is found.
        let model = |call: &Call, lent: &mut Lent| make_on(&wrong, call, lent);
        let Err(how) = run_with(&model, &mut Here(&wrong), &plan) else {
            panic!("{wrong:?} was not found");
        };
        // One stores where it refuses, which the rule of looking first finds too.
        let stores = wrong == LetsThrough::StoresWhere7Refuses;
        let looking = stores && how.starts_with("rule of looking first broken at call ");
        assert!(looking || how.starts_with("rule of one changed byte broken at call "), "{how}");
        assert!(how.contains(" of seed 20261115\n") && how.contains("\npoints: "), "{how}");
    }
}
