//! The comparison itself: it finds no fault in the second program, reaches every number and
//! message, and catches boards that are wrong, document 01's useless ones among them.

use second::areas::{Firsts, Settings, FLAGS, INTEGER, INTEGERS, SLOT};
use second::differential::{run, Areas, Calls, Finding, Here, Plan, Player, SecondProgram, Tally};
use second::frames::closed;
use second::journal::least_length;
use second::{Board, Outcome};

mod lets_through;
mod wrong_counts;
mod wrong_letters;
mod wrong_looks;
mod wrong_sums;

fn plan(calls: usize) -> Plan {
    Plan { seed: 20_261_115, calls, show: 0 }
}

#[test]
fn the_second_program_does_not_differ_from_itself_and_all_is_reached() {
    let tally = run(&mut Here(&SecondProgram), &plan(30_000))
        .unwrap_or_else(|difference| panic!("{difference}"));
    assert_eq!(tally.rarer_than(1), Vec::<String>::new());
    assert!(tally.to_string().contains("frames by message"));
}

#[test]
fn one_seed_gives_one_run() {
    let of = |seed: u64| run(&mut Here(&SecondProgram), &Plan { seed, ..plan(500) });
    assert_eq!(of(1), of(1));
    assert_ne!(of(1), of(2));
    assert_eq!(run(&mut Here(&SecondProgram), &plan(0)), Ok(Tally::default()));
}

/// What a wrong board does otherwise than the second program.
#[derive(Clone, Copy, Debug, PartialEq)]
enum Wrong {
    RefusesAll,
    ConstantReply,
    StoresNothing,
    StoresOnlyTheFirstPoint,
    InventsTheCount,
    InventsTheUsedLength,
    LeavesBytesBeyondTheUsedLength,
    WritesTheReplyAreaBeyondTheReply,
    WritesTheReplyAreaAtASilentRefusal,
    RepliesWithMarks,
    StepsBackAQuery,
    FindsFramesOfAnyLength,
    DropsTheWholeOverlongRun,
    GivesAnotherErrorNumber,
    StoresIntegersLowByteFirst,
    StoresOnlyTheFirstInteger,
    EntersIntegersAsColumns,
    ShowsFlagsFromBit7,
    ShowsFlagsBeyondTheCount,
    StoresTheChangeTypesDigit,
    Tests10After4,
    TakesAShorterJournal,
    AdmitsFlagsFromFED5,
    CutsATestCallAtItsFirstPair,
    LooksOnlyAtTheFirstMark,
    WaitsAtATestCallThatDoesNotEnd,
    CountsFromTheSkippedMark,
    TakesCrLfAsAStation,
    AcceptsATestCallOf21Bytes,
}

const ALL: [Wrong; 29] = [
    Wrong::RefusesAll,
    Wrong::ConstantReply,
    Wrong::StoresNothing,
    Wrong::StoresOnlyTheFirstPoint,
    Wrong::InventsTheCount,
    Wrong::InventsTheUsedLength,
    Wrong::LeavesBytesBeyondTheUsedLength,
    Wrong::WritesTheReplyAreaBeyondTheReply,
    Wrong::WritesTheReplyAreaAtASilentRefusal,
    Wrong::RepliesWithMarks,
    Wrong::StepsBackAQuery,
    Wrong::FindsFramesOfAnyLength,
    Wrong::DropsTheWholeOverlongRun,
    Wrong::GivesAnotherErrorNumber,
    Wrong::StoresIntegersLowByteFirst,
    Wrong::StoresOnlyTheFirstInteger,
    Wrong::EntersIntegersAsColumns,
    Wrong::ShowsFlagsFromBit7,
    Wrong::ShowsFlagsBeyondTheCount,
    Wrong::StoresTheChangeTypesDigit,
    Wrong::Tests10After4,
    Wrong::TakesAShorterJournal,
    Wrong::AdmitsFlagsFromFED5,
    Wrong::CutsATestCallAtItsFirstPair,
    Wrong::LooksOnlyAtTheFirstMark,
    Wrong::WaitsAtATestCallThatDoesNotEnd,
    Wrong::CountsFromTheSkippedMark,
    Wrong::TakesCrLfAsAStation,
    Wrong::AcceptsATestCallOf21Bytes,
];

/// The number in these digits of an accepted frame.
fn field(frame: &[u8], from: usize, to: usize) -> usize {
    let digits = String::from_utf8_lossy(&frame[from..to]);
    usize::from_str_radix(&digits, 16).unwrap_or(0)
}

impl Wrong {
    fn is(self, other: Wrong) -> bool {
        self == other
    }

    /// Spoils the areas after an accepted frame that found this board.
    fn spoil_areas(self, frame: &[u8], areas: &mut Areas, old: &Board, firsts: Firsts) {
        match &frame[3..6] {
            b"244" => self.spoil_points(frame, areas, old),
            b"24B" if self.is(Wrong::StoresTheChangeTypesDigit) => {
                let at = field(frame, 8, 12) - usize::from(firsts.flag);
                areas.flags[at] = frame[12];
            }
            b"24C" => self.spoil_integers(frame, areas, old, firsts),
            b"208" if self.is(Wrong::StepsBackAQuery) => {
                SecondProgram.step_back(areas, firsts);
            }
            _ => {}
        }
        if self.is(Wrong::StoresNothing) {
            areas.points.copy_from_slice(&old.points);
        }
    }

    fn spoil_points(self, frame: &[u8], areas: &mut Areas, old: &Board) {
        if self.is(Wrong::StoresOnlyTheFirstPoint) {
            let after = SLOT * field(frame, 6, 9);
            areas.points[after..].copy_from_slice(&old.points[after..]);
        }
        if self.is(Wrong::InventsTheUsedLength) {
            areas.used += 1;
        }
        if self.is(Wrong::LeavesBytesBeyondTheUsedLength) {
            areas.journal[areas.used..].fill(0xEE);
        }
    }

    fn spoil_integers(self, frame: &[u8], areas: &mut Areas, old: &Board, firsts: Firsts) {
        let from = INTEGER * (field(frame, 8, 11) - usize::from(firsts.integer));
        let bytes = INTEGER * field(frame, 11, 13);
        if self.is(Wrong::StoresIntegersLowByteFirst) {
            let named = &mut areas.integers[from..from + bytes];
            named.chunks_mut(INTEGER).for_each(|integer| integer.reverse());
        }
        if self.is(Wrong::StoresOnlyTheFirstInteger) {
            let after = from + INTEGER;
            areas.integers[after..].copy_from_slice(&old.integers[after..]);
        }
        if self.is(Wrong::EntersIntegersAsColumns) {
            areas.journal[areas.used - 5 - bytes] = 0x53;
        }
    }

    /// Replaces the bytes of a 20DH's reply, of which each shows eight flags, by these.
    fn show(reply: &mut [u8], length: usize, of: impl Fn(usize, u8) -> u8) {
        let mut text = reply[..length - 4].to_vec();
        for (at, pair) in text[16..].chunks_mut(2).enumerate() {
            let shown = of(at, field(pair, 0, 2) as u8);
            pair.copy_from_slice(format!("{shown:02X}").as_bytes());
        }
        reply[..length].copy_from_slice(&closed(text));
    }

    fn spoil_flags_shown(self, frame: &[u8], flags: &[u8], firsts: Firsts, reply: &mut [u8]) {
        let count = field(frame, 12, 16);
        let length = 20 + 2 * count.div_ceil(8);
        if self.is(Wrong::ShowsFlagsFromBit7) {
            Wrong::show(reply, length, |_, shown| shown.reverse_bits());
        }
        if self.is(Wrong::ShowsFlagsBeyondTheCount) {
            let from = &flags[field(frame, 8, 12) - usize::from(firsts.flag)..];
            let eight = |at: usize| from[8 * at..].iter().take(8).zip(0..);
            Wrong::show(reply, length, |at, _| {
                eight(at).map(|(&byte, bit)| u8::from(byte != 0) << bit).sum()
            });
        }
    }

    /// Answers otherwise where a sound board refuses; None leaves the refusal.
    fn admit(
        self,
        number: u16,
        areas: &Areas,
        firsts: Firsts,
        mut again: impl FnMut(&mut Areas, Firsts) -> Outcome,
    ) -> Option<Outcome> {
        let mut copy = owned(areas);
        let points = copy.points.len() / SLOT;
        match self {
            Wrong::Tests10After4 if number == 10 => {
                copy.integers.resize(INTEGER * INTEGERS, 0);
                copy.flags.resize(FLAGS, 0);
                let outcome = again(&mut lent(&mut copy), firsts);
                (outcome.number == 4).then_some(outcome)
            }
            Wrong::TakesAShorterJournal if number == 4 => {
                let short = least_length(points) - 200..least_length(points);
                let is_short = short.contains(&copy.journal.len());
                copy.journal.resize(least_length(points), 0);
                is_short.then(|| again(&mut lent(&mut copy), firsts))
            }
            Wrong::AdmitsFlagsFromFED5 if number == 10 && firsts.flag == 0xFED5 => {
                Some(again(&mut lent(&mut copy), Firsts { flag: 0xFED4, ..firsts }))
            }
            _ => None,
        }
    }

    /// Finds something else than a sound board does; None leaves what that found.
    fn find(self, received: &[u8], sound: Finding) -> Option<Finding> {
        let frame =
            |start: usize, length: usize| Finding { code: 0, start, length, drop: start + length };
        let without = |code: u8, drop: usize| Finding { code, start: 0, length: 0, drop };
        let pair_from = |at: usize| received[at..].windows(2).position(|pair| pair == b"\r\n");
        let first = received.iter().position(|&byte| byte == b'!')?;
        let after_a_skipped_one = match sound.code {
            0 => sound.start > first,
            1 => true,
            2 => sound.drop > first,
            _ => sound.drop > first + 1,
        };
        match self {
            Wrong::FindsFramesOfAnyLength if sound.code == 3 => {
                Some(frame(sound.drop - 1, pair_from(sound.drop)? + 3))
            }
            Wrong::DropsTheWholeOverlongRun if sound.code == 3 => {
                Some(without(3, sound.drop + 1_022))
            }
            Wrong::CutsATestCallAtItsFirstPair if sound.code == 0 => {
                Some(frame(sound.start, pair_from(sound.start)? + 2))
            }
            Wrong::LooksOnlyAtTheFirstMark if after_a_skipped_one => {
                Some(without(1, received.len()))
            }
            Wrong::WaitsAtATestCallThatDoesNotEnd if after_a_skipped_one => Some(without(2, first)),
            Wrong::CountsFromTheSkippedMark if after_a_skipped_one => {
                Some(Finding { drop: sound.drop - first, ..sound })
            }
            Wrong::TakesCrLfAsAStation
                if sound.length == 3 && received[sound.start + 3..].starts_with(b"200") =>
            {
                let mut other = received.to_vec();
                other[sound.start + 1..sound.start + 3].copy_from_slice(b"99");
                Some(SecondProgram.receive(&other))
            }
            _ => None,
        }
    }

    fn spoil_reply(self, frame: &[u8], outcome: &mut Outcome, reply: &mut [u8]) {
        let length = outcome.reply_length;
        match self {
            Wrong::ConstantReply if outcome.number == 0 => reply[..6].copy_from_slice(b"#99200"),
            Wrong::InventsTheCount if length > 0 && &frame[3..6] == b"208" => reply[8] ^= 1,
            Wrong::WritesTheReplyAreaBeyondTheReply if length > 0 && length < reply.len() => {
                reply[length] ^= 1;
            }
            Wrong::WritesTheReplyAreaAtASilentRefusal if length == 0 => reply.fill(0),
            Wrong::RepliesWithMarks if frame.ends_with(b"@@\r\n") && length > 0 => {
                reply[length - 4..length - 2].copy_from_slice(b"@@");
            }
            Wrong::GivesAnotherErrorNumber if outcome.number == 107 => outcome.number = 106,
            Wrong::AcceptsATestCallOf21Bytes
                if outcome.number == 6 && frame.len() == 21 && &frame[3..6] == b"200" =>
            {
                let text = closed([b"#", &frame[1..17]].concat());
                reply[..21].copy_from_slice(&text);
                *outcome = Outcome { number: 0, reply_length: 21, sum: 1 };
            }
            _ => {}
        }
    }
}

/// A board with the bytes of these areas.
fn owned(areas: &Areas) -> Board {
    Board {
        points: areas.points.to_vec(),
        columns: areas.columns.to_vec(),
        integers: areas.integers.to_vec(),
        flags: areas.flags.to_vec(),
        journal: areas.journal.to_vec(),
        used: areas.used,
        effective: areas.effective,
    }
}

/// The areas of a board.
fn lent(board: &mut Board) -> Areas<'_> {
    Areas {
        points: &mut board.points,
        columns: &mut board.columns,
        integers: &mut board.integers,
        flags: &mut board.flags,
        journal: &mut board.journal,
        used: board.used,
        effective: board.effective,
    }
}

impl Calls for Wrong {
    fn receive(&self, received: &[u8]) -> Finding {
        let sound = SecondProgram.receive(received);
        self.find(received, sound).unwrap_or(sound)
    }

    fn answer(
        &self,
        frame: &[u8],
        areas: &mut Areas,
        axes: &[u8],
        settings: Settings,
        reply: &mut [u8],
    ) -> Outcome {
        if self.is(Wrong::RefusesAll) {
            return Outcome { number: 6, reply_length: 0, sum: 0 };
        }
        let old = owned(areas);
        let firsts = settings.firsts;
        let mut outcome = SecondProgram.answer(frame, areas, axes, settings, reply);
        if outcome.number == 0 {
            self.spoil_areas(frame, areas, &old, firsts);
            if &frame[3..6] == b"20D" {
                self.spoil_flags_shown(frame, &old.flags, firsts, reply);
            }
        }
        self.spoil_reply(frame, &mut outcome, reply);
        let admitted = self.admit(outcome.number, areas, firsts, |areas, firsts| {
            SecondProgram.answer(frame, areas, axes, Settings { firsts, ..settings }, reply)
        });
        admitted.unwrap_or(outcome)
    }

    fn step_back(&self, areas: &mut Areas, firsts: Firsts) -> u16 {
        let number = SecondProgram.step_back(areas, firsts);
        let admitted = self.admit(number, areas, firsts, |areas, firsts| Outcome {
            number: SecondProgram.step_back(areas, firsts),
            reply_length: 0,
            sum: 0,
        });
        admitted.map_or(number, |outcome| outcome.number)
    }
}

/// The calls find a difference on this board and say where.
fn is_caught(wrong: &dyn Calls, name: &str) {
    let Err(difference) = run(&mut Here(wrong), &plan(20_000)) else {
        panic!("{name} was not caught");
    };
    assert!(difference.starts_with("difference at call "), "{difference}");
    assert!(difference.contains(" of seed 20261115\n"), "{difference}");
    assert!(difference.contains("\npoints: "), "{difference}");
}

#[test]
fn wrong_boards_are_caught() {
    for wrong in ALL {
        is_caught(&wrong, &format!("{wrong:?}"));
    }
}

#[test]
fn boards_with_wrong_letters_are_caught() {
    for wrong in wrong_letters::ALL {
        is_caught(&wrong, &format!("{wrong:?}"));
    }
}

#[test]
fn boards_with_wrong_sums_are_caught() {
    for wrong in wrong_sums::ALL {
        is_caught(&wrong, &format!("{wrong:?}"));
    }
}

#[test]
fn boards_that_let_one_changed_byte_through_are_caught() {
    for wrong in lets_through::ALL {
        is_caught(&wrong, &format!("{wrong:?}"));
    }
}

#[test]
fn boards_that_look_or_act_wrongly_are_caught() {
    for wrong in wrong_looks::ALL {
        is_caught(&wrong, &format!("{wrong:?}"));
    }
    is_caught(&wrong_looks::Tests106Before105, "106 before 105");
    is_caught(&wrong_looks::GoesByTheCheck::default(), "an act that goes by the check");
}

#[test]
fn boards_with_wrong_counts_are_caught() {
    for wrong in wrong_counts::ALL {
        is_caught(&wrong, &format!("{wrong:?}"));
    }
}

#[test]
fn a_player_that_sends_nothing_or_anything_else_is_caught() {
    for words in ["true", "false", "cat"] {
        let mut player = Player::start(words, 64, 16).expect(words);
        let Err(difference) = run(&mut player, &plan(1_000)) else {
            panic!("{words} was not caught");
        };
        assert!(difference.starts_with("difference at call 1 of seed 20261115\n"), "{difference}");
    }
    assert!(Player::start("", 64, 16).is_err());
    assert!(Player::start("/no/such/player", 64, 16).is_err());
}

#[test]
fn without_calls_the_players_end_is_looked_at() {
    let of = |words: &str| run(&mut Player::start(words, 64, 16).expect(words), &plan(0));
    assert_eq!(of("dd of=/dev/null status=none"), Ok(Tally::default()));
    for words in ["false", "cat"] {
        assert!(of(words).is_err_and(|why| why.starts_with("difference at the end: ")), "{words}");
    }
}
