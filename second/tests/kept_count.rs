//! A count that is kept (document 02, b): histories from fresh, in which each call is handed the count that
//! the last one handed back. After each the count is the slots', 208H replies it, and 11 never comes. Wrong
//! boards, on which the same judgement fails, and the rule of the kept count in a run of drawn calls.

use second::areas::SLOT;
use second::differential::compare::{Answer, Call, Lent};
use second::differential::dice::Dice;
use second::differential::product::make_on;
use second::differential::{
    drawn_boards, drawn_frames, drawn_line, run_with, Calls, Here, Plan, SecondProgram,
};
use second::journal::least_length;
use second::Board;
use std::collections::BTreeMap;

mod wrong_counts;

use wrong_counts::{slots, WrongCounts};

/// What histories came by: how often each number was given, and how the count changed.
#[derive(Debug, Default)]
struct Seen {
    numbers: BTreeMap<u16, usize>,
    rises: usize,
    falls: usize,
    /// Steps back that leave another count than they found.
    back: usize,
    replied: usize,
    greatest: usize,
}

/// A fresh board of any number of points, with the settings that stay.
fn fresh(dice: &mut Dice) -> Lent {
    let points = dice.pick(&[1, 2, 3, 5, 8, 20, 46, 300]);
    let journal = least_length(points) + dice.pick(&[0, 0, 45, 1_000]);
    Lent {
        board: Board::fresh(points, journal),
        axes: drawn_boards::axes(dice),
        settings: drawn_boards::settings(dice),
        reply: drawn_boards::reply(dice),
    }
}

fn any_frame(dice: &mut Dice, lent: &Lent) -> Vec<u8> {
    match dice.roll(12) {
        0 => drawn_frames::damaged(dice, lent),
        1 => drawn_frames::odd_letters(dice, lent),
        2 => drawn_frames::odd_sc(dice, lent),
        3..=5 => drawn_frames::of_count(dice, lent),
        _ => drawn_frames::good(dice, lent),
    }
}

fn any_call(dice: &mut Dice, lent: &Lent) -> Call {
    let frame = any_frame(dice, lent);
    match dice.roll(10) {
        0 => Call::Check { frame },
        1 | 2 => Call::Act { frame },
        3 | 4 => Call::StepBack,
        5 if dice.one_in(4) => Call::Receive { received: drawn_line::received(dice) },
        _ => Call::Answer { frame },
    }
}

/// A call in a history; Err says what isn't as it must be after it.
fn step(calls: &dyn Calls, call: &Call, lent: &mut Lent, seen: &mut Seen) -> Result<(), String> {
    let before = lent.board.effective;
    let answer = make_on(calls, call, lent);
    let after = lent.board.effective;
    if answer.number() == Some(11) {
        return Err(format!("11 with a count of {before}: {call:?}"));
    }
    let counted = slots(&lent.board.points);
    if after != counted {
        return Err(format!("a count of {after} for {counted} slots: {call:?}"));
    }
    if let (Call::Answer { frame } | Call::Act { frame }, Some(0)) = (call, answer.number()) {
        let is_count = &frame[3..6] == b"208";
        if is_count && lent.reply[6..9] != *format!("{counted:03X}").as_bytes() {
            return Err(format!("208H replies another count than {counted}"));
        }
        seen.replied += usize::from(is_count && counted > 0);
    }
    *seen.numbers.entry(answer.number().unwrap_or(0)).or_default() += 1;
    seen.rises += usize::from(after > before);
    seen.falls += usize::from(after < before);
    seen.back += usize::from(matches!(answer, Answer::SteppedBack(0)) && after != before);
    seen.greatest = seen.greatest.max(after);
    Ok(())
}

/// Histories of a hundred calls each; Err says where one is wrong.
fn histories(calls: &dyn Calls, several: usize) -> Result<Seen, String> {
    let mut dice = Dice::new(20_261_115);
    let mut seen = Seen::default();
    for number in 1..=several {
        let mut lent = fresh(&mut dice);
        for _ in 0..100 {
            let call = any_call(&mut dice, &lent);
            let told = step(calls, &call, &mut lent, &mut seen);
            told.map_err(|how| format!("history {number}: {how}"))?;
        }
    }
    Ok(seen)
}

#[test]
fn from_fresh_the_count_is_the_slots_and_11_never_comes() {
    let seen = histories(&SecondProgram, 300).unwrap_or_else(|how| panic!("{how}"));
    let numbers: Vec<u16> = seen.numbers.keys().copied().collect();
    let all: Vec<u16> = [0, 6, 7, 8, 9, 12].into_iter().chain(101..=108).collect();
    assert_eq!(numbers, all, "{seen:?}");
    assert!(seen.rises > 500 && seen.falls > 500 && seen.back > 500, "{seen:?}");
    assert!(seen.replied > 500 && seen.greatest > 45, "{seen:?}");
}

/// Those that are wrong from fresh, and how the first history says so.
const IN_HISTORIES: [(WrongCounts, &str); 7] = [
    (WrongCounts::CountsOverwrittenPointsTwice, "a count of "),
    (WrongCounts::CountsTheFirstPointAlone, "a count of "),
    (WrongCounts::ClearsAllSlotsNamed, "a count of "),
    (WrongCounts::LeavesTheCountAtAClear, "a count of "),
    (WrongCounts::StepsBackWithTheCountGiven, "a count of "),
    (WrongCounts::StepsBackByTheEntrysPoints, "a count of "),
    (WrongCounts::Refuses208AtN, "11 with a count of "),
];

#[test]
fn histories_find_boards_that_keep_it_wrongly() {
    for (wrong, how) in IN_HISTORIES {
        let Err(told) = histories(&wrong, 300) else {
            panic!("{wrong:?} was not found");
        };
        assert!(told.contains(how), "{wrong:?}: {told}");
    }
    // The others are wrong where the count is: no history shows them.
    let listed = |wrong: &WrongCounts| IN_HISTORIES.iter().any(|(other, _)| other == wrong);
    for wrong in wrong_counts::ALL.into_iter().filter(|wrong| !listed(wrong)) {
        assert!(histories(&wrong, 30).is_ok(), "{wrong:?}");
    }
}

/// Where 11 stands among the others, its sum and its reply: the comparison finds these alone.
const BESIDE_THE_RULE: [WrongCounts; 6] = [
    WrongCounts::Tests11Before8,
    WrongCounts::Tests11AfterTheErrors,
    WrongCounts::Tests11Before4,
    WrongCounts::Tests9Before11,
    WrongCounts::ForgetsTheSumWith11,
    WrongCounts::RepliesWith11,
];

#[test]
fn a_run_fails_whose_own_model_breaks_the_rule() {
    let plan = Plan { seed: 20_261_115, calls: 8_000, show: 0 };
    for wrong in wrong_counts::ALL {
        // The product is as wrong as the model, so that no difference is found.
        let model = |call: &Call, lent: &mut Lent| make_on(&wrong, call, lent);
        let told = run_with(&model, &mut Here(&wrong), &plan).err().unwrap_or_default();
        let found = told.starts_with("rule of the kept count broken at call ");
        assert_eq!(found, !BESIDE_THE_RULE.contains(&wrong), "{wrong:?}: {told}");
    }
}

#[test]
fn a_poll_looks_at_no_slot() {
    // The same reply whatever stands in the slots; only their number says something.
    let mut dice = Dice::new(208);
    let frame = b"!99208@@\r\n".to_vec();
    for _ in 0..200 {
        let mut lent = fresh(&mut dice);
        (lent.settings.station, lent.settings.unchecked) = (0x99, 1);
        let points = lent.board.points.len() / SLOT;
        lent.board.effective = dice.roll(points + 2);
        let mut other = lent.clone();
        drawn_boards::use_points(&mut dice, &mut other.board.points);
        let [one, another] = [&mut lent, &mut other]
            .map(|lent| make_on(&SecondProgram, &Call::Answer { frame: frame.clone() }, lent));
        assert_eq!((one, &lent.reply), (another, &other.reply));
        let number = if lent.board.effective > points { 11 } else { 0 };
        assert_eq!(one.number(), Some(number));
    }
}
