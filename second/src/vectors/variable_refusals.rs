//! Refusal 10, and 101 to 108 of the four messages of integers and flags (document 02, a).

use super::script::{Part, Script};
use super::variable_cases::{flag_change, flag_query, integer_change, integer_query};
use crate::areas::{Firsts, Settings};
use crate::bench::SETTINGS;

pub fn add(script: &mut Script) {
    wrong_areas(script);
    first_numbers_that_run_past(script);
    ten_between_3_and_4(script);
    digits_and_lengths(script);
    programs_counts_numbers(script);
    change_types(script);
    the_order(script);
}

/// Two points, an integer's and a flag's entry in the journal.
fn board(script: &mut Script) {
    script.board(2, 580);
    script.ask_all(&[&integer_change(200, &[0x4142_4344]), &flag_change(600, 1)]);
}

fn wrong_areas(script: &mut Script) {
    for (part, true_length) in [(Part::Integers, 400), (Part::Flags, 300)] {
        board(script);
        script.spoil(part, true_length, 0x01);
        for length in [0, 1, true_length - 1, true_length + 1, true_length] {
            script.lend(part, length);
            script.ask("208");
            script.step_back();
        }
    }
    // Each area has its own length.
    board(script);
    script.lend(Part::Integers, 300);
    script.ask(&flag_query(600, 300));
}

fn first_numbers_that_run_past(script: &mut Script) {
    board(script);
    let past = [(0xF9D, 600), (0xFFF, 600), (0xFFFF, 600), (200, 0xFED5), (200, 0xFFFF)];
    for (integer, flag) in past {
        script.settings(Settings { firsts: Firsts { integer, flag }, ..SETTINGS });
        script.ask("208");
        script.step_back();
    }
    // All that is named is held by number, but 10 comes first.
    script.settings(Settings { firsts: Firsts { integer: 0xF9D, flag: 0xFED5 }, ..SETTINGS });
    script.ask_all(&[&integer_query(0xFFF, 1), &flag_query(0xFFFF, 1), "299"]);
    script.settings(SETTINGS);
    script.steps_back(3);
}

/// 10 with 4 and with 9, then with 3: in frames and in steps back.
fn ten_between_3_and_4(script: &mut Script) {
    let past = Settings { firsts: Firsts { integer: 200, flag: 0xFED5 }, ..SETTINGS };
    script.board_with(2, 580, past);
    script.ask("208");
    script.step_back();
    script.lend(Part::Journal, 579);
    script.ask("208");
    script.step_back();
    script.lend(Part::Journal, 580);
    script.used(u64::MAX);
    script.ask("208");
    script.step_back();
    script.lend(Part::Columns, 699);
    script.ask("208");
    script.step_back();
    script.settings(SETTINGS);
    script.lend(Part::Columns, 700);
    script.ask("208");
    script.step_back();
}

fn digits_and_lengths(script: &mut Script) {
    board(script);
    script.ask_all(&[
        "20D00025800g1",
        "20D0002580001 ",
        "20d0002580001",
        "20E000c801",
        "20E000C80G",
    ]);
    script.ask_all(&["24B00025 1", "24B000258g", "24B0002581a", "24b0002581"]);
    script.ask_all(&[
        "24C000C8010000000g",
        "24C000C8010000 000",
        "24C000C801a",
        "24c000C80100000001",
    ]);
    script.ask_all(&["20D", "20D00025800", "20D000258001", "20D00025800010", "20D000258000101"]);
    script.ask_all(&["20E", "20E000C80", "20E000C8010", "20E000C80100000000"]);
    script.ask_all(&["24B", "24B000258", "24B00025810", "24B0002580001", "24B00025800011"]);
    script.ask_all(&["24C", "24C000C80", "24C000C801", "24C000C8010000000", "24C000C801000000001"]);
    script.ask_all(&["24C000C80200000001", "24C000C8010000000100000002", "24C000C80000000001"]);
    script.ask_all(&["24C000C80201", "24C000C8020102"]);
}

fn programs_counts_numbers(script: &mut Script) {
    board(script);
    script.ask_all(&["20D0102580001", "20E100C801", "24BFF02581", "24C010C80100000001"]);
    script.ask_all(&[&flag_query(600, 0), &flag_query(0, 0), &integer_query(200, 0)]);
    script.ask_all(&[&integer_query(0, 0), &integer_change(200, &[]), &integer_change(0xFFF, &[])]);
    for (start, count) in
        [(199, 1), (300, 1), (299, 2), (200, 101), (200, 255), (0, 1), (0xFFF, 255)]
    {
        script.ask(&integer_query(start, count));
    }
    for (start, values) in [(199, 1), (199, 2), (300, 1), (299, 2), (0xFFF, 1)] {
        script.ask(&integer_change(start, &vec![1; values]));
    }
    // As many as a frame has room for, and one more than are held.
    script.ask(&integer_change(200, &[1; 125]));
    script.ask(&integer_change(200, &[1; 101]));
    let beyond =
        [(599, 1), (900, 1), (899, 2), (600, 301), (600, 0xFFFF), (0xFFFF, 0xFFFF), (0, 1)];
    for (start, count) in beyond {
        script.ask(&flag_query(start, count));
    }
    for flag in [0, 599, 900, 0xFFFF, 200, 300] {
        script.ask(&flag_change(flag, 1));
    }
}

fn change_types(script: &mut Script) {
    board(script);
    for change in 0..=15 {
        script.ask(&flag_change(899, change));
    }
    script.ask(&flag_query(600, 300));
    script.steps_back(3);
}

/// Frames in which several of 101 to 108 hold, each one fault fewer than the last.
fn the_order(script: &mut Script) {
    script.board(2, 580);
    script.ask_all(&["24A0103848g0", "24B0103848g0", "24B01038480", "24B0103848", "24B0003848"]);
    script.ask_all(&["24B0003838", "24B0003831"]);
    script.ask_all(&["24F0112B00g0", "24C0112B00g0", "24C0112B000", "24C0112B00", "24C0012B00"]);
    script.ask_all(&["24C0012B020000000100000002", "24C0012A020000000100000002"]);
    script.ask_all(&["20C0103840000g", "20D0103840000g", "20D01038400000", "20D0103840000"]);
    script.ask_all(&["20D0003840000", "20D0003840001", "20D0003830001"]);
    script.ask_all(&["20F0112C00g", "20E0112C00g", "20E0112C000", "20E0112C00", "20E0012C00"]);
    script.ask_all(&["20E0012C01", "20E0012B01"]);
}
