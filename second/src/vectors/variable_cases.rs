//! Integers and flags (document 02, a): each message near its limits, first numbers at theirs, and
//! steps back of all four kinds.

use super::script::{Part, Script};
use crate::areas::{Firsts, Settings};
use crate::bench::SETTINGS;

pub fn add(script: &mut Script) {
    integers(script);
    integers_in_part(script);
    flags(script);
    flags_from_any_start(script);
    spoiled_flags(script);
    first_numbers_at_their_limits(script);
    steps_back_of_all_kinds(script);
    other_first_numbers(script);
}

/// A 20EH of `count` integers.
pub fn integer_query(start: usize, count: usize) -> String {
    format!("20E00{start:03X}{count:02X}")
}

/// A 24CH of these integers.
pub fn integer_change(start: usize, values: &[u32]) -> String {
    let digits: String = values.iter().map(|value| format!("{value:08X}")).collect();
    format!("24C00{start:03X}{:02X}{digits}", values.len())
}

/// A 20DH of `count` flags.
pub fn flag_query(start: usize, count: usize) -> String {
    format!("20D00{start:04X}{count:04X}")
}

/// A 24BH of this change type.
pub fn flag_change(flag: usize, change: u8) -> String {
    format!("24B00{flag:04X}{change:X}")
}

/// A hundred integers, no two the same, each of four bytes that differ.
fn hundred() -> Vec<u32> {
    (0..100).map(|at| u32::from_be_bytes([at, at ^ 0x80, at ^ 0xC0, at ^ 0x40])).collect()
}

fn integers(script: &mut Script) {
    script.board(1, 540);
    script.ask_all(&[&integer_query(200, 1), &integer_query(200, 100), &integer_query(299, 1)]);
    script.ask_all(&[&integer_change(200, &[47]), &integer_change(299, &[0x8000_0000])]);
    script.ask_all(&[&integer_query(200, 100), &integer_query(200, 1), &integer_query(298, 2)]);
    script.ask_all(&[&integer_change(298, &[0xFFFF_FFFF, 0x0102_0304]), &integer_query(297, 3)]);
    script.steps_back(2);
    script.ask(&integer_query(200, 100));
}

/// What one 24CH stored is said whole, in part and one by one.
fn integers_in_part(script: &mut Script) {
    script.board(1, 1_000);
    script.ask_all(&[&integer_change(200, &hundred()), &integer_query(200, 100)]);
    script.ask_all(&[&integer_query(201, 99), &integer_query(250, 20), &integer_query(299, 1)]);
    for number in [200, 201, 231, 232, 298] {
        script.ask(&integer_query(number, 1));
    }
    script.ask_all(&[&integer_change(250, &[0; 3]), &integer_query(248, 7)]);
    script.ask_all(&[&integer_change(200, &hundred()[1..]), &integer_query(200, 100)]);
    script.steps_back(3);
    script.ask(&integer_query(200, 100));
}

fn flags(script: &mut Script) {
    script.board(1, 540);
    script.ask_all(&[&flag_query(600, 300), &flag_query(600, 1), &flag_query(899, 1)]);
    for flag in [600, 607, 608, 650, 899] {
        script.ask_all(&[&flag_change(flag, 1), &flag_query(flag, 1)]);
    }
    script.ask_all(&[&flag_query(600, 300), &flag_query(600, 8), &flag_query(600, 9)]);
    script.ask_all(&[&flag_change(607, 0), &flag_change(608, 1), &flag_change(601, 0)]);
    script.ask_all(&[&flag_query(600, 300), &flag_query(892, 8), &flag_query(891, 8)]);
    script.steps_back(4);
    script.ask(&flag_query(600, 300));
    script.steps_back(5);
}

/// Every third flag and every seventh is on: each start and count of these shows other bits.
fn flags_from_any_start(script: &mut Script) {
    script.board(1, 540);
    for flag in (0..30).filter(|flag| flag % 3 == 0 || flag % 7 == 0) {
        script.spoil(Part::Flags, flag, 0x01);
    }
    for start in 600..=609 {
        script.ask_all(&[&flag_query(start, 8), &flag_query(start, 3), &flag_query(start, 17)]);
    }
    for count in [1, 2, 4, 5, 6, 7, 9, 15, 16, 24] {
        script.ask_all(&[&flag_query(600, count), &flag_query(605, count)]);
    }
}

/// A byte that isn't 00 is on, whatever it is, and goes into the journal as it was.
fn spoiled_flags(script: &mut Script) {
    script.board(1, 540);
    let bytes = [0x30, 0x31, 0x80, 0xFF, 0x02, 0x00, 0x01, 0x10];
    script.spoil_run(Part::Flags, 4, &bytes);
    script.ask_all(&[&flag_query(600, 16), &flag_query(604, 8), &flag_query(605, 1)]);
    for flag in [604, 605, 606, 609] {
        script.ask_all(&[&flag_change(flag, 0), &flag_change(flag, 1)]);
    }
    script.ask(&flag_query(600, 16));
    script.steps_back(9);
    script.ask(&flag_query(600, 16));
}

fn first_numbers_at_their_limits(script: &mut Script) {
    for (integer, flag) in [(0, 0), (1, 1), (0xF9B, 0xFED3), (0xF9C, 0xFED4)] {
        let firsts = Firsts { integer, flag };
        script.board_with(1, 540, Settings { firsts, ..SETTINGS });
        let (integer, flag) = (usize::from(integer), usize::from(flag));
        script.ask_all(&[&integer_change(integer, &[0xA1B2_C3D4]), &flag_change(flag, 1)]);
        script.ask_all(&[&integer_change(integer + 99, &[7]), &flag_change(flag + 299, 1)]);
        script.ask_all(&[&integer_query(integer, 100), &flag_query(flag, 300)]);
        // One number outside, where the fields can say it.
        script.ask_all(&[&integer_query(integer, 101), &flag_query(flag, 301)]);
        script.ask_all(&[&integer_query(integer + 99, 2), &flag_query(flag + 299, 2)]);
        for number in [integer + 100, integer.wrapping_sub(1)] {
            script.ask(&integer_change(number & 0xFFF, &[9]));
        }
        for number in [flag + 300, flag.wrapping_sub(1)] {
            script.ask(&flag_change(number & 0xFFFF, 1));
        }
        script.steps_back(5);
    }
}

fn steps_back_of_all_kinds(script: &mut Script) {
    script.board(3, 620);
    for turn in 1..=3u32 {
        script.ask(&format!("24400200101000{turn}00020003FFFFFFF{turn}"));
        script.ask(&format!("24E0012C0230{turn:02X}"));
        script.ask(&integer_change(219 + turn as usize, &[turn, !turn]));
        script.ask(&flag_change(700 + turn as usize % 2, (turn % 2) as u8));
    }
    for steps in [0, 1, 1, 1, 1, 3] {
        script.steps_back(steps);
        script.ask_all(&["209001003", "2100012C02", &integer_query(218, 6), &flag_query(697, 8)]);
    }
    // A write that changes no byte is an entry too.
    script.ask_all(&[&integer_change(240, &[0; 2]), &flag_change(899, 0)]);
    script.steps_back(8);
}

/// An entry names the number as in its frame: other first numbers make it another place, or none.
fn other_first_numbers(script: &mut Script) {
    let with = |integer: u16, flag: u16| Settings { firsts: Firsts { integer, flag }, ..SETTINGS };
    script.board(1, 540);
    script.ask_all(&[&integer_change(200, &[5, 6]), &flag_change(600, 1)]);
    for (integer, flag) in [(201, 600), (101, 600), (200, 601), (200, 300)] {
        script.settings(with(integer, flag));
        script.ask("208");
    }
    // 600 is the last flag from 301 on, and 200 and 201 are the last integers from 102 on.
    script.settings(with(102, 301));
    script.spoil(Part::Flags, 299, 0x55);
    script.ask_all(&[&flag_query(600, 1), &integer_query(200, 2)]);
    script.steps_back(3);
    script.settings(SETTINGS);
    script.ask_all(&[&flag_query(600, 300), &integer_query(200, 100)]);
}
