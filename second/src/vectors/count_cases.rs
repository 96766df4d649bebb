//! A count that is kept (document 02, b): what writes, clears and steps back make of it, what 208H replies
//! by it, what leaves it, and refusal 11 in its order.

use super::script::{Part, Script};
use crate::areas::Settings;
use crate::bench::{command, SETTINGS};

pub fn add(script: &mut Script) {
    kept_from_fresh(script);
    kept_on_a_large_board(script);
    looked_at_first(script);
    false_counts(script);
    whatever_the_content(script);
    counts_of_208(script);
    left_by_other_messages(script);
    after_8(script);
    after_the_other_silent_ones(script);
    in_a_step_back(script);
    fewer_points_lent(script);
    steps_back_of_each_kind(script);
    old_bytes_of_any_kind(script);
    slots_changed_by_something_else(script);
    changed_between(script);
}

/// A 244H from this start; one point of axis 1 for each.
fn write(start: usize, count: usize) -> String {
    format!("244{start:03X}{count:03X}{}", "01001E001E00640000C350".repeat(count))
}

/// Clears of so many from a start.
fn clear(start: usize, count: usize) -> String {
    format!("246{start:03X}{count:03X}")
}

/// Each with a 208H behind it.
fn ask_and_count(script: &mut Script, several: &[String]) {
    for id_and_content in several {
        script.ask_all(&[id_and_content, "208"]);
    }
}

/// Over empty slots, over effective points, over both; clears of these; then all of it stepped back.
fn kept_from_fresh(script: &mut Script) {
    script.board(5, 1_500);
    script.ask("208");
    let writes = [write(2, 2), write(2, 1), write(3, 2), write(1, 5), clear(5, 1), clear(5, 1)];
    ask_and_count(script, &writes);
    ask_and_count(script, &[clear(3, 3), "24E0012C0130".to_string(), clear(1, 5), write(5, 1)]);
    for _ in 0..11 {
        script.step_back();
        script.ask("208");
    }
    // The least journal drops entries, and the count doesn't fall with them.
    script.board(2, 580);
    ask_and_count(script, &[write(1, 2), write(1, 1), write(2, 1), write(1, 2), clear(1, 1)]);
    for _ in 0..7 {
        script.ask(&write(1, 2));
    }
    script.steps_back(7);
    script.ask("208");
}

/// All slots, 1,500 of them; the last.
fn kept_on_a_large_board(script: &mut Script) {
    script.board(1_500, 65_536);
    ask_and_count(script, &[write(1, 9), write(1_492, 9), write(1_491, 9), clear(1, 1_500)]);
    script.step_back();
    ask_and_count(script, &[write(1_500, 1), clear(1_500, 1)]);
    script.steps_back(5);
    script.ask("208");
}

/// Three points, of which the first two are effective, and three entries.
fn board(script: &mut Script, settings: Settings) {
    script.board_with(3, 900, settings);
    script.ask_all(&[&write(1, 2), "24E0012C0130", "24B0002581"]);
}

/// A check leaves the count, an act keeps it.
fn looked_at_first(script: &mut Script) {
    board(script, SETTINGS);
    for text in ["208", &write(3, 1), "208", &clear(2, 2), "208", "24E0012C0131", "208"] {
        script.look_at(text);
    }
    script.steps_back(3);
    script.look_at("208");
}

/// Counts that two effective points of three haven't: one off, more than N, low bytes right.
const FALSE: [u64; 9] = [0, 1, 3, 4, 0x102, 0x1_0002, 0x1_0000_0002, 1 << 63 | 2, u64::MAX];

fn false_counts(script: &mut Script) {
    board(script, SETTINGS);
    for effective in FALSE {
        script.effective(effective);
        script.ask_all(&[&write(3, 1), &write(1, 1), &clear(1, 3), &clear(3, 1)]);
        script.look_at_all(&[&write(2, 2), &clear(2, 1)]);
        script.step_back();
    }
    script.effective(2);
    script.ask_all(&[&write(3, 1), "208"]);
    script.steps_back(2);
    script.ask("208");
}

/// 11 comes before 102 to 107, which are given where the count is true.
fn whatever_the_content(script: &mut Script) {
    let pattern = "24400100110001E001E00640000C350";
    let contents =
        ["244", "244g", "24400100", "244001001", "2440010000", "244001000", "2440040010"];
    let of_clears = ["246", "24600100z", "2460010010", "246001000", "246004001", "246000001"];
    board(script, Settings { fitted: 0x0F, ..SETTINGS });
    for effective in [1, 2] {
        script.effective(effective);
        script.ask_all(&contents);
        script.ask_all(&[pattern, &write(4, 1), &write(2, 3)]);
        script.ask_all(&of_clears);
        script.look_at_all(&["244", pattern, "246003002"]);
    }
}

/// Any count up to N is replied, whatever the slots; none above N is.
fn counts_of_208(script: &mut Script) {
    board(script, SETTINGS);
    for effective in [0, 2, 3, 4, 0x102, 0x1000, 1 << 32, u64::MAX] {
        script.effective(effective);
        script.ask_all(&["208", "2080", "208g"]);
        script.look_at("208");
        script.line("!99208@@");
    }
    for (points, journal) in [(1, 540), (255, 10_700), (1_500, 60_500)] {
        script.board(points, journal);
        for effective in [0, 1, 2, 254, 255, 256, 1_499, 1_500, 1_501] {
            script.effective(effective);
            script.ask("208");
        }
    }
}

/// Messages that neither look at the count nor change it, and frames that error replies refuse.
const OTHERS: [&str; 14] = [
    "2000123456789",
    "209001003",
    "20D0002580009",
    "20E000C802",
    "2100012C03",
    "212FF",
    "24B0002591",
    "24C000C90100000047",
    "24E0012C0230FF",
    "299",
    "24E0012C0g",
    "24C000C901",
    "209004001",
    "24B0002582",
];

fn left_by_other_messages(script: &mut Script) {
    for effective in [3, u64::MAX] {
        board(script, SETTINGS);
        script.effective(effective);
        script.ask_all(&OTHERS);
        script.look_at_all(&["24E0012C0131", "24B0002580", "24C000C80100000001", "209001003"]);
        script.step_back();
        script.effective(2);
        script.steps_back(6);
    }
    // IDs beside those that look at the count, and in small letters.
    board(script, Settings { release: 2, ..SETTINGS });
    script.effective(9);
    script.ask_all(&["245001001", "247001001", "24400", "2 4001001", "20f", "24f", "24e0012c0131"]);
}

/// Another station, or none, comes before 11; so do 12 and 7.
fn after_8(script: &mut Script) {
    board(script, SETTINGS);
    for effective in [2, 4] {
        script.effective(effective);
        for [station, sc] in [["98", "@@"], ["9G", "@@"], ["98", "  "], ["99", "  "]] {
            for text in ["208", "246001003", "244"] {
                script.line(&["!", station, text, sc].concat());
            }
        }
    }
    script.settings(Settings { unchecked: 0, ..SETTINGS });
    for line in ["!99208@@", "!99246001003@@", "!98244@@", "!99244  "] {
        script.line(line);
    }
    script.look(b"!99246001003@@\r\n");
    script.ask_all(&["208", "246001003"]);
    script.look_at("246001003");
}

/// From 6 to 1, each added to the ones before; the frame and the step back.
fn after_the_other_silent_ones(script: &mut Script) {
    board(script, SETTINGS);
    script.effective(1);
    let frame = command(SETTINGS.station, b"246001003");
    let not_a_frame = &frame[..frame.len() - 1];
    let both = |script: &mut Script| {
        script.frame(not_a_frame);
        script.look(not_a_frame);
        script.step_back();
    };
    script.frame(&frame);
    both(script);
    script.settings(Settings { release: 0, ..SETTINGS });
    both(script);
    script.settings(Settings { fitted: 0, release: 0, ..SETTINGS });
    both(script);
    script.used(5);
    both(script);
    script.lend(Part::Integers, 399);
    both(script);
    script.lend(Part::Columns, 701);
    both(script);
    script.lend(Part::Points, 119);
    both(script);
    script.lend(Part::Reply, 1_023);
    both(script);
}

/// 11 after 4 and before 9.
fn in_a_step_back(script: &mut Script) {
    script.board(2, 580);
    for effective in [0, 1, 2, 3, u64::MAX, 0] {
        script.effective(effective);
        script.step_back();
        script.used(1);
        script.step_back();
        script.used(0);
    }
    script.ask(&write(1, 1));
    script.effective(0);
    script.step_back();
    script.effective(1);
    script.steps_back(2);
}

/// N is what is lent: two effective points, of which one is.
fn fewer_points_lent(script: &mut Script) {
    script.board(2, 580);
    for offset in [0, 40] {
        script.spoil(Part::Points, offset, 0x01);
    }
    script.effective(2);
    script.ask("208");
    script.lend(Part::Points, 40);
    for effective in [2, 1] {
        script.effective(effective);
        script.ask_all(&["208", &write(1, 1)]);
        script.step_back();
    }
}

/// An entry of each kind: refused while the count is false, taken back where it is true.
fn steps_back_of_each_kind(script: &mut Script) {
    script.board(3, 900);
    script.ask_all(&[
        &write(1, 2),
        "24C000C90100000047",
        "24B0002591",
        "24E0012C0230FF",
        &clear(2, 2),
    ]);
    for effective in [1, 2, 2, 2, 2, 0] {
        for wrong in [effective + 1, u64::MAX] {
            script.effective(wrong);
            script.step_back();
        }
        script.effective(effective);
        script.step_back();
        script.ask("208");
    }
}

/// What a step back lays into slots may be anything: the count follows the patterns.
fn old_bytes_of_any_kind(script: &mut Script) {
    script.board(3, 900);
    script.ask_all(&[&write(1, 3), &clear(1, 2), &write(2, 1)]);
    // The second byte of a slot says nothing; the first says all, an axis that isn't fitted too.
    script.spoil(Part::Journal, 125 + 5, 0x00);
    script.spoil(Part::Journal, 125 + 5 + 40, 0xF0);
    script.spoil(Part::Journal, 5 + 1, 0xFF);
    script.spoil(Part::Journal, 5 + 80, 0x80);
    script.settings(Settings { fitted: 0x01, ..SETTINGS });
    for _ in 0..3 {
        script.step_back();
        script.ask_all(&["208", "209001003"]);
    }
    script.ask_all(&[&clear(3, 1), "208"]);
}

/// Slots that something else wrote make the count wrong, and it is refused until it is set.
fn slots_changed_by_something_else(script: &mut Script) {
    board(script, SETTINGS);
    for (offset, pattern, effective) in [(0, 0x00, 1), (80, 0xFF, 2), (81, 0x01, 2), (0, 0x80, 3)] {
        script.spoil(Part::Points, offset, pattern);
        script.ask_all(&["208", &write(2, 1), &clear(2, 1)]);
        script.step_back();
        script.effective(effective);
        script.ask_all(&["208", &write(2, 1)]);
        script.step_back();
    }
    script.steps_back(2);
}

/// Acting goes by the count that is there then.
fn changed_between(script: &mut Script) {
    board(script, SETTINGS);
    let frame = command(SETTINGS.station, write(3, 1).as_bytes());
    let query = command(SETTINGS.station, b"208");
    for (checked, acted) in [(2, 1), (1, 2)] {
        script.effective(checked);
        script.check(&frame);
        script.effective(acted);
        script.act(&frame);
    }
    for (checked, acted) in [(3, 4), (4, 3), (2, 1)] {
        script.effective(checked);
        script.check(&query);
        script.effective(acted);
        script.act(&query);
    }
    script.effective(3);
    script.steps_back(4);
}
