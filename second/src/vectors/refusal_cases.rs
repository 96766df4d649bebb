//! Each refusal, alone and with later ones, by lengths, spoiled bytes and damaged frames.

use super::script::{Part, Script, STATION};
use crate::areas::Settings;
use crate::bench::{command, SETTINGS};
use crate::frames::closed;

pub fn add(script: &mut Script) {
    wrong_lengths(script);
    journal_lengths(script);
    used_lengths(script);
    spoiled_entries(script);
    axis_records(script);
    shapes(script);
    sums_and_stations(script);
    unknown_and_not_digits(script);
    content_lengths(script);
    programs_counts_numbers(script);
    patterns(script);
    the_order(script);
}

/// Two points and one entry of one column in the journal.
fn board(script: &mut Script) {
    script.board(2, 580);
    script.ask("24E0012C0141");
}

/// A fresh board with so many bytes of an area lent: a query, and a step back where it is tested.
fn lent(script: &mut Script, part: Part, length: u32) {
    script.board(2, 580);
    script.lend(part, length);
    script.ask("209001001");
    if !matches!(part, Part::Reply | Part::Axes) {
        script.step_back();
    }
}

fn wrong_lengths(script: &mut Script) {
    for length in [0, 1, 1_023] {
        lent(script, Part::Reply, length);
    }
    for length in [0, 39, 40, 41, 79] {
        lent(script, Part::Points, length);
    }
    for length in [0, 699] {
        lent(script, Part::Columns, length);
    }
    for length in [0, 71] {
        lent(script, Part::Axes, length);
    }
    // One byte more, set first, so that all that is lent is known.
    for (part, true_length) in [(Part::Reply, 1_024), (Part::Points, 80), (Part::Columns, 700)] {
        script.board(2, 580);
        script.spoil(part, true_length, 0x01);
        script.lend(part, true_length + 1);
        script.ask("209001001");
    }
    script.board(2, 580);
    script.spoil(Part::Axes, 72, 0x00);
    script.lend(Part::Axes, 73);
    script.ask("21201");
}

fn journal_lengths(script: &mut Script) {
    for length in [0, 380, 539, 579] {
        lent(script, Part::Journal, length);
    }
    for (points, journal) in [
        (1, 340),
        (1, 539),
        (1, 540),
        (1, 65_536),
        (1, 65_537),
        (1, 65_600),
        (1_500, 60_300),
        (1_500, 60_499),
        (1_500, 60_500),
    ] {
        script.board(points, journal);
        script.ask("24E0012C0141");
    }
    // Fewer points lent: the number of points is the area's.
    script.board(4, 660);
    script.ask_all(&["246003002", "24E0012C0141"]);
    script.lend(Part::Points, 80);
    script.ask("208");
    script.lend(Part::Points, 120);
    script.ask("208");
    script.lend(Part::Points, 160);
    script.ask("208");
}

fn used_lengths(script: &mut Script) {
    board(script);
    for used in [0, 1, 2, 3, 4, 5, 7, 580, 581, 1 << 32, u64::MAX, 6] {
        script.used(used);
        script.ask("2100012C01");
    }
    for used in [5, u64::MAX, 6, 0] {
        script.used(used);
        script.step_back();
    }
    // An earlier entry's end: what stands beyond is cleared by the next write.
    script.board(2, 580);
    script.ask_all(&["24E0012C0141", "24E0012C024242", "246001001"]);
    script.used(6);
    script.ask_all(&["208", "24E0012C0143"]);
    script.steps_back(2);
    script.board(2, 580);
    script.ask_all(&["24E0012C0141", "24E0012C024242", "246001001"]);
    script.used(13);
    script.steps_back(3);
}

/// A used part of these bytes, stepped back: it is put back where it is well-formed.
fn used_part(script: &mut Script, bytes: &[u8]) {
    script.board(3, 620);
    for (offset, &value) in (0..).zip(bytes).filter(|(_, &value)| value != 0) {
        script.spoil(Part::Journal, offset, value);
    }
    script.used(bytes.len() as u64);
    script.step_back();
}

fn spoiled_entries(script: &mut Script) {
    // Old bytes are zero but the first and the last.
    let entry = |head: [u8; 5], old: usize| {
        let mut bytes = [head.as_slice(), &vec![0; old]].concat();
        match &mut bytes[5..] {
            [] => {}
            [only] => *only = 0xAB,
            [first, .., last] => (*first, *last) = (0xAB, 0xCD),
        }
        bytes
    };
    for (head, old) in [
        ([0x53, 0, 3, 0x01, 0x2C], 1),      // column 300
        ([0x53, 0, 3, 0x03, 0xE7], 1),      // column 999
        ([0x53, 0, 4, 0x03, 0xE7], 2),      // 999 and 1000
        ([0x53, 0, 3, 0x01, 0x2B], 1),      // 299
        ([0x53, 0, 3, 0x03, 0xE8], 1),      // 1000
        ([0x53, 0, 2, 0x01, 0x2C], 0),      // no column
        ([0x53, 1, 1, 0x02, 0xE9], 255),    // 255 columns to the last
        ([0x53, 1, 2, 0x01, 0x2C], 256),    // 256 columns
        ([0x53, 0, 1, 0x01, 0x2C], 0),      // a length without a start number
        ([0x53, 0, 4, 0x01, 0x2C], 1),      // one byte too few
        ([0x50, 0, 42, 0, 1], 40),          // point 1
        ([0x50, 0, 42, 0, 3], 40),          // point 3
        ([0x50, 0, 122, 0, 1], 120),        // all three
        ([0x50, 0, 82, 0, 3], 80),          // 3 and 4
        ([0x50, 0, 42, 0, 0], 40),          // 0
        ([0x50, 0, 42, 0, 4], 40),          // 4
        ([0x50, 0, 2, 0, 1], 0),            // no point
        ([0x50, 0, 41, 0, 1], 39),          // not a whole slot
        ([0x50, 0, 40, 0, 1], 40),          // a length without the start number's two
        ([0x50, 0xFF, 0xFF, 0, 1], 40),     // far too long
        ([0x49, 0, 6, 0x00, 0xC8], 4),      // integer 200
        ([0x49, 0, 6, 0x01, 0x2B], 4),      // 299
        ([0x49, 0, 10, 0x01, 0x2B], 8),     // 299 and 300
        ([0x49, 0, 6, 0x00, 0xC7], 4),      // 199
        ([0x49, 0, 6, 0x01, 0x2C], 4),      // 300
        ([0x49, 0, 2, 0x00, 0xC8], 0),      // no integer
        ([0x49, 0, 3, 0x00, 0xC8], 1),      // a part of one
        ([0x49, 0, 5, 0x00, 0xC8], 3),      // the same
        ([0x49, 0, 7, 0x00, 0xC8], 5),      // one and a part
        ([0x49, 1, 0x92, 0x00, 0xC8], 400), // all 100
        ([0x49, 1, 0x92, 0x00, 0xC9], 400), // 100 from the second on
        ([0x49, 1, 0x96, 0x00, 0xC8], 404), // 101
        ([0x46, 0, 3, 0x02, 0x58], 1),      // flag 600
        ([0x46, 0, 3, 0x03, 0x83], 1),      // 899
        ([0x46, 0, 3, 0x02, 0x57], 1),      // 599
        ([0x46, 0, 3, 0x03, 0x84], 1),      // 900
        ([0x46, 0, 2, 0x02, 0x58], 0),      // no flag
        ([0x46, 0, 4, 0x02, 0x58], 2),      // two flags
        ([0x53, 0, 6, 0x00, 0xC8], 4),      // an integer with the tag of columns
        ([0x49, 0, 6, 0x02, 0x58], 4),      // a flag's number with the tag of integers
        ([0x47, 0, 3, 0x02, 0x58], 1),      // no such tag
        ([0x51, 0, 42, 0, 1], 40),          // no such tag
        ([0x00, 0, 0, 0, 0], 0),            // zeros
    ] {
        used_part(script, &entry(head, old));
    }
    let first = entry([0x53, 0, 4, 0x01, 0x2C], 2);
    used_part(script, &[first.clone(), entry([0x50, 0, 42, 0, 2], 40)].concat());
    used_part(script, &[first.clone(), entry([0x50, 0, 42, 0, 2], 39)].concat());
    used_part(script, &[first.as_slice(), &[0x53, 0, 3]].concat());
}

fn axis_records(script: &mut Script) {
    script.board(1, 540);
    for axis in [0, 7] {
        for (field, bad) in [(1, 0x10), (2, 0x10), (2, 0xFF)] {
            script.spoil(Part::Axes, 9 * axis + field, bad);
            script.ask("21201");
            script.spoil(Part::Axes, 9 * axis + field, 0x0F);
        }
    }
    script.ask("21289");
    script.settings(Settings { fitted: 0, ..SETTINGS });
    script.ask("21201");
    script.step_back();
}

fn shapes(script: &mut Script) {
    board(script);
    for frame in [
        &b""[..],
        b"!",
        b"!99208@\r\n",
        b"#99208@@\r\n",
        b" !99208@@\r\n",
        b"!99208@@\r\n\r",
        b"!99208@@\n\r",
        b"!99208@@\r",
        b"!99208@@ \n",
        b"!99208@@\r ",
    ] {
        script.frame(frame);
    }
    for content in [1_015, 1_016, 1_017] {
        script.frame(&command(STATION, "2".repeat(content).as_bytes()));
    }
    script.frame(&command(STATION, ["209", &"0".repeat(1_013)].concat().as_bytes()));
    script.frame(&[b'!'; 4_000]);
}

fn sums_and_stations(script: &mut Script) {
    board(script);
    for sc in ["2D", "@@", "2E", "2d", "@D", "2@", "D2"] {
        script.line(&["!99208", sc].concat());
    }
    // Capitals only, in either digit: B4, 9E and DC are the true ones.
    for line in ["212FFb4", "212F09e", "200ABCDEFGHIJdC", "200ABCDEFGHIJDc", "200ABCDEFGHIJDC"] {
        script.line(&["!99", line].concat());
    }
    for station in ["98", "9G", "@@", "9:", "/9"] {
        script.frame(&closed(["!", station, "208"].concat().into_bytes()));
    }
    script.settings(Settings { station: 0xAF, ..SETTINGS });
    for station in ["AF", "aF"] {
        script.frame(&closed(["!", station, "208"].concat().into_bytes()));
    }
}

fn unknown_and_not_digits(script: &mut Script) {
    board(script);
    script.ask_all(&["299", "201", "245", "24e", "2  ", "000", "20C", "20F", "24D"]);
    script.ask_all(&[
        "208x",
        "20900100a",
        "2100012c04",
        "212 1",
        "24400x",
        "246000 00",
        "24E0112B0141 ",
    ]);
    script.ask_all(&["212/1", "2121:", "2121@", "212G1", "212`1", "2121\r", "24E0012C014g"]);
}

fn content_lengths(script: &mut Script) {
    board(script);
    script.ask_all(&["2080", "209", "20900100", "2090010050"]);
    script.ask_all(&[
        "210",
        "2100012C0",
        "2100012C040",
        "212",
        "2121",
        "212011",
        "246",
        "24600100",
    ]);
    script.ask_all(&["2460010010", "244", "24400100", "2440010010", "24E", "24E0012C0"]);
    script.ask_all(&["24E0012C02004", "24E0012C0200", "24E0012C02000000", "24E0012C0000"]);
    let point = "01001E001E006400000000";
    let longer = "03001E001E00640000000000000000";
    for (count, points) in [
        ("001", [point, ""]),
        ("002", [point, ""]),
        ("001", [point, "0"]),
        ("001", [point, point]),
        ("001", [&point[1..], ""]),
        ("000", [point, ""]),
        ("FFF", [point, ""]),
        ("002", [point, longer]),
        ("002", [longer, point]),
        ("002", [longer, longer]),
        ("002", [point, &longer[..22]]),
        ("002", [longer, &point[..14]]),
    ] {
        script.ask(&["244001", count, points[0], points[1]].concat());
    }
}

fn programs_counts_numbers(script: &mut Script) {
    board(script);
    script.ask_all(&["2100112C00", "210FF12C01", "24E0112C00", "24E1012C0141"]);
    script.ask_all(&[
        "209001000",
        "2100000000",
        "246FFF000",
        "24E0000000",
        "209000000",
        "244001000",
    ]);
    script.ask_all(&["209000001", "209003001", "209002002", "209FFFFFF", "209001003", "209001002"]);
    script.ask_all(&["246000001", "246003001", "246002002", "246001002", "24E0012B0100"]);
    script.ask_all(&["2100012B01", "210003E801", "210003E702", "210002E9FF", "210002EAFF"]);
    script.ask_all(&["24E003E801FF", "24E003E7020000", "24E003E6020000"]);
    script.board(16, 1_140);
    script.ask_all(&["246010001", "246011001", "246010002", "20900A001", "209001010", "209001011"]);
}

fn patterns(script: &mut Script) {
    script.board_with(10, 900, Settings { fitted: 0x05, ..SETTINGS });
    let good = "01001E001E006400000007";
    let none = "00001E001E0064";
    let unfitted = "02001E001E006400000009";
    let both = "03001E001E00640000000900000008";
    script.ask(&["244001001", none].concat());
    script.ask(&["244001001", unfitted].concat());
    script.ask(&["244001001", both].concat());
    script.ask(&["244001002", good, none].concat());
    script.ask(&["244001009", &good.repeat(8), unfitted].concat());
    script.ask(&["244001009", none, &good.repeat(8)].concat());
    script.ask(&["24400A002", good, none].concat());
    script.ask(&["244001009", &good.repeat(8), "04", &unfitted[2..]].concat());
    script.ask("209001009");
    script.step_back();
}

/// From the last of 1, 2, 3, 10, 4 to 8 to the first, each added to the ones before: the earliest
/// is given.
fn the_order(script: &mut Script) {
    board(script);
    script.ask("299");
    script.line("!98299@@");
    script.line("!98299  ");
    script.frame(b"?98299  \r\n");
    script.settings(Settings { fitted: 0, ..SETTINGS });
    script.frame(b"?98299  \r\n");
    script.used(1);
    script.frame(b"?98299  \r\n");
    script.step_back();
    script.used(u64::MAX);
    script.step_back();
    script.lend(Part::Flags, 299);
    script.frame(b"?98299  \r\n");
    script.step_back();
    script.lend(Part::Columns, 699);
    script.frame(b"?98299  \r\n");
    script.step_back();
    script.lend(Part::Points, 79);
    script.frame(b"?98299  \r\n");
    script.step_back();
    script.lend(Part::Reply, 1_023);
    script.frame(b"?98299  \r\n");
    // Frames in which several of 101 to 107 hold, each one fault fewer than the last.
    script.board_with(2, 580, Settings { fitted: 0x0F, ..SETTINGS });
    script.ask_all(&["24F013E7000g", "24E013E7000g", "24E013E7000", "24E013E700", "24E003E700"]);
    script.ask_all(&["24E003E7023034", "24E003E6023034"]);
    let faulty = "10000000000000FFFFFFFF";
    let good = "08000000000000FFFFFFFF";
    script.ask(&["244002002", faulty, faulty, "f"].concat());
    script.ask(&["244002002", faulty, faulty, "0"].concat());
    script.ask("244003000");
    script.ask(&["244002002", faulty, faulty].concat());
    script.ask(&["244001002", good, faulty].concat());
    script.ask(&["244001002", good, good].concat());
}
