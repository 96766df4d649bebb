//! The journal and the step back, through the calls (document 01, "Journal"; demand 3).

use second::bench::Bench;

/// One point: the least journal is 540 bytes.
fn small() -> Bench {
    Bench::fresh(1, 540)
}

fn accept(bench: &mut Bench, id_and_content: &str) {
    assert_eq!(bench.ask(id_and_content).0, 0, "{id_and_content}");
}

#[test]
fn points_come_back_write_after_write() {
    let mut bench = Bench::fresh(3, 620);
    let fresh = bench.board.clone();
    accept(&mut bench, "24400100201000100010001000000010100010001000100000002");
    let first = bench.board.clone();
    accept(&mut bench, "244002002010009000900090000000901000800080008FFFFFFFF");
    let second = bench.board.clone();
    accept(&mut bench, "246001003");
    assert_eq!(bench.board.used, 85 + 85 + 125);
    assert!(bench.board.points.iter().all(|&byte| byte == 0));
    for expected in [second, first, fresh] {
        assert_eq!(bench.step_back(), 0);
        assert_eq!(bench.board, expected);
    }
    assert_eq!(bench.step_back(), 9);
}

#[test]
fn columns_come_back_with_leading_zeros() {
    let mut bench = small();
    accept(&mut bench, "24E0012C0430303437");
    let first = bench.board.clone();
    accept(&mut bench, "24E0012C04FFFFFFFF");
    accept(&mut bench, "24E003E701AA");
    assert_eq!(bench.step_back(), 0);
    assert_eq!(bench.step_back(), 0);
    assert_eq!(bench.board, first);
    assert_eq!(bench.board.columns[..4], [0x30, 0x30, 0x34, 0x37]);
    assert_eq!(bench.step_back(), 0);
    assert_eq!(bench.board, small().board);
}

#[test]
fn points_and_columns_share_the_order() {
    let mut bench = small();
    accept(&mut bench, "24E0012C0141");
    accept(&mut bench, "2440010010100000000000000000007");
    accept(&mut bench, "24E0012C0142");
    assert_eq!(bench.step_back(), 0);
    assert_eq!((bench.board.columns[0], bench.board.points[11]), (0x41, 7));
    assert_eq!(bench.step_back(), 0);
    assert_eq!((bench.board.columns[0], bench.board.points[11]), (0x41, 0));
    assert_eq!(bench.step_back(), 0);
    assert_eq!(bench.board, small().board);
}

#[test]
fn integers_come_back_write_after_write() {
    let mut bench = small();
    let fresh = bench.board.clone();
    accept(&mut bench, "24C000C8020000002F80000000");
    let first = bench.board.clone();
    accept(&mut bench, "24C000C801FFFFFFFF");
    let second = bench.board.clone();
    accept(&mut bench, &["24C000C864", &"01234567".repeat(100)].concat());
    assert_eq!(bench.board.used, 13 + 9 + 405);
    assert_eq!(bench.board.journal[22..31], [0x49, 0x01, 0x92, 0, 0xC8, 0xFF, 0xFF, 0xFF, 0xFF]);
    for expected in [second, first, fresh] {
        assert_eq!(bench.step_back(), 0);
        assert_eq!(bench.board, expected);
    }
    assert_eq!(bench.step_back(), 9);
}

#[test]
fn a_flags_old_byte_comes_back_as_it_was() {
    let mut bench = small();
    bench.board.flags[299] = 0x30;
    let spoiled = bench.board.clone();
    accept(&mut bench, "24B0003831");
    assert_eq!(bench.board.journal[..7], [0x46, 0, 3, 0x03, 0x83, 0x30, 0]);
    accept(&mut bench, "24B0003830");
    assert_eq!((bench.board.flags[299], bench.board.used), (0x00, 12));
    assert_eq!(bench.step_back(), 0);
    assert_eq!(bench.board.flags[299], 0x01);
    assert_eq!(bench.step_back(), 0);
    assert_eq!(bench.board, spoiled);
}

#[test]
fn all_four_kinds_share_the_order() {
    let mut bench = small();
    let mut boards = vec![bench.board.clone()];
    for write in [
        "24C000C80100000001",
        "24B0002581",
        "24E0012C0141",
        "2440010010100000000000000000007",
        "24B0002580",
        "24C000C802FFFFFFFF00000002",
        "246001001",
    ] {
        accept(&mut bench, write);
        boards.push(bench.board.clone());
    }
    boards.pop();
    for board in boards.into_iter().rev() {
        assert_eq!(bench.step_back(), 0);
        assert_eq!(bench.board, board);
    }
    assert_eq!(bench.step_back(), 9);
}

#[test]
fn an_entry_names_numbers_not_places() {
    let mut bench = small();
    accept(&mut bench, "24C000C90100000005");
    // 201 was the second integer; from 102 on it is the last.
    bench.settings.firsts.integer = 102;
    bench.board.integers.fill(0x77);
    assert_eq!(bench.step_back(), 0);
    assert_eq!(bench.board.integers[..396], [0x77; 396]);
    assert_eq!(bench.board.integers[396..], [0; 4]);
    let mut bench = small();
    accept(&mut bench, "24B0002581");
    bench.settings.firsts.flag = 601;
    let before = bench.board.clone();
    assert_eq!((bench.step_back(), bench.ask("208").0), (4, 4));
    assert_eq!(bench.board, before);
}

#[test]
fn a_write_that_changes_no_byte_is_an_entry_too() {
    let mut bench = small();
    accept(&mut bench, "246001001");
    assert_eq!(bench.board.used, 45);
    accept(&mut bench, "24E0012C0100");
    assert_eq!(bench.board.used, 51);
    accept(&mut bench, "24C000C80100000000");
    assert_eq!(bench.board.used, 60);
    accept(&mut bench, "24B0002580");
    assert_eq!(bench.board.used, 66);
    for used in [60, 51, 45] {
        assert_eq!(bench.step_back(), 0);
        assert_eq!(bench.board.used, used);
    }
}

#[test]
fn queries_and_refused_writes_are_not_stepped_back() {
    let mut bench = small();
    accept(&mut bench, "24E0012C0141");
    accept(&mut bench, "24E0012C0142");
    let queries = ["200..........", "208", "209001001", "2100012C02", "212FF"];
    for query in queries.into_iter().chain(["20D0002580001", "20E000C801"]) {
        accept(&mut bench, query);
    }
    let refused = ["24E0012C0043", "24E0112C0143", "246002001", "24400100100000000000000", "299"];
    for refused in refused.into_iter().chain(["24B0002582", "24C0012B020000000100000002"]) {
        assert!(bench.ask(refused).0 > 100, "{refused}");
    }
    assert_eq!(bench.hand(b"!9924E0012C014300\r\n").0, 7);
    assert_eq!(bench.board.columns[0], 0x42);
    assert_eq!(bench.step_back(), 0);
    assert_eq!(bench.board.columns[0], 0x41);
}

#[test]
fn a_full_journal_drops_its_oldest_and_no_more_than_needed() {
    let mut bench = Bench::fresh(1, 565);
    // Entries of 45 bytes: twelve make 540, the 13th would make 585.
    for number in 1..=12 {
        accept(&mut bench, &format!("24400100101000000000000000000{number:X}0"));
        assert_eq!(bench.board.used, 45 * number);
    }
    accept(&mut bench, "24400100101000000000000000000D0");
    assert_eq!(bench.board.used, 540);
    // 25 bytes are left: 20 columns take all of them.
    accept(&mut bench, &["24E0012C14", &"41".repeat(20)].concat());
    assert_eq!(bench.board.used, 565);
    // One column's 6 bytes cost one entry of 45.
    accept(&mut bench, "24E0012C0142");
    assert_eq!(bench.board.used, 526);
    assert!(bench.board.journal[526..].iter().all(|&byte| byte == 0));
    for columns in [0x41, 0x00] {
        assert_eq!(bench.step_back(), 0);
        assert_eq!(bench.board.columns[0], columns);
    }
    // Writes 13 to 3 go back; the writes 1 and 2 can't be taken back any more.
    for number in (2..=12).rev().map(|number| 0x10 * number) {
        assert_eq!(bench.step_back(), 0);
        assert_eq!(bench.board.points[11], number);
    }
    assert_eq!(bench.board.used, 0);
    assert_eq!(bench.step_back(), 9);
    assert_eq!(bench.board.points[11], 0x20);
}

#[test]
fn the_longest_entries_fit_the_least_journal() {
    let mut bench = Bench::fresh(1_500, 60_500);
    bench.board.points.fill(0x11);
    bench.board.effective = 1_500;
    for _ in 0..2 {
        accept(&mut bench, "2460015DC");
        assert_eq!(bench.board.used, 60_005);
        // 2 + 60,000 is EA62.
        assert_eq!(bench.board.journal[..5], [0x50, 0xEA, 0x62, 0, 1]);
    }
    accept(&mut bench, &["24E0012CFF", &"41".repeat(255)].concat());
    assert_eq!(bench.board.used, 60_265);
    // 235 bytes are left: an entry of 236 costs the long one.
    accept(&mut bench, &["24E0012CE7", &"41".repeat(231)].concat());
    assert_eq!(bench.board.used, 260 + 236);
}

#[test]
fn journals_of_the_greatest_length_are_used_to_the_last_byte() {
    let mut bench = Bench::fresh(1, 65_536);
    // 65,536 is 251 times 260 and 46 times 6.
    for _ in 0..251 {
        accept(&mut bench, &["24E0012CFF", &"41".repeat(255)].concat());
    }
    for _ in 0..46 {
        accept(&mut bench, "24E0012C0141");
    }
    assert_eq!(bench.board.used, 65_536);
    accept(&mut bench, "24E0012C0141");
    assert_eq!(bench.board.used, 65_536 - 260 + 6);
    for _ in 0..297 {
        assert_eq!(bench.step_back(), 0);
    }
    assert_eq!(bench.step_back(), 9);
}

#[test]
fn bytes_beyond_the_used_length_are_00_after_a_write_and_a_step_back() {
    let mut bench = small();
    bench.board.journal.fill(0xEE);
    accept(&mut bench, "24E0012C0141");
    assert!(bench.board.journal[6..].iter().all(|&byte| byte == 0));
    accept(&mut bench, "24E0012C024242");
    assert_eq!(bench.board.used, 13);
    bench.board.journal[13..].fill(0xEE);
    assert_eq!(bench.step_back(), 0);
    assert_eq!(bench.board.used, 6);
    assert!(bench.board.journal[6..].iter().all(|&byte| byte == 0));
}

#[test]
fn spoiled_old_bytes_come_back_as_they_were() {
    let mut bench = small();
    bench.board.points.fill(0x5A);
    bench.board.effective = bench.board.effective_slots();
    let before = bench.board.clone();
    accept(&mut bench, "2440010010100000000000000000001");
    assert_eq!(bench.step_back(), 0);
    assert_eq!(bench.board, before);
}

#[test]
fn the_count_goes_back_with_the_slots() {
    let mut bench = Bench::fresh(3, 900);
    let counts: Vec<usize> = [
        "24400100201000100010001000000010100010001000100000002",
        "24E0012C0141",
        "246001001",
        "24C000C80100000001",
        "2440020010100010001000100000003",
        "24B0002581",
        "2440010010100010001000100000003",
        "246001003",
    ]
    .iter()
    .map(|text| {
        let before = bench.board.effective;
        accept(&mut bench, text);
        before
    })
    .collect();
    assert_eq!((counts.as_slice(), bench.board.effective), (&[0, 2, 2, 1, 1, 1, 1, 2][..], 0));
    for effective in counts.into_iter().rev() {
        assert_eq!(bench.step_back(), 0);
        assert_eq!(bench.board.effective, effective);
        assert_eq!(bench.board.effective_slots(), effective);
    }
    assert_eq!((bench.step_back(), bench.board.effective), (9, 0));
}

#[test]
fn a_wrong_count_refuses_a_step_back_of_each_kind() {
    for text in [
        "2440010010100010001000100000003",
        "246001001",
        "24E0012C0141",
        "24C000C80100000001",
        "24B0002581",
    ] {
        let mut bench = Bench::fresh(3, 900);
        accept(&mut bench, "2440020010100010001000100000003");
        let before = bench.board.clone();
        accept(&mut bench, text);
        let slots = bench.board.effective;
        for effective in [0, 1, 2, 3, 4, slots | 1 << 8, slots | 1 << 32, usize::MAX] {
            bench.board.effective = effective;
            let after = bench.board.clone();
            if effective != slots {
                assert_eq!((bench.step_back(), &bench.board), (11, &after), "{text} {effective}");
            }
        }
        bench.board.effective = slots;
        assert_eq!((bench.step_back(), bench.board), (0, before), "{text}");
    }
}

#[test]
fn spoiled_old_slots_are_counted_as_they_come_back() {
    let mut bench = Bench::fresh(2, 580);
    accept(&mut bench, "246001002");
    // The old slots' patterns stand behind the entry's five bytes.
    bench.board.journal[5] = 0xF0;
    bench.board.journal[45] = 0x01;
    assert_eq!((bench.step_back(), bench.board.effective), (0, 2));
    accept(&mut bench, "246001002");
    bench.board.journal[5..45].fill(0);
    assert_eq!((bench.step_back(), bench.board.effective), (0, 1));
}

#[test]
fn a_spoiled_journal_refuses_both_calls() {
    let mut bench = small();
    accept(&mut bench, "24E0012C0141");
    accept(&mut bench, "24E0012C0142");
    for at in [0, 1, 2, 3, 6, 7, 8, 9] {
        let mut spoiled = bench.clone();
        spoiled.board.journal[at] ^= 0x04;
        let before = spoiled.board.clone();
        assert_eq!(spoiled.step_back(), 4, "{at}");
        assert_eq!(spoiled.ask("208").0, 4, "{at}");
        assert_eq!(spoiled.board, before);
    }
}
