//! The twelve messages: what each does and its reply byte for byte (document 01, "Each message";
//! document 02, a; document 000, sections 4-3-2 to 4-3-30).

use second::areas::{Firsts, SLOT};
use second::bench::Bench;
use second::Board;

/// Twenty points, the reply area full of a byte that no reply has.
fn bench() -> Bench {
    let mut bench = Bench::fresh(20, 2_000);
    bench.reply = vec![0xEE; 1_100];
    bench
}

/// The reply to an accepted command, without SC, CR and LF, whose sum is checked.
fn reply(bench: &mut Bench, id_and_content: &str) -> String {
    let (number, reply) = bench.ask(id_and_content);
    assert_eq!(number, 0, "{id_and_content}");
    assert!(bench.reply[reply.len()..].iter().all(|&byte| byte == 0xEE));
    bench.reply.fill(0xEE);
    let (text, end) = reply.split_at(reply.len() - 4);
    let sum: u32 = text.iter().map(|&byte| u32::from(byte)).sum();
    assert_eq!(String::from_utf8_lossy(end), format!("{:02X}\r\n", sum % 256));
    String::from_utf8_lossy(text).into_owned()
}

#[test]
fn test_call_returns_ten_bytes_unchanged() {
    let mut bench = bench();
    assert_eq!(reply(&mut bench, "2000012345678"), "#992000012345678");
    assert_eq!(reply(&mut bench, "200aZ !@#\r\n. "), "#99200aZ !@#\r\n. ");
    let any = second::bench::command(
        0x99,
        &[b"200", &[0u8, 1, 127, 128, 200, 255, 13, 10, 33, 64][..]].concat(),
    );
    let (number, reply) = bench.hand(&any);
    assert_eq!((number, reply.len()), (0, 20));
    assert_eq!(reply[6..16], any[6..16]);
    assert_eq!(bench.board, Board::fresh(20, 2_000));
}

#[test]
fn number_of_effective_points() {
    let mut bench = bench();
    assert_eq!(bench.ask("208").1, b"#99208000BF\r\n"); // 13 bytes (4-3-4)
    reply(&mut bench, "24400300201000000000000000000000100000000000000000000");
    assert_eq!(reply(&mut bench, "208"), "#99208002");
    reply(&mut bench, "246003001");
    assert_eq!(reply(&mut bench, "208"), "#99208001");
}

#[test]
fn effective_points_are_listed_with_their_numbers() {
    let mut bench = bench();
    assert_eq!(reply(&mut bench, "209001014"), "#99209000");
    reply(&mut bench, "24401000101001E001F0064FFF9E580");
    reply(&mut bench, "24400200182FFFF0001000280000000000F4240");
    let second = "00282FFFF0001000280000000000F4240";
    let sixteenth = "01001001E001F0064FFF9E580";
    assert_eq!(reply(&mut bench, "209001014"), ["#99209002", second, sixteenth].concat());
    assert_eq!(reply(&mut bench, "209003012"), ["#99209001", sixteenth].concat());
    assert_eq!(reply(&mut bench, "20900200E"), ["#99209001", second].concat());
    assert_eq!(reply(&mut bench, "209002001"), ["#99209001", second].concat());
    assert_eq!(reply(&mut bench, "209011004"), "#99209000");
}

#[test]
fn one_eight_axis_point_makes_94_bytes() {
    // 4-3-5: "MAX 90" up to one record, then SC, CR, LF.
    let mut bench = bench();
    let positions = "0000000100000002000000030000000400000005000000060000000700000008";
    reply(&mut bench, &["244001001FF000100020003", positions].concat());
    let (number, reply) = bench.ask("209001014");
    assert_eq!((number, reply.len()), (0, 94));
    assert_eq!(reply[9..90], *["001FF000100020003", positions].concat().as_bytes());
}

#[test]
fn a_long_list_is_cut_to_1024_bytes_even_in_a_larger_area() {
    let mut bench = Bench::fresh(100, 65_536);
    bench.reply = vec![0xEE; 10_000];
    for slot in bench.board.points.chunks_mut(SLOT) {
        slot[0] = 0x10;
    }
    let (number, reply) = bench.ask("209001064");
    assert_eq!((number, reply.len()), (0, 13 + 40 * 25));
    assert_eq!(reply[..12], *b"#99209028001");
    assert_eq!(reply[9 + 39 * 25..9 + 39 * 25 + 3], *b"028");
    // 35 points with 52 axes: exactly 1,024 bytes, to the end of the least reply area.
    for slot in bench.board.points[..17 * SLOT].chunks_mut(SLOT) {
        slot[0] = 0x30;
    }
    bench.reply.truncate(1_024);
    let (number, reply) = bench.ask("209001064");
    assert_eq!((number, reply.len(), &reply[..9]), (0, 1_024, &b"#99209023"[..]));
}

#[test]
fn spoiled_slots_are_listed_as_they_are_stored() {
    let mut bench = bench();
    bench.settings.fitted = 0x01;
    bench.board.points[..SLOT].fill(0x12);
    let expected = ["#9920900100112", "1212", "1212", "1212", "12121212", "12121212"].concat();
    assert_eq!(reply(&mut bench, "209001001"), expected);
    bench.board.effective = 1;
    assert_eq!(reply(&mut bench, "208"), "#99208001");
}

#[test]
fn number_of_points_is_the_count_given_up_to_n() {
    let mut bench = bench();
    for slots in [0, 1, 20] {
        for slot in bench.board.points.chunks_mut(SLOT).take(slots) {
            slot[0] = 0x01;
        }
        for effective in 0..=20 {
            bench.board.effective = effective;
            assert_eq!(reply(&mut bench, "208"), format!("#99208{effective:03X}"));
            assert_eq!(bench.board.effective, effective);
        }
        bench.board.effective = 21;
        assert_eq!(bench.ask("208"), (11, Vec::new()));
    }
    let mut bench = Bench::fresh(1_500, 60_500);
    bench.board.effective = 1_500;
    assert_eq!(bench.ask("208").1[..9], *b"#992085DC");
    bench.board.effective = 1_501;
    assert_eq!(bench.ask("208").0, 11);
}

/// A 244H of so many points of axis 1 from a start.
fn write(start: usize, count: usize) -> String {
    format!("244{start:03X}{count:03X}{}", "01001E001E00640000C350".repeat(count))
}

#[test]
fn writes_and_clears_keep_the_count_and_other_messages_leave_it() {
    let mut bench = bench();
    for (text, effective) in [
        (write(2, 3).as_str(), 3), // over empty slots
        (&write(3, 1), 3),         // over an effective point
        (&write(4, 3), 5),         // over both
        ("24600F002", 5),          // of empty slots
        ("246001003", 3),          // of both
        ("246004001", 2),          // of an effective point
        ("24E0012C0141", 2),
        ("24C000C80100000001", 2),
        ("24B0002581", 2),
        ("209001014", 2),
        ("208", 2),
        (&write(1, 20), 20),
        ("246001014", 0),
        ("246001014", 0),
    ] {
        assert_eq!(bench.ask(text).0, 0, "{text}");
        assert_eq!(bench.board.effective, effective, "{text}");
        assert_eq!(bench.board.effective_slots(), effective, "{text}");
    }
}

#[test]
fn string_query_repeats_and_adds_two_digits_a_column() {
    let mut bench = bench();
    for (at, column) in bench.board.columns.iter_mut().enumerate() {
        *column = at as u8;
    }
    assert_eq!(reply(&mut bench, "2100012C03"), "#992100012C03000102");
    assert_eq!(reply(&mut bench, "2100023001"), "#992100023001".to_string() + "04");
    assert_eq!(reply(&mut bench, "210003E701"), "#99210003E701BB");
    let (number, longest) = bench.ask("2100012CFF");
    assert_eq!((number, longest.len()), (0, 527)); // 4-3-11: "MAX 527"
    assert_eq!(longest[521..523], *b"FE");
}

#[test]
fn axis_status_leaves_unfitted_axes_out() {
    let mut bench = bench();
    for (axis, record) in bench.axes.chunks_mut(9).enumerate() {
        let axis = axis as u8 + 1;
        record.copy_from_slice(&[
            0x10 + axis,
            axis,
            0x0A,
            0xB0 + axis,
            0xC0 + axis,
            0xFF,
            0xF9,
            0xE5,
            0x80,
        ]);
    }
    let axis_1 = "111AB1C1FFF9E580";
    let axis_3 = "133AB3C3FFF9E580";
    let axis_8 = "188AB8C8FFF9E580";
    assert_eq!(reply(&mut bench, "21285"), ["#9921285", axis_1, axis_3, axis_8].concat());
    bench.settings.fitted = 0x84;
    assert_eq!(reply(&mut bench, "21287"), ["#9921284", axis_3, axis_8].concat());
    assert_eq!(reply(&mut bench, "21203"), "#9921200");
    assert_eq!(reply(&mut bench, "21200"), "#9921200");
    bench.settings.fitted = 0xFF;
    assert_eq!(bench.ask("212FF").1.len(), 140);
}

#[test]
fn point_write_rewrites_slots_whole() {
    let mut bench = bench();
    bench.board.points.fill(0x5A);
    bench.board.effective = 20;
    let points = "05001E001F00640000C350FFFFFFFF" // axes 1 and 3
        .to_string()
        + "80FFFFFFFEFFFD80000000"; // axis 8
    assert_eq!(reply(&mut bench, &["244002002", &points].concat()), "#99244002002");
    let mut second = vec![0x05, 0, 0, 0x1E, 0, 0x1F, 0, 0x64, 0, 0, 0xC3, 0x50, 0, 0, 0, 0];
    second.extend([0xFF; 4]);
    second.extend([0; 20]);
    let mut third = vec![0x80, 0, 0xFF, 0xFF, 0xFF, 0xFE, 0xFF, 0xFD];
    third.extend([0; 28]);
    third.extend([0x80, 0, 0, 0]);
    assert_eq!(bench.board.points[..40], [0x5A; 40]);
    assert_eq!(bench.board.points[40..80], second);
    assert_eq!(bench.board.points[80..120], third);
    assert!(bench.board.points[120..].iter().all(|&byte| byte == 0x5A));
}

#[test]
fn a_bulk_write_refused_at_its_ninth_point_stores_none() {
    let mut bench = bench();
    bench.settings.fitted = 0x01;
    let eight = "01001E001E006400000001".repeat(8);
    let (number, _) = bench.ask(&["244001009", &eight, "02001E001E006400000001"].concat());
    assert_eq!(number, 107);
    assert_eq!(bench.board, Board::fresh(20, 2_000));
}

#[test]
fn point_clear_zeroes_the_named_slots() {
    let mut bench = bench();
    bench.board.points.fill(0x5A);
    bench.board.effective = 20;
    assert_eq!(bench.ask("246002003"), (0, b"#9924631\r\n".to_vec())); // no content (4-3-25)
    assert_eq!(bench.board.points[..40], [0x5A; 40]);
    assert_eq!(bench.board.points[40..160], [0; 120]);
    assert!(bench.board.points[160..].iter().all(|&byte| byte == 0x5A));
    assert_eq!(bench.board.used, 125);
    assert_eq!(bench.ask("246001014").0, 0);
    assert!(bench.board.points.iter().all(|&byte| byte == 0));
}

#[test]
fn string_change_sets_one_byte_a_column() {
    let mut bench = bench();
    bench.board.columns.fill(0x5A);
    assert_eq!(bench.ask("24E0012C0430303437"), (0, b"#9924E40\r\n".to_vec())); // (4-3-30)
    assert_eq!(bench.board.columns[..5], [0x30, 0x30, 0x34, 0x37, 0x5A]);
    assert_eq!(reply(&mut bench, "2100012C04"), "#992100012C0430303437");
    assert_eq!(reply(&mut bench, "24E003E6020047"), "#9924E");
    assert_eq!(bench.board.columns[697..], [0x5A, 0x00, 0x47]);
    let longest = ["24E0012CFF", &"C3".repeat(255)].concat();
    assert_eq!(reply(&mut bench, &longest), "#9924E");
    assert!(bench.board.columns[..255].iter().all(|&byte| byte == 0xC3));
    assert_eq!(bench.board.columns[255], 0x5A);
    assert_eq!(bench.board.used, 9 + 7 + 260);
}

#[test]
fn integer_query_repeats_and_adds_eight_digits_an_integer() {
    let mut bench = bench();
    // 4-3-9: 17 bytes of command, 17 and 8 for each of reply.
    assert_eq!(reply(&mut bench, "20E000C801"), "#9920E000C80100000000");
    bench.board.integers[..4].copy_from_slice(&[0x00, 0x00, 0x00, 0x2F]);
    bench.board.integers[396..].copy_from_slice(&[0x80, 0x01, 0x02, 0x03]);
    assert_eq!(reply(&mut bench, "20E000C802"), "#9920E000C8020000002F00000000");
    assert_eq!(reply(&mut bench, "20E0012B01"), "#9920E0012B0180010203");
    let (number, all) = bench.ask("20E000C864");
    assert_eq!((number, all.len()), (0, 817));
    assert_eq!((&all[13..21], &all[805..813]), (&b"0000002F"[..], &b"80010203"[..]));
}

#[test]
fn integer_change_stores_high_byte_first_and_repeats() {
    let mut bench = bench();
    bench.board.integers.fill(0x5A);
    // 23+39+39+32+34+43+30+30+30+43+38+30+32 (hexadecimal) is 2AB.
    let change = bench.ask("24C000C8020000002F80000001");
    assert_eq!(change, (0, b"#9924C000C802AB\r\n".to_vec()));
    assert_eq!(bench.board.integers[..9], [0, 0, 0, 0x2F, 0x80, 0, 0, 1, 0x5A]);
    assert_eq!(reply(&mut bench, "24C0012B0101234567"), "#9924C0012B01");
    assert_eq!(bench.board.integers[395..], [0x5A, 0x01, 0x23, 0x45, 0x67]);
    assert_eq!(bench.board.used, 13 + 9);
}

#[test]
fn integers_read_back_with_every_digit_whole_in_part_and_one_by_one() {
    let mut bench = bench();
    let values: Vec<String> =
        (0..100u32).map(|at| format!("{:08X}", at.wrapping_mul(0x8765_4321))).collect();
    let all = second::bench::command(0x99, ["24C000C864", &values.concat()].concat().as_bytes());
    assert_eq!(all.len(), 817);
    assert_eq!(bench.hand(&all).0, 0);
    for (at, count) in (0..100).map(|at| (at, 1)).chain([(0, 100), (1, 99), (37, 20)]) {
        let fields = format!("00{:03X}{count:02X}", 200 + at);
        let expected = ["#9920E", &fields, &values[at..at + count].concat()].concat();
        assert_eq!(reply(&mut bench, &["20E", &fields].concat()), expected);
    }
}

#[test]
fn flag_query_repeats_and_adds_a_bit_a_flag() {
    let mut bench = bench();
    // 4-3-8: 20 bytes of command, 20 and 2 for each eight flags begun of reply.
    assert_eq!(reply(&mut bench, "20D0002580001"), "#9920D000258000100");
    for (flag, byte) in [(0, 0x01), (2, 0x30), (7, 0x80), (8, 0x01), (9, 0xFF), (299, 0x02)] {
        bench.board.flags[flag] = byte;
    }
    assert_eq!(reply(&mut bench, "20D0002580008"), "#9920D000258000885");
    assert_eq!(reply(&mut bench, "20D0002580009"), "#9920D00025800098501");
    // Bits beyond the count are 0, though the next flag is on.
    assert_eq!(reply(&mut bench, "20D0002580007"), "#9920D000258000705");
    // Any start will do: 602, 607, 608 and 609 are on.
    assert_eq!(reply(&mut bench, "20D00025A0008"), "#9920D00025A0008E1");
    assert_eq!(reply(&mut bench, "20D0003830001"), "#9920D000383000101");
    let (number, all) = bench.ask("20D000258012C");
    assert_eq!((number, all.len()), (0, 96));
    assert_eq!((&all[16..20], &all[90..92]), (&b"8503"[..], &b"08"[..]));
}

#[test]
fn flag_change_stores_00_or_01_and_moves_no_other_flag() {
    let mut bench = bench();
    for at in [0, 1, 150, 299] {
        let flag = 600 + at;
        for (digit, byte, shown) in [("1", 0x01, "01"), ("0", 0x00, "00")] {
            bench.board.flags.fill(0x5A);
            let (number, text) = bench.ask(&format!("24B00{flag:04X}{digit}"));
            assert_eq!((number, text), (0, b"#9924B3D\r\n".to_vec())); // no content (4-3-27)
            assert_eq!(bench.board.flags[at], byte);
            assert_eq!(bench.board.flags.iter().filter(|&&byte| byte == 0x5A).count(), 299);
            let query = format!("20D00{flag:04X}0001");
            assert_eq!(reply(&mut bench, &query), format!("#99{query}{shown}"));
        }
    }
    assert_eq!(bench.board.used, 8 * 6);
}

#[test]
fn first_numbers_are_settings() {
    // The greatest ones: integers F9CH to FFFH, flags FED4H to FFFFH.
    let mut bench = bench();
    bench.settings.firsts = Firsts { integer: 0xF9C, flag: 0xFED4 };
    assert_eq!(reply(&mut bench, "24C00FFF0189ABCDEF"), "#9924C00FFF01");
    assert_eq!(bench.board.integers[396..], [0x89, 0xAB, 0xCD, 0xEF]);
    assert_eq!(reply(&mut bench, "24B00FFFF1"), "#9924B");
    assert_eq!(bench.board.flags[299], 0x01);
    assert_eq!(reply(&mut bench, "20E00F9C01"), "#9920E00F9C0100000000");
    assert_eq!(reply(&mut bench, "20D00FED40001"), "#9920D00FED4000100");
    for outside in ["20E00F9B01", "20E00FFF02", "20D00FED30001", "20D00FFFF0002", "24B00FED31"] {
        assert_eq!(bench.ask(outside).0, 106, "{outside}");
    }
    // The least ones, and no entry that names a number of the greatest.
    bench.settings.firsts = Firsts { integer: 0, flag: 0 };
    bench.board.used = 0;
    assert_eq!(reply(&mut bench, "20E0006301"), "#9920E000630189ABCDEF");
    assert_eq!(reply(&mut bench, "20D00012B0001"), "#9920D00012B000101");
    for outside in ["20E0006401", "20D00012C0001", "24B00012C0"] {
        assert_eq!(bench.ask(outside).0, 106, "{outside}");
    }
}

#[test]
fn queries_change_nothing() {
    let mut bench = bench();
    reply(&mut bench, "24E0012C0141");
    bench.board.journal[6..].fill(0xEE); // stands beyond the used length: no query's concern
    bench.board.flags.fill(0x30);
    let before = bench.board.clone();
    let queries = ["200..........", "208", "209001014", "2100012C10", "212FF"];
    for query in queries.into_iter().chain(["20D000258012C", "20E000C864"]) {
        reply(&mut bench, query);
        assert_eq!(bench.board, before, "{query}");
    }
}

#[test]
fn document_000_example_with_point_000_names_no_held_point() {
    // "General Rules" 1.3 shows !99209000032 with SC 53; our points begin at 1.
    let mut bench = bench();
    assert_eq!(bench.hand(b"!9920900003253\r\n"), (106, b"&991062F\r\n".to_vec()));
}

#[test]
fn replies_carry_the_boards_own_station() {
    let mut bench = bench();
    bench.settings.station = 0x0A;
    assert_eq!(reply(&mut bench, "208"), "#0A208000");
    assert_eq!(bench.ask("299").1[..6], *b"&0A101");
}
