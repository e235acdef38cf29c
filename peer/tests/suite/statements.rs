//! The statement (open points H) and its total (W1).

use crate::support::*;
use peer::records::raw::RawUnit;
use peer::register::Register;
use peer::statement::{dollars, settle, statement};
use peer::units::Ticks;

fn settled(parts: &[Vec<u8>]) -> String {
    String::from_utf8(settle(&parts.concat())).unwrap()
}

#[test]
fn the_papers_example() {
    // 01's three lines, then 100.00 + 40.00 - 90.00.
    let expected = "05 IOG A%2FB 100.00\n05 IOG C 40.00\n05 OFF - 90.00\nDD TOT - 50.00\n";
    assert_eq!(settled(&[example_hour()]), expected);
}

#[test]
fn a_book_read_from_bytes_gives_the_same_statement() {
    let mut kept = Kept::fresh(FULL);
    let mut register = Register::new();
    let parts = [
        price(5, 3000, 3000),
        import(5, b"A%2FB", 100, &[(4000, 100)]),
        unit(5, b"G", &worked_unit()),
        failed_import(5, b"F", [10, 0], [1000, 2000]),
    ];
    for part in &parts {
        kept.must(part);
        register.change(FULL, part).unwrap();
    }
    let standing = kept.book.read(&kept.bytes).unwrap();
    assert_eq!(statement(&standing), settled(&parts));
    assert_eq!(statement(&register), settled(&parts));
}

#[test]
fn the_negative_offset_is_printed() {
    assert_eq!(
        settled(&[negative_offset_hour()]),
        "01 IOG A 0.00\n01 OFF - -9.17\nDD TOT - 9.17\n"
    );
}

#[test]
fn document_001s_hour_and_a_reversal() {
    let parts = [price(9, 3000, 0), unit(9, b"G", &worked_unit())];
    assert_eq!(
        settled(&parts),
        "DD PCG G 410.00\nDD REV G 0.00\nDD TOT - 410.00\n"
    );
    let parts = [price(9, 4200, 0), unit(9, b"G", &worked_unit())];
    // C1 1560 - 1680, C2 100, C3 420 - 300 = 120, C4 50.
    assert_eq!(
        settled(&parts),
        "DD PCG G -190.00\nDD REV G 190.00\nDD TOT - 0.00\n"
    );
}

#[test]
fn document_002s_charges() {
    let parts = [
        price(3, 0, 9_000),
        price(4, 0, 70_000),
        failed_import(3, b"I", [1000, 900], [10_000, 10_000]),
        failed_export(4, b"E", [2000, 1500], [90_000, 80_000]),
    ];
    assert_eq!(
        settled(&parts),
        "03 IFC I 0.00\n04 EFC E 5000.00\nDD TOT - -5000.00\n"
    );
}

#[test]
fn h1_names_go_by_their_decoded_bytes() {
    let list = [(0, 1)];
    let parts = [
        price(1, 0, 0),
        import(1, b"A/B", 0, &list),
        import(1, b"A.B", 0, &list),
        import(1, b"A", 0, &list),
        unit(1, b"A/B", &worked_unit()),
        unit(1, b"A.B", &worked_unit()),
    ];
    let text = settled(&parts);
    let names: Vec<&str> = text
        .lines()
        .map(|line| line.split(' ').nth(2).unwrap())
        .collect();
    assert_eq!(
        names,
        ["A", "A.B", "A%2FB", "-", "A.B", "A.B", "A%2FB", "A%2FB", "-"]
    );
}

#[test]
fn h2_h3_kinds_are_grouped_and_zeros_printed() {
    let parts = [
        price(2, 0, 0),
        failed_export(2, b"A", [0, 0], [0, 0]),
        failed_import(2, b"B", [0, 0], [0, 0]),
        failed_export(2, b"C", [0, 0], [0, 0]),
        failed_import(2, b"D", [0, 0], [0, 0]),
        import(2, b"Z", 0, &[(0, 1)]),
    ];
    let expected = "02 IOG Z 0.00\n02 OFF - 0.00\n02 IFC B 0.00\n02 IFC D 0.00\n02 EFC A 0.00\n02 EFC C 0.00\nDD TOT - 0.00\n";
    assert_eq!(settled(&parts), expected);
}

#[test]
fn h4_an_hour_without_its_price_prints_one_line() {
    for record in [
        import(7, b"A", 0, &[(0, 1)]),
        failed_import(7, b"A", [0, 0], [0, 0]),
        failed_export(7, b"A", [0, 0], [0, 0]),
    ] {
        let expected = "07 ERR - 15\nDD TOT - 0.00\n";
        assert_eq!(settled(std::slice::from_ref(&record)), expected);
        let others = [record, export(7, b"X", 1), import(7, b"B", 1, &[(0, 1)])];
        assert_eq!(settled(&others), expected);
    }
    assert_eq!(settled(&[export(7, b"A", 1)]), "DD TOT - 0.00\n");
    assert_eq!(
        settled(&[unit(7, b"G", &worked_unit())]),
        "DD ERR G 15\nDD TOT - 0.00\n"
    );
}

#[test]
fn h5_a_unit_lacking_one_price_prints_one_line() {
    let parts = [
        price(1, 3000, 0),
        unit(1, b"G%2F", &worked_unit()),
        unit(2, b"G%2F", &worked_unit()),
        unit(1, b"H", &worked_unit()),
    ];
    assert_eq!(
        settled(&parts),
        "DD ERR G%2F 15\nDD PCG H 410.00\nDD REV H 0.00\nDD TOT - 410.00\n"
    );
}

#[test]
fn h6_the_first_refusal_is_the_only_output() {
    let first = price(1, 1, 1);
    assert_eq!(settled(&[first.clone(), first.clone()]), "REF 2 10\n");
    assert_eq!(settled(&[first.clone(), b"TBTBTB".to_vec()]), "REF 3 14\n");
    assert_eq!(settled(&[first.clone(), b"CLTB".to_vec()]), "REF 3 9\n");
    assert_eq!(settled(&[first.clone(), b"\n".to_vec()]), "REF 2 1\n");
    assert_eq!(settled(&[first.clone(), b"\r\n".to_vec()]), "REF 2 2\n");
    assert_eq!(settled(&[first[..54].to_vec()]), "REF 1 1\n");
    assert_eq!(settled(&[correct(&first)]), "REF 1 11\n");
    assert_eq!(settled(&[price(0, 1, 1), first.clone()]), "REF 1 3\n");
    assert_eq!(
        settled(&[first.clone(), correct(&first), b"ZZ".to_vec()]),
        "REF 3 2\n"
    );
}

#[test]
fn h7_what_follows_is_the_next_record() {
    assert_eq!(settled(&[b"CLX".to_vec()]), "REF 2 1\n");
    assert_eq!(
        settled(&[price(1, 1, 1), b"TB".to_vec(), b"\0".to_vec()]),
        "REF 3 1\n"
    );
}

#[test]
fn h8_nothing_to_print_but_the_total() {
    assert_eq!(settled(&[]), "DD TOT - 0.00\n");
    assert_eq!(
        settled(&[price(1, 1, 1), price(2, 1, 1)]),
        "DD TOT - 0.00\n"
    );
    assert_eq!(
        settled(&[import(1, b"A", 0, &[(0, 1)]), b"TB".to_vec()]),
        "DD TOT - 0.00\n"
    );
}

#[test]
fn h9_forms() {
    assert_eq!(dollars(Ticks(0)), "0.00");
    assert_eq!(dollars(Ticks(-59)), "0.00");
    assert_eq!(dollars(Ticks(-60)), "-0.01");
    assert_eq!(dollars(Ticks(120 * 5)), "0.05");
    assert_eq!(dollars(Ticks(-120 * 105)), "-1.05");
    assert_eq!(dollars(Ticks(12_000 * 1_234_567)), "1234567.00");
    let parts = [
        price(1, 0, 0),
        price(24, 0, 0),
        import(24, b"A", 1, &[(5, 1)]),
        import(1, b"A", 1, &[(5, 1)]),
    ];
    assert_eq!(
        settled(&parts),
        "01 IOG A 0.01\n01 OFF - 0.00\n24 IOG A 0.01\n24 OFF - 0.00\nDD TOT - 0.02\n"
    );
}

#[test]
fn h10_the_input_may_be_longer_than_the_book() {
    let pair = [failed_import(1, b"A", [0, 0], [0, 0]), b"TB".to_vec()].concat();
    let long = pair.repeat(10_000);
    assert!(long.len() > 200_000);
    assert_eq!(settled(std::slice::from_ref(&long)), "DD TOT - 0.00\n");
    assert_eq!(settled(&[long, b"TB".to_vec()]), "REF 20001 14\n");
}

#[test]
fn a_full_list_is_refused_with_13() {
    let pair = [
        failed_import(1, b"A", [0, 0], [0, 0]),
        withdraw(b"FI", 1, b"A"),
    ]
    .concat();
    assert_eq!(settled(&[pair.repeat(256)]), "DD TOT - 0.00\n");
    assert_eq!(settled(&[pair.repeat(257)]), "REF 513 13\n");
    let twenty: Vec<(i32, u32)> = (1..=20).map(|i| (100, i)).collect();
    let record = import(1, &b"%2F".repeat(12), 1, &twenty);
    let full = [record.clone(), correct(&record).repeat(261)];
    assert_eq!(settled(&full), "REF 262 13\n");
}

#[test]
fn h12_a_closed_book_gets_its_statement() {
    let open = settled(&[example_hour()]);
    assert_eq!(settled(&[example_hour(), b"CL".to_vec()]), open);
}

#[test]
fn corrections_withdrawals_and_takings_back_show() {
    let parts = [
        example_hour(),
        correct(&export(5, b"D", 0)),
        withdraw(b"IM", 5, b"C"),
        export(6, b"Q", 1),
        b"TB".to_vec(),
    ];
    assert_eq!(
        settled(&parts),
        "05 IOG A%2FB 100.00\n05 OFF - 0.00\nDD TOT - 100.00\n"
    );
}

#[test]
fn amounts_are_rounded_once_from_their_ticks() {
    // Each interval loses 5 ticks: 60 in all, half a cent.
    let parts = [price(1, 0, 0), import(1, b"A", 1, &[(5, 1)])];
    assert_eq!(
        settled(&parts),
        "01 IOG A 0.01\n01 OFF - 0.00\nDD TOT - 0.01\n"
    );
}

/// The statement's last line.
fn total_line(parts: &[Vec<u8>]) -> String {
    let text = settled(parts);
    text.lines().last().expect("a total").to_string()
}

/// An import that loses so many ticks in each interval at price 0.
fn losing(hour: u8, spelled: &[u8], ticks: i32) -> Vec<u8> {
    import(hour, spelled, 1, &[(ticks, 1)])
}

/// A failed import charged 12 times so many ticks at PD price 200,000.
fn charged(hour: u8, spelled: &[u8], ticks: i32) -> Vec<u8> {
    failed_import(hour, spelled, [1, 0], [0, ticks])
}

#[test]
fn w1_an_empty_day() {
    assert_eq!(settled(&[]), "DD TOT - 0.00\n");
    let register = Register::new();
    assert_eq!(statement(&register), "DD TOT - 0.00\n");
}

#[test]
fn w1_a_day_with_prices_only() {
    let prices: Vec<Vec<u8>> = (1..=24).map(|hour| price(hour, 3000, 3000)).collect();
    assert_eq!(settled(&prices), "DD TOT - 0.00\n");
}

#[test]
fn w1_the_papers_example_has_a_fourth_line() {
    let text = settled(&[example_hour()]);
    let lines: Vec<&str> = text.lines().collect();
    assert_eq!(lines.len(), 4);
    assert_eq!(lines[3], "DD TOT - 50.00");
}

#[test]
fn w1_two_half_cents_are_two_cents() {
    // 60 ticks each, half a cent: 120 ticks together would be one cent.
    let parts = [price(1, 0, 0), losing(1, b"A", 5), losing(1, b"B", 5)];
    let expected = "01 IOG A 0.01\n01 IOG B 0.01\n01 OFF - 0.00\nDD TOT - 0.02\n";
    assert_eq!(settled(&parts), expected);
    // The export cancels both: 120 ticks, printed 0.01, where nothing is left.
    let cancelled = [&parts[..], &[export(1, b"E", 2)]].concat();
    let expected = "01 IOG A 0.01\n01 IOG B 0.01\n01 OFF - 0.01\nDD TOT - 0.01\n";
    assert_eq!(settled(&cancelled), expected);
}

#[test]
fn w1_amounts_that_print_as_zero_add_nothing() {
    // 48 ticks each: 144 together would be one cent.
    let parts = [
        price(1, 0, 200_000),
        charged(1, b"A", 4),
        charged(1, b"B", 4),
        charged(1, b"C", 4),
    ];
    let expected = "01 IFC A 0.00\n01 IFC B 0.00\n01 IFC C 0.00\nDD TOT - 0.00\n";
    assert_eq!(settled(&parts), expected);
}

#[test]
fn w1_a_negative_offset_adds() {
    // 0.00 less -9.17; hour 5 leaves 50.00.
    assert_eq!(total_line(&[negative_offset_hour()]), "DD TOT - 9.17");
    let both = [negative_offset_hour(), example_hour()];
    assert_eq!(total_line(&both), "DD TOT - 59.17");
}

#[test]
fn w1_failure_charges_are_taken_off() {
    // Import: min(90 - 80, 85 - 80) = $5 over 10 MW. Export: min(900 - 700,
    // 900 - 800) = $100 over 50 MW.
    let failed_in = [
        price(3, 0, 9_000),
        failed_import(3, b"I", [1000, 900], [8_000, 8_500]),
    ];
    let failed_out = [
        price(4, 0, 70_000),
        failed_export(4, b"E", [2000, 1500], [90_000, 80_000]),
    ];
    assert_eq!(settled(&failed_in), "03 IFC I 50.00\nDD TOT - -50.00\n");
    assert_eq!(
        settled(&failed_out),
        "04 EFC E 5000.00\nDD TOT - -5000.00\n"
    );
    let both = [failed_in, failed_out].concat();
    assert_eq!(total_line(&both), "DD TOT - -5050.00");
    // With hour 5's 50.00.
    let all = [both, vec![example_hour()]].concat();
    assert_eq!(total_line(&all), "DD TOT - -5000.00");
}

#[test]
fn w1_guarantee_and_reversal_are_added() {
    // G loses 190.00, which the reversal gives back; H is owed 410.00.
    let turned = [price(9, 4200, 0), unit(9, b"G", &worked_unit())];
    assert_eq!(
        settled(&turned),
        "DD PCG G -190.00\nDD REV G 190.00\nDD TOT - 0.00\n"
    );
    let owed = [price(10, 3000, 0), unit(10, b"H", &worked_unit())];
    assert_eq!(total_line(&owed), "DD TOT - 410.00");
    let both = [turned, owed].concat();
    assert_eq!(total_line(&both), "DD TOT - 410.00");
}

#[test]
fn w1_a_reversed_half_cent_cancels() {
    // 0.1 MW at price 0.05, offered at 0: -5 ticks an interval, -60 in all.
    let unit_at_a_tenth = RawUnit {
        schedules: [[1; 12]; 5],
        ..RawUnit::idle()
    };
    let parts = [price(1, 5, 0), unit(1, b"G", &unit_at_a_tenth)];
    assert_eq!(
        settled(&parts),
        "DD PCG G -0.01\nDD REV G 0.01\nDD TOT - 0.00\n"
    );
}

#[test]
fn w1_err_lines_add_nothing() {
    // Hour 7 has no price: its import and failure, and unit G, print ERR.
    let parts = [
        example_hour(),
        import(7, b"A", 100, &[(4000, 100)]),
        failed_import(7, b"F", [1000, 0], [0, 1000]),
        unit(5, b"G", &worked_unit()),
        unit(7, b"G", &worked_unit()),
        unit(5, b"H", &worked_unit()),
    ];
    let expected = "05 IOG A%2FB 100.00\n05 IOG C 40.00\n05 OFF - 90.00\n07 ERR - 15\nDD ERR G 15\nDD PCG H 410.00\nDD REV H 0.00\nDD TOT - 460.00\n";
    assert_eq!(settled(&parts), expected);
}

#[test]
fn w1_a_closed_day() {
    let close = b"CL".to_vec();
    assert_eq!(settled(std::slice::from_ref(&close)), "DD TOT - 0.00\n");
    let closed = [example_hour(), close];
    assert_eq!(total_line(&closed), "DD TOT - 50.00");
    assert_eq!(settled(&closed), settled(&closed[..1]));
}

#[test]
fn w1_nothing_follows_a_refusal() {
    let again = [example_hour(), example_hour()];
    assert_eq!(settled(&again), "REF 5 10\n");
    let after_closing = [example_hour(), b"CLTB".to_vec()];
    assert_eq!(settled(&after_closing), "REF 6 9\n");
    assert_eq!(settled(&[b"T".to_vec()]), "REF 1 1\n");
}

#[test]
fn w1_a_negative_total_has_its_sign_before_the_dollars() {
    // 60, 600 and 126,000 ticks.
    for (ticks, expected) in [
        (5, "DD TOT - -0.01"),
        (50, "DD TOT - -0.05"),
        (10_500, "DD TOT - -10.50"),
    ] {
        let parts = [price(1, 0, 200_000), charged(1, b"A", ticks)];
        assert_eq!(total_line(&parts), expected);
    }
}

#[test]
fn w1_each_kind_has_its_sign() {
    let started = RawUnit {
        start_up: 4_000,
        ..RawUnit::idle()
    };
    let paid_enough = RawUnit {
        schedules: [[100; 12]; 5],
        ..RawUnit::idle()
    };
    let parts = [
        price(1, 0, 1_000),
        price(2, 5_000, 0),
        // 70 ticks an interval are 7 cents; 2 of the 7 tenths are cancelled.
        import(1, b"A", 7, &[(10, 7)]),
        export(1, b"B", 2),
        // 10 x 10 x 12 ticks, and 300 x 10 x 12.
        failed_import(1, b"C", [10, 0], [0, 10]),
        failed_export(1, b"D", [10, 0], [1_300, 0]),
        unit(1, b"E", &started),
        // 12 times -5,000 x 100 ticks.
        unit(2, b"F", &paid_enough),
    ];
    // 0.07 - 0.02 - 0.10 - 3.00 + 40.00 + 0.00 - 500.00 + 500.00.
    let expected = [
        "01 IOG A 0.07",
        "01 OFF - 0.02",
        "01 IFC C 0.10",
        "01 EFC D 3.00",
        "DD PCG E 40.00",
        "DD REV E 0.00",
        "DD PCG F -500.00",
        "DD REV F 500.00",
        "DD TOT - 36.95",
    ];
    assert_eq!(settled(&parts).lines().collect::<Vec<_>>(), expected);
}

#[test]
fn w1_the_total_is_that_of_the_printed_lines() {
    let mut draw = Draw::new(0x701A);
    for _ in 0..200 {
        let hours: Vec<Vec<u8>> = (1..=3).map(|hour| drawn_hour(hour, &mut draw)).collect();
        let text = settled(&hours);
        let mut lines: Vec<&str> = text.lines().collect();
        let last = lines.pop().expect("a total");
        assert!(last.starts_with("DD TOT - "));
        let sum: i64 = lines.into_iter().map(counted).sum();
        assert_eq!(printed_cents(last), sum, "{text}");
    }
}
