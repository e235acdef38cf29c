//! Questions (open points D), on the book and the register alike.

use crate::support::*;
use peer::names;
use peer::register::Register;

/// A book and a register with these changes.
fn both(changes: &[Vec<u8>]) -> (Kept, Register) {
    let mut kept = Kept::fresh(FULL);
    let mut register = Register::new();
    for change in changes {
        kept.must(change);
        register.change(FULL, change).unwrap();
    }
    (kept, register)
}

macro_rules! ask {
    ($both:expr, $question:ident $(, $argument:expr)*) => {{
        let (kept, register) = &$both;
        let answer = kept.book.$question(&kept.bytes $(, $argument)*);
        assert_eq!(register.$question(FULL $(, $argument)*), answer);
        answer
    }};
}

#[test]
fn d1_a_mark_of_another_length_gives_2() {
    let state = both(&[price(1, 1, 1)]);
    for mark in [
        &b""[..],
        b"P",
        b"PRX",
        b"PR\0",
        b"ZZ",
        b"CO",
        b"WD",
        b"TB",
        b"CL",
        b"RO",
        b"pr",
    ] {
        assert_eq!(number(ask!(state, record, mark, 0, b"%")), 2);
        assert_eq!(number(ask!(state, count, mark, 0)), 2);
        assert_eq!(number(ask!(state, failure_charge, mark, 0, b"%")), 2);
    }
}

#[test]
fn d2_order_of_the_checks() {
    let state = both(&[failed_import(1, b"A", [1, 0], [1, 2])]);
    for hour in [0, 25, 256, 257, u32::MAX] {
        assert_eq!(number(ask!(state, record, b"FI", hour, b"%")), 3);
        assert_eq!(number(ask!(state, count, b"FI", hour)), 3);
        assert_eq!(number(ask!(state, guarantees, hour)), 3);
        assert_eq!(number(ask!(state, failure_charge, b"FI", hour, b"%")), 3);
    }
    assert_eq!(number(ask!(state, record, b"FI", 1, b"%")), 4);
    assert_eq!(number(ask!(state, failure_charge, b"FI", 1, b"%")), 4);
    assert_eq!(number(ask!(state, unit_day, b"%")), 4);
    assert_eq!(number(ask!(state, record, b"FI", 1, b"B")), 11);
    assert_eq!(number(ask!(state, record, b"FE", 1, b"A")), 11);
    assert_eq!(number(ask!(state, record, b"FI", 2, b"A")), 11);
    assert_eq!(number(ask!(state, failure_charge, b"FE", 1, b"A")), 11);
    assert_eq!(number(ask!(state, unit_day, b"A")), 11);
    assert_eq!(number(ask!(state, failure_charge, b"FI", 1, b"A")), 15);
    for mark in [b"PR", b"IM", b"EX", b"GH"] {
        assert_eq!(number(ask!(state, failure_charge, mark, 0, b"%")), 2);
    }
}

#[test]
fn d3_names() {
    let state = both(&[price(1, 1, 1), export(1, b"A", 1)]);
    assert!(ask!(state, record, b"PR", 1, b"").is_ok());
    for name in [&b"A"[..], b"\0", b"%"] {
        assert_eq!(number(ask!(state, record, b"PR", 1, name)), 4);
    }
    assert_eq!(number(ask!(state, record, b"EX", 1, b"")), 4);
    assert_eq!(number(ask!(state, record, b"EX", 1, &[b'A'; 37])), 4);
    assert_eq!(number(ask!(state, record, b"EX", 1, &[b'A'; 300])), 4);
    assert_eq!(number(ask!(state, record, b"EX", 1, &[b'A'; 13])), 4);
    assert_eq!(number(ask!(state, record, b"EX", 1, &[b'A'; 12])), 11);
    assert!(ask!(state, record, b"EX", 1, b"%41").is_ok());
    assert_eq!(number(ask!(state, unit_day, b"")), 4);
    assert_eq!(number(ask!(state, unit_day, &[b'A'; 37])), 4);
    assert_eq!(number(ask!(state, record, b"PR", 2, b"")), 11);
}

#[test]
fn d4_places_count_from_the_first_lent_byte() {
    let state = both(&[price(1, 1, 1), correct(&price(1, 2, 2)), price(2, 3, 3)]);
    let place = ask!(state, record, b"PR", 1, b"").unwrap();
    assert_eq!((place.start, place.length), (57, 55));
    let (kept, _) = &state;
    assert_eq!(kept.bytes[57..57 + 55], price(1, 2, 2));
    let place = ask!(state, record, b"PR", 2, b"").unwrap();
    assert_eq!((place.start, place.length), (112, 55));
}

#[test]
fn d5_a_count_is_one_number() {
    let state = both(&[
        import(1, b"A", 1, &[(1, 1)]),
        import(1, b"B", 1, &[(1, 1)]),
        import(2, b"A", 1, &[(1, 1)]),
        withdraw(b"IM", 1, b"A"),
    ]);
    assert_eq!(ask!(state, count, b"IM", 1), Ok(1));
    assert_eq!(ask!(state, count, b"IM", 2), Ok(1));
    assert_eq!(ask!(state, count, b"IM", 3), Ok(0));
    assert_eq!(ask!(state, count, b"EX", 1), Ok(0));
}

#[test]
fn d6_guarantees_come_by_decoded_name() {
    let list = [(100, 10)];
    let state = both(&[
        price(1, 0, 0),
        import(1, b"B", 1, &list),
        import(1, b"A/B", 2, &list),
        import(1, b"A.B", 3, &list),
        import(1, b"A", 4, &list),
        export(1, b"X", 1),
        export(1, b"Y", 1),
    ]);
    let answer = ask!(state, guarantees, 1).unwrap();
    let credits: Vec<(&[u8], i64)> = answer
        .credits
        .iter()
        .map(|(name, credit)| (name.decoded(), credit.0))
        .collect();
    let expected: [(&[u8], i64); 4] = [(b"A", 4800), (b"A.B", 3600), (b"A/B", 2400), (b"B", 1200)];
    assert_eq!(credits, expected);
    assert_eq!(answer.offset.0, 2400);
}

#[test]
fn d7_hours_without_imports_need_no_price() {
    let state = both(&[
        export(1, b"A", 1),
        import(2, b"A", 0, &[(0, 1)]),
        failed_import(3, b"A", [1, 0], [1, 2]),
    ]);
    for hour in [1, 3, 4] {
        let answer = ask!(state, guarantees, hour).unwrap();
        assert!(answer.credits.is_empty());
        assert_eq!(answer.offset.0, 0);
    }
    assert_eq!(number(ask!(state, guarantees, 2)), 15);
}

#[test]
fn d8_d9_a_units_day() {
    let mut with_start = worked_unit();
    with_start.start_up = 500_000;
    let mut changes = vec![
        price(4, 3000, 0),
        unit(4, b"G", &with_start),
        price(6, 3000, 0),
        unit(6, b"G", &worked_unit()),
    ];
    let state = both(&changes);
    let day = ask!(state, unit_day, b"%47").unwrap();
    assert_eq!(day.total.0, (410 * 2 + 5000) * 12_000);
    assert_eq!(day.reversal.0, 0);
    changes.push(unit(7, b"G", &worked_unit()));
    assert_eq!(number(ask!(both(&changes), unit_day, b"G")), 15);
    changes.push(price(7, 200_000, 0));
    let day = ask!(both(&changes), unit_day, b"G").unwrap();
    assert!(day.total.0 < 0);
    assert_eq!(day.reversal.0, -day.total.0);
    changes.extend([4, 6, 7].map(|hour| withdraw(b"GH", hour, b"G")));
    assert_eq!(number(ask!(both(&changes), unit_day, b"G")), 11);
}

#[test]
fn failure_charges_use_the_hours_pd_price() {
    let state = both(&[
        price(8, 1, 70_000),
        failed_export(8, b"X", [2000, 1500], [90_000, 80_000]),
        failed_import(8, b"X", [1000, 900], [60_000, 65_000]),
    ]);
    let charge = ask!(state, failure_charge, b"FE", 8, b"X").unwrap();
    assert_eq!(charge.0, 5000 * 12_000);
    let charge = ask!(state, failure_charge, b"FI", 8, b"X").unwrap();
    assert_eq!(charge.0, 5000 * 100 * 12);
}

#[test]
fn questions_are_answered_on_a_closed_book() {
    let state = both(&[price(1, 1, 1), b"CL".to_vec()]);
    assert_eq!(ask!(state, free), Ok(65_535 - 55));
    assert_eq!(ask!(state, count, b"PR", 1), Ok(1));
}

#[test]
fn free_bytes_follow_the_lent_length() {
    let (kept, register) = both(&[price(1, 1, 1)]);
    for lent in [55, 56, 1000, 65_534, 65_535] {
        let expected = Ok((lent - 55) as u32);
        assert_eq!(kept.book.free(&kept.bytes[..lent]), expected);
        assert_eq!(register.free(lent), expected);
    }
    let mut longer = kept.bytes.clone();
    longer.resize(100_000, 7);
    assert_eq!(kept.book.free(&longer), Ok(65_480));
    assert_eq!(register.free(100_000), Ok(65_480));
    assert_eq!(number(register.free(54)), 16);
    assert_eq!(number(register.record(54, b"", 0, b"")), 16);
    assert_eq!(number(kept.book.record(&kept.bytes[..54], b"", 0, b"")), 16);
}

#[test]
fn names_of_answers_are_decoded() {
    let state = both(&[price(1, 0, 0), import(1, b"%252F", 1, &[(0, 1)])]);
    let answer = ask!(state, guarantees, 1).unwrap();
    assert_eq!(answer.credits[0].0, names::decode(b"%252F").unwrap());
    assert_eq!(answer.credits[0].0.decoded(), b"%2F");
}
