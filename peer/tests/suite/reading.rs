//! Reading and writing of records (open points A and B).

use crate::support::*;
use peer::records::raw::{self, RawName, RawUnit};
use peer::records::{
    parse_canonical_prefix, parse_change, parse_change_prefix, parse_for, Change, Method, Record,
};

fn read(bytes: &[u8]) -> u32 {
    number(parse_change(bytes))
}

fn written(bytes: &[u8]) -> Vec<u8> {
    parse_change(bytes).expect("a change").written()
}

/// One instance of each mark, in canonical form.
pub fn instances() -> Vec<Vec<u8>> {
    let import = import(5, b"A%2FB", 100, &[(-4000, 50), (4100, 100)]);
    vec![
        price(5, -3000, 3000),
        import.clone(),
        export(24, b"D~", 250),
        unit(1, b"G-1", &worked_unit()),
        failed_import(5, b"F", [1000, 900], [10_000, -10_000]),
        failed_export(5, b"F", [2000, 1500], [90_000, 80_000]),
        correct(&import),
        withdraw(b"IM", 5, b"A%2FB"),
        withdraw(b"PR", 5, b""),
        b"TB".to_vec(),
        b"CL".to_vec(),
    ]
}

#[test]
fn canonical_changes_come_back_as_they_were() {
    for bytes in instances() {
        let change = parse_change(&bytes).unwrap();
        assert_eq!(change.written(), bytes);
        assert_eq!(change.written_len(), bytes.len());
        assert_eq!(parse_canonical_prefix(&bytes), Some((change, bytes.len())));
    }
}

#[test]
fn layouts_have_their_lengths() {
    let lengths: Vec<usize> = instances().iter().map(Vec::len).collect();
    let unit = 2 + 1 + 4 + 8 + 11 * 48 + (1 + 32) * 2 + (1 + 8) + 1 + 1;
    assert_eq!(lengths, [55, 74, 54, unit, 21, 21, 76, 11, 6, 2, 2]);
}

#[test]
fn fields_stand_where_the_layout_says() {
    let mut numbers = RawUnit::idle();
    numbers.start_up = 1;
    numbers.no_load = 2;
    for (which, schedule) in numbers.schedules.iter_mut().enumerate() {
        *schedule = std::array::from_fn(|interval| 100 * (which as u32 + 1) + interval as u32);
    }
    numbers.reserves = std::array::from_fn(|which| {
        let base = 1000 * (which as i32 + 1);
        (
            std::array::from_fn(|interval| base + interval as i32),
            std::array::from_fn(|interval| base as u32 + 500 + interval as u32),
        )
    });
    numbers.lists = std::array::from_fn(|which| vec![(which as i32, 9000 + which as u32)]);
    let Ok(Change::File(Record::Unit(record))) = parse_change(&unit(7, b"G", &numbers)) else {
        panic!("a unit");
    };
    let hour = &record.unit;
    assert_eq!(record.hour.number(), 7);
    assert_eq!((hour.start_up.cents(), hour.no_load.cents()), (1, 2));
    let schedules = [
        hour.day_ahead,
        hour.real_time,
        hour.unconstrained,
        hour.metered,
        hour.capacity,
    ];
    for (which, schedule) in schedules.iter().enumerate() {
        assert_eq!(schedule[11].tenths(), 100 * (which as u32 + 1) + 11);
    }
    for (which, reserve) in hour.reserves.iter().enumerate() {
        let base = 1000 * (which as i32 + 1);
        assert_eq!(reserve.prices[3].cents_per_mwh(), base + 3);
        assert_eq!(reserve.schedules[4].tenths(), base as u32 + 504);
        let offer = reserve.offer.unwrap();
        assert_eq!(offer.last_quantity().tenths(), 9002 + which as u32);
    }
    assert_eq!(hour.day_ahead_offer.last_quantity().tenths(), 9000);
    assert_eq!(hour.real_time_offer.last_quantity().tenths(), 9001);
    let bytes = unit(7, b"G", &numbers);
    assert_eq!(written(&bytes), bytes);
}

#[test]
fn numbers_are_little_endian() {
    let bytes = price(1, -2, 0x0102);
    assert_eq!(bytes[3..7], [0xFE, 0xFF, 0xFF, 0xFF]);
    assert_eq!(bytes[51..55], [0x02, 0x01, 0, 0]);
    let Ok(Change::File(Record::Price(record))) = parse_change(&bytes) else {
        panic!("a price");
    };
    assert_eq!(record.energy[0].cents_per_mwh(), -2);
    assert_eq!(record.pre_dispatch.cents_per_mwh(), 0x0102);
}

#[test]
fn a1_a2_each_method_takes_its_own_mark() {
    for bytes in instances() {
        let own = match &bytes[..2] {
            b"CO" => Method::Correct,
            b"WD" => Method::Withdraw,
            b"TB" => Method::TakeBack,
            b"CL" => Method::Close,
            _ => Method::File,
        };
        for method in Method::ALL {
            let answer = parse_for(method, &bytes);
            if method == own {
                assert_eq!(answer, parse_change(&bytes));
                assert_eq!(number(parse_for(method, &[&bytes[..], &[0]].concat())), 8);
            } else {
                assert_eq!(number(answer), 2);
                // At the place of the mark's check: before 3, after 1.
                assert_eq!(number(parse_for(method, &bytes[..2])), 2);
                assert_eq!(number(parse_for(method, &[&bytes[..2], &[0]].concat())), 2);
                assert_eq!(number(parse_for(method, &bytes[..1])), 1);
            }
        }
    }
    for method in Method::ALL {
        assert_eq!(number(parse_for(method, b"")), 1);
        assert_eq!(number(parse_for(method, b"ZZ")), 2);
        assert_eq!(number(parse_for(method, b"RO")), 2);
    }
}

#[test]
fn a3_empty_and_single_bytes_give_1() {
    for bytes in [&b""[..], b"P", b"\0", b"CO", b"COP", b"WD", b"WDI"] {
        assert_eq!(read(bytes), 1);
    }
}

#[test]
fn b1_each_number_is_checked_when_its_four_bytes_are_there() {
    let bytes = price(1, 200_001, 0);
    assert_eq!(read(&bytes[..7]), 5);
    for end in 3..7 {
        assert_eq!(read(&bytes[..end]), 1);
    }
    let mut second = [0; 12];
    second[1] = -200_001;
    let bytes = raw::price(1, second, 0);
    assert_eq!(read(&bytes[..10]), 1);
    assert_eq!(read(&bytes[..11]), 5);
}

#[test]
fn b4_a_names_length_is_checked_by_itself() {
    for length in [0, 37, 38, 255] {
        assert_eq!(read(&[b'E', b'X', 1, length]), 4);
    }
    assert_eq!(read(&[b'E', b'X', 1, 36]), 1);
    // Cut short with an illegal byte already there.
    assert_eq!(read(&[b'E', b'X', 1, 3, b' ', b'%']), 1);
    assert_eq!(read(&[b'E', b'X', 1, 3, b' ', b'%', b'A']), 4);
}

#[test]
fn b5_lists() {
    let head = import(1, b"A", 0, &[]);
    let head = &head[..head.len() - 1];
    let with = |tail: &[u8]| read(&[head, tail].concat());
    assert_eq!(with(&[]), 1);
    assert_eq!(with(&[0]), 6);
    assert_eq!(with(&[21]), 6);
    assert_eq!(with(&[255]), 6);
    assert_eq!(with(&[20]), 1);
    let pair = |price: i32, quantity: u32| [price.to_le_bytes(), quantity.to_le_bytes()].concat();
    let falling = [&[3][..], &pair(2, 10), &pair(1, 5)].concat();
    assert_eq!(with(&falling), 1);
    assert_eq!(
        with(&[&falling[..], &200_001_i32.to_le_bytes()].concat()),
        5
    );
    assert_eq!(with(&[&falling[..], &pair(0, 100_001)].concat()), 5);
    assert_eq!(with(&[&falling[..], &pair(0, 0)].concat()), 6);
    assert_eq!(with(&[&[1][..], &pair(0, 0)].concat()), 6);
    assert_eq!(with(&[&[2][..], &pair(0, 0)].concat()), 1);
}

#[test]
fn b6_an_empty_reserve_list_needs_schedules_of_0() {
    for which in 0..3 {
        let mut numbers = RawUnit::idle();
        numbers.reserves[which].1[11] = 1;
        let bytes = unit(1, b"G", &numbers);
        assert_eq!(read(&bytes), 6);
        // At the count byte, whatever follows or not.
        let count_at = bytes.len() - 3 + which;
        assert_eq!(read(&bytes[..count_at]), 1);
        assert_eq!(read(&bytes[..=count_at]), 6);
        numbers.lists[2 + which] = vec![(0, 1)];
        assert!(parse_change(&unit(1, b"G", &numbers)).is_ok());
    }
    let mut numbers = RawUnit::idle();
    numbers.reserves[0].1[0] = 1;
    numbers.lists[3] = vec![(200_001, 1)];
    assert_eq!(read(&unit(1, b"G", &numbers)), 6);
    // A list where none is needed may still stand.
    let mut numbers = RawUnit::idle();
    numbers.lists[2] = vec![(5, 5)];
    assert!(parse_change(&unit(1, b"G", &numbers)).is_ok());
    // The two energy lists are never empty.
    for which in 0..2 {
        let mut numbers = RawUnit::idle();
        numbers.lists[which] = vec![];
        assert_eq!(read(&unit(1, b"G", &numbers)), 6);
    }
}

#[test]
fn b7_7_is_checked_after_all_fields() {
    let mut numbers = RawUnit::idle();
    numbers.schedules[0][0] = 101;
    numbers.lists[0] = vec![(0, 100)];
    let beyond = unit(1, b"G", &numbers);
    assert_eq!(read(&beyond), 7);
    assert_eq!(read(&beyond[..beyond.len() - 1]), 1);
    assert_eq!(read(&correct(&beyond)), 7);
    assert_eq!(read(&[&beyond[..], b"X"].concat()), 7);
    assert_eq!(read(&[&correct(&beyond)[..], b"X"].concat()), 7);
    numbers.lists[4] = vec![(0, 5), (0, 5)];
    assert_eq!(read(&unit(1, b"G", &numbers)), 6);
    for which in 0..2 {
        let mut numbers = RawUnit::idle();
        numbers.schedules[0][11] = 101;
        numbers.lists[which] = vec![(0, 100)];
        assert_eq!(read(&unit(1, b"G", &numbers)), 7);
        numbers.schedules[0][11] = 100;
        assert!(parse_change(&unit(1, b"G", &numbers)).is_ok());
    }
    for which in 0..3 {
        let mut numbers = RawUnit::idle();
        numbers.reserves[which].1[5] = 101;
        numbers.lists[2 + which] = vec![(0, 100)];
        assert_eq!(read(&unit(1, b"G", &numbers)), 7);
    }
}

#[test]
fn b8_the_withdrawn_name() {
    assert_eq!(read(b"WDPR\x01\x01"), 4);
    assert_eq!(read(b"WDPR\x01\xFF"), 4);
    assert_eq!(read(b"WDPR\x01"), 1);
    assert_eq!(read(b"WDPR\x01\x00\x00"), 8);
    assert!(parse_change(b"WDPR\x01\x00").is_ok());
    for mark in [b"IM", b"EX", b"GH", b"FI", b"FE"] {
        assert_eq!(read(&withdraw(mark, 1, b"")), 4);
        assert_eq!(read(&withdraw(mark, 0, b"")), 3);
        assert!(parse_change(&withdraw(mark, 1, b"A")).is_ok());
    }
}

#[test]
fn b9_marks_inside() {
    for outer in [b"CO", b"WD"] {
        for inner in [b"TB", b"CL", b"CO", b"WD", b"RO", b"ZZ", b"pr"] {
            assert_eq!(read(&[&outer[..], inner].concat()), 2);
        }
        for inner in [b"PR", b"IM", b"EX", b"GH", b"FI", b"FE"] {
            assert_eq!(read(&[&outer[..], inner].concat()), 1);
            assert_eq!(read(&[&outer[..], inner, &[0]].concat()), 3);
            assert_eq!(read(&[&outer[..], inner, &[25]].concat()), 3);
        }
    }
}

#[test]
fn b10_spellings_are_read_in_any_form_and_written_in_one() {
    let spellings: [&[u8]; 5] = [b"A/b", b"A%2Fb", b"A%2fb", b"%41/%62", b"%41%2f%62"];
    for spelled in spellings {
        assert_eq!(written(&export(1, spelled, 3)), export(1, b"A%2Fb", 3));
        assert_eq!(
            written(&withdraw(b"EX", 1, spelled)),
            withdraw(b"EX", 1, b"A%2Fb")
        );
    }
    assert_eq!(written(&export(1, b"!~", 3)), export(1, b"%21~", 3));
    assert_eq!(written(&export(1, b"%252F", 3)), export(1, b"%252F", 3));
    for spelled in [&b"%20"[..], b"%7F", b"%00", b"%"] {
        assert_eq!(read(&export(1, spelled, 3)), 4);
    }
}

#[test]
fn b11_parts_of_a_number_give_1() {
    let bytes = failed_import(1, b"A", [u32::MAX, 0], [0, 0]);
    let number_at = 5;
    for end in number_at..number_at + 4 {
        assert_eq!(read(&bytes[..end]), 1);
    }
    assert_eq!(read(&bytes[..number_at + 4]), 5);
}

#[test]
fn hours_of_every_record() {
    for hour in [0, 25, 26, 128, 255] {
        for bytes in instances() {
            let hour_at = match &bytes[..2] {
                b"TB" | b"CL" => continue,
                b"CO" | b"WD" => 4,
                _ => 2,
            };
            let mut bytes = bytes;
            bytes[hour_at] = hour;
            assert_eq!(read(&bytes), 3);
            assert_eq!(read(&bytes[..=hour_at]), 3);
        }
    }
}

#[test]
fn records_back_to_back_end_where_they_end() {
    let all = instances();
    let joined = all.concat();
    let mut rest = &joined[..];
    for bytes in &all {
        let (change, length) = parse_change_prefix(rest).unwrap();
        assert_eq!(length, bytes.len());
        assert_eq!(Ok(change), parse_change(bytes));
        rest = &rest[length..];
    }
    assert!(rest.is_empty());
    assert_eq!(number(parse_change_prefix(rest)), 1);
}

#[test]
fn canonical_reading_takes_no_other_spelling() {
    for spelled in [&b"A/B"[..], b"A%2fB", b"%41%2FB"] {
        assert_eq!(parse_canonical_prefix(&export(1, spelled, 3)), None);
        assert_eq!(
            parse_canonical_prefix(&correct(&export(1, spelled, 3))),
            None
        );
        assert_eq!(parse_canonical_prefix(&withdraw(b"EX", 1, spelled)), None);
    }
    assert!(parse_canonical_prefix(&export(1, b"A%2FB", 3)).is_some());
}

#[test]
fn the_longest_records() {
    let twenty: Vec<(i32, u32)> = (1..=20).map(|i| (i, i as u32)).collect();
    let spelled = b"%2F".repeat(12);
    let mut numbers = RawUnit::idle();
    numbers.lists = std::array::from_fn(|_| twenty.clone());
    for bytes in [
        raw::import(1, &RawName::of(&spelled), [20; 12], &twenty),
        raw::unit(1, &RawName::of(&spelled), &numbers),
    ] {
        assert_eq!(written(&bytes), bytes);
    }
    assert_eq!(
        raw::import(1, &RawName::of(&spelled), [20; 12], &twenty).len(),
        249
    );
}
