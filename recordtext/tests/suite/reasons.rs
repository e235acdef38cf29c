//! Why a record is refused: the field with its value, or the earlier record.

use crate::support::*;
use peer::records::raw::{self, RawUnit};
use peer::statement::settle;
use recordtext::{check, show, Refused, Style};

/// The refusal of some bytes, the same number as `settle` has.
fn refused(bytes: &[u8]) -> Refused {
    let refused = check(bytes).expect_err("a refusal");
    let line = format!("{}\n", refused.line());
    assert_eq!(line.as_bytes(), settle(bytes));
    refused
}

/// Number, field and value, and the byte that it starts at.
#[track_caller]
fn told(bytes: &[u8], number: u32, why: &str, at: usize) {
    let refused = refused(bytes);
    let found = (refused.refusal.number(), refused.why.as_str(), refused.at);
    assert_eq!(found, (number, why, Some(at)));
    assert_eq!(show(bytes, Style::default()).refused, Some(refused));
}

/// The record and why what stands before it refuses it.
#[track_caller]
fn told_of_the_day(records: &[&[u8]], number: u32, why: &str) {
    let refused = refused(&records.concat());
    assert_eq!(refused.ordinal, records.len());
    let found = (refused.refusal.number(), refused.why.as_str(), refused.at);
    assert_eq!(found, (number, why, None));
    assert_eq!(show(&records.concat(), Style::default()).refused, None);
}

fn named(spelled: &[u8]) -> Vec<u8> {
    export(1, spelled, 0)
}

fn offered(list: &[(i32, u32)]) -> Vec<u8> {
    import(1, b"A", 0, list)
}

#[test]
fn what_was_read_when_the_bytes_ended() {
    let import = import(1, b"ABC", 100, &[(5, 100), (6, 200)]);
    for (length, why) in [
        (1, "mark: 1 of 2 bytes is missing behind 49"),
        (2, "hour: the byte is missing"),
        (3, "name, length: the byte is missing"),
        (4, "name: all 3 bytes are missing"),
        (6, "name: 1 of 3 bytes is missing"),
        (7, "mqsi, number 1 of 12: all 4 bytes are missing"),
        (53, "mqsi, number 12 of 12: 2 of 4 bytes are missing"),
        (55, "offer, count: the byte is missing"),
        (57, "offer, pair 1 of 2: price: 3 of 4 bytes are missing"),
        (71, "offer, pair 2 of 2: quantity: 1 of 4 bytes is missing"),
    ] {
        told(&import[..length], 1, why, length);
    }
    told(b"WD", 1, "mark behind WD: both bytes are missing", 2);
    let price = price(1, 0, 0);
    told(&price[..54], 1, "pd-price: 1 of 4 bytes is missing", 54);
}

#[test]
fn the_two_bytes_of_a_mark_and_the_value_of_an_hour() {
    let ten = "PR, IM, EX, GH, FI, FE, CO, WD, TB, CL";
    let six = "PR, IM, EX, GH, FI, FE";
    told(b"ZZ", 2, &format!("mark: 5A 5A ('ZZ') is none of {ten}"), 0);
    told(b"\r\n", 2, &format!("mark: 0D 0A is none of {ten}"), 0);
    let inside = format!("mark behind CO: 57 44 ('WD') is none of {six}");
    told(b"COWD", 2, &inside, 2);
    told(
        b"WDpr",
        2,
        &format!("mark behind WD: 70 72 ('pr') is none of {six}"),
        2,
    );
    told(&price(25, 0, 0), 3, "hour: 25 is not 1 to 24", 2);
    told(b"WDIM\0", 3, "hour: 0 is not 1 to 24", 4);
}

/// Spelled names, what is wrong with them, and at which byte of the record.
const NAMES: &[(&[u8], &str, usize)] = &[
    (
        b"A B",
        "name 'A B', byte 2 of 3: 0x20 is outside 0x21 to 0x7E",
        5,
    ),
    (
        b"\xC3\xA9",
        "name '\\xc3\\xa9', byte 1 of 2: 0xC3 is outside 0x21 to 0x7E",
        4,
    ),
    (
        b"A%2",
        "name 'A%2', byte 2 of 3: % without two hex digits behind it",
        5,
    ),
    (
        b"%GG",
        "name '%GG', byte 1 of 3: % without two hex digits behind it",
        4,
    ),
    (
        b"A%20",
        "name 'A%20', byte 2 of 4: %20 spells 0x20, outside 0x21 to 0x7E",
        5,
    ),
    (
        b"thirteenbytes",
        "name 'thirteenbytes': 13 bytes when decoded, above 12",
        4,
    ),
];

#[test]
fn what_is_wrong_with_a_name() {
    told(&named(b""), 4, "name, length: 0 is not 1 to 36", 3);
    told(&named(&[b'A'; 37]), 4, "name, length: 37 is not 1 to 36", 3);
    for &(spelled, why, at) in NAMES {
        told(&named(spelled), 4, why, at);
    }
    let why = "name, length: 1, but a withdrawal of PR has no name, so the length is 0";
    told(&withdraw(b"PR", 1, b"A"), 4, why, 5);
}

#[test]
fn the_number_and_its_limit() {
    let mut prices = [0; 12];
    prices[11] = 200_001;
    let last = raw::price(1, prices, 0);
    told(
        &last,
        5,
        "emp, number 12 of 12: 200001 is above 200,000",
        47,
    );
    let pd = price(1, 0, -200_001);
    told(&pd, 5, "pd-price: -200001 is below -200,000", 51);
    let inside = correct(&export(1, b"A", 100_001));
    told(
        &inside,
        5,
        "mqsw, number 1 of 12: 100001 is above 100,000",
        7,
    );
    let mut dear = RawUnit::idle();
    dear.no_load = 100_000_001;
    let why = "no-load: 100000001 is above 100,000,000";
    told(&unit(1, b"G", &dear), 5, why, 9);
    let pair = offered(&[(0, 1), (0, 100_001)]);
    let why = "offer, pair 2 of 2: quantity 100001 is above 100,000";
    told(&pair, 5, why, 66);
}

#[test]
fn the_pair_or_the_count() {
    told(&offered(&[]), 6, "offer, count: 0 is not 1 to 20", 53);
    let many = offered(&[(0, 1); 21]);
    told(&many, 6, "offer, count: 21 is not 1 to 20", 53);
    for (list, why, at) in [
        (
            &[(2000, 10), (1999, 20)][..],
            "offer, pair 2 of 2: price 1999 is below 2000 of the pair before",
            62,
        ),
        (
            &[(0, 10), (0, 10), (0, 20)],
            "offer, pair 2 of 3: quantity 10 is not above 10 of the pair before",
            62,
        ),
        (
            &[(0, 10), (5, 20), (5, 19)],
            "offer, pair 3 of 3: quantity 19 is not above 20 of the pair before",
            70,
        ),
        (
            &[(0, 0), (0, 10)],
            "offer, pair 1 of 2: quantity 0 is not above 0",
            54,
        ),
    ] {
        told(&offered(list), 6, why, at);
    }
    let mut unoffered = RawUnit::idle();
    unoffered.reserves[1].1[3] = 7;
    let why = "10ns-offer: the list is empty, but 10ns-schedule, interval 4, is 7";
    told(
        &unit(1, b"G", &unoffered),
        6,
        why,
        5 + 8 + 11 * 48 + 9 + 9 + 1,
    );
}

#[test]
fn the_interval_beyond_its_list() {
    let mut quantities = [100; 12];
    quantities[2] = 101;
    let beyond = raw::import(1, &name(b"A"), quantities, &[(0, 100)]);
    let why = "mqsi, interval 3: 101 is beyond the offer's last quantity 100";
    told(&beyond, 7, why, 5 + 2 * 4);
    let mut large = RawUnit::idle();
    large.schedules[0][11] = 50_000;
    large.lists[1] = vec![(0, 49_999)];
    let why = "day-ahead, interval 12: 50000 is beyond the real-time-offer's last quantity 49999";
    told(&unit(1, b"G", &large), 7, why, 5 + 8 + 11 * 4);
    let mut reserved = RawUnit::idle();
    reserved.reserves[2].1[0] = 2;
    reserved.lists[4] = vec![(0, 1)];
    let why = "30r-schedule, interval 1: 2 is beyond the 30r-offer's last quantity 1";
    told(&unit(1, b"G", &reserved), 7, why, 5 + 8 + 10 * 48);
}

#[test]
fn the_record_that_closed_or_filed_before() {
    let filed = named(b"A%2FB");
    told_of_the_day(&[&filed, b"CL", b"TB"], 9, "the day was closed by record 2");
    let why = "record 2 repeats EX 1 A%2FB, filed as record 1";
    told_of_the_day(&[&filed, &filed], 10, why);
    let why = "record 3 repeats EX 1 A/B, filed as record 1 (EX 1 A%2FB), corrected by record 2";
    told_of_the_day(&[&filed, &correct(&filed), &named(b"A/B")], 10, why);
    let prices = price(7, 0, 0);
    let withdrawn = withdraw(b"PR", 7, b"");
    let why = "record 4 repeats PR 7, filed as record 3";
    told_of_the_day(&[&prices, &withdrawn, &prices, &prices], 10, why);
}

#[test]
fn what_became_of_a_key() {
    let filed = named(b"#");
    let withdrawn = withdraw(b"EX", 1, b"#");
    let why = "record 1 withdraws EX 1 \"#\", which was not filed";
    told_of_the_day(&[&withdrawn], 11, why);
    let why = "record 3 corrects EX 1 \"#\", which was withdrawn by record 2";
    told_of_the_day(&[&filed, &withdrawn, &correct(&filed)], 11, why);
    let why =
        "record 3 withdraws EX 1 \"#\", which was filed as record 1 and taken back by record 2";
    told_of_the_day(&[&filed, b"TB", &withdrawn], 11, why);
}

#[test]
fn the_hour_the_bytes_and_the_list() {
    let units: Vec<Vec<u8>> = (1..=9)
        .map(|n| unit(3, &[b'0' + n], &RawUnit::idle()))
        .collect();
    let units: Vec<&[u8]> = units.iter().map(Vec::as_slice).collect();
    told_of_the_day(&units, 12, "hour 3 holds 8 GH already, and takes no more");
    let filed = named(b"A");
    let corrected = correct(&filed);
    let mut day: Vec<&[u8]> = vec![&filed];
    day.resize(513, &corrected);
    told_of_the_day(
        &day,
        13,
        "512 changes are listed already, and no more are taken",
    );
    told_of_the_day(&[b"TB"], 14, "no change stands before it");
    let why = "the one change before it is taken back already";
    told_of_the_day(&[&filed, b"TB", b"TB"], 14, why);
    let why = "all 2 changes before it are taken back already";
    told_of_the_day(&[&filed, &corrected, b"TB", b"TB", b"TB"], 14, why);
}

#[test]
fn free_bytes_against_needed_ones() {
    let mut long = RawUnit::idle();
    long.lists = std::array::from_fn(|_| (1..=20).map(|n| (0, n)).collect());
    let filed = unit(1, b"A/B", &long);
    let corrected = correct(&filed);
    let mut day: Vec<&[u8]> = vec![&filed];
    // Its written name has five bytes.
    let (first, each) = (filed.len() + 2, corrected.len() + 2);
    day.resize(1 + (FULL - first) / each + 1, &corrected);
    let free = FULL - first - (day.len() - 2) * each;
    let why = format!("it needs 1,352 bytes, and {free} of 65,535 are free");
    assert_eq!(each, 1352);
    assert!(free < 1000);
    told_of_the_day(&day, 13, &why);
}

#[test]
fn the_whole_of_what_is_said() {
    let import = import(5, b"A", 100, &[(0, 100)]);
    let said = refused(&[&import[..], b"TB", &import, &import].concat()).to_string();
    assert_eq!(
        said,
        "record 4, IM 5 A, at byte 126, is refused with 10: the key stands already\n\
         record 4 repeats IM 5 A, filed as record 3"
    );
    let said = refused(&correct(&price(25, 0, 0))).to_string();
    assert_eq!(
        said,
        "record 1, CO PR, at byte 0, is refused with 3: the hour is not 1 to 24\n\
         hour: 25 is not 1 to 24 (byte 4)"
    );
}

#[test]
fn what_is_said_of_a_day_that_is_taken() {
    let said = |bytes: &[u8]| check(bytes).expect("a day").to_string();
    assert_eq!(
        said(b""),
        "no records; 0 of 512 changes listed; 0 of 65,535 bytes used; open"
    );
    assert_eq!(
        said(b"CL"),
        "1 record, taken; 0 of 512 changes listed; 0 of 65,535 bytes used; closed"
    );
    let day: Vec<u8> = (1..=24).flat_map(|hour| price(hour, 3000, 3000)).collect();
    assert_eq!(
        said(&day),
        "24 records, all taken; 24 of 512 changes listed; 1,320 of 65,535 bytes used; open"
    );
}
