//! The table's example of every number, and the order of the numbers.

use crate::support::*;
use peer::records::parse_change;
use peer::records::raw::{self, RawUnit};

fn read(bytes: &[u8]) -> u32 {
    number(parse_change(bytes))
}

#[test]
fn numbers_1_to_8_are_reading() {
    assert_eq!(read(b"P"), 1);
    assert_eq!(read(b"ZZ"), 2);
    assert_eq!(read(b"PR\0"), 3);
    assert_eq!(read(&export(1, b"A%2", 0)), 4);
    assert_eq!(read(&price(1, 200_001, 0)), 5);
    assert_eq!(read(&import(1, b"A", 0, &[(2000, 10), (1999, 20)])), 6);
    assert_eq!(read(&import(1, b"A", 101, &[(2000, 100)])), 7);
    assert_eq!(read(b"TB\0"), 8);
}

#[test]
fn the_same_numbers_come_from_the_book() {
    let mut kept = Kept::fresh(FULL);
    assert_eq!(kept.refused(b"P"), 1);
    assert_eq!(kept.refused(b"ZZ"), 2);
    assert_eq!(kept.refused(b"PR\0"), 3);
    assert_eq!(kept.refused(&export(1, b"A%2", 0)), 4);
    assert_eq!(kept.refused(&price(1, 200_001, 0)), 5);
    assert_eq!(
        kept.refused(&import(1, b"A", 0, &[(2000, 10), (1999, 20)])),
        6
    );
    assert_eq!(kept.refused(&import(1, b"A", 101, &[(2000, 100)])), 7);
    assert_eq!(kept.refused(b"TB\0"), 8);
}

#[test]
fn closed_twice_gives_9() {
    let mut kept = Kept::fresh(0);
    kept.must(b"CL");
    assert_eq!(kept.refused(b"CL"), 9);
}

#[test]
fn the_same_import_again_gives_10() {
    let mut kept = Kept::fresh(FULL);
    kept.must(&import(1, b"A", 1, &[(1, 1)]));
    assert_eq!(kept.refused(&import(1, b"A", 1, &[(1, 1)])), 10);
    assert_eq!(kept.refused(&import(1, b"%41", 0, &[(2, 2)])), 10);
    kept.must(&import(2, b"A", 1, &[(1, 1)]));
    kept.must(&export(1, b"A", 1));
}

#[test]
fn withdrawing_on_a_fresh_book_gives_11() {
    assert_eq!(Kept::fresh(FULL).refused(&withdraw(b"IM", 1, b"A")), 11);
    assert_eq!(Kept::fresh(0).refused(&withdraw(b"PR", 1, b"")), 11);
    assert_eq!(Kept::fresh(0).refused(&correct(&price(1, 1, 1))), 11);
}

#[test]
fn a_17th_import_gives_12_and_a_9th_unit() {
    let mut kept = Kept::fresh(FULL);
    for letter in b'A'..b'A' + 16 {
        kept.must(&import(1, &[letter], 1, &[(1, 1)]));
        kept.must(&export(1, &[letter], 1));
        kept.must(&failed_import(1, &[letter], [0, 0], [0, 0]));
        kept.must(&failed_export(1, &[letter], [0, 0], [0, 0]));
    }
    for letter in b'A'..b'A' + 8 {
        kept.must(&unit(1, &[letter], &RawUnit::idle()));
    }
    assert_eq!(kept.refused(&import(1, b"Q", 1, &[(1, 1)])), 12);
    assert_eq!(kept.refused(&export(1, b"Q", 1)), 12);
    assert_eq!(kept.refused(&failed_import(1, b"Q", [0, 0], [0, 0])), 12);
    assert_eq!(kept.refused(&failed_export(1, b"Q", [0, 0], [0, 0])), 12);
    assert_eq!(kept.refused(&unit(1, b"Q", &RawUnit::idle())), 12);
    assert_eq!(kept.refused(&import(1, b"P", 1, &[(1, 1)])), 10);
    kept.must(&import(2, b"Q", 1, &[(1, 1)]));
}

#[test]
fn a_price_with_54_free_gives_13() {
    assert_eq!(Kept::fresh(54).refused(&price(1, 1, 1)), 13);
    assert_eq!(Kept::fresh(55).change(&price(1, 1, 1)), Ok(()));
}

#[test]
fn taking_back_on_a_fresh_book_gives_14() {
    assert_eq!(Kept::fresh(FULL).refused(b"TB"), 14);
}

#[test]
fn an_import_without_a_price_gives_15() {
    let mut kept = Kept::fresh(FULL);
    kept.must(&import(1, b"A", 1, &[(1, 1)]));
    assert_eq!(number(kept.book.guarantees(&kept.bytes, 1)), 15);
}

#[test]
fn shorter_bytes_lent_give_16() {
    let mut kept = Kept::fresh(FULL);
    kept.must(&price(1, 1, 1));
    kept.bytes.truncate(54);
    assert_eq!(kept.refused(b"P"), 16);
    assert_eq!(kept.refused(b"TB"), 16);
    assert_eq!(kept.refused(b"CL"), 16);
    assert_eq!(number(kept.book.free(&kept.bytes)), 16);
    kept.bytes.push(1);
    // The byte that went was the last of the price 1.
    assert_eq!(number(kept.book.free(&kept.bytes)), 16);
    kept.bytes[54] = 0;
    assert_eq!(kept.book.free(&kept.bytes), Ok(0));
}

#[test]
fn faults_are_met_in_order() {
    // One record with every fault at once, mended from left to right.
    let mut spelled = raw::RawName {
        length: 0,
        spelled: b"A%".to_vec(),
    };
    let bad = [u32::MAX; 12];
    assert_eq!(read(&raw::import(0, &spelled, bad, &[])), 3);
    assert_eq!(read(&raw::import(1, &spelled, bad, &[])), 4);
    spelled.length = 2;
    assert_eq!(read(&raw::import(1, &spelled, bad, &[])), 4);
    spelled.spelled = b"AB".to_vec();
    assert_eq!(read(&raw::import(1, &spelled, bad, &[])), 5);
    assert_eq!(read(&raw::import(1, &spelled, [9; 12], &[])), 6);
    assert_eq!(
        read(&raw::import(1, &spelled, [9; 12], &[(2, 5), (1, 200_000)])),
        5
    );
    assert_eq!(
        read(&raw::import(1, &spelled, [9; 12], &[(2, 5), (1, 6)])),
        6
    );
    let beyond = raw::import(1, &spelled, [9; 12], &[(1, 5), (2, 6)]);
    assert_eq!(read(&[&beyond[..], b"X"].concat()), 7);
    let fine = raw::import(1, &spelled, [6; 12], &[(1, 5), (2, 6)]);
    assert_eq!(read(&[&fine[..], b"X"].concat()), 8);
    assert!(parse_change(&fine).is_ok());
}
