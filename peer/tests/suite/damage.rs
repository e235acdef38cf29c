//! Cut and damaged bytes: never a panic, always the same answer.

use crate::reading::instances;
use crate::support::*;
use peer::book::Book;
use peer::hour_offset_call::hour_offset_call;
use peer::records::{parse_canonical_prefix, parse_change, parse_change_prefix, parse_for, Method};
use peer::statement::settle;

/// Values that a damaged byte takes.
const DAMAGE: [u8; 9] = [0x00, 0x01, 0x20, 0x25, 0x41, 0x7F, 0x80, 0xFE, 0xFF];

/// Reads twice, compares, and checks that what was read can be written and
/// read again.
fn read_soundly(bytes: &[u8]) {
    let answer = parse_change(bytes);
    assert_eq!(parse_change(bytes), answer);
    for method in Method::ALL {
        let own = parse_for(method, bytes);
        assert!(own == answer || number(own) == 2);
    }
    let prefix = parse_change_prefix(bytes);
    match &answer {
        Ok(change) => {
            let written = change.written();
            assert_eq!(written.len(), change.written_len());
            assert_eq!(parse_change(&written), answer);
            assert_eq!(prefix, Ok((change.clone(), bytes.len())));
            assert_eq!(parse_canonical_prefix(bytes).is_some(), written == bytes);
        }
        Err(refusal) if refusal.number() == 8 => assert!(prefix.is_ok()),
        Err(refusal) => assert_eq!(prefix, Err(*refusal)),
    }
}

#[test]
fn every_cut_gives_1() {
    for bytes in instances() {
        for end in 0..bytes.len() {
            read_soundly(&bytes[..end]);
            assert_eq!(number(parse_change(&bytes[..end])), 1);
        }
    }
}

#[test]
fn every_damaged_byte_is_read_soundly() {
    for bytes in instances() {
        for place in 0..bytes.len() {
            for value in DAMAGE {
                let mut damaged = bytes.clone();
                damaged[place] = value;
                read_soundly(&damaged);
            }
        }
    }
}

#[test]
fn a_damaged_book_is_refused_with_16_or_still_canonical() {
    let mut kept = Kept::fresh(2000);
    kept.must(&price(5, 3000, 3000));
    kept.must(&import(5, b"A/B", 100, &[(4000, 100)]));
    kept.must(&unit(5, b"G", &worked_unit()));
    kept.must(&export(5, b"D", 250));
    kept.must(&correct(&export(5, b"D", 200)));
    kept.must(&withdraw(b"EX", 5, b"D"));
    let used = kept.book.used as usize;
    for place in 0..used {
        for value in DAMAGE {
            let mut damaged = kept.bytes.clone();
            damaged[place] = value;
            check_damaged(kept.book, &damaged[..used + 60]);
        }
    }
    for lent in 0..=used + 1 {
        let expected = if lent < used {
            Err(16)
        } else {
            Ok((lent - used) as u32)
        };
        let free = kept.book.free(&kept.bytes[..lent]);
        assert_eq!(free.map_err(|refusal| refusal.number()), expected);
    }
}

/// Every call agrees on 16, and a book that is taken is one that writing
/// gives.
fn check_damaged(book: Book, lent: &[u8]) {
    let sound = is_playable(book, &lent[..book.used as usize]);
    assert_eq!(book.free(lent).is_ok(), sound);
    let mut bytes = lent.to_vec();
    let (after, answer) = book.change(&mut bytes, &price(9, 1, 1));
    if sound {
        assert_eq!(answer, Ok(()));
        assert_eq!(
            (after.changes, after.used),
            (book.changes + 1, book.used + 55)
        );
        let guarantees = book.guarantees(lent, 5);
        assert!(guarantees.is_ok() || number(guarantees) == 15);
    } else {
        assert_eq!((after, number(answer)), (book, 16));
        assert_eq!(bytes, lent);
        assert_eq!(number(book.guarantees(lent, 5)), 16);
        assert_eq!(number(book.unit_day(lent, b"G")), 16);
    }
}

/// Whether the used part is what a register writes when it is fed these
/// changes one by one.
fn is_playable(book: Book, used: &[u8]) -> bool {
    let mut register = peer::register::Register::new();
    let mut rest = used;
    for _ in 0..book.changes {
        match parse_change_prefix(rest) {
            Ok((change, length)) if register.accept(FULL, change.clone()).is_ok() => {
                rest = &rest[length..]
            }
            _ => return false,
        }
    }
    rest.is_empty() && register.list().len() as u32 == book.changes && register.written() == used
}

#[test]
fn cut_and_damaged_input_settles_to_a_line_or_a_statement() {
    let input = [example_hour(), unit(5, b"G", &worked_unit())].concat();
    let whole = settle(&input);
    let mut ends = 0;
    for end in 0..input.len() {
        let text = String::from_utf8(settle(&input[..end])).unwrap();
        if text.starts_with("REF") {
            assert!(text.ends_with(" 1\n"));
        } else {
            let last = text.lines().last().expect("a total");
            assert!(last.starts_with("DD TOT - "));
            ends += 1;
        }
    }
    assert_eq!(ends, 5);
    for place in 0..input.len() {
        let mut damaged = input.clone();
        damaged[place] ^= 0x81;
        let text = settle(&damaged);
        assert_eq!(settle(&damaged), text);
        assert!(text.ends_with(b"\n"));
    }
    assert_eq!(settle(&input), whole);
}

#[test]
fn a_cut_or_damaged_hour_leaves_the_result_unless_0() {
    let input = example_hour();
    for place in 0..input.len() {
        let mut damaged = input.clone();
        damaged[place] ^= 0x41;
        for records in [&input[..place], &damaged] {
            let mut result = [0x77; 8];
            let first = hour_offset_call(&mut result, records);
            assert!(first <= 15);
            if first != 0 {
                assert_eq!(result, [0x77; 8]);
            }
            let mut again = [0x77; 8];
            assert_eq!(hour_offset_call(&mut again, records), first);
            assert_eq!(again, result);
        }
    }
}

#[test]
fn noise_is_read_soundly() {
    let mut draw = Draw::new(0x5EED);
    let marks: [&[u8]; 12] = [
        b"PR", b"IM", b"EX", b"GH", b"FI", b"FE", b"CO", b"WD", b"TB", b"CL", b"RO", b"",
    ];
    for _ in 0..20_000 {
        let mut bytes = draw.pick(&marks).to_vec();
        if draw.once_in(2) {
            bytes.extend(draw.pick(&marks));
        }
        for _ in 0..draw.below(80) {
            let byte = if draw.once_in(2) {
                draw.below(40)
            } else {
                draw.below(256)
            };
            bytes.push(byte as u8);
        }
        read_soundly(&bytes);
        let book = Book {
            changes: draw.below(3) as u32,
            used: draw.below(bytes.len() as u64 + 2) as u32,
            closed: draw.once_in(2),
        };
        assert_eq!(book.free(&bytes), book.free(&bytes));
        assert_eq!(settle(&bytes), settle(&bytes));
    }
}
