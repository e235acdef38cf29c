//! Any book with any bytes: number 16 (open points E).

use crate::support::*;
use peer::book::Book;

fn free(book: Book, bytes: &[u8]) -> Result<u32, u32> {
    book.free(bytes).map_err(|refusal| refusal.number())
}

/// A book that carries these numbers over the joined changes and some room.
fn carried(changes: u32, parts: &[Vec<u8>]) -> Result<u32, u32> {
    let mut bytes = parts.concat();
    let used = bytes.len() as u32;
    bytes.resize(bytes.len() + 10, 0x11);
    let open = Book {
        changes,
        used,
        closed: false,
    };
    let closed = Book {
        closed: true,
        ..open
    };
    // E4: the closed flag never leads to 16.
    assert_eq!(free(open, &bytes), free(closed, &bytes));
    free(open, &bytes)
}

#[test]
fn e1_only_canonical_changes_count() {
    assert_eq!(carried(1, &[export(1, b"A%2FB", 1)]), Ok(10));
    for spelled in [&b"A/B"[..], b"A%2fB", b"%41"] {
        assert_eq!(carried(1, &[export(1, spelled, 1)]), Err(16));
    }
    let first = export(1, b"A", 1);
    assert_eq!(carried(2, &[first.clone(), correct(&first)]), Ok(10));
    assert_eq!(
        carried(2, &[first.clone(), correct(&export(1, b"%41", 1))]),
        Err(16)
    );
    assert_eq!(
        carried(2, &[first.clone(), withdraw(b"EX", 1, b"A")]),
        Ok(10)
    );
    assert_eq!(
        carried(2, &[first.clone(), withdraw(b"EX", 1, b"%41")]),
        Err(16)
    );
    for mark in [b"TB", b"CL", b"RO", b"ZZ"] {
        assert_eq!(carried(2, &[first.clone(), mark.to_vec()]), Err(16));
    }
}

#[test]
fn each_listed_change_must_be_accepted_in_turn() {
    let first = export(1, b"A", 1);
    assert_eq!(carried(2, &[first.clone(), first.clone()]), Err(16));
    assert_eq!(carried(1, &[correct(&first)]), Err(16));
    assert_eq!(carried(1, &[withdraw(b"EX", 1, b"A")]), Err(16));
    assert_eq!(
        carried(3, &[first.clone(), withdraw(b"EX", 1, b"A"), first.clone()]),
        Ok(10)
    );
    assert_eq!(carried(2, &[withdraw(b"EX", 1, b"A"), first]), Err(16));
    let seventeen: Vec<Vec<u8>> = (0..17).map(|i| export(1, &[b'A' + i], 1)).collect();
    assert_eq!(carried(16, &seventeen[..16]), Ok(10));
    assert_eq!(carried(17, &seventeen), Err(16));
    assert_eq!(carried(1, &[price(1, 200_001, 0)]), Err(16));
    assert_eq!(carried(1, &[price(0, 1, 0)]), Err(16));
}

#[test]
fn e2_used_and_changes_have_their_limits() {
    let bytes = vec![0; 70_000];
    for used in [65_536, 70_000, u32::MAX] {
        assert_eq!(
            free(
                Book {
                    changes: 0,
                    used,
                    closed: false
                },
                &bytes
            ),
            Err(16)
        );
    }
    for changes in [513, u32::MAX] {
        assert_eq!(
            free(
                Book {
                    changes,
                    used: 0,
                    closed: false
                },
                &bytes
            ),
            Err(16)
        );
    }
    let mut many = Vec::new();
    for _ in 0..256 {
        many.push(failed_import(1, b"A", [0, 0], [0, 0]));
        many.push(withdraw(b"FI", 1, b"A"));
    }
    assert_eq!(carried(512, &many), Ok(10));
    many.push(failed_import(1, b"A", [0, 0], [0, 0]));
    assert_eq!(carried(513, &many), Err(16));
}

#[test]
fn e3_number_and_bytes_must_agree() {
    assert_eq!(carried(0, &[]), Ok(10));
    assert_eq!(carried(0, &[vec![0; 5]]), Err(16));
    assert_eq!(carried(3, &[]), Err(16));
    let two = [price(1, 1, 1), price(2, 1, 1)];
    assert_eq!(carried(2, &two), Ok(10));
    assert_eq!(carried(1, &two), Err(16));
    assert_eq!(carried(3, &two), Err(16));
    let bytes = two.concat();
    for used in 0..=bytes.len() as u32 {
        let expected = |at| if used == at { Ok(110 - at) } else { Err(16) };
        assert_eq!(
            free(
                Book {
                    changes: 1,
                    used,
                    closed: false
                },
                &bytes
            ),
            expected(55)
        );
        assert_eq!(
            free(
                Book {
                    changes: 2,
                    used,
                    closed: false
                },
                &bytes
            ),
            expected(110)
        );
    }
}

#[test]
fn records_are_not_read_past_the_used_part() {
    let mut bytes = price(1, 1, 1);
    bytes.resize(200, 0);
    let book = Book {
        changes: 1,
        used: 54,
        closed: false,
    };
    assert_eq!(free(book, &bytes), Err(16));
}

#[test]
fn a4_16_comes_before_faults_in_the_change() {
    let book = Book {
        changes: 1,
        used: 0,
        closed: true,
    };
    let mut bytes = vec![0; 100];
    for change in [&b""[..], b"P", b"ZZ", b"TB\0", b"CL"] {
        let (after, answer) = book.change(&mut bytes, change);
        assert_eq!((after, number(answer)), (book, 16));
    }
    assert_eq!(number(book.record(&bytes, b"", 0, b"")), 16);
    assert_eq!(number(book.count(&bytes, b"", 0)), 16);
    assert_eq!(number(book.guarantees(&bytes, 0)), 16);
    assert_eq!(number(book.unit_day(&bytes, b"")), 16);
    assert_eq!(number(book.failure_charge(&bytes, b"", 0, b"")), 16);
    assert_eq!(bytes, vec![0; 100]);
}

#[test]
fn e6_only_the_new_changes_bytes_are_touched() {
    let mut kept = Kept::fresh(300);
    kept.must(&price(1, 1, 1));
    let record = export(1, b"A", 1);
    let before = kept.bytes.clone();
    kept.must(&record);
    let end = 55 + record.len();
    assert_eq!(kept.bytes[..55], before[..55]);
    assert_eq!(kept.bytes[55..end], record);
    assert_eq!(kept.bytes[end..], before[end..]);
    let before = kept.bytes.clone();
    kept.must(b"TB");
    kept.must(b"CL");
    assert_eq!(kept.bytes, before);
}

#[test]
fn lengths_past_65535_change_nothing_else() {
    let mut bytes = vec![0; 65_600];
    let (book, answer) = Book::new().change(&mut bytes, &price(1, 1, 1));
    assert_eq!(answer, Ok(()));
    assert_eq!(free(book, &bytes), Ok(65_480));
    assert_eq!(free(book, &bytes[..65_536]), Ok(65_480));
    assert_eq!(free(book, &bytes[..65_535]), Ok(65_480));
    assert_eq!(free(book, &bytes[..65_534]), Ok(65_479));
}
