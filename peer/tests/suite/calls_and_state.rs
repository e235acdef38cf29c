//! Changes against the state (open points C), on the book and the register
//! alike.

use crate::support::*;
use peer::records::raw::RawUnit;
use peer::records::Method;
use peer::refusal::Refusal;
use peer::register::Register;

/// Book and register side by side; they must always agree.
struct Both {
    kept: Kept,
    register: Register,
}

impl Both {
    fn fresh(length: usize) -> Both {
        Both {
            kept: Kept::fresh(length),
            register: Register::new(),
        }
    }

    fn change(&mut self, bytes: &[u8]) -> Result<(), Refusal> {
        let answer = self.kept.change(bytes);
        assert_eq!(self.register.change(self.kept.bytes.len(), bytes), answer);
        assert_eq!(
            self.kept.bytes[..self.kept.book.used as usize],
            self.register.written()
        );
        answer
    }

    fn must(&mut self, bytes: &[u8]) {
        assert_eq!(self.change(bytes), Ok(()));
    }

    fn refused(&mut self, bytes: &[u8]) -> u32 {
        number(self.change(bytes))
    }

    fn free(&self) -> u32 {
        let free = self.kept.book.free(&self.kept.bytes).unwrap();
        assert_eq!(self.register.free(self.kept.bytes.len()), Ok(free));
        free
    }

    fn place(&self, mark: &[u8], hour: u32, name: &[u8]) -> (u32, u32) {
        let place = self.kept.book.record(&self.kept.bytes, mark, hour, name);
        assert_eq!(
            self.register
                .record(self.kept.bytes.len(), mark, hour, name),
            place
        );
        let place = place.unwrap();
        (place.start, place.length)
    }

    fn count(&self, mark: &[u8], hour: u32) -> u32 {
        let count = self.kept.book.count(&self.kept.bytes, mark, hour).unwrap();
        assert_eq!(
            self.register.count(self.kept.bytes.len(), mark, hour),
            Ok(count)
        );
        count
    }
}

#[test]
fn c1_the_written_length_must_fit() {
    let record = export(1, b"A/B", 0);
    let spelled = export(1, b"A%2FB", 0);
    assert_eq!(Both::fresh(record.len()).refused(&record), 13);
    assert_eq!(Both::fresh(spelled.len() - 1).refused(&record), 13);
    let mut both = Both::fresh(spelled.len());
    both.must(&record);
    assert_eq!(both.kept.bytes, spelled);
    // The other way round: a long spelling of a short name.
    let long = export(1, b"%41%42", 0);
    let mut both = Both::fresh(long.len() - 4);
    both.must(&long);
    assert_eq!(both.free(), 0);
}

#[test]
fn c2_512_listed() {
    let mut both = Both::fresh(FULL);
    for _ in 0..256 {
        both.must(&failed_import(1, b"A", [0, 0], [0, 0]));
        both.must(&withdraw(b"FI", 1, b"A"));
    }
    assert_eq!(both.refused(&failed_import(1, b"A", [0, 0], [0, 0])), 13);
    both.must(b"TB");
    both.must(&correct(&failed_import(1, b"A", [1, 0], [0, 0])));
    assert_eq!(
        both.refused(&correct(&failed_import(1, b"A", [1, 0], [0, 0]))),
        13
    );
    assert_eq!(both.refused(&withdraw(b"FI", 1, b"A")), 13);
    assert_eq!(both.refused(&failed_import(1, b"A", [0, 0], [0, 0])), 10);
    assert_eq!(both.refused(&withdraw(b"FI", 1, b"B")), 11);
    both.must(b"TB");
    both.must(&withdraw(b"FI", 1, b"A"));
    both.must(b"CL");
    assert_eq!(both.kept.book.changes, 512);
}

#[test]
fn c3_closed_comes_after_reading_and_before_the_rest() {
    let mut both = Both::fresh(FULL);
    both.must(b"CL");
    assert_eq!(both.refused(b"TB"), 9);
    assert_eq!(both.refused(b"CL"), 9);
    assert_eq!(both.refused(b"CL\0"), 8);
    assert_eq!(both.refused(&correct(&price(1, 1, 1))), 9);
    assert_eq!(both.refused(&withdraw(b"PR", 1, b"")), 9);
    assert_eq!(both.refused(&price(1, 1, 1)), 9);
    assert_eq!(both.refused(&price(1, 200_001, 1)), 5);
    assert_eq!(both.refused(&price(25, 1, 1)), 3);
    assert_eq!(both.refused(&import(1, b"A", 2, &[(1, 1)])), 7);
    assert_eq!(both.refused(b"P"), 1);
}

#[test]
fn c4_10_before_12_before_13_and_11_before_13() {
    let mut both = Both::fresh(16 * 21);
    for letter in b'A'..b'A' + 16 {
        both.must(&failed_import(1, &[letter], [0, 0], [0, 0]));
    }
    assert_eq!(both.free(), 0);
    assert_eq!(both.refused(&failed_import(1, b"A", [0, 0], [0, 0])), 10);
    assert_eq!(both.refused(&failed_import(1, b"Z", [0, 0], [0, 0])), 12);
    assert_eq!(both.refused(&failed_import(2, b"Z", [0, 0], [0, 0])), 13);
    assert_eq!(
        both.refused(&correct(&failed_import(1, b"Z", [0, 0], [0, 0]))),
        11
    );
    assert_eq!(
        both.refused(&correct(&failed_import(1, b"A", [0, 0], [0, 0]))),
        13
    );
    assert_eq!(both.refused(&withdraw(b"FI", 1, b"Z")), 11);
    assert_eq!(both.refused(&withdraw(b"FI", 1, b"A")), 13);
    assert_eq!(both.refused(&price(1, 1, 1)), 13);
    both.must(b"TB");
    both.must(b"CL");
}

#[test]
fn a_second_price_of_an_hour_is_10() {
    let mut both = Both::fresh(FULL);
    both.must(&price(1, 1, 1));
    assert_eq!(both.refused(&price(1, 2, 2)), 10);
    both.must(&price(2, 2, 2));
    assert_eq!(both.count(b"PR", 1), 1);
}

#[test]
fn c5_a_correction_equal_to_what_stands_is_listed() {
    let mut both = Both::fresh(FULL);
    both.must(&price(1, 1, 1));
    both.must(&correct(&price(1, 1, 1)));
    assert_eq!(both.kept.book.changes, 2);
    assert_eq!(both.free(), 65_535 - 55 - 57);
}

#[test]
fn c6_c7_a_full_hour_may_be_corrected_and_refilled() {
    let mut both = Both::fresh(FULL);
    for letter in b'A'..b'A' + 8 {
        both.must(&unit(1, &[letter], &RawUnit::idle()));
    }
    assert_eq!(both.refused(&unit(1, b"Z", &RawUnit::idle())), 12);
    both.must(&correct(&unit(1, b"A", &worked_unit())));
    assert_eq!(both.count(b"GH", 1), 8);
    both.must(&withdraw(b"GH", 1, b"A"));
    assert_eq!(both.count(b"GH", 1), 7);
    both.must(&unit(1, b"Z", &RawUnit::idle()));
    assert_eq!(both.count(b"GH", 1), 8);
    assert_eq!(both.refused(&unit(1, b"A", &RawUnit::idle())), 12);
}

#[test]
fn c8_taking_back_brings_the_earlier_record_back_to_its_place() {
    let mut both = Both::fresh(FULL);
    both.must(&price(1, 1, 1));
    both.must(&export(1, b"A/B", 1));
    assert_eq!(both.place(b"EX", 1, b"A/B"), (55, 57));
    both.must(&correct(&export(1, b"A%2fB", 2)));
    assert_eq!(both.place(b"EX", 1, b"A/B"), (55 + 57 + 2, 57));
    both.must(&withdraw(b"EX", 1, b"A/B"));
    assert_eq!(both.count(b"EX", 1), 0);
    assert_eq!(
        number(both.kept.book.record(&both.kept.bytes, b"EX", 1, b"A/B")),
        11
    );
    both.must(&export(1, b"A/B", 3));
    assert_eq!(both.place(b"EX", 1, b"A/B"), (55 + 57 + 59 + 11, 57));
    both.must(b"TB");
    assert_eq!(both.count(b"EX", 1), 0);
    both.must(b"TB");
    assert_eq!(both.place(b"EX", 1, b"A%2FB"), (55 + 57 + 2, 57));
    both.must(b"TB");
    assert_eq!(both.place(b"EX", 1, b"A%2FB"), (55, 57));
    both.must(b"TB");
    both.must(b"TB");
    assert_eq!(both.refused(b"TB"), 14);
    assert_eq!(both.free(), 65_535);
}

#[test]
fn c9_taking_back_and_closing_need_only_the_used_bytes() {
    let mut kept = Kept::fresh(55);
    kept.must(&price(1, 1, 1));
    kept.must(b"TB");
    kept.must(&price(1, 1, 1));
    kept.must(b"CL");
    assert_eq!(kept.book.free(&kept.bytes), Ok(0));
}

#[test]
fn methods_of_the_book_take_their_own_marks() {
    let record = price(1, 1, 1);
    let mut bytes = vec![0; FULL];
    let fresh = peer::book::Book::new();
    let (book, answer) = fresh.call(Method::File, &mut bytes, &record);
    assert_eq!((book.changes, book.used, answer), (1, 55, Ok(())));
    let (book, answer) = book.call(Method::Correct, &mut bytes, &correct(&record));
    assert_eq!((book.changes, book.used, answer), (2, 112, Ok(())));
    let (book, answer) = book.call(Method::Withdraw, &mut bytes, &withdraw(b"PR", 1, b""));
    assert_eq!((book.changes, book.used, answer), (3, 118, Ok(())));
    let (book, answer) = book.call(Method::TakeBack, &mut bytes, b"TB");
    assert_eq!((book.changes, book.used, answer), (2, 112, Ok(())));
    assert_eq!(number(book.call(Method::File, &mut bytes, b"CO").1), 2);
    assert_eq!(number(book.call(Method::Correct, &mut bytes, &record).1), 2);
    assert_eq!(number(book.call(Method::Withdraw, &mut bytes, b"TB").1), 2);
    assert_eq!(number(book.call(Method::TakeBack, &mut bytes, b"CL").1), 2);
    assert_eq!(number(book.call(Method::Close, &mut bytes, b"TB").1), 2);
    assert_eq!(number(book.call(Method::Close, &mut bytes, b"CL\0").1), 8);
    assert_eq!(number(book.call(Method::Close, &mut bytes, b"").1), 1);
    let (book, answer) = book.call(Method::Close, &mut bytes, b"CL");
    assert_eq!(
        (book.closed, book.changes, book.used, answer),
        (true, 2, 112, Ok(()))
    );
}

#[test]
fn the_whole_of_65535_bytes_may_be_used_and_no_more() {
    // 1,191 pairs of PR would be too many for the list; corrections of the
    // longest import fill the bytes within 512 changes.
    let twenty: Vec<(i32, u32)> = (1..=20).map(|i| (100, i)).collect();
    let spelled = b"%2F".repeat(12);
    let mut both = Both::fresh(70_000);
    both.must(&import(1, &spelled, 1, &twenty));
    while both.free() >= 251 {
        both.must(&correct(&import(1, &spelled, 1, &twenty)));
    }
    // 65,535 = 249 + 260 x 251 + 26.
    assert_eq!(both.free(), 26);
    assert_eq!(both.refused(&correct(&import(1, &spelled, 1, &twenty))), 13);
    both.must(&failed_import(1, b"ABCDEF", [0, 0], [0, 0]));
    assert_eq!(both.free(), 0);
    assert_eq!(both.refused(&withdraw(b"FI", 1, b"ABCDEF")), 13);
    assert_eq!(both.kept.book.used, 65_535);
    assert!(both.kept.bytes[65_535..].iter().all(|&byte| byte == 0xA5));
}
