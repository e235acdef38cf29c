//! Long random lists of calls: the book over lent bytes and the plain
//! register answer alike, and the used part is the register's list as
//! written.

use crate::support::*;
use peer::book::Book;
use peer::questions::Standing;
use peer::records::raw::{self, RawUnit};
use peer::records::{Change, Key, Mark, Method, Record};
use peer::refusal::Refusal;
use peer::register::Register;
use peer::units::Hour;
use std::collections::BTreeMap;

/// Names in several spellings, more than an hour takes.
const NAMES: [&[u8]; 26] = [
    b"A",
    b"%41",
    b"A/B",
    b"A%2FB",
    b"A%2fB",
    b"A.B",
    b"%252F",
    b"~",
    b"%7e",
    b"B",
    b"C",
    b"D",
    b"E",
    b"F",
    b"G",
    b"H",
    b"I",
    b"J",
    b"K",
    b"L",
    b"M",
    b"N",
    b"O",
    b"P",
    b"Q",
    b"%2F%2F%2F%2F%2F%2F%2F%2F%2F%2F%2F%2F",
];
const MARKS: [&[u8; 2]; 6] = [b"PR", b"IM", b"EX", b"GH", b"FI", b"FE"];
const HOURS: [u8; 6] = [1, 1, 1, 1, 2, 24];

/// What a run of calls prefers.
#[derive(Clone, Copy)]
struct Style {
    /// Bytes of the buffer.
    capacity: usize,
    /// How many of the names are used.
    names: usize,
    /// How many of the marks, from the end of the listing, are filed.
    marks: usize,
    calls: usize,
    seed: u64,
}

/// Draws calls.
struct Caller {
    draw: Draw,
    style: Style,
}

impl Caller {
    fn new(style: Style) -> Caller {
        Caller {
            draw: Draw::new(style.seed),
            style,
        }
    }

    fn mark(&mut self) -> &'static [u8; 2] {
        self.draw.pick(&MARKS[MARKS.len() - self.style.marks..])
    }

    fn hour(&mut self) -> u8 {
        self.draw.pick(&HOURS)
    }

    fn spelled(&mut self) -> &'static [u8] {
        self.draw.pick(&NAMES[..self.style.names])
    }

    fn price(&mut self) -> i32 {
        match self.draw.below(400) {
            0 => 200_001,
            1 => -200_001,
            2 => 200_000,
            3 => -200_000,
            other => other as i32 * 25 - 1000,
        }
    }

    fn quantity(&mut self) -> u32 {
        match self.draw.below(400) {
            0 => 100_001,
            1 => 100_000,
            other => other as u32 % 120,
        }
    }

    fn prices(&mut self) -> [i32; 12] {
        let base = self.price();
        let mut prices = [base; 12];
        prices[self.draw.below(12) as usize] = self.price();
        prices
    }

    fn quantities(&mut self) -> [u32; 12] {
        let base = self.quantity();
        let mut quantities = [base; 12];
        quantities[self.draw.below(12) as usize] = self.quantity();
        quantities
    }

    /// A list that mostly reaches 200.
    fn list(&mut self) -> Vec<(i32, u32)> {
        let start = self.price();
        let mut list = vec![
            (start, 50),
            (start.saturating_add(100), 120),
            (start.saturating_add(300), 100_000),
        ];
        match self.draw.below(40) {
            0 => list.truncate(1),
            1 => list.truncate(2),
            2 => list.clear(),
            3 => list[1].0 = start - 1,
            4 => list[1].1 = 50,
            _ => {}
        }
        list
    }

    fn unit(&mut self) -> RawUnit {
        let mut unit = RawUnit::idle();
        unit.start_up = self.draw.below(3) as u32 * 1000;
        unit.no_load = self.draw.below(3) as u32 * 777;
        for which in 0..5 {
            unit.schedules[which] = self.quantities();
        }
        unit.lists[0] = self.list();
        unit.lists[1] = self.list();
        for which in 0..3 {
            if self.draw.once_in(2) {
                unit.reserves[which] = (self.prices(), self.quantities());
                unit.lists[2 + which] = self.list();
            }
        }
        unit
    }

    fn record(&mut self) -> Vec<u8> {
        let mark = self.mark();
        let hour = self.hour();
        let name = name(self.spelled());
        match mark {
            b"PR" => raw::price(hour, self.prices(), self.price()),
            b"IM" => raw::import(hour, &name, self.quantities(), &self.list()),
            b"EX" => raw::export(hour, &name, self.quantities()),
            b"GH" => raw::unit(hour, &name, &self.unit()),
            mark => {
                let quantities = [self.quantity(), self.quantity()];
                let prices = [self.price(), self.price()];
                raw::failure(mark, hour, &name, quantities, prices)
            }
        }
    }

    fn withdrawal(&mut self) -> Vec<u8> {
        let mark = self.mark();
        let spelled = if mark == b"PR" { b"" } else { self.spelled() };
        withdraw(mark, self.hour(), spelled)
    }

    /// A change, now and then spoilt, and its method, now and then another.
    fn change(&mut self) -> (Option<Method>, Vec<u8>) {
        let (mut method, mut bytes) = match self.draw.below(100) {
            0..=54 => (Method::File, self.record()),
            55..=72 => (Method::Correct, correct(&self.record())),
            73..=89 => (Method::Withdraw, self.withdrawal()),
            90..=98 => (Method::TakeBack, b"TB".to_vec()),
            _ if self.draw.once_in(4) => (Method::Close, b"CL".to_vec()),
            _ => (Method::File, b"ZZ".to_vec()),
        };
        if self.draw.once_in(25) {
            self.spoil(&mut bytes);
        }
        if self.draw.once_in(30) {
            method = self.draw.pick(&Method::ALL);
        }
        (self.draw.once_in(2).then_some(method), bytes)
    }

    fn spoil(&mut self, bytes: &mut Vec<u8>) {
        let place = self.draw.below(bytes.len() as u64) as usize;
        match self.draw.below(4) {
            0 => bytes.truncate(place),
            1 => bytes.push(0),
            2 => bytes[place.min(5)] = self.draw.below(256) as u8,
            _ => bytes[place] ^= 1 << self.draw.below(8),
        }
    }

    /// A lent length: mostly all, at times near or below the used bytes.
    fn lent(&mut self, used: usize) -> usize {
        let all = self.style.capacity;
        match self.draw.below(30) {
            0 => used,
            1 => used.saturating_sub(1),
            2 => used + self.draw.below(100) as usize,
            3 => self.draw.below(all as u64 + 1) as usize,
            4 => all.saturating_sub(self.draw.below(300) as usize),
            _ => all,
        }
        .min(all)
    }
}

/// How often each number came back.
#[derive(Default)]
struct Seen([u32; 17]);

impl Seen {
    fn note<T>(&mut self, answer: &Result<T, Refusal>) {
        let number = answer.as_ref().err().map_or(0, |refusal| refusal.number());
        self.0[number as usize] += 1;
    }
}

/// Book, bytes and register of a run.
struct Run {
    caller: Caller,
    book: Book,
    bytes: Vec<u8>,
    register: Register,
    seen: Seen,
}

impl Run {
    fn new(style: Style) -> Run {
        Run {
            caller: Caller::new(style),
            book: Book::new(),
            bytes: (0..style.capacity).map(|place| place as u8).collect(),
            register: Register::new(),
            seen: Seen::default(),
        }
    }

    fn go(mut self) -> Seen {
        let mut after_closing = 0;
        for call in 0..self.caller.style.calls {
            if self.caller.draw.below(10) < 7 {
                self.change();
            } else {
                self.question();
            }
            if call % 64 == 0 {
                self.compare_with_playing_from_empty();
            }
            after_closing += usize::from(self.register.is_closed());
            if after_closing > 40 {
                break;
            }
        }
        self.seen
    }

    fn change(&mut self) {
        let lent = self.caller.lent(self.register.used());
        let (method, bytes) = self.caller.change();
        let before = (self.book, self.bytes.clone());
        let room = &mut self.bytes[..lent];
        let (book, answer) = match method {
            Some(method) => self.book.call(method, room, &bytes),
            None => self.book.change(room, &bytes),
        };
        let expected = match method {
            Some(method) => self.register.call(method, lent, &bytes),
            None => self.register.change(lent, &bytes),
        };
        assert_eq!(answer, expected);
        self.seen.note(&answer);
        self.book = book;
        match answer {
            Ok(()) => self.compare_state(&before.1),
            Err(_) => assert_eq!((self.book, &self.bytes), (before.0, &before.1)),
        }
    }

    /// What the book carries equals the register's; only bytes right behind
    /// the used part changed.
    fn compare_state(&self, before: &[u8]) {
        assert_eq!(self.book.changes as usize, self.register.list().len());
        assert_eq!(self.book.used as usize, self.register.used());
        assert_eq!(self.book.closed, self.register.is_closed());
        let used = self.register.used();
        assert_eq!(self.bytes[..used], self.register.written());
        assert_eq!(self.bytes[used..], before[used..]);
    }

    fn question(&mut self) {
        let lent = self.caller.lent(self.register.used());
        let mark: &[u8] = if self.caller.draw.once_in(20) {
            b"CO"
        } else {
            self.caller.mark()
        };
        let hour = match self.caller.draw.below(20) {
            0 => 0,
            1 => 25,
            _ => u32::from(self.caller.hour()),
        };
        let name = if mark == b"PR" {
            b""
        } else {
            self.caller.spelled()
        };
        let name = if self.caller.draw.once_in(20) {
            b"A%2"
        } else {
            name
        };
        let (book, room, register) = (self.book, &self.bytes[..lent], &self.register);
        macro_rules! ask {
            ($question:ident $(, $argument:expr)*) => {{
                let answer = book.$question(room $(, $argument)*);
                assert_eq!(answer, register.$question(lent $(, $argument)*));
                self.seen.note(&answer);
            }};
        }
        match self.caller.draw.below(6) {
            0 => ask!(record, mark, hour, name),
            1 => ask!(count, mark, hour),
            2 => ask!(free),
            3 => ask!(guarantees, hour),
            4 => ask!(unit_day, name),
            _ => ask!(failure_charge, mark, hour, name),
        }
    }

    /// "Standing records are the list played from empty."
    fn compare_with_playing_from_empty(&self) {
        let standing = played(self.register.list().iter().map(|listed| &listed.change));
        for mark in Mark::ALL {
            for hour in Hour::all() {
                let names: Vec<_> = standing
                    .keys()
                    .filter(|key| (key.mark, key.hour) == (mark, hour))
                    .collect();
                let count = self
                    .register
                    .count(FULL, &mark.bytes(), u32::from(hour.number()));
                assert_eq!(count, Ok(names.len() as u32));
                let expected: Vec<_> = names.iter().filter_map(|key| key.name).collect();
                assert_eq!(self.register.names(mark, hour), expected);
            }
        }
        for (key, record) in &standing {
            assert_eq!(self.register.find(key).as_ref(), Some(*record));
        }
    }
}

fn played<'a>(list: impl Iterator<Item = &'a Change>) -> BTreeMap<Key, &'a Record> {
    let mut standing = BTreeMap::new();
    for change in list {
        match change {
            Change::File(record) => assert_eq!(standing.insert(record.key(), record), None),
            Change::Correct(record) => assert!(standing.insert(record.key(), record).is_some()),
            Change::Withdraw(key) => assert!(standing.remove(key).is_some()),
            Change::TakeBack | Change::Close => panic!("never listed"),
        }
    }
    standing
}

#[test]
fn answers_agree_over_long_lists_of_calls() {
    let all = Style {
        capacity: FULL,
        names: 26,
        marks: 6,
        calls: 900,
        seed: 0,
    };
    let styles = [
        all,
        Style {
            capacity: 70_000,
            ..all
        },
        Style {
            capacity: 300,
            names: 4,
            ..all
        },
        Style {
            capacity: 2000,
            names: 10,
            ..all
        },
        Style {
            capacity: 9000,
            names: 26,
            marks: 2,
            ..all
        },
        Style {
            capacity: FULL,
            names: 12,
            marks: 2,
            calls: 1500,
            ..all
        },
        Style {
            capacity: 54,
            ..all
        },
        Style {
            capacity: 0,
            calls: 100,
            ..all
        },
    ];
    let mut seen = Seen::default();
    for seed in 1..=30 {
        for (place, style) in styles.into_iter().enumerate() {
            let seed = 0x9E37_79B9_7F4A_7C15_u64.wrapping_mul(seed * 100 + place as u64);
            let run = Run::new(Style { seed, ..style }).go();
            for (sum, count) in seen.0.iter_mut().zip(run.0) {
                *sum += count;
            }
        }
    }
    for (number, &count) in seen.0.iter().enumerate() {
        assert!(count >= 10, "{number} came back {count} times only");
    }
}

#[test]
fn a_list_of_512_is_reached_and_left_again() {
    let style = Style {
        capacity: FULL,
        names: 12,
        marks: 2,
        calls: 2500,
        seed: 77,
    };
    let mut run = Run::new(style);
    let mut most = 0;
    for _ in 0..style.calls {
        let before = run.register.list().len();
        run.change();
        most = most.max(before);
        if run.register.is_closed() {
            // Closing would end the list; go on from the same bytes, open.
            run.book.closed = false;
            run.register = reopened(&run.register);
        }
    }
    assert_eq!(most, 512);
    assert!(run.seen.0[13] > 0);
}

/// A register with the same list, open.
fn reopened(register: &Register) -> Register {
    let mut open = Register::new();
    for listed in register.list() {
        open.accept(FULL, listed.change.clone()).unwrap();
    }
    open
}
