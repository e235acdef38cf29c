//! The day that costs the proved book most: 512 changes, 70 units, and keys
//! that share one number in its index.
//!
//! The book finds a key by a number of the key, and looks through its changes
//! where the latest one with that number has another key. Here every new key
//! has the number of all before it.

use crate::draw::Draw;
use peer::records::raw::{self, RawName, RawUnit};
use std::collections::BTreeSet;

/// The seed of the names.
const SEED: u64 = 1;
/// The hours in use, each with its prices.
const HOURS: u8 = 9;
/// How many records of each mark, spread over the hours: with the prices 512.
const RECORDS: [(Marked, usize); 5] = [
    (Marked::Unit, 70),
    (Marked::ImportFailure, 144),
    (Marked::ExportFailure, 144),
    (Marked::Import, 72),
    (Marked::Export, 73),
];
/// What each name begins with, so that names differ late.
const PREFIX: &[u8; 8] = b"COLLIDES";
/// What the rest of a name is drawn from.
const LETTERS: &[u8; 36] = b"ABCDEFGHIJKLMNOPQRSTUVWXYZ0123456789";
/// The number that the keys share: that of the first hour's prices.
const SHARED: usize = 1;

/// The marks with names, by their places in the order of marks.
#[derive(Clone, Copy)]
enum Marked {
    Import = 1,
    Export = 2,
    Unit = 3,
    ImportFailure = 4,
    ExportFailure = 5,
}

/// The records of the day, back to back.
pub fn worst_day() -> Vec<u8> {
    records().concat()
}

fn records() -> Vec<Vec<u8>> {
    let mut names = Names::new();
    let mut records: Vec<Vec<u8>> = (1..=HOURS)
        .map(|hour| raw::price(hour, [3000; 12], 3000))
        .collect();
    for (mark, count) in RECORDS {
        for place in 0..count {
            let hour = 1 + (place % usize::from(HOURS)) as u8;
            records.push(record(mark, hour, &names.of(mark, hour)));
        }
    }
    records
}

/// A record of a mark that brings an amount.
fn record(mark: Marked, hour: u8, name: &RawName) -> Vec<u8> {
    match mark {
        Marked::Import => raw::import(hour, name, [90; 12], &[(2900, 50), (4000, 100)]),
        Marked::Export => raw::export(hour, name, [40; 12]),
        Marked::Unit => raw::unit(hour, name, &unit()),
        Marked::ImportFailure => raw::failure(b"FI", hour, name, [100, 60], [2000, 4000]),
        Marked::ExportFailure => raw::failure(b"FE", hour, name, [100, 60], [2000, 4000]),
    }
}

/// A unit that runs at a loss.
fn unit() -> RawUnit {
    let mut unit = RawUnit::idle();
    unit.no_load = 37_000;
    unit.schedules = [[600; 12], [400; 12], [500; 12], [400; 12], [600; 12]];
    unit.lists[0] = vec![(3500, 600)];
    unit.lists[1] = vec![(3300, 600)];
    unit
}

/// Names whose keys have the shared number, each given once.
struct Names {
    draw: Draw,
    given: BTreeSet<[u8; 12]>,
}

impl Names {
    fn new() -> Names {
        Names {
            draw: Draw::new(SEED),
            given: BTreeSet::new(),
        }
    }

    fn of(&mut self, mark: Marked, hour: u8) -> RawName {
        loop {
            let name = self.drawn();
            if number(mark as usize, hour, &name) == SHARED && self.given.insert(name) {
                return RawName::of(&name);
            }
        }
    }

    fn drawn(&mut self) -> [u8; 12] {
        let mut name = [0; 12];
        let (first, rest) = name.split_at_mut(PREFIX.len());
        first.copy_from_slice(PREFIX);
        rest.fill_with(|| self.draw.pick(LETTERS));
        name
    }
}

/// The number of a key: `bucket_of` in the proved book's `log/index.rt`. Nothing but
/// the choice of these names depends on it.
fn number(mark: usize, hour: u8, name: &[u8; 12]) -> usize {
    let mut sum = mark * 32 + usize::from(hour);
    let mut weight = 449;
    for &byte in name {
        sum += usize::from(byte) * weight;
        weight = weight * 31 % 8192;
    }
    sum % 8192
}

#[cfg(test)]
mod tests {
    use super::*;
    use std::fs;

    #[test]
    fn the_day_is_whole() {
        let records = records();
        assert_eq!(records.len(), 512);
        let day = worst_day();
        assert!(day.len() <= 65_535, "{} bytes", day.len());
        let said = String::from_utf8(peer::statement::settle(&day)).expect("text");
        let lines = |kind: &str| {
            said.lines()
                .filter(|line| line[3..].starts_with(kind))
                .count()
        };
        let seen = ["PCG", "IOG", "IFC", "EFC", "OFF", "ERR", "TOT"].map(lines);
        assert_eq!(seen, [70, 72, 144, 144, 9, 0, 1]);
    }

    #[test]
    fn every_named_key_has_the_shared_number() {
        let marks = [b"IM", b"EX", b"GH", b"FI", b"FE"];
        let named = records().into_iter().skip(usize::from(HOURS));
        for record in named {
            let mark = marks.iter().position(|mark| record.starts_with(*mark));
            let name = record[4..16].try_into().expect("twelve bytes");
            assert_eq!(number(1 + mark.expect("a mark"), record[2], name), SHARED);
        }
        assert_eq!(number(0, 1, &[0; 12]), SHARED);
    }

    /// Names made for another index would be names like any others.
    #[test]
    fn the_number_is_that_of_the_proved_index() {
        let path = concat!(
            env!("CARGO_MANIFEST_DIR"),
            "/../crates/book/src/log/index.rt"
        );
        let source = fs::read_to_string(path).expect("the source of the index");
        let steps = [
            "const MARK_SLOTS: usize = 32;",
            "const BUCKETS: usize = 8192;",
            "usize::from(key_order(mark)) * MARK_SLOTS + usize::from(key.hour)",
            "let mut weight: usize = 449;",
            "for b in bytes {",
            "sum += usize::from(b) * weight;",
            "weight = weight * 31 % BUCKETS;",
            "sum % BUCKETS",
        ];
        for step in steps {
            assert!(source.contains(step), "the index no longer has: {step}");
        }
    }
}
