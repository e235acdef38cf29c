//! Prints test vectors for the record layer, one to a line:
//! `HEX -> OK HEX` with the canonical written form, or `HEX -> NUMBER`.
//!
//! The set is fixed: every field of every record at its least and greatest
//! value and just outside, one small instance of each mark cut at every byte,
//! every spelling of one short name, and the table's examples for 1 to 8.

use peer::records::parse_change;
use peer::records::raw::{self, RawName, RawUnit};
use std::io::{self, BufWriter, Write};

const PRICES: [i32; 7] = [-200_000, 200_000, -200_001, 200_001, i32::MIN, i32::MAX, 0];
const QUANTITIES: [u32; 5] = [0, 100_000, 100_001, u32::MAX, 1];
const CENTS: [u32; 5] = [0, 100_000_000, 100_000_001, u32::MAX, 1];
const HOURS: [u8; 5] = [1, 24, 0, 25, 255];
const COUNTS: [usize; 5] = [1, 20, 0, 21, 255];
const MARKS: [&[u8; 2]; 6] = [b"PR", b"IM", b"EX", b"GH", b"FI", b"FE"];

fn main() -> io::Result<()> {
    let mut out = BufWriter::new(io::stdout().lock());
    for bytes in all_cases() {
        writeln!(out, "{}", line(&bytes))?;
    }
    out.flush()
}

/// One vector.
fn line(bytes: &[u8]) -> String {
    match parse_change(bytes) {
        Ok(change) => format!("{} -> OK {}", hex(bytes), hex(&change.written())),
        Err(refusal) => format!("{} -> {refusal}", hex(bytes)),
    }
}

/// Capital hex digits; `-` for no bytes.
fn hex(bytes: &[u8]) -> String {
    if bytes.is_empty() {
        return "-".to_string();
    }
    bytes.iter().map(|byte| format!("{byte:02X}")).collect()
}

fn all_cases() -> Vec<Vec<u8>> {
    let records = [
        price_fields(),
        import_fields(),
        export_fields(),
        unit_fields(),
        failure_fields(b"FI"),
        failure_fields(b"FE"),
    ]
    .concat();
    let corrected: Vec<Vec<u8>> = records.iter().map(|record| raw::correct(record)).collect();
    [
        records,
        corrected,
        withdrawals(),
        marks_inside(),
        names_at_their_limits(),
        spellings(),
        small_instances()
            .iter()
            .flat_map(|record| cuts(record))
            .collect(),
        left_over(),
        table(),
        mixed_faults(),
    ]
    .concat()
}

fn name() -> RawName {
    RawName::of(b"N")
}

fn numbered<T: Copy>(base: [T; 12], place: usize, number: T) -> [T; 12] {
    let mut numbers = base;
    numbers[place] = number;
    numbers
}

/// Rising pairs, so many, at one price.
fn pairs(count: usize) -> Vec<(i32, u32)> {
    (1..=count as u32).map(|quantity| (100, quantity)).collect()
}

fn price_fields() -> Vec<Vec<u8>> {
    let mut cases: Vec<Vec<u8>> = HOURS.map(|hour| raw::price(hour, [0; 12], 0)).to_vec();
    for number in PRICES {
        for place in 0..12 {
            cases.push(raw::price(1, numbered([0; 12], place, number), 0));
        }
        cases.push(raw::price(1, [0; 12], number));
    }
    cases
}

fn import_fields() -> Vec<Vec<u8>> {
    let list = [(0, 100_000)];
    let mut cases: Vec<Vec<u8>> = HOURS
        .map(|hour| raw::import(hour, &name(), [0; 12], &list))
        .to_vec();
    for number in QUANTITIES {
        for place in 0..12 {
            let quantities = numbered([0; 12], place, number);
            cases.push(raw::import(1, &name(), quantities, &list));
            cases.push(raw::import(1, &name(), quantities, &[(0, 99_999)]));
        }
    }
    for list in lists() {
        cases.push(raw::import(1, &name(), [0; 12], &list));
    }
    cases
}

/// Lists at and outside each of their rules.
fn lists() -> Vec<Vec<(i32, u32)>> {
    let mut lists: Vec<Vec<(i32, u32)>> = COUNTS.map(pairs).to_vec();
    for number in PRICES {
        lists.push(vec![(number, 10)]);
        lists.push(vec![(number, 10), (number, 20)]);
        lists.push(vec![(0, 10), (number, 20)]);
        lists.push(vec![(number, 10), (0, 20)]);
    }
    for number in QUANTITIES {
        lists.push(vec![(0, number)]);
        lists.push(vec![(0, 1), (0, number)]);
        lists.push(vec![(0, number), (0, 100_000)]);
    }
    lists.push(vec![(0, 10), (0, 10)]);
    lists.push(vec![(0, 10), (0, 11)]);
    lists.push(vec![(0, 11), (0, 10)]);
    lists.push(vec![(1, 10), (0, 5), (200_001, 20)]);
    lists.push(vec![(1, 10), (0, 5), (0, 100_001)]);
    let mut last_falls = pairs(20);
    last_falls[19] = (99, 20);
    lists.push(last_falls);
    let mut last_stands = pairs(20);
    last_stands[19] = (100, 19);
    lists.push(last_stands);
    lists
}

fn export_fields() -> Vec<Vec<u8>> {
    let mut cases: Vec<Vec<u8>> = HOURS
        .map(|hour| raw::export(hour, &name(), [0; 12]))
        .to_vec();
    for number in QUANTITIES {
        for place in 0..12 {
            cases.push(raw::export(1, &name(), numbered([0; 12], place, number)));
        }
    }
    cases
}

/// A unit with one change to an idle one.
fn unit_with(change: impl FnOnce(&mut RawUnit)) -> Vec<u8> {
    let mut unit = RawUnit::idle();
    change(&mut unit);
    raw::unit(1, &name(), &unit)
}

fn unit_fields() -> Vec<Vec<u8>> {
    let mut cases: Vec<Vec<u8>> = HOURS
        .map(|hour| raw::unit(hour, &name(), &RawUnit::idle()))
        .to_vec();
    for number in CENTS {
        cases.push(unit_with(|unit| unit.start_up = number));
        cases.push(unit_with(|unit| unit.no_load = number));
    }
    for place in 0..12 {
        cases.extend(unit_interval_fields(place));
    }
    for which in 0..5 {
        for list in lists() {
            cases.push(unit_with(|unit| unit.lists[which] = list));
        }
    }
    cases.extend(unit_schedules_beyond());
    cases
}

fn unit_interval_fields(place: usize) -> Vec<Vec<u8>> {
    let mut cases = Vec::new();
    for number in QUANTITIES {
        for which in 0..5 {
            cases.push(unit_with(|unit| unit.schedules[which][place] = number));
        }
        for which in 0..3 {
            // Without a list a schedule above 0 gives 6, with one it may stand.
            cases.push(unit_with(|unit| unit.reserves[which].1[place] = number));
            cases.push(unit_with(|unit| {
                unit.reserves[which].1[place] = number;
                unit.lists[2 + which] = vec![(0, 100_000)];
            }));
        }
    }
    for number in PRICES {
        for which in 0..3 {
            cases.push(unit_with(|unit| unit.reserves[which].0[place] = number));
        }
    }
    cases
}

/// Schedules at the end of their lists and just beyond.
fn unit_schedules_beyond() -> Vec<Vec<u8>> {
    let mut cases = Vec::new();
    for quantity in [100, 101] {
        for which in 0..2 {
            cases.push(unit_with(|unit| {
                unit.schedules[0][11] = quantity;
                unit.lists[which] = vec![(0, 100)];
            }));
        }
        for which in 0..3 {
            cases.push(unit_with(|unit| {
                unit.reserves[which].1[11] = quantity;
                unit.lists[2 + which] = vec![(0, 100)];
            }));
        }
    }
    for which in 1..5 {
        cases.push(unit_with(|unit| {
            unit.schedules[which][0] = 100_000;
            unit.lists[0] = vec![(0, 1)];
            unit.lists[1] = vec![(0, 1)];
        }));
    }
    cases
}

fn failure_fields(mark: &[u8; 2]) -> Vec<Vec<u8>> {
    let mut cases: Vec<Vec<u8>> = HOURS
        .map(|hour| raw::failure(mark, hour, &name(), [0; 2], [0; 2]))
        .to_vec();
    for number in QUANTITIES {
        cases.push(raw::failure(mark, 1, &name(), [number, 0], [0; 2]));
        cases.push(raw::failure(mark, 1, &name(), [0, number], [0; 2]));
    }
    for number in PRICES {
        cases.push(raw::failure(mark, 1, &name(), [0; 2], [number, 0]));
        cases.push(raw::failure(mark, 1, &name(), [0; 2], [0, number]));
    }
    cases
}

fn withdrawals() -> Vec<Vec<u8>> {
    let none = RawName::of(b"");
    let mut cases = Vec::new();
    for mark in MARKS {
        for hour in HOURS {
            cases.push(raw::withdraw(mark, hour, &none));
            cases.push(raw::withdraw(mark, hour, &name()));
        }
    }
    cases
}

/// Every mark, known or not, first and inside `CO` and `WD`.
fn marks_inside() -> Vec<Vec<u8>> {
    let others: [&[u8; 2]; 10] = [
        b"CO", b"WD", b"TB", b"CL", b"RO", b"DI", b"ZZ", b"pr", b"RP", b"\0\0",
    ];
    let mut cases = Vec::new();
    for mark in MARKS.into_iter().chain(others) {
        cases.push(mark.to_vec());
        for outer in [b"CO", b"WD", b"TB", b"CL", b"ZZ"] {
            cases.push([&outer[..], mark].concat());
            cases.push([&outer[..], mark, &[0]].concat());
        }
    }
    cases
}

/// Lengths and bytes of names at their limits and outside, in each record.
fn names_at_their_limits() -> Vec<Vec<u8>> {
    let mut names: Vec<RawName> = [0, 1, 2, 11, 12, 13, 36, 37, 255]
        .map(|length| RawName::of(&vec![b'A'; length]))
        .to_vec();
    names.extend([11, 12, 13].map(|count| RawName::of(&b"%2F".repeat(count))));
    for byte in [
        0x00, 0x1F, 0x20, 0x21, 0x24, 0x25, 0x26, 0x7E, 0x7F, 0x80, 0xFF,
    ] {
        names.push(RawName::of(&[byte]));
        names.push(RawName::of(&[b'A', byte, b'B']));
        names.push(RawName::of(format!("%{byte:02X}").as_bytes()));
        names.push(RawName::of(format!("%{byte:02x}").as_bytes()));
    }
    for spelled in [
        &b"%"[..],
        b"A%",
        b"A%2",
        b"%2",
        b"%G0",
        b"%0G",
        b"%%41",
        b"%252F",
        b"%25",
        b"%4%31",
    ] {
        names.push(RawName::of(spelled));
    }
    names.push(RawName {
        length: 0,
        spelled: b"A".to_vec(),
    });
    names.push(RawName {
        length: 37,
        spelled: Vec::new(),
    });
    names.push(RawName {
        length: 200,
        spelled: Vec::new(),
    });
    names.iter().flat_map(records_named).collect()
}

fn records_named(name: &RawName) -> Vec<Vec<u8>> {
    vec![
        raw::import(1, name, [1; 12], &[(1, 1)]),
        raw::export(1, name, [1; 12]),
        raw::unit(1, name, &RawUnit::idle()),
        raw::failure(b"FI", 1, name, [1, 0], [1, 2]),
        raw::failure(b"FE", 1, name, [1, 0], [2, 1]),
        raw::withdraw(b"PR", 1, name),
        raw::withdraw(b"EX", 1, name),
    ]
}

/// Every spelling of the name `J/%z`.
fn spellings() -> Vec<Vec<u8>> {
    let mut spelled: Vec<Vec<u8>> = vec![Vec::new()];
    let bytes: [&[&[u8]]; 4] = [
        &[b"J", b"%4A", b"%4a"],
        &[b"/", b"%2F", b"%2f"],
        &[b"%25"],
        &[b"z", b"%7A", b"%7a"],
    ];
    for ways in bytes {
        spelled = spelled
            .iter()
            .flat_map(|start| ways.iter().map(move |way| [start, *way].concat()))
            .collect();
    }
    spelled
        .iter()
        .map(|spelled| raw::withdraw(b"EX", 1, &RawName::of(spelled)))
        .collect()
}

/// One small instance of each mark.
fn small_instances() -> Vec<Vec<u8>> {
    let import = raw::import(
        5,
        &RawName::of(b"A%2FB"),
        [100; 12],
        &[(4000, 50), (4100, 100)],
    );
    let mut unit = RawUnit::idle();
    unit.lists[3] = vec![(1, 2)];
    vec![
        raw::price(5, [3000; 12], 3000),
        import.clone(),
        raw::export(5, &RawName::of(b"D"), [250; 12]),
        raw::unit(5, &RawName::of(b"G"), &unit),
        raw::failure(
            b"FI",
            5,
            &RawName::of(b"A/B"),
            [1000, 900],
            [10_000, 10_000],
        ),
        raw::failure(
            b"FE",
            5,
            &RawName::of(b"a%2fb"),
            [2000, 1500],
            [90_000, 80_000],
        ),
        raw::correct(&import),
        raw::withdraw(b"IM", 5, &RawName::of(b"A%2FB")),
        raw::withdraw(b"PR", 5, &RawName::of(b"")),
        b"TB".to_vec(),
        b"CL".to_vec(),
    ]
}

/// The bytes cut at every place, the whole included.
fn cuts(bytes: &[u8]) -> Vec<Vec<u8>> {
    (0..=bytes.len()).map(|end| bytes[..end].to_vec()).collect()
}

fn left_over() -> Vec<Vec<u8>> {
    let behind = |record: Vec<u8>| {
        [
            [record.clone(), vec![0]].concat(),
            [record.clone(), record].concat(),
        ]
    };
    small_instances().into_iter().flat_map(behind).collect()
}

/// The table's examples for 1 to 8.
fn table() -> Vec<Vec<u8>> {
    vec![
        b"P".to_vec(),
        b"ZZ".to_vec(),
        b"PR\0".to_vec(),
        raw::export(1, &RawName::of(b"A%2"), [0; 12]),
        raw::price(1, numbered([0; 12], 0, 200_001), 0),
        raw::import(1, &name(), [0; 12], &[(2000, 10), (1999, 20)]),
        raw::import(1, &name(), numbered([0; 12], 0, 101), &[(2000, 100)]),
        b"TB\0".to_vec(),
    ]
}

/// Two faults at once: the one that is complete first decides.
fn mixed_faults() -> Vec<Vec<u8>> {
    let bad_list = [(1, 10), (0, 20)];
    let beyond = raw::import(1, &name(), [101; 12], &[(0, 100)]);
    let mut cases = vec![
        raw::import(0, &RawName::of(b"%"), [u32::MAX; 12], &[]),
        raw::import(1, &RawName::of(b"%"), [u32::MAX; 12], &[]),
        raw::import(1, &name(), [u32::MAX; 12], &[]),
        raw::import(1, &name(), [101; 12], &bad_list),
        raw::price(1, [200_001; 12], 0)[..7].to_vec(),
        raw::price(1, [200_001; 12], 0)[..6].to_vec(),
        [&beyond[..], &[0]].concat(),
        [&raw::correct(&beyond)[..], &[0]].concat(),
        beyond[..beyond.len() - 1].to_vec(),
    ];
    cases.extend(cuts(&raw::import(
        1,
        &name(),
        [0; 12],
        &[(1, 10), (0, 5), (0, 0)],
    )));
    cases.push(unit_with(|unit| {
        unit.schedules[0][0] = 101;
        unit.lists[0] = vec![(0, 100)];
        unit.lists[4] = bad_list.to_vec();
    }));
    cases.push(unit_with(|unit| {
        unit.reserves[0].1[0] = 1;
        unit.lists[3] = vec![(200_001, 1)];
    }));
    cases.push(unit_with(|unit| {
        unit.reserves[2].1[11] = 1;
        unit.lists[3] = vec![(200_001, 1)];
    }));
    cases
}
