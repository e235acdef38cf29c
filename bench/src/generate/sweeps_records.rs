//! Systematic calls of the record layer: every mark, every cut, every damaged
//! byte, every spelling of short names, every field at its limits, every room.

use crate::call::{Alone, List, Way};
use crate::generate::forms::MARKS;
use crate::generate::names;
use crate::generate::records::ROOM;
use peer::records::raw::{self, RawName, RawUnit};

const PRICES: [i32; 7] = [-200_000, 200_000, -200_001, 200_001, i32::MIN, i32::MAX, 0];
const QUANTITIES: [u32; 5] = [0, 100_000, 100_001, u32::MAX, 1];
const CENTS: [u32; 5] = [0, 100_000_000, 100_000_001, u32::MAX, 1];
const HOURS: [u8; 5] = [1, 24, 0, 25, 255];
const COUNTS: [usize; 5] = [1, 20, 0, 21, 255];

/// All sweeps in turn.
pub fn all() -> Box<dyn Iterator<Item = List>> {
    let instances = || instances().into_iter();
    Box::new(
        fields()
            .chain(spelled_names())
            .chain(instances().map(|record| cuts(&record)))
            .chain(instances().map(|record| rooms(&record)))
            .chain(instances().flat_map(|record| damages(&record)))
            .chain(orders_of_names())
            .chain((0..=255).map(marks)),
    )
}

fn write(way: Way, record: &[u8]) -> Alone {
    Alone::Write {
        way,
        record: record.to_vec(),
        room: ROOM,
    }
}

/// A change lent to each of the six methods, and as the next one.
fn by_each_method(record: &[u8]) -> impl Iterator<Item = Alone> + '_ {
    let next = Alone::Next {
        bytes: record.to_vec(),
    };
    Way::ALL
        .into_iter()
        .map(|way| write(way, record))
        .chain([next])
}

/// A change lent to its own method, to any, and as the next one.
fn by_its_method(record: &[u8]) -> [Alone; 3] {
    let own = match record.first_chunk() {
        Some(b"CO") => Way::Correct,
        Some(b"WD") => Way::Withdraw,
        Some(b"TB") => Way::TakeBack,
        Some(b"CL") => Way::Close,
        _ => Way::File,
    };
    let next = Alone::Next {
        bytes: record.to_vec(),
    };
    [write(own, record), write(Way::Any, record), next]
}

/// Every two bytes with this first one as a mark, alone and inside `CO` and
/// `WD`.
fn marks(first: u8) -> List {
    List::alone((0..=255).flat_map(move |second| {
        let mark = [first, second];
        [
            write(Way::Any, &mark),
            write(Way::Any, &[&b"CO"[..], &mark].concat()),
            write(Way::Any, &[&b"WD"[..], &mark].concat()),
        ]
    }))
}

/// One small instance of each of the ten marks, and full ones.
fn instances() -> Vec<Vec<u8>> {
    let import = raw::import(
        5,
        &RawName::of(b"A%2FB"),
        [100; 12],
        &[(4000, 50), (4100, 100)],
    );
    let mut unit = RawUnit::idle();
    unit.lists[3] = vec![(1, 2)];
    let small_unit = raw::unit(5, &RawName::of(b"G"), &unit);
    vec![
        raw::price(5, [3000; 12], 3000),
        raw::correct(&import),
        import,
        raw::export(5, &RawName::of(b"D"), [250; 12]),
        raw::failure(
            b"FI",
            5,
            &RawName::of(b"A/B"),
            [1000, 900],
            [10_000, 10_000],
        ),
        raw::failure(
            b"FE",
            5,
            &RawName::of(b"a%2fb"),
            [2000, 1500],
            [90_000, 80_000],
        ),
        raw::withdraw(b"IM", 5, &RawName::of(b"A%2FB")),
        raw::withdraw(b"PR", 5, &RawName::of(b"")),
        b"TB".to_vec(),
        b"CL".to_vec(),
        small_unit,
        raw::correct(&full_unit()),
    ]
}

/// A `GH` with its longest name and twenty pairs in each list.
pub fn full_unit() -> Vec<u8> {
    let pairs = |step: u32| -> Vec<(i32, u32)> {
        (1..=20)
            .map(|place| (place as i32 * 100, place * step))
            .collect()
    };
    let unit = RawUnit {
        start_up: 5_000_000,
        no_load: 37_000,
        schedules: [[900; 12], [880; 12], [700; 12], [901; 12], [1000; 12]],
        reserves: [
            ([600; 12], [55; 12]),
            ([500; 12], [33; 12]),
            ([400; 12], [20; 12]),
        ],
        lists: [pairs(50), pairs(45), pairs(3), pairs(2), pairs(1)],
    };
    raw::unit(24, &RawName::of(&b"%2F".repeat(12)), &unit)
}

fn cuts(record: &[u8]) -> List {
    let lengths = 0..=record.len();
    List::alone(lengths.flat_map(|length| by_each_method(&record[..length])))
}

/// Every room from none to more than enough.
fn rooms(record: &[u8]) -> List {
    let way = by_its_method(record);
    let Alone::Write { way, .. } = way[0] else {
        return List::alone([]);
    };
    List::alone((0..record.len() + 8).map(|room| Alone::Write {
        way,
        record: record.to_vec(),
        room,
    }))
}

/// Each byte in turn altered: every bit, and some whole values.
fn damages(record: &[u8]) -> impl Iterator<Item = List> {
    let record = record.to_vec();
    let pieces = record.len().div_ceil(32);
    (0..pieces).map(move |piece| {
        let places = piece * 32..record.len().min(piece * 32 + 32);
        List::alone(places.flat_map(|place| damaged_at(&record, place)))
    })
}

fn damaged_at(record: &[u8], place: usize) -> Vec<Alone> {
    let byte = record[place];
    let bits = (0..8).map(|bit| byte ^ 1 << bit);
    let whole = [
        0,
        0x7F,
        0x80,
        0xFF,
        byte.wrapping_add(1),
        byte.wrapping_sub(1),
    ];
    bits.chain(whole)
        .flat_map(|other| {
            let mut bytes = record.to_vec();
            bytes[place] = other;
            by_its_method(&bytes)
        })
        .collect()
}

/// Every byte value in every spelling, alone and between letters; every
/// spelling of all names of one to three bytes over a small alphabet.
fn spelled_names() -> impl Iterator<Item = List> {
    let single = (0..=255_u8).flat_map(|byte| {
        let mut ways = names::spellings(byte);
        ways.push(vec![byte]);
        ways.push(format!("%{:X}{:x}", byte >> 4, byte & 15).into_bytes());
        ways.push(format!("%{:x}{:X}", byte >> 4, byte & 15).into_bytes());
        ways
    });
    let single: Vec<Vec<u8>> = single
        .flat_map(|way| [way.clone(), [&b"A"[..], &way, b"B"].concat()])
        .collect();
    let short = short_spelled();
    let lengths: Vec<Vec<u8>> = (0..=40).map(|length| vec![b'A'; length]).collect();
    [single, short, lengths]
        .into_iter()
        .flat_map(|names| {
            let pieces: Vec<Vec<Vec<u8>>> = names.chunks(200).map(<[_]>::to_vec).collect();
            pieces
        })
        .map(|names| List::alone(names.iter().flat_map(|name| named(name))))
}

fn short_spelled() -> Vec<Vec<u8>> {
    let bytes: Vec<Vec<u8>> = b"J/%z~2"
        .iter()
        .flat_map(|&byte| names::spellings(byte))
        .collect();
    let longer = |shorter: &[Vec<u8>]| -> Vec<Vec<u8>> {
        shorter
            .iter()
            .flat_map(|start| bytes.iter().map(move |byte| [&start[..], byte].concat()))
            .collect()
    };
    let two = longer(&bytes);
    let three = longer(&two);
    [bytes.clone(), two, three].concat()
}

/// A spelled name in a record, in a withdrawal and compared.
fn named(name: &[u8]) -> [Alone; 4] {
    let raw_name = RawName::of(name);
    [
        write(
            Way::File,
            &raw::failure(b"FI", 1, &raw_name, [1, 0], [1, 2]),
        ),
        write(Way::Withdraw, &raw::withdraw(b"EX", 1, &raw_name)),
        Alone::Compare {
            first: name.to_vec(),
            second: b"J%2F".to_vec(),
        },
        Alone::Compare {
            first: b"%252F".to_vec(),
            second: name.to_vec(),
        },
    ]
}

/// Every two of the shorter names and of the pool compared.
fn orders_of_names() -> impl Iterator<Item = List> {
    let mut all: Vec<Vec<u8>> = names::POOL
        .iter()
        .map(|name| names::canonical(name))
        .collect();
    all.extend(short_spelled().into_iter().take(120));
    all.extend([b"".to_vec(), b"%".to_vec(), b"A%2".to_vec(), b"A ".to_vec()]);
    let others = all.clone();
    all.into_iter().map(move |first| {
        List::alone(others.iter().map(|second| Alone::Compare {
            first: first.clone(),
            second: second.clone(),
        }))
    })
}

/// Every field of every record at its least and greatest value and outside.
fn fields() -> impl Iterator<Item = List> {
    let records = [
        price_fields(),
        import_fields(),
        export_fields(),
        unit_fields(),
        failure_fields(b"FI"),
        failure_fields(b"FE"),
        withdrawals(),
    ];
    records.into_iter().map(|records| {
        List::alone(records.iter().flat_map(|record| {
            let corrected = by_its_method(&raw::correct(record));
            by_its_method(record).into_iter().chain(corrected)
        }))
    })
}

fn name() -> RawName {
    RawName::of(b"N")
}

fn numbered<T: Copy>(base: T, place: usize, number: T) -> [T; 12] {
    let mut numbers = [base; 12];
    numbers[place] = number;
    numbers
}

fn price_fields() -> Vec<Vec<u8>> {
    let mut cases: Vec<Vec<u8>> = HOURS.map(|hour| raw::price(hour, [0; 12], 0)).to_vec();
    for number in PRICES {
        cases.extend((0..12).map(|place| raw::price(1, numbered(0, place, number), 0)));
        cases.push(raw::price(1, [0; 12], number));
    }
    cases
}

fn import_fields() -> Vec<Vec<u8>> {
    let wide = [(0, 100_000)];
    let mut cases: Vec<Vec<u8>> = HOURS
        .map(|hour| raw::import(hour, &name(), [0; 12], &wide))
        .to_vec();
    for number in QUANTITIES {
        for place in 0..12 {
            let quantities = numbered(0, place, number);
            cases.push(raw::import(1, &name(), quantities, &wide));
            cases.push(raw::import(1, &name(), quantities, &[(0, 99_999)]));
        }
    }
    let listed = lists().into_iter();
    cases.extend(listed.map(|list| raw::import(1, &name(), [0; 12], &list)));
    cases
}

/// Lists at and outside each of their rules.
fn lists() -> Vec<Vec<(i32, u32)>> {
    let rising =
        |count: usize| -> Vec<(i32, u32)> { (1..=count as u32).map(|q| (100, q)).collect() };
    let mut lists: Vec<Vec<(i32, u32)>> = COUNTS.map(rising).to_vec();
    for number in PRICES {
        lists.push(vec![(number, 10)]);
        lists.push(vec![(0, 10), (number, 20)]);
        lists.push(vec![(number, 10), (0, 20)]);
    }
    for number in QUANTITIES {
        lists.push(vec![(0, number)]);
        lists.push(vec![(0, 1), (0, number)]);
        lists.push(vec![(0, number), (0, 100_000)]);
    }
    for place in 1..20 {
        for (price, quantity) in [(99, place + 1), (100, place), (101, place + 1)] {
            let mut list = rising(20);
            list[place as usize] = (price, quantity);
            lists.push(list);
        }
    }
    lists
}

fn export_fields() -> Vec<Vec<u8>> {
    let mut cases: Vec<Vec<u8>> = HOURS
        .map(|hour| raw::export(hour, &name(), [0; 12]))
        .to_vec();
    for number in QUANTITIES {
        cases.extend((0..12).map(|place| raw::export(1, &name(), numbered(0, place, number))));
    }
    cases
}

/// An idle unit with one alteration.
fn unit_with(alter: impl FnOnce(&mut RawUnit)) -> Vec<u8> {
    let mut unit = RawUnit::idle();
    alter(&mut unit);
    raw::unit(1, &name(), &unit)
}

fn unit_fields() -> Vec<Vec<u8>> {
    let mut cases: Vec<Vec<u8>> = HOURS
        .map(|hour| raw::unit(hour, &name(), &RawUnit::idle()))
        .to_vec();
    for number in CENTS {
        cases.push(unit_with(|unit| unit.start_up = number));
        cases.push(unit_with(|unit| unit.no_load = number));
    }
    for place in 0..12 {
        cases.extend(unit_interval_fields(place));
    }
    for which in 0..5 {
        for list in lists() {
            cases.push(unit_with(|unit| unit.lists[which] = list));
        }
    }
    for quantity in [100, 101] {
        for which in 0..5 {
            cases.push(unit_with(|unit| reach_list(unit, which, quantity)));
        }
    }
    cases
}

fn unit_interval_fields(place: usize) -> Vec<Vec<u8>> {
    let mut cases = Vec::new();
    for number in QUANTITIES {
        for which in 0..5 {
            cases.push(unit_with(|unit| unit.schedules[which][place] = number));
        }
        for which in 0..3 {
            cases.push(unit_with(|unit| unit.reserves[which].1[place] = number));
            cases.push(unit_with(|unit| {
                unit.reserves[which].1[place] = number;
                unit.lists[2 + which] = vec![(0, 100_000)];
            }));
        }
    }
    for number in PRICES {
        for which in 0..3 {
            cases.push(unit_with(|unit| unit.reserves[which].0[place] = number));
        }
    }
    cases
}

/// A schedule against a list that ends at 100.
fn reach_list(unit: &mut RawUnit, which: usize, quantity: u32) {
    unit.lists[which] = vec![(0, 100)];
    match which {
        0 | 1 => unit.schedules[0][11] = quantity,
        _ => unit.reserves[which - 2].1[11] = quantity,
    }
}

fn failure_fields(mark: &[u8; 2]) -> Vec<Vec<u8>> {
    let mut cases: Vec<Vec<u8>> = HOURS
        .map(|hour| raw::failure(mark, hour, &name(), [0; 2], [0; 2]))
        .to_vec();
    for number in QUANTITIES {
        cases.push(raw::failure(mark, 1, &name(), [number, 0], [0; 2]));
        cases.push(raw::failure(mark, 1, &name(), [0, number], [0; 2]));
    }
    for number in PRICES {
        cases.push(raw::failure(mark, 1, &name(), [0; 2], [number, 0]));
        cases.push(raw::failure(mark, 1, &name(), [0; 2], [0, number]));
    }
    cases
}

fn withdrawals() -> Vec<Vec<u8>> {
    let mut cases = Vec::new();
    for mark in MARKS {
        for hour in HOURS {
            cases.push(raw::withdraw(&mark, hour, &RawName::of(b"")));
            cases.push(raw::withdraw(&mark, hour, &name()));
        }
    }
    cases
}

#[cfg(test)]
mod tests {
    use super::*;
    use peer::records::parse_change;

    #[test]
    fn instances_are_valid_and_fit_the_room() {
        for record in instances() {
            let change = parse_change(&record).expect("a valid change");
            assert!(change.written_len() <= ROOM);
        }
        assert!(raw::correct(&full_unit()).len() > 1300);
    }

    #[test]
    fn every_byte_of_every_instance_is_damaged() {
        for record in instances() {
            let lists: Vec<List> = damages(&record).collect();
            let calls: usize = lists.iter().map(|list| list.calls.len()).sum();
            assert_eq!(calls, record.len() * 14 * 3);
        }
    }
}
