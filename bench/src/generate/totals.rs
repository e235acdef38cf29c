//! Days on which a total that is worked wrongly shows: half cents, offsets below
//! zero, charges, reversals, hours without prices, and the largest amounts.

use crate::call::List;
use crate::draw::Draw;
use crate::generate::numbers::{self, CENTS_MOST, PRICE_MOST, QUANTITY_MOST};
use crate::generate::{names, texts};
use peer::records::raw::{self, RawName, RawPairs, RawUnit};
use peer::register::Register;

/// What small amounts' prices are near.
const NEAR: i32 = 3000;
/// The quantity that they are offered up to.
const OFFERED: u32 = 8;
/// How many imports, exports, failures and units their hours have.
const HOURS: [[usize; 4]; 6] = [
    [2, 1, 1, 1],
    [3, 2, 0, 0],
    [1, 1, 0, 2],
    [0, 0, 3, 0],
    [0, 0, 4, 0],
    [0, 1, 0, 0],
];

/// A day of small amounts, open or closed: its texts, and once more into
/// another room.
pub fn list(draw: &mut Draw) -> List {
    let records = small_day(draw);
    texts::twice(draw, records)
}

/// One to five hours with small amounts of each kind.
fn small_day(draw: &mut Draw) -> Vec<Vec<u8>> {
    let hours = 1 + draw.below(5) as u8;
    (1..=hours)
        .flat_map(|hour| small_hour(draw, hour))
        .collect()
}

/// Some records of an hour, mostly with its prices.
fn small_hour(draw: &mut Draw, hour: u8) -> Vec<Vec<u8>> {
    let mut names = names::POOL.map(|name| RawName::of(&names::canonical(name)));
    draw.shuffle(&mut names);
    let energy = numbers::twelve(draw, |draw| near(draw, 60));
    let mut records = Vec::new();
    if !draw.once_in(6) {
        records.push(raw::price(hour, energy, near(draw, 9)));
    }
    let [imports, exports, failures, units] = draw.pick(&HOURS);
    for name in &names[..imports] {
        let quantities = numbers::twelve(draw, small_quantity);
        records.push(raw::import(hour, name, quantities, &small_offer(draw)));
    }
    for name in &names[..exports] {
        let quantities = small_export(draw, &energy);
        records.push(raw::export(hour, name, quantities));
    }
    for name in &names[..failures] {
        let mark = draw.pick(&[b"FI", b"FE"]);
        let quantities = [draw.pick(&[0, 1, 5, 25, 205]), draw.pick(&[0, 0, 1])];
        let prices = [near(draw, 9), near(draw, 9)];
        records.push(raw::failure(mark, hour, name, quantities, prices));
    }
    for name in &names[..units] {
        records.push(raw::unit(hour, name, &small_unit(draw)));
    }
    records
}

/// A price at most so many cents away.
fn near(draw: &mut Draw, cents: i64) -> i32 {
    NEAR + draw.between(-cents, cents) as i32
}

/// Mostly 5 tenths, which at an odd price in all intervals give half a cent.
fn small_quantity(draw: &mut Draw) -> u32 {
    draw.pick(&[0, 1, 3, 5, 5, 5, OFFERED])
}

/// Any quantities, or only where energy is dear: there it cancels the gains.
fn small_export(draw: &mut Draw, energy: &[i32; 12]) -> [u32; 12] {
    match draw.once_in(3) {
        true => numbers::twelve(draw, |draw| draw.below(12) as u32),
        false => energy.map(|price| if price > NEAR { 3 * OFFERED } else { 0 }),
    }
}

fn small_offer(draw: &mut Draw) -> RawPairs {
    vec![(near(draw, 9), OFFERED)]
}

fn small_unit(draw: &mut Draw) -> RawUnit {
    let mut unit = RawUnit::idle();
    unit.start_up = draw.below(3) as u32;
    unit.schedules = [(); 5].map(|()| numbers::twelve(draw, small_quantity));
    unit.lists[0] = small_offer(draw);
    unit.lists[1] = small_offer(draw);
    unit
}

/// A day with lines of every kind: two half cents, an offset below zero, charges,
/// a reversal, and a price that lacks for an hour and a unit.
pub fn every_kind() -> Vec<Vec<u8>> {
    let name = RawName::of;
    let mut energy = [4000; 12];
    (energy[0], energy[1]) = (4600, 3400);
    let mut first = [0; 12];
    first[0] = 100;
    let mut unit = RawUnit::idle();
    unit.schedules = [[300; 12]; 5];
    unit.lists[0] = vec![(2800, 600)];
    unit.lists[1] = vec![(2800, 600)];
    vec![
        raw::price(1, [3000; 12], 3000),
        raw::import(1, &name(b"A"), [5; 12], &[(3001, 5)]),
        raw::import(1, &name(b"B"), [5; 12], &[(3001, 5)]),
        raw::price(2, energy, 4000),
        raw::import(2, &name(b"N"), [100; 12], &[(4000, 100)]),
        raw::export(2, &name(b"X"), first),
        raw::price(3, [3000; 12], 9000),
        raw::failure(b"FI", 3, &name(b"F"), [1000, 900], [8500, 8800]),
        raw::failure(b"FE", 3, &name(b"E"), [1000, 900], [9400, 8900]),
        raw::unit(3, &name(b"G"), &unit),
        raw::import(4, &name(b"A"), [100; 12], &[(4000, 100)]),
        raw::unit(4, &name(b"H"), &unit),
    ]
}

/// The texts of the largest days, and once more with a byte too few.
pub fn largest() -> impl Iterator<Item = List> {
    largest_days().into_iter().map(|register| {
        texts::list(&register, |_, written| {
            vec![written.len() - 1, written.len()]
        })
    })
}

/// As many of the largest amounts of a kind as a book takes.
fn largest_days() -> [Register; 4] {
    [
        day_of(units),
        day_of(imports),
        day_of(offsets),
        day_of(charges),
    ]
}

/// The day with these records in each hour.
fn day_of(hour: impl Fn(u8) -> Vec<Vec<u8>>) -> Register {
    let records: Vec<Vec<u8>> = (1..=24).flat_map(hour).collect();
    texts::filed(&records)
}

/// The names of an hour's records.
fn places() -> impl Iterator<Item = RawName> {
    (b'A'..=b'P').map(|letter| RawName::of(&[letter]))
}

/// Units that cost most and earn least, in energy and in reserve.
fn units(hour: u8) -> Vec<Vec<u8>> {
    let all = [QUANTITY_MOST; 12];
    let unit = RawUnit {
        start_up: CENTS_MOST,
        no_load: CENTS_MOST,
        schedules: [all, all, [0; 12], all, all],
        reserves: [
            ([-PRICE_MOST; 12], all),
            ([0; 12], [0; 12]),
            ([0; 12], [0; 12]),
        ],
        lists: [
            vec![(PRICE_MOST, QUANTITY_MOST)],
            vec![(-PRICE_MOST, QUANTITY_MOST)],
            vec![(PRICE_MOST, QUANTITY_MOST)],
            vec![],
            vec![],
        ],
    };
    let prices = raw::price(hour, [-PRICE_MOST; 12], 0);
    let units = places().take(8).map(|name| raw::unit(hour, &name, &unit));
    [prices].into_iter().chain(units).collect()
}

/// Imports that cost most and earn least.
fn imports(hour: u8) -> Vec<Vec<u8>> {
    let prices = raw::price(hour, [-PRICE_MOST; 12], 0);
    let list = [(PRICE_MOST, QUANTITY_MOST)];
    let imports = places().map(|name| raw::import(hour, &name, [QUANTITY_MOST; 12], &list));
    [prices].into_iter().chain(imports).collect()
}

/// Imports that gain in six intervals what they lose in six, and exports that
/// cancel the gain.
fn offsets(hour: u8) -> Vec<Vec<u8>> {
    let prices = raw::price(hour, halves(PRICE_MOST, -PRICE_MOST), 0);
    let exported = halves(QUANTITY_MOST, 0);
    let traded = places().flat_map(|name| {
        [
            raw::import(hour, &name, [QUANTITY_MOST; 12], &[(0, QUANTITY_MOST)]),
            raw::export(hour, &name, exported),
        ]
    });
    [prices].into_iter().chain(traded).collect()
}

fn halves<T: Copy>(first: T, second: T) -> [T; 12] {
    std::array::from_fn(|at| if at < 6 { first } else { second })
}

/// Failed imports in odd hours, failed exports in even ones.
fn charges(hour: u8) -> Vec<Vec<u8>> {
    let (mark, market) = match hour % 2 {
        1 => (b"FI", PRICE_MOST),
        _ => (b"FE", -PRICE_MOST),
    };
    let prices = raw::price(hour, [0; 12], market);
    let failures =
        places().map(|name| raw::failure(mark, hour, &name, [QUANTITY_MOST, 0], [-market, market]));
    [prices].into_iter().chain(failures).collect()
}

#[cfg(test)]
mod tests {
    use super::*;
    use peer::statement::{settle, statement};

    #[test]
    fn every_kind_of_line_stands_there() {
        // 0.02 + 5.00 - 30.00 - 40.00 - 60.00 + 60.00.
        let expected = "01 IOG A 0.01\n01 IOG B 0.01\n01 OFF - 0.00\n\
                        02 IOG N 0.00\n02 OFF - -5.00\n\
                        03 IFC F 30.00\n03 EFC E 40.00\n04 ERR - 15\n\
                        DD PCG G -60.00\nDD REV G 60.00\nDD ERR H 15\n\
                        DD TOT - -64.98\n";
        let said = settle(&every_kind().concat());
        assert_eq!(String::from_utf8_lossy(&said), expected);
    }

    /// 113 unit hours of $82,000,000, 384 imports of $40,000,000, 15 hours and a
    /// half with offsets of $160,000,000, 384 charges of $40,000,000.
    #[test]
    fn the_largest_totals() {
        let totals = largest_days().map(|register| {
            let text = statement(&register);
            text.lines().last().map(str::to_string)
        });
        let expected = [
            "DD TOT - 9266000000.00",
            "DD TOT - 15360000000.00",
            "DD TOT - 2480000000.00",
            "DD TOT - -15360000000.00",
        ];
        assert_eq!(totals, expected.map(|line| Some(line.to_string())));
    }
}
