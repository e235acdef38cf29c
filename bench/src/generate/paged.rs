//! Days whose lines end with a page or next to its end: lines of every kind, the
//! shortest and the longest names, prices that lack, and the largest amounts. And
//! a day of eleven pages.

use crate::call::List;
use crate::draw::Draw;
use crate::generate::numbers::{self, CENTS_MOST, PRICE_MOST, QUANTITY_MOST};
use crate::generate::{names, texts};
use crate::text::Text;
use peer::records::raw::{self, RawName, RawPairs, RawUnit};

/// Lines before the total, which is one entry more: none, and around the 57
/// entries of a page and those of two.
const LINES: [usize; 8] = [0, 55, 56, 57, 58, 113, 114, 115];
/// How many days of each are swept.
const DAYS: u64 = 4;
/// The hours that have lines.
const HOURS: u8 = 22;
/// The hour in which units have their prices, and the one in which these lack.
const UNIT_HOURS: [u8; 2] = [HOURS + 1, HOURS + 2];
/// The most lines of an hour; and the most that the hours behind it may be left
/// with, on average, by one that has a single line.
const HOUR_LINES: usize = 15;
const LEFT_LINES: usize = 7;
/// Bytes that are each spelled with three.
const WIDE: &[u8; 16] = b"!\"#$%&'()*+,/:;<";

/// Some days, with their pages into each room around the end of one.
pub fn ends() -> impl Iterator<Item = List> {
    let days = (0..DAYS)
        .flat_map(|seed| LINES.map(|lines| day(&mut Draw::for_list(seed, 0, lines as u64), lines)));
    days.chain([longest_day()]).map(|records| {
        texts::list(&texts::filed(&records), |text, written| match text {
            Text::Statement => vec![written.len()],
            Text::Pages => texts::rooms(text, written.len()).collect(),
        })
    })
}

/// Failures and units, more than a book takes: page numbers have two digits.
fn longest_day() -> Vec<Vec<u8>> {
    let mut draw = Draw::new(0);
    let mut records = Vec::new();
    for hour in 1..=24 {
        records.push(prices(&mut draw, hour));
        for place in 0..8 {
            let name = RawName::of(&[b'A' + place, b'A' + hour]);
            records.push(raw::unit(hour, &name, &unit(&mut draw)));
        }
        for place in 0..16 {
            let name = RawName::of(&[b'A' + place]);
            records.push(failure(&mut draw, b"FI", hour, &name));
            records.push(failure(&mut draw, b"FE", hour, &name));
        }
    }
    records
}

/// A day, open or closed: its texts, and once more into another room.
pub fn list(draw: &mut Draw) -> List {
    let lines = draw.pick(&LINES);
    let records = day(draw, lines);
    texts::twice(draw, records)
}

/// A day with so many lines before its total.
fn day(draw: &mut Draw, lines: usize) -> Vec<Vec<u8>> {
    let mut records = Vec::new();
    let mut left = lines - units(draw, lines, &mut records);
    for hour in 1..=HOURS {
        let behind = usize::from(HOURS - hour);
        if left == 0 {
            break;
        }
        if behind > 0 && (left - 1).div_ceil(behind) <= LEFT_LINES && draw.once_in(4) {
            records.push(unpriced(draw, hour));
            left -= 1;
            continue;
        }
        let least = left.div_ceil(behind + 1);
        let count = left.min(least + draw.below(HOUR_LINES - LEFT_LINES));
        priced(draw, hour, count, &mut records);
        left -= count;
    }
    draw.shuffle(&mut records);
    records
}

/// An hour with prices and so many lines.
fn priced(draw: &mut Draw, hour: u8, lines: usize, records: &mut Vec<Vec<u8>>) {
    records.push(prices(draw, hour));
    let imports = draw.below(lines);
    let failures = match imports {
        0 => lines,
        // An offset stands behind them.
        _ => lines - imports - 1,
    };
    for place in 0..imports {
        let name = name(draw, place);
        records.push(import(draw, hour, &name));
    }
    for place in 0..failures {
        let name = name(draw, place);
        records.push(any_failure(draw, hour, &name));
    }
    if draw.once_in(2) {
        let quantities = numbers::twelve(draw, quantity);
        records.push(raw::export(hour, &name(draw, 0), quantities));
    }
}

/// An hour's record that lacks its prices: one line, of an `ERR`.
fn unpriced(draw: &mut Draw, hour: u8) -> Vec<u8> {
    let name = name(draw, 0);
    match draw.once_in(2) {
        true => import(draw, hour, &name),
        false => any_failure(draw, hour, &name),
    }
}

/// Up to two units with two lines and two with one, of an `ERR`: how many lines
/// that makes.
fn units(draw: &mut Draw, lines: usize, records: &mut Vec<Vec<u8>>) -> usize {
    let priced = draw.below(3).min(lines / 2);
    let unpriced = draw.below(3).min(lines - 2 * priced);
    records.push(prices(draw, UNIT_HOURS[0]));
    for place in 0..priced + unpriced {
        let hour = UNIT_HOURS[usize::from(place >= priced)];
        records.push(raw::unit(hour, &name(draw, place), &unit(draw)));
    }
    2 * priced + unpriced
}

/// The name of an hour's record: one byte, or twelve that are spelled with 36.
fn name(draw: &mut Draw, place: usize) -> RawName {
    let decoded = match draw.once_in(2) {
        true => vec![b'A' + place as u8],
        false => vec![WIDE[place]; 12],
    };
    RawName::of(&names::canonical(&decoded))
}

fn prices(draw: &mut Draw, hour: u8) -> Vec<u8> {
    raw::price(hour, numbers::twelve(draw, price), price(draw))
}

fn import(draw: &mut Draw, hour: u8, name: &RawName) -> Vec<u8> {
    let quantities = numbers::twelve(draw, quantity);
    raw::import(hour, name, quantities, &offer(draw))
}

fn any_failure(draw: &mut Draw, hour: u8, name: &RawName) -> Vec<u8> {
    let mark = draw.pick(&[b"FI", b"FE"]);
    failure(draw, mark, hour, name)
}

fn failure(draw: &mut Draw, mark: &[u8; 2], hour: u8, name: &RawName) -> Vec<u8> {
    let quantities = [quantity(draw), quantity(draw)];
    let prices = [price(draw), price(draw)];
    raw::failure(mark, hour, name, quantities, prices)
}

fn unit(draw: &mut Draw) -> RawUnit {
    let mut unit = RawUnit::idle();
    unit.start_up = draw.pick(&[0, 1, CENTS_MOST]);
    unit.no_load = draw.pick(&[0, 1, CENTS_MOST]);
    unit.schedules = [(); 5].map(|()| numbers::twelve(draw, quantity));
    unit.lists[0] = offer(draw);
    unit.lists[1] = offer(draw);
    unit
}

fn offer(draw: &mut Draw) -> RawPairs {
    vec![(price(draw), QUANTITY_MOST)]
}

fn price(draw: &mut Draw) -> i32 {
    draw.pick(&[-PRICE_MOST, 0, 2999, 3000, PRICE_MOST])
}

fn quantity(draw: &mut Draw) -> u32 {
    draw.pick(&[0, 5, 205, QUANTITY_MOST])
}

#[cfg(test)]
mod tests {
    use super::*;
    use crate::text::PAGE;
    use peer::register::{Register, LISTED_MOST};

    /// The days of some seeds, with how many lines they must have.
    fn days() -> impl Iterator<Item = (usize, Register)> {
        (0..40).flat_map(|seed| {
            LINES.map(|lines| (lines, texts::filed(&day(&mut Draw::new(seed), lines))))
        })
    }

    #[test]
    fn a_day_has_its_lines() {
        for (lines, register) in days() {
            let text = Text::Statement.of(&register);
            assert_eq!(text.lines().count(), lines + 1, "{text}");
            let pages = match lines {
                0..=56 => 1,
                57..=113 => 2,
                _ => 3,
            };
            assert_eq!(Text::Pages.of(&register).len(), pages * PAGE);
        }
    }

    #[test]
    fn the_longest_day_has_eleven_pages() {
        let register = texts::filed(&longest_day());
        assert_eq!(register.list().len(), LISTED_MOST);
        assert_eq!(Text::Pages.of(&register).len(), 11 * PAGE);
    }

    #[test]
    fn lines_of_every_kind_stand_on_every_page() {
        let kinds = ["IOG", "OFF", "IFC", "EFC", "PCG", "REV", "ERR", "TOT"];
        let mut seen = [[0; 8]; 3];
        let (mut longest, mut large) = (0, 0);
        for (_, register) in days() {
            let text = Text::Statement.of(&register);
            for (at, line) in text.lines().enumerate() {
                let kind = kinds.iter().position(|kind| *kind == &line[3..6]);
                seen[at / 57][kind.expect("a kind")] += 1;
                let fields: Vec<&str> = line.split(' ').collect();
                longest += usize::from(fields[2].len() == 36);
                large += usize::from(fields[3].len() >= 11);
            }
        }
        assert!(
            seen[..2].iter().flatten().all(|&count| count > 9),
            "{seen:?}"
        );
        assert!(seen[2][7] > 0, "{seen:?}");
        assert!(longest > 100 && large > 100, "{longest} {large}");
    }
}
