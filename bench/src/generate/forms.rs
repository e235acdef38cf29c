//! Records as fields: valid ones, and ones with a chosen fault.

use crate::draw::Draw;
use crate::generate::{names, numbers};
use peer::records::raw::{self, RawName, RawPairs, RawUnit};

/// Two marking bytes.
pub type MarkBytes = [u8; 2];

/// The six marks of records, in the order of the listing.
pub const MARKS: [MarkBytes; 6] = [*b"PR", *b"IM", *b"EX", *b"GH", *b"FI", *b"FE"];
/// Those with lists.
const LISTED: [MarkBytes; 2] = [*b"IM", *b"GH"];

/// The fields behind hour and name.
#[derive(Clone, Debug)]
pub enum Body {
    /// `PR`.
    Price([i32; 12], i32),
    /// `IM`.
    Import([u32; 12], RawPairs),
    /// `EX`.
    Export([u32; 12]),
    /// `GH`.
    Unit(Box<RawUnit>),
    /// `FI` or `FE`.
    Failure([u32; 2], [i32; 2]),
}

/// A record that need not be valid.
#[derive(Clone, Debug)]
pub struct Form {
    /// The mark.
    pub mark: MarkBytes,
    /// The hour byte.
    pub hour: u8,
    /// The name; unused for `PR`.
    pub name: RawName,
    /// The rest.
    pub body: Body,
}

impl Form {
    /// A valid record of a mark, an hour and a spelled name.
    pub fn valid(draw: &mut Draw, mark: MarkBytes, hour: u8, spelled: &[u8]) -> Form {
        let body = match &mark {
            b"PR" => Body::Price(numbers::twelve(draw, numbers::price), numbers::price(draw)),
            b"IM" => import(draw),
            b"EX" => Body::Export(numbers::twelve(draw, numbers::quantity)),
            b"GH" => Body::Unit(Box::new(unit(draw))),
            _ => failure(draw),
        };
        Form {
            mark,
            hour,
            name: RawName::of(spelled),
            body,
        }
    }

    /// The record's bytes.
    pub fn bytes(&self) -> Vec<u8> {
        let (hour, name) = (self.hour, &self.name);
        match &self.body {
            Body::Price(energy, pre_dispatch) => raw::price(hour, *energy, *pre_dispatch),
            Body::Import(quantities, list) => raw::import(hour, name, *quantities, list),
            Body::Export(quantities) => raw::export(hour, name, *quantities),
            Body::Unit(unit) => raw::unit(hour, name, unit),
            Body::Failure(quantities, prices) => {
                raw::failure(&self.mark, hour, name, *quantities, *prices)
            }
        }
    }

    /// Puts a fault into the fields that is refused with a number 3 to 7; the
    /// mark must be one of [`marks_with`].
    pub fn spoil(&mut self, draw: &mut Draw, number: u32) {
        match number {
            3 => self.hour = bad_hour(draw),
            4 => self.name = names::bad_raw(draw),
            5 => self.put_number_outside(draw),
            6 => self.break_list(draw),
            7 => self.go_beyond_list(draw),
            _ => {}
        }
    }

    fn put_number_outside(&mut self, draw: &mut Draw) {
        match &mut self.body {
            Body::Price(energy, pre_dispatch) => match draw.below(13) {
                12 => *pre_dispatch = numbers::outside_price(draw),
                place => energy[place] = numbers::outside_price(draw),
            },
            Body::Import(quantities, list) => match draw.below(2) {
                0 => quantities[draw.below(12)] = numbers::outside_quantity(draw),
                _ => put_pair_outside(draw, list),
            },
            Body::Export(quantities) => {
                quantities[draw.below(12)] = numbers::outside_quantity(draw)
            }
            Body::Unit(unit) => put_unit_outside(draw, unit),
            Body::Failure(quantities, prices) => match draw.below(4) {
                place @ 0..=1 => quantities[place] = numbers::outside_quantity(draw),
                place => prices[place - 2] = numbers::outside_price(draw),
            },
        }
    }

    fn break_list(&mut self, draw: &mut Draw) {
        match &mut self.body {
            Body::Import(_, list) => break_list(draw, list),
            Body::Unit(unit) => {
                let which = draw.below(5);
                if !unit.lists[which].is_empty() {
                    break_list(draw, &mut unit.lists[which]);
                }
                if which >= 2 && unit.lists[which].is_empty() {
                    // An empty list is allowed where its schedules are all 0.
                    unit.reserves[which - 2].1[draw.below(12)] = 1;
                }
            }
            _ => {}
        }
    }

    fn go_beyond_list(&mut self, draw: &mut Draw) {
        match &mut self.body {
            Body::Import(quantities, list) => {
                quantities[draw.below(12)] = beyond(draw, list);
            }
            Body::Unit(unit) => {
                let which = draw.below(5);
                let place = draw.below(12);
                if unit.lists[which].is_empty() {
                    unit.lists[which] = numbers::list(draw);
                }
                let quantity = beyond(draw, &mut unit.lists[which]);
                match which {
                    0 | 1 => unit.schedules[0][place] = quantity,
                    _ => unit.reserves[which - 2].1[place] = quantity,
                }
            }
            _ => {}
        }
    }
}

/// The marks of records that can be refused with a number.
pub fn marks_with(number: u32) -> &'static [MarkBytes] {
    match number {
        4 => &MARKS[1..],
        6 | 7 => &LISTED,
        _ => &MARKS,
    }
}

/// An hour byte outside 1 to 24.
pub fn bad_hour(draw: &mut Draw) -> u8 {
    match draw.below(3) {
        0 => 0,
        1 => 25,
        _ => draw.between(26, 255) as u8,
    }
}

/// An import with quantities within its list.
pub fn import(draw: &mut Draw) -> Body {
    let list = numbers::list(draw);
    let quantities = numbers::twelve(draw, |draw| numbers::scheduled(draw, &list));
    Body::Import(quantities, list)
}

fn failure(draw: &mut Draw) -> Body {
    let quantity = numbers::quantity(draw);
    let other = match draw.below(3) {
        0 => quantity,
        _ => numbers::quantity(draw),
    };
    let price = numbers::price(draw);
    let near =
        (price + draw.between(-2000, 2000) as i32).clamp(-numbers::PRICE_MOST, numbers::PRICE_MOST);
    let far = numbers::price(draw);
    Body::Failure([quantity, other], [price, draw.pick(&[price, near, far])])
}

/// A unit's hour with D within both lists and each reserve within its own.
pub fn unit(draw: &mut Draw) -> RawUnit {
    let mut unit = RawUnit::idle();
    unit.start_up = numbers::cents(draw);
    unit.no_load = numbers::cents(draw);
    unit.lists[0] = numbers::list(draw);
    unit.lists[1] = numbers::list(draw);
    let most = numbers::reach(&unit.lists[0]).min(numbers::reach(&unit.lists[1]));
    let offered = unit.lists[0].clone();
    let day_ahead = numbers::twelve(draw, |draw| numbers::within(draw, &offered, most));
    unit.schedules = [day_ahead; 5];
    for schedule in &mut unit.schedules[1..] {
        for (quantity, day_ahead) in schedule.iter_mut().zip(day_ahead) {
            *quantity = beside(draw, day_ahead);
        }
    }
    for which in 0..3 {
        unit_reserve(draw, &mut unit, which);
    }
    unit
}

/// A quantity that often equals another or lies next to it.
fn beside(draw: &mut Draw, other: u32) -> u32 {
    match draw.below(6) {
        0 | 1 => other,
        2 => other.saturating_sub(1),
        3 => (other + 1).min(numbers::QUANTITY_MOST),
        4 => draw.below(other as usize + 1) as u32,
        _ => numbers::quantity(draw),
    }
}

fn unit_reserve(draw: &mut Draw, unit: &mut RawUnit, which: usize) {
    let prices = numbers::twelve(draw, numbers::price);
    let (schedules, list) = match draw.below(5) {
        0 | 1 => ([0; 12], vec![]),
        2 => ([0; 12], numbers::list(draw)),
        _ => {
            let list = numbers::list(draw);
            let schedules = numbers::twelve(draw, |draw| numbers::scheduled(draw, &list));
            (schedules, list)
        }
    };
    unit.reserves[which] = (prices, schedules);
    unit.lists[2 + which] = list;
}

fn put_pair_outside(draw: &mut Draw, list: &mut RawPairs) {
    let place = draw.below(list.len());
    match draw.below(2) {
        0 => list[place].0 = numbers::outside_price(draw),
        _ => list[place].1 = numbers::outside_quantity(draw),
    }
}

fn put_unit_outside(draw: &mut Draw, unit: &mut RawUnit) {
    let place = draw.below(12);
    match draw.below(13) {
        0 => unit.start_up = numbers::outside_cents(draw),
        1 => unit.no_load = numbers::outside_cents(draw),
        which @ 2..=6 => unit.schedules[which - 2][place] = numbers::outside_quantity(draw),
        which @ 7..=9 => unit.reserves[which - 7].0[place] = numbers::outside_price(draw),
        10 => unit.reserves[draw.below(3)].1[place] = numbers::outside_quantity(draw),
        _ => {
            let offered: Vec<usize> = (0..5).filter(|&at| !unit.lists[at].is_empty()).collect();
            let which = draw.pick(&offered);
            put_pair_outside(draw, &mut unit.lists[which]);
        }
    }
}

/// Breaks a list's rule: its count, a price that falls, or a quantity that
/// doesn't rise.
fn break_list(draw: &mut Draw, list: &mut RawPairs) {
    let place = 1 + draw.below(list.len().max(2) - 1);
    match draw.below(6) {
        0 => list.clear(),
        1 => {
            *list = (1..=draw.pick(&[21, 22, 255]))
                .map(|at| (at, at as u32))
                .collect()
        }
        2 => list[0].1 = 0,
        3 if place < list.len() => make_price_fall(list, place),
        4 if place < list.len() => list[place].1 = list[place - 1].1,
        5 if place < list.len() => list.swap(place - 1, place),
        _ => list[0].1 = 0,
    }
}

fn make_price_fall(list: &mut RawPairs, place: usize) {
    if list[place - 1].0 > -numbers::PRICE_MOST {
        list[place].0 = list[place - 1].0 - 1;
    } else {
        list[place - 1].0 = 1 - numbers::PRICE_MOST;
        list[place].0 = -numbers::PRICE_MOST;
    }
}

/// A quantity beyond a list, which is lowered where it reaches the limit.
fn beyond(draw: &mut Draw, list: &mut RawPairs) -> u32 {
    if numbers::reach(list) == numbers::QUANTITY_MOST {
        list.truncate(1);
        list[0].1 = list[0].1.min(numbers::QUANTITY_MOST - 1);
    }
    let reach = numbers::reach(list);
    match draw.below(3) {
        0 => draw.between(i64::from(reach) + 1, i64::from(numbers::QUANTITY_MOST)) as u32,
        1 => numbers::QUANTITY_MOST,
        _ => reach + 1,
    }
}

#[cfg(test)]
mod tests {
    use super::*;
    use peer::records::{parse_for, Method};

    fn number(form: &Form) -> u32 {
        parse_for(Method::File, &form.bytes()).map_or_else(|refusal| refusal.number(), |_| 0)
    }

    #[test]
    fn valid_records_are_read() {
        let mut draw = Draw::new(3);
        for round in 0..3000 {
            let mark = MARKS[round % 6];
            let name = names::any(&mut draw);
            let form = Form::valid(&mut draw, mark, 1 + (round % 24) as u8, &name);
            assert_eq!(number(&form), 0, "{form:?}");
        }
    }

    #[test]
    fn a_fault_gives_its_number() {
        let mut draw = Draw::new(4);
        for number_wanted in 3..=7 {
            for &mark in marks_with(number_wanted) {
                for _ in 0..500 {
                    let mut form = Form::valid(&mut draw, mark, 5, b"N");
                    form.spoil(&mut draw, number_wanted);
                    assert_eq!(number(&form), number_wanted, "{form:?}");
                }
            }
        }
    }
}
