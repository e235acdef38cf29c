//! Random amounts and offsets.

use crate::call::{Alone, List, Way};
use crate::draw::Draw;
use crate::generate::changes::{self, KeyBytes};
use crate::generate::forms::{self, Body, Form, MarkBytes};
use crate::generate::{names, numbers};
use peer::records::raw;

/// Calls of one list.
const CALLS: usize = 64;
/// The records whose amount is asked.
const AMOUNTED: [MarkBytes; 4] = [*b"IM", *b"GH", *b"FI", *b"FE"];

/// A random list.
pub fn list(draw: &mut Draw) -> List {
    List::alone((0..CALLS).map(|_| match draw.below(3) {
        0 => hour_offset(draw),
        _ => amount(draw),
    }))
}

/// The amount of a record, at times with a fault in one of the two.
fn amount(draw: &mut Draw) -> Alone {
    let mark = draw.pick(&AMOUNTED);
    let form = Form::valid(draw, mark, draw.clone().between(1, 24) as u8, b"N");
    let prices = prices_for(draw, &form);
    let record = form.bytes();
    match draw.below(20) {
        0 => Alone::Amount {
            prices: misread(draw, *b"PR"),
            record,
        },
        1 => Alone::Amount {
            prices: misread(draw, *b"PR"),
            record: misread(draw, mark),
        },
        2..=7 => Alone::Amount {
            prices,
            record: misread(draw, mark),
        },
        8 => Alone::Amount {
            prices,
            record: other_mark(draw),
        },
        _ => Alone::Amount { prices, record },
    }
}

/// Prices of any hour, near those that a record offers.
fn prices_for(draw: &mut Draw, form: &Form) -> Vec<u8> {
    let (energy, pre_dispatch) = near(draw, form);
    raw::price(draw.between(1, 24) as u8, energy, pre_dispatch)
}

/// Prices of an hour, near those that a record offers.
pub fn prices_at(draw: &mut Draw, hour: u8, form: &Form) -> Vec<u8> {
    let (energy, pre_dispatch) = near(draw, form);
    raw::price(hour, energy, pre_dispatch)
}

fn near(draw: &mut Draw, form: &Form) -> ([i32; 12], i32) {
    match &form.body {
        Body::Import(_, list) => (numbers::energy(draw, list), numbers::price(draw)),
        Body::Unit(unit) => {
            let which = draw.below(2);
            (
                numbers::energy(draw, &unit.lists[which]),
                numbers::price(draw),
            )
        }
        Body::Failure(_, prices) => {
            let near = draw.pick(prices) + draw.between(-1500, 1500) as i32;
            let near = near.clamp(-numbers::PRICE_MOST, numbers::PRICE_MOST);
            let far = numbers::price(draw);
            let same = draw.pick(prices);
            ([0; 12], draw.pick(&[near, far, same]))
        }
        _ => ([0; 12], 0),
    }
}

/// A record of a mark that filing refuses with one of 1 to 8.
fn misread(draw: &mut Draw, mark: MarkBytes) -> Vec<u8> {
    let numbers: Vec<u32> = (3..=7)
        .filter(|&number| forms::marks_with(number).contains(&mark))
        .collect();
    let mut form = Form::valid(draw, mark, draw.clone().between(1, 24) as u8, b"A%2FB");
    match draw.below(8) {
        0 => {
            let mut bytes = form.bytes();
            bytes.truncate(draw.below(bytes.len()));
            bytes
        }
        1 => [form.bytes(), vec![0]].concat(),
        _ => {
            let number = draw.pick(&numbers);
            form.spoil(draw, number);
            form.bytes()
        }
    }
}

/// A change that has no amount of its own.
fn other_mark(draw: &mut Draw) -> Vec<u8> {
    match draw.below(3) {
        0 => changes::misread(draw, Way::File, Way::File, 2),
        _ => {
            let key = KeyBytes {
                mark: draw.pick(&[*b"PR", *b"EX"]),
                hour: 1,
                name: b"N".to_vec(),
            };
            changes::record(draw, &key)
        }
    }
}

/// The records of one hour.
struct Hour {
    hour: u8,
    prices: Option<Vec<u8>>,
    imports: Vec<Form>,
    exports: Vec<Form>,
}

/// The C call, at times with a fault.
fn hour_offset(draw: &mut Draw) -> Alone {
    let mut hour = drawn_hour(draw);
    let fault = match draw.below(20) {
        fault @ 1..=7 => fault,
        8 | 9 => 10,
        10 | 11 => 12,
        12 => 15,
        13 => 5 + 100,
        _ => 0,
    };
    match fault {
        12 => overfill(draw, &mut hour),
        15 => hour.prices = None,
        _ => {}
    }
    let mut records = hour.records();
    put_fault(draw, fault, hour.hour, &mut records);
    if draw.once_in(2) {
        draw.shuffle(&mut records);
    }
    let mut records = records.concat();
    if fault == 1 {
        records.truncate(draw.below(records.len() + 1));
    }
    let result = match fault {
        105 => draw.pick(&[0, 1, 7, 9, 16]),
        _ => 8,
    };
    Alone::HourOffset { result, records }
}

impl Hour {
    fn records(&self) -> Vec<Vec<u8>> {
        let forms = self.imports.iter().chain(&self.exports);
        let prices = self.prices.iter().cloned();
        prices.chain(forms.map(Form::bytes)).collect()
    }
}

fn how_many(draw: &mut Draw) -> usize {
    match draw.below(6) {
        0 => 0,
        1 => 1,
        2 => 16,
        3 => draw.below(17),
        _ => 2 + draw.below(4),
    }
}

/// An hour and its records: prices, imports, exports.
pub fn traded_hour(draw: &mut Draw) -> (u8, Vec<Vec<u8>>) {
    let hour = drawn_hour(draw);
    (hour.hour, hour.records())
}

fn drawn_hour(draw: &mut Draw) -> Hour {
    let hour = draw.between(1, 24) as u8;
    let mut pool = names::POOL.to_vec();
    draw.shuffle(&mut pool);
    let mut imports: Vec<Form> = Vec::new();
    for name in &pool[..how_many(draw)] {
        let spelled = names::spell(draw, name);
        let mut form = Form::valid(draw, *b"IM", hour, &spelled);
        if let (Some(before), true) = (imports.last(), draw.once_in(2)) {
            // The same quantities and list give the same credit: a tie.
            form.body = before.body.clone();
        }
        imports.push(form);
    }
    if draw.once_in(2) {
        draw.shuffle(&mut pool);
    }
    let exports = pool[..how_many(draw)].to_vec();
    let exports = exports
        .iter()
        .map(|name| export(draw, hour, name, &imports));
    let exports: Vec<Form> = exports.collect();
    let energy = match imports.first() {
        Some(Form {
            body: Body::Import(_, list),
            ..
        }) => numbers::energy(draw, list),
        _ => numbers::twelve(draw, numbers::price),
    };
    Hour {
        hour,
        prices: Some(raw::price(hour, energy, numbers::price(draw))),
        imports,
        exports,
    }
}

/// An export that often cancels some of the imports exactly.
fn export(draw: &mut Draw, hour: u8, name: &[u8], imports: &[Form]) -> Form {
    let spelled = names::spell(draw, name);
    let mut form = Form::valid(draw, *b"EX", hour, &spelled);
    if imports.is_empty() || draw.once_in(2) {
        return form;
    }
    let from = draw.below(imports.len());
    if let (Body::Export(cancelled), Body::Import(quantities, _)) =
        (&mut form.body, &imports[from].body)
    {
        *cancelled = *quantities;
        if draw.once_in(3) {
            let place = draw.below(12);
            cancelled[place] = cancelled[place].saturating_sub(1);
        }
    }
    form
}

/// Seventeen imports or exports.
fn overfill(draw: &mut Draw, hour: &mut Hour) {
    let mark = draw.pick(&[*b"IM", *b"EX"]);
    let mut pool = names::POOL.to_vec();
    draw.shuffle(&mut pool);
    let forms = pool[..17].iter().map(|name| {
        let spelled = names::spell(draw, name);
        Form::valid(draw, mark, hour.hour, &spelled)
    });
    let forms = forms.collect();
    match &mark {
        b"IM" => hour.imports = forms,
        _ => hour.exports = forms,
    }
}

/// Adds a record that is refused with a number, or alters one so that it is.
fn put_fault(draw: &mut Draw, fault: usize, hour: u8, records: &mut Vec<Vec<u8>>) {
    match fault {
        2 => {
            let key = KeyBytes {
                mark: draw.pick(&[*b"GH", *b"FI", *b"FE"]),
                hour,
                name: b"N".to_vec(),
            };
            let way = draw.pick(&changes::METHODS);
            records.push(changes::good(draw, way, &key));
        }
        3 => {
            let other = draw.pick(&[0, 25, 255, hour % 24 + 1]);
            records.push(marked(draw, other, 0));
        }
        4..=7 => records.push(marked(draw, hour, fault as u32)),
        10 if !records.is_empty() => {
            let again = records[draw.below(records.len())].clone();
            records.push(again);
        }
        _ => {}
    }
}

/// A record of the hour, with a fault 4 to 7 if one is asked for.
fn marked(draw: &mut Draw, hour: u8, number: u32) -> Vec<u8> {
    let marks = [*b"PR", *b"IM", *b"EX"].into_iter();
    let marks: Vec<MarkBytes> = marks
        .filter(|mark| forms::marks_with(number).contains(mark))
        .collect();
    let mark = draw.pick(&marks);
    let mut form = Form::valid(draw, mark, hour, b"fault");
    form.spoil(draw, number);
    form.bytes()
}
