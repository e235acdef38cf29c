//! Random calls of the record layer.

use crate::call::{Alone, List, Way};
use crate::draw::Draw;
use crate::generate::{changes, names};

/// Calls of one list.
const CALLS: usize = 64;
/// Room for every written change: the longest, a `CO` of a full `GH`, takes
/// fewer bytes.
pub const ROOM: usize = 1500;

/// A random list.
pub fn list(draw: &mut Draw) -> List {
    List::alone((0..CALLS).map(|_| call(draw)))
}

fn call(draw: &mut Draw) -> Alone {
    match draw.below(10) {
        0 => compare(draw),
        1 | 2 => next(draw),
        _ => write(draw),
    }
}

/// A change as the methods get it: good, refused with some number, or
/// damaged.
fn change(draw: &mut Draw, called: Way) -> Vec<u8> {
    let method = match called {
        Way::Any => draw.pick(&changes::METHODS[..3]),
        called => called,
    };
    match draw.below(10) {
        0..=2 => changes::any_good(draw, method),
        3 => damaged(draw, method),
        _ => {
            let number = draw.pick(changes::reading_numbers(method));
            changes::misread(draw, called, method, number)
        }
    }
}

/// A good change with one or two bytes altered.
fn damaged(draw: &mut Draw, method: Way) -> Vec<u8> {
    let mut bytes = changes::any_good(draw, method);
    for _ in 0..=draw.below(2) {
        let place = match draw.below(2) {
            0 => draw.below(bytes.len().min(12)),
            _ => draw.below(bytes.len()),
        };
        bytes[place] = match draw.below(2) {
            0 => bytes[place] ^ 1 << draw.below(8),
            _ => draw.byte(),
        };
    }
    bytes
}

fn write(draw: &mut Draw) -> Alone {
    let way = draw.pick(&Way::ALL);
    if draw.once_in(6) {
        return write_without_room(draw, way);
    }
    Alone::Write {
        way,
        record: change(draw, way),
        room: ROOM,
    }
}

/// A good change and just too little room, or exactly enough.
fn write_without_room(draw: &mut Draw, way: Way) -> Alone {
    let method = match way {
        Way::Any => draw.pick(&changes::METHODS),
        way => way,
    };
    let record = changes::any_good(draw, method);
    let written = crate::peer_side::read(way, &record).map_or(0, |change| change.written_len());
    let room = match draw.below(4) {
        0 => 0,
        1 => written,
        2 => draw.below(written),
        _ => written - 1,
    };
    Alone::Write { way, record, room }
}

/// Changes back to back.
fn next(draw: &mut Draw) -> Alone {
    let mut bytes = change(draw, Way::Any);
    if draw.once_in(2) {
        let method = draw.pick(&changes::METHODS);
        bytes.extend(changes::any_good(draw, method));
    }
    Alone::Next { bytes }
}

fn compare(draw: &mut Draw) -> Alone {
    let decoded = names::any_decoded(draw);
    let first = names::spell(draw, &decoded);
    let second = match draw.below(4) {
        0 => names::spell(draw, &decoded),
        1 => names::spell(draw, &decoded[..1 + draw.clone().below(decoded.len())]),
        _ => names::any(draw),
    };
    match draw.below(6) {
        0 => Alone::Compare {
            first: names::bad(draw),
            second,
        },
        1 => Alone::Compare {
            first,
            second: names::bad(draw),
        },
        _ => Alone::Compare { first, second },
    }
}
