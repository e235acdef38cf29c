//! Arbitrary pairs of a book and bytes: reachable ones, damaged.

use crate::bridge::State;
use crate::call::{Ask, Call, Lent, List, Start, Way};
use crate::draw::Draw;
use crate::generate::books::{self, Style};
use crate::generate::changes;
use crate::generate::forms;
use crate::generate::names;
use peer::records::raw::{self, RawName};
use peer::records::{Change, Record};
use peer::register::{Register, LENT_MOST};

/// A random list from a damaged book.
pub fn list(draw: &mut Draw) -> List {
    let start = start(draw);
    let calls = (0..1 + draw.below(6)).map(|_| call(draw)).collect();
    List { start, calls }
}

/// A book and bytes that need not belong together.
pub fn start(draw: &mut Draw) -> Start {
    let style = Style {
        room: LENT_MOST,
        names: 20,
        marks: &forms::MARKS,
        hours: &[1, 1, 2, 24],
        calls: 0,
        priced: false,
        steady: false,
    };
    let listed = draw.pick(&[0, 1, 2, 3, 5, 10, 20, 40]);
    let register = books::filled(draw, style, listed);
    let (state, used) = damaged(draw, &register);
    Start::Given(state, with_room(draw, used))
}

/// The used part with some bytes behind it, or with some missing.
fn with_room(draw: &mut Draw, mut used: Vec<u8>) -> Vec<u8> {
    let length = match draw.below(10) {
        0 => used.len(),
        1 => used.len().saturating_sub(1),
        2 => LENT_MOST.max(used.len()),
        3 => used.len() + 70_000,
        _ => used.len() + draw.below(1500),
    };
    let filler = draw.byte();
    used.resize(length, filler);
    used
}

/// What the book carries and what stands in its used part.
fn damaged(draw: &mut Draw, register: &Register) -> (State, Vec<u8>) {
    let mut changes = register
        .list()
        .iter()
        .map(|listed| listed.change.written())
        .collect();
    let kind = draw.below(12);
    if kind < 5 {
        damage_changes(draw, register, &mut changes, kind);
    }
    let mut used = changes.concat();
    let mut state = State {
        changes: changes.len() as u16,
        used: used.len() as u32,
        closed: draw.once_in(6),
    };
    match kind {
        5 | 6 => damage_byte(draw, &mut used),
        7 => damage_numbers(draw, &mut state),
        _ => {}
    }
    (state, used)
}

/// Other changes than a register can list, at the change's borders.
fn damage_changes(draw: &mut Draw, register: &Register, changes: &mut Vec<Vec<u8>>, kind: usize) {
    let at = draw.below(changes.len() + 1);
    match kind {
        0 => {
            let never_listed = draw.pick(&[*b"TB", *b"CL", *b"RO"]);
            changes.insert(at, never_listed.to_vec());
        }
        1 if at < changes.len() => changes[at] = respelled(draw, &register.list()[at].change),
        2 if at < changes.len() => changes.insert(at, changes[at].clone()),
        3 if at < changes.len() => drop(changes.remove(at)),
        _ => {
            let method = draw.pick(&changes::METHODS[..3]);
            let added = match draw.below(3) {
                0 => changes::misread(draw, Way::Any, method, draw.clone().pick(&[1, 2, 3])),
                _ => changes::any_good(draw, method),
            };
            changes.insert(at, added);
        }
    }
}

/// The same change with its name spelled in some way.
fn respelled(draw: &mut Draw, change: &Change) -> Vec<u8> {
    let key = match change {
        Change::File(record) | Change::Correct(record) => record.key(),
        Change::Withdraw(key) => *key,
        Change::TakeBack | Change::Close => return change.written(),
    };
    let Some(name) = key.name else {
        return change.written();
    };
    let spelled = names::spell(draw, name.decoded());
    if let Change::Withdraw(_) = change {
        return raw::withdraw(&key.mark.bytes(), key.hour.number(), &RawName::of(&spelled));
    }
    let written = change.written();
    // Mark, hour and length byte stand before the name, `CO` before those.
    let start = match change {
        Change::Correct(Record::Price(_)) => return written,
        Change::Correct(_) => 5,
        _ => 3,
    };
    let end = start + 1 + name.spelled_len();
    [
        &written[..start],
        &[spelled.len() as u8],
        &spelled,
        &written[end..],
    ]
    .concat()
}

fn damage_byte(draw: &mut Draw, used: &mut [u8]) {
    if used.is_empty() {
        return;
    }
    let place = draw.below(used.len());
    used[place] = match draw.below(3) {
        0 => draw.byte(),
        1 => used[place].wrapping_add(1),
        _ => used[place] ^ 1 << draw.below(8),
    };
}

fn damage_numbers(draw: &mut Draw, state: &mut State) {
    match draw.below(5) {
        0 => state.changes = state.changes.wrapping_add(draw.pick(&[1, u16::MAX])),
        1 => state.changes = draw.pick(&[0, 1, 511, 512, 513, u16::MAX]),
        2 => state.used = state.used.wrapping_add(draw.pick(&[1, u32::MAX])),
        3 => state.used = draw.pick(&[0, 1, 55, 65_535, 65_536, 1 << 31, u32::MAX]),
        _ => {
            state.changes = draw.between(0, 600) as u16;
            state.used = draw.between(0, 3000) as u32;
        }
    }
}

fn call(draw: &mut Draw) -> Call {
    let lent = match draw.below(12) {
        0 => Lent::Exactly(0),
        1 => Lent::Used(-1),
        2 => Lent::Used(0),
        3 => Lent::Used(draw.between(0, 300)),
        4 => Lent::Exactly(draw.below(2000)),
        _ => Lent::Whole,
    };
    let ask = match draw.below(2) {
        0 => change(draw),
        _ => question(draw),
    };
    Call::Book(lent, ask)
}

fn change(draw: &mut Draw) -> Ask {
    let way = draw.pick(&Way::ALL);
    let method = match way {
        Way::Any => draw.pick(&changes::METHODS),
        way => way,
    };
    let record = match draw.below(3) {
        0 => {
            let number = draw.pick(changes::reading_numbers(method));
            changes::misread(draw, way, method, number)
        }
        _ => changes::any_good(draw, method),
    };
    Ask::Change { way, record }
}

fn question(draw: &mut Draw) -> Ask {
    let key = changes::any_key(draw);
    let hour = draw.pick(&[1, 1, 2, 24, u32::from(key.hour), 0, 25]);
    let decoded = draw.pick(&names::POOL[..20]);
    let name = match key.mark == *b"PR" {
        true => Vec::new(),
        false => names::spell(draw, decoded),
    };
    let mark = match draw.below(10) {
        0 => b"ZZ".to_vec(),
        _ => key.mark.to_vec(),
    };
    match draw.below(6) {
        0 => Ask::Record { mark, hour, name },
        1 => Ask::Count { mark, hour },
        2 => Ask::Free,
        3 => Ask::Guarantees { hour },
        4 => Ask::UnitDay { name },
        _ => Ask::FailureCharge { mark, hour, name },
    }
}

#[cfg(test)]
mod tests {
    use super::*;
    use peer::book::Book;

    #[test]
    fn some_pairs_belong_together_and_some_do_not() {
        let mut belong = 0;
        let mut differ = 0;
        for seed in 0..300 {
            let list = list(&mut Draw::new(seed));
            let Start::Given(state, bytes) = &list.start else {
                panic!("a given start");
            };
            let book = Book {
                changes: u32::from(state.changes),
                used: state.used,
                closed: state.closed,
            };
            match book.free(bytes) {
                Ok(_) => belong += 1,
                Err(refusal) => {
                    assert_eq!(refusal.number(), 16);
                    differ += 1;
                }
            }
        }
        assert!(belong > 50 && differ > 50, "{belong} {differ}");
    }
}
