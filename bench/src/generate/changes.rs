//! Changes as bytes: good ones, and ones that reading refuses with a chosen
//! number.

use crate::call::Way;
use crate::draw::Draw;
use crate::generate::forms::{self, Form, MarkBytes};
use crate::generate::names;
use peer::records::raw::{self, RawName};

/// The five methods, each with its own marks.
pub const METHODS: [Way; 5] = [
    Way::File,
    Way::Correct,
    Way::Withdraw,
    Way::TakeBack,
    Way::Close,
];

/// Marks that nobody knows.
const UNKNOWN: [MarkBytes; 10] = [
    *b"ZZ",
    *b"RO",
    *b"DI",
    *b"pr",
    *b"RP",
    *b"\0\0",
    *b"P ",
    *b"co",
    *b"LI",
    *b"\xFF\xFF",
];
/// Marks that are known but not allowed inside `CO` or `WD`.
const OUTER: [MarkBytes; 4] = [*b"CO", *b"WD", *b"TB", *b"CL"];

/// A key's mark, hour byte and spelled name.
#[derive(Clone, Debug)]
pub struct KeyBytes {
    /// The mark.
    pub mark: MarkBytes,
    /// The hour byte.
    pub hour: u8,
    /// The spelled name, empty for `PR`.
    pub name: Vec<u8>,
}

/// A change that reading accepts; one of the five methods.
pub fn good(draw: &mut Draw, way: Way, key: &KeyBytes) -> Vec<u8> {
    match way {
        Way::Any | Way::File => record(draw, key),
        Way::Correct => raw::correct(&record(draw, key)),
        Way::Withdraw => raw::withdraw(&key.mark, key.hour, &RawName::of(&key.name)),
        Way::TakeBack => b"TB".to_vec(),
        Way::Close => b"CL".to_vec(),
    }
}

/// A valid record of a key.
pub fn record(draw: &mut Draw, key: &KeyBytes) -> Vec<u8> {
    Form::valid(draw, key.mark, key.hour, &key.name).bytes()
}

/// Any key.
pub fn any_key(draw: &mut Draw) -> KeyBytes {
    let mark = draw.pick(&forms::MARKS);
    key_of(draw, mark)
}

fn key_of(draw: &mut Draw, mark: MarkBytes) -> KeyBytes {
    KeyBytes {
        mark,
        hour: draw.between(1, 24) as u8,
        name: if mark == *b"PR" {
            Vec::new()
        } else {
            names::any(draw)
        },
    }
}

/// The numbers that reading a method's change can give.
pub fn reading_numbers(method: Way) -> &'static [u32] {
    match method {
        Way::Any | Way::File | Way::Correct => &[1, 2, 3, 4, 5, 6, 7, 8],
        Way::Withdraw => &[1, 2, 3, 4, 8],
        Way::TakeBack | Way::Close => &[1, 2, 8],
    }
}

/// A change for one of the five methods that reading refuses with a number 1
/// to 8. With `called` another method's marks serve for 2 as well, unless any
/// mark is taken.
pub fn misread(draw: &mut Draw, called: Way, method: Way, number: u32) -> Vec<u8> {
    match number {
        1 => cut(draw, method),
        2 => with_bad_mark(draw, called, method),
        8 => with_left_over(draw, method),
        3..=7 => with_bad_field(draw, method, number),
        _ => any_good(draw, method),
    }
}

/// A good change of a method and any key.
pub fn any_good(draw: &mut Draw, method: Way) -> Vec<u8> {
    let key = any_key(draw);
    good(draw, method, &key)
}

/// A good change with its last bytes missing.
fn cut(draw: &mut Draw, method: Way) -> Vec<u8> {
    let mut bytes = any_good(draw, method);
    let end = match draw.below(3) {
        0 => bytes.len() - 1,
        1 => draw.below(bytes.len().min(8)),
        _ => draw.below(bytes.len()),
    };
    bytes.truncate(end);
    bytes
}

fn with_left_over(draw: &mut Draw, method: Way) -> Vec<u8> {
    let mut bytes = any_good(draw, method);
    match draw.below(3) {
        0 => bytes.push(0),
        1 => bytes.extend(any_good(draw, method)),
        _ => bytes.extend((0..=draw.below(5)).map(|place| place as u8)),
    }
    bytes
}

fn with_bad_mark(draw: &mut Draw, called: Way, method: Way) -> Vec<u8> {
    let mut bytes = any_good(draw, method);
    if matches!(method, Way::Correct | Way::Withdraw) && draw.once_in(2) {
        let inner = match draw.below(2) {
            0 => draw.pick(&UNKNOWN),
            _ => draw.pick(&OUTER),
        };
        bytes[2..4].copy_from_slice(&inner);
        return bytes;
    }
    if called != Way::Any && draw.once_in(2) {
        let others: Vec<Way> = METHODS.into_iter().filter(|&way| way != method).collect();
        let other = draw.pick(&others);
        return any_good(draw, other);
    }
    bytes[..2].copy_from_slice(&draw.pick(&UNKNOWN));
    bytes
}

fn with_bad_field(draw: &mut Draw, method: Way, number: u32) -> Vec<u8> {
    let mark = draw.pick(forms::marks_with(number));
    let key = key_of(draw, mark);
    if method == Way::Withdraw {
        return withdraw_with_bad_field(draw, key, number);
    }
    let mut form = Form::valid(draw, key.mark, key.hour, &key.name);
    form.spoil(draw, number);
    match method {
        Way::Correct => raw::correct(&form.bytes()),
        _ => form.bytes(),
    }
}

fn withdraw_with_bad_field(draw: &mut Draw, mut key: KeyBytes, number: u32) -> Vec<u8> {
    let mut name = RawName::of(&key.name);
    match number {
        3 => key.hour = forms::bad_hour(draw),
        _ if draw.once_in(3) => {
            // `PR` has no name.
            key.mark = *b"PR";
            name = RawName::of(&names::any(draw));
        }
        _ => name = names::bad_raw(draw),
    }
    raw::withdraw(&key.mark, key.hour, &name)
}

#[cfg(test)]
mod tests {
    use super::*;
    use crate::peer_side::read;

    #[test]
    fn a_misread_change_is_refused_with_its_number() {
        let mut draw = Draw::new(5);
        for method in METHODS {
            for &number in reading_numbers(method) {
                for called in [method, Way::Any] {
                    for _ in 0..200 {
                        let bytes = misread(&mut draw, called, method, number);
                        let found = read(called, &bytes).map_err(|refusal| refusal.number());
                        assert_eq!(found, Err(number), "{method:?} {bytes:02X?}");
                    }
                }
            }
        }
    }

    #[test]
    fn a_good_change_is_read() {
        let mut draw = Draw::new(6);
        for method in METHODS {
            for _ in 0..300 {
                let bytes = any_good(&mut draw, method);
                assert!(read(method, &bytes).is_ok());
                assert!(read(Way::Any, &bytes).is_ok());
            }
        }
    }
}
