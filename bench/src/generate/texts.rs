//! Calls for the texts of a day, into rooms around the ends of their lines and
//! pages.

use crate::call::{Ask, Call, Lent, List};
use crate::draw::Draw;
use crate::generate::books;
use crate::text::{Text, PAGE};
use peer::register::{Register, LENT_MOST};

/// How far from the end of a page a room is tried.
const NEAR: usize = 4;

/// A call for a text.
pub fn call(text: Text, room: usize) -> Call {
    Call::Book(Lent::Whole, Ask::Text { text, room })
}

/// Both texts of a register's book, each into the rooms that are picked for it
/// as it is written.
pub fn list(register: &Register, mut rooms: impl FnMut(Text, &str) -> Vec<usize>) -> List {
    let calls = Text::ALL.into_iter().flat_map(|text| {
        let rooms = rooms(text, &text.of(register)).into_iter();
        rooms.map(move |room| call(text, room))
    });
    List {
        calls: calls.collect(),
        start: books::given(register, LENT_MOST),
    }
}

/// Both texts of some records' book, open or closed, each into as many bytes as
/// it has, and once more into another room.
pub fn twice(draw: &mut Draw, mut records: Vec<Vec<u8>>) -> List {
    if draw.once_in(4) {
        records.push(b"CL".to_vec());
    }
    list(&filed(&records), |text, written| {
        vec![written.len(), around_an_end(draw, text, written)]
    })
}

/// The register of those records that it accepts.
pub fn filed(records: &[Vec<u8>]) -> Register {
    let mut register = Register::new();
    for record in records {
        // A refusal leaves the register as it was.
        let _ = register.change(LENT_MOST, record);
    }
    register
}

/// Rooms from none to more than enough for a text of that length: every one for a
/// statement, for pages those around the end of each; and those around what any
/// such text has room in.
pub fn rooms(text: Text, length: usize) -> impl Iterator<Item = usize> {
    let small: Vec<usize> = match text {
        Text::Statement => (0..length + 20).collect(),
        Text::Pages => (0..=length / PAGE + 1)
            .map(|pages| pages * PAGE)
            .flat_map(|end| end.saturating_sub(NEAR)..=end + NEAR)
            .collect(),
    };
    small.into_iter().chain(text.most() - 1..=text.most() + 1)
}

/// Any room for a text: enough, too few bytes, none.
pub fn any_room(draw: &mut Draw, text: Text, written: &str) -> usize {
    let length = written.len();
    match draw.below(8) {
        0 => 0,
        1 => length - 1,
        2 => around_an_end(draw, text, written),
        3 => length,
        4 => draw.below(length + 1),
        5 => text.most(),
        _ => length + draw.below(100),
    }
}

/// A room that ends with a line of a statement, or with one of the pages, or a
/// byte before or behind it: often with the last one or the one before, where
/// the total begins.
pub fn around_an_end(draw: &mut Draw, text: Text, written: &str) -> usize {
    let ends: Vec<usize> = match text {
        Text::Statement => written.match_indices('\n').map(|(at, _)| at + 1).collect(),
        Text::Pages => (1..=written.len() / PAGE)
            .map(|pages| pages * PAGE)
            .collect(),
    };
    let end = match draw.below(3) {
        0 => written.len(),
        1 => ends.iter().rev().nth(1).copied().unwrap_or(0),
        _ => draw.pick(&ends),
    };
    (end + draw.below(3)).saturating_sub(1)
}
