//! Systematic pairs of a book and bytes: every lent length, every damaged
//! byte, every pair of numbers carried.

use crate::bridge::State;
use crate::call::{Ask, Call, Lent, List, Start, Way};
use peer::records::raw::{self, RawName, RawUnit};

/// All sweeps in turn.
pub fn all() -> Box<dyn Iterator<Item = List>> {
    Box::new(
        lent_lengths()
            .chain(damaged_bytes())
            .chain(carried_numbers()),
    )
}

/// A small book: a price, two imports, a correction and a withdrawal.
pub fn small_book() -> Vec<Vec<u8>> {
    let name = RawName::of(b"A%2FB");
    let import = |quantity| raw::import(5, &name, [quantity; 12], &[(4000, 100)]);
    vec![
        raw::price(5, [3000; 12], 3000),
        import(100),
        raw::export(5, &RawName::of(b"D"), [50; 12]),
        raw::correct(&import(90)),
        raw::withdraw(b"EX", 5, &RawName::of(b"D")),
        raw::failure(b"FI", 5, &RawName::of(b"F"), [20, 10], [10, 3000]),
    ]
}

/// What the book of these changes carries.
pub fn state(changes: &[Vec<u8>]) -> State {
    State {
        changes: changes.len() as u16,
        used: changes.concat().len() as u32,
        closed: false,
    }
}

fn change(way: Way, record: Vec<u8>) -> Ask {
    Ask::Change { way, record }
}

/// Each kind of call once, each of which the small book answers or accepts.
fn asks() -> Vec<Ask> {
    let name = b"A%2fB".to_vec();
    let import = raw::import(5, &RawName::of(&name), [80; 12], &[(4000, 100)]);
    vec![
        change(Way::File, raw::export(5, &RawName::of(b"D/"), [1; 12])),
        change(Way::Correct, raw::correct(&import)),
        change(Way::Withdraw, raw::withdraw(b"FI", 5, &RawName::of(b"F"))),
        change(Way::TakeBack, b"TB".to_vec()),
        change(Way::Close, b"CL".to_vec()),
        change(Way::Any, raw::unit(5, &RawName::of(b"G"), &RawUnit::idle())),
        Ask::Record {
            mark: b"IM".to_vec(),
            hour: 5,
            name,
        },
        Ask::Count {
            mark: b"IM".to_vec(),
            hour: 5,
        },
        Ask::Free,
        Ask::Guarantees { hour: 5 },
        Ask::UnitDay {
            name: b"G".to_vec(),
        },
        Ask::FailureCharge {
            mark: b"FI".to_vec(),
            hour: 5,
            name: b"F".to_vec(),
        },
    ]
}

/// Each call on the small book with every lent length up to more than enough,
/// and around the most that count.
fn lent_lengths() -> impl Iterator<Item = List> {
    let book = small_book();
    let used = book.concat().len();
    let lengths = (0..=used + 100).step_by(7).chain(used - 2..=used + 70);
    let lengths = lengths.chain([65_534, 65_535, 65_536, 70_000]);
    lengths.map(move |length| {
        let mut bytes = book.concat();
        bytes.resize(length.max(used + 600), 0x5A);
        let calls = asks()
            .into_iter()
            .map(|ask| Call::Book(Lent::Exactly(length), ask));
        List {
            start: Start::Given(state(&book), bytes),
            calls: calls.collect(),
        }
    })
}

/// Each byte of the used part altered in turn, then three questions and a
/// filing.
fn damaged_bytes() -> impl Iterator<Item = List> {
    let book = small_book();
    let used = book.concat();
    (0..used.len()).flat_map(move |place| {
        let (book, used) = (book.clone(), used.clone());
        let byte = used[place];
        let others = [
            byte ^ 1,
            byte ^ 0x80,
            byte ^ 0x20,
            byte.wrapping_sub(1),
            0,
            0xFF,
        ];
        others.into_iter().map(move |other| {
            let mut bytes = used.clone();
            bytes[place] = other;
            bytes.resize(used.len() + 60, 0x5A);
            let asked = [0, 6, 9, 11].map(|at| asks().swap_remove(at));
            let calls = asked.map(|ask| Call::Book(Lent::Whole, ask));
            List {
                start: Start::Given(state(&book), bytes),
                calls: calls.to_vec(),
            }
        })
    })
}

/// Every number of changes with every used number at, before and behind the
/// border of a change, open and closed.
fn carried_numbers() -> impl Iterator<Item = List> {
    let book = small_book();
    let mut borders = vec![0];
    for change in &book {
        borders.push(borders[borders.len() - 1] + change.len() as u32);
    }
    let useds: Vec<u32> = borders
        .iter()
        .flat_map(|&border| [border.saturating_sub(1), border, border + 1])
        .chain([65_535, 65_536, u32::MAX])
        .collect();
    let changes = (0..=8).chain([511, 512, 513, u16::MAX]);
    changes.flat_map(move |changes| {
        let mut bytes = book.concat();
        bytes.resize(bytes.len() + 60, 0x5A);
        let useds = useds.clone();
        useds.into_iter().map(move |used| {
            let state = State {
                changes,
                used,
                closed: used % 2 == 1,
            };
            let asked = asks().into_iter().skip(3);
            let calls = asked.map(|ask| Call::Book(Lent::Whole, ask));
            List {
                start: Start::Given(state, bytes.clone()),
                calls: calls.collect(),
            }
        })
    })
}

#[cfg(test)]
mod tests {
    use super::*;
    use peer::book::Book;

    #[test]
    fn the_small_book_belongs_to_its_bytes() {
        let book = small_book();
        let carried = Book {
            changes: book.len() as u32,
            used: book.concat().len() as u32,
            closed: false,
        };
        assert_eq!(carried.free(&book.concat()), Ok(0));
    }
}
