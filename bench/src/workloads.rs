//! The work that is measured, the same on both sides.

use crate::bridge::{self, Layer, Layers, State, GUARANTEE_AMOUNTS, GUARANTEE_SIZES};
use crate::callgrind::counted;
use crate::generate::sweeps_records::full_unit;
use crate::peer_side::{self, feed_book};
use crate::text::Text;
use crate::timing::{timed, Pace, Times};
use peer::book::Book;
use peer::hour_offset_call::hour_offset_call;
use peer::records::parse_change;
use peer::records::raw::{self, RawName, RawUnit};
use std::hint::black_box;

/// Bytes of every lent buffer.
const LENT: usize = 65_535;
/// Sizes of the books that are timed.
pub const BOOKS: [usize; 4] = [64, 128, 256, 512];
/// Filings of a whole day.
const DAY: usize = 600;

/// One line of the table.
pub struct Row {
    /// The work in words.
    pub label: String,
    /// The times, none where the layer is missing and where none are taken.
    pub times: Option<Times>,
}

/// What is done with a piece of work.
#[derive(Clone, Copy)]
pub enum Measure {
    /// It is timed on both sides.
    Times(Pace),
    /// It is done once for callgrind, by the proved side and then by the peer.
    Instructions,
}

/// Which layers there are and what to measure.
#[derive(Clone, Copy)]
pub struct Bench {
    /// The proved side's layers.
    pub layers: Layers,
    /// What is measured.
    pub measure: Measure,
}

impl Bench {
    fn row(
        self,
        label: impl Into<String>,
        layer: Layer,
        mut proved: impl FnMut() -> u32,
        mut peer: impl FnMut() -> bool,
    ) -> Row {
        let label = label.into();
        if !self.layers.has(layer) {
            return Row { label, times: None };
        }
        assert_eq!(proved(), 0, "the proved side refuses: {label}");
        assert!(peer(), "the peer refuses: {label}");
        let mut proved = || {
            black_box(proved());
        };
        let mut peer = || {
            black_box(peer());
        };
        let times = match self.measure {
            Measure::Times(pace) => Some(timed(pace, proved, peer)),
            Measure::Instructions => {
                counted(&mut proved);
                counted(&mut peer);
                None
            }
        };
        Row { label, times }
    }

    /// One call of each kind, on books of 512 changes.
    pub fn calls(self) -> Vec<Row> {
        vec![
            self.hour_offset(),
            self.full_text(Text::Statement),
            self.full_text_with_a_unit(),
            self.full_text(Text::Pages),
            self.amount("a unit's hour, full", &full_unit()),
            self.unit_day(512),
            self.full_hour(512),
            self.charge(512),
            self.question(512),
            self.filing(512),
            self.fed_day(),
            self.record("GH, full", &full_unit()),
        ]
    }

    /// Reading and writing of each record.
    pub fn records(self) -> Vec<Row> {
        let rows = instances().into_iter();
        rows.map(|(label, record)| self.record(label, &record))
            .collect()
    }

    fn record(self, label: &str, record: &[u8]) -> Row {
        let (mut out, mut sizes) = ([0xA5; 1500], [0]);
        let mut peer_out = out;
        self.row(
            format!("read and write {label}, {} bytes", record.len()),
            Layer::Records,
            || bridge::write(0, black_box(record), &mut out, &mut sizes),
            || match parse_change(black_box(record)) {
                Ok(change) => {
                    let written = change.written();
                    peer_out[..written.len()].copy_from_slice(&written);
                    true
                }
                Err(_) => false,
            },
        )
    }

    /// Amounts of single records.
    pub fn amounts(self) -> Vec<Row> {
        vec![
            self.amount("an import, 1 pair", &import(b"A", &[(4000, 100)])),
            self.amount("an import, 20 pairs", &import(b"A", &twenty(5))),
            self.amount("a unit's hour, full", &full_unit()),
            self.amount("a failed import", &failure(b"FI", 5, b"A")),
        ]
    }

    fn amount(self, label: &str, record: &[u8]) -> Row {
        let prices = raw::price(5, [3000; 12], 3000);
        let mut amounts = [0];
        self.row(
            format!("amount of {label}"),
            Layer::Amounts,
            || bridge::amount(black_box(&prices), black_box(record), &mut amounts),
            || peer_side::amount(black_box(&prices), black_box(record)).is_ok(),
        )
    }

    /// One call on books of each size: the last change filed and taken back.
    pub fn changes(self) -> Vec<Row> {
        BOOKS.map(|size| self.change(size)).into()
    }

    fn change(self, size: usize) -> Row {
        let filings = filings(size);
        let (last, before) = filings.split_last().expect("a filing");
        let kept = Kept::of(before);
        let mut proved = kept.clone();
        let mut peer = kept;
        self.row(
            format!("file change {size}, take it back"),
            Layer::Book,
            || {
                let number = proved.change(1, last);
                number | proved.change(4, b"TB")
            },
            || peer.peer_change(last) && peer.peer_change(b"TB"),
        )
    }

    /// The last change filed again and again into the book before it, whose
    /// numbers are left as they are.
    fn filing(self, size: usize) -> Row {
        let filings = filings(size);
        let (last, before) = filings.split_last().expect("a filing");
        let kept = Kept::of(before);
        let (state, book) = (kept.state, kept.book());
        let (mut proved, mut peer) = (kept.bytes.clone(), kept.bytes);
        let mut numbers = [0; 3];
        self.row(
            format!("file change {size}"),
            Layer::Book,
            || bridge::change(1, state, &mut numbers, &mut proved, black_box(last)),
            || book.change(&mut peer, black_box(last)).1.is_ok(),
        )
    }

    /// One question on books of each size: the record of the last key.
    pub fn questions(self) -> Vec<Row> {
        BOOKS.map(|size| self.question(size)).into()
    }

    fn question(self, size: usize) -> Row {
        let kept = Kept::of(&filings(size));
        let book = kept.book();
        let mut sizes = [0; 2];
        self.row(
            format!("record of a key, {size} changes"),
            Layer::Book,
            || bridge::record(kept.state, &kept.bytes, b"PR", 1, b"", &mut sizes),
            || book.record(&kept.bytes, b"PR", 1, b"").is_ok(),
        )
    }

    /// One hour with 16 imports and 16 exports in books of each size.
    pub fn guarantees(self) -> Vec<Row> {
        BOOKS.map(|size| self.full_hour(size)).into()
    }

    fn full_hour(self, size: usize) -> Row {
        let kept = Kept::filled(&full_hour(), size);
        let book = kept.book();
        let mut sizes = [0; GUARANTEE_SIZES];
        let mut amounts = [0; GUARANTEE_AMOUNTS];
        // The interface tells each import by its place, which it asks for.
        let place = |name: &[u8]| book.record(&kept.bytes, b"IM", 5, name).is_ok();
        self.row(
            format!("an hour of 16 IM, 16 EX and 16 places, {size} changes"),
            Layer::AmountQuestions,
            || bridge::guarantees(kept.state, &kept.bytes, 5, &mut sizes, &mut amounts),
            || {
                let hour = book.guarantees(&kept.bytes, 5);
                hour.is_ok_and(|hour| hour.credits.iter().all(|(name, _)| place(&name.spelled())))
            },
        )
    }

    /// A unit's day of 24 hours in books of each size.
    pub fn unit_days(self) -> Vec<Row> {
        BOOKS.map(|size| self.unit_day(size)).into()
    }

    fn unit_day(self, size: usize) -> Row {
        let kept = Kept::filled(&unit_hours(), size);
        let book = kept.book();
        let mut amounts = [0; 2];
        self.row(
            format!("a unit's day of 24 hours, {size} changes"),
            Layer::AmountQuestions,
            || bridge::unit_day(kept.state, &kept.bytes, b"G", &mut amounts),
            || book.unit_day(&kept.bytes, b"G").is_ok(),
        )
    }

    /// A failure charge in books of each size.
    pub fn charges(self) -> Vec<Row> {
        BOOKS.map(|size| self.charge(size)).into()
    }

    fn charge(self, size: usize) -> Row {
        let kept = Kept::of(&filings(size));
        let book = kept.book();
        let mut amounts = [0];
        self.row(
            format!("a failure charge, {size} changes"),
            Layer::AmountQuestions,
            || bridge::failure_charge(kept.state, &kept.bytes, b"FI", 1, b"A/1", &mut amounts),
            || book.failure_charge(&kept.bytes, b"FI", 1, b"A/1").is_ok(),
        )
    }

    /// A day's filings, one by one and back to back, its texts, and an hour's
    /// offset.
    pub fn days(self) -> Vec<Row> {
        vec![
            self.full_day(),
            self.fed_day(),
            self.full_text(Text::Statement),
            self.full_text_with_a_unit(),
            self.full_text(Text::Pages),
            self.hour_offset(),
        ]
    }

    fn full_day(self) -> Row {
        let filings = filings(512);
        let mut proved = Kept::of(&[]);
        let mut peer = Kept::of(&[]);
        self.row(
            "a day of 512 filings, from fresh",
            Layer::Book,
            || {
                proved.state = State::default();
                let numbers = filings.iter().map(|record| proved.change(1, record));
                numbers.fold(0, |all, number| all | number)
            },
            || {
                peer.state = State::default();
                filings.iter().all(|record| peer.peer_change(record))
            },
        )
    }

    fn fed_day(self) -> Row {
        let input = filings(512).concat();
        let mut proved = Kept::of(&[]);
        let mut peer = Kept::of(&[]);
        let (mut numbers, mut sizes) = ([0; 3], [0; 2]);
        self.row(
            "512 filings back to back, from fresh",
            Layer::Statement,
            || {
                let (state, lent) = (State::default(), &mut proved.bytes);
                bridge::feed(state, &mut numbers, lent, black_box(&input), &mut sizes)
            },
            || {
                let fed = feed_book(&mut Book::new(), &mut peer.bytes, black_box(&input));
                fed.refusal.is_none()
            },
        )
    }

    fn full_text(self, text: Text) -> Row {
        self.text(text, "512 changes", &Kept::of(&filings(512)))
    }

    fn full_text_with_a_unit(self) -> Row {
        let kept = Kept::filled(&unit_hours(), 512);
        self.text(Text::Statement, "512 changes, a unit", &kept)
    }

    fn text(self, text: Text, label: &str, kept: &Kept) -> Row {
        let book = kept.book();
        let (mut out, mut sizes) = (vec![0xA5; text.most()], [0]);
        self.row(
            format!("{} of {label}", text.word()),
            text.layer(),
            || bridge::text(text, kept.state, &kept.bytes, &mut out, &mut sizes),
            || {
                let standing = book.read(black_box(&kept.bytes));
                // More than the total of nothing.
                standing.is_ok_and(|standing| text.of(&standing).len() > text.least())
            },
        )
    }

    fn hour_offset(self) -> Row {
        let records = full_hour().concat();
        let (mut result, mut peer_result) = ([0; 8], [0; 8]);
        self.row(
            "offset call, 16 imports, 16 exports",
            Layer::HourOffset,
            || bridge::hour_offset(&mut result, black_box(&records)),
            || hour_offset_call(&mut peer_result, black_box(&records)) == 0,
        )
    }
}

/// A book and its bytes.
#[derive(Clone)]
struct Kept {
    state: State,
    bytes: Vec<u8>,
}

impl Kept {
    /// The book of these filings, kept by the peer.
    fn of(filings: &[Vec<u8>]) -> Kept {
        let mut kept = Kept {
            state: State::default(),
            bytes: vec![0xA5; LENT],
        };
        for record in filings {
            assert!(kept.peer_change(record), "a filing is refused");
        }
        kept
    }

    /// The book of these filings and, up to the size, of a day's that it still
    /// takes.
    fn filled(records: &[Vec<u8>], size: usize) -> Kept {
        let mut kept = Kept::of(records);
        for record in filings(DAY) {
            if usize::from(kept.state.changes) < size {
                kept.peer_change(&record);
            }
        }
        assert_eq!(usize::from(kept.state.changes), size, "a book is filled");
        kept
    }

    fn book(&self) -> Book {
        Book {
            changes: u32::from(self.state.changes),
            used: self.state.used,
            closed: self.state.closed,
        }
    }

    /// A change on the proved side.
    fn change(&mut self, method: u32, record: &[u8]) -> u32 {
        let mut numbers = [0; 3];
        let number = bridge::change(method, self.state, &mut numbers, &mut self.bytes, record);
        if let Some(state) = State::of_numbers(numbers) {
            self.state = state;
        }
        number
    }

    /// A change on the peer.
    fn peer_change(&mut self, record: &[u8]) -> bool {
        let (book, answer) = self.book().change(&mut self.bytes, record);
        self.state = State {
            changes: book.changes as u16,
            used: book.used,
            closed: book.closed,
        };
        answer.is_ok()
    }
}

fn twenty(step: u32) -> Vec<(i32, u32)> {
    (1..=20)
        .map(|place| (place as i32 * 300, place * step))
        .collect()
}

fn import(name: &[u8], list: &[(i32, u32)]) -> Vec<u8> {
    raw::import(5, &RawName::of(name), [98; 12], list)
}

fn failure(mark: &[u8; 2], hour: u8, name: &[u8]) -> Vec<u8> {
    raw::failure(mark, hour, &RawName::of(name), [100, 60], [2000, 4000])
}

/// Each mark, small, and the full ones.
fn instances() -> Vec<(&'static str, Vec<u8>)> {
    let small = import(b"A%2FB", &[(4000, 100)]);
    vec![
        ("PR", raw::price(5, [3000; 12], 3000)),
        ("IM, 1 pair", small.clone()),
        ("IM, 20 pairs", import(b"A%2FB", &twenty(5))),
        ("EX", raw::export(5, &RawName::of(b"D"), [250; 12])),
        (
            "GH, small",
            raw::unit(5, &RawName::of(b"G"), &RawUnit::idle()),
        ),
        ("GH, full", full_unit()),
        ("FI", failure(b"FI", 5, b"A")),
        ("FE", failure(b"FE", 5, b"A")),
        ("CO of IM", raw::correct(&small)),
        ("WD", raw::withdraw(b"IM", 5, &RawName::of(b"A%2FB"))),
    ]
}

/// So many filings of one day, hour by hour.
fn filings(count: usize) -> Vec<Vec<u8>> {
    let hours = (1..=24).flat_map(|hour| {
        let prices = raw::price(hour, [3000; 12], 3000);
        let named = (0..6).flat_map(move |place| {
            let name = RawName::of(&[b'A' + place, b'/', b'1']);
            [
                raw::import(hour, &name, [100; 12], &[(2900, 50), (4000, 100)]),
                raw::export(hour, &name, [40; 12]),
                failure(b"FI", hour, &name.spelled),
                failure(b"FE", hour, &name.spelled),
            ]
        });
        [prices].into_iter().chain(named)
    });
    let filings: Vec<Vec<u8>> = hours.take(count).collect();
    assert_eq!(filings.len(), count, "a day has filings enough");
    filings
}

/// The prices of one hour, sixteen imports and sixteen exports.
pub fn full_hour() -> Vec<Vec<u8>> {
    let mut records = vec![raw::price(5, [3000; 12], 3000)];
    for place in 0..16_u8 {
        let name = RawName::of(&[b'P' - place]);
        let price = 3000 + i32::from(place % 5) * 200;
        records.push(raw::import(
            5,
            &name,
            [90; 12],
            &[(price, 50), (price + 300, 100)],
        ));
        records.push(raw::export(5, &name, [40 + u32::from(place); 12]));
    }
    records
}

/// A unit in all 24 hours, and their prices.
fn unit_hours() -> Vec<Vec<u8>> {
    let mut unit = RawUnit::idle();
    unit.no_load = 37_000;
    unit.schedules = [[600; 12], [400; 12], [500; 12], [400; 12], [600; 12]];
    unit.reserves[0] = ([600; 12], [100; 12]);
    unit.lists = [
        vec![(2800, 100), (2800, 300), (3500, 500), (4500, 600)],
        vec![(2300, 100), (2300, 300), (3000, 500), (4000, 600)],
        vec![(100, 100)],
        vec![],
        vec![],
    ];
    let hours = (1..=24).flat_map(|hour| {
        [
            raw::price(hour, [3000; 12], 3000),
            raw::unit(hour, &RawName::of(b"G"), &unit),
        ]
    });
    hours.collect()
}

#[cfg(test)]
mod tests {
    use super::*;

    #[test]
    fn the_timed_books_stand() {
        for size in BOOKS {
            assert_eq!(Kept::of(&filings(size)).state.changes as usize, size);
        }
        assert_eq!(Kept::of(&full_hour()).state.changes, 33);
        assert_eq!(Kept::of(&unit_hours()).state.changes, 48);
        for size in BOOKS {
            let hour = Kept::filled(&full_hour(), size);
            let guarantees = hour.book().guarantees(&hour.bytes, 5);
            assert_eq!(guarantees.map(|all| all.credits.len()), Ok(16));
            let day = Kept::filled(&unit_hours(), size);
            assert!(day.book().unit_day(&day.bytes, b"G").is_ok());
        }
    }
}
