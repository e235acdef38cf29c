//! The calls carried out on the peer.

use crate::answer::Answer;
use crate::bridge::State;
use crate::call::{Alone, Ask, Start, Way};
use crate::text::Text;
use peer::book::Book;
use peer::feed::{feed, Fed};
use peer::hour_offset_call::hour_offset_call;
use peer::names;
use peer::questions::{Guarantees, Place};
use peer::records::{parse_change, parse_change_prefix, parse_for, Change, Mark, Method, Record};
use peer::refusal::Refusal;
use peer::register::Register;
use peer::units::{Price, INTERVALS};
use std::cmp::Ordering;

/// A call without a book.
pub fn alone(call: &Alone) -> Answer {
    match call {
        Alone::Write { way, record, room } => answered(written(*way, record, *room)),
        Alone::Next { bytes } => {
            let length = parse_change_prefix(bytes).map(|(_, length)| length as u64);
            answered(length.map(|length| Answer::sizes(&[length])))
        }
        Alone::Compare { first, second } => answered(order(first, second)),
        Alone::Amount { prices, record } => {
            answered(amount(prices, record).map(|ticks| Answer::amounts(&[ticks])))
        }
        Alone::HourOffset { result, records } => {
            let mut bytes = vec![0; *result];
            match hour_offset_call(&mut bytes, records) {
                0 => Answer::result(bytes),
                number => Answer::refused(number),
            }
        }
    }
}

/// An answer or its refusal in one form.
fn answered(result: Result<Answer, Refusal>) -> Answer {
    result.unwrap_or_else(|refusal| Answer::refused(refusal.number()))
}

/// Reads a change for a method, or of any mark.
pub fn read(way: Way, record: &[u8]) -> Result<Change, Refusal> {
    match way.method() {
        Some(method) => parse_for(method, record),
        None => parse_change(record),
    }
}

/// A change in its written form, 13 without room for it; `TB` and `CL` are
/// never written.
fn written(way: Way, record: &[u8], room: usize) -> Result<Answer, Refusal> {
    let bytes = match read(way, record)? {
        Change::TakeBack | Change::Close => Vec::new(),
        change => change.written(),
    };
    spelled(bytes, room)
}

/// Bytes and their count, 13 without room for them.
fn spelled(bytes: Vec<u8>, room: usize) -> Result<Answer, Refusal> {
    if bytes.len() > room {
        return Err(Refusal::NoSpace);
    }
    Ok(Answer {
        sizes: vec![bytes.len() as u64],
        bytes,
        ..Answer::default()
    })
}

fn order(first: &[u8], second: &[u8]) -> Result<Answer, Refusal> {
    let place = match names::decode(first)?.cmp(&names::decode(second)?) {
        Ordering::Less => 0,
        Ordering::Equal => 1,
        Ordering::Greater => 2,
    };
    Ok(Answer::sizes(&[place]))
}

/// The amount of a record under the prices of a `PR` record, in ticks.
pub fn amount(prices: &[u8], record: &[u8]) -> Result<i64, Refusal> {
    let Record::Price(prices) = read_marked(prices, &[Mark::Price])? else {
        return Err(Refusal::MarkUnknown);
    };
    let amounted = [
        Mark::Import,
        Mark::Unit,
        Mark::ImportFailure,
        Mark::ExportFailure,
    ];
    let record = read_marked(record, &amounted)?;
    amount_of(&record, &prices.energy, prices.pre_dispatch)
}

fn amount_of(
    record: &Record,
    energy: &[Price; INTERVALS],
    pre_dispatch: Price,
) -> Result<i64, Refusal> {
    let ticks = match record {
        Record::Import(import) => import.schedule.credit(energy)?,
        Record::Unit(unit) => unit.unit.hour(energy)?.net(),
        Record::ImportFailure(failed) => failed.failure.import_charge(pre_dispatch),
        Record::ExportFailure(failed) => failed.failure.export_charge(pre_dispatch),
        Record::Price(_) | Record::Export(_) => return Err(Refusal::MarkUnknown),
    };
    Ok(ticks.0)
}

/// A record as filed, 2 at the mark's place for a mark not among these.
fn read_marked(bytes: &[u8], marks: &[Mark]) -> Result<Record, Refusal> {
    let mark = bytes.first_chunk::<2>().ok_or(Refusal::EndsEarly)?;
    match Mark::of_bytes(mark) {
        Some(mark) if marks.contains(&mark) => {}
        _ => return Err(Refusal::MarkUnknown),
    }
    match parse_for(Method::File, bytes)? {
        Change::File(record) => Ok(record),
        _ => Err(Refusal::MarkUnknown),
    }
}

/// Who keeps the peer's book: for a list from fresh the plain register, which
/// is fed arguments and lent lengths only; else the book over lent bytes.
enum Keeper {
    Register(Box<Register>),
    Book(Book),
}

/// The peer's side of a list of calls, with the bytes as they must stand.
pub struct PeerBook {
    keeper: Keeper,
    /// What the bytes must hold; past the used part it follows the proved
    /// side.
    pub bytes: Vec<u8>,
}

impl PeerBook {
    /// The start of a list.
    pub fn new(start: &Start) -> PeerBook {
        let keeper = match start {
            Start::Fresh(_) => Keeper::Register(Box::default()),
            Start::Given(state, _) => Keeper::Book(Book {
                changes: u32::from(state.changes),
                used: state.used,
                closed: state.closed,
            }),
        };
        PeerBook {
            keeper,
            bytes: start.bytes(),
        }
    }

    /// What the book carries.
    pub fn state(&self) -> State {
        match &self.keeper {
            Keeper::Register(register) => State {
                changes: register.list().len() as u16,
                used: register.used() as u32,
                closed: register.is_closed(),
            },
            Keeper::Book(book) => State {
                changes: book.changes as u16,
                used: book.used,
                closed: book.closed,
            },
        }
    }

    /// A change; an accepted one stands in the bytes.
    pub fn change(&mut self, way: Way, lent: usize, record: &[u8]) -> Answer {
        let result = match &mut self.keeper {
            Keeper::Register(register) => register_change(register, way, lent, record),
            Keeper::Book(book) => {
                let room = &mut self.bytes[..lent];
                let (handed, result) = match way.method() {
                    Some(method) => book.call(method, room, record),
                    None => book.change(room, record),
                };
                *book = handed;
                result
            }
        };
        if result.is_ok() {
            self.write_last();
        }
        answered(result.map(|()| Answer::sizes(&self.state().numbers())))
    }

    /// Records back to back; those that were taken stand in the bytes.
    pub fn feed(&mut self, lent: usize, input: &[u8]) -> Answer {
        let fed = match &mut self.keeper {
            Keeper::Register(register) => {
                let fed = feed(input, |change| register.take(lent, change));
                let written = register.written();
                self.bytes[..written.len()].copy_from_slice(&written);
                fed
            }
            Keeper::Book(book) => feed_book(book, &mut self.bytes[..lent], input),
        };
        let taken = [fed.count, fed.taken as u64];
        Answer {
            number: fed.refusal.map_or(0, Refusal::number),
            ..Answer::sizes(&[&taken[..], &self.state().numbers()].concat())
        }
    }

    /// Puts the register's last entry where it must stand.
    fn write_last(&mut self) {
        let Keeper::Register(register) = &self.keeper else {
            return;
        };
        if let Some(last) = register.list().last() {
            let start = last.start as usize;
            let end = start + last.length as usize;
            self.bytes[start..end].copy_from_slice(&last.change.written());
        }
    }

    /// A question.
    pub fn question(&self, lent: usize, ask: &Ask) -> Answer {
        let result = match (&self.keeper, ask) {
            (_, Ask::Text { text, room }) => self
                .text(*text, lent)
                .and_then(|written| spelled(written.into_bytes(), *room)),
            (Keeper::Register(register), ask) => ask_register(register, lent, ask),
            (Keeper::Book(book), ask) => ask_book(*book, &self.bytes[..lent], ask),
        };
        answered(result)
    }

    /// A text of the day.
    fn text(&self, text: Text, lent: usize) -> Result<String, Refusal> {
        match &self.keeper {
            Keeper::Register(register) => register.free(lent).map(|_| text.of(&**register)),
            Keeper::Book(book) => book.read(&self.bytes[..lent]).map(|all| text.of(&all)),
        }
    }
}

/// Records back to back, on a book over lent bytes.
pub fn feed_book(book: &mut Book, lent: &mut [u8], input: &[u8]) -> Fed {
    feed(input, |change| {
        let (handed, answer) = book.take(lent, change);
        *book = handed;
        answer
    })
}

fn register_change(
    register: &mut Register,
    way: Way,
    lent: usize,
    record: &[u8],
) -> Result<(), Refusal> {
    match way.method() {
        Some(method) => register.call(method, lent, record),
        None => register.change(lent, record),
    }
}

/// One set of questions for register and book, which take the same arguments
/// behind what they are lent.
macro_rules! asked {
    ($keeper:expr, $lent:expr, $ask:expr) => {
        match $ask {
            Ask::Change { .. } | Ask::Feed { .. } | Ask::Text { .. } => Ok(Answer::default()),
            Ask::Record { mark, hour, name } => {
                $keeper.record($lent, mark, *hour, name).map(place_answer)
            }
            Ask::Count { mark, hour } => $keeper.count($lent, mark, *hour).map(size_answer),
            Ask::Free => $keeper.free($lent).map(size_answer),
            Ask::Guarantees { hour } => {
                let guarantees = $keeper.guarantees($lent, *hour)?;
                guarantees_answer(&guarantees, |name| {
                    $keeper.record($lent, b"IM", *hour, name)
                })
            }
            Ask::UnitDay { name } => $keeper
                .unit_day($lent, name)
                .map(|day| Answer::amounts(&[day.total.0, day.reversal.0])),
            Ask::FailureCharge { mark, hour, name } => $keeper
                .failure_charge($lent, mark, *hour, name)
                .map(|charge| Answer::amounts(&[charge.0])),
        }
    };
}

fn ask_register(register: &Register, lent: usize, ask: &Ask) -> Result<Answer, Refusal> {
    asked!(register, lent, ask)
}

fn ask_book(book: Book, lent: &[u8], ask: &Ask) -> Result<Answer, Refusal> {
    asked!(book, lent, ask)
}

fn size_answer(size: u32) -> Answer {
    Answer::sizes(&[u64::from(size)])
}

fn place_answer(place: Place) -> Answer {
    Answer::sizes(&[u64::from(place.start), u64::from(place.length)])
}

/// The number of imports with start and length of each, and the offset with
/// each credit.
fn guarantees_answer(
    guarantees: &Guarantees,
    place_of: impl Fn(&[u8]) -> Result<Place, Refusal>,
) -> Result<Answer, Refusal> {
    let mut sizes = vec![guarantees.credits.len() as u64];
    let mut amounts = vec![guarantees.offset.0];
    for (name, credit) in &guarantees.credits {
        let place = place_of(&name.spelled())?;
        sizes.extend([u64::from(place.start), u64::from(place.length)]);
        amounts.push(credit.0);
    }
    Ok(Answer {
        sizes,
        amounts,
        ..Answer::default()
    })
}
