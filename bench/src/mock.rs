//! The C interface over the peer, with deliberate bugs.
//!
//! It stands in for the static library, so that the bench itself can be
//! tested: without a bug nothing may differ, with one the bench must find it
//! and cut it down. The bug comes from the environment variable
//! `PEWATUNO_MOCK_BUG`, the layers from `PEWATUNO_MOCK_LAYERS`; a test sets
//! its own for its thread.

#![allow(unsafe_code)]

use crate::answer::Answer;
use crate::bridge::{Layer, State, MISSING, VERSION};
use crate::call::{Alone, Ask, Start, Way};
use crate::peer_side::{self, PeerBook};
use crate::text::Text;
use crate::{wrong_pages, wrong_statements};
use peer::book::Book;
use peer::names;
use peer::records::{parse_for, Change, Method, Record};
use peer::refusal::Refusal;
use peer::units::INTERVALS;
use std::cell::Cell;
use std::env;
use std::slice;

/// A deliberate bug.
#[derive(Clone, Copy, Debug, PartialEq, Eq)]
pub enum Bug {
    /// Another version of the interface.
    WrongVersion,
    /// A negative offset is clamped to 0.
    ClampOffset,
    /// Speed no-load is charged where m is 0.
    NoLoadAtZero,
    /// Names are decoded twice before they are compared.
    DecodeTwice,
    /// A change's own fault comes before 16.
    ReadingBefore16,
    /// 13 writes a byte past the used part.
    TouchAtRefusal,
    /// Taking back a correction leaves its mark.
    ShortTakeBack,
    /// 13 from 100 listed changes on.
    FullAt100,
    /// Reading back to back counts the record that is refused.
    CountRefused,
    /// The statement prints a price that lacks as an amount of 0.
    ZeroForError,
    /// The total adds offsets.
    OffsetAdded,
    /// The total adds the 15 of a price that lacks.
    ErrorAdded,
    /// The total is rounded from the day's ticks.
    TotalOfTicks,
    /// A day without amounts has no total.
    NoTotalAlone,
    /// A page has 58 entries.
    PageOf58,
    /// A page's sum has those before it in it.
    RunningSum,
    /// The total is in its page's sum.
    TotalInSum,
    /// Pages are numbered from 0.
    PageFrom0,
    /// A name on a page has no more than the columns up to 42.
    NameTo42,
    /// The lines of a page end without their blanks.
    BlanksTrimmed,
}

impl Bug {
    /// All bugs and their names in the environment variable.
    pub const ALL: [(Bug, &'static str); 20] = [
        (Bug::WrongVersion, "wrong-version"),
        (Bug::ClampOffset, "clamp-offset"),
        (Bug::NoLoadAtZero, "no-load-at-zero"),
        (Bug::DecodeTwice, "decode-twice"),
        (Bug::ReadingBefore16, "reading-before-16"),
        (Bug::TouchAtRefusal, "touch-at-refusal"),
        (Bug::ShortTakeBack, "short-take-back"),
        (Bug::FullAt100, "full-at-100"),
        (Bug::CountRefused, "count-refused"),
        (Bug::ZeroForError, "zero-for-error"),
        (Bug::OffsetAdded, "offset-added"),
        (Bug::ErrorAdded, "error-added"),
        (Bug::TotalOfTicks, "total-of-ticks"),
        (Bug::NoTotalAlone, "no-total-alone"),
        (Bug::PageOf58, "page-of-58"),
        (Bug::RunningSum, "running-sum"),
        (Bug::TotalInSum, "total-in-sum"),
        (Bug::PageFrom0, "page-from-0"),
        (Bug::NameTo42, "name-to-42"),
        (Bug::BlanksTrimmed, "blanks-trimmed"),
    ];

    fn from_environment() -> Option<Bug> {
        let wanted = env::var("PEWATUNO_MOCK_BUG").ok()?;
        let found = Bug::ALL.iter().find(|(_, name)| *name == wanted);
        match found {
            Some((bug, _)) => Some(*bug),
            None => panic!("PEWATUNO_MOCK_BUG names no bug of the mock: {wanted}"),
        }
    }
}

/// All layers.
const ALL_LAYERS: u32 = 0x3F;

fn layers_from_environment() -> u32 {
    let bits = env::var("PEWATUNO_MOCK_LAYERS").ok();
    bits.map_or(ALL_LAYERS, |bits| {
        bits.parse()
            .expect("PEWATUNO_MOCK_LAYERS is a decimal number")
    })
}

thread_local! {
    static BUG: Cell<Option<Bug>> = Cell::new(Bug::from_environment());
    static LAYERS: Cell<u32> = Cell::new(layers_from_environment());
}

/// Runs something with a bug, in this thread.
pub fn with_bug<T>(bug: Bug, work: impl FnOnce() -> T) -> T {
    let before = BUG.replace(Some(bug));
    let result = work();
    BUG.set(before);
    result
}

fn has(bug: Bug) -> bool {
    BUG.get() == Some(bug)
}

fn lacks(layer: Layer) -> bool {
    LAYERS.get() >> layer as u32 & 1 == 0
}

/// The bytes of a pointer and a count.
unsafe fn taken<'a, T>(pointer: *const T, count: usize) -> &'a [T] {
    // SAFETY: the caller's slice.
    unsafe { slice::from_raw_parts(pointer, count) }
}

/// The same to write to.
unsafe fn lent_out<'a, T>(pointer: *mut T, count: usize) -> &'a mut [T] {
    // SAFETY: the caller's slice.
    unsafe { slice::from_raw_parts_mut(pointer, count) }
}

fn way(method: u32) -> Way {
    Way::ALL[method as usize]
}

/// Puts an answer's sizes and amounts out, unless it is a refusal.
fn put_out(answer: &Answer, sizes: &mut [u64], amounts: &mut [i64]) -> u32 {
    if answer.number == 0 {
        sizes[..answer.sizes.len()].copy_from_slice(&answer.sizes);
        amounts[..answer.amounts.len()].copy_from_slice(&answer.amounts);
    }
    answer.number
}

/// The version.
#[no_mangle]
pub extern "C" fn pewatuno_interface() -> u32 {
    if has(Bug::WrongVersion) {
        VERSION + 1
    } else {
        VERSION
    }
}

/// The layers.
#[no_mangle]
pub extern "C" fn pewatuno_layers() -> u32 {
    LAYERS.get()
}

/// Reading and writing.
///
/// # Safety
/// Each pointer comes with the count of its slice.
#[no_mangle]
pub unsafe extern "C" fn pewatuno_write(
    method: u32,
    record: *const u8,
    record_count: usize,
    out: *mut u8,
    out_count: usize,
    sizes: *mut u64,
    sizes_count: usize,
) -> u32 {
    if lacks(Layer::Records) {
        return MISSING;
    }
    let (record, out, sizes) = unsafe {
        (
            taken(record, record_count),
            lent_out(out, out_count),
            lent_out(sizes, sizes_count),
        )
    };
    let answer = peer_side::alone(&Alone::Write {
        way: way(method),
        record: record.to_vec(),
        room: out.len(),
    });
    out[..answer.bytes.len()].copy_from_slice(&answer.bytes);
    put_out(&answer, sizes, &mut [])
}

/// The next change's length.
///
/// # Safety
/// Each pointer comes with the count of its slice.
#[no_mangle]
pub unsafe extern "C" fn pewatuno_next(
    bytes: *const u8,
    bytes_count: usize,
    sizes: *mut u64,
    sizes_count: usize,
) -> u32 {
    if lacks(Layer::Records) {
        return MISSING;
    }
    let (bytes, sizes) = unsafe { (taken(bytes, bytes_count), lent_out(sizes, sizes_count)) };
    let answer = peer_side::alone(&Alone::Next {
        bytes: bytes.to_vec(),
    });
    put_out(&answer, sizes, &mut [])
}

/// The order of two names.
///
/// # Safety
/// Each pointer comes with the count of its slice.
#[no_mangle]
pub unsafe extern "C" fn pewatuno_compare(
    first: *const u8,
    first_count: usize,
    second: *const u8,
    second_count: usize,
    sizes: *mut u64,
    sizes_count: usize,
) -> u32 {
    if lacks(Layer::Records) {
        return MISSING;
    }
    let (first, second, sizes) = unsafe {
        (
            taken(first, first_count),
            taken(second, second_count),
            lent_out(sizes, sizes_count),
        )
    };
    let answer = peer_side::alone(&Alone::Compare {
        first: compared_name(first),
        second: compared_name(second),
    });
    put_out(&answer, sizes, &mut [])
}

/// The name to compare; with the bug its decoded bytes, to be decoded again.
fn compared_name(spelled: &[u8]) -> Vec<u8> {
    match names::decode(spelled) {
        Ok(name) if has(Bug::DecodeTwice) && names::decode(name.decoded()).is_ok() => {
            name.decoded().to_vec()
        }
        _ => spelled.to_vec(),
    }
}

/// The amount of a record.
///
/// # Safety
/// Each pointer comes with the count of its slice.
#[no_mangle]
pub unsafe extern "C" fn pewatuno_amount(
    prices: *const u8,
    prices_count: usize,
    record: *const u8,
    record_count: usize,
    amounts: *mut i64,
    amounts_count: usize,
) -> u32 {
    if lacks(Layer::Amounts) {
        return MISSING;
    }
    let (prices, record, amounts) = unsafe {
        (
            taken(prices, prices_count),
            taken(record, record_count),
            lent_out(amounts, amounts_count),
        )
    };
    let mut answer = peer_side::alone(&Alone::Amount {
        prices: prices.to_vec(),
        record: record.to_vec(),
    });
    if has(Bug::NoLoadAtZero) && answer.number == 0 {
        answer.amounts[0] += no_load_at_zero(record);
    }
    put_out(&answer, &mut [], amounts)
}

/// Speed no-load of the intervals in which m is 0.
fn no_load_at_zero(record: &[u8]) -> i64 {
    let Ok(Change::File(Record::Unit(record))) = parse_for(Method::File, record) else {
        return 0;
    };
    let unit = &record.unit;
    let idle = (0..INTERVALS).filter(|&interval| {
        let m = unit.day_ahead[interval]
            .min(unit.real_time[interval])
            .min(unit.metered[interval]);
        m.tenths() == 0
    });
    unit.no_load.interval_share().0 * idle.count() as i64
}

/// The book of three numbers over lent bytes.
fn book(numbers: &[u64], lent: &[u8]) -> PeerBook {
    let numbers = numbers.try_into().expect("three numbers");
    let state = State::of_numbers(numbers).expect("numbers within the interface");
    PeerBook::new(&Start::Given(state, lent.to_vec()))
}

/// A change.
///
/// # Safety
/// Each pointer comes with the count of its slice.
#[no_mangle]
pub unsafe extern "C" fn pewatuno_change(
    method: u32,
    state: *mut u64,
    state_count: usize,
    lent: *mut u8,
    lent_count: usize,
    record: *const u8,
    record_count: usize,
) -> u32 {
    if lacks(Layer::Book) {
        return MISSING;
    }
    let (state, lent, record) = unsafe {
        (
            lent_out(state, state_count),
            lent_out(lent, lent_count),
            taken(record, record_count),
        )
    };
    let mut book = book(state, lent);
    let way = way(method);
    let answer = book.change(way, lent.len(), record);
    let number = misled(answer.number, state, way, record);
    if number != 0 {
        if number == 13 && has(Bug::TouchAtRefusal) && (state[1] as usize) < lent.len() {
            lent[state[1] as usize] ^= 0xFF;
        }
        return number;
    }
    state.copy_from_slice(&answer.sizes);
    lent.copy_from_slice(&book.bytes);
    let dropped = &book.bytes[state[1] as usize..];
    if has(Bug::ShortTakeBack) && record == b"TB" && dropped.starts_with(b"CO") {
        state[1] += 2;
    }
    number
}

/// The number of a change under a bug.
fn misled(number: u32, state: &[u64], way: Way, record: &[u8]) -> u32 {
    match number {
        16 if has(Bug::ReadingBefore16) => match peer_side::read(way, record) {
            Ok(_) => 16,
            Err(refusal) => refusal.number(),
        },
        0 if has(Bug::FullAt100) && state[0] >= 100 && record != b"TB" && record != b"CL" => 13,
        number => number,
    }
}

/// A question, its sizes and amounts put out.
fn ask(numbers: &[u64], lent: &[u8], ask: &Ask, sizes: &mut [u64], amounts: &mut [i64]) -> u32 {
    let layer = ask.kind().layer();
    if lacks(layer) {
        return MISSING;
    }
    let mut answer = book(numbers, lent).question(lent.len(), ask);
    if has(Bug::ClampOffset) && matches!(ask, Ask::Guarantees { .. }) && answer.number == 0 {
        answer.amounts[0] = answer.amounts[0].max(0);
    }
    put_out(&answer, sizes, amounts)
}

/// The record of a key.
///
/// # Safety
/// Each pointer comes with the count of its slice.
#[no_mangle]
pub unsafe extern "C" fn pewatuno_record(
    state: *const u64,
    state_count: usize,
    lent: *const u8,
    lent_count: usize,
    mark: *const u8,
    mark_count: usize,
    hour: u32,
    name: *const u8,
    name_count: usize,
    sizes: *mut u64,
    sizes_count: usize,
) -> u32 {
    unsafe {
        let question = Ask::Record {
            mark: taken(mark, mark_count).to_vec(),
            hour,
            name: taken(name, name_count).to_vec(),
        };
        ask(
            taken(state, state_count),
            taken(lent, lent_count),
            &question,
            lent_out(sizes, sizes_count),
            &mut [],
        )
    }
}

/// The count of a mark and hour.
///
/// # Safety
/// Each pointer comes with the count of its slice.
#[no_mangle]
pub unsafe extern "C" fn pewatuno_count(
    state: *const u64,
    state_count: usize,
    lent: *const u8,
    lent_count: usize,
    mark: *const u8,
    mark_count: usize,
    hour: u32,
    sizes: *mut u64,
    sizes_count: usize,
) -> u32 {
    unsafe {
        let question = Ask::Count {
            mark: taken(mark, mark_count).to_vec(),
            hour,
        };
        ask(
            taken(state, state_count),
            taken(lent, lent_count),
            &question,
            lent_out(sizes, sizes_count),
            &mut [],
        )
    }
}

/// Free bytes.
///
/// # Safety
/// Each pointer comes with the count of its slice.
#[no_mangle]
pub unsafe extern "C" fn pewatuno_free(
    state: *const u64,
    state_count: usize,
    lent: *const u8,
    lent_count: usize,
    sizes: *mut u64,
    sizes_count: usize,
) -> u32 {
    unsafe {
        ask(
            taken(state, state_count),
            taken(lent, lent_count),
            &Ask::Free,
            lent_out(sizes, sizes_count),
            &mut [],
        )
    }
}

/// An hour's guarantees.
///
/// # Safety
/// Each pointer comes with the count of its slice.
#[no_mangle]
pub unsafe extern "C" fn pewatuno_guarantees(
    state: *const u64,
    state_count: usize,
    lent: *const u8,
    lent_count: usize,
    hour: u32,
    sizes: *mut u64,
    sizes_count: usize,
    amounts: *mut i64,
    amounts_count: usize,
) -> u32 {
    unsafe {
        ask(
            taken(state, state_count),
            taken(lent, lent_count),
            &Ask::Guarantees { hour },
            lent_out(sizes, sizes_count),
            lent_out(amounts, amounts_count),
        )
    }
}

/// A unit's day.
///
/// # Safety
/// Each pointer comes with the count of its slice.
#[no_mangle]
pub unsafe extern "C" fn pewatuno_unit_day(
    state: *const u64,
    state_count: usize,
    lent: *const u8,
    lent_count: usize,
    name: *const u8,
    name_count: usize,
    amounts: *mut i64,
    amounts_count: usize,
) -> u32 {
    unsafe {
        let question = Ask::UnitDay {
            name: taken(name, name_count).to_vec(),
        };
        ask(
            taken(state, state_count),
            taken(lent, lent_count),
            &question,
            &mut [],
            lent_out(amounts, amounts_count),
        )
    }
}

/// A failure charge.
///
/// # Safety
/// Each pointer comes with the count of its slice.
#[no_mangle]
pub unsafe extern "C" fn pewatuno_failure_charge(
    state: *const u64,
    state_count: usize,
    lent: *const u8,
    lent_count: usize,
    mark: *const u8,
    mark_count: usize,
    hour: u32,
    name: *const u8,
    name_count: usize,
    amounts: *mut i64,
    amounts_count: usize,
) -> u32 {
    unsafe {
        let question = Ask::FailureCharge {
            mark: taken(mark, mark_count).to_vec(),
            hour,
            name: taken(name, name_count).to_vec(),
        };
        ask(
            taken(state, state_count),
            taken(lent, lent_count),
            &question,
            &mut [],
            lent_out(amounts, amounts_count),
        )
    }
}

/// Records back to back.
///
/// # Safety
/// Each pointer comes with the count of its slice.
#[no_mangle]
pub unsafe extern "C" fn pewatuno_feed(
    state: *mut u64,
    state_count: usize,
    lent: *mut u8,
    lent_count: usize,
    input: *const u8,
    input_count: usize,
    sizes: *mut u64,
    sizes_count: usize,
) -> u32 {
    if lacks(Layer::Statement) {
        return MISSING;
    }
    let (state, lent, input, sizes) = unsafe {
        (
            lent_out(state, state_count),
            lent_out(lent, lent_count),
            taken(input, input_count),
            lent_out(sizes, sizes_count),
        )
    };
    let mut book = book(state, lent);
    let answer = book.feed(lent.len(), input);
    let (taken, numbers) = answer.sizes.split_at(2);
    sizes.copy_from_slice(taken);
    state.copy_from_slice(numbers);
    lent.copy_from_slice(&book.bytes);
    if has(Bug::CountRefused) && answer.number != 0 {
        sizes[0] += 1;
    }
    answer.number
}

/// The statement.
///
/// # Safety
/// Each pointer comes with the count of its slice.
#[no_mangle]
pub unsafe extern "C" fn pewatuno_statement(
    state: *const u64,
    state_count: usize,
    lent: *const u8,
    lent_count: usize,
    out: *mut u8,
    out_count: usize,
    sizes: *mut u64,
    sizes_count: usize,
) -> u32 {
    unsafe {
        write_text(
            Text::Statement,
            taken(state, state_count),
            taken(lent, lent_count),
            lent_out(out, out_count),
            lent_out(sizes, sizes_count),
        )
    }
}

/// Its pages.
///
/// # Safety
/// Each pointer comes with the count of its slice.
#[no_mangle]
pub unsafe extern "C" fn pewatuno_pages(
    state: *const u64,
    state_count: usize,
    lent: *const u8,
    lent_count: usize,
    out: *mut u8,
    out_count: usize,
    sizes: *mut u64,
    sizes_count: usize,
) -> u32 {
    unsafe {
        write_text(
            Text::Pages,
            taken(state, state_count),
            taken(lent, lent_count),
            lent_out(out, out_count),
            lent_out(sizes, sizes_count),
        )
    }
}

/// A text of the day, with what a bug makes of it.
fn write_text(text: Text, state: &[u64], lent: &[u8], out: &mut [u8], sizes: &mut [u64]) -> u32 {
    if lacks(text.layer()) {
        return MISSING;
    }
    let room = out.len();
    let mut answer = book(state, lent).question(lent.len(), &Ask::Text { text, room });
    if let (0, Some(bug)) = (answer.number, BUG.get()) {
        answer = fitted(altered(bug, text, state, lent), room);
    }
    out[..answer.bytes.len()].copy_from_slice(&answer.bytes);
    put_out(&answer, sizes, &mut [])
}

/// What a bug makes of a text of a book that has one.
fn altered(bug: Bug, text: Text, state: &[u64], lent: &[u8]) -> Vec<u8> {
    let kept = Book {
        changes: state[0] as u32,
        used: state[1] as u32,
        closed: state[2] == 1,
    };
    let standing = kept.read(lent).expect("a book that has a text");
    let statement = Text::Statement.of(&standing);
    let altered = match text {
        Text::Statement => wrong_statements::altered(bug, &statement, &standing),
        Text::Pages => wrong_pages::altered(bug, &statement).unwrap_or_else(|| text.of(&standing)),
    };
    altered.into_bytes()
}

/// The answer of a call that writes these bytes.
fn fitted(bytes: Vec<u8>, room: usize) -> Answer {
    match bytes.len() <= room {
        true => Answer {
            sizes: vec![bytes.len() as u64],
            bytes,
            ..Answer::default()
        },
        false => Answer::refused(Refusal::NoSpace.number()),
    }
}

/// The C call for one hour's offset.
///
/// # Safety
/// Each pointer comes with the count of its slice.
#[no_mangle]
pub unsafe extern "C" fn pewatuno_hour_offset(
    result: *mut u8,
    result_count: usize,
    records: *const u8,
    records_count: usize,
) -> u32 {
    if lacks(Layer::HourOffset) {
        return MISSING;
    }
    let (result, records) = unsafe {
        (
            lent_out(result, result_count),
            taken(records, records_count),
        )
    };
    let number = peer::hour_offset_call::hour_offset_call(result, records);
    if has(Bug::ClampOffset) && number == 0 && result[7] & 0x80 != 0 {
        result.fill(0);
    }
    number
}
