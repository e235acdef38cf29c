//! The calls carried out on the proved side.
//!
//! Outputs are filled with a pattern first, so that a refusal that writes to
//! them shows.

use crate::answer::Answer;
use crate::bridge::{self, State, GUARANTEE_AMOUNTS, GUARANTEE_SIZES, IMPORTS_MOST};
use crate::call::{Alone, Ask};

const SIZE: u64 = 0xA5A5_A5A5_A5A5_A5A5;
const AMOUNT: i64 = 0x5A5A_5A5A_5A5A_5A5A;
const BYTE: u8 = 0xA5;
const TOUCHED: &str = "a refusal wrote to the outputs";

/// A call without a book.
pub fn alone(call: &Alone) -> Answer {
    match call {
        Alone::Write { way, record, room } => write(way.number(), record, *room),
        Alone::Next { bytes } => {
            let mut sizes = [SIZE];
            sized(bridge::next(bytes, &mut sizes), &sizes)
        }
        Alone::Compare { first, second } => {
            let mut sizes = [SIZE];
            sized(bridge::compare(first, second, &mut sizes), &sizes)
        }
        Alone::Amount { prices, record } => {
            let mut amounts = [AMOUNT];
            priced(bridge::amount(prices, record, &mut amounts), &amounts)
        }
        Alone::HourOffset { result, records } => hour_offset(*result, records),
    }
}

fn write(method: u32, record: &[u8], room: usize) -> Answer {
    let mut out = vec![BYTE; room];
    let mut sizes = [SIZE];
    let number = bridge::write(method, record, &mut out, &mut sizes);
    spelled(number, &sizes, out)
}

/// The answer of a call that writes bytes and tells how many.
fn spelled(number: u32, sizes: &[u64; 1], mut out: Vec<u8>) -> Answer {
    let mut answer = sized(number, sizes);
    if number != 0 {
        if out.iter().any(|&byte| byte != BYTE) {
            return answer.with_fault(TOUCHED);
        }
        return answer;
    }
    match usize::try_from(sizes[0]) {
        Ok(length) if length <= out.len() => {
            if out[length..].iter().any(|&byte| byte != BYTE) {
                return answer.with_fault("more written than was told");
            }
            out.truncate(length);
            answer.bytes = out;
            answer
        }
        _ => answer.with_fault("more written than there is room for"),
    }
}

fn hour_offset(result: usize, records: &[u8]) -> Answer {
    let mut bytes = vec![BYTE; result];
    let number = bridge::hour_offset(&mut bytes, records);
    if number == 0 {
        return Answer::result(bytes);
    }
    let answer = Answer::refused(number);
    if bytes.iter().any(|&byte| byte != BYTE) {
        return answer.with_fault(TOUCHED);
    }
    answer
}

/// A change of a book; the answer's sizes are the three numbers handed back.
pub fn change(method: u32, state: State, lent: &mut [u8], record: &[u8]) -> Answer {
    let mut numbers = [SIZE; 3];
    let number = bridge::change(method, state, &mut numbers, lent, record);
    if number == 0 {
        return Answer::sizes(&numbers);
    }
    let answer = Answer::refused(number);
    if numbers != state.numbers() {
        return answer.with_fault("a refused change altered the book");
    }
    answer
}

/// Records back to back; the answer's sizes are the records and bytes taken and
/// the three numbers handed back, at a refusal too.
pub fn feed(state: State, lent: &mut [u8], input: &[u8]) -> Answer {
    let (mut numbers, mut sizes) = ([SIZE; 3], [SIZE; 2]);
    let number = bridge::feed(state, &mut numbers, lent, input, &mut sizes);
    Answer {
        number,
        ..Answer::sizes(&[&sizes[..], &numbers].concat())
    }
}

/// A question to a book.
pub fn question(state: State, lent: &[u8], ask: &Ask) -> Answer {
    match ask {
        Ask::Change { .. } | Ask::Feed { .. } => Answer::default().with_fault("not a question"),
        Ask::Record { mark, hour, name } => {
            let mut sizes = [SIZE; 2];
            let number = bridge::record(state, lent, mark, *hour, name, &mut sizes);
            sized(number, &sizes)
        }
        Ask::Count { mark, hour } => {
            let mut sizes = [SIZE];
            sized(bridge::count(state, lent, mark, *hour, &mut sizes), &sizes)
        }
        Ask::Free => {
            let mut sizes = [SIZE];
            sized(bridge::free(state, lent, &mut sizes), &sizes)
        }
        Ask::Guarantees { hour } => guarantees(state, lent, *hour),
        Ask::UnitDay { name } => {
            let mut amounts = [AMOUNT; 2];
            priced(bridge::unit_day(state, lent, name, &mut amounts), &amounts)
        }
        Ask::FailureCharge { mark, hour, name } => {
            let mut amounts = [AMOUNT];
            let number = bridge::failure_charge(state, lent, mark, *hour, name, &mut amounts);
            priced(number, &amounts)
        }
        Ask::Text { text, room } => {
            let (mut out, mut sizes) = (vec![BYTE; *room], [SIZE]);
            let number = bridge::text(*text, state, lent, &mut out, &mut sizes);
            spelled(number, &sizes, out)
        }
    }
}

fn guarantees(state: State, lent: &[u8], hour: u32) -> Answer {
    let mut sizes = [SIZE; GUARANTEE_SIZES];
    let mut amounts = [AMOUNT; GUARANTEE_AMOUNTS];
    let number = bridge::guarantees(state, lent, hour, &mut sizes, &mut amounts);
    if number != 0 {
        let answer = sized(number, &sizes);
        return match priced(number, &amounts).fault {
            Some(fault) => answer.with_fault(fault),
            None => answer,
        };
    }
    match usize::try_from(sizes[0]) {
        Ok(imports) if imports <= IMPORTS_MOST => Answer {
            sizes: sizes[..1 + 2 * imports].to_vec(),
            amounts: amounts[..1 + imports].to_vec(),
            ..Answer::default()
        },
        _ => Answer::sizes(&sizes[..1]).with_fault("more than 16 imports answered"),
    }
}

/// The answer of a call whose outputs are sizes.
fn sized(number: u32, sizes: &[u64]) -> Answer {
    if number == 0 {
        return Answer::sizes(sizes);
    }
    let answer = Answer::refused(number);
    if sizes.iter().any(|&size| size != SIZE) {
        return answer.with_fault(TOUCHED);
    }
    answer
}

/// The answer of a call whose outputs are amounts.
fn priced(number: u32, amounts: &[i64]) -> Answer {
    if number == 0 {
        return Answer::amounts(amounts);
    }
    let answer = Answer::refused(number);
    if amounts.iter().any(|&amount| amount != AMOUNT) {
        return answer.with_fault(TOUCHED);
    }
    answer
}
