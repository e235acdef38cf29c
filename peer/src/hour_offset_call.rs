//! The offset of one hour over numbers and bytes, as the trading program
//! calls it.

use crate::questions::guarantees_of;
use crate::records::{parse_hour_record, Change};
use crate::refusal::Refusal;
use crate::register::{Register, LENT_MOST};
use crate::units::{Hour, Ticks};

/// "It takes `PR`, `IM` and `EX` records of one hour back to back. It returns
/// 0 and puts the offset into eight lent bytes (i64 ticks, little-endian), or
/// returns a number and leaves them. Result bytes not eight long give 5 before
/// all else".
pub fn hour_offset_call(result: &mut [u8], records: &[u8]) -> u32 {
    match <&mut [u8; 8]>::try_from(result) {
        Err(_) => Refusal::NumberOutside.number(),
        Ok(result) => match hour_offset(records) {
            Err(refusal) => refusal.number(),
            Ok(offset) => {
                *result = offset.0.to_le_bytes();
                0
            }
        },
    }
}

/// "another mark gives 2, another hour than the first record's 3, imports
/// without `PR` 15 at the end; the rest as filing in a fresh book over 65,535
/// bytes would." No records at all have offset 0.
pub fn hour_offset(records: &[u8]) -> Result<Ticks, Refusal> {
    let mut register = Register::new();
    let mut hour: Option<Hour> = None;
    let mut rest = records;
    while !rest.is_empty() {
        let (record, length) = parse_hour_record(rest, hour)?;
        hour = Some(record.key().hour);
        register.accept(LENT_MOST, Change::File(record))?;
        rest = &rest[length..];
    }
    match hour {
        Some(hour) => Ok(guarantees_of(&register, hour)?.offset),
        None => Ok(Ticks::ZERO),
    }
}
