//! Records and changes: their fields, reading and writing.

pub mod raw;
mod read;
mod write;

use crate::money::failure::Failure;
use crate::money::intertie::ImportSchedule;
use crate::money::production::UnitHour;
use crate::names::Name;
use crate::units::{Hour, Price, Quantity, INTERVALS};

pub use read::{
    parse_canonical_prefix, parse_change, parse_change_prefix, parse_for, parse_hour_record,
    parse_record_prefix,
};

/// The mark of "one of the six", in the order of the listing.
#[derive(Clone, Copy, Debug, PartialEq, Eq, PartialOrd, Ord, Hash)]
pub enum Mark {
    /// `PR`, the hour's prices.
    Price,
    /// `IM`, an import.
    Import,
    /// `EX`, an export.
    Export,
    /// `GH`, a unit's hour.
    Unit,
    /// `FI`, a failed import.
    ImportFailure,
    /// `FE`, a failed export.
    ExportFailure,
}

impl Mark {
    /// The six, in the order of the listing.
    pub const ALL: [Mark; 6] = [
        Mark::Price,
        Mark::Import,
        Mark::Export,
        Mark::Unit,
        Mark::ImportFailure,
        Mark::ExportFailure,
    ];

    /// The two marking bytes.
    pub const fn bytes(self) -> [u8; 2] {
        match self {
            Mark::Price => *b"PR",
            Mark::Import => *b"IM",
            Mark::Export => *b"EX",
            Mark::Unit => *b"GH",
            Mark::ImportFailure => *b"FI",
            Mark::ExportFailure => *b"FE",
        }
    }

    /// The mark of two marking bytes, none for bytes outside the six.
    pub fn of_bytes(bytes: &[u8]) -> Option<Mark> {
        Mark::ALL.into_iter().find(|mark| mark.bytes() == bytes)
    }

    /// The mark's place in an array, 0 to 5.
    pub const fn place(self) -> usize {
        self as usize
    }

    /// "hour holds 16 of that mark (8 for `GH`)".
    pub const fn hour_limit(self) -> usize {
        match self {
            Mark::Unit => 8,
            _ => 16,
        }
    }
}

/// "Key: mark, hour, decoded name." `PR` has no name.
#[derive(Clone, Copy, Debug, PartialEq, Eq, PartialOrd, Ord, Hash)]
pub struct Key {
    /// The mark.
    pub mark: Mark,
    /// The hour.
    pub hour: Hour,
    /// The decoded name, none for `PR`.
    pub name: Option<Name>,
}

impl Key {
    /// The key of the hour's `PR`.
    pub fn price(hour: Hour) -> Key {
        Key {
            mark: Mark::Price,
            hour,
            name: None,
        }
    }

    /// The key of a named record.
    pub fn named(mark: Mark, hour: Hour, name: Name) -> Key {
        Key {
            mark,
            hour,
            name: Some(name),
        }
    }
}

/// "`PR`: hour byte 1 to 24, 12 EMP i32, PD price i32."
#[derive(Clone, Copy, Debug, PartialEq, Eq)]
pub struct PriceRecord {
    /// The hour.
    pub hour: Hour,
    /// EMP of each interval.
    pub energy: [Price; INTERVALS],
    /// The pre-dispatch market price.
    pub pre_dispatch: Price,
}

/// "`IM`: hour, name, 12 MQSI u32, list."
#[derive(Clone, Copy, Debug, PartialEq, Eq)]
pub struct ImportRecord {
    /// The hour.
    pub hour: Hour,
    /// The decoded name.
    pub name: Name,
    /// Quantities and offer.
    pub schedule: ImportSchedule,
}

/// "`EX`: hour, name, 12 MQSW."
#[derive(Clone, Copy, Debug, PartialEq, Eq)]
pub struct ExportRecord {
    /// The hour.
    pub hour: Hour,
    /// The decoded name.
    pub name: Name,
    /// MQSW of each interval.
    pub quantities: [Quantity; INTERVALS],
}

/// `GH`: a unit's hour.
#[derive(Clone, Copy, Debug, PartialEq, Eq)]
pub struct UnitRecord {
    /// The hour.
    pub hour: Hour,
    /// The decoded name.
    pub name: Name,
    /// Amounts, schedules and lists.
    pub unit: UnitHour,
}

/// "`FI`, `FE`: hour, name, day-ahead quantity, pre-dispatch quantity, DA
/// price, PD price."
#[derive(Clone, Copy, Debug, PartialEq, Eq)]
pub struct FailureRecord {
    /// The hour.
    pub hour: Hour,
    /// The decoded name.
    pub name: Name,
    /// Quantities and prices.
    pub failure: Failure,
}

/// A record of one of the six marks.
#[derive(Clone, Debug, PartialEq, Eq)]
pub enum Record {
    /// `PR`.
    Price(PriceRecord),
    /// `IM`.
    Import(ImportRecord),
    /// `EX`.
    Export(ExportRecord),
    /// `GH`.
    Unit(Box<UnitRecord>),
    /// `FI`.
    ImportFailure(FailureRecord),
    /// `FE`.
    ExportFailure(FailureRecord),
}

impl Record {
    /// The record's key.
    pub fn key(&self) -> Key {
        match self {
            Record::Price(price) => Key::price(price.hour),
            Record::Import(import) => Key::named(Mark::Import, import.hour, import.name),
            Record::Export(export) => Key::named(Mark::Export, export.hour, export.name),
            Record::Unit(unit) => Key::named(Mark::Unit, unit.hour, unit.name),
            Record::ImportFailure(failed) => {
                Key::named(Mark::ImportFailure, failed.hour, failed.name)
            }
            Record::ExportFailure(failed) => {
                Key::named(Mark::ExportFailure, failed.hour, failed.name)
            }
        }
    }
}

/// One of the five changes.
#[derive(Clone, Debug, PartialEq, Eq)]
pub enum Change {
    /// "Filing adds a record".
    File(Record),
    /// "`CO` replaces the one of its key".
    Correct(Record),
    /// "`WD` removes it".
    Withdraw(Key),
    /// "`TB` drops the list's last entry."
    TakeBack,
    /// "`CL` closes and leaves the list."
    Close,
}

impl Change {
    /// The key of the record that it files, corrects or withdraws.
    pub fn key(&self) -> Option<Key> {
        match self {
            Change::File(record) | Change::Correct(record) => Some(record.key()),
            Change::Withdraw(key) => Some(*key),
            Change::TakeBack | Change::Close => None,
        }
    }
}

/// The five methods, each of which takes its own marks only.
#[derive(Clone, Copy, Debug, PartialEq, Eq, Hash)]
pub enum Method {
    /// Takes a record of any of the six marks.
    File,
    /// Takes `CO`.
    Correct,
    /// Takes `WD`.
    Withdraw,
    /// Takes `TB`.
    TakeBack,
    /// Takes `CL`.
    Close,
}

impl Method {
    /// The five, in the order of the changes.
    pub const ALL: [Method; 5] = [
        Method::File,
        Method::Correct,
        Method::Withdraw,
        Method::TakeBack,
        Method::Close,
    ];
}
