//! The numbers a call can bring back.

use std::fmt;

/// Why a call was refused. "Each row returns its number only; book and bytes
/// remain."
#[derive(Clone, Copy, Debug, PartialEq, Eq, PartialOrd, Ord, Hash)]
#[repr(u8)]
pub enum Refusal {
    /// "bytes end early"
    EndsEarly = 1,
    /// "unknown mark, or not allowed inside `CO` or `WD`"
    MarkUnknown = 2,
    /// "hour not 1 to 24"
    HourOutside = 3,
    /// "name breaks its rule"
    NameFault = 4,
    /// "number outside its range"
    NumberOutside = 5,
    /// "list breaks its rule"
    ListFault = 6,
    /// "schedule beyond its list"
    BeyondList = 7,
    /// "bytes left over"
    BytesLeftOver = 8,
    /// "closed"
    Closed = 9,
    /// "key stands already"
    KeyStands = 10,
    /// "no such key"
    NoSuchKey = 11,
    /// "hour holds 16 of that mark (8 for `GH`)"
    HourFull = 12,
    /// "free bytes short, or 512 listed"
    NoSpace = 13,
    /// "nothing to take back"
    NothingToTakeBack = 14,
    /// "a question needs a price that is not filed"
    PriceMissing = 15,
    /// "book and lent bytes don't belong together"
    NotTogether = 16,
}

impl Refusal {
    /// All sixteen, in the order of their numbers.
    pub const ALL: [Refusal; 16] = [
        Refusal::EndsEarly,
        Refusal::MarkUnknown,
        Refusal::HourOutside,
        Refusal::NameFault,
        Refusal::NumberOutside,
        Refusal::ListFault,
        Refusal::BeyondList,
        Refusal::BytesLeftOver,
        Refusal::Closed,
        Refusal::KeyStands,
        Refusal::NoSuchKey,
        Refusal::HourFull,
        Refusal::NoSpace,
        Refusal::NothingToTakeBack,
        Refusal::PriceMissing,
        Refusal::NotTogether,
    ];

    /// The number of the row, 1 to 16.
    pub const fn number(self) -> u32 {
        self as u32
    }
}

impl fmt::Display for Refusal {
    fn fmt(&self, out: &mut fmt::Formatter<'_>) -> fmt::Result {
        write!(out, "{}", self.number())
    }
}

#[cfg(test)]
mod tests {
    use super::*;

    #[test]
    fn numbers_run_from_1_to_16() {
        for (place, refusal) in Refusal::ALL.into_iter().enumerate() {
            assert_eq!(refusal.number() as usize, place + 1);
        }
    }
}
