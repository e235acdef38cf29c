//! Which words stand in the text of each record, in the order of its bytes.

use crate::units::Unit;
use peer::records::Mark;
use peer::units::INTERVALS;

/// How a field's numbers stand in the bytes.
#[derive(Clone, Copy, Debug, PartialEq, Eq)]
pub enum Kind {
    /// So many numbers of a unit, four bytes each.
    Numbers(Unit, usize),
    /// A count byte, then pairs of a price and a quantity.
    List,
}

/// One field behind hour and name.
#[derive(Clone, Copy, Debug, PartialEq, Eq)]
pub struct Field {
    /// Its word, which means the same in every record.
    pub word: &'static str,
    /// The word that it had before; a text may still have it.
    pub former: Option<&'static str>,
    /// Its kind.
    pub kind: Kind,
}

const fn field(word: &'static str, kind: Kind) -> Field {
    Field {
        word,
        former: None,
        kind,
    }
}

const fn renamed(former: &'static str, word: &'static str, kind: Kind) -> Field {
    Field {
        word,
        former: Some(former),
        kind,
    }
}

const TWELVE_PRICES: Kind = Kind::Numbers(Unit::Price, INTERVALS);
const TWELVE: Kind = Kind::Numbers(Unit::Quantity, INTERVALS);
const PRICE: Kind = Kind::Numbers(Unit::Price, 1);
const QUANTITY: Kind = Kind::Numbers(Unit::Quantity, 1);
const AMOUNT: Kind = Kind::Numbers(Unit::Amount, 1);

const PRICE_FIELDS: &[Field] = &[
    field("emp", TWELVE_PRICES),
    renamed("pd", "pd-price", PRICE),
];
const IMPORT_FIELDS: &[Field] = &[field("mqsi", TWELVE), field("offer", Kind::List)];
const EXPORT_FIELDS: &[Field] = &[field("mqsw", TWELVE)];
const FAILURE_FIELDS: &[Field] = &[
    renamed("da", "da-quantity", QUANTITY),
    renamed("pd", "pd-quantity", QUANTITY),
    field("da-price", PRICE),
    field("pd-price", PRICE),
];
const UNIT_FIELDS: &[Field] = &[
    field("start", AMOUNT),
    field("no-load", AMOUNT),
    field("day-ahead", TWELVE),
    field("real-time", TWELVE),
    field("unconstrained", TWELVE),
    field("metered", TWELVE),
    field("capacity", TWELVE),
    field("10s-price", TWELVE_PRICES),
    field("10s-schedule", TWELVE),
    field("10ns-price", TWELVE_PRICES),
    field("10ns-schedule", TWELVE),
    field("30r-price", TWELVE_PRICES),
    field("30r-schedule", TWELVE),
    field("day-ahead-offer", Kind::List),
    field("real-time-offer", Kind::List),
    field("10s-offer", Kind::List),
    field("10ns-offer", Kind::List),
    field("30r-offer", Kind::List),
];

/// A schedule and a list that it must be within, by their words.
pub type Bound = (&'static str, &'static str);

const IMPORT_BOUNDS: &[Bound] = &[("mqsi", "offer")];
const UNIT_BOUNDS: &[Bound] = &[
    ("day-ahead", "day-ahead-offer"),
    ("day-ahead", "real-time-offer"),
    ("10s-schedule", "10s-offer"),
    ("10ns-schedule", "10ns-offer"),
    ("30r-schedule", "30r-offer"),
];

/// The words of a reserve's prices, schedules and list, by reserve. Its list
/// may be empty.
pub const RESERVES: [[&str; 3]; 3] = [
    ["10s-price", "10s-schedule", "10s-offer"],
    ["10ns-price", "10ns-schedule", "10ns-offer"],
    ["30r-price", "30r-schedule", "30r-offer"],
];

/// The six marks of records.
pub const SIX: &str = "PR, IM, EX, GH, FI, FE";
/// The ten marks.
pub const TEN: &str = "PR, IM, EX, GH, FI, FE, CO, WD, TB, CL";

/// The word for a list without pairs.
pub const NO_PAIRS: &str = "none";

/// The fields of a record behind hour and name.
pub fn fields(mark: Mark) -> &'static [Field] {
    match mark {
        Mark::Price => PRICE_FIELDS,
        Mark::Import => IMPORT_FIELDS,
        Mark::Export => EXPORT_FIELDS,
        Mark::Unit => UNIT_FIELDS,
        Mark::ImportFailure | Mark::ExportFailure => FAILURE_FIELDS,
    }
}

/// Which schedules must be within which lists.
pub fn bounds(mark: Mark) -> &'static [Bound] {
    match mark {
        Mark::Import => IMPORT_BOUNDS,
        Mark::Unit => UNIT_BOUNDS,
        _ => &[],
    }
}

/// The schedule of the reserve whose list this is.
pub fn reserve_schedule(list: &str) -> Option<&'static str> {
    let mut reserves = RESERVES.iter();
    reserves
        .find(|words| words[2] == list)
        .map(|words| words[1])
}

/// Whether the record carries a name.
pub fn is_named(mark: Mark) -> bool {
    mark != Mark::Price
}

/// Whether each field stands on a line of its own.
pub fn is_spread(mark: Mark) -> bool {
    mark == Mark::Unit
}

/// The mark as two letters.
pub fn letters(mark: Mark) -> &'static str {
    match mark {
        Mark::Price => "PR",
        Mark::Import => "IM",
        Mark::Export => "EX",
        Mark::Unit => "GH",
        Mark::ImportFailure => "FI",
        Mark::ExportFailure => "FE",
    }
}

#[cfg(test)]
mod tests {
    use super::*;

    #[test]
    fn every_schedule_and_list_is_a_field() {
        for mark in Mark::ALL {
            let kind_of = |word: &str| {
                let mut fields = fields(mark).iter();
                fields
                    .find(|field| field.word == word)
                    .map(|field| field.kind)
            };
            for &(schedule, list) in bounds(mark) {
                assert_eq!(kind_of(schedule), Some(TWELVE));
                assert_eq!(kind_of(list), Some(Kind::List));
            }
        }
        for [price, schedule, list] in RESERVES {
            assert!(fields(Mark::Unit).contains(&field(price, TWELVE_PRICES)));
            assert!(bounds(Mark::Unit).contains(&(schedule, list)));
        }
    }

    /// A word stands for numbers of one kind, and no word is a former one.
    #[test]
    fn one_word_has_one_meaning() {
        let all: Vec<&Field> = Mark::ALL.iter().flat_map(|&mark| fields(mark)).collect();
        for one in &all {
            for other in &all {
                assert!(one.word != other.word || one.kind == other.kind);
                assert_ne!(one.former, Some(other.word));
            }
        }
    }

    #[test]
    fn letters_are_the_marking_bytes() {
        for mark in Mark::ALL {
            assert_eq!(letters(mark).as_bytes(), mark.bytes());
        }
    }
}
