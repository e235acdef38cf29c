//! Questions: their arguments, and amounts worked from standing records.
//!
//! "Questions check 2, 3, 4, 11, 15, as far as they have a mark, hour, name,
//! key or price." 16 comes before and is the business of whoever holds the
//! records.

use crate::money::intertie::{wheel_offset, OffsetImport};
use crate::money::production::{day_total, reversal};
use crate::names::{self, Name};
use crate::records::{FailureRecord, ImportRecord, Key, Mark, PriceRecord, Record, UnitRecord};
use crate::refusal::Refusal;
use crate::units::{Hour, Price, Quantity, Ticks, Total, INTERVALS};

/// Standing records, found by key.
pub trait Standing {
    /// The standing record of a key.
    fn find(&self, key: &Key) -> Option<Record>;

    /// The decoded names of the standing records of a mark and hour, in byte
    /// order; empty for `PR`.
    fn names(&self, mark: Mark, hour: Hour) -> Vec<Name>;
}

/// Where the record of a key stands: "start and length of its written bytes,
/// no `CO` mark". The start is counted from the first lent byte.
#[derive(Clone, Copy, Debug, PartialEq, Eq)]
pub struct Place {
    /// First byte.
    pub start: u32,
    /// Count of bytes.
    pub length: u32,
}

/// An hour's guarantees.
#[derive(Clone, Debug, PartialEq, Eq)]
pub struct Guarantees {
    /// Each import's decoded name and credit, by decoded name in byte order.
    pub credits: Vec<(Name, Ticks)>,
    /// The hour's wheel offset.
    pub offset: Ticks,
}

/// A unit's day.
#[derive(Clone, Copy, Debug, PartialEq, Eq)]
pub struct UnitDay {
    /// The day total.
    pub total: Ticks,
    /// The reversal.
    pub reversal: Ticks,
}

/// "A mark other than the six gives 2"; so do bytes that aren't two.
pub fn mark_argument(mark: &[u8]) -> Result<Mark, Refusal> {
    Mark::of_bytes(mark).ok_or(Refusal::MarkUnknown)
}

/// The key that a question names. "The name is lent as its spelled bytes
/// without the length byte, none for `PR`; every other fault in it, a wrong
/// length too, gives 4."
pub fn key_argument(mark: &[u8], hour: u32, name: &[u8]) -> Result<Key, Refusal> {
    let mark = mark_argument(mark)?;
    let hour = Hour::new(hour)?;
    match mark {
        Mark::Price if name.is_empty() => Ok(Key::price(hour)),
        Mark::Price => Err(Refusal::NameFault),
        _ => Ok(Key::named(mark, hour, names::decode(name)?)),
    }
}

/// The key of a failure: "for a failure charge also one other than `FI` or
/// `FE`" gives 2.
fn failure_key_argument(mark: &[u8], hour: u32, name: &[u8]) -> Result<Key, Refusal> {
    match mark_argument(mark)? {
        Mark::ImportFailure | Mark::ExportFailure => key_argument(mark, hour, name),
        _ => Err(Refusal::MarkUnknown),
    }
}

/// The question for an hour's guarantees.
pub fn guarantees(records: &impl Standing, hour: u32) -> Result<Guarantees, Refusal> {
    guarantees_of(records, Hour::new(hour)?)
}

/// The question for a unit's day, its name spelled.
pub fn unit_day(records: &impl Standing, name: &[u8]) -> Result<UnitDay, Refusal> {
    unit_day_of(records, names::decode(name)?)
}

/// The question for a failure charge.
pub fn failure_charge(
    records: &impl Standing,
    mark: &[u8],
    hour: u32,
    name: &[u8],
) -> Result<Ticks, Refusal> {
    failure_charge_of(records, &failure_key_argument(mark, hour, name)?)
}

/// Credits and offset of an hour. "Guarantees .. need their hour's `PR`; an
/// hour without imports has offset 0 and needs none."
pub fn guarantees_of(records: &impl Standing, hour: Hour) -> Result<Guarantees, Refusal> {
    let imports = imports_of(records, hour);
    if imports.is_empty() {
        return Ok(Guarantees {
            credits: Vec::new(),
            offset: Ticks::ZERO,
        });
    }
    let prices = price_of(records, hour)?.energy;
    let credited = credited(&imports, &prices)?;
    Ok(Guarantees {
        credits: credited
            .iter()
            .map(|import| (import.name, import.credit))
            .collect(),
        offset: wheel_offset(&credited, &prices, &export_totals(records, hour))?,
    })
}

/// Day total and reversal of a unit. "A unit without `GH` gives 11." "each
/// `GH` hour .. need[s its] hour's `PR`": 15.
pub fn unit_day_of(records: &impl Standing, name: Name) -> Result<UnitDay, Refusal> {
    let hours: Vec<UnitRecord> = Hour::all()
        .filter_map(|hour| unit_hour_of(records, hour, name))
        .collect();
    if hours.is_empty() {
        return Err(Refusal::NoSuchKey);
    }
    let prices = hours
        .iter()
        .map(|record| price_of(records, record.hour))
        .collect::<Result<Vec<PriceRecord>, Refusal>>()?;
    let units = hours.iter().map(|record| &record.unit);
    let total = day_total(units.zip(prices.iter().map(|price| &price.energy)))?;
    Ok(UnitDay {
        total,
        reversal: reversal(total),
    })
}

/// The charge of a standing `FI` or `FE`. "each failure charge need[s its]
/// hour's `PR`"; the market price is its PD price.
pub fn failure_charge_of(records: &impl Standing, key: &Key) -> Result<Ticks, Refusal> {
    let record = records.find(key).ok_or(Refusal::NoSuchKey)?;
    let market = price_of(records, key.hour);
    match record {
        Record::ImportFailure(FailureRecord { failure, .. }) => {
            Ok(failure.import_charge(market?.pre_dispatch))
        }
        Record::ExportFailure(FailureRecord { failure, .. }) => {
            Ok(failure.export_charge(market?.pre_dispatch))
        }
        _ => Err(Refusal::MarkUnknown),
    }
}

/// The hour's `PR`; 15 if it isn't filed.
pub fn price_of(records: &impl Standing, hour: Hour) -> Result<PriceRecord, Refusal> {
    match records.find(&Key::price(hour)) {
        Some(Record::Price(price)) => Ok(price),
        _ => Err(Refusal::PriceMissing),
    }
}

fn unit_hour_of(records: &impl Standing, hour: Hour, name: Name) -> Option<UnitRecord> {
    match records.find(&Key::named(Mark::Unit, hour, name))? {
        Record::Unit(unit) => Some(*unit),
        _ => None,
    }
}

/// The hour's imports by decoded name.
fn imports_of(records: &impl Standing, hour: Hour) -> Vec<ImportRecord> {
    let names = records.names(Mark::Import, hour).into_iter();
    names
        .filter_map(
            |name| match records.find(&Key::named(Mark::Import, hour, name))? {
                Record::Import(import) => Some(import),
                _ => None,
            },
        )
        .collect()
}

/// The imports with their credits, in the same order.
fn credited(
    imports: &[ImportRecord],
    prices: &[Price; INTERVALS],
) -> Result<Vec<OffsetImport>, Refusal> {
    imports
        .iter()
        .map(|import| {
            Ok(OffsetImport {
                name: import.name,
                credit: import.schedule.credit(prices)?,
                schedule: import.schedule,
            })
        })
        .collect()
}

/// "sum of all MQSW" in each interval.
fn export_totals(records: &impl Standing, hour: Hour) -> [Total; INTERVALS] {
    let names = records.names(Mark::Export, hour).into_iter();
    let exports: Vec<[Quantity; INTERVALS]> = names
        .filter_map(
            |name| match records.find(&Key::named(Mark::Export, hour, name))? {
                Record::Export(export) => Some(export.quantities),
                _ => None,
            },
        )
        .collect();
    std::array::from_fn(|interval| Total::of(exports.iter().map(|export| export[interval])))
}
