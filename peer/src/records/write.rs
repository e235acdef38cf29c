//! Writing, in the one canonical form.

use super::{
    Change, ExportRecord, FailureRecord, ImportRecord, Key, PriceRecord, Record, UnitRecord,
};
use crate::money::offer::Offer;
use crate::names::Name;
use crate::units::{Price, Quantity};

/// Bytes of a mark, an hour and a name's length byte.
const KEY_BYTES: usize = 4;
/// Bytes of a number.
const NUMBER: usize = 4;
/// Bytes of twelve numbers.
const TWELVE: usize = 12 * NUMBER;

impl Change {
    /// The written bytes.
    pub fn written(&self) -> Vec<u8> {
        let mut out = Vec::with_capacity(self.written_len());
        match self {
            Change::File(record) => record.write_to(&mut out),
            Change::Correct(record) => {
                out.extend(b"CO");
                record.write_to(&mut out);
            }
            Change::Withdraw(key) => {
                out.extend(b"WD");
                write_withdrawn_key(key, &mut out);
            }
            Change::TakeBack => out.extend(b"TB"),
            Change::Close => out.extend(b"CL"),
        }
        out
    }

    /// How many bytes writing gives, "`CO` and `WD` marks counted".
    pub fn written_len(&self) -> usize {
        match self {
            Change::File(record) => record.written_len(),
            Change::Correct(record) => 2 + record.written_len(),
            Change::Withdraw(key) => 2 + KEY_BYTES + key.name.map_or(0, |name| name.spelled_len()),
            Change::TakeBack | Change::Close => 2,
        }
    }
}

impl Record {
    /// How many bytes writing gives.
    pub fn written_len(&self) -> usize {
        match self {
            // No name, and so no length byte.
            Record::Price(_) => KEY_BYTES - 1 + TWELVE + NUMBER,
            Record::Import(import) => {
                named(&import.name) + TWELVE + list_len(Some(&import.schedule.offer))
            }
            Record::Export(export) => named(&export.name) + TWELVE,
            Record::Unit(unit) => unit_len(unit),
            Record::ImportFailure(failed) | Record::ExportFailure(failed) => {
                named(&failed.name) + 4 * NUMBER
            }
        }
    }

    fn write_to(&self, out: &mut Vec<u8>) {
        out.extend(self.key().mark.bytes());
        match self {
            Record::Price(price) => write_price(price, out),
            Record::Import(import) => write_import(import, out),
            Record::Export(export) => write_export(export, out),
            Record::Unit(unit) => write_unit(unit, out),
            Record::ImportFailure(failed) | Record::ExportFailure(failed) => {
                write_failure(failed, out);
            }
        }
    }
}

fn named(name: &Name) -> usize {
    KEY_BYTES + name.spelled_len()
}

fn list_len(offer: Option<&Offer>) -> usize {
    1 + offer.map_or(0, Offer::count) * 2 * NUMBER
}

fn unit_len(record: &UnitRecord) -> usize {
    let unit = &record.unit;
    let reserve_lists = unit.reserves.iter();
    let lists: usize = list_len(Some(&unit.day_ahead_offer))
        + list_len(Some(&unit.real_time_offer))
        + reserve_lists
            .map(|reserve| list_len(reserve.offer.as_ref()))
            .sum::<usize>();
    let schedules = 5 + 2 * unit.reserves.len();
    named(&record.name) + 2 * NUMBER + schedules * TWELVE + lists
}

fn write_withdrawn_key(key: &Key, out: &mut Vec<u8>) {
    out.extend(key.mark.bytes());
    out.push(key.hour.number());
    match &key.name {
        Some(name) => write_name(name, out),
        None => out.push(0),
    }
}

fn write_price(record: &PriceRecord, out: &mut Vec<u8>) {
    out.push(record.hour.number());
    write_prices(&record.energy, out);
    write_prices(&[record.pre_dispatch], out);
}

fn write_import(record: &ImportRecord, out: &mut Vec<u8>) {
    out.push(record.hour.number());
    write_name(&record.name, out);
    write_quantities(&record.schedule.quantities, out);
    write_list(Some(&record.schedule.offer), out);
}

fn write_export(record: &ExportRecord, out: &mut Vec<u8>) {
    out.push(record.hour.number());
    write_name(&record.name, out);
    write_quantities(&record.quantities, out);
}

fn write_unit(record: &UnitRecord, out: &mut Vec<u8>) {
    let unit = &record.unit;
    out.push(record.hour.number());
    write_name(&record.name, out);
    out.extend(unit.start_up.cents().to_le_bytes());
    out.extend(unit.no_load.cents().to_le_bytes());
    write_quantities(&unit.day_ahead, out);
    write_quantities(&unit.real_time, out);
    write_quantities(&unit.unconstrained, out);
    write_quantities(&unit.metered, out);
    write_quantities(&unit.capacity, out);
    for reserve in &unit.reserves {
        write_prices(&reserve.prices, out);
        write_quantities(&reserve.schedules, out);
    }
    write_list(Some(&unit.day_ahead_offer), out);
    write_list(Some(&unit.real_time_offer), out);
    for reserve in &unit.reserves {
        write_list(reserve.offer.as_ref(), out);
    }
}

fn write_failure(record: &FailureRecord, out: &mut Vec<u8>) {
    let failure = &record.failure;
    out.push(record.hour.number());
    write_name(&record.name, out);
    write_quantities(&[failure.day_ahead, failure.pre_dispatch], out);
    write_prices(&[failure.day_ahead_price, failure.pre_dispatch_price], out);
}

fn write_name(name: &Name, out: &mut Vec<u8>) {
    let spelled = name.spelled();
    // At most 36.
    out.push(spelled.len() as u8);
    out.extend(spelled);
}

fn write_list(offer: Option<&Offer>, out: &mut Vec<u8>) {
    // At most 20.
    out.push(offer.map_or(0, Offer::count) as u8);
    for (price, quantity) in offer.into_iter().flat_map(Offer::pairs) {
        write_prices(&[price], out);
        write_quantities(&[quantity], out);
    }
}

fn write_prices(prices: &[Price], out: &mut Vec<u8>) {
    for price in prices {
        out.extend(price.cents_per_mwh().to_le_bytes());
    }
}

fn write_quantities(quantities: &[Quantity], out: &mut Vec<u8>) {
    for quantity in quantities {
        out.extend(quantity.tenths().to_le_bytes());
    }
}
