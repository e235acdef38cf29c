//! Records laid out from raw numbers without any check.
//!
//! Tests and test vectors need bytes that break a rule on purpose; nothing
//! else uses this.

use crate::units::INTERVALS;

/// A list of raw pairs.
pub type RawPairs = Vec<(i32, u32)>;

/// A name as its length byte and its bytes, which need not agree.
#[derive(Clone, Debug, PartialEq, Eq)]
pub struct RawName {
    /// The length byte.
    pub length: u8,
    /// The spelled bytes.
    pub spelled: Vec<u8>,
}

impl RawName {
    /// A name whose length byte is that of its bytes.
    pub fn of(spelled: &[u8]) -> RawName {
        RawName {
            length: spelled.len() as u8,
            spelled: spelled.to_vec(),
        }
    }

    fn write(&self, out: &mut Vec<u8>) {
        out.push(self.length);
        out.extend(&self.spelled);
    }
}

/// The fields of a `GH` record.
#[derive(Clone, Debug, PartialEq, Eq)]
pub struct RawUnit {
    /// Start-up cents.
    pub start_up: u32,
    /// Speed no-load cents.
    pub no_load: u32,
    /// D, R, U, A and K.
    pub schedules: [[u32; INTERVALS]; 5],
    /// Prices and schedules of the three reserves.
    pub reserves: [([i32; INTERVALS], [u32; INTERVALS]); 3],
    /// Lists: day-ahead, real-time, three reserves.
    pub lists: [RawPairs; 5],
}

impl RawUnit {
    /// A unit that did nothing, with one pair in its two energy lists.
    pub fn idle() -> RawUnit {
        RawUnit {
            start_up: 0,
            no_load: 0,
            schedules: [[0; INTERVALS]; 5],
            reserves: [([0; INTERVALS], [0; INTERVALS]); 3],
            lists: [
                vec![(0, 100_000)],
                vec![(0, 100_000)],
                vec![],
                vec![],
                vec![],
            ],
        }
    }
}

/// `PR`.
pub fn price(hour: u8, energy: [i32; INTERVALS], pre_dispatch: i32) -> Vec<u8> {
    let mut out = b"PR".to_vec();
    out.push(hour);
    write_prices(&energy, &mut out);
    write_prices(&[pre_dispatch], &mut out);
    out
}

/// `IM`.
pub fn import(
    hour: u8,
    name: &RawName,
    quantities: [u32; INTERVALS],
    list: &[(i32, u32)],
) -> Vec<u8> {
    let mut out = marked(b"IM", hour, name);
    write_quantities(&quantities, &mut out);
    write_list(list, &mut out);
    out
}

/// `EX`.
pub fn export(hour: u8, name: &RawName, quantities: [u32; INTERVALS]) -> Vec<u8> {
    let mut out = marked(b"EX", hour, name);
    write_quantities(&quantities, &mut out);
    out
}

/// `GH`.
pub fn unit(hour: u8, name: &RawName, unit: &RawUnit) -> Vec<u8> {
    let mut out = marked(b"GH", hour, name);
    write_quantities(&[unit.start_up, unit.no_load], &mut out);
    for schedule in &unit.schedules {
        write_quantities(schedule, &mut out);
    }
    for (prices, schedules) in &unit.reserves {
        write_prices(prices, &mut out);
        write_quantities(schedules, &mut out);
    }
    for list in &unit.lists {
        write_list(list, &mut out);
    }
    out
}

/// `FI` or `FE`: day-ahead and pre-dispatch quantity, then the two prices.
pub fn failure(
    mark: &[u8; 2],
    hour: u8,
    name: &RawName,
    quantities: [u32; 2],
    prices: [i32; 2],
) -> Vec<u8> {
    let mut out = marked(mark, hour, name);
    write_quantities(&quantities, &mut out);
    write_prices(&prices, &mut out);
    out
}

/// `CO` with what stands behind it.
pub fn correct(inner: &[u8]) -> Vec<u8> {
    [b"CO", inner].concat()
}

/// `WD` of a mark, an hour and a name.
pub fn withdraw(mark: &[u8; 2], hour: u8, name: &RawName) -> Vec<u8> {
    [&b"WD"[..], &marked(mark, hour, name)].concat()
}

fn marked(mark: &[u8; 2], hour: u8, name: &RawName) -> Vec<u8> {
    let mut out = mark.to_vec();
    out.push(hour);
    name.write(&mut out);
    out
}

fn write_list(list: &[(i32, u32)], out: &mut Vec<u8>) {
    out.push(list.len() as u8);
    for &(price, quantity) in list {
        write_prices(&[price], out);
        write_quantities(&[quantity], out);
    }
}

fn write_prices(prices: &[i32], out: &mut Vec<u8>) {
    out.extend(prices.iter().flat_map(|price| price.to_le_bytes()));
}

fn write_quantities(quantities: &[u32], out: &mut Vec<u8>) {
    out.extend(
        quantities
            .iter()
            .flat_map(|quantity| quantity.to_le_bytes()),
    );
}
