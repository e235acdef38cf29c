//! Price, quantity, cents, ticks and hour, each a type of its own.
//!
//! "price, quantity and money are never added to one another here": no
//! operator joins two of these types; they cross in [`Price::over`] alone.

use crate::refusal::Refusal;
use std::iter::Sum;
use std::ops::{Add, AddAssign, Neg, Sub};

/// Intervals of an hour.
pub const INTERVALS: usize = 12;

/// "Price: whole cents per MWh, -200,000 to 200,000".
#[derive(Clone, Copy, Debug, Default, PartialEq, Eq, PartialOrd, Ord, Hash)]
pub struct Price(i32);

impl Price {
    /// The least price, in cents per MWh.
    pub const LEAST: i32 = -200_000;
    /// The greatest price, in cents per MWh.
    pub const GREATEST: i32 = 200_000;

    /// A price of so many cents per MWh; 5 outside the limits.
    pub fn new(cents_per_mwh: i32) -> Result<Price, Refusal> {
        if (Self::LEAST..=Self::GREATEST).contains(&cents_per_mwh) {
            Ok(Price(cents_per_mwh))
        } else {
            Err(Refusal::NumberOutside)
        }
    }

    /// Whole cents per MWh.
    pub const fn cents_per_mwh(self) -> i32 {
        self.0
    }

    /// "A price times a quantity for one interval is that many ticks".
    pub fn over(self, quantity: Quantity) -> Ticks {
        Ticks(i64::from(self.0) * i64::from(quantity.0))
    }

    /// How far this price lies above another, 0 if it doesn't, in cents per
    /// MWh.
    pub fn excess_over(self, other: Price) -> u32 {
        // The limits keep the difference far inside 32 bits.
        (self.0 - other.0).max(0).unsigned_abs()
    }
}

/// "Quantity: tenths of a MW, 0 to 100,000."
#[derive(Clone, Copy, Debug, Default, PartialEq, Eq, PartialOrd, Ord, Hash)]
pub struct Quantity(u32);

impl Quantity {
    /// No quantity.
    pub const ZERO: Quantity = Quantity(0);
    /// The greatest quantity, in tenths of a MW.
    pub const GREATEST: u32 = 100_000;

    /// A quantity of so many tenths of a MW; 5 above the limit.
    pub fn new(tenths: u32) -> Result<Quantity, Refusal> {
        if tenths <= Self::GREATEST {
            Ok(Quantity(tenths))
        } else {
            Err(Refusal::NumberOutside)
        }
    }

    /// Tenths of a MW.
    pub const fn tenths(self) -> u32 {
        self.0
    }

    /// The quantity, or so many tenths if that is less.
    pub fn at_most(self, tenths: u32) -> Quantity {
        Quantity(self.0.min(tenths))
    }

    /// The difference to a smaller quantity, 0 if the other is greater.
    pub fn less(self, other: Quantity) -> Quantity {
        Quantity(self.0.saturating_sub(other.0))
    }
}

/// A sum of quantities over the imports or exports of an interval: "each at
/// most 1,600,000".
#[derive(Clone, Copy, Debug, Default, PartialEq, Eq, PartialOrd, Ord, Hash)]
pub struct Total(u32);

impl Total {
    /// The greatest total, in tenths of a MW.
    pub const GREATEST: u32 = 1_600_000;

    /// A total of so many tenths of a MW; 5 above the limit.
    pub fn new(tenths: u32) -> Result<Total, Refusal> {
        if tenths <= Self::GREATEST {
            Ok(Total(tenths))
        } else {
            Err(Refusal::NumberOutside)
        }
    }

    /// Tenths of a MW.
    pub const fn tenths(self) -> u32 {
        self.0
    }

    /// The sum of at most sixteen quantities.
    pub fn of(quantities: impl IntoIterator<Item = Quantity>) -> Total {
        Total(quantities.into_iter().map(Quantity::tenths).sum())
    }
}

/// An amount filed in whole cents: a start-up, or speed no-load for an hour,
/// "each at most 100,000,000".
#[derive(Clone, Copy, Debug, Default, PartialEq, Eq, PartialOrd, Ord, Hash)]
pub struct Cents(u32);

impl Cents {
    /// The greatest filed amount.
    pub const GREATEST: u32 = 100_000_000;

    /// So many cents; 5 above the limit.
    pub fn new(cents: u32) -> Result<Cents, Refusal> {
        if cents <= Self::GREATEST {
            Ok(Cents(cents))
        } else {
            Err(Refusal::NumberOutside)
        }
    }

    /// Whole cents.
    pub const fn cents(self) -> u32 {
        self.0
    }

    /// The whole amount in ticks: "120 ticks a cent".
    pub fn in_ticks(self) -> Ticks {
        Ticks(i64::from(self.0) * Ticks::PER_CENT)
    }

    /// One interval's share of an hourly amount: "(cents per hour) × 10
    /// ticks".
    pub fn interval_share(self) -> Ticks {
        Ticks(i64::from(self.0) * (Ticks::PER_CENT / INTERVALS as i64))
    }
}

/// "Money: ticks of 1/120 cent, signed."
#[derive(Clone, Copy, Debug, Default, PartialEq, Eq, PartialOrd, Ord, Hash)]
pub struct Ticks(pub i64);

impl Ticks {
    /// No money.
    pub const ZERO: Ticks = Ticks(0);
    /// Ticks of a cent.
    pub const PER_CENT: i64 = 120;

    /// Whole cents, "rounded half away from zero".
    pub fn rounded_cents(self) -> i64 {
        let half = Self::PER_CENT.unsigned_abs() / 2;
        let cents = (self.0.unsigned_abs() + half) / Self::PER_CENT.unsigned_abs();
        // At most 2^63 / 120, so the sign always fits.
        if self.0 < 0 {
            -(cents as i64)
        } else {
            cents as i64
        }
    }
}

impl Add for Ticks {
    type Output = Ticks;
    fn add(self, other: Ticks) -> Ticks {
        Ticks(self.0 + other.0)
    }
}

impl AddAssign for Ticks {
    fn add_assign(&mut self, other: Ticks) {
        self.0 += other.0;
    }
}

impl Sub for Ticks {
    type Output = Ticks;
    fn sub(self, other: Ticks) -> Ticks {
        Ticks(self.0 - other.0)
    }
}

impl Neg for Ticks {
    type Output = Ticks;
    fn neg(self) -> Ticks {
        Ticks(-self.0)
    }
}

impl Sum for Ticks {
    fn sum<I: Iterator<Item = Ticks>>(amounts: I) -> Ticks {
        amounts.fold(Ticks::ZERO, Add::add)
    }
}

/// "hour byte 1 to 24".
#[derive(Clone, Copy, Debug, PartialEq, Eq, PartialOrd, Ord, Hash)]
pub struct Hour(u8);

impl Hour {
    /// Hours of a day.
    pub const COUNT: usize = 24;

    /// An hour 1 to 24; 3 outside.
    pub fn new(hour: u32) -> Result<Hour, Refusal> {
        match u8::try_from(hour) {
            Ok(hour @ 1..=24) => Ok(Hour(hour)),
            _ => Err(Refusal::HourOutside),
        }
    }

    /// All hours of the day in turn.
    pub fn all() -> impl Iterator<Item = Hour> {
        (1..=Self::COUNT as u8).map(Hour)
    }

    /// The hour's number, 1 to 24.
    pub const fn number(self) -> u8 {
        self.0
    }

    /// The hour's place in an array, 0 to 23.
    pub const fn place(self) -> usize {
        self.0 as usize - 1
    }
}

/// Checks each of twelve numbers in turn; the first that is refused decides.
pub fn twelve<Raw: Copy, Unit: Copy + Default>(
    raw: &[Raw; INTERVALS],
    check: impl Fn(Raw) -> Result<Unit, Refusal>,
) -> Result<[Unit; INTERVALS], Refusal> {
    let mut checked = [Unit::default(); INTERVALS];
    for (place, &number) in checked.iter_mut().zip(raw) {
        *place = check(number)?;
    }
    Ok(checked)
}

#[cfg(test)]
mod tests {
    use super::*;

    #[test]
    fn limits_are_inclusive() {
        assert_eq!(Price::new(200_000).unwrap().cents_per_mwh(), 200_000);
        assert_eq!(Price::new(-200_000).unwrap().cents_per_mwh(), -200_000);
        assert_eq!(Price::new(200_001), Err(Refusal::NumberOutside));
        assert_eq!(Price::new(-200_001), Err(Refusal::NumberOutside));
        assert_eq!(Price::new(i32::MIN), Err(Refusal::NumberOutside));
        assert_eq!(Quantity::new(100_000).unwrap().tenths(), 100_000);
        assert_eq!(Quantity::new(100_001), Err(Refusal::NumberOutside));
        assert_eq!(Cents::new(100_000_000).unwrap().cents(), 100_000_000);
        assert_eq!(Cents::new(100_000_001), Err(Refusal::NumberOutside));
        assert_eq!(Total::new(1_600_000).unwrap().tenths(), 1_600_000);
        assert_eq!(Total::new(1_600_001), Err(Refusal::NumberOutside));
    }

    #[test]
    fn hours_are_1_to_24() {
        for hour in [0, 25, 255, 256, 257, u32::MAX] {
            assert_eq!(Hour::new(hour), Err(Refusal::HourOutside));
        }
        let all: Vec<u8> = Hour::all().map(Hour::number).collect();
        assert_eq!(all, (1..=24).collect::<Vec<u8>>());
        assert_eq!(Hour::new(24).unwrap().place(), 23);
    }

    #[test]
    fn cents_are_rounded_half_away_from_zero() {
        let cases = [
            (0, 0),
            (59, 0),
            (60, 1),
            (61, 1),
            (179, 1),
            (180, 2),
            (-59, 0),
            (-60, -1),
            (-61, -1),
            (-179, -1),
            (-180, -2),
            (-110_000, -917),
            (i64::MAX, 76_861_433_640_456_465),
            (i64::MIN, -76_861_433_640_456_465),
        ];
        for (ticks, cents) in cases {
            assert_eq!(Ticks(ticks).rounded_cents(), cents, "{ticks} ticks");
        }
    }

    #[test]
    fn an_hour_is_twelve_intervals() {
        let hourly = Cents::new(37_000).unwrap();
        let shares: Ticks = (0..INTERVALS).map(|_| hourly.interval_share()).sum();
        assert_eq!(shares, hourly.in_ticks());
        assert_eq!(hourly.interval_share(), Ticks(370_000));
    }
}
