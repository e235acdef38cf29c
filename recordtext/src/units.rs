//! The numbers of records, by their units.
//!
//! People type them as they stand in the bytes (cents, tenths of a MW), or with
//! a unit: `$30.00`, `-$5.00`, `10.0MW`.

use peer::units::{Cents, Price, Quantity};
use std::ops::RangeInclusive;

/// What a number of four bytes counts.
#[derive(Clone, Copy, Debug, PartialEq, Eq)]
pub enum Unit {
    /// Cents per MWh, i32.
    Price,
    /// Tenths of a MW, u32.
    Quantity,
    /// Cents of a start or an hour, u32.
    Amount,
}

impl Unit {
    /// The number of four bytes.
    pub fn number(self, bytes: [u8; 4]) -> i64 {
        match self {
            Unit::Price => i64::from(i32::from_le_bytes(bytes)),
            Unit::Quantity | Unit::Amount => i64::from(u32::from_le_bytes(bytes)),
        }
    }

    /// What is wrong with a number, as `200001 is above 200,000`.
    pub fn fault(self, number: i64) -> Option<String> {
        let range = self.range();
        if number > *range.end() {
            Some(format!("{number} is above {}", grouped(*range.end())))
        } else if number < *range.start() {
            Some(format!("{number} is below {}", grouped(*range.start())))
        } else {
            None
        }
    }

    /// How a number of this unit is typed.
    pub fn typing(self) -> &'static str {
        match self {
            Unit::Price | Unit::Amount => "cents as 3000, or $30.00",
            Unit::Quantity => "tenths of a MW as 100, or 10.0MW",
        }
    }

    /// The four bytes of a number as it is typed, or what is wrong with it.
    pub fn typed(self, text: &str) -> Result<[u8; 4], &'static str> {
        let sized = |digits| self.signed(text.starts_with('-'), digits);
        let unsigned = text.strip_prefix(['-', '+']).unwrap_or(text);
        if let Some(dollars) = unsigned.strip_prefix('$') {
            if self == Unit::Quantity {
                return Err("is in dollars, where a quantity stands");
            }
            if dollars.starts_with(['-', '+']) {
                return Err("has its sign behind the $");
            }
            return sized(digits_of(dollars, 2, "is finer than a cent")?);
        }
        if let Some(megawatts) = unsigned.strip_suffix("MW") {
            if self != Unit::Quantity {
                return Err("is in MW, where dollars or cents stand");
            }
            return sized(digits_of(megawatts, 1, "is finer than a tenth of a MW")?);
        }
        sized(digits_of(unsigned, 0, "has decimals but no unit")?)
    }

    /// The bytes of a number given by its sign and its digits.
    fn signed(self, is_negative: bool, digits: String) -> Result<[u8; 4], &'static str> {
        const TOO_LONG: &str = "does not fit into four bytes";
        let number: i64 = digits.parse().map_err(|_| TOO_LONG)?;
        let number = if is_negative { -number } else { number };
        match self {
            Unit::Price => i32::try_from(number).map(i32::to_le_bytes),
            _ if number < 0 => return Err("is below 0"),
            _ => u32::try_from(number).map(u32::to_le_bytes),
        }
        .map_err(|_| TOO_LONG)
    }

    /// A number with its unit, as `$30.00` or `10.0MW`.
    pub fn with_unit(self, number: i64) -> String {
        let (sign, size) = (if number < 0 { "-" } else { "" }, number.unsigned_abs());
        match self {
            Unit::Price | Unit::Amount => format!("{sign}${}.{:02}", size / 100, size % 100),
            Unit::Quantity => format!("{sign}{}.{}MW", size / 10, size % 10),
        }
    }

    fn range(self) -> RangeInclusive<i64> {
        match self {
            Unit::Price => i64::from(Price::LEAST)..=i64::from(Price::GREATEST),
            Unit::Quantity => 0..=i64::from(Quantity::GREATEST),
            Unit::Amount => 0..=i64::from(Cents::GREATEST),
        }
    }
}

/// The digits of a number in its smallest part. It has no decimals, or as many
/// as its unit; more of them are told as finer.
fn digits_of(text: &str, decimals: usize, finer: &'static str) -> Result<String, &'static str> {
    let are_digits =
        |part: &str| !part.is_empty() && part.bytes().all(|byte| byte.is_ascii_digit());
    let (whole, part) = text.split_once('.').unwrap_or((text, ""));
    let has_point = whole.len() < text.len();
    if !are_digits(whole) || has_point && !are_digits(part) {
        return Err("is no number");
    }
    match part.len() {
        0 => Ok(format!("{whole}{}", "0".repeat(decimals))),
        length if length == decimals => Ok(format!("{whole}{part}")),
        length if length < decimals => Err("has one decimal, where cents have two"),
        _ => Err(finer),
    }
}

/// A number with commas between its thousands.
pub fn grouped(number: i64) -> String {
    let digits = number.unsigned_abs().to_string();
    let mut text = String::from(if number < 0 { "-" } else { "" });
    for (place, digit) in digits.chars().enumerate() {
        if place > 0 && (digits.len() - place).is_multiple_of(3) {
            text.push(',');
        }
        text.push(digit);
    }
    text
}

#[cfg(test)]
mod tests {
    use super::*;

    #[test]
    fn limits_are_the_units_own() {
        let told = |unit: Unit, number: i64| unit.fault(number).unwrap_or_default();
        assert_eq!(told(Unit::Price, 200_000), "");
        assert_eq!(told(Unit::Price, 200_001), "200001 is above 200,000");
        assert_eq!(told(Unit::Price, -200_001), "-200001 is below -200,000");
        assert_eq!(told(Unit::Quantity, 100_000), "");
        assert_eq!(told(Unit::Quantity, 100_001), "100001 is above 100,000");
        assert_eq!(
            told(Unit::Amount, 100_000_001),
            "100000001 is above 100,000,000"
        );
    }

    /// The number of a text that is typed.
    fn typed(unit: Unit, text: &str) -> Result<i64, &'static str> {
        unit.typed(text).map(|bytes| unit.number(bytes))
    }

    #[test]
    fn numbers_are_typed_with_and_without_their_unit() {
        let prices = [
            "3000", "$30.00", "$30", "+$30.00", "-$5.01", "-501", "$0.00", "-$0.07",
        ];
        let cents = prices.map(|text| typed(Unit::Price, text));
        assert_eq!(cents, [3000, 3000, 3000, 3000, -501, -501, 0, -7].map(Ok));
        let quantities = ["100", "10.0MW", "10MW", "0.1MW", "0", "10000.0MW"];
        let tenths = quantities.map(|text| typed(Unit::Quantity, text));
        assert_eq!(tenths, [100, 100, 100, 1, 0, 100_000].map(Ok));
        assert_eq!(typed(Unit::Amount, "$1000000.00"), Ok(100_000_000));
        // Outside its range, which reading tells.
        assert_eq!(typed(Unit::Price, "$2000.01"), Ok(200_001));
    }

    /// Units and texts, and what is said of them.
    const FAULTS: &[(Unit, &str, &str)] = &[
        (Unit::Quantity, "10.05MW", "is finer than a tenth of a MW"),
        (Unit::Quantity, "10.00MW", "is finer than a tenth of a MW"),
        (Unit::Quantity, "10.0", "has decimals but no unit"),
        (
            Unit::Quantity,
            "$5.00",
            "is in dollars, where a quantity stands",
        ),
        (Unit::Quantity, "-5", "is below 0"),
        (Unit::Quantity, "-0.1MW", "is below 0"),
        (Unit::Quantity, "10mw", "is no number"),
        (Unit::Quantity, "10.MW", "is no number"),
        (Unit::Quantity, "MW", "is no number"),
        (
            Unit::Price,
            "10.0MW",
            "is in MW, where dollars or cents stand",
        ),
        (Unit::Price, "$30.005", "is finer than a cent"),
        (
            Unit::Price,
            "$30.5",
            "has one decimal, where cents have two",
        ),
        (Unit::Price, "30.00", "has decimals but no unit"),
        (Unit::Price, "$-5.00", "has its sign behind the $"),
        (Unit::Price, "--5", "is no number"),
        (Unit::Price, "$1,000.00", "is no number"),
        (Unit::Price, "$.50", "is no number"),
        (Unit::Price, "30.00$", "is no number"),
        (Unit::Price, "", "is no number"),
        (Unit::Price, "3000000000", "does not fit into four bytes"),
        (Unit::Amount, "-$1.00", "is below 0"),
        (
            Unit::Amount,
            "99999999999999999999",
            "does not fit into four bytes",
        ),
    ];

    #[test]
    fn what_is_wrong_with_a_typed_number() {
        for &(unit, text, fault) in FAULTS {
            assert_eq!(typed(unit, text), Err(fault), "{text}");
        }
    }

    #[test]
    fn what_is_shown_with_a_unit_is_typed_so() {
        for (unit, number, text) in [
            (Unit::Price, 3000, "$30.00"),
            (Unit::Price, -7, "-$0.07"),
            (Unit::Amount, 100_000_000, "$1000000.00"),
            (Unit::Quantity, 0, "0.0MW"),
            (Unit::Quantity, 101, "10.1MW"),
        ] {
            assert_eq!(unit.with_unit(number), text);
            assert_eq!(typed(unit, text), Ok(number));
        }
    }

    #[test]
    fn thousands_are_grouped() {
        let groups = [0, 12, 999, 1000, -65_535, 100_000_000].map(grouped);
        assert_eq!(
            groups,
            ["0", "12", "999", "1,000", "-65,535", "100,000,000"]
        );
    }
}
