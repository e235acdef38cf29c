//! The money rules over raw numbers, in range or not.
//!
//! Each form checks its numbers in the order of a record and then answers:
//! 5 for a number, 6 for a list, 7 for a schedule beyond its list.

use crate::money::failure::Failure;
use crate::money::intertie::{wheel_offset, ImportSchedule, OffsetImport};
use crate::money::offer::{check_count, Offer, PAIRS_MOST};
use crate::money::production::{Components, Reserve, UnitHour, RESERVES};
use crate::names::Name;
use crate::refusal::Refusal;
use crate::units::{twelve, Cents, Price, Quantity, Ticks, Total, INTERVALS};

/// Most entries the offset takes: it "refuses a 17th entry with 12".
pub const ENTRIES_MOST: usize = 16;

/// A list as raw numbers: its count and places for 20 pairs. The count may be
/// anything; places past it are not looked at.
#[derive(Clone, Copy, Debug, Default, PartialEq, Eq)]
pub struct RawOffer {
    /// How many pairs are used.
    pub count: u32,
    /// Prices in cents per MWh.
    pub prices: [i32; PAIRS_MOST],
    /// Quantities in tenths of a MW.
    pub quantities: [u32; PAIRS_MOST],
}

impl RawOffer {
    /// A list of these pairs; more than 20 leave the count above 20.
    pub fn of(pairs: &[(i32, u32)]) -> RawOffer {
        let mut raw = RawOffer {
            count: u32::try_from(pairs.len()).unwrap_or(u32::MAX),
            ..RawOffer::default()
        };
        for (place, &(price, quantity)) in pairs.iter().take(PAIRS_MOST).enumerate() {
            raw.prices[place] = price;
            raw.quantities[place] = quantity;
        }
        raw
    }

    /// The list as an offer: count 6, each price and quantity 5, then order 6.
    pub fn check(&self) -> Result<Offer, Refusal> {
        let count = usize::try_from(self.count).unwrap_or(usize::MAX);
        check_count(count)?;
        let mut pairs = [(Price::default(), Quantity::ZERO); PAIRS_MOST];
        for (place, pair) in pairs[..count].iter_mut().enumerate() {
            *pair = (
                Price::new(self.prices[place])?,
                Quantity::new(self.quantities[place])?,
            );
        }
        Offer::new(&pairs[..count])
    }

    /// The same for a reserve: "A reserve list may be empty if its schedules
    /// are all 0, else count 0 gives 6."
    pub fn check_reserve(
        &self,
        schedules: &[Quantity; INTERVALS],
    ) -> Result<Option<Offer>, Refusal> {
        if self.count == 0 && Reserve::may_be_unoffered(schedules) {
            return Ok(None);
        }
        self.check().map(Some)
    }
}

/// What a quantity costs: quantity 5, list 6, 5, 6, then 7.
pub fn cost(quantity: u32, offer: &RawOffer) -> Result<Ticks, Refusal> {
    let quantity = Quantity::new(quantity)?;
    offer.check()?.cost(quantity)
}

/// An import's credit for an hour: prices 5, quantities 5, list 6, 5, 6, then
/// 7.
pub fn import_credit(
    prices: &[i32; INTERVALS],
    quantities: &[u32; INTERVALS],
    offer: &RawOffer,
) -> Result<Ticks, Refusal> {
    let prices = twelve(prices, Price::new)?;
    import_schedule(quantities, offer)?.credit(&prices)
}

/// Quantities 5, list 6, 5, 6, then 7.
fn import_schedule(
    quantities: &[u32; INTERVALS],
    offer: &RawOffer,
) -> Result<ImportSchedule, Refusal> {
    let schedule = ImportSchedule {
        quantities: twelve(quantities, Quantity::new)?,
        offer: offer.check()?,
    };
    schedule.check_within_list()?;
    Ok(schedule)
}

/// One entry of "one lent list of whole entries (decoded name, credit, twelve
/// quantities, offer)".
#[derive(Clone, Copy, Debug, PartialEq, Eq)]
pub struct Entry<'a> {
    /// The decoded name.
    pub name: &'a [u8],
    /// The credit in ticks.
    pub credit: i64,
    /// MQSI of each interval.
    pub quantities: [u32; INTERVALS],
    /// The list offered.
    pub offer: RawOffer,
}

impl Entry<'_> {
    /// The entry "with 4, 5, 6, 7 as for a record, 5 for a credit that the
    /// formula doesn't give".
    fn check(&self, prices: &[Price; INTERVALS]) -> Result<OffsetImport, Refusal> {
        let name = Name::from_decoded(self.name)?;
        let schedule = import_schedule(&self.quantities, &self.offer)?;
        let credit = schedule.credit(prices)?;
        if credit != Ticks(self.credit) {
            return Err(Refusal::NumberOutside);
        }
        Ok(OffsetImport {
            name,
            credit,
            schedule,
        })
    }
}

/// The offset over a lent list of entries, in any order. "It refuses a 17th
/// entry with 12, then a price or total with 5, then entry by entry with 4, 5,
/// 6, 7 as for a record, 5 for a credit that the formula doesn't give, 10 for
/// a name already there; else it answers the offset."
pub fn offset_of_entries(
    entries: &[Entry<'_>],
    prices: &[i32; INTERVALS],
    export_totals: &[u32; INTERVALS],
) -> Result<Ticks, Refusal> {
    if entries.len() > ENTRIES_MOST {
        return Err(Refusal::HourFull);
    }
    let prices = twelve(prices, Price::new)?;
    let exports = twelve(export_totals, Total::new)?;
    let mut imports: Vec<OffsetImport> = Vec::with_capacity(entries.len());
    for entry in entries {
        let import = entry.check(&prices)?;
        if imports.iter().any(|earlier| earlier.name == import.name) {
            return Err(Refusal::KeyStands);
        }
        imports.push(import);
    }
    wheel_offset(&imports, &prices, &exports)
}

/// One class of operating reserve as raw numbers.
#[derive(Clone, Copy, Debug, Default, PartialEq, Eq)]
pub struct RawReserve {
    /// Price of each interval.
    pub prices: [i32; INTERVALS],
    /// Unconstrained schedule of each interval.
    pub schedules: [u32; INTERVALS],
    /// The list offered.
    pub offer: RawOffer,
}

/// A unit's hour as raw numbers.
#[derive(Clone, Copy, Debug, Default, PartialEq, Eq)]
pub struct RawUnitHour {
    /// Start-up cents.
    pub start_up: u32,
    /// Speed no-load cents.
    pub no_load: u32,
    /// D of each interval.
    pub day_ahead: [u32; INTERVALS],
    /// R of each interval.
    pub real_time: [u32; INTERVALS],
    /// U of each interval.
    pub unconstrained: [u32; INTERVALS],
    /// A of each interval.
    pub metered: [u32; INTERVALS],
    /// K of each interval.
    pub capacity: [u32; INTERVALS],
    /// The three reserves in C4's order.
    pub reserves: [RawReserve; RESERVES],
    /// The day-ahead list.
    pub day_ahead_offer: RawOffer,
    /// The real-time list.
    pub real_time_offer: RawOffer,
}

impl RawUnitHour {
    /// The hour in the order of its record: all numbers 5, then list by list
    /// 6, 5, 6, then 7.
    pub fn check(&self) -> Result<UnitHour, Refusal> {
        let start_up = Cents::new(self.start_up)?;
        let no_load = Cents::new(self.no_load)?;
        let day_ahead = twelve(&self.day_ahead, Quantity::new)?;
        let real_time = twelve(&self.real_time, Quantity::new)?;
        let unconstrained = twelve(&self.unconstrained, Quantity::new)?;
        let metered = twelve(&self.metered, Quantity::new)?;
        let capacity = twelve(&self.capacity, Quantity::new)?;
        let [first, second, third] = &self.reserves;
        let mut reserves = [first.numbers()?, second.numbers()?, third.numbers()?];
        let day_ahead_offer = self.day_ahead_offer.check()?;
        let real_time_offer = self.real_time_offer.check()?;
        for (reserve, raw) in reserves.iter_mut().zip(&self.reserves) {
            reserve.offer = raw.offer.check_reserve(&reserve.schedules)?;
        }
        let hour = UnitHour {
            start_up,
            no_load,
            day_ahead,
            real_time,
            unconstrained,
            metered,
            capacity,
            reserves,
            day_ahead_offer,
            real_time_offer,
        };
        hour.check_within_lists()?;
        Ok(hour)
    }
}

impl RawReserve {
    /// Prices and schedules, the list still to come.
    fn numbers(&self) -> Result<Reserve, Refusal> {
        Ok(Reserve {
            prices: twelve(&self.prices, Price::new)?,
            schedules: twelve(&self.schedules, Quantity::new)?,
            offer: None,
        })
    }
}

/// The components of a unit's hour: prices 5, then the record's own order.
pub fn unit_hour(prices: &[i32; INTERVALS], hour: &RawUnitHour) -> Result<Components, Refusal> {
    let prices = twelve(prices, Price::new)?;
    hour.check()?.hour(&prices)
}

/// What a unit's hour adds to its day total, start-up included; refused as
/// [`unit_hour`].
pub fn unit_hour_contribution(
    prices: &[i32; INTERVALS],
    hour: &RawUnitHour,
) -> Result<Ticks, Refusal> {
    let prices = twelve(prices, Price::new)?;
    hour.check()?.contribution(&prices)
}

/// A failed import or export as raw numbers.
#[derive(Clone, Copy, Debug, Default, PartialEq, Eq)]
pub struct RawFailure {
    /// The day-ahead quantity.
    pub day_ahead: u32,
    /// The pre-dispatch quantity.
    pub pre_dispatch: u32,
    /// The day-ahead offer or bid.
    pub day_ahead_price: i32,
    /// The pre-dispatch offer or bid.
    pub pre_dispatch_price: i32,
}

impl RawFailure {
    /// Every number 5.
    pub fn check(&self) -> Result<Failure, Refusal> {
        Ok(Failure {
            day_ahead: Quantity::new(self.day_ahead)?,
            pre_dispatch: Quantity::new(self.pre_dispatch)?,
            day_ahead_price: Price::new(self.day_ahead_price)?,
            pre_dispatch_price: Price::new(self.pre_dispatch_price)?,
        })
    }
}

/// An import's failure charge: every number 5.
pub fn import_failure_charge(market: i32, failure: &RawFailure) -> Result<Ticks, Refusal> {
    Ok(failure.check()?.import_charge(Price::new(market)?))
}

/// An export's failure charge: every number 5.
pub fn export_failure_charge(market: i32, failure: &RawFailure) -> Result<Ticks, Refusal> {
    Ok(failure.check()?.export_charge(Price::new(market)?))
}
