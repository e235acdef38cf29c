//! The intertie guarantee and the wheel offset (source document 003).

use crate::money::offer::Offer;
use crate::names::Name;
use crate::refusal::Refusal;
use crate::units::{Price, Quantity, Ticks, Total, INTERVALS};

/// An import's scheduled quantities (MQSI) and its offer.
#[derive(Clone, Copy, Debug, PartialEq, Eq)]
pub struct ImportSchedule {
    /// MQSI of each interval.
    pub quantities: [Quantity; INTERVALS],
    /// The list offered.
    pub offer: Offer,
}

impl ImportSchedule {
    /// "Each MQSI must be within its list": 7.
    pub fn check_within_list(&self) -> Result<(), Refusal> {
        self.offer.check_within(&self.quantities)
    }

    /// "An import's credit for an hour is -min(0, sum of OP over 12
    /// intervals)."
    pub fn credit(&self, prices: &[Price; INTERVALS]) -> Result<Ticks, Refusal> {
        credit_at(prices, &self.quantities, &self.offer)
    }
}

/// One import of an hour as the offset takes it.
#[derive(Clone, Copy, Debug, PartialEq, Eq)]
pub struct OffsetImport {
    /// The decoded name.
    pub name: Name,
    /// The credit that the formula gives.
    pub credit: Ticks,
    /// Quantities and offer.
    pub schedule: ImportSchedule,
}

/// Profit of one interval: "OP = EMP × Q - C(Q)".
fn profit(price: Price, quantity: Quantity, offer: &Offer) -> Result<Ticks, Refusal> {
    Ok(price.over(quantity) - offer.cost(quantity)?)
}

/// The credit at these quantities, scheduled or adjusted.
fn credit_at(
    prices: &[Price; INTERVALS],
    quantities: &[Quantity; INTERVALS],
    offer: &Offer,
) -> Result<Ticks, Refusal> {
    let mut sum = Ticks::ZERO;
    for (&price, &quantity) in prices.iter().zip(quantities) {
        sum += profit(price, quantity, offer)?;
    }
    Ok(-sum.min(Ticks::ZERO))
}

/// "Offset = sum of credits - sum of credits worked again with adj." The
/// imports may come in any order; "Order: credit ascending, then decoded name
/// in byte order, a prefix first. All imports take part, those of credit 0
/// too."
pub fn wheel_offset(
    imports: &[OffsetImport],
    prices: &[Price; INTERVALS],
    exports: &[Total; INTERVALS],
) -> Result<Ticks, Refusal> {
    let mut ordered: Vec<&OffsetImport> = imports.iter().collect();
    ordered.sort_unstable_by_key(|import| (import.credit, import.name));
    let mut so_far = [0; INTERVALS];
    let mut offset = Ticks::ZERO;
    for import in ordered {
        let adjusted = adjusted(&import.schedule.quantities, &mut so_far, exports);
        let again = credit_at(prices, &adjusted, &import.schedule.offer)?;
        offset += import.credit - again;
    }
    Ok(offset)
}

/// "In each interval, adj of an import = min(MQSI, max(0, sum of MQSI up to
/// and including it - sum of all MQSW))." The running sums move on.
fn adjusted(
    quantities: &[Quantity; INTERVALS],
    so_far: &mut [u32; INTERVALS],
    exports: &[Total; INTERVALS],
) -> [Quantity; INTERVALS] {
    let mut adjusted = *quantities;
    for (interval, quantity) in adjusted.iter_mut().enumerate() {
        so_far[interval] += quantity.tenths();
        let beyond_exports = so_far[interval].saturating_sub(exports[interval].tenths());
        *quantity = quantity.at_most(beyond_exports);
    }
    adjusted
}
