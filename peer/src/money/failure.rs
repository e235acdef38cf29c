//! Failure charges (source document 002).

use crate::units::{Price, Quantity, Ticks, INTERVALS};

/// A failed import or export: what was scheduled and what was asked for it.
#[derive(Clone, Copy, Debug, PartialEq, Eq)]
pub struct Failure {
    /// The day-ahead quantity.
    pub day_ahead: Quantity,
    /// The pre-dispatch quantity.
    pub pre_dispatch: Quantity,
    /// The day-ahead offer or bid.
    pub day_ahead_price: Price,
    /// The pre-dispatch offer or bid.
    pub pre_dispatch_price: Price,
}

impl Failure {
    /// "Import: min(max(0, PD market price - DA offer), max(0, PD offer - DA
    /// offer)) × dev × 12 ticks."
    pub fn import_charge(&self, market: Price) -> Ticks {
        let by_market = market.excess_over(self.day_ahead_price);
        let by_offer = self.pre_dispatch_price.excess_over(self.day_ahead_price);
        self.charge(by_market.min(by_offer))
    }

    /// "Export: the same with (DA bid - PD market price) and (DA bid - PD
    /// bid)."
    pub fn export_charge(&self, market: Price) -> Ticks {
        let by_market = self.day_ahead_price.excess_over(market);
        let by_bid = self.day_ahead_price.excess_over(self.pre_dispatch_price);
        self.charge(by_market.min(by_bid))
    }

    /// "dev = max(0, day-ahead quantity - pre-dispatch quantity)."
    pub fn deviation(&self) -> Quantity {
        self.day_ahead.less(self.pre_dispatch)
    }

    fn charge(&self, cents_per_mwh: u32) -> Ticks {
        let deviation = i64::from(self.deviation().tenths());
        Ticks(i64::from(cents_per_mwh) * deviation * INTERVALS as i64)
    }
}
