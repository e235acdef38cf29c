//! The production cost guarantee (source document 001).

use crate::money::offer::Offer;
use crate::refusal::Refusal;
use crate::units::{Cents, Price, Quantity, Ticks, INTERVALS};
use std::iter::Sum;
use std::ops::Add;

/// Classes of operating reserve, "in C4's order": 10-minute spinning,
/// 10-minute non-spinning, 30-minute.
pub const RESERVES: usize = 3;

/// One class of operating reserve in an hour.
#[derive(Clone, Copy, Debug, PartialEq, Eq)]
pub struct Reserve {
    /// Price of each interval.
    pub prices: [Price; INTERVALS],
    /// Unconstrained schedule of each interval (S1, S2 or S3).
    pub schedules: [Quantity; INTERVALS],
    /// The list offered; none where the list is empty.
    pub offer: Option<Offer>,
}

impl Reserve {
    /// Whether the list may be empty: "if its schedules are all 0".
    pub fn may_be_unoffered(schedules: &[Quantity; INTERVALS]) -> bool {
        schedules.iter().all(|&schedule| schedule == Quantity::ZERO)
    }

    /// Net income of one interval: "price × q - cost(q)". An empty list costs
    /// nothing at 0 and has no cost above.
    fn income(&self, interval: usize, quantity: Quantity) -> Result<Ticks, Refusal> {
        let cost = match &self.offer {
            Some(offer) => offer.cost(quantity)?,
            None if quantity == Quantity::ZERO => Ticks::ZERO,
            None => return Err(Refusal::BeyondList),
        };
        Ok(self.prices[interval].over(quantity) - cost)
    }

    fn check_within_list(&self) -> Result<(), Refusal> {
        match &self.offer {
            Some(offer) => offer.check_within(&self.schedules),
            None if Self::may_be_unoffered(&self.schedules) => Ok(()),
            None => Err(Refusal::BeyondList),
        }
    }
}

/// A unit's hour: schedules, metered output, capacity, reserves and offers.
#[derive(Clone, Copy, Debug, PartialEq, Eq)]
pub struct UnitHour {
    /// Start-up amount, "0 for no start".
    pub start_up: Cents,
    /// Speed no-load for the hour.
    pub no_load: Cents,
    /// D, the day-ahead schedule.
    pub day_ahead: [Quantity; INTERVALS],
    /// R, the real-time constrained schedule.
    pub real_time: [Quantity; INTERVALS],
    /// U, the unconstrained schedule.
    pub unconstrained: [Quantity; INTERVALS],
    /// A, the metered output as mean MW.
    pub metered: [Quantity; INTERVALS],
    /// K, the operating capacity.
    pub capacity: [Quantity; INTERVALS],
    /// The three reserves in C4's order.
    pub reserves: [Reserve; RESERVES],
    /// The day-ahead offer.
    pub day_ahead_offer: Offer,
    /// The real-time offer.
    pub real_time_offer: Offer,
}

/// The four components of an interval, an hour or a day.
#[derive(Clone, Copy, Debug, Default, PartialEq, Eq)]
pub struct Components {
    /// Shortfall in payment for scheduled energy that was dispatched.
    pub c1: Ticks,
    /// Value of arranging scheduled energy that was not dispatched.
    pub c2: Ticks,
    /// Income from congestion management.
    pub c3: Ticks,
    /// Net income from operating reserve.
    pub c4: Ticks,
}

impl Components {
    /// "C1 + C2 - C3 - C4".
    pub fn net(&self) -> Ticks {
        self.c1 + self.c2 - self.c3 - self.c4
    }
}

impl Add for Components {
    type Output = Components;
    fn add(self, other: Components) -> Components {
        Components {
            c1: self.c1 + other.c1,
            c2: self.c2 + other.c2,
            c3: self.c3 + other.c3,
            c4: self.c4 + other.c4,
        }
    }
}

impl Sum for Components {
    fn sum<I: Iterator<Item = Components>>(parts: I) -> Components {
        parts.fold(Components::default(), Add::add)
    }
}

impl UnitHour {
    /// "D within both lists, each reserve schedule within its own": 7.
    pub fn check_within_lists(&self) -> Result<(), Refusal> {
        self.day_ahead_offer.check_within(&self.day_ahead)?;
        self.real_time_offer.check_within(&self.day_ahead)?;
        self.reserves
            .iter()
            .try_for_each(Reserve::check_within_list)
    }

    /// The components of one interval, 0 to 11.
    pub fn interval(&self, interval: usize, price: Price) -> Result<Components, Refusal> {
        Ok(Components {
            c1: self.shortfall(interval, price)?,
            c2: self.arranging_value(interval)?,
            c3: self.congestion_income(interval, price)?,
            c4: self.reserve_income(interval)?,
        })
    }

    /// The components of the whole hour.
    pub fn hour(&self, prices: &[Price; INTERVALS]) -> Result<Components, Refusal> {
        let intervals = prices.iter().enumerate();
        intervals
            .map(|(interval, &price)| self.interval(interval, price))
            .sum()
    }

    /// What the hour adds to the day total: its components and its start-up.
    pub fn contribution(&self, prices: &[Price; INTERVALS]) -> Result<Ticks, Refusal> {
        Ok(self.hour(prices)?.net() + self.start_up.in_ticks())
    }

    /// "C1 = DA(m) - EMP × m, plus speed no-load (cents per hour) × 10 ticks
    /// where m > 0", "m = min(D, R, A)".
    fn shortfall(&self, interval: usize, price: Price) -> Result<Ticks, Refusal> {
        let m = self.day_ahead[interval]
            .min(self.real_time[interval])
            .min(self.metered[interval]);
        let no_load = if m > Quantity::ZERO {
            self.no_load.interval_share()
        } else {
            Ticks::ZERO
        };
        Ok(self.day_ahead_offer.cost(m)? - price.over(m) + no_load)
    }

    /// "C2, with b = min(D, K) and a = min(b, max(R, A)) = (DA(b) - DA(a)) -
    /// (RT(b) - RT(a))."
    fn arranging_value(&self, interval: usize) -> Result<Ticks, Refusal> {
        let b = self.day_ahead[interval].min(self.capacity[interval]);
        let a = b.min(self.real_time[interval].max(self.metered[interval]));
        Ok(cost_between(&self.day_ahead_offer, a, b)? - cost_between(&self.real_time_offer, a, b)?)
    }

    /// "C3, with b = min(R, D) and a = min(U, D) = RT(b) - RT(a) - EMP ×
    /// (b - a)."
    fn congestion_income(&self, interval: usize, price: Price) -> Result<Ticks, Refusal> {
        let b = self.real_time[interval].min(self.day_ahead[interval]);
        let a = self.unconstrained[interval].min(self.day_ahead[interval]);
        Ok(cost_between(&self.real_time_offer, a, b)? - (price.over(b) - price.over(a)))
    }

    /// C4: each reserve takes what of "D - U" the ones before it left, at most
    /// its own schedule; "the sum of price × q - cost(q)".
    fn reserve_income(&self, interval: usize) -> Result<Ticks, Refusal> {
        let mut left = self.day_ahead[interval].less(self.unconstrained[interval]);
        let mut income = Ticks::ZERO;
        for reserve in &self.reserves {
            let quantity = left.min(reserve.schedules[interval]);
            income += reserve.income(interval, quantity)?;
            left = left.less(reserve.schedules[interval]);
        }
        Ok(income)
    }
}

/// Cost of the step from one quantity to another, negative downwards.
fn cost_between(offer: &Offer, from: Quantity, to: Quantity) -> Result<Ticks, Refusal> {
    Ok(offer.cost(to)? - offer.cost(from)?)
}

/// "Day total of a unit = C1 + C2 - C3 - C4 over all its intervals, plus its
/// start-up amounts (120 ticks a cent)."
pub fn day_total<'a>(
    hours: impl IntoIterator<Item = (&'a UnitHour, &'a [Price; INTERVALS])>,
) -> Result<Ticks, Refusal> {
    let hours = hours.into_iter();
    hours.map(|(hour, prices)| hour.contribution(prices)).sum()
}

/// "The reversal is max(0, -total)."
pub fn reversal(total: Ticks) -> Ticks {
    Ticks(total.0.saturating_neg().max(0))
}
