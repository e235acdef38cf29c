//! Offers: lists of price and quantity pairs, and what a quantity costs.

use crate::refusal::Refusal;
use crate::units::{Price, Quantity, Ticks};

/// Most pairs of an offer.
pub const PAIRS_MOST: usize = 20;

/// "An offer holds its count and places for 20 pairs (P, Q): 1 to 20 used, P
/// never falling, Q rising strictly from above 0." Places past the count hold
/// zeros.
#[derive(Clone, Copy, Debug, PartialEq, Eq)]
pub struct Offer {
    count: u8,
    prices: [Price; PAIRS_MOST],
    quantities: [Quantity; PAIRS_MOST],
}

impl Offer {
    /// An offer of these pairs; 6 for their count or order.
    pub fn new(pairs: &[(Price, Quantity)]) -> Result<Offer, Refusal> {
        check_count(pairs.len())?;
        let mut offer = Offer {
            count: pairs.len() as u8,
            prices: [Price::default(); PAIRS_MOST],
            quantities: [Quantity::ZERO; PAIRS_MOST],
        };
        for (place, &(price, quantity)) in pairs.iter().enumerate() {
            offer.prices[place] = price;
            offer.quantities[place] = quantity;
        }
        if offer.is_ordered() {
            Ok(offer)
        } else {
            Err(Refusal::ListFault)
        }
    }

    /// The used pairs in turn.
    pub fn pairs(&self) -> impl Iterator<Item = (Price, Quantity)> + '_ {
        let prices = self.prices.iter().copied();
        prices
            .zip(self.quantities.iter().copied())
            .take(self.count())
    }

    /// How many pairs are used, 1 to 20.
    pub fn count(&self) -> usize {
        usize::from(self.count)
    }

    /// The quantity of the last pair, beyond which the offer has no cost.
    pub fn last_quantity(&self) -> Quantity {
        self.quantities[self.count() - 1]
    }

    /// "Cost C(Q) is the sum of P_i × (Q_i - Q_(i-1)) over the pairs with
    /// Q_i <= Q, with Q_0 = 0, plus (Q - Q_s) × P_(s+1) for the part pair".
    /// "The walk over the pairs stops at the first one that reaches Q."
    /// "above it the offer has no cost": 7.
    pub fn cost(&self, quantity: Quantity) -> Result<Ticks, Refusal> {
        let mut cost = Ticks::ZERO;
        let mut before = Quantity::ZERO;
        for (price, reach) in self.pairs() {
            if reach >= quantity {
                return Ok(cost + price.over(quantity.less(before)));
            }
            cost += price.over(reach.less(before));
            before = reach;
        }
        Err(Refusal::BeyondList)
    }

    /// 7 if any of the quantities lies beyond the last pair.
    pub fn check_within(&self, quantities: &[Quantity]) -> Result<(), Refusal> {
        let last = self.last_quantity();
        if quantities.iter().all(|&quantity| quantity <= last) {
            Ok(())
        } else {
            Err(Refusal::BeyondList)
        }
    }

    fn is_ordered(&self) -> bool {
        let used = self.count();
        self.quantities[0] > Quantity::ZERO
            && self.prices[..used].windows(2).all(|two| two[0] <= two[1])
            && self.quantities[..used]
                .windows(2)
                .all(|two| two[0] < two[1])
    }
}

/// 6 unless 1 to 20 pairs are used.
pub fn check_count(count: usize) -> Result<(), Refusal> {
    if (1..=PAIRS_MOST).contains(&count) {
        Ok(())
    } else {
        Err(Refusal::ListFault)
    }
}

#[cfg(test)]
mod tests {
    use super::*;

    fn pair(price: i32, quantity: u32) -> (Price, Quantity) {
        (Price::new(price).unwrap(), Quantity::new(quantity).unwrap())
    }

    fn cost(offer: &Offer, quantity: u32) -> Result<i64, Refusal> {
        offer
            .cost(Quantity::new(quantity).unwrap())
            .map(|ticks| ticks.0)
    }

    /// The formula of document 003, written out sum by sum.
    fn cost_by_formula(pairs: &[(Price, Quantity)], quantity: u32) -> Option<i64> {
        let reach = |i: usize| {
            if i == 0 {
                0
            } else {
                i64::from(pairs[i - 1].1.tenths())
            }
        };
        let price = |i: usize| i64::from(pairs[i - 1].0.cents_per_mwh());
        let wanted = i64::from(quantity);
        if wanted > reach(pairs.len()) {
            return None;
        }
        let full = (0..=pairs.len()).filter(|&i| reach(i) <= wanted).max()?;
        let sum: i64 = (1..=full)
            .map(|i| price(i) * (reach(i) - reach(i - 1)))
            .sum();
        let part = if full < pairs.len() {
            (wanted - reach(full)) * price(full + 1)
        } else {
            0
        };
        Some(sum + part)
    }

    #[test]
    fn the_last_quantity_has_a_cost_and_one_above_has_none() {
        let offer = Offer::new(&[pair(4000, 100)]).unwrap();
        assert_eq!(cost(&offer, 0), Ok(0));
        assert_eq!(cost(&offer, 1), Ok(4000));
        assert_eq!(cost(&offer, 100), Ok(400_000));
        assert_eq!(cost(&offer, 101), Err(Refusal::BeyondList));
    }

    #[test]
    fn cost_follows_the_formula_at_every_quantity() {
        let lists = [
            vec![
                pair(2800, 100),
                pair(2800, 300),
                pair(3500, 500),
                pair(4500, 600),
            ],
            vec![pair(-200_000, 1), pair(0, 2), pair(200_000, 30)],
            (1..=20).map(|i| pair(i * 10 - 100, i as u32 * 7)).collect(),
        ];
        for pairs in lists {
            let offer = Offer::new(&pairs).unwrap();
            for quantity in 0..=offer.last_quantity().tenths() + 2 {
                assert_eq!(
                    cost(&offer, quantity).ok(),
                    cost_by_formula(&pairs, quantity)
                );
            }
        }
    }

    #[test]
    fn order_and_count_give_6() {
        let bad: [&[(Price, Quantity)]; 6] = [
            &[],
            &[pair(0, 0)],
            &[pair(2000, 10), pair(1999, 20)],
            &[pair(2000, 10), pair(2000, 10)],
            &[pair(2000, 10), pair(2000, 9)],
            &[pair(0, 1); 21],
        ];
        for pairs in bad {
            assert_eq!(Offer::new(pairs), Err(Refusal::ListFault));
        }
        assert!(Offer::new(&[pair(2000, 10), pair(2000, 11)]).is_ok());
        let twenty: Vec<_> = (1..=20).map(|i| pair(0, i)).collect();
        assert_eq!(Offer::new(&twenty).unwrap().count(), 20);
    }
}
