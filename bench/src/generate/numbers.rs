//! Prices, quantities, cents and lists, often at their limits.

use crate::draw::Draw;

/// The greatest price; the least is its negative.
pub const PRICE_MOST: i32 = 200_000;
/// The greatest quantity.
pub const QUANTITY_MOST: u32 = 100_000;
/// The greatest amount in cents.
pub const CENTS_MOST: u32 = 100_000_000;

/// A price within its limits.
pub fn price(draw: &mut Draw) -> i32 {
    match draw.below(12) {
        0 => PRICE_MOST,
        1 => -PRICE_MOST,
        2 => 0,
        3 => draw.pick(&[-1, 1, 1 - PRICE_MOST, PRICE_MOST - 1]),
        4 => draw.between(-200_000, 200_000) as i32,
        _ => draw.between(-1000, 12_000) as i32,
    }
}

/// A price outside its limits.
pub fn outside_price(draw: &mut Draw) -> i32 {
    match draw.below(5) {
        0 => PRICE_MOST + 1,
        1 => -PRICE_MOST - 1,
        2 => draw.pick(&[i32::MAX, i32::MIN]),
        3 => draw.between(200_001, i64::from(i32::MAX)) as i32,
        _ => draw.between(i64::from(i32::MIN), -200_001) as i32,
    }
}

/// A quantity within its limits.
pub fn quantity(draw: &mut Draw) -> u32 {
    match draw.below(12) {
        0 => 0,
        1 => QUANTITY_MOST,
        2 => draw.pick(&[1, QUANTITY_MOST - 1]),
        3 => draw.between(0, 100_000) as u32,
        _ => draw.below(300) as u32,
    }
}

/// A quantity above its limit.
pub fn outside_quantity(draw: &mut Draw) -> u32 {
    match draw.below(3) {
        0 => QUANTITY_MOST + 1,
        1 => draw.pick(&[u32::MAX, 1 << 31]),
        _ => draw.between(100_001, i64::from(u32::MAX)) as u32,
    }
}

/// Cents within their limits.
pub fn cents(draw: &mut Draw) -> u32 {
    match draw.below(6) {
        0 => CENTS_MOST,
        1 => 1,
        2 => draw.between(0, i64::from(CENTS_MOST)) as u32,
        3 => draw.below(50_000) as u32,
        _ => 0,
    }
}

/// Cents above their limit.
pub fn outside_cents(draw: &mut Draw) -> u32 {
    match draw.below(3) {
        0 => CENTS_MOST + 1,
        1 => u32::MAX,
        _ => draw.between(100_000_001, i64::from(u32::MAX)) as u32,
    }
}

/// Twelve numbers: each of its own, or one throughout with an exception.
pub fn twelve<T: Copy>(draw: &mut Draw, mut next: impl FnMut(&mut Draw) -> T) -> [T; 12] {
    if draw.once_in(2) {
        return std::array::from_fn(|_| next(draw));
    }
    let mut numbers = [next(draw); 12];
    let place = draw.below(12);
    numbers[place] = next(draw);
    numbers
}

/// How many pairs a list has: often one or twenty.
fn pair_count(draw: &mut Draw) -> usize {
    match draw.below(10) {
        0..=3 => 1,
        4..=6 => 2 + draw.below(4),
        7 => 6 + draw.below(14),
        _ => 20,
    }
}

/// A valid list.
pub fn list(draw: &mut Draw) -> Vec<(i32, u32)> {
    let count = pair_count(draw);
    let mut prices: Vec<i32> = match draw.below(3) {
        0 => vec![price(draw); count],
        _ => (0..count).map(|_| price(draw)).collect(),
    };
    prices.sort_unstable();
    prices.into_iter().zip(reaches(draw, count)).collect()
}

/// Quantities that rise strictly from above 0 to at most the limit.
fn reaches(draw: &mut Draw, count: usize) -> Vec<u32> {
    let step = draw.pick(&[1, 30, 1000, QUANTITY_MOST / 20]);
    let mut reach = 0;
    let mut reaches: Vec<u32> = (0..count)
        .map(|_| {
            reach += 1 + draw.below(step as usize) as u32;
            reach
        })
        .collect();
    if draw.once_in(4) {
        reaches[count - 1] = QUANTITY_MOST;
    }
    reaches
}

/// The last quantity of a list.
pub fn reach(list: &[(i32, u32)]) -> u32 {
    list.last().map_or(0, |pair| pair.1)
}

/// A quantity within a list: often 0, a pair's end or next to one.
pub fn scheduled(draw: &mut Draw, list: &[(i32, u32)]) -> u32 {
    within(draw, list, reach(list))
}

/// The same, and at most so much.
pub fn within(draw: &mut Draw, list: &[(i32, u32)], most: u32) -> u32 {
    let quantity = match draw.below(6) {
        0 => 0,
        1 => most,
        2 => draw.pick(list).1,
        3 => draw.pick(list).1 + 1,
        4 => draw.pick(list).1 - 1,
        _ => draw.below(most as usize + 1) as u32,
    };
    quantity.min(most)
}

/// Energy prices that often equal a list's or lie next to them.
pub fn energy(draw: &mut Draw, list: &[(i32, u32)]) -> [i32; 12] {
    twelve(draw, |draw| match draw.below(5) {
        0 | 1 => draw.pick(list).0,
        2 => (draw.pick(list).0 + draw.pick(&[-1, 1])).clamp(-PRICE_MOST, PRICE_MOST),
        _ => price(draw),
    })
}
