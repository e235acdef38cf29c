//! Systematic amounts: list ends, price limits, ties and exact
//! cancellations.

use crate::call::{Alone, List};
use peer::records::raw::{self, RawName, RawUnit};

const PRICE_LIMITS: [i32; 7] = [-200_000, -199_999, -1, 0, 1, 199_999, 200_000];

/// All sweeps in turn.
pub fn all() -> Box<dyn Iterator<Item = List>> {
    Box::new(
        imports()
            .chain(failures())
            .chain(unit_intervals())
            .chain(offsets())
            .chain(widest_hours()),
    )
}

fn amount(prices: Vec<u8>, record: Vec<u8>) -> Alone {
    Alone::Amount { prices, record }
}

fn offset(records: &[Vec<u8>]) -> Alone {
    Alone::HourOffset {
        result: 8,
        records: records.concat(),
    }
}

/// One pair, two equal prices, twenty pairs, the limits.
fn lists() -> Vec<Vec<(i32, u32)>> {
    vec![
        vec![(4000, 100)],
        vec![(4000, 50), (4000, 100)],
        vec![(-200_000, 1), (0, 2), (200_000, 100_000)],
        (1..=20).map(|at| (at * 10 - 100, at as u32 * 7)).collect(),
        (1..=20).map(|at| (200_000, at as u32)).collect(),
        vec![(-200_000, 100_000)],
        vec![(200_000, 100_000)],
    ]
}

/// Each quantity at, before and behind each pair's end, with prices at the
/// limits, at each offered price and next to it.
fn imports() -> impl Iterator<Item = List> {
    lists().into_iter().map(|list| {
        let mut prices: Vec<i32> = PRICE_LIMITS.to_vec();
        prices.extend(
            list.iter()
                .flat_map(|pair| [pair.0 - 1, pair.0, pair.0 + 1]),
        );
        prices.sort_unstable();
        prices.dedup();
        let ends = list
            .iter()
            .flat_map(|pair| [pair.1 - 1, pair.1, pair.1 + 1]);
        let quantities: Vec<u32> = ends.chain([0]).collect();
        let calls = prices.iter().flat_map(|&price| {
            let list = &list;
            quantities.iter().map(move |&quantity| {
                let import = raw::import(1, &RawName::of(b"N"), [quantity; 12], list);
                amount(raw::price(1, [price; 12], 0), import)
            })
        });
        List::alone(calls.collect::<Vec<_>>())
    })
}

/// Every triple of limit prices with quantities at their limits.
fn failures() -> impl Iterator<Item = List> {
    const QUANTITIES: [u32; 4] = [0, 1, 50, 100_000];
    PRICE_LIMITS.into_iter().flat_map(|market| {
        [*b"FI", *b"FE"].into_iter().map(move |mark| {
            let mut calls = Vec::new();
            for first in PRICE_LIMITS {
                for second in PRICE_LIMITS {
                    for day_ahead in QUANTITIES {
                        for pre_dispatch in QUANTITIES {
                            let quantities = [day_ahead, pre_dispatch];
                            let name = RawName::of(b"N");
                            let record = raw::failure(&mark, 1, &name, quantities, [first, second]);
                            calls.push(amount(raw::price(1, [0; 12], market), record));
                        }
                    }
                }
            }
            List::alone(calls)
        })
    })
}

/// Every order of D, R, U, A and K, and every fill of the three reserves,
/// twelve of them to a record.
fn unit_intervals() -> impl Iterator<Item = List> {
    const LEVELS: [u32; 4] = [0, 5, 10, 11];
    (0..27_u32).map(|reserves| {
        let schedules = [reserves % 3 * 3, reserves / 3 % 3 * 2, reserves / 9 * 4];
        let calls = (0..1024_u32).step_by(12).map(|first| {
            let mut unit = RawUnit::idle();
            unit.no_load = 777;
            unit.lists = [
                vec![(100, 5), (300, 11)],
                vec![(90, 4), (310, 10), (400, 100_000)],
                vec![(7, 3), (9, 8)],
                vec![(-5, 4)],
                vec![(1, 1), (2, 2), (3, 8)],
            ];
            for interval in 0..12 {
                let mut code = (first + interval as u32) % 1024;
                for schedule in &mut unit.schedules {
                    schedule[interval] = LEVELS[(code % 4) as usize];
                    code /= 4;
                }
                for (which, reserve) in unit.reserves.iter_mut().enumerate() {
                    reserve.0[interval] = which as i32 * 50 - 20;
                    reserve.1[interval] = schedules[which];
                }
            }
            let record = raw::unit(1, &RawName::of(b"G"), &unit);
            amount(raw::price(1, [205; 12], 0), record)
        });
        List::alone(calls.collect::<Vec<_>>())
    })
}

/// Two and three imports of small quantities against every export up to their
/// sum, with credits that tie, rise and fall with the names.
fn offsets() -> impl Iterator<Item = List> {
    let prices = [3000, 4000, 5000];
    prices.into_iter().flat_map(move |first| {
        prices.into_iter().map(move |second| {
            let mut calls = Vec::new();
            for code in 0..64_u32 {
                for exported in 0..10 {
                    calls.push(small_offset([first, second], code, exported));
                }
            }
            List::alone(calls)
        })
    })
}

fn small_offset(prices: [i32; 2], code: u32, exported: u32) -> Alone {
    let quantity = |place: u32| (code >> (2 * place)) & 3;
    let import = |name: &[u8], place: u32, price: i32| {
        let list = [(price, 2), (price + 100, 3)];
        raw::import(5, &RawName::of(name), [quantity(place); 12], &list)
    };
    let mut energy = [4000; 12];
    energy[0] = 5100;
    offset(&[
        raw::price(5, energy, 0),
        import(b"B", 0, prices[0]),
        import(b"A", 1, prices[1]),
        import(b"AB", 2, prices[1]),
        raw::export(5, &RawName::of(b"A"), [exported; 12]),
    ])
}

/// Sixteen imports and exports at the greatest quantities and prices, where
/// sums are widest; and one more of each.
fn widest_hours() -> impl Iterator<Item = List> {
    [-200_000, 0, 200_000].into_iter().map(|price| {
        let mut calls = Vec::new();
        for offered in [-200_000, 0, 200_000] {
            for count in [1, 15, 16, 17] {
                for quantity in [0, 1, 99_999, 100_000] {
                    let mut records = vec![raw::price(5, [price; 12], 0)];
                    for place in 0..count {
                        let name = RawName::of(&[b'A' + place]);
                        let list = [(offered, 100_000)];
                        records.push(raw::import(5, &name, [100_000; 12], &list));
                    }
                    for place in 0..count {
                        let name = RawName::of(&[b'A' + place]);
                        records.push(raw::export(5, &name, [quantity; 12]));
                    }
                    calls.push(offset(&records));
                }
            }
        }
        List::alone(calls)
    })
}
