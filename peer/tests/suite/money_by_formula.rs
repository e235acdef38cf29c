//! The money rules against the formulas of the specification, written out
//! once more in plain signed numbers.

use crate::support::Draw;
use peer::money::checked::{self, Entry, RawFailure, RawOffer, RawReserve, RawUnitHour};

type Pairs = Vec<(i32, u32)>;

/// C(Q) as the sum over full pairs plus the part pair.
fn cost(pairs: &Pairs, quantity: i64) -> i64 {
    let mut sum = 0;
    let mut before = 0;
    for &(price, reach) in pairs {
        let step = (quantity.min(i64::from(reach)) - before).max(0);
        sum += step * i64::from(price);
        before = i64::from(reach);
    }
    sum
}

fn credit(prices: &[i32; 12], quantities: &[i64; 12], pairs: &Pairs) -> i64 {
    let profits =
        (0..12).map(|t| i64::from(prices[t]) * quantities[t] - cost(pairs, quantities[t]));
    -profits.sum::<i64>().min(0)
}

fn wide(numbers: &[u32; 12]) -> [i64; 12] {
    numbers.map(i64::from)
}

fn draw_list(draw: &mut Draw, most: u64) -> Pairs {
    let mut price = draw.below(6000) as i32 - 3000;
    let mut reach = 0;
    (0..=draw.below(most))
        .map(|_| {
            price += draw.below(800) as i32;
            reach += 1 + draw.below(90) as u32;
            (price, reach)
        })
        .collect()
}

fn reach(pairs: &Pairs) -> u64 {
    pairs.last().map_or(0, |&(_, reach)| u64::from(reach))
}

fn up_to(draw: &mut Draw, most: u64) -> [u32; 12] {
    std::array::from_fn(|_| draw.below(most + 1) as u32)
}

fn draw_prices(draw: &mut Draw) -> [i32; 12] {
    std::array::from_fn(|_| draw.below(8000) as i32 - 3000)
}

#[test]
fn costs() {
    let mut draw = Draw::new(11);
    for _ in 0..3000 {
        let pairs = draw_list(&mut draw, 20);
        let quantity = draw.below(reach(&pairs) + 1) as u32;
        let answer = checked::cost(quantity, &RawOffer::of(&pairs)).unwrap();
        assert_eq!(answer.0, cost(&pairs, i64::from(quantity)));
    }
}

struct Import {
    name: Vec<u8>,
    credit: i64,
    quantities: [u32; 12],
    pairs: Pairs,
}

fn draw_imports(draw: &mut Draw, prices: &[i32; 12]) -> Vec<Import> {
    let names: [&[u8]; 16] = [
        b"A",
        b"AB",
        b"A/B",
        b"A.B",
        b"B",
        b"a",
        b"~",
        b"!",
        b"%",
        b"%2F",
        b"A!",
        b"AA",
        b"Z",
        b"0",
        b"00",
        b"AAAAAAAAAAAA",
    ];
    let count = draw.below(17) as usize;
    let first = draw.below(16) as usize;
    (0..count)
        .map(|place| {
            let pairs = draw_list(draw, 5);
            let quantities = up_to(draw, reach(&pairs));
            Import {
                name: names[(first + 7 * place) % 16].to_vec(),
                credit: credit(prices, &wide(&quantities), &pairs),
                quantities,
                pairs,
            }
        })
        .collect()
}

/// The offset by its formula, the imports ordered here.
fn offset(imports: &[Import], prices: &[i32; 12], totals: &[u32; 12]) -> i64 {
    let mut ordered: Vec<&Import> = imports.iter().collect();
    ordered.sort_by(|a, b| a.credit.cmp(&b.credit).then(a.name.cmp(&b.name)));
    let mut again = 0;
    for (place, import) in ordered.iter().enumerate() {
        let adjusted = std::array::from_fn(|t| {
            let up_to_here: i64 = ordered[..=place]
                .iter()
                .map(|other| i64::from(other.quantities[t]))
                .sum();
            i64::from(import.quantities[t]).min((up_to_here - i64::from(totals[t])).max(0))
        });
        again += credit(prices, &adjusted, &import.pairs);
    }
    imports.iter().map(|import| import.credit).sum::<i64>() - again
}

#[test]
fn credits_and_offsets() {
    let mut draw = Draw::new(12);
    let mut negative = 0;
    for _ in 0..1500 {
        let prices = draw_prices(&mut draw);
        let imports = draw_imports(&mut draw, &prices);
        for import in &imports {
            let answer =
                checked::import_credit(&prices, &import.quantities, &RawOffer::of(&import.pairs));
            assert_eq!(answer.unwrap().0, import.credit);
        }
        let totals = up_to(&mut draw, 200 * imports.len() as u64);
        let entries: Vec<Entry<'_>> = imports
            .iter()
            .map(|import| Entry {
                name: &import.name,
                credit: import.credit,
                quantities: import.quantities,
                offer: RawOffer::of(&import.pairs),
            })
            .collect();
        let answer = checked::offset_of_entries(&entries, &prices, &totals)
            .unwrap()
            .0;
        assert_eq!(answer, offset(&imports, &prices, &totals));
        negative += u32::from(answer < 0);
    }
    assert!(negative > 10);
}

/// One interval's components by their formulas.
fn components(hour: &RawUnitHour, lists: &[Pairs; 5], t: usize, emp: i64) -> [i64; 4] {
    let at = |numbers: &[u32; 12]| i64::from(numbers[t]);
    let (d, r, u) = (
        at(&hour.day_ahead),
        at(&hour.real_time),
        at(&hour.unconstrained),
    );
    let (a, k) = (at(&hour.metered), at(&hour.capacity));
    let [da, rt, ..] = lists;
    let m = d.min(r).min(a);
    let no_load = if m > 0 {
        i64::from(hour.no_load) * 10
    } else {
        0
    };
    let c1 = cost(da, m) - emp * m + no_load;
    let (b2, a2) = (d.min(k), d.min(k).min(r.max(a)));
    let c2 = (cost(da, b2) - cost(da, a2)) - (cost(rt, b2) - cost(rt, a2));
    let (b3, a3) = (r.min(d), u.min(d));
    let c3 = cost(rt, b3) - cost(rt, a3) - emp * (b3 - a3);
    let s: [i64; 3] = std::array::from_fn(|which| at(&hour.reserves[which].schedules));
    let q = [
        (d - u).min(s[0]).max(0),
        (d - u - s[0]).min(s[1]).max(0),
        (d - u - s[0] - s[1]).min(s[2]).max(0),
    ];
    let c4 = (0..3)
        .map(|which| {
            i64::from(hour.reserves[which].prices[t]) * q[which] - cost(&lists[2 + which], q[which])
        })
        .sum();
    [c1, c2, c3, c4]
}

fn draw_unit(draw: &mut Draw) -> (RawUnitHour, [Pairs; 5]) {
    let lists: [Pairs; 5] = std::array::from_fn(|which| {
        if which > 1 && draw.once_in(3) {
            Pairs::new()
        } else {
            draw_list(draw, 20)
        }
    });
    let most = reach(&lists[0]).min(reach(&lists[1]));
    let hour = RawUnitHour {
        start_up: draw.below(1000) as u32,
        no_load: draw.below(1000) as u32,
        day_ahead: up_to(draw, most),
        real_time: up_to(draw, most * 2),
        unconstrained: up_to(draw, most),
        metered: up_to(draw, most * 2),
        capacity: up_to(draw, most * 2),
        reserves: std::array::from_fn(|which| RawReserve {
            prices: draw_prices(draw),
            schedules: up_to(draw, reach(&lists[2 + which])),
            offer: RawOffer::of(&lists[2 + which]),
        }),
        day_ahead_offer: RawOffer::of(&lists[0]),
        real_time_offer: RawOffer::of(&lists[1]),
    };
    (hour, lists)
}

#[test]
fn production_cost_guarantees() {
    let mut draw = Draw::new(13);
    for _ in 0..1500 {
        let prices = draw_prices(&mut draw);
        let (hour, lists) = draw_unit(&mut draw);
        let mut expected = [0; 4];
        for (t, &emp) in prices.iter().enumerate() {
            let one = components(&hour, &lists, t, i64::from(emp));
            let typed = hour
                .check()
                .unwrap()
                .interval(t, peer::units::Price::new(emp).unwrap())
                .unwrap();
            assert_eq!([typed.c1.0, typed.c2.0, typed.c3.0, typed.c4.0], one);
            for (sum, part) in expected.iter_mut().zip(one) {
                *sum += part;
            }
        }
        let answer = checked::unit_hour(&prices, &hour).unwrap();
        assert_eq!(
            [answer.c1.0, answer.c2.0, answer.c3.0, answer.c4.0],
            expected
        );
        let total =
            expected[0] + expected[1] - expected[2] - expected[3] + i64::from(hour.start_up) * 120;
        assert_eq!(
            checked::unit_hour_contribution(&prices, &hour).unwrap().0,
            total
        );
    }
}

#[test]
fn failure_charges() {
    let mut draw = Draw::new(14);
    for _ in 0..3000 {
        let [market, da, pd, ..] = draw_prices(&mut draw);
        let [day_ahead, pre_dispatch, ..] = up_to(&mut draw, 100_000);
        let failure = RawFailure {
            day_ahead,
            pre_dispatch,
            day_ahead_price: da,
            pre_dispatch_price: pd,
        };
        let [market_, da, pd] = [market, da, pd].map(i64::from);
        let dev = (i64::from(day_ahead) - i64::from(pre_dispatch)).max(0);
        let import = (market_ - da).max(0).min((pd - da).max(0)) * dev * 12;
        let export = (da - market_).max(0).min((da - pd).max(0)) * dev * 12;
        assert_eq!(
            checked::import_failure_charge(market, &failure).unwrap().0,
            import
        );
        assert_eq!(
            checked::export_failure_charge(market, &failure).unwrap().0,
            export
        );
    }
}
