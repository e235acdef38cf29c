//! The (P) cases and the worked figures of documents 001, 002 and 003.

use crate::support::*;
use peer::money::checked::{self, Entry, RawFailure, RawOffer, RawReserve, RawUnitHour};
use peer::money::production::{reversal, Components};
use peer::names;
use peer::refusal::Refusal;
use peer::units::Ticks;

const DOLLAR: i64 = 12_000;

/// Document 001's hour as raw numbers.
fn hour_001() -> RawUnitHour {
    RawUnitHour {
        start_up: 0,
        no_load: 37_000,
        day_ahead: [600; 12],
        real_time: [400; 12],
        unconstrained: [500; 12],
        metered: [400; 12],
        capacity: [600; 12],
        reserves: [
            RawReserve {
                prices: [600; 12],
                schedules: [100; 12],
                offer: RawOffer::of(&[(100, 100)]),
            },
            RawReserve::default(),
            RawReserve::default(),
        ],
        day_ahead_offer: RawOffer::of(&[(2800, 100), (2800, 300), (3500, 500), (4500, 600)]),
        real_time_offer: RawOffer::of(&[(2300, 100), (2300, 300), (3000, 500), (4000, 600)]),
    }
}

fn in_dollars(components: Components) -> [i64; 4] {
    [components.c1, components.c2, components.c3, components.c4].map(|ticks| {
        assert_eq!(ticks.0 % DOLLAR, 0);
        ticks.0 / DOLLAR
    })
}

#[test]
fn hour_of_document_001() {
    let components = checked::unit_hour(&[3000; 12], &hour_001()).unwrap();
    assert_eq!(in_dollars(components), [360, 100, 0, 50]);
    assert_eq!(components.net(), Ticks(410 * DOLLAR));
    let total = checked::unit_hour_contribution(&[3000; 12], &hour_001()).unwrap();
    assert_eq!(total, Ticks(410 * DOLLAR));
}

#[test]
fn an_interval_is_a_twelfth_of_the_even_hour() {
    let hour = hour_001().check().unwrap();
    let price = peer::units::Price::new(3000).unwrap();
    for interval in 0..12 {
        let components = hour.interval(interval, price).unwrap();
        assert_eq!(components.net(), Ticks(410 * DOLLAR / 12));
        assert_eq!(components.c1, Ticks(360 * DOLLAR / 12));
    }
}

#[test]
fn a_start_up_is_added_once_to_the_hour() {
    let mut hour = hour_001();
    hour.start_up = 500_000;
    let total = checked::unit_hour_contribution(&[3000; 12], &hour).unwrap();
    assert_eq!(total, Ticks(5410 * DOLLAR));
}

#[test]
fn scenario_3_of_document_001() {
    let hour = RawUnitHour {
        day_ahead: [400; 12],
        real_time: [500; 12],
        unconstrained: [300; 12],
        metered: [500; 12],
        capacity: [600; 12],
        real_time_offer: RawOffer::of(&[
            (2300, 100),
            (2300, 300),
            (3000, 400),
            (4500, 500),
            (5500, 600),
        ]),
        reserves: [RawReserve::default(); 3],
        ..hour_001()
    };
    let components = checked::unit_hour(&[2800; 12], &hour).unwrap();
    assert_eq!(components.c3, Ticks(20 * DOLLAR));
}

#[test]
fn scenario_4_of_document_001() {
    let hour = RawUnitHour {
        day_ahead: [250; 12],
        real_time: [200; 12],
        unconstrained: [400; 12],
        metered: [200; 12],
        capacity: [600; 12],
        real_time_offer: RawOffer::of(&[
            (2300, 100),
            (2300, 250),
            (3800, 300),
            (4500, 500),
            (5500, 600),
        ]),
        reserves: [RawReserve::default(); 3],
        ..hour_001()
    };
    let components = checked::unit_hour(&[4500; 12], &hour).unwrap();
    assert_eq!(components.c3, Ticks(110 * DOLLAR));
}

#[test]
fn component_1_of_document_001s_first_table() {
    // DACS 60, RTCS 50 and price $28: 370 + 280 + 560 + 700 - 1400.
    let hour = RawUnitHour {
        real_time: [500; 12],
        metered: [500; 12],
        ..hour_001()
    };
    let components = checked::unit_hour(&[2800; 12], &hour).unwrap();
    assert_eq!(components.c1, Ticks(510 * DOLLAR));
}

#[test]
fn speed_no_load_is_added_only_where_m_is_above_0() {
    for (metered, real_time, day_ahead) in [
        ([0; 12], [400; 12], [600; 12]),
        ([400; 12], [0; 12], [600; 12]),
    ] {
        let hour = RawUnitHour {
            metered,
            real_time,
            day_ahead,
            ..hour_001()
        };
        assert_eq!(
            checked::unit_hour(&[3000; 12], &hour).unwrap().c1,
            Ticks::ZERO
        );
    }
    let mut once = RawUnitHour {
        metered: [0; 12],
        ..hour_001()
    };
    once.metered[7] = 1;
    let c1 = checked::unit_hour(&[3000; 12], &once).unwrap().c1;
    assert_eq!(c1, Ticks(2800 - 3000 + 370_000));
}

#[test]
fn reserves_share_what_lies_between_u_and_d() {
    // D - U = 25 MW: 10 spinning, 10 non-spinning, 5 of the 10 of 30-minute.
    let reserve = |price, offered| RawReserve {
        prices: [price; 12],
        schedules: [100; 12],
        offer: RawOffer::of(&[(offered, 100)]),
    };
    let mut hour = RawUnitHour {
        unconstrained: [350; 12],
        reserves: [reserve(600, 100), reserve(500, 100), reserve(400, 200)],
        ..hour_001()
    };
    let c4 = |hour: &RawUnitHour| checked::unit_hour(&[3000; 12], hour).unwrap().c4;
    assert_eq!(c4(&hour), Ticks(12 * (100 * 500 + 100 * 400 + 50 * 200)));
    hour.unconstrained = [600; 12];
    assert_eq!(c4(&hour), Ticks::ZERO);
    hour.unconstrained = [100_000; 12];
    assert_eq!(c4(&hour), Ticks::ZERO);
    hour.unconstrained = [450; 12];
    assert_eq!(c4(&hour), Ticks(12 * (100 * 500 + 50 * 400)));
    hour.unconstrained = [0; 12];
    assert_eq!(c4(&hour), Ticks(12 * 100 * (500 + 400 + 200)));
}

#[test]
fn schedules_other_than_d_may_lie_above_the_lists() {
    let hour = RawUnitHour {
        real_time: [100_000; 12],
        unconstrained: [100_000; 12],
        metered: [100_000; 12],
        capacity: [100_000; 12],
        ..hour_001()
    };
    let components = checked::unit_hour(&[3000; 12], &hour).unwrap();
    // All of D is dispatched: C1 alone remains.
    let cost = 28 * 30 + 35 * 20 + 45 * 10;
    assert_eq!(in_dollars(components), [370 + cost - 30 * 60, 0, 0, 0]);
}

#[test]
fn the_reversal_turns_a_negative_total_round() {
    assert_eq!(reversal(Ticks(-5)), Ticks(5));
    assert_eq!(reversal(Ticks(0)), Ticks(0));
    assert_eq!(reversal(Ticks(5)), Ticks(0));
}

#[test]
fn charges_of_document_002() {
    let failed_import = RawFailure {
        day_ahead: 1000,
        pre_dispatch: 900,
        day_ahead_price: 10_000,
        pre_dispatch_price: 10_000,
    };
    assert_eq!(
        checked::import_failure_charge(9000, &failed_import),
        Ok(Ticks(0))
    );
    let failed_export = RawFailure {
        day_ahead: 2000,
        pre_dispatch: 1500,
        day_ahead_price: 90_000,
        pre_dispatch_price: 80_000,
    };
    let charge = checked::export_failure_charge(70_000, &failed_export);
    assert_eq!(charge, Ok(Ticks(5000 * DOLLAR)));
    // The market price caps it where it is the nearer one.
    let charge = checked::export_failure_charge(85_000, &failed_export);
    assert_eq!(charge, Ok(Ticks(2500 * DOLLAR)));
}

#[test]
fn failure_charges_are_never_negative() {
    let failure = |day_ahead, pre_dispatch, da, pd| RawFailure {
        day_ahead,
        pre_dispatch,
        day_ahead_price: da,
        pre_dispatch_price: pd,
    };
    assert_eq!(
        checked::import_failure_charge(500, &failure(10, 20, 100, 300)),
        Ok(Ticks(0))
    );
    assert_eq!(
        checked::import_failure_charge(500, &failure(20, 10, 100, 300)),
        Ok(Ticks(200 * 10 * 12))
    );
    assert_eq!(
        checked::import_failure_charge(250, &failure(20, 10, 100, 300)),
        Ok(Ticks(150 * 10 * 12))
    );
    assert_eq!(
        checked::import_failure_charge(50, &failure(20, 10, 100, 300)),
        Ok(Ticks(0))
    );
    assert_eq!(
        checked::import_failure_charge(500, &failure(20, 10, 300, 100)),
        Ok(Ticks(0))
    );
    let greatest = failure(100_000, 0, -200_000, 200_000);
    assert_eq!(
        checked::import_failure_charge(200_000, &greatest),
        Ok(Ticks(480_000_000_000))
    );
}

fn credit(prices: &[i32; 12], quantity: u32, list: &[(i32, u32)]) -> i64 {
    checked::import_credit(prices, &[quantity; 12], &RawOffer::of(list))
        .unwrap()
        .0
}

#[test]
fn credits_and_offset_of_the_statement_example() {
    let first = credit(&[3000; 12], 100, &[(4000, 100)]);
    let second = credit(&[3000; 12], 200, &[(3200, 200)]);
    assert_eq!((first, second), (100 * DOLLAR, 40 * DOLLAR));
    let entries = [
        Entry {
            name: b"A/B",
            credit: first,
            quantities: [100; 12],
            offer: RawOffer::of(&[(4000, 100)]),
        },
        Entry {
            name: b"C",
            credit: second,
            quantities: [200; 12],
            offer: RawOffer::of(&[(3200, 200)]),
        },
    ];
    let offset = checked::offset_of_entries(&entries, &[3000; 12], &[250; 12]);
    assert_eq!(offset, Ok(Ticks(90 * DOLLAR)));
    let turned = [entries[1], entries[0]];
    let offset = checked::offset_of_entries(&turned, &[3000; 12], &[250; 12]);
    assert_eq!(offset, Ok(Ticks(90 * DOLLAR)));
}

#[test]
fn a_negative_offset_is_not_clamped() {
    let mut prices = [3900; 12];
    prices[0] = 5100;
    assert_eq!(credit(&prices, 100, &[(4000, 100)]), 0);
    let entry = Entry {
        name: b"A",
        credit: 0,
        quantities: [100; 12],
        offer: RawOffer::of(&[(4000, 100)]),
    };
    let mut exports = [0; 12];
    exports[0] = 100;
    let offset = checked::offset_of_entries(&[entry], &prices, &exports).unwrap();
    assert_eq!(offset, Ticks(-110_000));
    assert_eq!(peer::statement::dollars(offset), "-9.17");
}

#[test]
fn equal_credits_go_by_decoded_name() {
    // Both credits are 2,400 ticks; the earlier name is cancelled first, and
    // only then does the tenth that is left matter.
    let entry = |name: &'static [u8], quantity: u32, price: i32| Entry {
        name,
        credit: 2400,
        quantities: [quantity; 12],
        offer: RawOffer::of(&[(price, quantity)]),
    };
    let run = |first, second| {
        let entries = [entry(first, 10, 20), entry(second, 20, 10)];
        let turned = [entries[1], entries[0]];
        let one = checked::offset_of_entries(&entries, &[0; 12], &[10; 12]).unwrap();
        assert_eq!(
            checked::offset_of_entries(&turned, &[0; 12], &[10; 12]),
            Ok(one)
        );
        one.0
    };
    assert_eq!(run(b"A", b"AB"), 2400);
    assert_eq!(run(b"AB", b"A"), 1200);
    assert_eq!(run(b"A.B", b"A/B"), 2400);
    assert_eq!(run(b"A/B", b"A.B"), 1200);
}

#[test]
fn the_cancelled_quantity_is_the_lesser_total() {
    let entry = |name: &'static [u8], credit, quantity| Entry {
        name,
        credit,
        quantities: [quantity; 12],
        offer: RawOffer::of(&[(100, 1000)]),
    };
    let entries = [entry(b"A", 12_000, 10), entry(b"B", 24_000, 20)];
    let offset = |total| {
        checked::offset_of_entries(&entries, &[0; 12], &[total; 12])
            .unwrap()
            .0
    };
    for total in 0..=30 {
        assert_eq!(offset(total), i64::from(total) * 1200);
    }
    assert_eq!(offset(31), 36_000);
    assert_eq!(offset(1_600_000), 36_000);
}

#[test]
fn spellings_of_one_name() {
    assert_eq!(names::decode(b"A/B"), names::decode(b"A%2FB"));
    assert_eq!(names::decode(b"A%2fb").unwrap().decoded(), b"A/b");
    assert_eq!(names::decode(b"%252F").unwrap().decoded(), b"%2F");
}

#[test]
fn cost_at_the_last_quantity_and_above() {
    let offer = RawOffer::of(&[(4000, 100)]);
    assert_eq!(checked::cost(100, &offer), Ok(Ticks(400_000)));
    assert_eq!(checked::cost(101, &offer), Err(Refusal::BeyondList));
}

#[test]
fn a_price_record_needs_55_bytes() {
    let record = price(1, 3000, 3000);
    assert_eq!(record.len(), 55);
    assert_eq!(Kept::fresh(55).change(&record), Ok(()));
    assert_eq!(Kept::fresh(54).refused(&record), 13);
}

#[test]
fn document_003s_unequal_pairs() {
    // OP at 150 over pairs (10.00, 100), (20.00, 200): 150 x 15.00 - 100 x
    // 10.00 - 50 x 20.00 = +250.00 ticks' worth, no credit; at 14.00 less.
    let list = [(1000, 100), (2000, 200)];
    assert_eq!(credit(&[1500; 12], 150, &list), 0);
    assert_eq!(
        credit(&[1300; 12], 150, &list),
        12 * (100_000 + 100_000 - 195_000)
    );
    assert_eq!(credit(&[1000; 12], 100, &list), 0);
    assert_eq!(credit(&[999; 12], 100, &list), 1200);
    assert_eq!(
        credit(&[-200_000; 12], 200, &list),
        12 * (300_000 + 40_000_000)
    );
    // Losses and gains of an hour's intervals are netted first.
    let mut prices = [1000; 12];
    prices[3] = 900;
    prices[4] = 1099;
    assert_eq!(credit(&prices, 100, &list), 100);
}
