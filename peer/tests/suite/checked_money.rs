//! The money rules over raw numbers: which number refuses first.

use crate::support::number;
use peer::money::checked::{self, RawFailure, RawOffer, RawReserve, RawUnitHour};

fn good() -> RawOffer {
    RawOffer::of(&[(100, 10), (200, 20)])
}

fn unordered() -> RawOffer {
    RawOffer::of(&[(200, 10), (100, 20)])
}

fn out_of_range() -> RawOffer {
    RawOffer::of(&[(200, 10), (100, 100_001)])
}

fn counted(count: u32) -> RawOffer {
    RawOffer {
        count,
        ..RawOffer::default()
    }
}

#[test]
fn cost_checks_quantity_list_and_reach() {
    assert_eq!(checked::cost(20, &good()).unwrap().0, 3000);
    assert_eq!(checked::cost(0, &good()).unwrap().0, 0);
    assert_eq!(number(checked::cost(100_001, &counted(0))), 5);
    assert_eq!(number(checked::cost(100_000, &counted(0))), 6);
    assert_eq!(number(checked::cost(0, &counted(0))), 6);
    assert_eq!(number(checked::cost(0, &counted(21))), 6);
    assert_eq!(number(checked::cost(0, &counted(u32::MAX))), 6);
    assert_eq!(number(checked::cost(100_000, &out_of_range())), 5);
    assert_eq!(number(checked::cost(100_000, &unordered())), 6);
    assert_eq!(number(checked::cost(21, &good())), 7);
}

#[test]
fn places_past_the_count_are_not_looked_at() {
    let mut offer = good();
    offer.prices[2] = i32::MIN;
    offer.quantities[19] = u32::MAX;
    assert_eq!(checked::cost(20, &offer).unwrap().0, 3000);
}

#[test]
fn credit_checks_prices_quantities_list_and_reach() {
    let ask = |price: i32, quantity: u32, offer: &RawOffer| {
        let mut prices = [0; 12];
        prices[11] = price;
        let mut quantities = [0; 12];
        quantities[11] = quantity;
        checked::import_credit(&prices, &quantities, offer)
    };
    assert_eq!(ask(150, 20, &good()).unwrap().0, 0);
    assert_eq!(ask(149, 20, &good()).unwrap().0, 20);
    assert_eq!(number(ask(200_001, 0, &good())), 5);
    assert_eq!(number(ask(-200_001, 0, &counted(0))), 5);
    assert_eq!(number(ask(0, 100_001, &counted(0))), 5);
    assert_eq!(number(ask(0, 100_000, &counted(0))), 6);
    assert_eq!(number(ask(0, 100_000, &out_of_range())), 5);
    assert_eq!(number(ask(0, 100_000, &unordered())), 6);
    assert_eq!(number(ask(0, 21, &good())), 7);
}

fn idle() -> RawUnitHour {
    RawUnitHour {
        day_ahead_offer: good(),
        real_time_offer: good(),
        ..RawUnitHour::default()
    }
}

fn refused(change: impl FnOnce(&mut RawUnitHour)) -> u32 {
    let mut hour = idle();
    change(&mut hour);
    number(checked::unit_hour(&[0; 12], &hour))
}

#[test]
fn a_units_hour_checks_its_numbers_first() {
    assert!(checked::unit_hour(&[0; 12], &idle()).is_ok());
    assert_eq!(
        number(checked::unit_hour(&[200_001; 12], &RawUnitHour::default())),
        5
    );
    assert_eq!(refused(|hour| hour.start_up = 100_000_001), 5);
    assert_eq!(refused(|hour| hour.no_load = 100_000_001), 5);
    assert_eq!(refused(|hour| hour.day_ahead[11] = 100_001), 5);
    assert_eq!(refused(|hour| hour.real_time[0] = 100_001), 5);
    assert_eq!(refused(|hour| hour.unconstrained[5] = 100_001), 5);
    assert_eq!(refused(|hour| hour.metered[5] = 100_001), 5);
    assert_eq!(refused(|hour| hour.capacity[5] = 100_001), 5);
    for which in 0..3 {
        assert_eq!(refused(|hour| hour.reserves[which].prices[1] = -200_001), 5);
        assert_eq!(
            refused(|hour| hour.reserves[which].schedules[1] = 100_001),
            5
        );
        // Numbers come before every list.
        assert_eq!(
            refused(|hour| {
                hour.day_ahead_offer = counted(0);
                hour.reserves[which].schedules[1] = 100_001;
            }),
            5
        );
    }
}

#[test]
fn a_units_lists_come_in_turn_and_then_7() {
    assert_eq!(refused(|hour| hour.day_ahead_offer = counted(0)), 6);
    assert_eq!(refused(|hour| hour.real_time_offer = counted(0)), 6);
    let two = |first: RawOffer, second: RawOffer| {
        refused(|hour| {
            hour.day_ahead_offer = first;
            hour.real_time_offer = second;
        })
    };
    assert_eq!(two(unordered(), out_of_range()), 6);
    assert_eq!(two(out_of_range(), unordered()), 5);
    assert_eq!(refused(|hour| hour.day_ahead[0] = 21), 7);
    assert_eq!(
        refused(|hour| {
            hour.day_ahead[0] = 21;
            hour.reserves[2].offer = unordered();
        }),
        6
    );
    let reserve = |schedule: u32, offer: RawOffer| {
        refused(|hour| {
            hour.reserves[1] = RawReserve {
                prices: [0; 12],
                schedules: [schedule; 12],
                offer,
            }
        })
    };
    assert_eq!(reserve(1, counted(0)), 6);
    assert_eq!(reserve(21, good()), 7);
    assert_eq!(reserve(0, counted(21)), 6);
    assert_eq!(reserve(0, unordered()), 6);
}

#[test]
fn every_number_of_a_failure_gives_5() {
    let fine = RawFailure::default();
    assert_eq!(checked::import_failure_charge(0, &fine).unwrap().0, 0);
    let bad = [
        RawFailure {
            day_ahead: 100_001,
            ..fine
        },
        RawFailure {
            pre_dispatch: 100_001,
            ..fine
        },
        RawFailure {
            day_ahead_price: 200_001,
            ..fine
        },
        RawFailure {
            pre_dispatch_price: -200_001,
            ..fine
        },
    ];
    for failure in bad {
        assert_eq!(number(checked::import_failure_charge(0, &failure)), 5);
        assert_eq!(number(checked::export_failure_charge(0, &failure)), 5);
    }
    assert_eq!(number(checked::import_failure_charge(200_001, &fine)), 5);
    assert_eq!(number(checked::export_failure_charge(-200_001, &fine)), 5);
}
