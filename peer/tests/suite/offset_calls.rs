//! The offset over entries and the offset call over records (open points G).

use crate::support::*;
use peer::hour_offset_call::hour_offset_call;
use peer::money::checked::{offset_of_entries, Entry, RawOffer};
use peer::records::raw::RawUnit;

fn entry(name: &[u8]) -> Entry<'_> {
    Entry {
        name,
        credit: 1200,
        quantities: [1; 12],
        offer: RawOffer::of(&[(100, 10)]),
    }
}

fn refused(entries: &[Entry<'_>]) -> u32 {
    number(offset_of_entries(entries, &[0; 12], &[0; 12]))
}

#[test]
fn no_entries_have_offset_0() {
    assert_eq!(offset_of_entries(&[], &[0; 12], &[7; 12]).unwrap().0, 0);
}

#[test]
fn a_17th_entry_gives_12_before_all_else() {
    let bad = entry(b"");
    let bad_prices = [200_001; 12];
    assert_eq!(
        number(offset_of_entries(&[bad; 17], &bad_prices, &[0; 12])),
        12
    );
    assert_eq!(
        number(offset_of_entries(&[bad; 16], &bad_prices, &[0; 12])),
        5
    );
    let names: Vec<Vec<u8>> = (0..16).map(|i| vec![b'A' + i]).collect();
    let sixteen: Vec<Entry<'_>> = names.iter().map(|name| entry(name)).collect();
    assert_eq!(
        offset_of_entries(&sixteen, &[0; 12], &[16; 12]).unwrap().0,
        16 * 1200
    );
}

#[test]
fn prices_and_totals_give_5_before_any_entry() {
    let bad = [entry(b"")];
    let total = |last| {
        let mut totals = [0; 12];
        totals[11] = last;
        totals
    };
    assert_eq!(
        number(offset_of_entries(&bad, &[0; 12], &total(1_600_001))),
        5
    );
    assert_eq!(
        number(offset_of_entries(&bad, &[-200_001; 12], &total(0))),
        5
    );
    assert_eq!(
        number(offset_of_entries(&bad, &[0; 12], &total(1_600_000))),
        4
    );
    assert!(offset_of_entries(&[entry(b"A")], &[0; 12], &total(1_600_000)).is_ok());
}

#[test]
fn an_entrys_faults_come_in_turn() {
    let broken = Entry {
        name: b"",
        credit: -1,
        quantities: [100_001; 12],
        offer: RawOffer::of(&[]),
    };
    assert_eq!(refused(&[broken]), 4);
    let named = Entry {
        name: b"A",
        ..broken
    };
    assert_eq!(refused(&[named]), 5);
    let scheduled = Entry {
        quantities: [11; 12],
        ..named
    };
    assert_eq!(refused(&[scheduled]), 6);
    let out_of_range = Entry {
        offer: RawOffer::of(&[(2, 5), (1, 100_001)]),
        ..scheduled
    };
    assert_eq!(refused(&[out_of_range]), 5);
    let unordered = Entry {
        offer: RawOffer::of(&[(2, 5), (1, 6)]),
        ..scheduled
    };
    assert_eq!(refused(&[unordered]), 6);
    let beyond = Entry {
        offer: RawOffer::of(&[(100, 10)]),
        ..scheduled
    };
    assert_eq!(refused(&[beyond]), 7);
    let wrong_credit = Entry {
        quantities: [1; 12],
        ..beyond
    };
    assert_eq!(refused(&[wrong_credit]), 5);
    let right = Entry {
        credit: 1200,
        ..wrong_credit
    };
    assert_eq!(refused(&[right, wrong_credit]), 5);
    assert_eq!(refused(&[right, right]), 10);
    assert_eq!(refused(&[right, right, broken]), 10);
    assert_eq!(refused(&[right, broken, right]), 4);
    for credit in [1199, 1201, 0, -1200, i64::MIN, i64::MAX] {
        assert_eq!(refused(&[Entry { credit, ..right }]), 5);
    }
}

#[test]
fn entries_carry_decoded_names() {
    for name in [&b"%"[..], b"%2F", b"A%2", b"AAAAAAAAAAAA"] {
        assert!(offset_of_entries(&[entry(name)], &[0; 12], &[0; 12]).is_ok());
    }
    for name in [&b"AAAAAAAAAAAAA"[..], b" ", b"A\x7f", b"\x20A"] {
        assert_eq!(refused(&[entry(name)]), 4);
    }
    // `%2F` is not `/` here.
    assert!(offset_of_entries(&[entry(b"%2F"), entry(b"/")], &[0; 12], &[0; 12]).is_ok());
}

/// The call over eight result bytes: the number, and the offset if it is 0.
fn call(records: &[u8]) -> (u32, Option<i64>) {
    let mut result = [0x5A; 8];
    let number = hour_offset_call(&mut result, records);
    if number == 0 {
        return (0, Some(i64::from_le_bytes(result)));
    }
    assert_eq!(result, [0x5A; 8]);
    (number, None)
}

fn number_of(parts: &[Vec<u8>]) -> u32 {
    call(&parts.concat()).0
}

#[test]
fn the_examples_hour() {
    assert_eq!(call(&example_hour()), (0, Some(90 * 12_000)));
    let turned = [
        export(5, b"D", 250),
        import(5, b"C", 200, &[(3200, 200)]),
        import(5, b"A/B", 100, &[(4000, 100)]),
        price(5, 3000, 3000),
    ];
    assert_eq!(call(&turned.concat()), (0, Some(90 * 12_000)));
}

#[test]
fn a_negative_offset_stands_in_the_result() {
    let mut energy = [3900; 12];
    energy[0] = 5100;
    let mut exported = [0; 12];
    exported[0] = 100;
    let records = [
        peer::records::raw::price(9, energy, 0),
        import(9, b"A", 100, &[(4000, 100)]),
        peer::records::raw::export(9, &name(b"E"), exported),
    ];
    assert_eq!(call(&records.concat()), (0, Some(-110_000)));
}

#[test]
fn result_bytes_not_eight_long_give_5_before_all_else() {
    for length in [0, 1, 7, 9, 16] {
        let mut result = vec![0x5A; length];
        for records in [&b""[..], b"P", b"ZZ", &example_hour()] {
            assert_eq!(hour_offset_call(&mut result, records), 5);
        }
        assert_eq!(result, vec![0x5A; length]);
    }
}

#[test]
fn nothing_needs_no_price() {
    assert_eq!(call(b""), (0, Some(0)));
    assert_eq!(call(&export(5, b"D", 250)), (0, Some(0)));
    assert_eq!(call(&price(5, 1, 1)), (0, Some(0)));
}

#[test]
fn other_marks_give_2() {
    let others = [
        b"ZZ".to_vec(),
        b"TB".to_vec(),
        b"CL".to_vec(),
        correct(&price(5, 1, 1)),
        withdraw(b"PR", 5, b""),
        unit(5, b"G", &RawUnit::idle()),
        failed_import(5, b"F", [0, 0], [0, 0]),
        failed_export(5, b"F", [0, 0], [0, 0]),
        b"GH".to_vec(),
    ];
    for other in others {
        assert_eq!(number_of(std::slice::from_ref(&other)), 2);
        assert_eq!(number_of(&[price(5, 1, 1), other]), 2);
    }
    assert_eq!(number_of(&[price(5, 1, 1), b"P".to_vec()]), 1);
}

#[test]
fn another_hour_gives_3_at_the_hours_place() {
    assert_eq!(number_of(&[price(0, 1, 1)]), 3);
    assert_eq!(number_of(&[price(25, 1, 1)]), 3);
    assert_eq!(number_of(&[price(5, 1, 1), price(6, 1, 1)]), 3);
    assert_eq!(number_of(&[price(5, 1, 1), import(6, b"%", 1, &[])]), 3);
    assert_eq!(number_of(&[price(5, 1, 1), b"IM\x06".to_vec()]), 3);
    assert_eq!(number_of(&[price(5, 1, 1), b"IM\x05".to_vec()]), 1);
    assert_eq!(number_of(&[price(5, 1, 1), import(5, b"%", 1, &[])]), 4);
    assert_eq!(number_of(&[export(6, b"D", 1), price(5, 1, 1)]), 3);
}

#[test]
fn the_other_fields_are_read_as_for_filing() {
    let base = price(5, 1, 1);
    assert_eq!(
        number_of(&[base.clone(), import(5, b"A", 100_001, &[(0, 1)])]),
        5
    );
    assert_eq!(number_of(&[base.clone(), import(5, b"A", 1, &[])]), 6);
    assert_eq!(number_of(&[base.clone(), import(5, b"A", 2, &[(0, 1)])]), 7);
    let cut = import(5, b"A", 1, &[(0, 1)]);
    for end in 1..cut.len() {
        assert_eq!(number_of(&[base.clone(), cut[..end].to_vec()]), 1);
    }
}

#[test]
fn duplicates_give_10_in_any_spelling() {
    assert_eq!(number_of(&[price(5, 1, 1), price(5, 1, 1)]), 10);
    let import = |spelled: &[u8]| import(5, spelled, 1, &[(0, 1)]);
    assert_eq!(number_of(&[import(b"A/B"), import(b"A%2fB")]), 10);
    assert_eq!(number_of(&[export(5, b"A", 1), export(5, b"%41", 1)]), 10);
    assert_eq!(
        number_of(&[price(5, 1, 1), import(b"A"), export(5, b"A", 1)]),
        0
    );
}

#[test]
fn a_17th_of_a_mark_gives_12_after_10() {
    let mut records = vec![price(5, 0, 0)];
    for letter in b'A'..b'A' + 16 {
        records.push(import(5, &[letter], 1, &[(100, 1)]));
        records.push(export(5, &[letter], 1));
    }
    assert_eq!(call(&records.concat()), (0, Some(16 * 1200)));
    let with = |record: Vec<u8>| number_of(&[records.concat(), record]);
    assert_eq!(with(import(5, b"A", 1, &[(100, 1)])), 10);
    assert_eq!(with(import(5, b"Z", 1, &[(100, 1)])), 12);
    assert_eq!(with(export(5, b"Z", 1)), 12);
    assert_eq!(with(import(5, b"Z", 2, &[(100, 1)])), 7);
}

#[test]
fn the_greatest_hour_takes_5447_bytes() {
    let twenty: Vec<(i32, u32)> = (1..=20).map(|i| (100, i)).collect();
    let mut records = vec![price(5, 0, 0)];
    for letter in b'A'..b'A' + 16 {
        let mut spelled = b"%2F".repeat(11);
        spelled.extend(format!("%{letter:02X}").bytes());
        // Spelled `%41` and so on; written plainly, so only nearly greatest.
        records.push(import(5, &spelled, 20, &twenty));
        records.push(export(5, &spelled, 5));
    }
    assert_eq!(records.concat().len(), 5447);
    assert_eq!(call(&records.concat()).0, 0);
}

#[test]
fn imports_without_a_price_give_15_at_the_end_only() {
    let import = import(5, b"A", 0, &[(0, 1)]);
    assert_eq!(number_of(std::slice::from_ref(&import)), 15);
    assert_eq!(number_of(&[import.clone(), export(5, b"A", 1)]), 15);
    assert_eq!(number_of(&[import.clone(), b"Z".to_vec()]), 1);
    assert_eq!(number_of(&[import.clone(), import.clone()]), 10);
    assert_eq!(number_of(&[import, price(5, 1, 1)]), 0);
}
