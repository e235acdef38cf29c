//! The bench against the mock: without a bug nothing differs and every number
//! occurs; with one it is found and cut down.

#![cfg(feature = "mock")]

use pewatuno_bench::bridge::{self, Layers, WrongVersion};
use pewatuno_bench::call::Part;
use pewatuno_bench::generate::Lists;
use pewatuno_bench::mock::{with_bug, Bug};
use pewatuno_bench::options::Options;
use pewatuno_bench::run::{run, shortcomings};
use std::time::Duration;

const ALL: Layers = Layers(0x3F);

fn options(parts: &[Part], calls: u64) -> Options {
    Options {
        parts: parts.to_vec(),
        calls: Some(calls),
        shrinking: Duration::from_secs(3),
        ..Options::default()
    }
}

/// The report of a bug's first mismatch.
fn found(bug: Bug, part: Part, calls: u64) -> String {
    first_of(bug, &options(&[part], calls))
}

/// The same, cut down a little only.
fn found_soon(bug: Bug, part: Part, calls: u64) -> String {
    let options = Options {
        shrinking: Duration::from_millis(500),
        ..options(&[part], calls)
    };
    first_of(bug, &options)
}

fn first_of(bug: Bug, options: &Options) -> String {
    let outcome = with_bug(bug, || run(options, ALL, |_| {}));
    assert!(outcome.mismatches > 0, "{bug:?} was not found");
    outcome.reports[0].clone()
}

#[test]
fn nothing_differs_and_every_number_occurs() {
    for part in Part::ALL {
        let calls = match part {
            Part::Money => 20_000,
            Part::Records => 60_000,
            Part::Books => 40_000,
            Part::Days => 8_000,
        };
        let options = options(&[part], calls);
        let outcome = run(&options, ALL, |_| {});
        assert_eq!(outcome.mismatches, 0, "{:?}", outcome.reports);
        assert!(outcome.tally.compared() >= calls);
        let (lacking, _) = shortcomings(&options, ALL, &outcome);
        assert_eq!(lacking, Vec::<String>::new());
    }
}

#[test]
fn missing_layers_are_skipped_counted_and_fail() {
    let options = options(&[Part::Books], 5000);
    let some = Layers(0b000_0100);
    let outcome = run(&options, some, |_| {});
    assert!(outcome.tally.skipped() > 100);
    assert!(outcome.tally.compared() > 100);
    assert!(shortcomings(&options, some, &outcome).1);
    let outcome = run(&options, Layers(0), |_| {});
    assert_eq!(outcome.tally.compared(), 0);
    assert!(outcome.tally.skipped() >= 5000);
    assert!(shortcomings(&options, Layers(0), &outcome).1);
    let whole = run(&options, ALL, |_| {});
    assert!(!shortcomings(&options, ALL, &whole).1);
}

#[test]
fn the_version_is_looked_at() {
    assert_eq!(bridge::open(), Ok(ALL));
    let wrong = with_bug(Bug::WrongVersion, bridge::open);
    assert_eq!(wrong, Err(WrongVersion { found: 3 }));
    assert!(WrongVersion { found: 2 }.to_string().contains("version 2"));
}

#[test]
fn lists_are_found_again_by_their_ordinal() {
    for part in Part::ALL {
        let mut lists = Lists::new(part, 5);
        for ordinal in 0..12 {
            assert_eq!(lists.next_list(), Lists::at(part, 5, ordinal));
        }
    }
}

#[test]
fn a_clamped_offset_is_found() {
    let report = found(Bug::ClampOffset, Part::Money, 60_000);
    assert!(report.contains("shortest  1 of"), "{report}");
    let report = found(Bug::ClampOffset, Part::Books, 60_000);
    assert!(report.contains("guarantees"), "{report}");
}

#[test]
fn speed_no_load_where_m_is_0_is_found() {
    let report = found(Bug::NoLoadAtZero, Part::Money, 20_000);
    assert!(report.contains("shortest  1 of"), "{report}");
}

#[test]
fn names_decoded_twice_are_found() {
    let report = found(Bug::DecodeTwice, Part::Records, 60_000);
    assert!(report.contains("shortest  1 of"), "{report}");
}

#[test]
fn reading_before_16_is_found() {
    let report = found(Bug::ReadingBefore16, Part::Books, 60_000);
    assert!(report.contains("peer      16"), "{report}");
}

#[test]
fn a_refusal_that_writes_is_found() {
    let report = found(Bug::TouchAtRefusal, Part::Books, 20_000);
    assert!(
        report.contains("a refused change altered bytes"),
        "{report}"
    );
}

#[test]
fn a_refused_record_that_is_counted_is_found() {
    let report = found(Bug::CountRefused, Part::Days, 2_000);
    assert!(report.contains("shortest  1 of"), "{report}");
}

#[test]
fn another_line_of_the_statement_is_found() {
    let report = found(Bug::ZeroForError, Part::Days, 4_000);
    assert!(report.contains(" ERR - 15"), "{report}");
}

#[test]
fn another_total_of_the_statement_is_found() {
    for bug in [
        Bug::OffsetAdded,
        Bug::ErrorAdded,
        Bug::TotalOfTicks,
        Bug::NoTotalAlone,
    ] {
        let report = found(bug, Part::Days, 4_000);
        assert!(report.contains("DD TOT - "), "{bug:?}: {report}");
    }
}

#[test]
fn other_pages_are_found() {
    for bug in [
        Bug::PageOf58,
        Bug::RunningSum,
        Bug::TotalInSum,
        Bug::PageFrom0,
        Bug::NameTo42,
        Bug::BlanksTrimmed,
    ] {
        let report = found_soon(bug, Part::Days, 2_000);
        assert!(report.contains("call      pages, "), "{bug:?}: {report}");
        assert!(
            report.contains("shortest  1 of") || report.contains("shortest  2 of"),
            "{bug:?}: {report}"
        );
    }
}

#[test]
fn a_short_taking_back_is_found() {
    let report = found(Bug::ShortTakeBack, Part::Books, 60_000);
    assert!(
        report.contains("shortest  3 of") || report.contains("shortest  1 of"),
        "{report}"
    );
}
