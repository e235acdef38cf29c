//! What the bugs of the mock make of a statement.

use crate::mock::Bug;
use peer::names::Name;
use peer::questions::{failure_charge_of, guarantees_of, unit_day_of, Standing};
use peer::records::{Key, Mark};
use peer::refusal::Refusal;
use peer::statement::dollars;
use peer::units::{Hour, Ticks};
use std::collections::BTreeSet;

/// Ticks of a cent.
const CENT: i64 = 120;

/// The text of some records' statement with a bug.
pub fn altered(bug: Bug, text: &str, records: &impl Standing) -> String {
    let total = cents(text, " TOT - ");
    match bug {
        Bug::ZeroForError => text.replace(" ERR - 15", " OFF - 0."),
        Bug::OffsetAdded => with_total(text, CENT * (total + 2 * cents(text, " OFF - "))),
        Bug::ErrorAdded => with_total(text, CENT * (total + 15 * errors(text))),
        Bug::TotalOfTicks => with_total(text, day_ticks(records)),
        Bug::NoTotalAlone if text.lines().count() == 1 => String::new(),
        _ => text.to_string(),
    }
}

/// The sum of the printed cents of the lines with these words.
fn cents(text: &str, words: &str) -> i64 {
    let amounts = text.lines().filter_map(|line| line.split_once(words));
    amounts
        .map(|(_, amount)| amount.replace('.', "").parse::<i64>().expect("cents"))
        .sum()
}

/// How many lines have no amount.
fn errors(text: &str) -> i64 {
    let lines = text.lines().filter(|line| line[2..].starts_with(" ERR "));
    lines.count() as i64
}

/// The text with another total.
fn with_total(text: &str, ticks: i64) -> String {
    let end = text.rfind(' ').expect("a total");
    format!("{} {}\n", &text[..end], dollars(Ticks(ticks)))
}

/// The day's ticks, added and taken off as in the total.
fn day_ticks(records: &impl Standing) -> i64 {
    let hours = Hour::all().map(|hour| hour_ticks(records, hour).unwrap_or(0));
    let units: BTreeSet<Name> = Hour::all()
        .flat_map(|hour| records.names(Mark::Unit, hour))
        .collect();
    let units = units.into_iter().map(|name| {
        let day = unit_day_of(records, name);
        day.map_or(0, |day| day.total.0 + day.reversal.0)
    });
    hours.sum::<i64>() + units.sum::<i64>()
}

fn hour_ticks(records: &impl Standing, hour: Hour) -> Result<i64, Refusal> {
    let guarantees = guarantees_of(records, hour)?;
    let credits = guarantees.credits.iter().map(|(_, credit)| credit.0);
    let mut ticks = credits.sum::<i64>() - guarantees.offset.0;
    for mark in [Mark::ImportFailure, Mark::ExportFailure] {
        for name in records.names(mark, hour) {
            ticks -= failure_charge_of(records, &Key::named(mark, hour, name))?.0;
        }
    }
    Ok(ticks)
}
