//! The statement: one line for each amount of the day, and the day's total.
//!
//! [`lines`] gives the lines as values. The unpaged text is made from them
//! here, the pages in [`crate::pages`].

use crate::feed::feed;
use crate::names::Name;
use crate::questions::{failure_charge_of, guarantees_of, unit_day_of, Standing};
use crate::records::{Key, Mark};
use crate::refusal::Refusal;
use crate::register::{Register, LENT_MOST};
use crate::units::{Hour, Ticks};
use std::collections::BTreeSet;

/// The program `settle`: the statement of the records in an input.
pub fn settle(input: &[u8]) -> Vec<u8> {
    settle_as(input, statement)
}

/// "reads records back to back from standard input into a book over 65,535
/// bytes. At the first refusal it prints only `REF n r` (record ordinal from
/// 1, number)." Otherwise the text of the standing records.
pub(crate) fn settle_as(input: &[u8], text_of: impl FnOnce(&Register) -> String) -> Vec<u8> {
    let text = match read_all(input) {
        Ok(register) => text_of(&register),
        Err((ordinal, refusal)) => format!("REF {ordinal} {refusal}\n"),
    };
    text.into_bytes()
}

/// The register after all changes, or which one was refused and why.
fn read_all(input: &[u8]) -> Result<Register, (u64, Refusal)> {
    let mut register = Register::new();
    let fed = feed(input, |change| register.take(LENT_MOST, change));
    match fed.refusal {
        Some(refusal) => Err((fed.count + 1, refusal)),
        None => Ok(register),
    }
}

/// The statement of standing records: the fields of each line, a space
/// between them.
pub fn statement(records: &impl Standing) -> String {
    lines(records)
        .iter()
        .map(|line| line.fields().join(" ") + "\n")
        .collect()
}

/// The statement's lines: "by hour: `IOG` per import by name, `OFF` where
/// imports stand, `IFC`, `EFC` by name; then for each unit by name `PCG` (day
/// total) and `REV`." W1 adds "a last line `DD TOT - amount`".
pub fn lines(records: &impl Standing) -> Vec<Line> {
    let hours = Hour::all().flat_map(|hour| hour_lines(records, hour));
    let units = unit_names(records)
        .into_iter()
        .flat_map(|name| unit_lines(records, name));
    let mut lines: Vec<Line> = hours.chain(units).collect();
    lines.push(Line {
        hour: None,
        name: None,
        entry: Entry::Total(sum_of(&lines)),
    });
    lines
}

/// "It is the sum of the printed cents", each line by its sign.
pub(crate) fn sum_of(lines: &[Line]) -> i64 {
    // A day's cents stay far inside 64 bits.
    lines.iter().map(Line::counted).sum()
}

/// One line of the statement.
#[derive(Clone, Copy, Debug, PartialEq, Eq)]
pub struct Line {
    /// The hour, none for a line of the day.
    hour: Option<Hour>,
    /// The decoded name, none where `-` is printed.
    name: Option<Name>,
    entry: Entry,
}

/// What a line tells.
#[derive(Clone, Copy, Debug, PartialEq, Eq)]
enum Entry {
    /// An amount in printed cents.
    Amount(Kind, i64),
    /// "Where a price lacks": why there is no amount.
    Error(Refusal),
    /// W1's sum at the foot, in cents.
    Total(i64),
}

impl Line {
    fn amount_of(hour: Option<Hour>, kind: Kind, name: Option<Name>, amount: Ticks) -> Line {
        let entry = Entry::Amount(kind, amount.rounded_cents());
        Line { hour, name, entry }
    }

    fn error_of(hour: Option<Hour>, name: Option<Name>, refusal: Refusal) -> Line {
        let entry = Entry::Error(refusal);
        Line { hour, name, entry }
    }

    /// "Fields: hour or `DD`, kind, written name or `-`, dollars", each as it
    /// is printed.
    pub fn fields(&self) -> [String; 4] {
        let kind = self.kind().to_string();
        [self.label(), kind, self.written_name(), self.amount()]
    }

    /// "hour or `DD`", two columns.
    fn label(&self) -> String {
        self.hour
            .map_or("DD".to_string(), |hour| format!("{:02}", hour.number()))
    }

    /// The kind as it is printed, three columns.
    fn kind(&self) -> &'static str {
        match self.entry {
            Entry::Amount(kind, _) => kind.printed(),
            Entry::Error(_) => "ERR",
            Entry::Total(_) => "TOT",
        }
    }

    /// "written name or `-`", 1 to 36 columns.
    fn written_name(&self) -> String {
        self.name.map_or("-".to_string(), |name| {
            // Canonical spelling is plain ASCII.
            String::from_utf8_lossy(&name.spelled()).into_owned()
        })
    }

    /// The last field: dollars, or the number of an `ERR`.
    fn amount(&self) -> String {
        match self.entry {
            Entry::Amount(_, cents) | Entry::Total(cents) => dollars_of_cents(cents),
            Entry::Error(refusal) => refusal.to_string(),
        }
    }

    /// The cents that it adds to a sum. "Lines marked `ERR` add nothing."
    /// "W1's line .. isn't in its page's sum."
    pub fn counted(&self) -> i64 {
        match self.entry {
            Entry::Amount(kind, cents) => kind.sign() * cents,
            Entry::Error(_) | Entry::Total(_) => 0,
        }
    }
}

/// The kinds of amounts that a statement prints.
#[derive(Clone, Copy, Debug, PartialEq, Eq)]
enum Kind {
    ImportGuarantee,
    Offset,
    ImportFailure,
    ExportFailure,
    ProductionGuarantee,
    Reversal,
}

impl Kind {
    /// The kind as it is printed.
    fn printed(self) -> &'static str {
        match self {
            Kind::ImportGuarantee => "IOG",
            Kind::Offset => "OFF",
            Kind::ImportFailure => "IFC",
            Kind::ExportFailure => "EFC",
            Kind::ProductionGuarantee => "PCG",
            Kind::Reversal => "REV",
        }
    }

    /// How an amount counts in a total: "`IOG`, `PCG` and `REV` added, `OFF`,
    /// `IFC` and `EFC` taken off."
    fn sign(self) -> i64 {
        match self {
            Kind::ImportGuarantee | Kind::ProductionGuarantee | Kind::Reversal => 1,
            Kind::Offset | Kind::ImportFailure | Kind::ExportFailure => -1,
        }
    }
}

/// An hour's lines; "Where a price lacks: `05 ERR - 15` as the hour's only
/// line".
fn hour_lines(records: &impl Standing, hour: Hour) -> Vec<Line> {
    match hour_amounts(records, hour) {
        Ok(amounts) => amounts
            .into_iter()
            .map(|(kind, name, amount)| Line::amount_of(Some(hour), kind, name, amount))
            .collect(),
        Err(refusal) => vec![Line::error_of(Some(hour), None, refusal)],
    }
}

/// Kind, name and amount of each of an hour's lines.
type Amounts = Vec<(Kind, Option<Name>, Ticks)>;

/// The lines' amounts; 15 where an import or a failure stands without `PR`.
fn hour_amounts(records: &impl Standing, hour: Hour) -> Result<Amounts, Refusal> {
    let mut amounts = Amounts::new();
    let guarantees = guarantees_of(records, hour)?;
    for &(name, credit) in &guarantees.credits {
        amounts.push((Kind::ImportGuarantee, Some(name), credit));
    }
    if !guarantees.credits.is_empty() {
        amounts.push((Kind::Offset, None, guarantees.offset));
    }
    for (kind, mark) in [
        (Kind::ImportFailure, Mark::ImportFailure),
        (Kind::ExportFailure, Mark::ExportFailure),
    ] {
        for name in records.names(mark, hour) {
            let charge = failure_charge_of(records, &Key::named(mark, hour, name))?;
            amounts.push((kind, Some(name), charge));
        }
    }
    Ok(amounts)
}

/// A unit's lines; where a price lacks, "`DD ERR name 15` as the unit's".
fn unit_lines(records: &impl Standing, name: Name) -> Vec<Line> {
    match unit_day_of(records, name) {
        Ok(day) => [
            (Kind::ProductionGuarantee, day.total),
            (Kind::Reversal, day.reversal),
        ]
        .map(|(kind, amount)| Line::amount_of(None, kind, Some(name), amount))
        .to_vec(),
        Err(refusal) => vec![Line::error_of(None, Some(name), refusal)],
    }
}

/// All units of the day by decoded name.
fn unit_names(records: &impl Standing) -> BTreeSet<Name> {
    Hour::all()
        .flat_map(|hour| records.names(Mark::Unit, hour))
        .collect()
}

/// "dollars with two decimals, rounded half away from zero, zero without a
/// sign."
pub fn dollars(amount: Ticks) -> String {
    dollars_of_cents(amount.rounded_cents())
}

/// Whole cents as dollars: they are rounded already.
pub(crate) fn dollars_of_cents(cents: i64) -> String {
    let sign = if cents < 0 { "-" } else { "" };
    let size = cents.unsigned_abs();
    format!("{sign}{}.{:02}", size / 100, size % 100)
}
