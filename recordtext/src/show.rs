//! From bytes to text.

use crate::feed::{placed, Placed};
use crate::layout::{self, Kind, NO_PAIRS};
use crate::units::Unit;
use crate::why::quoted;
use crate::Refused;
use peer::records::Mark;
use std::fmt::Write;

/// How records are shown.
#[derive(Clone, Copy, Debug, Default, PartialEq, Eq)]
pub struct Style {
    /// A comment above each record has its ordinal and its first byte.
    pub headings: bool,
    /// Numbers have their units, as `$30.00` and `10.0MW`.
    pub units: bool,
}

/// The text of the records before the first that is refused, and that one.
#[derive(Clone, Debug, PartialEq, Eq)]
pub struct Shown {
    /// The text.
    pub text: String,
    /// Where reading stopped, if it did.
    pub refused: Option<Refused>,
}

/// The text of records back to back. Only reading is checked (1 to 7);
/// whether a book would take the records is for [`crate::check()`] to say.
pub fn show(bytes: &[u8], style: Style) -> Shown {
    let mut text = String::new();
    for record in placed(bytes) {
        match record {
            Ok(record) => show_placed(&record, style, &mut text),
            Err(refused) => {
                let refused = Some(refused);
                return Shown { text, refused };
            }
        }
    }
    let refused = None;
    Shown { text, refused }
}

/// A record below its heading.
fn show_placed(record: &Placed, style: Style, text: &mut String) {
    if style.headings {
        let (ordinal, start) = (record.ordinal, record.start);
        put(text, format_args!("# record {ordinal}, byte {start}\n"));
    }
    show_record(record.bytes, style, text);
}

/// One record that has been read without a refusal.
fn show_record(bytes: &[u8], style: Style, text: &mut String) {
    let mut record = Fields { rest: bytes, style };
    match record.two() {
        b"TB" => text.push_str("TB"),
        b"CL" => text.push_str("CL"),
        b"WD" => show_withdrawal(&mut record, text),
        b"CO" => {
            text.push_str("CO ");
            let inner = record.two();
            show_filed(inner, &mut record, text);
        }
        mark => show_filed(mark, &mut record, text),
    }
    text.push('\n');
}

/// Mark, hour and name of the record that is withdrawn.
fn show_withdrawal(record: &mut Fields, text: &mut String) {
    let Some(mark) = Mark::of_bytes(record.two()) else {
        return;
    };
    put(
        text,
        format_args!("WD {} {}", layout::letters(mark), record.byte()),
    );
    if layout::is_named(mark) {
        show_name(record, text);
    }
}

/// A record of one of the six marks.
fn show_filed(mark: &[u8], record: &mut Fields, text: &mut String) {
    let Some(mark) = Mark::of_bytes(mark) else {
        return;
    };
    put(
        text,
        format_args!("{} {}", layout::letters(mark), record.byte()),
    );
    if layout::is_named(mark) {
        show_name(record, text);
    }
    let before = if layout::is_spread(mark) {
        "\n    "
    } else {
        " "
    };
    for field in layout::fields(mark) {
        put(text, format_args!("{before}{}", field.word));
        match field.kind {
            Kind::Numbers(unit, count) => show_runs(&record.numbers(unit, count), text),
            Kind::List => show_list(record, text),
        }
    }
}

/// The name as it is spelled in the bytes.
fn show_name(record: &mut Fields, text: &mut String) {
    let length = record.byte();
    let spelled = record.take(usize::from(length));
    put(text, format_args!(" {}", quoted(spelled)));
}

/// Numbers in turn, equal neighbours as `12x100`.
fn show_runs(numbers: &[String], text: &mut String) {
    for run in numbers.chunk_by(|one, next| one == next) {
        match run.len() {
            1 => put(text, format_args!(" {}", run[0])),
            times => put(text, format_args!(" {times}x{}", run[0])),
        }
    }
}

/// Pairs as `price@quantity`.
fn show_list(record: &mut Fields, text: &mut String) {
    let count = record.byte();
    if count == 0 {
        put(text, format_args!(" {NO_PAIRS}"));
    }
    for _ in 0..count {
        let price = record.number(Unit::Price);
        let quantity = record.number(Unit::Quantity);
        put(text, format_args!(" {price}@{quantity}"));
    }
}

fn put(text: &mut String, what: std::fmt::Arguments) {
    text.write_fmt(what).expect("a string takes every text");
}

/// The fields of a record that is known to be whole.
struct Fields<'a> {
    rest: &'a [u8],
    style: Style,
}

impl<'a> Fields<'a> {
    fn take(&mut self, count: usize) -> &'a [u8] {
        let (taken, rest) = self.rest.split_at(count);
        self.rest = rest;
        taken
    }

    fn byte(&mut self) -> u8 {
        self.take(1)[0]
    }

    fn two(&mut self) -> &'a [u8] {
        self.take(2)
    }

    /// A number as it is shown.
    fn number(&mut self, unit: Unit) -> String {
        let four = self.take(4);
        let number = unit.number([four[0], four[1], four[2], four[3]]);
        if self.style.units {
            unit.with_unit(number)
        } else {
            number.to_string()
        }
    }

    fn numbers(&mut self, unit: Unit, count: usize) -> Vec<String> {
        (0..count).map(|_| self.number(unit)).collect()
    }
}

#[cfg(test)]
mod tests {
    use super::*;
    use peer::records::raw::{self, RawName, RawUnit};
    use peer::refusal::Refusal;

    fn shown(bytes: &[u8]) -> String {
        let shown = show(bytes, Style::default());
        assert_eq!(shown.refused, None);
        shown.text
    }

    #[test]
    fn one_line_for_each_record() {
        let import = raw::import(
            5,
            &RawName::of(b"A%2FB"),
            [100; 12],
            &[(4000, 50), (4100, 100)],
        );
        assert_eq!(
            shown(&import),
            "IM 5 A%2FB mqsi 12x100 offer 4000@50 4100@100\n"
        );
        let price = raw::price(24, [-1, 0, 0, 5, 5, 5, 6, 7, 8, 9, 9, 10], -200_000);
        assert_eq!(
            shown(&price),
            "PR 24 emp -1 2x0 3x5 6 7 8 2x9 10 pd-price -200000\n"
        );
        let failed = raw::failure(b"FE", 1, &RawName::of(b"a/b"), [2000, 1500], [90, -80]);
        assert_eq!(
            shown(&failed),
            "FE 1 a/b da-quantity 2000 pd-quantity 1500 da-price 90 pd-price -80\n"
        );
        let export = raw::correct(&raw::export(2, &RawName::of(b"%44"), [0; 12]));
        assert_eq!(shown(&export), "CO EX 2 %44 mqsw 12x0\n");
        assert_eq!(
            shown(&raw::withdraw(b"PR", 3, &RawName::of(b""))),
            "WD PR 3\n"
        );
        assert_eq!(
            shown(&raw::withdraw(b"GH", 3, &RawName::of(b"G"))),
            "WD GH 3 G\n"
        );
        assert_eq!(shown(b"TBCL"), "TB\nCL\n");
        assert_eq!(shown(b""), "");
    }

    #[test]
    fn numbers_with_their_units() {
        let style = Style {
            units: true,
            ..Style::default()
        };
        let import = raw::import(5, &RawName::of(b"A"), [100; 12], &[(-7, 101)]);
        assert_eq!(
            show(&import, style).text,
            "IM 5 A mqsi 12x10.0MW offer -$0.07@10.1MW\n"
        );
        let unit = raw::unit(1, &RawName::of(b"G"), &RawUnit::idle());
        assert!(show(&unit, style).text.contains("start $0.00\n"));
    }

    #[test]
    fn a_unit_is_spread_over_indented_lines() {
        let mut unit = RawUnit::idle();
        unit.start_up = 500_000;
        unit.lists[2] = vec![(100, 100)];
        let text = shown(&raw::unit(7, &RawName::of(b"G"), &unit));
        let lines: Vec<&str> = text.lines().collect();
        assert_eq!(lines.len(), 19);
        assert_eq!(lines[..2], ["GH 7 G", "    start 500000"]);
        assert_eq!(lines[8], "    10s-price 12x0");
        assert_eq!(
            lines[16..],
            [
                "    10s-offer 100@100",
                "    10ns-offer none",
                "    30r-offer none"
            ]
        );
    }

    #[test]
    fn names_that_would_be_misread_are_quoted() {
        for (spelled, word) in [
            ("#A", "\"#A\""),
            ("\"", "\"\"\""),
            ("A#", "A#"),
            ("none", "none"),
        ] {
            let bytes = raw::withdraw(b"EX", 1, &RawName::of(spelled.as_bytes()));
            assert_eq!(shown(&bytes), format!("WD EX 1 {word}\n"));
        }
    }

    #[test]
    fn a_refusal_has_its_place_and_the_text_ends_before_it() {
        let bytes = [
            b"TB".to_vec(),
            raw::export(1, &RawName::of(b"A%2"), [0; 12]),
        ]
        .concat();
        let shown = show(
            &bytes,
            Style {
                headings: true,
                ..Style::default()
            },
        );
        assert_eq!(shown.text, "# record 1, byte 0\nTB\n");
        let refused = shown.refused.unwrap();
        assert_eq!(
            (refused.ordinal, refused.start, refused.at),
            (2, 2, Some(7))
        );
        assert_eq!(refused.refusal, Refusal::NameFault);
        assert_eq!(
            refused.to_string(),
            "record 2, EX 1, at byte 2, is refused with 4: the name breaks its rule\n\
             name 'A%2', byte 2 of 3: % without two hex digits behind it (byte 7)"
        );
    }
}
