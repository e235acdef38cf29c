//! From text to bytes.

use crate::form::text_of;
use crate::layout::{self, Field, Kind, NO_PAIRS};
use crate::units::Unit;
use crate::words::{bad, records, Word, Words};
use crate::{numbers, BadText, Refused};
use peer::records::{parse_change_prefix, Mark};
use peer::refusal::Refusal;

/// The records of a text. A record that reading would refuse (1 to 7) is a
/// fault of its line, unless it is marked as `broken`.
pub fn make(text: impl AsRef<[u8]>) -> Result<Vec<u8>, BadText> {
    let mut bytes = Vec::new();
    for words in records(text_of(text.as_ref())?)? {
        bytes.extend(make_record(words)?);
    }
    Ok(bytes)
}

/// The bytes of one record or `hex` line.
fn make_record(words: Words) -> Result<Vec<u8>, BadText> {
    let line = words[0].line;
    let mut record = Maker::new(&words);
    if record.skip("hex") {
        record.hex()?;
        return Ok(record.out);
    }
    let meant_broken = record.skip("broken");
    record.change()?;
    record.end()?;
    match (parse_change_prefix(&record.out), meant_broken) {
        (Err(refusal), false) => Err(record.refused(refusal)),
        (Ok(_), true) => Err(bad(line, "marked as broken, but it breaks no rule")),
        _ => Ok(record.out),
    }
}

/// Goes through the words of a record and lays out its bytes.
struct Maker<'a> {
    words: &'a [Word<'a>],
    /// The last word taken.
    word: Word<'a>,
    out: Vec<u8>,
    /// Where the bytes of each word end.
    laid: Vec<(usize, Word<'a>)>,
}

impl<'a> Maker<'a> {
    /// The words of a record, of which there is at least one.
    fn new(words: &'a [Word<'a>]) -> Maker<'a> {
        Maker {
            words,
            word: words[0],
            out: Vec::new(),
            laid: Vec::new(),
        }
    }

    /// A record of any of the ten marks.
    fn change(&mut self) -> Result<(), BadText> {
        let starts = format!("{}, hex or broken", layout::TEN);
        match self.word(&starts)?.text {
            letters @ ("TB" | "CL") => self.put(letters.as_bytes()),
            "WD" => {
                self.put(b"WD");
                self.withdrawal()?;
            }
            "CO" => {
                self.put(b"CO");
                let mark = self.mark()?;
                self.filed(mark)?;
            }
            letters => match Mark::of_bytes(letters.as_bytes()) {
                Some(mark) => self.filed(mark)?,
                None => return Err(self.found(&starts, letters)),
            },
        }
        Ok(())
    }

    /// A mark where only the six are allowed.
    fn mark(&mut self) -> Result<Mark, BadText> {
        let marks = format!("one of {}", layout::SIX);
        let letters = self.word(&marks)?.text;
        Mark::of_bytes(letters.as_bytes()).ok_or_else(|| self.found(&marks, letters))
    }

    /// Mark, hour and name; for `PR` the name is left out.
    fn withdrawal(&mut self) -> Result<(), BadText> {
        let mark = self.mark()?;
        self.put(&mark.bytes());
        self.hour()?;
        if !layout::is_named(mark) && self.words.is_empty() {
            self.put(&[0]);
            return Ok(());
        }
        self.name()
    }

    /// A record of one of the six marks.
    fn filed(&mut self, mark: Mark) -> Result<(), BadText> {
        self.put(&mark.bytes());
        self.hour()?;
        if layout::is_named(mark) {
            self.name()?;
        }
        let absent = self.absent_reserves();
        for field in layout::fields(mark) {
            if absent.contains(&field.word) {
                self.nothing(field.kind);
                continue;
            }
            self.label(field)?;
            match field.kind {
                Kind::Numbers(unit, count) => self.numbers(field.word, unit, count)?,
                Kind::List => self.list(field.word)?,
            }
        }
        Ok(())
    }

    /// The words of reserves of which none is there.
    fn absent_reserves(&self) -> Vec<&'static str> {
        let is_there = |label: &&str| self.words.iter().any(|word| word.text == *label);
        let reserves = layout::RESERVES.into_iter();
        let absent = reserves.filter(|labels| !labels.iter().any(is_there));
        absent.flatten().collect()
    }

    /// Zeros, or a list without pairs.
    fn nothing(&mut self, kind: Kind) {
        match kind {
            Kind::Numbers(_, count) => self.put(&[0; 4].repeat(count)),
            Kind::List => self.put(&[0]),
        }
    }

    fn hour(&mut self) -> Result<(), BadText> {
        const HOUR: &str = "the hour, 1 to 24";
        let text = self.word(HOUR)?.text;
        let hour: u8 = text.parse().map_err(|_| self.found(HOUR, text))?;
        self.put(&[hour]);
        Ok(())
    }

    /// A name as spelled, between quotes where it would be misread.
    fn name(&mut self) -> Result<(), BadText> {
        let text = self.word("a name")?.text;
        let spelled = match text.strip_prefix('"') {
            None => text,
            Some(rest) => match rest.strip_suffix('"') {
                Some(inner) => inner,
                None => return Err(self.found("a quote at the end of the name", text)),
            },
        };
        let Ok(length) = u8::try_from(spelled.len()) else {
            return Err(self.found("a name of at most 255 bytes", text));
        };
        self.put(&[length]);
        self.put(spelled.as_bytes());
        Ok(())
    }

    /// The word of a field, or the one that it had before.
    fn label(&mut self, field: &Field) -> Result<(), BadText> {
        let mut expected = format!("the word {}", field.word);
        if layout::RESERVES.as_flattened().contains(&field.word) {
            expected += " (a reserve has price, schedule and offer, or none of them)";
        }
        let text = self.word(&expected)?.text;
        if text == field.word || Some(text) == field.former {
            Ok(())
        } else {
            Err(self.found(&expected, text))
        }
    }

    /// So many numbers, each alone or as `TIMESxNUMBER`.
    fn numbers(&mut self, label: &str, unit: Unit, count: usize) -> Result<(), BadText> {
        let mut got = 0;
        while got < count {
            let which = match count {
                1 => format!("a number for {label}"),
                _ => format!("number {} of {count} for {label}", got + 1),
            };
            let expected = format!("{which} ({})", unit.typing());
            let text = self.word(&expected)?.text;
            let (times, number) = text.split_once('x').unwrap_or(("1", text));
            let bytes = unit
                .typed(number)
                .map_err(|fault| self.unfit(&expected, text, &format!("which {fault}")))?;
            let left = count - got;
            let times = times
                .parse()
                .ok()
                .filter(|times| (1..=left).contains(times));
            let Some(times) = times else {
                return Err(self.found(&format!("{left} more of {count} for {label}"), text));
            };
            self.put(&bytes.repeat(times));
            got += times;
        }
        Ok(())
    }

    /// Pairs as far as words have an `@`, or the word for none.
    fn list(&mut self, label: &str) -> Result<(), BadText> {
        let count_at = self.out.len();
        self.put(&[0]);
        if self.skip(NO_PAIRS) {
            return Ok(());
        }
        let expected = format!("PRICE@QUANTITY for {label}, or {NO_PAIRS}");
        let mut count = 0;
        while count == 0 || self.words.first().is_some_and(is_pair) {
            let text = self.word(&expected)?.text;
            let pair = pair_bytes(text).map_err(|fault| self.unfit(&expected, text, &fault))?;
            self.put(&pair);
            count += 1;
        }
        self.out[count_at] = u8::try_from(count)
            .map_err(|_| bad(self.word.line, format!("{label} has more than 255 pairs")))?;
        Ok(())
    }

    /// Raw bytes, two hex digits each, together or apart.
    fn hex(&mut self) -> Result<(), BadText> {
        const DIGITS: &str = "pairs of hex digits";
        self.peek(DIGITS)?;
        while !self.words.is_empty() {
            let text = self.word(DIGITS)?.text;
            let bytes = hex_bytes(text).ok_or_else(|| self.found(DIGITS, text))?;
            self.put(&bytes);
        }
        Ok(())
    }

    /// Nothing may follow.
    fn end(&mut self) -> Result<(), BadText> {
        match self.words.first() {
            None => Ok(()),
            Some(word) => {
                self.word = *word;
                Err(self.found("the end of the record", word.text))
            }
        }
    }

    fn put(&mut self, bytes: &[u8]) {
        self.out.extend(bytes);
        self.laid.push((self.out.len(), self.word));
    }

    /// Takes the next word if it is this one.
    fn skip(&mut self, text: &str) -> bool {
        let next = self.words.first().filter(|word| word.text == text);
        if let Some(word) = next {
            self.word = *word;
            self.words = &self.words[1..];
        }
        next.is_some()
    }

    fn peek(&self, expected: &str) -> Result<Word<'a>, BadText> {
        self.words.first().copied().ok_or_else(|| {
            let message = format!("expected {expected}, but the record ends here");
            bad(self.word.line, message)
        })
    }

    fn word(&mut self, expected: &str) -> Result<Word<'a>, BadText> {
        self.word = self.peek(expected)?;
        self.words = &self.words[1..];
        Ok(self.word)
    }

    fn found(&self, expected: &str, text: &str) -> BadText {
        bad(
            self.word.line,
            format!("expected {expected}, found '{text}'"),
        )
    }

    /// The same, and what is wrong with what was found.
    fn unfit(&self, expected: &str, text: &str, fault: &str) -> BadText {
        let found = self.found(expected, text);
        bad(found.line, format!("{}, {fault}", found.message))
    }

    /// The word whose bytes break a rule of reading, and why.
    fn refused(&self, refusal: Refusal) -> BadText {
        let Refused { why, at, .. } = Refused::unread(1, 0, &self.out, refusal);
        let is_at_fault = |(end, _): &&(usize, Word)| at.is_some_and(|at| *end > at);
        let word = self.laid.iter().find(is_at_fault);
        let word = word.map_or(self.word, |(_, word)| *word);
        let told = numbers::told(refusal);
        let advice = "write 'broken' before a record that is meant to be refused";
        let message = format!("'{}': {why}; refused with {told}; {advice}", word.text);
        bad(word.line, message)
    }
}

fn is_pair(word: &Word) -> bool {
    word.text.contains('@')
}

/// The bytes of a pair, or what is wrong with it.
fn pair_bytes(text: &str) -> Result<Vec<u8>, String> {
    let (price, quantity) = text.split_once('@').ok_or("which has no @")?;
    let price = Unit::Price.typed(price);
    let price = price.map_err(|fault| format!("whose price {fault}"))?;
    let quantity = Unit::Quantity.typed(quantity);
    let quantity = quantity.map_err(|fault| format!("whose quantity {fault}"))?;
    Ok([price, quantity].concat())
}

fn hex_bytes(text: &str) -> Option<Vec<u8>> {
    let digits = text.chars().map(|digit| digit.to_digit(16));
    let digits: Vec<u32> = digits.collect::<Option<_>>()?;
    let pairs = digits.chunks_exact(2);
    let whole = pairs.remainder().is_empty();
    whole.then(|| pairs.map(|pair| (pair[0] << 4 | pair[1]) as u8).collect())
}

#[cfg(test)]
mod tests {
    use super::*;
    use peer::records::raw::{self, RawName, RawUnit};

    fn fault(text: &str) -> String {
        make(text).expect_err("a fault").to_string()
    }

    #[test]
    fn the_papers_hour() {
        let text = "PR 5 emp 12x3000 pd-price 3000 # prices\n\
                    IM 5 A%2FB mqsi 12x100\n  offer 4000@100\n\nEX 5 D mqsw 6x250 250 5x250\n";
        let bytes = [
            raw::price(5, [3000; 12], 3000),
            raw::import(5, &RawName::of(b"A%2FB"), [100; 12], &[(4000, 100)]),
            raw::export(5, &RawName::of(b"D"), [250; 12]),
        ];
        assert_eq!(make(text).unwrap(), bytes.concat());
        assert_eq!(make("# nothing\n\n").unwrap(), b"");
    }

    #[test]
    fn marks_without_fields_and_withdrawals() {
        assert_eq!(
            make("TB\nCL\nWD PR 7\nWD FI 7 A").unwrap(),
            b"TBCLWDPR\x07\x00WDFI\x07\x01A"
        );
    }

    #[test]
    fn broken_records_and_raw_bytes() {
        assert_eq!(make("hex 50").unwrap(), b"P");
        assert_eq!(make("hex 5a5A 00 fF\n  01").unwrap(), b"ZZ\x00\xff\x01");
        assert_eq!(make("broken WD EX 1 \"\"").unwrap(), b"WDEX\x01\x00");
        assert_eq!(make("broken WD PR 1 A").unwrap(), b"WDPR\x01\x01A");
        assert_eq!(
            make("broken IM 1 N mqsi 12x0 offer none").unwrap(),
            raw::import(1, &RawName::of(b"N"), [0; 12], &[])
        );
        assert_eq!(
            fault("broken TB"),
            "line 1: marked as broken, but it breaks no rule"
        );
    }

    #[test]
    fn a_broken_rule_is_a_fault_of_its_line() {
        assert_eq!(
            fault("TB\n\nIM 1 N mqsi 12x0 offer 2000@10\n  1999@20"),
            "line 4: '1999@20': offer, pair 2 of 2: price 1999 is below 2000 of the pair before; \
             refused with 6: a list breaks its rule; \
             write 'broken' before a record that is meant to be refused"
        );
    }

    /// Texts of one line, and what is said of them.
    const FAULTS: &[(&str, &str)] = &[
        (
            "XX 1",
            "expected PR, IM, EX, GH, FI, FE, CO, WD, TB, CL, hex or broken, found 'XX'",
        ),
        (
            "CO TB",
            "expected one of PR, IM, EX, GH, FI, FE, found 'TB'",
        ),
        ("PR five", "expected the hour, 1 to 24, found 'five'"),
        ("PR 256", "expected the hour, 1 to 24, found '256'"),
        ("EX 1", "expected a name, but the record ends here"),
        ("WD EX 1", "expected a name, but the record ends here"),
        (
            "WD EX 1 \"A",
            "expected a quote at the end of the name, found '\"A'",
        ),
        (
            "WD EX 1 \"",
            "expected a quote at the end of the name, found '\"'",
        ),
        ("EX 1 A mqsi 12x0", "expected the word mqsw, found 'mqsi'"),
        (
            "EX 1 A mqsw 11x0",
            "expected number 12 of 12 for mqsw (tenths of a MW as 100, or 10.0MW), but the record ends here",
        ),
        (
            "EX 1 A mqsw 11x0 y",
            "expected number 12 of 12 for mqsw (tenths of a MW as 100, or 10.0MW), found 'y', \
             which is no number",
        ),
        (
            "EX 1 A mqsw 2x10.05MW 10x0",
            "expected number 1 of 12 for mqsw (tenths of a MW as 100, or 10.0MW), found '2x10.05MW', \
             which is finer than a tenth of a MW",
        ),
        (
            "EX 1 A mqsw 10x0 3x1",
            "expected 2 more of 12 for mqsw, found '3x1'",
        ),
        (
            "EX 1 A mqsw 0x1 12x0",
            "expected 12 more of 12 for mqsw, found '0x1'",
        ),
        (
            "EX 1 A mqsw yx1",
            "expected 12 more of 12 for mqsw, found 'yx1'",
        ),
        (
            "EX 1 A mqsw 12x-1",
            "expected number 1 of 12 for mqsw (tenths of a MW as 100, or 10.0MW), found '12x-1', \
             which is below 0",
        ),
        (
            "EX 1 A mqsw 12x0 0",
            "expected the end of the record, found '0'",
        ),
        (
            "IM 1 A mqsi 12x0 offer",
            "expected PRICE@QUANTITY for offer, or none, but the record ends here",
        ),
        (
            "IM 1 A mqsi 12x0 offer 5@",
            "expected PRICE@QUANTITY for offer, or none, found '5@', whose quantity is no number",
        ),
        (
            "IM 1 A mqsi 12x0 offer 30.00@10.0MW",
            "expected PRICE@QUANTITY for offer, or none, found '30.00@10.0MW', \
             whose price has decimals but no unit",
        ),
        (
            "IM 1 A mqsi 12x0 offer 5",
            "expected PRICE@QUANTITY for offer, or none, found '5', which has no @",
        ),
        ("hex 5", "expected pairs of hex digits, found '5'"),
        (
            "hex",
            "expected pairs of hex digits, but the record ends here",
        ),
        (
            "PR 1 emp 12x3000000000 pd-price 0",
            "expected number 1 of 12 for emp (cents as 3000, or $30.00), found '12x3000000000', \
             which does not fit into four bytes",
        ),
        (
            "PR 1 emp 12x0 pd-price 10.0MW",
            "expected a number for pd-price (cents as 3000, or $30.00), found '10.0MW', \
             which is in MW, where dollars or cents stand",
        ),
    ];

    #[test]
    fn what_was_expected_stands_in_the_message() {
        for (text, message) in FAULTS {
            assert_eq!(fault(text), format!("line 1: {message}"));
        }
        assert_eq!(
            fault("TB\nGH 1 G\n  start 1\n  noload 2"),
            "line 4: expected the word no-load, found 'noload'"
        );
    }

    /// The line and the word are those of the fault, not of the record.
    #[test]
    fn a_broken_rule_has_its_word_and_value() {
        let broken = |text: &str| fault(text).split("; refused").next().unwrap().to_string();
        assert_eq!(
            broken("PR 1\n emp 11x0\n $2000.01\n pd-price 0"),
            "line 3: '$2000.01': emp, number 12 of 12: 200001 is above 200,000"
        );
        assert_eq!(
            broken("IM 1 N mqsi 2x100\n 3x101\n 7x100\n offer 5@100"),
            "line 2: '3x101': mqsi, interval 3: 101 is beyond the offer's last quantity 100"
        );
        assert_eq!(
            broken("WD IM 1 A%2"),
            "line 1: 'A%2': name 'A%2', byte 2 of 3: % without two hex digits behind it"
        );
        assert_eq!(
            broken("PR 25 emp 12x0 pd-price 0"),
            "line 1: '25': hour: 25 is not 1 to 24"
        );
        assert_eq!(
            broken("IM 1 N mqsi 12x0\n offer none"),
            "line 2: 'offer': offer, count: 0 is not 1 to 20"
        );
    }

    #[test]
    fn units_beside_whole_numbers() {
        let plain = "PR 5 emp 12x3000 pd-price -500\nIM 5 A mqsi 12x100 offer 4000@100 4100@101";
        let typed = "PR 5 emp 6x$30.00 6x3000 pd-price -$5.00\n\
                     IM 5 A mqsi 11x10.0MW 10MW offer $40.00@100 4100@10.1MW";
        assert_eq!(make(typed), make(plain));
    }

    #[test]
    fn former_words_are_taken() {
        let former = "PR 1 emp 12x0 pd 5\nFI 1 A da 20 pd 15 da-price 9 pd-price -8";
        let words = "PR 1 emp 12x0 pd-price 5\n\
                     FI 1 A da-quantity 20 pd-quantity 15 da-price 9 pd-price -8";
        assert_eq!(make(former), make(words));
        assert_eq!(
            fault("PR 1 emp 12x0 pd-quantity 5"),
            "line 1: expected the word pd-price, found 'pd-quantity'"
        );
    }

    /// A unit whose reserves are given so, and some of them left out.
    fn unit_text(prices: &str, lists: &str) -> String {
        format!(
            "GH 1 10s-price start 5 no-load 6 day-ahead 12x1 real-time 12x2 unconstrained 12x3 \
             metered 12x4 capacity 12x5 {prices} day-ahead-offer 7@1 real-time-offer 8@1 {lists}"
        )
    }

    #[test]
    fn reserves_may_be_left_out() {
        let mut unit = RawUnit::idle();
        (unit.start_up, unit.no_load) = (5, 6);
        unit.schedules = [[1; 12], [2; 12], [3; 12], [4; 12], [5; 12]];
        unit.lists = [vec![(7, 1)], vec![(8, 1)], vec![], vec![], vec![]];
        let bytes = |unit: &RawUnit| raw::unit(1, &RawName::of(b"10s-price"), unit);
        assert_eq!(make(unit_text("", "")), Ok(bytes(&unit)));
        unit.reserves[1] = ([9; 12], [10; 12]);
        unit.lists[3] = vec![(1, 10)];
        let one = unit_text("10ns-price 12x9 10ns-schedule 12x10", "10ns-offer 1@10");
        assert_eq!(make(one), Ok(bytes(&unit)));
    }

    #[test]
    fn a_reserve_is_given_whole() {
        let expected = "(a reserve has price, schedule and offer, or none of them)";
        assert_eq!(
            fault(&unit_text("10s-price 12x0", "")),
            format!("line 1: expected the word 10s-schedule {expected}, found 'day-ahead-offer'")
        );
        assert_eq!(
            fault(&unit_text("30r-price 12x0 30r-schedule 12x0", "")),
            format!("line 1: expected the word 30r-offer {expected}, but the record ends here")
        );
        assert_eq!(
            fault(&unit_text("", "10s-offer none")),
            format!("line 1: expected the word 10s-price {expected}, found 'day-ahead-offer'")
        );
    }

    #[test]
    fn more_pairs_than_a_count_byte_holds() {
        let pairs = " 1@1".repeat(256);
        assert_eq!(
            fault(&format!("broken IM 1 N mqsi 12x0 offer{pairs}")),
            "line 1: offer has more than 255 pairs"
        );
    }
}
