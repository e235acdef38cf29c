//! Text or records: which of the two some bytes are.

use crate::words::bad;
use crate::BadText;
use peer::records::parse_change_prefix;
use peer::refusal::Refusal;

/// What a file holds.
#[derive(Clone, Copy, Debug, PartialEq, Eq)]
pub enum Form {
    /// Lines of text, for [`crate::make()`].
    Text,
    /// Records back to back, for [`crate::show()`] and `settle`.
    Records,
}

/// What UTF-8 text may start with, and what text of other encodings does.
const UTF_8_MARK: &[u8] = b"\xEF\xBB\xBF";
const UTF_16_MARKS: [&[u8]; 2] = [b"\xFF\xFE", b"\xFE\xFF"];

/// Whether bytes are text or records; right for every input whose first record
/// can be read, and for every text that can be made into records.
///
/// Every filed record has a number whose highest byte is 0x00 or 0xFF, which
/// text has not. Records without numbers (`TB`, `CL`, `WD`) have no blank
/// behind the mark. Bytes that may be either, such as none at all, are records.
pub fn form_of(bytes: &[u8]) -> Form {
    if starts_with_a_mark_of_text(bytes) {
        return Form::Text;
    }
    let is_raw = |&byte: &u8| is_control(byte) || byte == 0xFF;
    if bytes.iter().any(is_raw) || !has_words(bytes) || starts_as_a_change(bytes) {
        Form::Records
    } else {
        Form::Text
    }
}

/// Whether blanks part the bytes into words, or they are a comment.
fn has_words(bytes: &[u8]) -> bool {
    bytes.starts_with(b"#") || String::from_utf8_lossy(bytes).contains(char::is_whitespace)
}

/// Whether bytes begin with one of the marks of a change.
pub fn starts_with_a_mark(bytes: &[u8]) -> bool {
    let unknown = Err(Refusal::MarkUnknown);
    bytes.len() >= 2 && parse_change_prefix(&bytes[..2]).map(|_| ()) != unknown
}

/// The text of bytes, without a byte-order mark.
pub(crate) fn text_of(bytes: &[u8]) -> Result<&str, BadText> {
    if UTF_16_MARKS.iter().any(|mark| bytes.starts_with(mark)) {
        return Err(bad(1, "the text is in UTF-16; save it as UTF-8"));
    }
    let bytes = bytes.strip_prefix(UTF_8_MARK).unwrap_or(bytes);
    if let Some(place) = bytes.iter().position(|&byte| is_control(byte)) {
        let byte = bytes[place];
        let message = format!(
            "found the byte 0x{byte:02X}, which text has not; if these are records, use 'recordtext show'"
        );
        return Err(bad(line_at(bytes, place), message));
    }
    std::str::from_utf8(bytes).map_err(|fault| {
        let line = line_at(bytes, fault.valid_up_to());
        bad(line, "expected text in UTF-8")
    })
}

fn starts_with_a_mark_of_text(bytes: &[u8]) -> bool {
    bytes.starts_with(UTF_8_MARK) || UTF_16_MARKS.iter().any(|mark| bytes.starts_with(mark))
}

/// Whether another mark follows a mark at once, as in records.
fn starts_as_a_change(bytes: &[u8]) -> bool {
    matches!(bytes, [b'T', b'B', next, ..] | [b'C', b'L' | b'O', next, ..] | [b'W', b'D', next, ..]
        if next.is_ascii_uppercase())
}

/// A control character that is no tab and no part of a line end.
fn is_control(byte: u8) -> bool {
    byte.is_ascii_control() && !matches!(byte, b'\t' | b'\n' | b'\r')
}

/// The line of a byte, counted from 1.
fn line_at(bytes: &[u8], place: usize) -> usize {
    let before = &bytes[..place];
    1 + before.iter().filter(|&&byte| byte == b'\n').count()
}

#[cfg(test)]
mod tests {
    use super::*;
    use peer::records::raw::{self, RawName, RawUnit};

    /// One record of each mark, with the numbers that have the fewest bytes
    /// 0x00 and 0xFF.
    fn records(hour: u8, name: &[u8]) -> Vec<Vec<u8>> {
        let name = RawName::of(name);
        let mut unit = RawUnit::idle();
        (unit.start_up, unit.no_load) = (0x0102_0304, 0x0102_0304);
        let filed = [
            raw::price(hour, [-2; 12], -2),
            raw::price(hour, [0x1_0909; 12], 0x1_0909),
            raw::import(hour, &name, [0x1_0909; 12], &[(0x1_0909, 0x1_0909)]),
            raw::export(hour, &name, [0x1_0909; 12]),
            raw::unit(hour, &name, &unit),
            raw::failure(b"FI", hour, &name, [0x1_0909; 2], [-2; 2]),
            raw::failure(b"FE", hour, &name, [0x1_0909; 2], [-2; 2]),
        ];
        let corrected = filed.clone().map(|record| raw::correct(&record));
        let withdrawn = [
            raw::withdraw(b"PR", hour, &RawName::of(b"")),
            raw::withdraw(b"IM", hour, &name),
        ];
        [&filed[..], &corrected, &withdrawn].concat()
    }

    #[test]
    fn records_of_every_mark_and_hour_are_records() {
        for hour in 1..=24 {
            for length in [1, 9, 10, 11, 12, 13, 32, 36] {
                for record in records(hour, &b"A".repeat(length)) {
                    assert_eq!(form_of(&record), Form::Records, "{record:?}");
                    assert!(starts_with_a_mark(&record));
                }
            }
        }
        for other in [&b""[..], b"P", b"ZZ", b"\x89PNG", b"pr"] {
            assert!(!starts_with_a_mark(other));
        }
    }

    #[test]
    fn texts_are_text_whatever_parts_their_words() {
        for text in [
            "PR\t9 emp",
            "PR\n  9 emp",
            "PR\r\n  9",
            "PR\u{a0}5",
            "#comment",
            "\n",
            " # indented",
            "hex 5052",
            "PR5 emp",
        ] {
            assert_eq!(form_of(text.as_bytes()), Form::Text, "{text:?}");
        }
    }

    #[test]
    fn text_is_told_from_records() {
        let texts: [&[u8]; 8] = [
            b"PR 5 emp 12x3000 pd 3000\n",
            b"# only a comment",
            b"TB\n",
            b"CL # closed",
            b"\xEF\xBB\xBFTB",
            b"\xFF\xFET\0B\0",
            b"# Qu\xE9bec\r\nTB\r\n",
            b"WD IM 5 A",
        ];
        for text in texts {
            assert_eq!(form_of(text), Form::Text, "{text:?}");
        }
        let price = raw::price(9, [3000; 12], 3000);
        let below = raw::price(10, [-1; 12], -1);
        let withdrawn = raw::withdraw(b"EX", 10, &raw::RawName::of(b"123456789"));
        for records in [
            &price[..],
            &below,
            &withdrawn,
            b"CL",
            b"TBCL",
            b"P",
            b"ZZ",
            b"",
        ] {
            assert_eq!(form_of(records), Form::Records, "{records:?}");
        }
    }

    #[test]
    fn what_is_no_text_is_told_with_its_line() {
        let told = |bytes: &[u8]| text_of(bytes).unwrap_err().to_string();
        assert_eq!(told(b"TB\n# Qu\xE9bec"), "line 2: expected text in UTF-8");
        assert_eq!(
            told(b"\xFF\xFET\0B\0"),
            "line 1: the text is in UTF-16; save it as UTF-8"
        );
        assert_eq!(
            told(b"TB\nPR\x05\0\0"),
            "line 2: found the byte 0x05, which text has not; if these are records, use 'recordtext show'"
        );
        assert_eq!(text_of(b"\xEF\xBB\xBFTB\r\n"), Ok("TB\r\n"));
    }
}
