//! Text cut into records and words.

use crate::BadText;

/// A word and the line it stands on.
#[derive(Clone, Copy, Debug, PartialEq, Eq)]
pub struct Word<'a> {
    /// The line, counted from 1.
    pub line: usize,
    /// The letters.
    pub text: &'a str,
}

/// The words of one record, over all its lines; never empty.
pub type Words<'a> = Vec<Word<'a>>;

/// The records of a text. "A record starts a line; lines that are indented
/// continue it".
pub fn records(text: &str) -> Result<Vec<Words<'_>>, BadText> {
    let mut records: Vec<Words> = Vec::new();
    for (place, line) in text.lines().enumerate() {
        check_line_end(line, place + 1)?;
        let words = words_of(line, place + 1);
        if words.is_empty() {
            continue;
        }
        if !line.starts_with(char::is_whitespace) {
            records.push(words);
        } else if let Some(record) = records.last_mut() {
            record.extend(words);
        } else {
            let message = "an indented line continues a record, and none stands above it";
            return Err(bad(place + 1, message));
        }
    }
    Ok(records)
}

/// Line ends are LF or CR LF. A CR alone would hide the lines behind a comment.
fn check_line_end(line: &str, number: usize) -> Result<(), BadText> {
    if line.trim_end_matches('\r').contains('\r') {
        let message = "a carriage return stands alone; line ends are LF, or CR LF";
        return Err(bad(number, message));
    }
    Ok(())
}

/// The words of a line before its comment.
fn words_of(line: &str, number: usize) -> Words<'_> {
    line.split_whitespace()
        .take_while(|word| !word.starts_with('#'))
        .map(|text| Word { line: number, text })
        .collect()
}

/// The fault of a line.
pub fn bad(line: usize, message: impl Into<String>) -> BadText {
    BadText {
        line,
        message: message.into(),
    }
}

#[cfg(test)]
mod tests {
    use super::*;

    fn cut(text: &str) -> Vec<Vec<(usize, &str)>> {
        let records = records(text).unwrap().into_iter();
        records
            .map(|words| words.iter().map(|word| (word.line, word.text)).collect())
            .collect()
    }

    #[test]
    fn indented_lines_continue_and_comments_are_skipped() {
        let text = "# a day\n\nGH 1 G # unit\n  # more\n\tstart 5\n\n  no-load 6\nTB\n";
        let expected = vec![
            vec![
                (3, "GH"),
                (3, "1"),
                (3, "G"),
                (5, "start"),
                (5, "5"),
                (7, "no-load"),
                (7, "6"),
            ],
            vec![(8, "TB")],
        ];
        assert_eq!(cut(text), expected);
    }

    #[test]
    fn a_number_sign_inside_a_word_is_part_of_it() {
        assert_eq!(
            cut("WD IM 1 A#1 #B"),
            vec![vec![(1, "WD"), (1, "IM"), (1, "1"), (1, "A#1")]]
        );
        assert_eq!(cut("WD \"#B\""), vec![vec![(1, "WD"), (1, "\"#B\"")]]);
    }

    #[test]
    fn line_ends_of_other_systems() {
        let unix = "GH 1 G\n  start 5\n\nTB # now\nCL";
        assert_eq!(cut(&unix.replace('\n', "\r\n")), cut(unix));
        let message = "line 1: a carriage return stands alone; line ends are LF, or CR LF";
        let alone = records("# comment\rTB\rCL\r").unwrap_err();
        assert_eq!(alone.to_string(), message);
    }

    #[test]
    fn an_indented_line_needs_a_record_above() {
        assert_eq!(records("\n TB").unwrap_err().line, 2);
    }
}
