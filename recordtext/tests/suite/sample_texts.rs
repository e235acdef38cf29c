//! The texts of the sample days, and the words that people read beside them.

use crate::support::*;
use peer::refusal::Refusal;
use peer::statement::settle;
use recordtext::numbers::{told, words};
use recordtext::{form_of, make, show, Form, Style};
use std::collections::BTreeSet;
use std::fs;

#[test]
fn records_are_those_of_their_text() {
    for path in samples("txt") {
        let records = fs::read(path.with_extension("rec")).ok();
        assert_eq!(make(text_of(&path)).ok(), records, "{}", path.display());
    }
}

#[test]
fn texts_and_records_are_told_apart() {
    for (ending, form) in [("txt", Form::Text), ("rec", Form::Records)] {
        for path in samples(ending) {
            let bytes = fs::read(&path).expect("a file");
            assert_eq!(form_of(&bytes), form, "{}", path.display());
        }
    }
}

/// A byte-order mark and line ends with CR, as Windows saves a text.
#[test]
fn texts_of_windows_make_the_same_records() {
    for path in samples("txt") {
        let text = text_of(&path);
        let windows = format!("\u{feff}{}", text.replace('\n', "\r\n"));
        assert_eq!(make(&windows), make(&text), "{}", path.display());
    }
}

/// As far as they can be read; a number of reading is that of the statement.
#[test]
fn records_can_be_shown_and_made_again() {
    for path in samples("rec") {
        let records = fs::read(&path).expect("records");
        let shown = show(&records, Style::default());
        let end = shown.refused.as_ref();
        let end = end.map_or(records.len(), |refused| refused.start);
        assert_eq!(make(&shown.text).as_deref(), Ok(&records[..end]));
        let units = Style {
            units: true,
            ..Style::default()
        };
        let with_units = show(&records, units).text;
        assert_eq!(make(with_units).as_deref(), Ok(&records[..end]));
        if let Some(refused) = shown.refused {
            let line = format!("REF {} {}\n", refused.ordinal, refused.refusal);
            assert_eq!(settle(&records), line.as_bytes(), "{}", path.display());
        }
    }
}

#[test]
fn header_and_manuals_have_the_words_of_the_one_table() {
    let header = text_of(&repository("include/pewatuno.h"));
    let manual = text_of(&repository("man/settle.1"));
    let records = text_of(&repository("man/pewatuno-records.5"));
    for refusal in Refusal::ALL {
        let (number, words) = (refusal.number(), words(refusal));
        let comment = format!(" /* {words} */");
        let mut defines = header.lines().filter(|line| line.ends_with(&comment));
        let define = defines
            .next()
            .unwrap_or_else(|| panic!("no {number} in the header"));
        let mut parts = define.split_whitespace();
        assert_eq!(parts.next(), Some("#define"));
        assert!(parts
            .next()
            .is_some_and(|name| name.starts_with("PEWATUNO_")));
        assert_eq!(parts.next(), Some(number.to_string().as_str()));
        assert!(
            manual.contains(&format!("\n{number}\n{words}\n")),
            "{number} in the manual"
        );
        assert!(
            records.contains(&format!("\n.B {number}\n{words}.\n")),
            "{number} in the page on records"
        );
    }
}

/// Each number that can occur in a feed has a sample of its own.
#[test]
fn each_number_of_a_feed_has_its_sample() {
    let page = text_of(&repository("samples/README.md"));
    for refusal in Refusal::ALL {
        let number = refusal.number();
        let ending = format!(" {number}\n");
        let prefix = format!("ref-{number:02}");
        let count = samples("out")
            .iter()
            .filter(|path| {
                path.file_name()
                    .is_some_and(|name| name.to_string_lossy().starts_with(&prefix))
            })
            .map(|path| assert!(text_of(path).ends_with(&ending), "{}", path.display()))
            .count();
        let can_occur = !matches!(number, 8 | 15 | 16);
        assert_eq!(count > 0, can_occur, "{number}");
        assert_eq!(
            page.contains(&format!("| {} |", told(refusal))),
            can_occur,
            "{number}"
        );
    }
}

/// Each word of a record that is shown stands in the manual. The names of this
/// day have capitals, words have none.
#[test]
fn the_manual_has_every_word() {
    let manual = text_of(&repository("man/recordtext.1")).replace("\\-", "-");
    let records = fs::read(repository("samples/ordinary.rec")).expect("records");
    let text = show(&records, Style::default()).text;
    let is_word = |word: &&str| {
        let has_capitals = word.contains(|letter: char| letter.is_ascii_uppercase());
        !has_capitals && word.ends_with(|last: char| last.is_ascii_lowercase()) && *word != "none"
    };
    let words: BTreeSet<&str> = text.split_whitespace().filter(is_word).collect();
    // Of PR, IM, EX and GH all, of FI and FE what PR has not.
    assert_eq!(words.len(), 2 + 2 + 1 + 18 + 3);
    for word in words {
        assert!(manual.contains(&format!(" {word} ")), "{word}");
    }
}
