//! The sample days.

use crate::support::*;
use peer::pages::settle_pages;
use peer::statement::settle;
use std::fs;

#[test]
fn statements_are_those_of_their_records() {
    for path in samples("rec") {
        let records = fs::read(&path).expect("records");
        let statement = text_of(&path.with_extension("out"));
        let settled = String::from_utf8(settle(&records)).expect("a statement");
        assert_eq!(settled, statement, "{}", path.display());
    }
}

#[test]
fn pages_are_those_of_their_records() {
    let mut compared = 0;
    for path in samples("rec") {
        let expected = path.with_extension("pages");
        if expected.is_file() {
            let records = fs::read(&path).expect("records");
            let pages = String::from_utf8(settle_pages(&records)).expect("pages");
            assert_eq!(pages, text_of(&expected), "{}", expected.display());
            compared += 1;
        }
    }
    assert!(compared > 5, "only {compared} have pages");
}
