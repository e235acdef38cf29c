//! Records as lines of text, for people who look at feeds.
//!
//! A record starts a line; lines that are indented continue it, and line ends
//! matter for nothing else. Words are parted by spaces. `#` at the start of a
//! word makes the rest of the line a comment; blank lines are skipped.
//!
//! ```text
//! PR 5 emp 12x3000 pd-price $30.00
//! IM 5 A%2FB mqsi 12x10.0MW offer 4000@100   # price@quantity
//! CO EX 5 D mqsw 6x250 200 5x100
//! WD IM 5 A%2FB
//! TB
//! ```
//!
//! Prices are whole cents per MWh, quantities tenths of a MW, as in the bytes;
//! or they have a unit, as `$30.00` and `10.0MW`. `12x100` is twelve times 100.
//! A reserve of `GH` of which no field is there is all 0 and offers none.
//!
//! Names keep the spelling that they have in the bytes; one that starts with
//! `#` or `"` stands between double quotes.
//!
//! Two more words start a line: `hex` gives raw bytes, and `broken` stands
//! before a record that breaks a rule on purpose.
//!
//! - [`check()`] plays the day as `settle` does, and says why a record is
//!   refused.
//! - [`form_of()`] tells text from records.
//! - [`show()`] turns records into text, [`make()`] text into records.
//! - [`numbers`] has the words of the numbers 1 to 16.
//! - [`standard`] has standard input and output, for commands that lose nothing.
//! - The words of each record stand in one table, in `layout`.

#![deny(unsafe_code)]
#![warn(missing_docs)]

mod check;
mod feed;
mod form;
mod layout;
mod make;
pub mod numbers;
mod refused;
mod show;
pub mod standard;
mod units;
mod why;
mod words;

pub use check::{check, Taken};
pub use form::{form_of, starts_with_a_mark, Form};
pub use make::make;
pub use refused::Refused;
pub use show::{show, Shown, Style};

use std::fmt;

/// What is wrong with a text, and on which line.
#[derive(Clone, Debug, PartialEq, Eq)]
pub struct BadText {
    /// The line, counted from 1.
    pub line: usize,
    /// What was expected.
    pub message: String,
}

impl fmt::Display for BadText {
    fn fmt(&self, out: &mut fmt::Formatter<'_>) -> fmt::Result {
        write!(out, "line {}: {}", self.line, self.message)
    }
}
