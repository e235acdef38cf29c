//! The statement on paper: pages of exactly 72 columns and 60 lines (W2).

use crate::questions::Standing;
use crate::statement::{dollars_of_cents, lines, settle_as, sum_of, Line};

/// "exactly 72 columns".
const COLUMNS: usize = 72;
/// "and 60 lines".
const PAGE_LINES: usize = 60;
/// "57 lines carry entries."
const ENTRY_LINES: usize = 57;

/// "A second program, `pages`, reads the same input"; "a refusal still prints
/// `REF` alone, unpaged."
pub fn settle_pages(input: &[u8]) -> Vec<u8> {
    settle_as(input, pages)
}

/// The pages of standing records. "W1's line is the last entry", so "an empty
/// day is one page".
pub fn pages(records: &impl Standing) -> String {
    lines(records)
        .chunks(ENTRY_LINES)
        .enumerate()
        .map(|(before, entries)| page(before + 1, entries))
        .collect()
}

/// "Line 1 holds the page number, from 1, the last line the page's own sum by
/// W1's signs"; "line 2 is blank". "Unused lines are blanks".
fn page(number: usize, entries: &[Line]) -> String {
    let mut rows = vec![right_aligned(&number.to_string()), blank()];
    rows.extend(entries.iter().map(entry_row));
    rows.resize(PAGE_LINES - 1, blank());
    rows.push(right_aligned(&dollars_of_cents(sum_of(entries))));
    // "each line ending in one newline".
    rows.into_iter().map(|row| row + "\n").collect()
}

/// "Hour in columns 1 to 2, kind in 4 to 6, written name from 8 to 43, amount
/// right-aligned ending in 72. .. The number of an `ERR` stands as its
/// amount."
fn entry_row(line: &Line) -> String {
    let [hour, kind, name, amount] = line.fields();
    // Whole cents of 64 bits take 21 columns at most.
    format!("{hour:2} {kind:3} {name:36} {amount:>28}")
}

/// "both right-aligned likewise".
fn right_aligned(amount: &str) -> String {
    format!("{amount:>COLUMNS$}")
}

fn blank() -> String {
    " ".repeat(COLUMNS)
}
