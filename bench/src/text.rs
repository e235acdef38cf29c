//! The two texts of a day: its statement, and the pages of that.

use crate::bridge::Layer;
use peer::pages::pages;
use peer::questions::Standing;
use peer::statement::statement;

/// Bytes of a page: 60 lines of 72 columns, each with its newline.
pub const PAGE: usize = 60 * 73;

/// A text of a day.
#[derive(Clone, Copy, Debug, PartialEq, Eq, Hash)]
pub enum Text {
    /// The statement.
    Statement,
    /// The statement on pages.
    Pages,
}

impl Text {
    /// Both, in the order of their places.
    pub const ALL: [Text; 2] = [Text::Statement, Text::Pages];

    /// Bytes that every such text has room in.
    pub const fn most(self) -> usize {
        match self {
            Text::Statement => 145_266,
            Text::Pages => 39 * PAGE,
        }
    }

    /// Bytes of the shortest, which has nothing but a total.
    pub const fn least(self) -> usize {
        match self {
            Text::Statement => 14,
            Text::Pages => PAGE,
        }
    }

    /// The layer that writes it.
    pub const fn layer(self) -> Layer {
        match self {
            Text::Statement => Layer::Statement,
            Text::Pages => Layer::Statement,
        }
    }

    /// The text in a word.
    pub const fn word(self) -> &'static str {
        match self {
            Text::Statement => "statement",
            Text::Pages => "pages",
        }
    }

    /// The peer's text of standing records.
    pub fn of(self, records: &impl Standing) -> String {
        match self {
            Text::Statement => statement(records),
            Text::Pages => pages(records),
        }
    }
}

#[cfg(test)]
mod tests {
    use super::*;
    use peer::register::Register;

    #[test]
    fn the_texts_of_no_records_are_the_shortest() {
        for text in Text::ALL {
            assert_eq!(text.of(&Register::new()).len(), text.least());
        }
    }
}
