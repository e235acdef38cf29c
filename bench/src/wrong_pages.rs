//! What the bugs of the mock make of a statement's pages.

use crate::mock::Bug;
use peer::statement::dollars;
use peer::units::Ticks;

/// How a statement's lines are laid out.
#[derive(Clone, Copy)]
struct Layout {
    /// Entries of a page.
    entries: usize,
    /// The number of the first page.
    first: usize,
    /// The last column of a name.
    name_ends: usize,
    /// A page's sum has those before it in it.
    runs: bool,
    /// The total counts in its page's sum.
    counts_total: bool,
    /// Lines end behind their last sign.
    trims: bool,
}

/// The layout that is asked for.
const RIGHT: Layout = Layout {
    entries: 57,
    first: 1,
    name_ends: 43,
    runs: false,
    counts_total: false,
    trims: false,
};

/// The pages of a statement with a bug, if it is one of pages.
pub fn altered(bug: Bug, statement: &str) -> Option<String> {
    let wrong = match bug {
        Bug::PageOf58 => Layout {
            entries: 58,
            ..RIGHT
        },
        Bug::PageFrom0 => Layout { first: 0, ..RIGHT },
        Bug::NameTo42 => Layout {
            name_ends: 42,
            ..RIGHT
        },
        Bug::RunningSum => Layout {
            runs: true,
            ..RIGHT
        },
        Bug::TotalInSum => Layout {
            counts_total: true,
            ..RIGHT
        },
        Bug::BlanksTrimmed => Layout {
            trims: true,
            ..RIGHT
        },
        _ => return None,
    };
    Some(wrong.pages(statement))
}

impl Layout {
    fn pages(self, statement: &str) -> String {
        let lines: Vec<&str> = statement.lines().collect();
        let mut sum = 0;
        let pages = lines.chunks(self.entries).enumerate().map(|(at, entries)| {
            let own: i64 = entries.iter().map(|line| self.counted(line)).sum();
            sum = if self.runs { sum + own } else { own };
            self.page(at + self.first, entries, sum)
        });
        pages.collect()
    }

    /// A page of 60 lines, or of as many as its entries need.
    fn page(self, number: usize, entries: &[&str], cents: i64) -> String {
        let mut rows = vec![format!("{number:>72}"), String::new()];
        rows.extend(entries.iter().map(|line| self.entry(line)));
        rows.resize(rows.len().max(59), String::new());
        rows.push(format!("{:>72}", dollars(Ticks(cents * Ticks::PER_CENT))));
        let rows = rows.iter().map(|row| match self.trims {
            true => format!("{row}\n"),
            false => format!("{row:72}\n"),
        });
        rows.collect()
    }

    fn entry(self, line: &str) -> String {
        let [hour, kind, name, amount] = fields(line);
        let name: String = name.chars().take(self.name_ends - 7).collect();
        format!("{hour} {kind} {name:36} {amount:>28}")
    }

    /// The cents that a line adds to its page's sum.
    fn counted(self, line: &str) -> i64 {
        let [_, kind, _, amount] = fields(line);
        let cents = amount.replace('.', "").parse::<i64>().expect("cents");
        match kind {
            "IOG" | "PCG" | "REV" => cents,
            "OFF" | "IFC" | "EFC" => -cents,
            "TOT" if self.counts_total => cents,
            _ => 0,
        }
    }
}

/// Hour, kind, name and amount of a line.
fn fields(line: &str) -> [&str; 4] {
    let fields: Vec<&str> = line.split(' ').collect();
    fields.try_into().expect("four fields")
}

#[cfg(test)]
mod tests {
    use super::*;
    use crate::generate::{texts, totals};
    use crate::text::Text;
    use crate::worst_day::worst_day;
    use peer::pages::settle_pages;
    use peer::statement::settle;

    /// So that a wrong layout differs in what is wrong with it and in nothing
    /// else.
    #[test]
    fn the_right_layout_is_the_peers() {
        let register = texts::filed(&totals::every_kind());
        let [statement, pages] = Text::ALL.map(|text| text.of(&register));
        assert_eq!(RIGHT.pages(&statement), pages);
        let day = worst_day();
        let statement = String::from_utf8(settle(&day)).expect("text");
        assert_eq!(RIGHT.pages(&statement).into_bytes(), settle_pages(&day));
    }
}
