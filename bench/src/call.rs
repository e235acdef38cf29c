//! Calls, lists of calls and what they start from.

use crate::bridge::{Layer, State};
use crate::text::Text;
use peer::records::Method;

/// Which of a change's methods is called: any mark, or one of the five.
#[derive(Clone, Copy, Debug, PartialEq, Eq, Hash)]
pub enum Way {
    /// Any of the ten marks.
    Any,
    /// File.
    File,
    /// Correct.
    Correct,
    /// Withdraw.
    Withdraw,
    /// Take back.
    TakeBack,
    /// Close.
    Close,
}

impl Way {
    /// All six, in the order of their numbers.
    pub const ALL: [Way; 6] = [
        Way::Any,
        Way::File,
        Way::Correct,
        Way::Withdraw,
        Way::TakeBack,
        Way::Close,
    ];

    /// The interface's number of the method.
    pub const fn number(self) -> u32 {
        self as u32
    }

    /// The peer's method, none for any mark.
    pub const fn method(self) -> Option<Method> {
        match self {
            Way::Any => None,
            Way::File => Some(Method::File),
            Way::Correct => Some(Method::Correct),
            Way::Withdraw => Some(Method::Withdraw),
            Way::TakeBack => Some(Method::TakeBack),
            Way::Close => Some(Method::Close),
        }
    }

    /// The method in words.
    pub const fn words(self) -> &'static str {
        match self {
            Way::Any => "any mark",
            Way::File => "file",
            Way::Correct => "correct",
            Way::Withdraw => "withdraw",
            Way::TakeBack => "take back",
            Way::Close => "close",
        }
    }
}

/// A call that needs no book.
#[derive(Clone, Debug, PartialEq, Eq)]
pub enum Alone {
    /// Reads a whole change and writes it into `room` bytes.
    Write {
        /// The method.
        way: Way,
        /// The change's bytes.
        record: Vec<u8>,
        /// Bytes to write into.
        room: usize,
    },
    /// The length of the change that the bytes begin with.
    Next {
        /// Changes back to back.
        bytes: Vec<u8>,
    },
    /// The order of two spelled names.
    Compare {
        /// One name.
        first: Vec<u8>,
        /// The other.
        second: Vec<u8>,
    },
    /// The amount of one record.
    Amount {
        /// A `PR` record.
        prices: Vec<u8>,
        /// An `IM`, `GH`, `FI` or `FE` record.
        record: Vec<u8>,
    },
    /// The C call for one hour's offset.
    HourOffset {
        /// Bytes of the result.
        result: usize,
        /// Records back to back.
        records: Vec<u8>,
    },
}

/// What is asked of a book.
#[derive(Clone, Debug, PartialEq, Eq)]
pub enum Ask {
    /// A change.
    Change {
        /// The method.
        way: Way,
        /// The change's bytes.
        record: Vec<u8>,
    },
    /// The record of a key.
    Record {
        /// The mark.
        mark: Vec<u8>,
        /// The hour.
        hour: u32,
        /// The spelled name.
        name: Vec<u8>,
    },
    /// The count of a mark and hour.
    Count {
        /// The mark.
        mark: Vec<u8>,
        /// The hour.
        hour: u32,
    },
    /// Free bytes.
    Free,
    /// An hour's guarantees.
    Guarantees {
        /// The hour.
        hour: u32,
    },
    /// A unit's day.
    UnitDay {
        /// The spelled name.
        name: Vec<u8>,
    },
    /// A failure charge.
    FailureCharge {
        /// The mark.
        mark: Vec<u8>,
        /// The hour.
        hour: u32,
        /// The spelled name.
        name: Vec<u8>,
    },
    /// Records back to back.
    Feed {
        /// The records.
        input: Vec<u8>,
    },
    /// A text of the day, written into `room` bytes.
    Text {
        /// Which.
        text: Text,
        /// Bytes to write into.
        room: usize,
    },
}

/// How many bytes a call is lent.
#[derive(Clone, Copy, Debug, PartialEq, Eq)]
pub enum Lent {
    /// All there are.
    Whole,
    /// So many, at most all.
    Exactly(usize),
    /// So many more or less than the book carries as used.
    Used(i64),
}

impl Lent {
    /// The lent length where so many bytes are used and so many exist.
    pub fn length(self, used: usize, room: usize) -> usize {
        match self {
            Lent::Whole => room,
            Lent::Exactly(length) => length.min(room),
            Lent::Used(more) => (used as i64 + more).clamp(0, room as i64) as usize,
        }
    }
}

/// One call.
#[derive(Clone, Debug, PartialEq, Eq)]
pub enum Call {
    /// Without a book.
    Alone(Alone),
    /// On the list's book.
    Book(Lent, Ask),
}

/// The book and the bytes that a list of calls starts from.
#[derive(Clone, Debug, PartialEq, Eq)]
pub enum Start {
    /// A fresh book over so many bytes.
    Fresh(usize),
    /// Any book over any bytes.
    Given(State, Vec<u8>),
}

impl Start {
    /// How many bytes there are.
    pub fn room(&self) -> usize {
        match self {
            Start::Fresh(room) => *room,
            Start::Given(_, bytes) => bytes.len(),
        }
    }

    /// The bytes; a fresh book's hold a pattern.
    pub fn bytes(&self) -> Vec<u8> {
        match self {
            Start::Fresh(room) => (0..*room).map(|place| place as u8 ^ 0xA5).collect(),
            Start::Given(_, bytes) => bytes.clone(),
        }
    }
}

/// A list of calls: each gets the book as last handed back.
#[derive(Clone, Debug, PartialEq, Eq)]
pub struct List {
    /// Where it starts.
    pub start: Start,
    /// The calls in turn.
    pub calls: Vec<Call>,
}

impl List {
    /// Calls without a book.
    pub fn alone(calls: impl IntoIterator<Item = Alone>) -> List {
        List {
            start: Start::Fresh(0),
            calls: calls.into_iter().map(Call::Alone).collect(),
        }
    }
}

/// The part of the bench that makes a kind of call.
#[derive(Clone, Copy, Debug, PartialEq, Eq, Hash)]
pub enum Part {
    /// Amounts and offsets.
    Money,
    /// Names, reading and writing.
    Records,
    /// Books and their questions.
    Books,
    /// Whole days: records back to back, statements and pages.
    Days,
}

impl Part {
    /// All parts, in the order they run.
    pub const ALL: [Part; 4] = [Part::Money, Part::Records, Part::Books, Part::Days];

    /// The part's word on the command line.
    pub const fn word(self) -> &'static str {
        match self {
            Part::Money => "money",
            Part::Records => "records",
            Part::Books => "books",
            Part::Days => "days",
        }
    }
}

/// A kind of call, by which numbers are counted.
#[derive(Clone, Copy, Debug, PartialEq, Eq, Hash)]
pub enum Kind {
    /// Reading and writing by a method.
    Write(Way),
    /// The next change's length.
    Next,
    /// The order of two names.
    Compare,
    /// The amount of a record.
    Amount,
    /// The C call.
    HourOffset,
    /// A change by a method.
    Change(Way),
    /// The record of a key.
    Record,
    /// The count of a mark and hour.
    Count,
    /// Free bytes.
    Free,
    /// An hour's guarantees.
    Guarantees,
    /// A unit's day.
    UnitDay,
    /// A failure charge.
    FailureCharge,
    /// Records back to back.
    Feed,
    /// A text of the day.
    Text(Text),
}

impl Kind {
    /// How many kinds there are.
    pub const COUNT: usize = 25;

    /// All kinds, each at its place.
    pub fn all() -> [Kind; Kind::COUNT] {
        let mut kinds = [Kind::Next; Kind::COUNT];
        let ways = Way::ALL.into_iter();
        let others = [
            Kind::Compare,
            Kind::Amount,
            Kind::HourOffset,
            Kind::Record,
            Kind::Count,
            Kind::Free,
            Kind::Guarantees,
            Kind::UnitDay,
            Kind::FailureCharge,
            Kind::Feed,
        ];
        for kind in ways
            .flat_map(|way| [Kind::Write(way), Kind::Change(way)])
            .chain(others)
            .chain(Text::ALL.map(Kind::Text))
        {
            kinds[kind.place()] = kind;
        }
        kinds
    }

    /// The kind's place among all.
    pub const fn place(self) -> usize {
        match self {
            Kind::Write(way) => way as usize,
            Kind::Next => 6,
            Kind::Compare => 7,
            Kind::Amount => 8,
            Kind::HourOffset => 9,
            Kind::Change(way) => 10 + way as usize,
            Kind::Record => 16,
            Kind::Count => 17,
            Kind::Free => 18,
            Kind::Guarantees => 19,
            Kind::UnitDay => 20,
            Kind::FailureCharge => 21,
            Kind::Feed => 22,
            Kind::Text(text) => 23 + text as usize,
        }
    }

    /// The part that makes such calls.
    pub const fn part(self) -> Part {
        match self {
            Kind::Write(_) | Kind::Next | Kind::Compare => Part::Records,
            Kind::Amount | Kind::HourOffset => Part::Money,
            Kind::Feed | Kind::Text(_) => Part::Days,
            _ => Part::Books,
        }
    }

    /// The layer that answers it.
    pub const fn layer(self) -> Layer {
        match self {
            Kind::Write(_) | Kind::Next | Kind::Compare => Layer::Records,
            Kind::Amount => Layer::Amounts,
            Kind::HourOffset => Layer::HourOffset,
            Kind::Change(_) | Kind::Record | Kind::Count | Kind::Free => Layer::Book,
            Kind::Guarantees | Kind::UnitDay | Kind::FailureCharge => Layer::AmountQuestions,
            Kind::Feed => Layer::Statement,
            Kind::Text(text) => text.layer(),
        }
    }

    /// The numbers that can occur: 0 for accepted or answered, then those of
    /// the specification's table.
    pub const fn numbers(self) -> &'static [u32] {
        match self {
            Kind::Write(Way::Any | Way::File | Way::Correct) => &[0, 1, 2, 3, 4, 5, 6, 7, 8, 13],
            Kind::Write(Way::Withdraw) => &[0, 1, 2, 3, 4, 8, 13],
            Kind::Write(Way::TakeBack | Way::Close) => &[0, 1, 2, 8],
            Kind::Next => &[0, 1, 2, 3, 4, 5, 6, 7],
            Kind::Compare => &[0, 4],
            Kind::Amount => &[0, 1, 2, 3, 4, 5, 6, 7, 8],
            Kind::HourOffset => &[0, 1, 2, 3, 4, 5, 6, 7, 10, 12, 15],
            Kind::Change(Way::Any) => &[0, 1, 2, 3, 4, 5, 6, 7, 8, 9, 10, 11, 12, 13, 14, 16],
            Kind::Change(Way::File) => &[0, 1, 2, 3, 4, 5, 6, 7, 8, 9, 10, 12, 13, 16],
            Kind::Change(Way::Correct) => &[0, 1, 2, 3, 4, 5, 6, 7, 8, 9, 11, 13, 16],
            Kind::Change(Way::Withdraw) => &[0, 1, 2, 3, 4, 8, 9, 11, 13, 16],
            Kind::Change(Way::TakeBack) => &[0, 1, 2, 8, 9, 14, 16],
            Kind::Change(Way::Close) => &[0, 1, 2, 8, 9, 16],
            Kind::Record => &[0, 2, 3, 4, 11, 16],
            Kind::Count => &[0, 2, 3, 16],
            Kind::Free => &[0, 16],
            Kind::Guarantees => &[0, 3, 15, 16],
            Kind::UnitDay => &[0, 4, 11, 15, 16],
            Kind::FailureCharge => &[0, 2, 3, 4, 11, 15, 16],
            Kind::Feed => &[0, 1, 2, 3, 4, 5, 6, 7, 9, 10, 11, 12, 13, 14, 16],
            Kind::Text(_) => &[0, 13, 16],
        }
    }

    /// The kind in words.
    pub fn words(self) -> String {
        match self {
            Kind::Write(way) => format!("write, {}", way.words()),
            Kind::Next => "next change".to_string(),
            Kind::Compare => "order of names".to_string(),
            Kind::Amount => "amount".to_string(),
            Kind::HourOffset => "hour's offset call".to_string(),
            Kind::Change(Way::Any) => "change, any mark".to_string(),
            Kind::Change(way) => way.words().to_string(),
            Kind::Record => "record of a key".to_string(),
            Kind::Count => "count".to_string(),
            Kind::Free => "free bytes".to_string(),
            Kind::Guarantees => "guarantees".to_string(),
            Kind::UnitDay => "unit's day".to_string(),
            Kind::FailureCharge => "failure charge".to_string(),
            Kind::Feed => "back to back".to_string(),
            Kind::Text(text) => text.word().to_string(),
        }
    }
}

impl Alone {
    /// The call's kind.
    pub const fn kind(&self) -> Kind {
        match self {
            Alone::Write { way, .. } => Kind::Write(*way),
            Alone::Next { .. } => Kind::Next,
            Alone::Compare { .. } => Kind::Compare,
            Alone::Amount { .. } => Kind::Amount,
            Alone::HourOffset { .. } => Kind::HourOffset,
        }
    }
}

impl Ask {
    /// The call's kind.
    pub const fn kind(&self) -> Kind {
        match self {
            Ask::Change { way, .. } => Kind::Change(*way),
            Ask::Record { .. } => Kind::Record,
            Ask::Count { .. } => Kind::Count,
            Ask::Free => Kind::Free,
            Ask::Guarantees { .. } => Kind::Guarantees,
            Ask::UnitDay { .. } => Kind::UnitDay,
            Ask::FailureCharge { .. } => Kind::FailureCharge,
            Ask::Feed { .. } => Kind::Feed,
            Ask::Text { text, .. } => Kind::Text(*text),
        }
    }
}

impl Call {
    /// The call's kind.
    pub const fn kind(&self) -> Kind {
        match self {
            Call::Alone(alone) => alone.kind(),
            Call::Book(_, ask) => ask.kind(),
        }
    }

    /// The byte strings of the call, for cutting it down.
    pub fn byte_strings(&mut self) -> Vec<&mut Vec<u8>> {
        match self {
            Call::Alone(Alone::Write { record, .. }) => vec![record],
            Call::Alone(Alone::Next { bytes }) => vec![bytes],
            Call::Alone(Alone::Compare { first, second }) => vec![first, second],
            Call::Alone(Alone::Amount { prices, record }) => vec![prices, record],
            Call::Alone(Alone::HourOffset { records, .. }) => vec![records],
            Call::Book(_, Ask::Change { record, .. }) => vec![record],
            Call::Book(_, Ask::Record { mark, name, .. })
            | Call::Book(_, Ask::FailureCharge { mark, name, .. }) => vec![mark, name],
            Call::Book(_, Ask::Count { mark, .. }) => vec![mark],
            Call::Book(_, Ask::UnitDay { name }) => vec![name],
            Call::Book(_, Ask::Feed { input }) => vec![input],
            Call::Book(_, Ask::Free | Ask::Guarantees { .. } | Ask::Text { .. }) => vec![],
        }
    }
}

#[cfg(test)]
mod tests {
    use super::*;

    #[test]
    fn each_kind_has_a_place_of_its_own() {
        for (place, kind) in Kind::all().into_iter().enumerate() {
            assert_eq!(kind.place(), place);
        }
    }

    #[test]
    fn lent_lengths_stay_within_the_room() {
        assert_eq!(Lent::Whole.length(10, 50), 50);
        assert_eq!(Lent::Exactly(60).length(10, 50), 50);
        assert_eq!(Lent::Used(-1).length(10, 50), 9);
        assert_eq!(Lent::Used(-11).length(10, 50), 0);
        assert_eq!(Lent::Used(55).length(10, 50), 50);
    }
}
