//! Calls, answers and mismatches as text.

use crate::answer::Answer;
use crate::bridge::State;
use crate::call::{Alone, Ask, Call, Kind, Lent, List, Part, Start};
use crate::compare::Mismatch;
use crate::text::Text;

/// Bytes in capital hex digits with their count; `-` for none.
pub fn hex(bytes: &[u8]) -> String {
    if bytes.is_empty() {
        return "- (0 bytes)".to_string();
    }
    let digits: String = bytes.iter().map(|byte| format!("{byte:02X}")).collect();
    format!("{digits} ({} bytes)", bytes.len())
}

/// Spelled bytes as text where they are visible, else in hex.
fn text(bytes: &[u8]) -> String {
    if !bytes.is_empty() && bytes.iter().all(|byte| (0x20..=0x7E).contains(byte)) {
        format!("`{}`", String::from_utf8_lossy(bytes))
    } else {
        hex(bytes)
    }
}

fn carried(state: State) -> String {
    let closed = if state.closed { "closed" } else { "open" };
    format!("changes {}, used {}, {closed}", state.changes, state.used)
}

/// A call on one line.
pub fn call(call: &Call) -> String {
    let kind = call.kind().words();
    match call {
        Call::Alone(alone) => format!("{kind}: {}", alone_arguments(alone)),
        Call::Book(lent, ask) => format!("{kind}, {}: {}", lent_words(*lent), arguments(ask)),
    }
}

fn lent_words(lent: Lent) -> String {
    match lent {
        Lent::Whole => "all bytes lent".to_string(),
        Lent::Exactly(length) => format!("{length} bytes lent"),
        Lent::Used(0) => "the used bytes lent".to_string(),
        Lent::Used(more) => format!("the used bytes {more:+} lent"),
    }
}

fn alone_arguments(alone: &Alone) -> String {
    match alone {
        Alone::Write { record, room, .. } => format!("room {room}, {}", hex(record)),
        Alone::Next { bytes } => hex(bytes),
        Alone::Compare { first, second } => format!("{} and {}", text(first), text(second)),
        Alone::Amount { prices, record } => {
            format!("prices {}, record {}", hex(prices), hex(record))
        }
        Alone::HourOffset { result, records } => {
            format!("result of {result} bytes, {}", hex(records))
        }
    }
}

fn arguments(ask: &Ask) -> String {
    match ask {
        Ask::Change { record, .. } => hex(record),
        Ask::Record { mark, hour, name } | Ask::FailureCharge { mark, hour, name } => {
            format!("mark {}, hour {hour}, name {}", text(mark), text(name))
        }
        Ask::Count { mark, hour } => format!("mark {}, hour {hour}", text(mark)),
        Ask::Free => "-".to_string(),
        Ask::Guarantees { hour } => format!("hour {hour}"),
        Ask::UnitDay { name } => format!("name {}", text(name)),
        Ask::Feed { input } => hex(input),
        Ask::Text { room, .. } => format!("room {room}"),
    }
}

/// An answer on one line.
pub fn answer(kind: Kind, answer: &Answer) -> String {
    let mut words = match answer.number {
        0 => "0".to_string(),
        number => format!("{number} (refused)"),
    };
    match (kind, &answer.sizes[..]) {
        (_, []) => {}
        (Kind::Change(_), &[changes, used, closed]) => {
            words += &format!(", book: changes {changes}, used {used}, closed {closed}");
        }
        (Kind::Feed, &[count, taken, changes, used, closed]) => {
            words += &format!(
                ", {count} records of {taken} bytes taken, \
                 book: changes {changes}, used {used}, closed {closed}"
            );
        }
        (_, sizes) => words += &format!(", sizes {sizes:?}"),
    }
    if !answer.amounts.is_empty() {
        words += &format!(", amounts {:?} ticks", answer.amounts);
    }
    match kind {
        Kind::Text(Text::Statement) => {
            words += &format!(", text {:?}", String::from_utf8_lossy(&answer.bytes));
        }
        // Their lines stand below.
        Kind::Text(Text::Pages) => {}
        _ if answer.bytes.is_empty() => {}
        _ => words += &format!(", bytes {}", hex(&answer.bytes)),
    }
    if let Some(fault) = answer.fault {
        words += &format!("; {fault}");
    }
    words
}

/// A list of calls, one to a line.
pub fn list(list: &List) -> String {
    let mut lines = vec![match &list.start {
        Start::Fresh(room) => format!("start: a fresh book over {room} bytes"),
        Start::Given(state, bytes) => {
            let used = bytes.len().min(state.used as usize);
            format!(
                "start: a book ({}) over {} bytes; used part {}",
                carried(*state),
                bytes.len(),
                hex(&bytes[..used])
            )
        }
    }];
    let calls = list.calls.iter().enumerate();
    lines.extend(calls.map(|(at, one)| format!("{:>4}. {}", at + 1, call(one))));
    lines.join("\n    ")
}

/// Where a list came from.
#[derive(Clone, Copy, Debug, PartialEq, Eq)]
pub struct Origin {
    /// The run's seed.
    pub seed: u64,
    /// The part.
    pub part: Part,
    /// The list's ordinal in its part.
    pub ordinal: u64,
}

impl Origin {
    /// The options that run this list again.
    pub fn options(&self) -> String {
        format!(
            "--seed {} --only {} --list {}",
            self.seed,
            self.part.word(),
            self.ordinal
        )
    }
}

fn sides(of: &Mismatch) -> String {
    let lent = match of.lent {
        Some((lent, used)) => format!("\n  lent      {lent} bytes, {used} used before the call"),
        None => String::new(),
    };
    format!(
        "{lent}\n  peer      {}\n  proved    {}{}",
        answer(of.kind, &of.peer),
        answer(of.kind, &of.proved),
        other_line(of)
    )
}

/// The first line in which pages differ, where both sides have some.
fn other_line(of: &Mismatch) -> String {
    let is_refused = of.peer.number != 0 || of.proved.number != 0;
    if of.kind != Kind::Text(Text::Pages) || is_refused || of.peer.bytes == of.proved.bytes {
        return String::new();
    }
    let peer = String::from_utf8_lossy(&of.peer.bytes);
    let proved = String::from_utf8_lossy(&of.proved.bytes);
    let both = peer.lines().zip(proved.lines());
    let alike = both.take_while(|(one, other)| one == other).count();
    let line = |text: &str| match text.lines().nth(alike) {
        Some(line) => format!("{line:?}"),
        None => "none".to_string(),
    };
    format!(
        "\n  line {}\n  peer      {}\n  proved    {}",
        alike + 1,
        line(&peer),
        line(&proved)
    )
}

/// A mismatch as it was found, and the shortest list that still shows it.
pub fn mismatch(
    origin: Origin,
    found_in: &List,
    found: &Mismatch,
    shortest: &List,
    remaining: &Mismatch,
) -> String {
    format!(
        "MISMATCH, seed {}, {}, list {}, call {} of {}\n  call      {}{}\n  again     \
         bench {}\n  shortest  {} of {} calls; its call {}:{}\n    {}\n",
        origin.seed,
        origin.part.word(),
        origin.ordinal,
        found.at + 1,
        found_in.calls.len(),
        call(&found_in.calls[found.at]),
        sides(found),
        origin.options(),
        shortest.calls.len(),
        found.at + 1,
        remaining.at + 1,
        sides(remaining),
        list(shortest)
    )
}
