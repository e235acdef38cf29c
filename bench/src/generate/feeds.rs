//! Random days: records back to back, whole and damaged, and their texts.

use crate::call::{Ask, Call, Lent, List, Start};
use crate::draw::Draw;
use crate::generate::books::{self, Story, Style, DAY};
use crate::generate::{changes, forms, paged, pairs, texts, totals};
use crate::text::Text;
use peer::feed::feed;
use peer::register::{Register, LENT_MOST};

/// A random list.
pub fn list(draw: &mut Draw) -> List {
    match draw.below(28) {
        0..=4 => pairs_list(draw),
        5 if draw.once_in(2) => from_full(draw),
        5 => from_busy(draw),
        6..=10 => from_crowded(draw),
        11..=13 => totals::list(draw),
        14 => paged::list(draw),
        _ => {
            let style = style(draw);
            let start = Start::Fresh(style.room);
            let calls = story(draw, style, Register::new());
            List { start, calls }
        }
    }
}

fn style(draw: &mut Draw) -> Style {
    Style {
        room: draw.pick(&[55, 300, 2000, 20_000, LENT_MOST, LENT_MOST, 70_000]),
        names: draw.pick(&[2, 6, 20]),
        marks: &forms::MARKS,
        hours: match draw.below(3) {
            0 => &[7],
            1 => &[1, 1, 2, 24],
            _ => &DAY,
        },
        calls: 2 + draw.below(10),
        priced: draw.once_in(2),
        steady: false,
    }
}

/// From a damaged book.
fn pairs_list(draw: &mut Draw) -> List {
    let start = pairs::start(draw);
    let calls = (0..1 + draw.below(3)).flat_map(|_| {
        let lent = draw.pick(&[Lent::Whole, Lent::Whole, Lent::Used(0), Lent::Used(-1)]);
        let asks = match draw.below(3) {
            0 => vec![Ask::Feed {
                input: some_changes(draw),
            }],
            1 => vec![Ask::Feed { input: Vec::new() }],
            _ => Text::ALL.map(|text| short_or_enough(draw, text)).to_vec(),
        };
        asks.into_iter().map(move |ask| Call::Book(lent, ask))
    });
    let calls = calls.collect();
    List { start, calls }
}

/// A text into no bytes, into one less than the shortest has, into those, or into
/// enough for any.
fn short_or_enough(draw: &mut Draw, text: Text) -> Ask {
    let room = draw.pick(&[0, text.least() - 1, text.least(), text.most()]);
    Ask::Text { text, room }
}

/// Changes that need not be accepted, nor be read.
fn some_changes(draw: &mut Draw) -> Vec<u8> {
    let method = draw.pick(&changes::METHODS);
    match draw.below(3) {
        0 => (0..draw.below(9)).map(|_| draw.byte()).collect(),
        _ => changes::any_good(draw, method),
    }
}

/// From a book with 512 changes, or a few less.
fn from_full(draw: &mut Draw) -> List {
    let style = Style {
        calls: 4,
        ..books::LONG
    };
    let listed = 512 - draw.pick(&[0, 0, 1, 5]);
    let register = books::filled(draw, style, listed);
    let start = books::given(&register, style.room);
    let calls = story(draw, style, register);
    List { start, calls }
}

/// From a day with many records of all marks; its texts first.
fn from_busy(draw: &mut Draw) -> List {
    let style = Style {
        room: LENT_MOST,
        names: 20,
        marks: &forms::MARKS,
        hours: &DAY,
        calls: 2,
        priced: false,
        steady: true,
    };
    let listed = draw.pick(&[60, 120, 250]);
    let register = books::filled(draw, style, listed);
    let mut list = texts::list(&register, |_, written| vec![written.len()]);
    list.calls.extend(story(draw, style, register));
    list
}

/// From a book whose one hour holds as many of a mark as it may.
fn from_crowded(draw: &mut Draw) -> List {
    let style = books::crowded(draw);
    let register = books::filled(draw, style, 26);
    let start = books::given(&register, style.room);
    let calls = story(draw, Style { calls: 6, ..style }, register);
    List { start, calls }
}

/// Calls on the book of a register.
fn story(draw: &mut Draw, style: Style, mut register: Register) -> Vec<Call> {
    let mut calls = Vec::with_capacity(style.calls);
    for at in 0..style.calls {
        let first = at == 0 && style.priced;
        let (lent, input) = match draw.below(12) {
            0 | 1 if !first => {
                calls.extend(Text::ALL.map(|text| asked(draw, text, &register, style.room)));
                continue;
            }
            2 if register.list().len() < 60 => taken_back(draw, &register),
            _ => fed(draw, style, &register, first),
        };
        let length = lent.length(register.used(), style.room);
        feed(&input, |change| register.take(length, change));
        calls.push(Call::Book(lent, Ask::Feed { input }));
    }
    calls
}

/// A text, into bytes that have room for it or are too few.
fn asked(draw: &mut Draw, text: Text, register: &Register, room: usize) -> Call {
    let lent = match draw.below(8) {
        0 => Lent::Used(-draw.between(1, 60)),
        1 => Lent::Used(0),
        2 => Lent::Exactly(draw.below(room + 1)),
        _ => Lent::Whole,
    };
    let room = texts::any_room(draw, text, &text.of(register));
    Call::Book(lent, Ask::Text { text, room })
}

/// All that is listed, taken back; at times one more.
fn taken_back(draw: &mut Draw, register: &Register) -> (Lent, Vec<u8>) {
    let input = b"TB".repeat(register.list().len() + draw.below(2));
    (Lent::Whole, input)
}

/// Records that are accepted, then one that aims at any number, then more; at
/// times damaged or cut.
fn fed(draw: &mut Draw, style: Style, register: &Register, first: bool) -> (Lent, Vec<u8>) {
    let mut story = Story::new(draw, style, register.clone());
    let mut records = Vec::new();
    if first {
        records = story.prices();
    }
    for record in &records {
        // A refusal leaves the register as it was.
        let _ = story.register.change(style.room, record);
    }
    for _ in 0..story.draw.pick(&[0, 0, 1, 3, 9]) {
        let record = story.any_good();
        let _ = story.register.change(style.room, &record);
        records.push(record);
    }
    let mut input = records.concat();
    let (lent, record) = story.any_aimed();
    input.extend(record);
    match story.draw.below(4) {
        0 => input.extend(story.any_good()),
        1 => input.extend(some_changes(story.draw)),
        _ => {}
    }
    damage(story.draw, &mut input);
    // What is lent counts from the used bytes after the accepted records.
    let lent = match lent {
        Lent::Used(more) => Lent::Exactly((story.register.used() as i64 + more).max(0) as usize),
        lent => lent,
    };
    (lent, input)
}

/// Leaves most inputs as they are.
fn damage(draw: &mut Draw, input: &mut Vec<u8>) {
    if input.is_empty() {
        return;
    }
    let place = draw.below(input.len());
    match draw.below(12) {
        0 => input[place] ^= 1 << draw.below(8),
        1 => input.truncate(place),
        2 => drop(input.remove(place)),
        3 => input.insert(place, draw.byte()),
        _ => {}
    }
}

#[cfg(test)]
mod tests {
    use super::*;
    use crate::call::Kind;
    use crate::peer_side::PeerBook;

    #[test]
    fn a_busy_day_has_lines_of_every_kind() {
        let mut draw = Draw::new(5);
        let mut text = String::new();
        for _ in 0..3 {
            let list = from_busy(&mut draw);
            let Call::Book(_, ask @ Ask::Text { .. }) = &list.calls[0] else {
                panic!("a text first");
            };
            let answer = PeerBook::new(&list.start).question(LENT_MOST, ask);
            assert_eq!(answer.number, 0);
            text += &String::from_utf8_lossy(&answer.bytes);
        }
        for kind in ["IOG", "OFF", "IFC", "EFC", "PCG", "REV", "ERR", "TOT"] {
            assert!(text.contains(&format!(" {kind} ")), "{kind}");
        }
    }

    /// The statements that a list's calls bring back.
    fn statements(list: &List) -> Vec<String> {
        let mut book = PeerBook::new(&list.start);
        let mut texts = Vec::new();
        for call in &list.calls {
            let Call::Book(lent, ask) = call else {
                panic!("a call on a book");
            };
            let lent = lent.length(book.state().used as usize, book.bytes.len());
            let answer = match ask {
                Ask::Feed { input } => book.feed(lent, input),
                ask => book.question(lent, ask),
            };
            let is_statement = ask.kind() == Kind::Text(Text::Statement);
            if is_statement && answer.number == 0 {
                texts.push(String::from_utf8_lossy(&answer.bytes).into_owned());
            }
        }
        texts
    }

    #[test]
    fn totals_of_every_kind_are_compared() {
        let mut draw = Draw::new(7);
        let texts = (0..1500).flat_map(|_| statements(&list(&mut draw)));
        let texts: Vec<String> = texts.collect();
        let with = |words: &str| texts.iter().filter(|text| text.contains(words)).count();
        let seen = [
            with("DD TOT - -"),
            with("DD TOT - 0.00"),
            with(" OFF - -"),
            with(" ERR "),
            texts.len() - with("DD TOT - -") - with("DD TOT - 0.00"),
        ];
        assert!(seen.iter().all(|&count| count > 50), "{seen:?}");
    }

    #[test]
    fn some_inputs_are_taken_whole_and_some_are_not() {
        let mut draw = Draw::new(3);
        let (mut whole, mut part, mut none) = (0, 0, 0);
        for _ in 0..300 {
            let style = style(&mut draw);
            for call in story(&mut draw, style, Register::new()) {
                if let Call::Book(_, Ask::Feed { input }) = call {
                    let mut register = Register::new();
                    let fed = feed(&input, |change| register.take(LENT_MOST, change));
                    match (fed.refusal, fed.count) {
                        (None, _) => whole += 1,
                        (_, 0) => none += 1,
                        _ => part += 1,
                    }
                }
            }
        }
        assert!(
            whole > 100 && part > 100 && none > 100,
            "{whole} {part} {none}"
        );
    }
}
