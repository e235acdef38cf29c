//! Systematic days: their texts into every room; an input cut at each byte, with
//! its texts, and damaged at each byte; every lent length.

use crate::bridge::State;
use crate::call::{Ask, Call, Lent, List, Start};
use crate::generate::sweeps_books::{small_book, state};
use crate::generate::{paged, texts, totals};
use crate::text::Text;
use peer::records::raw::{self, RawName, RawUnit};
use peer::register::LENT_MOST;

/// All sweeps in turn.
pub fn all() -> Box<dyn Iterator<Item = List>> {
    Box::new(
        rooms()
            .chain(totals::largest())
            .chain(paged::ends())
            .chain(cut_inputs())
            .chain(damaged_inputs())
            .chain(lent_lengths()),
    )
}

/// Records of all ten marks, each of which is accepted.
pub fn whole_day() -> Vec<Vec<u8>> {
    let mut records = small_book();
    let mut unit = RawUnit::idle();
    unit.schedules[0] = [40; 12];
    unit.lists[0] = vec![(2500, 60)];
    unit.lists[1] = vec![(2400, 60)];
    records.push(raw::unit(5, &RawName::of(b"G"), &unit));
    records.push(raw::failure(
        b"FE",
        6,
        &RawName::of(b"E%2f"),
        [20, 10],
        [10, 3000],
    ));
    records.push(raw::price(6, [2000; 12], 2500));
    records.push(raw::price(7, [2000; 12], 2500));
    records.push(b"TB".to_vec());
    records.push(b"CL".to_vec());
    records
}

fn fed(room: usize, lent: Lent, input: &[u8]) -> List {
    let input = input.to_vec();
    List {
        start: Start::Fresh(room),
        calls: vec![Call::Book(lent, Ask::Feed { input })],
    }
}

/// The day without its last bytes.
fn cut_inputs() -> impl Iterator<Item = List> {
    let input = whole_day().concat();
    (0..=input.len()).map(move |end| {
        let mut list = fed(LENT_MOST, Lent::Whole, &input[..end]);
        let asked = Text::ALL.map(|text| texts::call(text, text.most()));
        list.calls.extend(asked);
        list
    })
}

/// The day with one byte altered.
fn damaged_inputs() -> impl Iterator<Item = List> {
    let input = whole_day().concat();
    (0..input.len()).flat_map(move |place| {
        let input = input.clone();
        [1, 0x20, 0x80, 0xFF].into_iter().map(move |flip| {
            let mut input = input.clone();
            input[place] ^= flip;
            fed(LENT_MOST, Lent::Whole, &input)
        })
    })
}

/// The day into a book over fewer bytes, or with fewer lent.
fn lent_lengths() -> impl Iterator<Item = List> {
    let input = whole_day().concat();
    (0..=input.len() + 60).step_by(3).flat_map(move |length| {
        [
            fed(length, Lent::Whole, &input),
            fed(LENT_MOST, Lent::Exactly(length), &input),
        ]
    })
}

/// Texts into each room: of an empty book, open and closed, of the small book,
/// and of a day with lines of every kind.
fn rooms() -> impl Iterator<Item = List> {
    let books = [
        (Vec::new(), false),
        (Vec::new(), true),
        (small_book(), false),
        (totals::every_kind(), false),
    ];
    let books = books.into_iter();
    books.flat_map(|(book, closed)| each_room(&book, closed))
}

/// The texts of a book into each room up to more than enough.
fn each_room(book: &[Vec<u8>], closed: bool) -> impl Iterator<Item = List> {
    let start = Start::Given(
        State {
            closed,
            ..state(book)
        },
        book.concat(),
    );
    let register = texts::filed(book);
    let calls = Text::ALL.into_iter().flat_map(move |text| {
        let rooms = texts::rooms(text, text.of(&register).len());
        rooms.map(move |room| texts::call(text, room))
    });
    calls.map(move |call| List {
        start: start.clone(),
        calls: vec![call],
    })
}

#[cfg(test)]
mod tests {
    use super::*;
    use crate::peer_side::PeerBook;
    use peer::feed::feed;
    use peer::register::Register;
    use peer::statement::statement;

    #[test]
    fn the_whole_day_is_taken() {
        let mut register = Register::new();
        let input = whole_day().concat();
        let fed = feed(&input, |change| register.take(LENT_MOST, change));
        assert_eq!((fed.count, fed.refusal), (12, None));
        assert_eq!(fed.taken, input.len());
        assert!(register.is_closed());
        assert_eq!(statement(&register).lines().count(), 7);
    }

    /// The least room that each text is written into, of each book.
    #[test]
    fn rooms_begin_below_the_shortest_texts() {
        let answers = rooms().map(|list| match &list.calls[..] {
            [Call::Book(_, ask @ Ask::Text { room, .. })] => {
                let answer = PeerBook::new(&list.start).question(list.start.room(), ask);
                (*room, answer.number)
            }
            _ => panic!("a text"),
        });
        let answers: Vec<(usize, u32)> = answers.collect();
        let firsts = answers.windows(2).filter_map(|pair| match pair {
            [(_, 13), (room, 0)] => Some(*room),
            _ => None,
        });
        let firsts: Vec<usize> = firsts.collect();
        let [statement, pages] = Text::ALL.map(Text::least);
        let least = [statement, pages, statement, pages, 63, pages, 172, pages];
        assert_eq!(firsts, least);
    }
}
