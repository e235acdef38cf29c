//! The shortest list that still shows a mismatch: first without calls, then
//! without bytes.

use crate::bridge::State;
use crate::call::{Alone, Call, Lent, List, Start};
use peer::records::parse_change_prefix;
use std::time::{Duration, Instant};

/// Cuts a list down as long as `shows` holds of it and time is left.
pub fn shrink(list: List, time: Duration, shows: impl FnMut(&List) -> bool) -> List {
    let mut work = Work {
        best: list,
        shows,
        until: Instant::now() + time,
    };
    loop {
        let before = work.best.clone();
        work.drop_calls();
        work.drop_changes_of_start();
        work.simplify_lent();
        work.drop_bytes();
        work.simplify_bytes();
        work.shorten_start();
        if work.best == before || work.is_late() {
            return work.best;
        }
    }
}

struct Work<F> {
    best: List,
    shows: F,
    until: Instant,
}

impl<F: FnMut(&List) -> bool> Work<F> {
    fn is_late(&self) -> bool {
        Instant::now() >= self.until
    }

    /// Takes another list if it still shows the mismatch.
    fn attempt(&mut self, list: List) -> bool {
        if list == self.best || self.is_late() || !(self.shows)(&list) {
            return false;
        }
        self.best = list;
        true
    }

    /// The list with one call altered, if it still shows the mismatch.
    fn attempt_call(&mut self, at: usize, alter: impl FnOnce(&mut Call)) -> bool {
        let mut list = self.best.clone();
        alter(&mut list.calls[at]);
        self.attempt(list)
    }

    /// Drops runs of calls, long ones first.
    fn drop_calls(&mut self) {
        let mut run = self.best.calls.len().div_ceil(2);
        while run > 0 {
            let mut at = 0;
            while at < self.best.calls.len() {
                let mut list = self.best.clone();
                let end = list.calls.len().min(at + run);
                list.calls.drain(at..end);
                if !self.attempt(list) {
                    at += run;
                }
            }
            run /= 2;
        }
    }

    /// Drops whole changes from the used part of a given book.
    fn drop_changes_of_start(&mut self) {
        let mut at = 0;
        while let Some(list) = without_change(&self.best, at) {
            if !self.attempt(list) {
                at += 1;
            }
        }
    }

    fn simplify_lent(&mut self) {
        for at in 0..self.best.calls.len() {
            self.attempt_call(at, |call| {
                if let Call::Book(lent, _) = call {
                    *lent = Lent::Whole;
                }
            });
            self.attempt_call(at, |call| {
                if let Call::Alone(Alone::Write { room, record, .. }) = call {
                    *room = (*room).min(record.len() * 3);
                }
            });
        }
    }

    /// Drops bytes of the calls: runs, long ones first; then a byte or a pair
    /// together with one of the count before it.
    fn drop_bytes(&mut self) {
        for at in 0..self.best.calls.len() {
            let strings = self.best.calls[at].byte_strings().len();
            for which in 0..strings {
                self.drop_runs(at, which);
                self.drop_counted(at, which);
            }
        }
    }

    fn string_length(&mut self, at: usize, which: usize) -> usize {
        self.best.calls[at].byte_strings()[which].len()
    }

    fn drop_runs(&mut self, at: usize, which: usize) {
        let mut run = self.string_length(at, which);
        while run > 0 {
            let mut place = 0;
            while place + run <= self.string_length(at, which) {
                let dropped = self.attempt_call(at, |call| {
                    let string = call.byte_strings().swap_remove(which);
                    string.drain(place..place + run);
                });
                if !dropped {
                    place += 1.max(run / 2);
                }
            }
            run /= 2;
        }
    }

    fn drop_counted(&mut self, at: usize, which: usize) {
        let mut place = 0;
        while place < self.string_length(at, which) {
            let dropped = [1, 8, 3].into_iter().any(|run| {
                self.attempt_call(at, |call| {
                    let string = call.byte_strings().swap_remove(which);
                    if string[place] > 0 && place + run < string.len() {
                        string[place] -= 1;
                        string.drain(place + 1..=place + run);
                    }
                })
            });
            if !dropped {
                place += 1;
            }
        }
    }

    /// Makes bytes 0, or 1 where 0 no longer shows the mismatch.
    fn simplify_bytes(&mut self) {
        for at in 0..self.best.calls.len() {
            let strings = self.best.calls[at].byte_strings().len();
            for which in 0..strings {
                for place in 0..self.string_length(at, which) {
                    self.simplify_byte(at, which, place);
                }
            }
        }
    }

    fn simplify_byte(&mut self, at: usize, which: usize, place: usize) {
        let byte = self.best.calls[at].byte_strings()[which][place];
        for simpler in [0, 1, b'A'] {
            let done = byte <= simpler
                || self.attempt_call(at, |call| {
                    call.byte_strings().swap_remove(which)[place] = simpler;
                });
            if done {
                return;
            }
        }
    }

    /// Fewer bytes to start from.
    fn shorten_start(&mut self) {
        let room = self.best.start.room();
        for shorter in [0, room / 4, room / 2, room * 3 / 4, room.saturating_sub(1)] {
            let mut list = self.best.clone();
            match &mut list.start {
                Start::Fresh(room) => *room = shorter,
                Start::Given(_, bytes) => bytes.truncate(shorter),
            }
            if self.attempt(list) {
                return;
            }
        }
    }
}

/// The list without the change at a place of its start's used part.
fn without_change(list: &List, at: usize) -> Option<List> {
    let Start::Given(state, bytes) = &list.start else {
        return None;
    };
    let used = bytes.get(..state.used as usize)?;
    let mut start = 0;
    for _ in 0..at {
        start += parse_change_prefix(&used[start..]).ok()?.1;
    }
    let length = parse_change_prefix(&used[start..]).ok()?.1;
    let mut bytes = bytes.clone();
    bytes.drain(start..start + length);
    let state = State {
        changes: state.changes.checked_sub(1)?,
        used: state.used - length as u32,
        ..*state
    };
    Some(List {
        start: Start::Given(state, bytes),
        calls: list.calls.clone(),
    })
}

#[cfg(test)]
mod tests {
    use super::*;
    use crate::call::Ask;
    use peer::records::raw;

    const TIME: Duration = Duration::from_secs(20);

    fn next(bytes: &[u8]) -> Alone {
        Alone::Next {
            bytes: bytes.to_vec(),
        }
    }

    #[test]
    fn only_the_calls_that_matter_remain() {
        let list = List::alone((0..100).map(|byte| next(&[byte, 7, 7])));
        let needed = |list: &List, first: u8| {
            let mut calls = list.calls.clone();
            calls
                .iter_mut()
                .any(|call| call.byte_strings()[0].first() == Some(&first))
        };
        let shortest = shrink(list, TIME, |list| needed(list, 17) && needed(list, 63));
        assert_eq!(shortest, List::alone([next(&[17]), next(&[63])]));
    }

    #[test]
    fn bytes_become_fewer_and_simpler() {
        let list = List::alone([next(&[9, 8, 7, 200, 5, 4, 3])]);
        let shortest = shrink(list, TIME, |list| {
            let mut calls = list.calls.clone();
            calls.iter_mut().any(|call| {
                let bytes = call.byte_strings().swap_remove(0);
                bytes.len() >= 2 && bytes.contains(&200)
            })
        });
        let mut calls = shortest.calls;
        assert_eq!(calls.len(), 1);
        let mut bytes = calls[0].byte_strings().swap_remove(0).clone();
        bytes.sort_unstable();
        assert_eq!(bytes, [0, 200]);
    }

    fn given(list: &List) -> (State, &[u8]) {
        match &list.start {
            Start::Given(state, bytes) => (*state, bytes),
            Start::Fresh(_) => panic!("a given book"),
        }
    }

    #[test]
    fn a_given_book_loses_changes_and_room() {
        let changes: Vec<Vec<u8>> = (1..=9).map(|hour| raw::price(hour, [0; 12], 0)).collect();
        let used = changes.concat();
        let state = State {
            changes: 9,
            used: used.len() as u32,
            closed: false,
        };
        let bytes = [used, vec![0; 1000]].concat();
        let list = List {
            start: Start::Given(state, bytes),
            calls: vec![Call::Book(Lent::Used(-1), Ask::Free); 4],
        };
        let shortest = shrink(list, TIME, |list| {
            let (state, bytes) = given(list);
            let is_whole = bytes.len() >= state.used as usize;
            !list.calls.is_empty() && is_whole && bytes.windows(3).any(|three| three == b"PR\x04")
        });
        assert_eq!(given(&shortest).0.changes, 1);
        assert_eq!(shortest.start.room(), 55);
        assert_eq!(shortest.calls, [Call::Book(Lent::Whole, Ask::Free)]);
    }

    #[test]
    fn no_time_leaves_the_list() {
        let list = List::alone([next(b"PR")]);
        assert_eq!(shrink(list.clone(), Duration::ZERO, |_| true), list);
    }
}
