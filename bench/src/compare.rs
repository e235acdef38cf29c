//! A list of calls run on both sides, call by call.

use crate::answer::Answer;
use crate::bridge::{Layers, State};
use crate::call::{Ask, Call, Kind, List, Way};
use crate::peer_side::{self, PeerBook};
use crate::proved_side;
use crate::tally::Tally;

/// The first call of a list on which the sides differ.
#[derive(Clone, Debug, PartialEq, Eq)]
pub struct Mismatch {
    /// The call's place in the list, from 0.
    pub at: usize,
    /// Its kind.
    pub kind: Kind,
    /// The lent length and the carried used bytes, for a call on a book.
    pub lent: Option<(usize, u32)>,
    /// The peer's answer.
    pub peer: Answer,
    /// The proved side's answer.
    pub proved: Answer,
}

impl Mismatch {
    /// Whether another mismatch shows the same: kind of call, both numbers and
    /// fault.
    pub fn is_like(&self, other: &Mismatch) -> bool {
        let signs = |mismatch: &Mismatch| {
            (
                mismatch.kind,
                mismatch.peer.number,
                mismatch.proved.number,
                mismatch.proved.fault,
            )
        };
        signs(self) == signs(other)
    }
}

/// Runs a list; agreed answers and skipped calls are counted.
pub fn run(list: &List, layers: Layers, tally: &mut Tally) -> Result<(), Box<Mismatch>> {
    run_telling(list, layers, tally, |_| {})
}

/// The same, and each call is told before it is made.
pub fn run_telling(
    list: &List,
    layers: Layers,
    tally: &mut Tally,
    mut tell: impl FnMut(&Call),
) -> Result<(), Box<Mismatch>> {
    let mut sides = Sides::new(list);
    for (at, call) in list.calls.iter().enumerate() {
        tell(call);
        let kind = call.kind();
        if !layers.has(kind.layer()) {
            sides.skip(call);
            tally.skip(kind);
            continue;
        }
        let lent = sides.lent(call);
        let (peer, proved) = sides.answers(call);
        if peer != proved {
            return Err(Box::new(Mismatch {
                at,
                kind,
                lent,
                peer,
                proved,
            }));
        }
        tally.note(kind, peer.number);
    }
    Ok(())
}

/// Both sides of one list.
struct Sides {
    peer: PeerBook,
    /// What the proved side handed back last.
    state: State,
    bytes: Vec<u8>,
}

impl Sides {
    fn new(list: &List) -> Sides {
        let peer = PeerBook::new(&list.start);
        Sides {
            state: peer.state(),
            bytes: peer.bytes.clone(),
            peer,
        }
    }

    fn lent(&self, call: &Call) -> Option<(usize, u32)> {
        match call {
            Call::Alone(_) => None,
            Call::Book(lent, _) => {
                let used = self.state.used;
                Some((lent.length(used as usize, self.bytes.len()), used))
            }
        }
    }

    /// The answers of the peer and of the proved side, which carries a fault
    /// where it did more than answer.
    fn answers(&mut self, call: &Call) -> (Answer, Answer) {
        let lent = self.lent(call).map_or(0, |(length, _)| length);
        match call {
            Call::Alone(alone) => (peer_side::alone(alone), proved_side::alone(alone)),
            Call::Book(_, Ask::Change { way, record }) => self.change(*way, lent, record),
            Call::Book(_, Ask::Feed { input }) => self.feed(lent, input),
            Call::Book(_, ask) => {
                let peer = self.peer.question(lent, ask);
                let proved = proved_side::question(self.state, &self.bytes[..lent], ask);
                if self.bytes != self.peer.bytes {
                    return (peer, proved.with_fault("a question altered lent bytes"));
                }
                (peer, proved)
            }
        }
    }

    fn change(&mut self, way: Way, lent: usize, record: &[u8]) -> (Answer, Answer) {
        let peer = self.peer.change(way, lent, record);
        let room = &mut self.bytes[..lent];
        let proved = proved_side::change(way.number(), self.state, room, record);
        if peer != proved {
            return (peer, proved);
        }
        self.checked(peer.number == 0, lent, peer, proved)
    }

    /// Records back to back; with one that was taken the book has changed,
    /// whatever the number is.
    fn feed(&mut self, lent: usize, input: &[u8]) -> (Answer, Answer) {
        let peer = self.peer.feed(lent, input);
        let room = &mut self.bytes[..lent];
        let proved = proved_side::feed(self.state, room, input);
        if peer != proved {
            return (peer, proved);
        }
        self.checked(peer.sizes[0] > 0, lent, peer, proved)
    }

    /// Agreed answers, with a fault where the bytes are not as they must be.
    fn checked(
        &mut self,
        changed: bool,
        lent: usize,
        peer: Answer,
        proved: Answer,
    ) -> (Answer, Answer) {
        let checked = if changed {
            self.check_accepted(lent)
        } else {
            self.check_refused()
        };
        match checked {
            Ok(()) => (peer, proved),
            Err(fault) => (peer, proved.with_fault(fault)),
        }
    }

    /// Both accepted and carry the same numbers: the used part must be the
    /// same, and nothing outside the lent bytes may have changed.
    fn check_accepted(&mut self, lent: usize) -> Result<(), &'static str> {
        self.state = self.peer.state();
        let used = self.state.used as usize;
        if self.bytes[..used] != self.peer.bytes[..used] {
            return Err("the used part differs");
        }
        if self.bytes[lent..] != self.peer.bytes[lent..] {
            return Err("bytes that were not lent were altered");
        }
        // Lent bytes past the used part are free.
        self.peer.bytes[used..lent].copy_from_slice(&self.bytes[used..lent]);
        Ok(())
    }

    fn check_refused(&self) -> Result<(), &'static str> {
        if self.bytes == self.peer.bytes {
            Ok(())
        } else {
            Err("a refused change altered bytes")
        }
    }

    /// Goes on as if the proved side had done what the peer does.
    fn skip(&mut self, call: &Call) {
        let lent = self.lent(call).map_or(0, |(length, _)| length);
        match call {
            Call::Book(_, Ask::Change { way, record }) => self.peer.change(*way, lent, record),
            Call::Book(_, Ask::Feed { input }) => self.peer.feed(lent, input),
            _ => return,
        };
        self.state = self.peer.state();
        self.bytes.copy_from_slice(&self.peer.bytes);
    }
}
