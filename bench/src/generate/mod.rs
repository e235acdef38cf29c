//! Lists of calls: systematic sweeps first, random lists in between and
//! afterwards.
//!
//! Each list is found again by seed, part and ordinal. Even ordinals take the
//! sweeps in turn as long as there are any; every other list is drawn.

pub mod books;
pub mod changes;
pub mod days;
pub mod feeds;
pub mod forms;
pub mod money;
pub mod names;
pub mod numbers;
pub mod paged;
pub mod pairs;
pub mod records;
pub mod sweeps_books;
pub mod sweeps_days;
pub mod sweeps_money;
pub mod sweeps_records;
pub mod texts;
pub mod totals;

use crate::call::{List, Part};
use crate::draw::Draw;

/// The lists of a part in turn.
pub struct Lists {
    part: Part,
    seed: u64,
    ordinal: u64,
    sweeps: Box<dyn Iterator<Item = List>>,
    sweeps_left: bool,
}

impl Lists {
    /// All lists of a part for a seed.
    pub fn new(part: Part, seed: u64) -> Lists {
        Lists {
            part,
            seed,
            ordinal: 0,
            sweeps: sweeps(part),
            sweeps_left: true,
        }
    }

    /// The list of an ordinal.
    pub fn at(part: Part, seed: u64, ordinal: u64) -> List {
        let mut lists = Lists::new(part, seed);
        while lists.ordinal < ordinal {
            lists.swept();
            lists.ordinal += 1;
        }
        lists.next_list()
    }

    /// The next list.
    pub fn next_list(&mut self) -> List {
        let list = match self.swept() {
            Some(list) => list,
            None => drawn(self.part, self.seed, self.ordinal),
        };
        self.ordinal += 1;
        list
    }

    /// The next sweep, if it is the turn of one.
    fn swept(&mut self) -> Option<List> {
        if self.ordinal % 2 == 1 || !self.sweeps_left {
            return None;
        }
        let sweep = self.sweeps.next();
        self.sweeps_left = sweep.is_some();
        sweep
    }
}

fn sweeps(part: Part) -> Box<dyn Iterator<Item = List>> {
    match part {
        Part::Money => sweeps_money::all(),
        Part::Records => sweeps_records::all(),
        Part::Books => sweeps_books::all(),
        Part::Days => sweeps_days::all(),
    }
}

/// The random list of a seed, part and ordinal.
fn drawn(part: Part, seed: u64, ordinal: u64) -> List {
    let mut draw = Draw::for_list(seed, part as u64, ordinal);
    match part {
        Part::Money => money::list(&mut draw),
        Part::Records => records::list(&mut draw),
        Part::Books if ordinal % 4 == 3 => pairs::list(&mut draw),
        Part::Books => books::list(&mut draw),
        Part::Days => feeds::list(&mut draw),
    }
}
