//! The book over lent bytes.
//!
//! "The book is passed in and handed back whole with each change. It carries
//! its number of changes, used bytes, and open or closed; the written changes
//! stand in the lent bytes." Any book may come with any bytes; each call reads
//! the used part once and refuses with 16 what doesn't belong together.

use crate::names::Name;
use crate::questions::{self, Guarantees, Place, Standing, UnitDay};
use crate::records::{
    parse_canonical_prefix, parse_change, parse_for, parse_record_prefix, Change, Key, Mark,
    Method, Record,
};
use crate::refusal::Refusal;
use crate::units::{Hour, Ticks};

/// Most listed changes: "512 listed" gives 13.
const LISTED_MOST: u32 = 512;
/// Most lent bytes that count: "above 65,535 counted as 65,535".
const LENT_MOST: usize = 65_535;

/// What the book carries.
#[derive(Clone, Copy, Debug, Default, PartialEq, Eq, Hash)]
pub struct Book {
    /// Number of changes.
    pub changes: u32,
    /// Used bytes.
    pub used: u32,
    /// Closed, or still open.
    pub closed: bool,
}

/// The book as handed back, and the answer to a change.
pub type Handed = (Book, Result<(), Refusal>);

impl Book {
    /// A fresh book: nothing used, open.
    pub fn new() -> Book {
        Book::default()
    }

    /// Any of the five changes, by its mark.
    pub fn change(self, lent: &mut [u8], bytes: &[u8]) -> Handed {
        self.take(lent, parse_change(bytes))
    }

    /// A call of one of the five methods.
    pub fn call(self, method: Method, lent: &mut [u8], bytes: &[u8]) -> Handed {
        self.take(lent, parse_for(method, bytes))
    }

    /// A change as it was read, or why it couldn't be.
    pub fn take(self, lent: &mut [u8], read: Result<Change, Refusal>) -> Handed {
        self.hand_back(self.decide(lent, read), lent)
    }

    /// The question for the record of a key.
    pub fn record(
        &self,
        lent: &[u8],
        mark: &[u8],
        hour: u32,
        name: &[u8],
    ) -> Result<Place, Refusal> {
        let standing = self.read(lent)?;
        let key = questions::key_argument(mark, hour, name)?;
        standing.place(&key).ok_or(Refusal::NoSuchKey)
    }

    /// The question for the count of a mark and hour.
    pub fn count(&self, lent: &[u8], mark: &[u8], hour: u32) -> Result<u32, Refusal> {
        let standing = self.read(lent)?;
        let mark = questions::mark_argument(mark)?;
        Ok(standing.slot(mark, Hour::new(hour)?).len() as u32)
    }

    /// The question for free bytes.
    pub fn free(&self, lent: &[u8]) -> Result<u32, Refusal> {
        self.read(lent)?;
        Ok(counted(lent) as u32 - self.used)
    }

    /// The question for an hour's guarantees.
    pub fn guarantees(&self, lent: &[u8], hour: u32) -> Result<Guarantees, Refusal> {
        questions::guarantees(&self.read(lent)?, hour)
    }

    /// The question for a unit's day.
    pub fn unit_day(&self, lent: &[u8], name: &[u8]) -> Result<UnitDay, Refusal> {
        questions::unit_day(&self.read(lent)?, name)
    }

    /// The question for a failure charge.
    pub fn failure_charge(
        &self,
        lent: &[u8],
        mark: &[u8],
        hour: u32,
        name: &[u8],
    ) -> Result<Ticks, Refusal> {
        questions::failure_charge(&self.read(lent)?, mark, hour, name)
    }

    /// The standing records, or 16: "the used part isn't the carried number of
    /// written changes, or these can't be played from fresh without a
    /// refusal".
    pub fn read<'a>(&self, lent: &'a [u8]) -> Result<StandingBytes<'a>, Refusal> {
        let used = self.used as usize;
        if used > counted(lent) || self.changes > LISTED_MOST {
            return Err(Refusal::NotTogether);
        }
        StandingBytes::play(&lent[..used], self.changes).ok_or(Refusal::NotTogether)
    }

    /// What an accepted call does, or the first refusal in the order of the
    /// numbers: 16, those of reading, 9, "then 10 or 11, 12, 13, 14".
    fn decide(self, lent: &[u8], read: Result<Change, Refusal>) -> Result<Step, Refusal> {
        let standing = self.read(lent)?;
        let change = read?;
        if self.closed {
            return Err(Refusal::Closed);
        }
        match change {
            Change::TakeBack => match standing.last_start {
                Some(start) => Ok(Step::DropTo(start)),
                None => Err(Refusal::NothingToTakeBack),
            },
            Change::Close => Ok(Step::Close),
            listed => {
                standing.check(&listed)?;
                let written = listed.written();
                let free = counted(lent) - self.used as usize;
                if written.len() > free || self.changes == LISTED_MOST {
                    return Err(Refusal::NoSpace);
                }
                Ok(Step::Append(written))
            }
        }
    }

    /// Carries a decided step out. Only the bytes of an accepted change, right
    /// behind the used part, are written.
    fn hand_back(mut self, decided: Result<Step, Refusal>, lent: &mut [u8]) -> Handed {
        let step = match decided {
            Ok(step) => step,
            Err(refusal) => return (self, Err(refusal)),
        };
        match step {
            Step::Append(written) => {
                let start = self.used as usize;
                lent[start..start + written.len()].copy_from_slice(&written);
                self.used += written.len() as u32;
                self.changes += 1;
            }
            Step::DropTo(start) => {
                self.used = start;
                self.changes -= 1;
            }
            Step::Close => self.closed = true,
        }
        (self, Ok(()))
    }
}

/// How many of the lent bytes count.
fn counted(lent: &[u8]) -> usize {
    lent.len().min(LENT_MOST)
}

/// What an accepted change does to the book.
enum Step {
    Append(Vec<u8>),
    DropTo(u32),
    Close,
}

/// The standing record of a key: name and place.
#[derive(Clone, Copy)]
struct Entry {
    name: Option<Name>,
    place: Place,
}

/// The standing records of a used part, found by mark and hour.
pub struct StandingBytes<'a> {
    used: &'a [u8],
    /// For each mark and hour its entries, at most 16.
    slots: Vec<Vec<Entry>>,
    last_start: Option<u32>,
}

impl<'a> StandingBytes<'a> {
    /// Plays the changes from fresh; none unless exactly `changes` canonical
    /// ones fill the used part and each is accepted.
    fn play(used: &'a [u8], changes: u32) -> Option<StandingBytes<'a>> {
        let mut standing = StandingBytes {
            used,
            slots: vec![Vec::new(); Mark::ALL.len() * Hour::COUNT],
            last_start: None,
        };
        let mut start = 0;
        for _ in 0..changes {
            let (change, length) = parse_canonical_prefix(&used[start..])?;
            standing.check(&change).ok()?;
            standing.apply(&change, start as u32, length as u32)?;
            standing.last_start = Some(start as u32);
            start += length;
        }
        (start == used.len()).then_some(standing)
    }

    /// 10 and 12 for filing, 11 for `CO` and `WD`.
    fn check(&self, change: &Change) -> Result<(), Refusal> {
        match change {
            Change::File(record) => {
                let key = record.key();
                if self.place(&key).is_some() {
                    return Err(Refusal::KeyStands);
                }
                if self.slot(key.mark, key.hour).len() >= key.mark.hour_limit() {
                    return Err(Refusal::HourFull);
                }
                Ok(())
            }
            Change::Correct(record) => self.check_stands(&record.key()),
            Change::Withdraw(key) => self.check_stands(key),
            Change::TakeBack | Change::Close => Ok(()),
        }
    }

    fn check_stands(&self, key: &Key) -> Result<(), Refusal> {
        self.place(key).map(|_| ()).ok_or(Refusal::NoSuchKey)
    }

    /// Plays one checked change; none for `TB` and `CL`, which are never
    /// listed.
    fn apply(&mut self, change: &Change, start: u32, length: u32) -> Option<()> {
        match change {
            Change::File(record) => {
                let key = record.key();
                let place = Place { start, length };
                self.slots[slot_place(key.mark, key.hour)].push(Entry {
                    name: key.name,
                    place,
                });
            }
            Change::Correct(record) => {
                let place = Place {
                    start: start + 2,
                    length: length - 2,
                };
                self.entry_mut(&record.key())?.place = place;
            }
            Change::Withdraw(key) => {
                let slot = &mut self.slots[slot_place(key.mark, key.hour)];
                slot.retain(|entry| entry.name != key.name);
            }
            Change::TakeBack | Change::Close => return None,
        }
        Some(())
    }

    fn slot(&self, mark: Mark, hour: Hour) -> &[Entry] {
        &self.slots[slot_place(mark, hour)]
    }

    fn place(&self, key: &Key) -> Option<Place> {
        let mut slot = self.slot(key.mark, key.hour).iter();
        slot.find(|entry| entry.name == key.name)
            .map(|entry| entry.place)
    }

    fn entry_mut(&mut self, key: &Key) -> Option<&mut Entry> {
        let mut slot = self.slots[slot_place(key.mark, key.hour)].iter_mut();
        slot.find(|entry| entry.name == key.name)
    }
}

impl Standing for StandingBytes<'_> {
    fn find(&self, key: &Key) -> Option<Record> {
        let place = self.place(key)?;
        let bytes = &self.used[place.start as usize..];
        parse_record_prefix(bytes).ok().map(|(record, _)| record)
    }

    fn names(&self, mark: Mark, hour: Hour) -> Vec<Name> {
        let entries = self.slot(mark, hour).iter();
        let mut names: Vec<Name> = entries.filter_map(|entry| entry.name).collect();
        names.sort_unstable();
        names
    }
}

fn slot_place(mark: Mark, hour: Hour) -> usize {
    mark.place() * Hour::COUNT + hour.place()
}
