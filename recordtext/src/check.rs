//! A day played as `settle` plays it, and why what stands before a record
//! refuses it.

use crate::feed::{placed, Placed};
use crate::numbers;
use crate::refused::Refused;
use crate::units::grouped;
use crate::why::look;
use peer::records::{Change, Key};
use peer::refusal::Refusal;
use peer::register::{Register, LENT_MOST, LISTED_MOST};
use std::fmt;

/// A day whose records are all taken.
#[derive(Clone, Copy, Debug, PartialEq, Eq)]
pub struct Taken {
    /// How many records it has.
    pub records: usize,
    /// How many of them are listed as changes.
    pub listed: usize,
    /// The bytes that these use.
    pub used: usize,
    /// Whether it is closed.
    pub closed: bool,
}

/// One line.
impl fmt::Display for Taken {
    fn fmt(&self, out: &mut fmt::Formatter<'_>) -> fmt::Result {
        match self.records {
            0 => write!(out, "no records")?,
            1 => write!(out, "1 record, taken")?,
            records => write!(out, "{} records, all taken", count(records))?,
        }
        let (listed, most) = (count(self.listed), count(LISTED_MOST));
        write!(out, "; {listed} of {most} changes listed")?;
        let (used, lent) = (count(self.used), count(LENT_MOST));
        write!(out, "; {used} of {lent} bytes used")?;
        write!(out, "; {}", if self.closed { "closed" } else { "open" })
    }
}

/// Plays records back to back into a book of 65,535 bytes, up to the first
/// that is refused.
pub fn check(bytes: &[u8]) -> Result<Taken, Refused> {
    let mut day = Day::default();
    for record in placed(bytes) {
        day.take(record?)?;
    }
    Ok(Taken {
        records: day.records,
        listed: day.listed.len(),
        used: day.register.used(),
        closed: day.register.is_closed(),
    })
}

/// The register, and which records brought it to where it is.
#[derive(Default)]
struct Day<'a> {
    register: Register,
    records: usize,
    /// The record of each listed change.
    listed: Vec<Placed<'a>>,
    /// Records that were taken back, each with the ordinal of its `TB`.
    taken_back: Vec<(Placed<'a>, usize)>,
    /// The ordinal of `CL`.
    closed_by: usize,
}

impl<'a> Day<'a> {
    fn take(&mut self, record: Placed<'a>) -> Result<(), Refused> {
        if let Err(refusal) = self.register.accept(LENT_MOST, record.change.clone()) {
            return Err(self.refused(&record, refusal));
        }
        self.records += 1;
        match record.change {
            Change::TakeBack => {
                let dropped = self.listed.pop().map(|listed| (listed, record.ordinal));
                self.taken_back.extend(dropped);
            }
            Change::Close => self.closed_by = record.ordinal,
            _ => self.listed.push(record),
        }
        Ok(())
    }

    fn refused(&self, record: &Placed, refusal: Refusal) -> Refused {
        Refused {
            ordinal: record.ordinal,
            start: record.start,
            head: look(record.bytes).head,
            refusal,
            why: self.why(record, refusal),
            at: None,
        }
    }

    fn why(&self, record: &Placed, refusal: Refusal) -> String {
        match (refusal, record.change.key()) {
            (Refusal::Closed, _) => format!("the day was closed by record {}", self.closed_by),
            (Refusal::KeyStands, Some(key)) => self.repeated(record, &key),
            (Refusal::NoSuchKey, Some(key)) => self.absent(record, &key),
            (Refusal::HourFull, Some(key)) => self.full_hour(&key),
            (Refusal::NoSpace, _) => self.full_book(&record.change),
            (Refusal::NothingToTakeBack, _) => self.nothing_listed(),
            _ => numbers::words(refusal).to_string(),
        }
    }

    /// Where the record of a key that stands was filed and last corrected.
    fn repeated(&self, record: &Placed, key: &Key) -> String {
        let told = key_of(record);
        let mut why = format!("record {} repeats {told}", record.ordinal);
        let mut touching = self.touching(key);
        let last = touching.next_back();
        let is_filing = |listed: &&Placed| matches!(listed.change, Change::File(_));
        let filed = last.filter(is_filing).or_else(|| touching.rfind(is_filing));
        if let Some(filed) = filed {
            why += &format!(", filed as record {}", filed.ordinal);
            if key_of(filed) != told {
                why += &format!(" ({})", key_of(filed));
            }
        }
        if let Some(corrected) = last.filter(|last| !is_filing(last)) {
            why += &format!(", corrected by record {}", corrected.ordinal);
        }
        why
    }

    /// What became of the record of a key that doesn't stand.
    fn absent(&self, record: &Placed, key: &Key) -> String {
        let does = match record.change {
            Change::Correct(_) => "corrects",
            _ => "withdraws",
        };
        let what = format!("record {} {does} {}", record.ordinal, key_of(record));
        if let Some(withdrawn) = self.touching(key).next_back() {
            let ordinal = withdrawn.ordinal;
            return format!("{what}, which was withdrawn by record {ordinal}");
        }
        let mut dropped = self.taken_back.iter().rev();
        match dropped.find(|(dropped, _)| dropped.change.key() == Some(*key)) {
            Some((filed, by)) => {
                let ordinal = filed.ordinal;
                format!("{what}, which was filed as record {ordinal} and taken back by record {by}")
            }
            None => format!("{what}, which was not filed"),
        }
    }

    fn full_hour(&self, key: &Key) -> String {
        let (hour, mark) = (key.hour.number(), key.mark.bytes());
        let counted = self.register.count(LENT_MOST, &mark, u32::from(hour));
        let held = counted.unwrap_or_default();
        let mark = String::from_utf8_lossy(&mark);
        format!("hour {hour} holds {held} {mark} already, and takes no more")
    }

    fn full_book(&self, change: &Change) -> String {
        if self.listed.len() >= LISTED_MOST {
            return format!("{LISTED_MOST} changes are listed already, and no more are taken");
        }
        let needed = count(change.written_len());
        let (free, lent) = (count(LENT_MOST - self.register.used()), count(LENT_MOST));
        format!("it needs {needed} bytes, and {free} of {lent} are free")
    }

    fn nothing_listed(&self) -> String {
        match self.taken_back.len() {
            0 => "no change stands before it".to_string(),
            1 => "the one change before it is taken back already".to_string(),
            times => format!("all {times} changes before it are taken back already"),
        }
    }

    /// The listed changes of a key, earliest first.
    fn touching(&self, key: &Key) -> impl DoubleEndedIterator<Item = &Placed<'a>> {
        let key = Some(*key);
        let listed = self.listed.iter();
        listed.filter(move |listed| listed.change.key() == key)
    }
}

/// The key that a record names, in its own spelling: `IM 5 A%2FB`.
fn key_of(record: &Placed) -> String {
    let head = look(record.bytes).head;
    let behind = |mark| head.strip_prefix(mark);
    let key = behind("CO ").or_else(|| behind("WD ")).unwrap_or(&head);
    key.to_string()
}

/// A count, with commas between its thousands.
fn count(number: usize) -> String {
    grouped(i64::try_from(number).unwrap_or(i64::MAX))
}
