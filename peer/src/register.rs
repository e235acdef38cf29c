//! The plain register: a list of accepted changes, and open or closed.
//!
//! "It is fed each call's arguments and lent length only." The list decides
//! everything; beside it stands, for each key, which entries of the list
//! touched it, so that a question or a taking back needn't play the list from
//! empty.

use crate::names::Name;
use crate::questions::{self, Guarantees, Place, Standing, UnitDay};
use crate::records::{parse_change, parse_for, Change, Key, Mark, Method, Record};
use crate::refusal::Refusal;
use crate::units::{Hour, Ticks};
use std::collections::BTreeMap;

/// Most listed changes: "512 listed" gives 13.
pub const LISTED_MOST: usize = 512;
/// Most lent bytes that count: "above 65,535 counted as 65,535".
pub const LENT_MOST: usize = 65_535;

/// An accepted change and where its written bytes stand.
#[derive(Clone, Debug, PartialEq, Eq)]
pub struct Listed {
    /// The change.
    pub change: Change,
    /// First byte of the change as written.
    pub start: u32,
    /// Count of its written bytes.
    pub length: u32,
}

/// "State: a list of accepted changes, and open or closed. Fresh: empty,
/// open."
#[derive(Clone, Debug, Default)]
pub struct Register {
    list: Vec<Listed>,
    closed: bool,
    used: usize,
    /// For each key the entries of the list that touched it, earliest first.
    touched: BTreeMap<Key, Vec<usize>>,
    counts: [[usize; Hour::COUNT]; Mark::ALL.len()],
}

impl Register {
    /// A fresh register.
    pub fn new() -> Register {
        Register::default()
    }

    /// The list of accepted changes.
    pub fn list(&self) -> &[Listed] {
        &self.list
    }

    /// Whether it is closed.
    pub fn is_closed(&self) -> bool {
        self.closed
    }

    /// "Used bytes are the sum of the written lengths of the listed records,
    /// `CO` and `WD` marks counted".
    pub fn used(&self) -> usize {
        self.used
    }

    /// The list as written.
    pub fn written(&self) -> Vec<u8> {
        self.list
            .iter()
            .flat_map(|listed| listed.change.written())
            .collect()
    }

    /// Any of the five changes, by its mark.
    pub fn change(&mut self, lent: usize, bytes: &[u8]) -> Result<(), Refusal> {
        self.take(lent, parse_change(bytes))
    }

    /// A call of one of the five methods.
    pub fn call(&mut self, method: Method, lent: usize, bytes: &[u8]) -> Result<(), Refusal> {
        self.take(lent, parse_for(method, bytes))
    }

    /// A change as it was read, or why it couldn't be: 16 comes before that.
    pub fn take(&mut self, lent: usize, read: Result<Change, Refusal>) -> Result<(), Refusal> {
        self.check_lent(lent)?;
        self.accept(lent, read?)
    }

    /// A change already read: 9, "then 10 or 11, 12, 13, 14"; else it is
    /// accepted.
    pub fn accept(&mut self, lent: usize, change: Change) -> Result<(), Refusal> {
        if self.closed {
            return Err(Refusal::Closed);
        }
        match change {
            Change::TakeBack => self.drop_last(),
            Change::Close => {
                self.closed = true;
                Ok(())
            }
            listed => {
                self.check_key(&listed)?;
                self.check_space(lent, &listed)?;
                self.join(listed);
                Ok(())
            }
        }
    }

    /// The question for the record of a key.
    pub fn record(
        &self,
        lent: usize,
        mark: &[u8],
        hour: u32,
        name: &[u8],
    ) -> Result<Place, Refusal> {
        self.check_lent(lent)?;
        let key = questions::key_argument(mark, hour, name)?;
        let (listed, record) = self.standing(&key).ok_or(Refusal::NoSuchKey)?;
        // Behind the `CO` mark if there is one.
        let length = record.written_len() as u32;
        Ok(Place {
            start: listed.start + listed.length - length,
            length,
        })
    }

    /// The question for the count of a mark and hour.
    pub fn count(&self, lent: usize, mark: &[u8], hour: u32) -> Result<u32, Refusal> {
        self.check_lent(lent)?;
        let mark = questions::mark_argument(mark)?;
        let hour = Hour::new(hour)?;
        Ok(self.counts[mark.place()][hour.place()] as u32)
    }

    /// The question for free bytes: "the lent length of the call (above 65,535
    /// counted as 65,535) less" the used bytes.
    pub fn free(&self, lent: usize) -> Result<u32, Refusal> {
        self.check_lent(lent)?;
        Ok((lent.min(LENT_MOST) - self.used) as u32)
    }

    /// The question for an hour's guarantees.
    pub fn guarantees(&self, lent: usize, hour: u32) -> Result<Guarantees, Refusal> {
        self.check_lent(lent)?;
        questions::guarantees(self, hour)
    }

    /// The question for a unit's day.
    pub fn unit_day(&self, lent: usize, name: &[u8]) -> Result<UnitDay, Refusal> {
        self.check_lent(lent)?;
        questions::unit_day(self, name)
    }

    /// The question for a failure charge.
    pub fn failure_charge(
        &self,
        lent: usize,
        mark: &[u8],
        hour: u32,
        name: &[u8],
    ) -> Result<Ticks, Refusal> {
        self.check_lent(lent)?;
        questions::failure_charge(self, mark, hour, name)
    }

    /// "16 exactly where less is lent than the used bytes".
    fn check_lent(&self, lent: usize) -> Result<(), Refusal> {
        if lent < self.used {
            return Err(Refusal::NotTogether);
        }
        Ok(())
    }

    /// 10 and 12 for filing, 11 for `CO` and `WD`. "`CO` never gives 12".
    fn check_key(&self, change: &Change) -> Result<(), Refusal> {
        match change {
            Change::File(record) => self.check_new_key(&record.key()),
            Change::Correct(record) => self.check_standing_key(&record.key()),
            Change::Withdraw(key) => self.check_standing_key(key),
            Change::TakeBack | Change::Close => Ok(()),
        }
    }

    fn check_new_key(&self, key: &Key) -> Result<(), Refusal> {
        if self.standing(key).is_some() {
            return Err(Refusal::KeyStands);
        }
        if self.counts[key.mark.place()][key.hour.place()] >= key.mark.hour_limit() {
            return Err(Refusal::HourFull);
        }
        Ok(())
    }

    fn check_standing_key(&self, key: &Key) -> Result<(), Refusal> {
        self.standing(key).map(|_| ()).ok_or(Refusal::NoSuchKey)
    }

    /// "free bytes short, or 512 listed": 13.
    fn check_space(&self, lent: usize, change: &Change) -> Result<(), Refusal> {
        let needed = self.used + change.written_len();
        if needed > lent.min(LENT_MOST) || self.list.len() >= LISTED_MOST {
            return Err(Refusal::NoSpace);
        }
        Ok(())
    }

    /// "each joins the list".
    fn join(&mut self, change: Change) {
        let entry = self.list.len();
        if let Some(key) = change.key() {
            self.touched.entry(key).or_default().push(entry);
            match change {
                Change::File(_) => *self.count_mut(&key) += 1,
                Change::Withdraw(_) => *self.count_mut(&key) -= 1,
                _ => {}
            }
        }
        let length = change.written_len();
        self.list.push(Listed {
            change,
            start: self.used as u32,
            length: length as u32,
        });
        self.used += length;
    }

    /// "`TB` drops the list's last entry."; 14 if there is none.
    fn drop_last(&mut self) -> Result<(), Refusal> {
        let dropped = self.list.pop().ok_or(Refusal::NothingToTakeBack)?;
        self.used -= dropped.length as usize;
        if let Some(key) = dropped.change.key() {
            self.untouch(&key);
            match dropped.change {
                Change::File(_) => *self.count_mut(&key) -= 1,
                Change::Withdraw(_) => *self.count_mut(&key) += 1,
                _ => {}
            }
        }
        Ok(())
    }

    fn untouch(&mut self, key: &Key) {
        if let Some(entries) = self.touched.get_mut(key) {
            entries.pop();
            if entries.is_empty() {
                self.touched.remove(key);
            }
        }
    }

    fn count_mut(&mut self, key: &Key) -> &mut usize {
        &mut self.counts[key.mark.place()][key.hour.place()]
    }

    /// The standing record of a key and the entry it came with: the last one
    /// that touched the key, unless that withdrew it.
    fn standing(&self, key: &Key) -> Option<(&Listed, &Record)> {
        let &entry = self.touched.get(key)?.last()?;
        let listed = &self.list[entry];
        match &listed.change {
            Change::File(record) | Change::Correct(record) => Some((listed, record)),
            _ => None,
        }
    }
}

impl Standing for Register {
    fn find(&self, key: &Key) -> Option<Record> {
        self.standing(key).map(|(_, record)| record.clone())
    }

    fn names(&self, mark: Mark, hour: Hour) -> Vec<Name> {
        let from = Key {
            mark,
            hour,
            name: None,
        };
        let keys = self.touched.range(from..).map(|(key, _)| key);
        keys.take_while(|key| (key.mark, key.hour) == (mark, hour))
            .filter(|key| self.standing(key).is_some())
            .filter_map(|key| key.name)
            .collect()
    }
}
