//! A record that is refused: which, by which rule, and why.

use crate::numbers;
use crate::why::look;
use peer::refusal::Refusal;
use std::fmt;

/// The first record that is refused.
#[derive(Clone, Debug, PartialEq, Eq)]
pub struct Refused {
    /// Which record, counted from 1.
    pub ordinal: usize,
    /// Its first byte, counted from 0.
    pub start: usize,
    /// Its marks, hour and name, as far as they can be read.
    pub head: String,
    /// The rule.
    pub refusal: Refusal,
    /// What breaks it: the field and its value, or the earlier record.
    pub why: String,
    /// The first byte of a field that breaks it, counted from 0.
    pub at: Option<usize>,
}

impl Refused {
    /// A record that can't be read. Bytes behind it may follow.
    pub(crate) fn unread(ordinal: usize, start: usize, bytes: &[u8], refusal: Refusal) -> Refused {
        let look = look(bytes);
        let (refusal, why, at) = look.fault.map_or_else(
            || (refusal, numbers::words(refusal).to_string(), None),
            |fault| (fault.refusal, fault.why, Some(start + fault.at)),
        );
        Refused {
            ordinal,
            start,
            head: look.head,
            refusal,
            why,
            at,
        }
    }

    /// The line that `settle` prints.
    pub fn line(&self) -> String {
        format!("REF {} {}", self.ordinal, self.refusal)
    }
}

/// Two lines: the record with its rule, and why.
impl fmt::Display for Refused {
    fn fmt(&self, out: &mut fmt::Formatter<'_>) -> fmt::Result {
        write!(out, "record {}, ", self.ordinal)?;
        if !self.head.is_empty() {
            write!(out, "{}, ", self.head)?;
        }
        let told = numbers::told(self.refusal);
        writeln!(out, "at byte {}, is refused with {told}", self.start)?;
        match self.at {
            Some(at) => write!(out, "{} (byte {at})", self.why),
            None => write!(out, "{}", self.why),
        }
    }
}
