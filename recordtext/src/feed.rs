//! Records back to back, each with its place.

use crate::refused::Refused;
use peer::records::{parse_change_prefix, Change};

/// A record that can be read.
pub struct Placed<'a> {
    /// Which record, counted from 1.
    pub ordinal: usize,
    /// Its first byte, counted from 0.
    pub start: usize,
    /// Its bytes.
    pub bytes: &'a [u8],
    /// What it says.
    pub change: Change,
}

/// The records of some bytes in turn, up to the first that can't be read.
pub fn placed(bytes: &[u8]) -> impl Iterator<Item = Result<Placed<'_>, Refused>> {
    let mut start = 0;
    let mut ordinal = 0;
    std::iter::from_fn(move || {
        if start == bytes.len() {
            return None;
        }
        let rest = &bytes[start..];
        ordinal += 1;
        let first = start;
        Some(match parse_change_prefix(rest) {
            Ok((change, length)) => {
                start += length;
                Ok(Placed {
                    ordinal,
                    start: first,
                    bytes: &rest[..length],
                    change,
                })
            }
            Err(refusal) => {
                start = bytes.len();
                Err(Refused::unread(ordinal, first, rest, refusal))
            }
        })
    })
}
