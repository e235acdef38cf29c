//! How often each number occurred for each kind of call.

use crate::bridge::Layers;
use crate::call::{Kind, Part};
use std::fmt;

/// The numbers 0 to 16.
const NUMBERS: usize = 17;

/// Counts by kind and number, and skipped calls.
#[derive(Clone, Debug, PartialEq, Eq)]
pub struct Tally {
    counts: [[u64; NUMBERS]; Kind::COUNT],
    /// Numbers above 16, which no call may bring back.
    unknown: u64,
    skipped: [u64; Kind::COUNT],
}

impl Default for Tally {
    fn default() -> Tally {
        Tally {
            counts: [[0; NUMBERS]; Kind::COUNT],
            unknown: 0,
            skipped: [0; Kind::COUNT],
        }
    }
}

impl Tally {
    /// Counts an agreed answer.
    pub fn note(&mut self, kind: Kind, number: u32) {
        match self.counts[kind.place()].get_mut(number as usize) {
            Some(count) => *count += 1,
            None => self.unknown += 1,
        }
    }

    /// Counts a call that a missing layer can't answer.
    pub fn skip(&mut self, kind: Kind) {
        self.skipped[kind.place()] += 1;
    }

    /// Agreed answers.
    pub fn compared(&self) -> u64 {
        self.counts.iter().flatten().sum::<u64>() + self.unknown
    }

    /// Skipped calls.
    pub fn skipped(&self) -> u64 {
        self.skipped.iter().sum()
    }

    /// How often a number occurred for a kind.
    pub fn count(&self, kind: Kind, number: u32) -> u64 {
        self.counts[kind.place()][number as usize]
    }

    /// How often a number occurred for all kinds together.
    pub fn total(&self, number: u32) -> u64 {
        self.counts
            .iter()
            .map(|numbers| numbers[number as usize])
            .sum()
    }

    /// The numbers that can occur, in these parts and layers, and occurred
    /// less than so often.
    pub fn below(&self, least: u64, parts: &[Part], layers: Layers) -> Vec<(Kind, u32, u64)> {
        let kinds = Kind::all().into_iter();
        kinds
            .filter(|kind| parts.contains(&kind.part()) && layers.has(kind.layer()))
            .flat_map(|kind| kind.numbers().iter().map(move |&number| (kind, number)))
            .map(|(kind, number)| (kind, number, self.count(kind, number)))
            .filter(|&(_, _, count)| count < least)
            .collect()
    }

    /// The numbers that occurred though they can't.
    pub fn impossible(&self) -> Vec<(Kind, u32, u64)> {
        let kinds = Kind::all().into_iter();
        kinds
            .flat_map(|kind| (0..NUMBERS as u32).map(move |number| (kind, number)))
            .filter(|(kind, number)| !kind.numbers().contains(number))
            .map(|(kind, number)| (kind, number, self.count(kind, number)))
            .filter(|&(_, _, count)| count > 0)
            .collect()
    }
}

/// A table: a line for each kind, a column for each number.
impl fmt::Display for Tally {
    fn fmt(&self, out: &mut fmt::Formatter<'_>) -> fmt::Result {
        write!(out, "{:<19}", "kind of call")?;
        for number in 0..NUMBERS {
            write!(out, "{number:>8}")?;
        }
        writeln!(out, "{:>9}", "skipped")?;
        for kind in Kind::all() {
            self.line(kind, out)?;
        }
        write!(out, "{:<19}", "all kinds")?;
        for number in 0..NUMBERS as u32 {
            write!(out, "{:>8}", self.total(number))?;
        }
        writeln!(out, "{:>9}", self.skipped())
    }
}

impl Tally {
    fn line(&self, kind: Kind, out: &mut fmt::Formatter<'_>) -> fmt::Result {
        write!(out, "{:<19}", kind.words())?;
        for number in 0..NUMBERS as u32 {
            match self.count(kind, number) {
                0 if !kind.numbers().contains(&number) => write!(out, "{:>8}", ".")?,
                count => write!(out, "{count:>8}")?,
            }
        }
        writeln!(out, "{:>9}", self.skipped[kind.place()])
    }
}

#[cfg(test)]
mod tests {
    use super::*;

    #[test]
    fn what_did_not_occur_is_named() {
        let mut tally = Tally::default();
        tally.note(Kind::Free, 0);
        let all = Layers(0x3F);
        let missing = tally.below(1, &[Part::Books], all);
        assert!(missing.contains(&(Kind::Free, 16, 0)));
        assert!(!missing.contains(&(Kind::Free, 0, 1)));
        assert!(missing
            .iter()
            .all(|(kind, _, _)| kind.part() == Part::Books));
        assert_eq!(tally.below(1, &[Part::Books], Layers(0)), []);
        tally.note(Kind::Free, 14);
        assert_eq!(tally.impossible(), [(Kind::Free, 14, 1)]);
        assert_eq!(tally.compared(), 2);
    }
}
