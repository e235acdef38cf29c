//! A run of the differential test.

use crate::bridge::Layers;
use crate::call::{List, Part};
use crate::compare::{self, Mismatch};
use crate::generate::Lists;
use crate::options::Options;
use crate::report::{self, Origin};
use crate::shrink::shrink;
use crate::tally::Tally;
use std::time::{Duration, Instant};

/// Mismatches that are cut down and printed; later ones are counted only.
const PRINTED: u64 = 5;
/// How often each number that can occur must at least occur in the gate's
/// run.
const OFTEN: u64 = 1000;

/// What a run found.
#[derive(Clone, Debug, Default)]
pub struct Outcome {
    /// How often each number occurred.
    pub tally: Tally,
    /// Lists with a mismatch.
    pub mismatches: u64,
    /// The mismatches in words.
    pub reports: Vec<String>,
}

/// Runs what the options ask for; each mismatch is also handed to `tell` when
/// it is found.
pub fn run(options: &Options, layers: Layers, mut tell: impl FnMut(&str)) -> Outcome {
    let mut outcome = Outcome::default();
    for &part in &options.parts {
        match options.list {
            Some(ordinal) => {
                let list = Lists::at(part, options.seed, ordinal);
                let origin = origin(options, part, ordinal);
                one_list(options, layers, origin, &list, &mut outcome, &mut tell);
            }
            None => one_part(options, layers, part, &mut outcome, &mut tell),
        }
    }
    outcome
}

fn origin(options: &Options, part: Part, ordinal: u64) -> Origin {
    Origin {
        seed: options.seed,
        part,
        ordinal,
    }
}

/// List after list until the part's calls are made or its time is over.
fn one_part(
    options: &Options,
    layers: Layers,
    part: Part,
    outcome: &mut Outcome,
    tell: &mut impl FnMut(&str),
) {
    let calls = options.calls_of(part);
    let shares = options.parts.len() as u64;
    let time = options
        .seconds
        .map(|all| Duration::from_millis(all * 1000 / shares));
    let begun = Instant::now();
    let before = outcome.tally.compared() + outcome.tally.skipped();
    let mut lists = Lists::new(part, options.seed);
    let mut ordinal = 0;
    while outcome.tally.compared() + outcome.tally.skipped() - before < calls
        && time.is_none_or(|time| begun.elapsed() < time)
        && outcome.mismatches < 1000
    {
        let list = lists.next_list();
        let origin = origin(options, part, ordinal);
        one_list(options, layers, origin, &list, outcome, tell);
        ordinal += 1;
    }
}

fn one_list(
    options: &Options,
    layers: Layers,
    origin: Origin,
    list: &List,
    outcome: &mut Outcome,
    tell: &mut impl FnMut(&str),
) {
    if options.trace {
        tell(&format!("bench {}", origin.options()));
    }
    let compared = compare::run_telling(list, layers, &mut outcome.tally, |call| {
        // A call that never comes back is the last one told.
        if options.trace {
            tell(&report::call(call));
        }
    });
    if let Err(mismatch) = compared {
        outcome.mismatches += 1;
        if outcome.mismatches <= PRINTED {
            let report = cut_down(options.shrinking, layers, origin, list, &mismatch);
            tell(&report);
            outcome.reports.push(report);
        }
    }
}

/// The mismatch in words, with the shortest list that still shows it.
fn cut_down(
    time: Duration,
    layers: Layers,
    origin: Origin,
    list: &List,
    found: &Mismatch,
) -> String {
    let again = |list: &List| compare::run(list, layers, &mut Tally::default()).err();
    let mut upto = list.clone();
    upto.calls.truncate(found.at + 1);
    let shortest = shrink(upto, time, |list| {
        again(list).is_some_and(|mismatch| mismatch.is_like(found))
    });
    match again(&shortest) {
        Some(remaining) => report::mismatch(origin, list, found, &shortest, &remaining),
        None => report::mismatch(origin, list, found, list, found),
    }
}

/// What an outcome lacks: calls that a missing layer didn't answer, numbers
/// that can occur and didn't, or not often enough, and numbers that can't occur
/// and did. The second is whether this is a failure.
pub fn shortcomings(options: &Options, layers: Layers, outcome: &Outcome) -> (Vec<String>, bool) {
    let impossible = outcome.tally.impossible();
    let mut lines: Vec<String> = impossible
        .iter()
        .map(|(kind, number, count)| {
            format!(
                "{}: {number} can't occur, yet did {count} times",
                kind.words()
            )
        })
        .collect();
    let skipped = outcome.tally.skipped();
    let is_partial = skipped > 0 || outcome.tally.compared() == 0;
    if is_partial {
        lines.push(format!(
            "{} calls compared and {skipped} skipped, because a layer is missing: this compares nothing or a part",
            outcome.tally.compared()
        ));
    }
    let is_gate = options.is_gate_or_longer();
    let least = if is_gate { OFTEN } else { 1 };
    let rare = outcome.tally.below(least, &options.parts, layers);
    if options.list.is_none() {
        lines.extend(rare.iter().map(|(kind, number, count)| {
            format!(
                "{}: {number} occurred {count} times, less than {least}",
                kind.words()
            )
        }));
    }
    let fails = is_partial || !impossible.is_empty() || is_gate && !rare.is_empty();
    (lines, fails)
}
