//! The options of the differential test.

use crate::call::Part;
use std::time::Duration;

/// Calls of the gate's fixed run, by part.
pub const fn gate_calls(part: Part) -> u64 {
    match part {
        Part::Money => 500_000,
        Part::Records => 2_000_000,
        Part::Books => 800_000,
        Part::Days => 86_000,
    }
}

/// How to use the program.
pub const USAGE: &str = "\
usage: bench [--seed N] [--calls N] [--seconds N] [--list N] [--trace]
             [--only money|records|books|days]

  --seed N     another seed than 1
  --calls N    about so many calls instead of the gate's fixed number
  --seconds N  stop after so many seconds; without --calls nothing else stops it
  --only PART  one part alone
  --list N     one list of one part alone, to see a mismatch again
  --trace      print each call before it is made";

/// What the command line asks for.
#[derive(Clone, Debug, PartialEq, Eq)]
pub struct Options {
    /// The seed.
    pub seed: u64,
    /// Calls in all, if they aren't the gate's.
    pub calls: Option<u64>,
    /// Seconds in all.
    pub seconds: Option<u64>,
    /// The parts to run.
    pub parts: Vec<Part>,
    /// One list alone.
    pub list: Option<u64>,
    /// Print each call first.
    pub trace: bool,
    /// How long one mismatch may take to cut down.
    pub shrinking: Duration,
}

impl Default for Options {
    fn default() -> Options {
        Options {
            seed: 1,
            calls: None,
            seconds: None,
            parts: Part::ALL.to_vec(),
            list: None,
            trace: false,
            shrinking: Duration::from_secs(30),
        }
    }
}

impl Options {
    /// The options of a command line without the program's name.
    pub fn read(arguments: impl IntoIterator<Item = String>) -> Result<Options, String> {
        let mut options = Options::default();
        let mut arguments = arguments.into_iter();
        while let Some(option) = arguments.next() {
            if option == "--trace" {
                options.trace = true;
                continue;
            }
            let value = arguments.next();
            let value = value.ok_or_else(|| format!("{option} needs a value"))?;
            match option.as_str() {
                "--seed" => options.seed = number(&option, &value)?,
                "--calls" => options.calls = Some(number(&option, &value)?),
                "--seconds" => options.seconds = Some(number(&option, &value)?),
                "--only" => options.parts = vec![part(&value)?],
                "--list" => options.list = Some(number(&option, &value)?),
                _ => return Err(format!("{option} is no option")),
            }
        }
        if options.list.is_some() && options.parts.len() != 1 {
            return Err("--list needs --only".to_string());
        }
        Ok(options)
    }

    /// The calls of one part: the gate's, or its share of those asked for.
    pub fn calls_of(&self, part: Part) -> u64 {
        match (self.calls, self.seconds) {
            (None, None) => gate_calls(part),
            (None, Some(_)) => u64::MAX,
            (Some(calls), _) => {
                let all: u64 = self.parts.iter().map(|&part| gate_calls(part)).sum();
                let share = u128::from(calls) * u128::from(gate_calls(part)) / u128::from(all);
                share as u64
            }
        }
    }

    /// Whether a part runs at least as long as in the gate, so that every
    /// number must occur often.
    pub fn is_gate_or_longer(&self) -> bool {
        let is_whole = |part: &Part| self.calls_of(*part) >= gate_calls(*part);
        self.list.is_none() && self.seconds.is_none() && self.parts.iter().all(is_whole)
    }
}

fn number(option: &str, value: &str) -> Result<u64, String> {
    let number = value.parse();
    number.map_err(|_| format!("{option} needs a number, not {value}"))
}

fn part(word: &str) -> Result<Part, String> {
    let found = Part::ALL.into_iter().find(|part| part.word() == word);
    found.ok_or_else(|| format!("--only needs money, records, books or days, not {word}"))
}

#[cfg(test)]
mod tests {
    use super::*;

    fn read(line: &str) -> Result<Options, String> {
        Options::read(line.split_whitespace().map(str::to_string))
    }

    #[test]
    fn the_default_is_the_gates_run() {
        let options = read("").unwrap();
        assert_eq!(options, Options::default());
        assert!(options.is_gate_or_longer());
        assert_eq!(options.calls_of(Part::Books), gate_calls(Part::Books));
    }

    #[test]
    fn calls_are_shared_among_the_parts() {
        let options = read("--calls 10000000 --seed 7").unwrap();
        let sum: u64 = Part::ALL
            .into_iter()
            .map(|part| options.calls_of(part))
            .sum();
        assert!((9_999_996..=10_000_000).contains(&sum));
        assert_eq!(options.seed, 7);
        assert!(options.is_gate_or_longer());
        let one = read("--calls 500 --only money").unwrap();
        assert_eq!(one.calls_of(Part::Money), 500);
        assert!(!one.is_gate_or_longer());
        assert!(!read("--seconds 5").unwrap().is_gate_or_longer());
    }

    #[test]
    fn bad_options_are_named() {
        for line in ["--seed", "--seed x", "--only all", "--fast 1", "--list 3"] {
            assert!(read(line).is_err(), "{line}");
        }
    }
}
