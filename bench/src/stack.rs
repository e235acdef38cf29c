//! How much stack a program takes, as the least limit with which it ends well.

use crate::programs::{run, Day};
use std::io;
use std::path::Path;
use std::process::Command;

/// Bytes by which a stack grows.
const PAGE: u64 = 4096;
/// More pages than a program needs.
const MOST: u64 = 2048;
/// Runs that have to end well: the system begins each stack at another place
/// within some pages.
const RUNS: usize = 6;

/// The least limit of the stack, in bytes, with which a program prints a day's
/// text; none where no limit is enough.
pub fn least_limit(program: &Path, day: &Day) -> io::Result<Option<u64>> {
    let (mut short, mut enough) = (0, MOST);
    if !ends_well(program, day, enough)? {
        return Ok(None);
    }
    while enough - short > 1 {
        let middle = (short + enough) / 2;
        match ends_well(program, day, middle)? {
            true => enough = middle,
            false => short = middle,
        }
    }
    Ok(Some(enough * PAGE))
}

/// Whether every run with so many pages of stack prints what it should. The
/// environment is empty, as it stands on the stack too.
fn ends_well(program: &Path, day: &Day, pages: u64) -> io::Result<bool> {
    for _ in 0..RUNS {
        let mut limited = Command::new("/bin/sh");
        limited
            .args(["-c", "ulimit -c 0 && ulimit -s \"$1\" && exec \"$0\""])
            .arg(program)
            .arg((pages * PAGE / 1024).to_string())
            .env_clear();
        let run = run(limited, day.path, day.reads)?;
        if !run.status.success() || run.stdout != day.text {
            return Ok(false);
        }
    }
    Ok(true)
}

#[cfg(test)]
mod tests {
    use super::*;
    use crate::programs::Reads;
    use std::fs;

    #[test]
    fn a_small_program_needs_little() {
        let path = Path::new(concat!(
            env!("CARGO_MANIFEST_DIR"),
            "/../samples/example.rec"
        ));
        let mut day = Day {
            path,
            reads: Reads::Full,
            text: fs::read(path).expect("a sample"),
        };
        let least = least_limit(Path::new("/bin/cat"), &day).expect("runs");
        assert!(least.is_some_and(|bytes| (PAGE..PAGE * 256).contains(&bytes)));
        day.text.clear();
        let never = least_limit(Path::new("/bin/cat"), &day).expect("runs");
        assert_eq!(never, None);
    }
}
