//! Two programs on the same day: the proved one and the peer's.

use crate::callgrind;
use crate::one_byte;
use crate::timing::Times;
use std::fs::{self, File};
use std::io;
use std::path::{Path, PathBuf};
use std::process::{Command, Output};
use std::time::Instant;

/// The two programs for a text of a day.
pub struct Programs {
    /// What they are called.
    pub name: &'static str,
    /// The proved one.
    pub proved: PathBuf,
    /// The peer's.
    pub peer: PathBuf,
}

/// How much a read of the input brings.
#[derive(Clone, Copy, Debug, PartialEq, Eq)]
pub enum Reads {
    /// As much as it asks for, from a file.
    Full,
    /// One byte.
    OneByte,
}

/// A day, how it is read, and what has to be printed of it.
pub struct Day<'a> {
    /// The file of its records.
    pub path: &'a Path,
    /// How it is read.
    pub reads: Reads,
    /// The text.
    pub text: Vec<u8>,
}

impl Programs {
    /// A day on which the programs agree.
    pub fn day<'a>(&self, path: &'a Path, reads: Reads) -> io::Result<Day<'a>> {
        let text = run(Command::new(&self.peer), path, Reads::Full)?.stdout;
        let day = Day { path, reads, text };
        day.printed(&self.proved, Command::new(&self.proved))?;
        Ok(day)
    }

    /// The instructions of both, from the start of the process to its end.
    pub fn instructions(&self, day: &Day) -> io::Result<[u64; 2]> {
        let count = |program| {
            let run = day.printed(program, callgrind::whole(program))?;
            callgrind::collected(&run.stderr)
                .ok_or_else(|| failed(program, "was not counted by callgrind"))
        };
        Ok([count(&self.proved)?, count(&self.peer)?])
    }

    /// The shortest of some runs of each, taken in turn, so that what else the
    /// machine does falls on both.
    pub fn times(&self, day: &Day, runs: usize) -> io::Result<Times> {
        let time = |program| {
            let begun = Instant::now();
            day.printed(program, Command::new(program))?;
            Ok::<f64, io::Error>(begun.elapsed().as_nanos() as f64)
        };
        let (mut proved, mut peer) = (f64::INFINITY, f64::INFINITY);
        for _ in 0..runs {
            proved = proved.min(time(&self.proved)?);
            peer = peer.min(time(&self.peer)?);
        }
        Ok(Times { proved, peer })
    }
}

impl Day<'_> {
    /// A run of a program that prints the day's text, and nothing else.
    fn printed(&self, program: &Path, command: Command) -> io::Result<Output> {
        let run = run(command, self.path, self.reads)?;
        match run.status.success() && run.stdout == self.text {
            true => Ok(run),
            false => Err(failed(
                program,
                &format!("prints another text of {}", self.path.display()),
            )),
        }
    }
}

/// Runs a program on the records of a file.
pub fn run(mut command: Command, path: &Path, reads: Reads) -> io::Result<Output> {
    match reads {
        Reads::Full => command.stdin(File::open(path)?).output(),
        Reads::OneByte => one_byte::run(command, &fs::read(path)?),
    }
}

fn failed(program: &Path, what: &str) -> io::Error {
    io::Error::other(format!("{} {what}", program.display()))
}
