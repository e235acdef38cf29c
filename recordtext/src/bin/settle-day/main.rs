//! Settles days: one statement for each input, printed only where it is whole,
//! and an exit status that a script can go by.

mod day;
mod options;
mod program;
mod status;

use day::Day;
use options::{Options, Request};
use recordtext::standard;
use status::Status;
use std::fs::File;
use std::io::Write;
use std::process::ExitCode;

fn main() -> ExitCode {
    let status = match options::read(std::env::args_os().skip(1)) {
        Ok(Request::Settle(options)) => settle_days(&options),
        Ok(Request::Print(text)) => print(&text),
        Err(fault) => complain(&format!("{fault}\n{}", options::USAGE)),
    };
    ExitCode::from(status as u8)
}

/// Settles each day, and gives the worst of their statuses.
fn settle_days(options: &Options) -> Status {
    let mut output = match standard::output() {
        Ok(output) => output,
        Err(fault) => return complain(&format!("standard output: {fault}")),
    };
    let mut worst = Status::Settled;
    for day in &options.days {
        let status = match settle_day(day, options) {
            Err(fault) => complain(&format!("{day}: {fault}")),
            Ok(settled) => match write_statement(&mut output, day, options, &settled.statement) {
                Ok(()) => settled.told_of(day),
                // Nothing that follows could be written either.
                Err(fault) => return complain(&format!("{day}: standard output: {fault}")),
            },
        };
        worst = worst.max(status);
    }
    worst
}

/// A day that has its whole statement.
struct Settled {
    statement: Vec<u8>,
    /// Why a record is refused, if one is.
    why: String,
}

fn settle_day(day: &Day, options: &Options) -> Result<Settled, String> {
    let records = day.records(options.form)?;
    let statement = program::settle(&program::find(), &records)?;
    let why = match Status::of(&statement) {
        Status::Refused => reason(&records, &statement),
        _ => String::new(),
    };
    Ok(Settled { statement, why })
}

/// Why a record is refused; nothing where that is another refusal than the
/// statement's.
fn reason(records: &[u8], statement: &[u8]) -> String {
    match recordtext::check(records) {
        Err(refused) if format!("{}\n", refused.line()).as_bytes() == statement => {
            refused.to_string()
        }
        _ => String::new(),
    }
}

impl Settled {
    /// Says why a record is refused, and gives the status.
    fn told_of(&self, day: &Day) -> Status {
        for line in self.why.lines() {
            say(&format!("{day}: {line}"));
        }
        Status::of(&self.statement)
    }
}

/// Writes a statement, below the name of its day where there are several.
fn write_statement(
    output: &mut File,
    day: &Day,
    options: &Options,
    statement: &[u8],
) -> std::io::Result<()> {
    let mut lines = Vec::new();
    if options.days.len() > 1 {
        lines.extend(format!("==> {day} <==\n").into_bytes());
    }
    lines.extend(statement);
    output.write_all(&lines)
}

fn print(text: &str) -> Status {
    match standard::output().and_then(|mut output| output.write_all(text.as_bytes())) {
        Ok(()) => Status::Settled,
        Err(fault) => complain(&format!("standard output: {fault}")),
    }
}

/// Says what went wrong.
fn complain(message: &str) -> Status {
    say(message);
    Status::Trouble
}

/// A line on standard error. Where it can't be written, the status has to do.
fn say(message: &str) {
    let _ = writeln!(std::io::stderr(), "settle-day: {message}");
}
