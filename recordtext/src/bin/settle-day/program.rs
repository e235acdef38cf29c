//! The proved program: where it is, and what it prints.

use crate::status::Status;
use std::env;
use std::io::{self, Write};
use std::path::{Path, PathBuf};
use std::process::{Child, ChildStdin, Command, Output, Stdio};
use std::thread;

const NAME: &str = "settle";
const VARIABLE: &str = "PEWATUNO_SETTLE";

/// The program that the environment names, else the one beside this program,
/// else the one on the PATH.
pub fn find() -> PathBuf {
    if let Some(named) = env::var_os(VARIABLE).filter(|named| !named.is_empty()) {
        return named.into();
    }
    let here = env::current_exe().ok();
    let beside = here.map(|program| program.with_file_name(NAME));
    match beside.filter(|program| program.is_file()) {
        Some(program) => program,
        None => NAME.into(),
    }
}

/// The whole statement of some records.
pub fn settle(program: &Path, records: &[u8]) -> Result<Vec<u8>, String> {
    let child = Command::new(program)
        .stdin(Stdio::piped())
        .stdout(Stdio::piped())
        .stderr(Stdio::piped())
        .spawn();
    let child = child.map_err(|fault| not_started(program, &fault))?;
    let (took_all, output) = run(child, records).map_err(|fault| format!("{NAME}: {fault}"))?;
    whole(output, took_all)
}

fn not_started(program: &Path, fault: &io::Error) -> String {
    let place = program.display();
    format!("{place} can't be started: {fault}; {VARIABLE} can name the program {NAME}")
}

/// Writes the records to the program while its output is read, so that neither
/// waits for the other; with whether it took all of them.
fn run(mut child: Child, records: &[u8]) -> io::Result<(bool, Output)> {
    let input = child.stdin.take();
    thread::scope(|scope| {
        let writer = scope.spawn(move || input.map_or(Ok(false), |input| give(input, records)));
        let output = child.wait_with_output()?;
        let took_all = writer.join().map_err(|_| io::Error::other("panic"))??;
        Ok((took_all, output))
    })
}

/// Whether the program took all records: it stops where it refuses one.
fn give(mut input: ChildStdin, records: &[u8]) -> io::Result<bool> {
    match input.write_all(records) {
        Ok(()) => Ok(true),
        Err(fault) if fault.kind() == io::ErrorKind::BrokenPipe => Ok(false),
        Err(fault) => Err(fault),
    }
}

/// The statement, if it is one of the whole day.
fn whole(output: Output, took_all: bool) -> Result<Vec<u8>, String> {
    let said = String::from_utf8_lossy(&output.stderr);
    let said = said.trim_end();
    let statement = output.stdout;
    let status = Status::of(&statement);
    if !output.status.success() {
        let ended = output.status;
        Err(format!("{NAME} ended with {ended}, and said: '{said}'"))
    } else if !output.stderr.is_empty() {
        Err(format!("{NAME} said: '{said}'"))
    } else if statement.last().is_some_and(|&byte| byte != b'\n') {
        Err(format!("the output of {NAME} ends within a line"))
    } else if !took_all && status != Status::Refused {
        Err(format!("{NAME} did not read the whole day"))
    } else if status == Status::Trouble {
        Err(format!(
            "the output of {NAME} is no whole statement: neither REF alone, nor a day's lines and \
             their total (TOT) at the end"
        ))
    } else {
        Ok(statement)
    }
}
