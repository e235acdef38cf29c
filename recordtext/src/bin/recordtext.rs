//! Turns records into text that people can read and compare, and back, and
//! says why a record is refused.

use recordtext::{check, form_of, make, numbers, show, standard, Form, Style};
use std::io::{self, Read, Write};
use std::process::ExitCode;

const USAGE: &str = "usage: recordtext show [-n] [-u] < records > text
       recordtext make < text > records
       recordtext check < records
       recordtext numbers
";

/// Exit status of bad usage.
const MISUSED: u8 = 2;
/// Exit status of input that can't be read and output that can't be written.
const TROUBLE: u8 = 3;

/// What is said below a refusal where the input is no records at all.
const TEXT_HINT: &str = "the input looks like text; 'recordtext make' turns it into records";

fn main() -> ExitCode {
    let words: Vec<String> = std::env::args().skip(1).collect();
    let words: Vec<&str> = words.iter().map(String::as_str).collect();
    let done = match words[..] {
        ["show", ref options @ ..] => match style_of(options) {
            Some(style) => show_input(style),
            None => return misused(),
        },
        ["make"] => make_input(),
        ["check"] => check_input(),
        ["numbers"] => output(numbers::list().as_bytes()).map(|()| ExitCode::SUCCESS),
        ["-h" | "--help"] => output(USAGE.as_bytes()).map(|()| ExitCode::SUCCESS),
        _ => return misused(),
    };
    done.unwrap_or_else(|trouble| {
        eprintln!("recordtext: {trouble}");
        ExitCode::from(TROUBLE)
    })
}

/// The options of `show`; none where one is unknown.
fn style_of(options: &[&str]) -> Option<Style> {
    let mut style = Style::default();
    for option in options {
        for letter in option
            .strip_prefix('-')
            .filter(|set| !set.is_empty())?
            .chars()
        {
            match letter {
                'n' => style.headings = true,
                'u' => style.units = true,
                _ => return None,
            }
        }
    }
    Some(style)
}

fn show_input(style: Style) -> io::Result<ExitCode> {
    let records = input()?;
    let shown = show(&records, style);
    output(shown.text.as_bytes())?;
    Ok(match shown.refused {
        None => ExitCode::SUCCESS,
        Some(refused) => failed(&format!("{refused}\n{}", hint(&records))),
    })
}

fn make_input() -> io::Result<ExitCode> {
    match make(input()?) {
        Ok(bytes) => output(&bytes).map(|()| ExitCode::SUCCESS),
        Err(bad) => Ok(failed(&bad.to_string())),
    }
}

fn check_input() -> io::Result<ExitCode> {
    let records = input()?;
    match check(&records) {
        Ok(taken) => output(format!("{taken}\n").as_bytes()).map(|()| ExitCode::SUCCESS),
        Err(refused) => {
            let line = refused.line();
            let said = format!("{line}\n{refused}\n{}", hint(&records));
            output(said.as_bytes()).map(|()| ExitCode::FAILURE)
        }
    }
}

/// A line for input that is text where records are read; else nothing.
fn hint(records: &[u8]) -> String {
    match form_of(records) {
        Form::Text => format!("{TEXT_HINT}\n"),
        Form::Records => String::new(),
    }
}

fn misused() -> ExitCode {
    eprint!("{USAGE}");
    ExitCode::from(MISUSED)
}

/// Each line of a message on standard error.
fn failed(message: &str) -> ExitCode {
    for line in message.lines() {
        eprintln!("recordtext: {line}");
    }
    ExitCode::FAILURE
}

/// Standard input to its end.
fn input() -> io::Result<Vec<u8>> {
    let mut bytes = Vec::new();
    let read = standard::input().and_then(|mut input| input.read_to_end(&mut bytes));
    read.map_err(|fault| told(&fault, "the input can't be read"))?;
    Ok(bytes)
}

/// Writes; a reader that wants no more, as `head`, is no trouble.
fn output(bytes: &[u8]) -> io::Result<()> {
    match standard::output().and_then(|mut output| output.write_all(bytes)) {
        Err(fault) if fault.kind() == io::ErrorKind::BrokenPipe => Ok(()),
        written => written.map_err(|fault| told(&fault, "the output can't be written")),
    }
}

/// A fault, and what couldn't be done.
fn told(fault: &io::Error, what: &str) -> io::Error {
    io::Error::new(fault.kind(), format!("{what}: {fault}"))
}
