//! A day's input: where it is read, and its records.

use recordtext::{form_of, make, standard, starts_with_a_mark, Form};
use std::fmt;
use std::fs::File;
use std::io::{self, Read};
use std::path::PathBuf;

/// Where a day is read.
#[derive(Clone, Debug, PartialEq, Eq)]
pub enum Day {
    StandardInput,
    File(PathBuf),
}

impl Day {
    /// The day's records, made from its text where it is text.
    pub fn records(&self, form: Option<Form>) -> Result<Vec<u8>, String> {
        let input = self.read().map_err(|fault| fault.to_string())?;
        let form = match form {
            Some(form) => form,
            None => told_form(&input)?,
        };
        match form {
            Form::Records => Ok(input),
            Form::Text => make(&input).map_err(|bad| bad.to_string()),
        }
    }

    fn read(&self) -> io::Result<Vec<u8>> {
        let mut file = match self {
            Day::StandardInput => standard::input()?,
            Day::File(path) => File::open(path)?,
        };
        let mut bytes = Vec::new();
        file.read_to_end(&mut bytes)?;
        Ok(bytes)
    }
}

/// The form of an input about which nothing is said.
fn told_form(input: &[u8]) -> Result<Form, String> {
    match form_of(input) {
        Form::Records if !input.is_empty() && !starts_with_a_mark(input) => {
            Err("neither records, which begin with a mark, nor text".into())
        }
        form => Ok(form),
    }
}

/// The name in headings and messages, on one line whatever the file is called.
impl fmt::Display for Day {
    fn fmt(&self, out: &mut fmt::Formatter<'_>) -> fmt::Result {
        match self {
            Day::StandardInput => out.write_str("standard input"),
            Day::File(path) => {
                let name = path.to_string_lossy();
                out.write_str(&name.replace(char::is_control, "?"))
            }
        }
    }
}
