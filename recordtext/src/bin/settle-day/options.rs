//! What the command line asks for.

use crate::day::Day;
use recordtext::Form;
use std::ffi::OsString;

pub const USAGE: &str = "usage: settle-day [--records | --text] [FILE...]
       settle-day --help | --version";

const HELP: &str = "
Prints the statement of each day, if it is whole. A day is a file of records or
of text; without FILE, or for -, it is standard input.

  --records  take every input as records
  --text     take every input as text
  --         what follows are files

Exit status, the greatest of all days:
  0  settled
  1  a record is refused (REF)
  2  a price is missing (ERR)
  3  there is no whole statement: see standard error
";

/// What to do.
#[derive(Debug, PartialEq, Eq)]
pub enum Request {
    /// Settle days.
    Settle(Options),
    /// Print a text.
    Print(String),
}

/// Which days, and in which form if that is said.
#[derive(Debug, PartialEq, Eq)]
pub struct Options {
    pub form: Option<Form>,
    pub days: Vec<Day>,
}

/// Reads the words of a command line.
pub fn read(words: impl Iterator<Item = OsString>) -> Result<Request, String> {
    let mut options = Options {
        form: None,
        days: Vec::new(),
    };
    let mut only_files = false;
    for word in words {
        match word.to_str() {
            Some("--") if !only_files => only_files = true,
            Some("--help") if !only_files => return Ok(Request::Print(format!("{USAGE}\n{HELP}"))),
            Some("--version") if !only_files => return Ok(Request::Print(version())),
            Some("--records") if !only_files => options.set_form(Form::Records)?,
            Some("--text") if !only_files => options.set_form(Form::Text)?,
            Some("-") if !only_files => options.add_standard_input()?,
            Some(option) if !only_files && option.starts_with('-') => {
                return Err(format!("there is no option {option}"));
            }
            _ => options.days.push(Day::File(word.into())),
        }
    }
    if options.days.is_empty() {
        options.add_standard_input()?;
    }
    Ok(Request::Settle(options))
}

impl Options {
    fn set_form(&mut self, form: Form) -> Result<(), String> {
        match self.form.replace(form) {
            Some(other) if other != form => Err("--records and --text exclude each other".into()),
            _ => Ok(()),
        }
    }

    /// Once: a second reading would find its end, which looks like an empty day.
    fn add_standard_input(&mut self) -> Result<(), String> {
        if self.days.contains(&Day::StandardInput) {
            return Err("standard input can be read only once".into());
        }
        self.days.push(Day::StandardInput);
        Ok(())
    }
}

fn version() -> String {
    format!("settle-day {}\n", env!("CARGO_PKG_VERSION"))
}

#[cfg(test)]
mod tests {
    use super::*;

    fn asked(words: &[&str]) -> Result<Request, String> {
        read(words.iter().map(OsString::from))
    }

    fn settle(form: Option<Form>, days: &[Day]) -> Result<Request, String> {
        let days = days.to_vec();
        Ok(Request::Settle(Options { form, days }))
    }

    fn file(name: &str) -> Day {
        Day::File(name.into())
    }

    #[test]
    fn days_are_files_or_standard_input() {
        assert_eq!(asked(&[]), settle(None, &[Day::StandardInput]));
        assert_eq!(asked(&["-"]), settle(None, &[Day::StandardInput]));
        assert_eq!(asked(&["--"]), settle(None, &[Day::StandardInput]));
        assert_eq!(
            asked(&["a", "-", "b"]),
            settle(None, &[file("a"), Day::StandardInput, file("b")])
        );
        assert_eq!(
            asked(&["--", "-", "--text"]),
            settle(None, &[file("-"), file("--text")])
        );
        assert!(asked(&["-", "a", "-"]).is_err());
    }

    #[test]
    fn forms_and_other_options() {
        assert_eq!(
            asked(&["--text", "a", "--text"]),
            settle(Some(Form::Text), &[file("a")])
        );
        assert_eq!(
            asked(&["a", "--records"]),
            settle(Some(Form::Records), &[file("a")])
        );
        assert!(asked(&["--text", "--records"]).is_err());
        assert!(asked(&["-x"]).is_err());
        assert!(asked(&["--texts"]).is_err());
        assert!(matches!(asked(&["--help"]), Ok(Request::Print(_))));
        assert!(matches!(asked(&["--version"]), Ok(Request::Print(_))));
    }
}
