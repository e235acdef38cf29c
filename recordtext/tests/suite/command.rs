//! The command itself: options, what it prints where, and how it ends.

use crate::support::*;
use std::fs::{self, File};
use std::io::Write;
use std::process::{Command, Output, Stdio};

const RECORDTEXT: &str = env!("CARGO_BIN_EXE_recordtext");

/// Runs it with these words and this input.
fn run(words: &[&str], input: &[u8]) -> Output {
    let mut command = Command::new(RECORDTEXT);
    let pipes = command.args(words).stdin(Stdio::piped());
    let pipes = pipes.stdout(Stdio::piped()).stderr(Stdio::piped());
    let mut process = pipes.spawn().expect("recordtext");
    let mut pipe = process.stdin.take().expect("its input");
    // It reads nothing where it is misused.
    let _ = pipe.write_all(input);
    drop(pipe);
    process.wait_with_output().expect("its output")
}

/// Status, standard output and standard error.
fn said(words: &[&str], input: &[u8]) -> (i32, String, String) {
    let done = run(words, input);
    let text = |bytes| String::from_utf8(bytes).expect("text");
    let status = done.status.code().expect("a status");
    (status, text(done.stdout), text(done.stderr))
}

fn strings(status: i32, out: &str, err: &str) -> (i32, String, String) {
    (status, out.to_string(), err.to_string())
}

const REPEATED: &str = "record 2, PR 5, at byte 55, is refused with 10: the key stands already\n\
                        record 2 repeats PR 5, filed as record 1\n";

#[test]
fn check_says_that_all_is_taken_or_why_not() {
    let price = price(5, 3000, 3000);
    let taken = "1 record, taken; 1 of 512 changes listed; 55 of 65,535 bytes used; open\n";
    assert_eq!(said(&["check"], &price), strings(0, taken, ""));
    let refused = format!("REF 2 10\n{REPEATED}");
    assert_eq!(said(&["check"], &price.repeat(2)), strings(1, &refused, ""));
}

#[test]
fn show_prints_what_can_be_read_and_says_why_the_rest_cannot() {
    let bytes = [&price(5, 3000, -500)[..], b"ZZ"].concat();
    let err = "recordtext: record 2, at byte 55, is refused with 2: \
               the mark is unknown, or not allowed inside CO or WD\n\
               recordtext: mark: 5A 5A ('ZZ') is none of PR, IM, EX, GH, FI, FE, CO, WD, TB, CL (byte 55)\n";
    let out = "PR 5 emp 12x3000 pd-price -500\n";
    assert_eq!(said(&["show"], &bytes), strings(1, out, err));
    let out = "# record 1, byte 0\nPR 5 emp 12x$30.00 pd-price -$5.00\n";
    for options in [
        &["show", "-n", "-u"][..],
        &["show", "-u", "-n"],
        &["show", "-nu"],
    ] {
        assert_eq!(said(options, &bytes), strings(1, out, err));
    }
}

#[test]
fn make_writes_all_or_nothing() {
    let made = run(&["make"], b"TB\nPR 5 emp 12x$30.00 pd-price 3000\n");
    assert_eq!(made.stdout, [&b"TB"[..], &price(5, 3000, 3000)].concat());
    assert_eq!((made.status.code(), &made.stderr[..]), (Some(0), &b""[..]));
    let err = "recordtext: line 2: expected the word emp, found 'epm'\n";
    let faulty = b"TB\nPR 5 epm 12x0 pd-price 0\n";
    assert_eq!(said(&["make"], faulty), strings(1, "", err));
}

#[test]
fn text_where_records_are_read_is_told() {
    let (status, out, _) = said(&["check"], b"PR 5 emp 12x3000 pd-price 3000\n");
    assert_eq!(status, 1);
    let lines: Vec<&str> = out.lines().collect();
    assert_eq!(lines[0], "REF 1 3");
    let hint = "the input looks like text; 'recordtext make' turns it into records";
    assert_eq!(lines[3..], [hint]);
    let (status, _, err) = said(&["show"], b"# a day\n");
    assert_eq!((status, err.lines().count()), (1, 3));
    assert!(err.ends_with(&format!("recordtext: {hint}\n")));
    let (status, out, err) = said(&["make"], &price(5, 3000, 3000));
    assert_eq!((status, out.as_str()), (1, ""));
    assert!(err.contains("if these are records, use 'recordtext show'"));
}

#[test]
fn numbers_and_usage() {
    let (status, out, _) = said(&["numbers"], b"");
    assert_eq!((status, out.lines().count()), (0, 16));
    let (status, usage, _) = said(&["--help"], b"");
    assert_eq!(status, 0);
    assert!(usage.starts_with("usage: recordtext show"));
    for words in [
        &[][..],
        &["check", "day.rec"],
        &["show", "-x"],
        &["show", "-"],
        &["show", "day.rec"],
        &["make", "-n"],
        &["settle"],
    ] {
        assert_eq!(said(words, b""), strings(2, "", &usage), "{words:?}");
    }
}

#[test]
fn an_input_or_output_that_fails() {
    for word in ["show", "make", "check"] {
        let folder = File::open(repository("samples")).expect("a folder");
        let done = Command::new(RECORDTEXT).arg(word).stdin(folder).output();
        let done = done.expect("its output");
        assert_eq!((done.status.code(), &done.stdout[..]), (Some(3), &b""[..]));
        assert!(done
            .stderr
            .starts_with(b"recordtext: the input can't be read: "));
    }
    let full = fs::OpenOptions::new().write(true).open("/dev/full");
    let full = full.expect("a device that is always full");
    let day = File::open(repository("samples/ordinary.rec")).expect("a day");
    let mut command = Command::new(RECORDTEXT);
    let done = command.arg("check").stdin(day).stdout(full).output();
    let done = done.expect("its output");
    assert_eq!(done.status.code(), Some(3));
    assert!(done
        .stderr
        .starts_with(b"recordtext: the output can't be written: "));
}

/// Closed, or open for the other direction only.
#[test]
fn an_input_or_output_that_is_closed() {
    for (redirection, said) in [
        ("<&-", "the input can't be read"),
        ("0>/dev/null", "the input can't be read"),
        (">&-", "the output can't be written"),
        ("1</dev/null", "the output can't be written"),
    ] {
        let script = format!("exec \"$0\" check {redirection}");
        let mut command = Command::new("sh");
        let done = command.args(["-c", &script, RECORDTEXT]).output();
        let done = done.expect("its output");
        assert_eq!(done.status.code(), Some(3), "{redirection}");
        let message = format!("recordtext: {said}: ");
        assert!(done.stderr.starts_with(message.as_bytes()), "{redirection}");
    }
}
