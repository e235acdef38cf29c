//! A program whose every read of its standard input brings one byte.

#![allow(unsafe_code)]

use std::fs::File;
use std::io::{self, ErrorKind, Write};
use std::os::fd::{FromRawFd, OwnedFd};
use std::process::{Command, Output, Stdio};

extern "C" {
    fn pipe2(ends: *mut i32, flags: i32) -> i32;
}

/// Linux's `O_CLOEXEC | O_DIRECT`: a pipe of packets, one for each write, of
/// which a read takes no more than one.
const PACKETS: i32 = 0o2_000_000 | 0o40_000;

/// The end that is read, and the end that is written.
fn packets() -> io::Result<(OwnedFd, OwnedFd)> {
    let mut ends = [0; 2];
    // SAFETY: there are places for the two descriptors.
    match unsafe { pipe2(ends.as_mut_ptr(), PACKETS) } {
        // SAFETY: both are open, and nobody else has them.
        0 => Ok(unsafe { (OwnedFd::from_raw_fd(ends[0]), OwnedFd::from_raw_fd(ends[1])) }),
        _ => Err(io::Error::last_os_error()),
    }
}

/// Runs a program with these bytes as its input. It may stop reading early; it
/// must print only then or after the last byte.
pub fn run(mut command: Command, input: &[u8]) -> io::Result<Output> {
    let (out, into) = packets()?;
    command
        .stdin(out)
        .stdout(Stdio::piped())
        .stderr(Stdio::piped());
    let child = command.spawn()?;
    drop(command);
    let mut into = File::from(into);
    for byte in input.chunks(1) {
        match into.write_all(byte) {
            Err(fault) if fault.kind() == ErrorKind::BrokenPipe => break,
            written => written?,
        }
    }
    drop(into);
    child.wait_with_output()
}

#[cfg(test)]
mod tests {
    use super::*;
    use std::io::Read;

    #[test]
    fn a_read_brings_one_byte() {
        let (out, into) = packets().expect("a pipe");
        let mut into = File::from(into);
        for byte in b"abc".chunks(1) {
            into.write_all(byte).expect("written");
        }
        drop(into);
        let (mut out, mut room) = (File::from(out), [0; 9]);
        let counts: Vec<usize> = (0..4).map(|_| out.read(&mut room).expect("read")).collect();
        assert_eq!(counts, [1, 1, 1, 0]);
    }

    #[test]
    fn the_bytes_arrive() {
        let said = run(Command::new("cat"), b"one by one").expect("cat");
        assert_eq!(said.stdout, b"one by one");
        assert!(run(Command::new("true"), &[7; 9000]).is_ok());
    }
}
