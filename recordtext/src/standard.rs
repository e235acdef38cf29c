//! Standard input and output as they were handed over.
//!
//! Rust opens `/dev/null` in the place of a closed one before `main`, and takes
//! one that can't be read for an empty one, and one that can't be written for
//! a written one: a day would be lost without a word. So a look is taken before
//! Rust's own start, and both are used as plain files.

use std::fs::{self, File};
use std::io;
use std::os::fd::AsFd;
use std::sync::atomic::{AtomicBool, Ordering};

static INPUT_IS_CLOSED: AtomicBool = AtomicBool::new(false);
static OUTPUT_IS_CLOSED: AtomicBool = AtomicBool::new(false);

/// The loader calls what stands in this section before it starts the program.
#[allow(unsafe_code)]
#[used]
#[cfg_attr(target_os = "linux", link_section = ".init_array")]
static BEFORE_START: extern "C" fn() = look;

extern "C" fn look() {
    INPUT_IS_CLOSED.store(is_closed("/proc/self/fd/0"), Ordering::Relaxed);
    OUTPUT_IS_CLOSED.store(is_closed("/proc/self/fd/1"), Ordering::Relaxed);
}

/// Not where the system doesn't show descriptors at all.
fn is_closed(descriptor: &str) -> bool {
    fs::symlink_metadata(descriptor).is_err() && fs::symlink_metadata("/proc/self/fd").is_ok()
}

/// Standard input as a file.
pub fn input() -> io::Result<File> {
    taken(&INPUT_IS_CLOSED, io::stdin())
}

/// Standard output as a file, without a buffer.
pub fn output() -> io::Result<File> {
    taken(&OUTPUT_IS_CLOSED, io::stdout())
}

fn taken(closed: &AtomicBool, descriptor: impl AsFd) -> io::Result<File> {
    if closed.load(Ordering::Relaxed) {
        return Err(io::Error::other("it is closed"));
    }
    descriptor.as_fd().try_clone_to_owned().map(File::from)
}
