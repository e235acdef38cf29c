//! Instructions counted by callgrind, a tool of valgrind: the same in each run,
//! whatever else the machine does.

use std::env;
use std::fs;
use std::hint::black_box;
use std::io;
use std::path::Path;
use std::process::{Command, Stdio};

/// The name by which callgrind finds [`counted`].
const COUNTED: &str = "pewatuno_bench::callgrind::counted";

/// Whether valgrind can be run.
pub fn is_there() -> bool {
    let mut version = Command::new("valgrind");
    version.arg("--version").stdout(Stdio::null());
    version.status().is_ok_and(|status| status.success())
}

/// A run of a program that says on standard error how many instructions it took.
pub fn whole(program: &Path) -> Command {
    let mut counting = callgrind();
    counting.arg("--callgrind-out-file=/dev/null").arg(program);
    counting
}

/// The tool in an environment that is always the same: it stands on the stack,
/// and copies there take other steps at other places.
fn callgrind() -> Command {
    let mut tool = Command::new("valgrind");
    tool.arg("--tool=callgrind").env_clear();
    tool.envs(env::vars_os().filter(|(name, _)| name == "PATH"));
    tool
}

/// The instructions that such a run said.
pub fn collected(said: &[u8]) -> Option<u64> {
    number_behind(&String::from_utf8_lossy(said), "Collected :")
}

/// Does a piece of work; its instructions are those that [`parts`] counts.
#[inline(never)]
pub fn counted(work: &mut dyn FnMut()) {
    work();
    // so that this is no jump into the work
    black_box(());
}

/// The instructions of each piece of work that a program hands to [`counted`],
/// in turn. The folder has to be empty.
pub fn parts(command: &Command, folder: &Path) -> io::Result<Vec<u64>> {
    let out = folder.join("part");
    let mut counting = callgrind();
    counting
        .arg(format!("--toggle-collect={COUNTED}"))
        .arg(format!("--dump-after={COUNTED}"))
        .arg(format!("--callgrind-out-file={}", out.display()))
        .arg(command.get_program())
        .args(command.get_args());
    let run = counting.output()?;
    if !run.status.success() {
        return Err(io::Error::other(String::from_utf8_lossy(&run.stderr)));
    }
    let mut parts = Vec::new();
    while let Ok(text) = fs::read_to_string(format!("{}.{}", out.display(), parts.len() + 1)) {
        let sum = number_behind(&text, "summary:");
        parts.push(sum.ok_or_else(|| io::Error::other("a part without a summary"))?);
    }
    Ok(parts)
}

/// The number behind the first place of some words.
fn number_behind(text: &str, words: &str) -> Option<u64> {
    let (_, behind) = text.split_once(words)?;
    behind.split_whitespace().next()?.parse().ok()
}

#[cfg(test)]
mod tests {
    use super::*;

    #[test]
    fn the_sum_is_read_from_what_callgrind_says() {
        let said = b"==7== Events    : Ir\n==7== Collected : 5573095\n==7== \n";
        assert_eq!(collected(said), Some(5_573_095));
        assert_eq!(collected(b"==7== killed\n"), None);
        assert_eq!(
            number_behind("summary: 12\ntotals: 12\n", "summary:"),
            Some(12)
        );
    }
}
