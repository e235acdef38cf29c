//! What the proved side costs beside the peer: instructions, times and stack.

use pewatuno_bench::bridge;
use pewatuno_bench::callgrind;
use pewatuno_bench::programs::{Programs, Reads};
use pewatuno_bench::stack::least_limit;
use pewatuno_bench::timing::{readable, Pace, Times};
use pewatuno_bench::workloads::{full_hour, Bench, Measure};
use pewatuno_bench::worst_day::worst_day;
use std::env;
use std::fs;
use std::io::{self, Write};
use std::path::{Path, PathBuf};
use std::process::{self, Command, ExitCode, Stdio};

const USAGE: &str = "usage: costs SETTLE PEER_SETTLE PAGES PEER_PAGES CALL_STACK";
/// The word that makes a run do each call once, for callgrind.
const ONCE: &str = "--once";
/// The sample days, from the smallest.
const SAMPLES: [&str; 3] = ["empty", "ordinary", "busy"];
/// Runs of a program on a day, of which the shortest counts.
const RUNS: usize = 20;
/// The same where each read brings one byte.
const SLOW_RUNS: usize = 3;

fn main() -> ExitCode {
    let words: Vec<String> = env::args().skip(1).collect();
    let done = match words.iter().map(String::as_str).collect::<Vec<_>>()[..] {
        [ONCE] => bench(Measure::Instructions).map(|bench| drop(bench.calls())),
        [settle, peer_settle, pages, peer_pages, call_stack] => {
            let settle = programs("settle", settle, peer_settle);
            let pages = programs("pages", pages, peer_pages);
            Costs::new(settle, pages, call_stack).and_then(Costs::print)
        }
        _ => {
            eprintln!("{USAGE}");
            return ExitCode::from(2);
        }
    };
    match done {
        Ok(()) => ExitCode::SUCCESS,
        Err(fault) => {
            eprintln!("costs: {fault}");
            ExitCode::FAILURE
        }
    }
}

fn bench(measure: Measure) -> io::Result<Bench> {
    let layers = bridge::open().map_err(io::Error::other)?;
    Ok(Bench { layers, measure })
}

fn programs(name: &'static str, proved: &str, peer: &str) -> Programs {
    Programs {
        name,
        proved: proved.into(),
        peer: peer.into(),
    }
}

/// What is measured, with a folder for what is written meanwhile.
struct Costs {
    settle: Programs,
    pages: Programs,
    call_stack: PathBuf,
    folder: PathBuf,
    counts: bool,
}

impl Drop for Costs {
    fn drop(&mut self) {
        let _ = fs::remove_dir_all(&self.folder);
    }
}

impl Costs {
    fn new(settle: Programs, pages: Programs, call_stack: &str) -> io::Result<Costs> {
        let folder = env::temp_dir().join(format!("pewatuno-costs-{}", process::id()));
        fs::create_dir_all(folder.join("calls"))?;
        fs::write(folder.join("worst.rec"), worst_day())?;
        Ok(Costs {
            settle,
            pages,
            call_stack: call_stack.into(),
            folder,
            counts: callgrind::is_there(),
        })
    }

    fn print(self) -> io::Result<()> {
        self.print_head();
        self.print_days(&self.settle)?;
        self.print_day(&self.settle, "busy", &sample("busy"), Reads::OneByte)?;
        println!();
        self.print_days(&self.pages)?;
        println!();
        self.print_calls()?;
        println!();
        self.print_stack()
    }

    fn print_head(&self) {
        if cfg!(debug_assertions) {
            println!("Not a release build: the ratios mean little.");
        }
        if !self.counts {
            println!("valgrind is not on the PATH: no instructions are counted.");
        }
        println!("{:<44}{:^40} {:^33}", "", "instructions", "time");
        println!(
            "{:<44}{:>15}{:>15}{:>9}{:>12}{:>12}{:>9}",
            "work", "proved", "peer", "ratio", "proved", "peer", "ratio"
        );
    }

    /// Two programs on the sample days and on the worst one.
    fn print_days(&self, programs: &Programs) -> io::Result<()> {
        for name in SAMPLES {
            self.print_day(programs, name, &sample(name), Reads::Full)?;
        }
        let worst = self.folder.join("worst.rec");
        self.print_day(programs, "worst", &worst, Reads::Full)
    }

    /// Two programs on one day.
    fn print_day(
        &self,
        programs: &Programs,
        name: &str,
        day: &Path,
        reads: Reads,
    ) -> io::Result<()> {
        let day = programs.day(day, reads)?;
        let counts = match self.counts {
            true => Some(programs.instructions(&day)?),
            false => None,
        };
        let (runs, ending) = match reads {
            Reads::Full => (RUNS, ""),
            Reads::OneByte => (SLOW_RUNS, ", reads of one byte"),
        };
        let times = programs.times(&day, runs)?;
        let label = format!("{}, {name} day{ending}", programs.name);
        print_row(&label, counts, Some(times));
        Ok(())
    }

    /// One call of each kind.
    fn print_calls(&self) -> io::Result<()> {
        let rows = bench(Measure::Times(Pace::USUAL))?.calls();
        let done = rows.iter().filter(|row| row.times.is_some()).count();
        let mut counts = self.counted_calls(done)?.into_iter();
        for row in &rows {
            let counted = row.times.and_then(|_| counts.next());
            print_row(&row.label, counted, row.times);
        }
        Ok(())
    }

    /// The instructions of so many calls, of this program's run under
    /// callgrind; none without it.
    fn counted_calls(&self, calls: usize) -> io::Result<Vec<[u64; 2]>> {
        if !self.counts {
            return Ok(Vec::new());
        }
        let mut once = Command::new(env::current_exe()?);
        once.arg(ONCE);
        let parts = callgrind::parts(&once, &self.folder.join("calls"))?;
        match parts.len() == 2 * calls {
            true => Ok(parts.chunks(2).map(|both| [both[0], both[1]]).collect()),
            false => Err(io::Error::other(
                "callgrind finds other calls than those made",
            )),
        }
    }

    /// What has to be granted to the programs, and what the C call touches.
    fn print_stack(&self) -> io::Result<()> {
        println!("{:<44}{:>15}{:>15}", "stack in bytes", "proved", "peer");
        for programs in [&self.settle, &self.pages] {
            print_least_limit(programs)?;
        }
        println!(
            "{:<44}{:>15}",
            "offset call, 16 imports, 16 exports, touched",
            grouped(self.call_stack()?)
        );
        Ok(())
    }

    fn call_stack(&self) -> io::Result<u64> {
        let mut call = Command::new(&self.call_stack)
            .stdin(Stdio::piped())
            .stdout(Stdio::piped())
            .spawn()?;
        if let Some(mut records) = call.stdin.take() {
            records.write_all(&full_hour().concat())?;
        }
        let said = call.wait_with_output()?.stdout;
        let touched = String::from_utf8_lossy(&said).trim().parse();
        touched.map_err(|_| io::Error::other("the C call's stack is not known"))
    }
}

/// The stack that two programs need on the busy day.
fn print_least_limit(programs: &Programs) -> io::Result<()> {
    let busy = sample("busy");
    let day = programs.day(&busy, Reads::Full)?;
    let least =
        |program| Ok::<_, io::Error>(least_limit(program, &day)?.map_or("none".into(), grouped));
    println!(
        "{:<44}{:>15}{:>15}",
        format!("{}, busy day, least limit", programs.name),
        least(&programs.proved)?,
        least(&programs.peer)?
    );
    Ok(())
}

fn sample(name: &str) -> PathBuf {
    let samples = Path::new(env!("CARGO_MANIFEST_DIR")).join("../samples");
    samples.join(format!("{name}.rec"))
}

fn print_row(label: &str, counts: Option<[u64; 2]>, times: Option<Times>) {
    print!("{label:<44}");
    match counts {
        Some([proved, peer]) => print!(
            "{:>15}{:>15}{:>9.2}",
            grouped(proved),
            grouped(peer),
            proved as f64 / peer as f64
        ),
        None => print!("{:>39}", "not counted"),
    }
    match times {
        Some(times) => println!(
            "{:>12}{:>12}{:>9.2}",
            readable(times.proved),
            readable(times.peer),
            times.ratio()
        ),
        None => println!("{:>33}", "skipped, layer missing"),
    }
}

/// A number with its thousands apart.
fn grouped(number: u64) -> String {
    let digits = number.to_string().into_bytes();
    let thousands: Vec<_> = digits
        .rchunks(3)
        .rev()
        .map(String::from_utf8_lossy)
        .collect();
    thousands.join(",")
}

#[cfg(test)]
mod tests {
    use super::*;

    #[test]
    fn thousands_stand_apart() {
        assert_eq!(grouped(0), "0");
        assert_eq!(grouped(180_800), "180,800");
        assert_eq!(grouped(24_182_221_018), "24,182,221,018");
    }
}
