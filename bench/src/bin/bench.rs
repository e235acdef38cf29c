//! The differential test: the proved side and the peer, call by call.

use pewatuno_bench::beyond;
use pewatuno_bench::bridge::{self, Layer, Layers};
use pewatuno_bench::options::{Options, USAGE};
use pewatuno_bench::run::{run, shortcomings};
use std::env;
use std::process::ExitCode;
use std::time::Instant;

fn main() -> ExitCode {
    let options = match Options::read(env::args().skip(1)) {
        Ok(options) => options,
        Err(fault) => {
            eprintln!("bench: {fault}\n{USAGE}");
            return ExitCode::from(2);
        }
    };
    match bridge::open() {
        Ok(layers) => compared(&options, layers),
        Err(wrong) => {
            eprintln!("bench: {wrong}");
            ExitCode::from(2)
        }
    }
}

/// Runs, prints and judges.
fn compared(options: &Options, layers: Layers) -> ExitCode {
    print_head(options, layers);
    let begun = Instant::now();
    let outcome = run(options, layers, |line| println!("{line}"));
    let seconds = begun.elapsed().as_secs_f64();
    let (lines, is_lacking) = shortcomings(options, layers, &outcome);
    print!("{}", outcome.tally);
    for line in &lines {
        println!("{line}");
    }
    if !lines.is_empty() && !is_lacking {
        println!("(shorter than the gate's run, so this is no failure)");
    }
    let beyond = beyond_any_book(layers);
    let compared = outcome.tally.compared() + outcome.mismatches;
    println!(
        "{seconds:.1} s, {:.0} calls a second",
        compared as f64 / seconds.max(0.001)
    );
    println!(
        "bench: {compared} calls compared, {} mismatches, {} skipped{}",
        outcome.mismatches,
        outcome.tally.skipped(),
        if is_lacking {
            ", lacking as told above"
        } else {
            ""
        }
    );
    match outcome.mismatches == 0 && beyond && !is_lacking {
        true => ExitCode::SUCCESS,
        false => ExitCode::FAILURE,
    }
}

/// Whether states that no book can have give 16; the mock takes none.
fn beyond_any_book(layers: Layers) -> bool {
    if cfg!(feature = "mock") || !layers.has(Layer::Book) {
        return true;
    }
    let faults = beyond::faults();
    for fault in &faults {
        println!("{fault}");
    }
    println!(
        "{} calls with a state that no book can have, {} faults",
        beyond::CALLS,
        faults.len()
    );
    faults.is_empty()
}

fn print_head(options: &Options, layers: Layers) {
    let parts: Vec<&str> = options.parts.iter().map(|part| part.word()).collect();
    println!("seed {}, parts: {}", options.seed, parts.join(", "));
    if cfg!(feature = "mock") {
        println!("the mock stands in for the proved side");
    }
    for layer in Layer::ALL {
        if !layers.has(layer) {
            println!("layer missing, so this run fails: {}", layer.words());
        }
    }
}
