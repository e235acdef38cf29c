//! The benchmarks: the same work on the proved side and on the peer.

use pewatuno_bench::bridge::{self, Layer};
use pewatuno_bench::timing::{readable, Pace};
use pewatuno_bench::workloads::{Bench, Measure, Row, BOOKS};
use std::env;
use std::process::ExitCode;

const USAGE: &str = "usage: speed [--quick]";

fn main() -> ExitCode {
    let arguments: Vec<String> = env::args().skip(1).collect();
    let pace = match arguments.iter().map(String::as_str).collect::<Vec<_>>()[..] {
        [] => Pace::USUAL,
        ["--quick"] => Pace::QUICK,
        _ => {
            eprintln!("{USAGE}");
            return ExitCode::from(2);
        }
    };
    match bridge::open() {
        Ok(layers) => {
            print_head(pace);
            let measure = Measure::Times(pace);
            print_all(Bench { layers, measure });
            match Layer::ALL.into_iter().all(|layer| layers.has(layer)) {
                true => ExitCode::SUCCESS,
                false => ExitCode::FAILURE,
            }
        }
        Err(wrong) => {
            eprintln!("speed: {wrong}");
            ExitCode::from(2)
        }
    }
}

fn print_all(bench: Bench) {
    print_rows(&bench.records());
    print_rows(&bench.amounts());
    let changes = bench.changes();
    print_rows(&changes);
    let questions = bench.questions();
    print_rows(&questions);
    let amounts = [
        ("an hour of 16 IM, 16 EX and 16 places", bench.guarantees()),
        ("a unit's day of 24 hours", bench.unit_days()),
        ("a failure charge", bench.charges()),
    ];
    for (_, rows) in &amounts {
        print_rows(rows);
    }
    print_rows(&bench.days());
    print_growth("file and take back", &changes);
    print_growth("record of a key", &questions);
    for (label, rows) in &amounts {
        print_growth(label, rows);
    }
}

fn print_head(pace: Pace) {
    if cfg!(debug_assertions) {
        println!("Not a release build: the ratios mean little.");
    }
    if cfg!(feature = "mock") {
        println!("The mock stands in for the proved side.");
    }
    println!(
        "Median of {} runs of at least {} ms on each side in turn, after a warm-up of as much.",
        pace.runs,
        pace.run.as_millis()
    );
    println!(
        "Lent buffers: 65,535 bytes, filled with a pattern once before the warm-up and not\n\
         cleared between runs; a day starts from a fresh book over the same bytes.\n"
    );
    println!(
        "{:<44}{:>12}{:>12}{:>14}",
        "work", "proved", "peer", "proved/peer"
    );
}

fn print_rows(rows: &[Row]) {
    for row in rows {
        match row.times {
            Some(times) => println!(
                "{:<44}{:>12}{:>12}{:>14.2}",
                row.label,
                readable(times.proved),
                readable(times.peer),
                times.ratio()
            ),
            None => println!("{:<44}{:>38}", row.label, "skipped, layer missing"),
        }
    }
    println!();
}

/// How much longer the largest book takes than the smallest.
fn print_growth(label: &str, rows: &[Row]) {
    let (Some(least), Some(most)) = (rows.first(), rows.last()) else {
        return;
    };
    if let (Some(least), Some(most)) = (least.times, most.times) {
        println!(
            "growth of {label} from {} to {} changes: proved {:.1} times, peer {:.1} times",
            BOOKS[0],
            BOOKS[BOOKS.len() - 1],
            most.proved / least.proved,
            most.peer / least.peer
        );
    }
}
