//! Prints the records of the day that costs the proved book most.

use pewatuno_bench::worst_day::worst_day;
use std::io::{self, Write};

fn main() -> io::Result<()> {
    io::stdout().lock().write_all(&worst_day())
}
