//! Reads records from standard input and prints the day's pages.

use std::io::{self, Read, Write};

fn main() -> io::Result<()> {
    let mut input = Vec::new();
    io::stdin().lock().read_to_end(&mut input)?;
    io::stdout()
        .lock()
        .write_all(&peer::pages::settle_pages(&input))
}
