//! The season report: tapes from standard input, the totals to standard output.

use std::io::{self, Read, Write};

use relief_reference::season::report;

fn main() -> io::Result<()> {
    let mut input = Vec::new();
    io::stdin().lock().read_to_end(&mut input)?;
    io::stdout().write_all(report(&input).as_bytes())
}
