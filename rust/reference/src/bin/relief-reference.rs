//! The cleaning program: one tape from standard input, its answer to standard output.

use std::io::{self, Read, Write};

use relief_reference::program::{clean, INPUT_LIMIT};

fn main() -> io::Result<()> {
    // One byte over the limit is enough to refuse a longer input.
    let enough = INPUT_LIMIT as u64 + 1;
    let mut input = Vec::new();
    io::stdin().lock().take(enough).read_to_end(&mut input)?;
    io::stdout().write_all(clean(&input).as_bytes())
}
