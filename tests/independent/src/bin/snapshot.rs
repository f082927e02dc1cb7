//! Runs the events on standard input from a start and writes the dump.

use nucleus::program;
use std::io::{self, BufReader, Write};

fn main() -> io::Result<()> {
    let input = BufReader::with_capacity(1 << 16, io::stdin().lock());
    let node = program::run_silently(input)?;
    let mut output = io::stdout().lock();
    output.write_all(&node.dump())?;
    output.flush()
}
