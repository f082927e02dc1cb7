//! Reads a dump on standard input. First line: refusal and offset, 0 0 for a
//! dump. Then one line per field: the tag and its values in decimal.

use nucleus::dump;
use std::io::{self, Read, Write};

fn main() -> io::Result<()> {
    let mut bytes = Vec::new();
    io::stdin().lock().read_to_end(&mut bytes)?;
    let mut output = io::stdout().lock();
    output.write_all(dump::inspect(&bytes).as_bytes())?;
    output.flush()
}
