//! generate SEED COUNT: writes COUNT event fields to standard output. With
//! some seeds the last field is cut off.

use nucleus::generator::{Form, Generator};
use std::io::{self, BufWriter, Write};
use std::process::ExitCode;

fn main() -> ExitCode {
    let arguments: Vec<u64> = std::env::args().skip(1).filter_map(|a| a.parse().ok()).collect();
    let [seed, count] = arguments[..] else {
        eprintln!("usage: generate SEED COUNT");
        return ExitCode::FAILURE;
    };
    match write_events(seed, count) {
        Ok(()) => ExitCode::SUCCESS,
        Err(error) => {
            eprintln!("generate: {error}");
            ExitCode::FAILURE
        }
    }
}

fn write_events(seed: u64, count: u64) -> io::Result<()> {
    let mut output = BufWriter::with_capacity(1 << 16, io::stdout().lock());
    let mut generator = Generator::new(seed, count, Form::Stream);
    while let Some((event, _)) = generator.next_event() {
        output.write_all(&event)?;
    }
    output.flush()
}
