//! wraps SEED RUNS EVENTS: writes RUNS runs of EVENTS events each as text, from nodes whose counts and beats are about to pass 2^32.
//! A run is a line `run HEX` with the dump that it begins with, a line `HEX : refusal status runner kind sender word` per event, and a
//! line `dump HEX` with the dump at its end.

use nucleus::generator::Generator;
use nucleus::hex::plain as hex;
use nucleus::random::Random;
use nucleus::{load, wrap};
use std::io::{self, BufWriter, Write};
use std::process::ExitCode;

fn main() -> ExitCode {
    let arguments: Vec<u64> = std::env::args().skip(1).filter_map(|a| a.parse().ok()).collect();
    let [seed, runs, events] = arguments[..] else {
        eprintln!("usage: wraps SEED RUNS EVENTS");
        return ExitCode::FAILURE;
    };
    match write_runs(seed, runs, events) {
        Ok(()) => ExitCode::SUCCESS,
        Err(error) => {
            eprintln!("wraps: {error}");
            ExitCode::FAILURE
        }
    }
}

/// Runs begin with dumps of at most so many bytes: a claim takes the time of its tables.
const LONGEST: usize = 300;

fn write_runs(seed: u64, runs: u64, events: u64) -> io::Result<()> {
    let mut output = BufWriter::new(io::stdout().lock());
    let mut random = Random::new(seed);
    for _ in 0..runs {
        let dump = wrap::node(LONGEST, &mut random).dump();
        writeln!(output, "run {}", hex(&dump))?;
        let node = load(&dump).expect("a dump");
        write_events(&mut output, Generator::counting(node, random.bits(), events))?;
    }
    output.flush()
}

fn write_events(output: &mut impl Write, mut run: Generator) -> io::Result<()> {
    while let Some((event, decision)) = run.next_event() {
        writeln!(output, "{} : {decision}", hex(&event))?;
    }
    writeln!(output, "dump {}", hex(&run.node().dump()))
}
