//! broken PROGRAM SLIP: node, snapshot or inspect with this slip, on standard input.

use nucleus::slips;
use std::io::{self, BufReader, BufWriter};
use std::process::ExitCode;

fn main() -> ExitCode {
    let words: Vec<String> = std::env::args().skip(1).collect();
    let [program, slip] = &words[..] else {
        eprintln!("usage: broken PROGRAM SLIP");
        return ExitCode::FAILURE;
    };
    let input = BufReader::with_capacity(1 << 16, io::stdin().lock());
    let output = BufWriter::with_capacity(1 << 16, io::stdout().lock());
    let known = match program.as_str() {
        "node" => slips::node(slip, input, output),
        "snapshot" => slips::snapshot(slip, input, output),
        "inspect" => slips::inspect(slip, input, output),
        _ => Ok(false),
    };
    match known {
        Ok(true) => ExitCode::SUCCESS,
        Ok(false) => {
            eprintln!("broken: no such slip of {program}: {slip}");
            ExitCode::FAILURE
        }
        Err(error) => {
            eprintln!("broken: {error}");
            ExitCode::FAILURE
        }
    }
}
