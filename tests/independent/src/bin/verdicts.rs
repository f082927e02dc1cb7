//! verdicts SEED COUNT LONGEST: writes COUNT dumps of at most LONGEST bytes, damaged in every way in turn, one in seven good, each as a
//! line `HEX : refusal offset`. Of no bytes HEX is empty.

use nucleus::damage::{damage_by, kinds};
use nucleus::hex::plain as hex;
use nucleus::random::Random;
use nucleus::{dump, load, valid};
use std::io::{self, BufWriter, Write};
use std::process::ExitCode;

fn main() -> ExitCode {
    let arguments: Vec<u64> = std::env::args().skip(1).filter_map(|a| a.parse().ok()).collect();
    let [seed, count, longest] = arguments[..] else {
        eprintln!("usage: verdicts SEED COUNT LONGEST");
        return ExitCode::FAILURE;
    };
    match write_verdicts(seed, count, longest as usize) {
        Ok(()) => ExitCode::SUCCESS,
        Err(error) => {
            eprintln!("verdicts: {error}");
            ExitCode::FAILURE
        }
    }
}

/// So many dumps are tried for a damage. Some, like too many threads, have no room in short ones.
const TRIES: usize = 40;

fn write_verdicts(seed: u64, count: u64, longest: usize) -> io::Result<()> {
    let mut output = BufWriter::new(io::stdout().lock());
    let mut random = Random::new(seed);
    let mut ways = kinds().into_iter().cycle();
    let mut written = 0;
    while written < count {
        let bytes = match ways.next().filter(|_| written % 7 != 0) {
            None => Some(short_dump(longest, &mut random)),
            Some(kind) => (0..TRIES).find_map(|_| {
                let good = short_dump(longest, &mut random);
                damage_by(&good, kind, &mut random).filter(|bytes| bytes.len() <= longest)
            }),
        };
        if let Some(bytes) = bytes {
            let (refusal, offset) = load(&bytes).map_or_else(|bad| bad.numbers(), |_| (0, 0));
            writeln!(output, "{} : {refusal} {offset}", hex(&bytes))?;
            written += 1;
        }
    }
    output.flush()
}

fn short_dump(longest: usize, random: &mut Random) -> Vec<u8> {
    loop {
        let bytes = dump::write(&valid::tables(random));
        if bytes.len() <= longest {
            return bytes;
        }
    }
}
