//! long SEED: writes long dumps, each as a line `HEX : refusal offset`. Four are good: the longest there is, one with a runner, and
//! two of any nearly full tables. Then one for each way of damage that leaves something of the dump.

use nucleus::damage::{damage_by, kinds, Damage};
use nucleus::hex::plain as hex;
use nucleus::random::Random;
use nucleus::{dump, load, long};
use std::io::{self, BufWriter, Write};
use std::process::ExitCode;

fn main() -> ExitCode {
    let arguments: Vec<u64> = std::env::args().skip(1).filter_map(|a| a.parse().ok()).collect();
    let [seed] = arguments[..] else {
        eprintln!("usage: long SEED");
        return ExitCode::FAILURE;
    };
    match write_dumps(seed) {
        Ok(()) => ExitCode::SUCCESS,
        Err(error) => {
            eprintln!("long: {error}");
            ExitCode::FAILURE
        }
    }
}

/// Nearly full tables have dumps of so many bytes at least, and a damage leaves so many at most.
const LEAST: usize = 900;
const MOST: usize = 2_500;

fn write_dumps(seed: u64) -> io::Result<()> {
    let mut output = BufWriter::new(io::stdout().lock());
    let mut random = Random::new(seed);
    for bytes in good(&mut random) {
        write_line(&mut output, &bytes)?;
    }
    for kind in kinds().into_iter().filter(|&kind| kind != Damage::AnyFields) {
        write_line(&mut output, &damaged(kind, &mut random))?;
    }
    output.flush()
}

fn good(random: &mut Random) -> [Vec<u8>; 4] {
    let full = [0, 1].map(|first| dump::write(&long::full(first, random)));
    let any = [0; 2].map(|_| long::any(LEAST, random));
    let ([longest, running], [one, other]) = (full, any);
    assert_eq!(longest.len(), long::LONGEST);
    [longest, running, one, other]
}

/// One of four such dumps, damaged in this way; of four others, if none gives room for it.
fn damaged(kind: Damage, random: &mut Random) -> Vec<u8> {
    loop {
        let mut dumps = good(random);
        dumps.rotate_left(random.below(4) as usize);
        let found =
            dumps.iter().find_map(|bytes| damage_by(bytes, kind, random).filter(|bytes| bytes.len() <= MOST));
        if let Some(bytes) = found {
            return bytes;
        }
    }
}

fn write_line(output: &mut impl Write, bytes: &[u8]) -> io::Result<()> {
    let (refusal, offset) = load(bytes).map_or_else(|bad| bad.numbers(), |_| (0, 0));
    writeln!(output, "{} : {refusal} {offset}", hex(bytes))
}
