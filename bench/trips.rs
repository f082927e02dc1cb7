//! trips SEED DUMPS DAMAGES: reads random dumps, and DAMAGES damaged ones of each, by the proved reader, and writes what was read again
//! by the proved writer. The independent program says which bytes are a dump, and of others with which number and offset they are
//! refused; what is written again must be those bytes. The last line is 'N passed, M failed'.

#[allow(dead_code)]
mod proved;

use nucleus::damage::damage;
use nucleus::load;
use nucleus::valid::Dumps;
use std::collections::BTreeMap;
use std::process::ExitCode;

/// Always suffices.
const BUFFER: usize = 1241;

/// The numbers that a reading answers with.
const NUMBERS: [u8; 6] = [0, 15, 16, 17, 18, 19];

/// What the proved writer gives of what the proved reader reads; nothing, if the bytes are no dump.
fn again(bytes: &[u8]) -> Option<Vec<u8>> {
    let mut out = vec![0xA5; BUFFER];
    let length = proved::again(bytes, &mut out);
    assert!(out[length..].iter().all(|&byte| byte == 0xA5), "bytes behind the dump have changed");
    out.truncate(length);
    (length > 0).then_some(out)
}

/// How often each number was answered, and how often otherwise than by the independent program.
#[derive(Default)]
struct Tally {
    answered: BTreeMap<u8, u64>,
    failed: u64,
}

impl Tally {
    fn note(&mut self, bytes: &[u8]) {
        let expected = load(bytes).map_or_else(|bad| bad.numbers(), |_| (0, 0));
        *self.answered.entry(expected.0).or_default() += 1;
        let found = proved::verdict(bytes, 1);
        let is_same = again(bytes).as_deref() == (expected.0 == 0).then_some(bytes);
        if found != expected || !is_same {
            self.failed += 1;
            println!("FAILED  number and offset {expected:?} by the independent program, {found:?} by the proved reader");
            println!("        what is written again is right: {is_same}; bytes: {bytes:02X?}");
        }
    }

    fn times(&self, number: u8) -> u64 {
        self.answered.get(&number).copied().unwrap_or(0)
    }

    fn total(&self) -> u64 {
        self.answered.values().sum()
    }

    fn print(&self, what: &str) {
        let refused: Vec<String> =
            NUMBERS[1..].iter().map(|&number| format!("{} with {number}", self.times(number))).collect();
        println!("{what}: {} read; refused: {}", self.times(0), refused.join(", "));
    }
}

fn main() -> ExitCode {
    let arguments: Vec<u64> = std::env::args().skip(1).filter_map(|a| a.parse().ok()).collect();
    let [seed, count, damages] = arguments[..] else {
        eprintln!("usage: trips SEED DUMPS DAMAGES");
        return ExitCode::FAILURE;
    };
    let mut dumps = Dumps::new(seed);
    let (mut good, mut damaged) = (Tally::default(), Tally::default());
    for _ in 0..count {
        let bytes = dumps.next_dump();
        good.note(&bytes);
        for _ in 0..damages {
            let (bytes, _) = damage(&bytes, dumps.random());
            damaged.note(&bytes);
        }
    }
    good.print("random dumps");
    damaged.print("damaged ones");
    // A random dump is one: a refused one is a failure of the generator.
    let refused = good.total() - good.times(0);
    let failed = good.failed + damaged.failed;
    println!("{} passed, {} failed", good.times(0) + damaged.total() - failed, failed + refused);
    ExitCode::from(u8::from(failed + refused > 0))
}
