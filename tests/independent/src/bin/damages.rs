//! damages SEED COUNT: damages COUNT random dumps and says for each kind how often the bytes still are a dump and how often they are
//! refused with each number, and for each cause how often the answer rests on it alone.

use nucleus::damage::{self, Damage};
use nucleus::load;
use nucleus::valid::Dumps;
use nucleus::verdicts::Verdicts;
use std::collections::BTreeMap;
use std::process::ExitCode;

/// How often a dump, then how often 15 to 19.
type Numbers = [u64; 6];

fn main() -> ExitCode {
    let arguments: Vec<u64> = std::env::args().skip(1).filter_map(|a| a.parse().ok()).collect();
    let [seed, count] = arguments[..] else {
        eprintln!("usage: damages SEED COUNT");
        return ExitCode::FAILURE;
    };
    let mut dumps = Dumps::new(seed);
    let mut kinds: BTreeMap<Damage, Numbers> = BTreeMap::new();
    let mut verdicts = Verdicts::default();
    for _ in 0..count {
        let bytes = dumps.next_dump();
        let (damaged, kind) = damage::damage(&bytes, dumps.random());
        let number = load(&damaged).map_or_else(|bad| bad.numbers().0, |_| 0);
        kinds.entry(kind).or_default()[usize::from(number.saturating_sub(14))] += 1;
        verdicts.note(&damaged);
    }
    print(&kinds);
    verdicts.print_causes();
    ExitCode::SUCCESS
}

fn print(kinds: &BTreeMap<Damage, Numbers>) {
    println!("{:28} {:>8} {:>8} {:>8} {:>8} {:>8} {:>8}", "damage", "dump", 15, 16, 17, 18, 19);
    for (kind, numbers) in kinds {
        print!("{:28}", format!("{kind:?}"));
        numbers.iter().for_each(|times| print!(" {times:8}"));
        println!();
    }
}
