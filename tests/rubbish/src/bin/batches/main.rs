//! batches [--batches N] [--seed S]: hands at least N batches of events to the board's library. What they answer, and all that they leave,
//! is held to the independent program. The last line is 'N passed, M failed'; a case is a kind of files or tables, that everything came up
//! which is to come up, or a wrong batch that has to be found.

mod census;
mod memory;
mod slips;
mod trial;

use census::{Census, FIXED};
use memory::{library, Call};
use nucleus::compare::source::Source;
use nucleus::random::Random;
use rubbish::kinds::{Kind, Maker, KINDS};
use slips::{Slip, BESIDE_SINGLE_CALLS, SLIPS};
use std::fmt;
use std::process::ExitCode;
use trial::Trial;

/// Behind so many differences no further round is begun.
const SHOWN: u64 = 5;
/// A slip is looked for in so many rounds at most. The batch without a slip is held to as many.
const SLIP_ROUNDS: u64 = 40;
/// So much is printed of how a slip was found.
const SLIP_COLUMNS: usize = 120;

/// Batches and seed.
fn arguments() -> Option<(u64, u64)> {
    let (mut batches, mut seed) = (FIXED, 1);
    let mut words = std::env::args().skip(1);
    while let Some(word) = words.next() {
        let number = words.next()?.parse().ok()?;
        match word.as_str() {
            "--batches" => batches = number,
            "--seed" => seed = number,
            _ => return None,
        }
    }
    Some((batches, seed))
}

/// What batches are made of.
#[derive(Clone, Copy, Debug, PartialEq, Eq)]
enum From {
    ShortFile,
    LongFile,
    RubbishFile,
    Tables(Kind),
}

impl fmt::Display for From {
    fn fmt(&self, out: &mut fmt::Formatter) -> fmt::Result {
        match self {
            From::ShortFile => out.pad("short files of mixed events"),
            From::LongFile => out.pad("long files of mixed events"),
            From::RubbishFile => out.pad("files of rubbish"),
            From::Tables(kind) => kind.fmt(out),
        }
    }
}

/// All but the tables with each bit flipped in turn: those are for runs of many tables.
fn all() -> impl Iterator<Item = From> {
    let tables = KINDS.into_iter().filter(|&kind| kind != Kind::EveryBit).map(From::Tables);
    [From::ShortFile, From::LongFile, From::RubbishFile].into_iter().chain(tables)
}

/// Of one kind.
#[derive(Clone, Copy, Debug, Default)]
struct Counted {
    tried: u64,
    batches: u64,
    failed: u64,
}

/// Round after round, each with files and tables of every kind.
struct Run<'a> {
    call: Call<'a>,
    seed: u64,
    maker: Maker,
    random: Random,
    census: Census,
}

impl Run<'_> {
    fn new(call: Call, seed: u64) -> Run {
        let (maker, random) = (Maker::new(seed), Random::new(!seed));
        Run { call, seed, maker, random, census: Census::default() }
    }

    /// The next one of a kind; what was answered otherwise.
    fn one(&mut self, from: From, round: u64) -> Vec<String> {
        let seed = self.seed.wrapping_mul(1_000_003).wrapping_add(round);
        // Pieces of a few bytes would take long for long files.
        let (short, long) = ([4, 30, 300, 3_000], [200, 2_000, 1 << 20]);
        match from {
            From::ShortFile => self.file(short_file(seed), &short),
            From::LongFile => self.file(Source::Mixed { seed, events: 1_500 }, &long),
            From::RubbishFile => self.file(Source::Rubbish { seed }, &long),
            From::Tables(kind) => self.tables(kind, round),
        }
    }

    fn file(&mut self, source: Source, pieces: &[u64]) -> Vec<String> {
        let file = bytes(source);
        let most = self.random.choose(pieces).unwrap_or(1);
        let mut trial = self.trial();
        trial.file(&file, most);
        let mut wrong = trial.wrong;
        if !wrong.is_empty() {
            wrong.push(format!("in {source}, in pieces of up to {most} bytes"));
        }
        wrong
    }

    fn tables(&mut self, kind: Kind, round: u64) -> Vec<String> {
        let room = self.maker.room(kind, round);
        let mut trial = self.trial();
        trial.tables(room);
        let mut wrong = trial.wrong;
        if !wrong.is_empty() {
            wrong.push(format!("tables that were lent: {:X?}", room.words));
        }
        wrong
    }

    fn trial(&mut self) -> Trial<'_> {
        Trial { call: self.call, random: &mut self.random, census: &mut self.census, wrong: Vec::new() }
    }
}

/// Most of them end in a halt or a panic.
fn short_file(seed: u64) -> Source {
    Source::Mixed { seed, events: 20 + seed % 100 }
}

fn bytes(source: Source) -> Vec<u8> {
    source.pieces().flatten().collect()
}

/// At least so many batches of the library, in whole rounds; gives the cases passed and failed.
fn compare(batches: u64, seed: u64) -> (u64, u64) {
    let mut run = Run::new(&library, seed);
    let mut kinds: Vec<(From, Counted)> = all().map(|from| (from, Counted::default())).collect();
    let (mut round, mut shown) = (0, 0);
    while run.census.batches < batches && shown < SHOWN {
        for (from, counted) in &mut kinds {
            let before = run.census.batches;
            let wrong = run.one(*from, round);
            counted.tried += 1;
            counted.batches += run.census.batches - before;
            if !wrong.is_empty() {
                counted.failed += 1;
                shown += 1;
                println!("FAILED  {from}, round {round}, seed {seed}");
                wrong.iter().for_each(|what| println!("        {what}"));
            }
        }
        round += 1;
    }
    println!("{:<38} {:>8} {:>9} {:>11}", "kind", "tried", "batches", "differences");
    for (from, Counted { tried, batches, failed }) in &kinds {
        println!("{from:<38} {tried:>8} {batches:>9} {failed:>11}");
    }
    run.census.print();
    let mut failed = kinds.iter().filter(|(_, counted)| counted.failed > 0).count() as u64;
    let mut passed = kinds.len() as u64 - failed;
    if batches >= FIXED && shown < SHOWN {
        let missing = run.census.missing();
        missing.iter().for_each(|what| println!("FAILED  hardly ever came up: {what}"));
        *(if missing.is_empty() { &mut passed } else { &mut failed }) += 1;
    }
    (passed, failed)
}

/// The first difference that the comparison finds.
fn difference(call: Call) -> Option<String> {
    let mut run = Run::new(call, 1);
    for round in 0..SLIP_ROUNDS {
        for from in all() {
            if let Some(what) = run.one(from, round).first() {
                return Some(format!("{from}: {what}"));
            }
        }
    }
    None
}

/// The first that it finds by single calls alone.
fn difference_from_single_calls(call: Call) -> Option<String> {
    let mut run = Run::new(call, 1);
    (0..SLIP_ROUNDS).find_map(|seed| {
        let mut trial = run.trial();
        trial.as_single_calls(&bytes(short_file(seed)));
        trial.wrong.into_iter().next()
    })
}

/// Each wrong batch has to be found, and the right one not. Gives the cases passed and failed.
fn find_slips() -> (u64, u64) {
    let (mut passed, mut failed) = (0, 0);
    let mut judge = |name: &str, found: Option<String>, wanted: bool| {
        let right = found.is_some() == wanted;
        let what: String = found.as_deref().unwrap_or("no difference").chars().take(SLIP_COLUMNS).collect();
        println!("{}  {name}: {what}", if right { "ok    " } else { "FAILED" });
        *(if right { &mut passed } else { &mut failed }) += 1;
    };
    for (slip, name) in SLIPS {
        let call: Call = &|tables, events, numbers, room, refusal| {
            slips::batch(slip, tables, events, numbers, room, refusal)
        };
        judge(name, difference(call), slip != Slip::Right);
        if slip == Slip::Right || BESIDE_SINGLE_CALLS.contains(&slip) {
            judge(
                &format!("{name}, beside single calls"),
                difference_from_single_calls(call),
                slip != Slip::Right,
            );
        }
    }
    (passed, failed)
}

fn main() -> ExitCode {
    let Some((batches, seed)) = arguments() else {
        eprintln!("usage: batches [--batches N] [--seed S]");
        return ExitCode::FAILURE;
    };
    let (mut passed, mut failed) = compare(batches, seed);
    if batches >= FIXED {
        let slips = find_slips();
        passed += slips.0;
        failed += slips.1;
    }
    println!("{passed} passed, {failed} failed");
    ExitCode::from(u8::from(failed > 0))
}
