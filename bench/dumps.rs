//! dumps ROUNDS FILE..: times writing and reading a full dump over the same tables in one run, by plain Rust, by the
//! independent program and by the proved functions. Then reading what is no dump: the same dumps, each damaged in several ways.
//! dumps only NAME FILE: runs one of them once on the first 1,000 events of a file, for a profiler. NAME: one of WRITERS, one of READERS
//! behind a minus sign, or one of JUDGES behind a plus sign, which then reads every damaged dump.
//!
//! A time is the best of ROUNDS, of 1,000 dumps each. The bytes must agree, and each must be written and read 1,000 times; of damaged ones
//! the refusals and offsets must agree. A time is never a test.

mod bad;
#[allow(dead_code)]
mod proved;
mod tables;
mod timing;

use bad::{Edit, EDITS};
use nucleus::{lent, Node};
use plain::lent::{dump_checked, load_checked, Tables};
use plain::{Bad, Plain};
use std::hint::black_box;
use std::process::ExitCode;
use tables::Filled;
use timing::{best, fields, nothing, Run};

const TIMES: u64 = 1000;

/// Always suffices.
const BUFFER: usize = 1241;

/// A name, what is timed, and what is taken off its time.
type Meter = (&'static str, Run, Run);

/// Given events, they step through them from a start, write the dump 1,000 times and give how often that was done. The steps are taken off.
const WRITERS: [Meter; 5] = [
    ("plain", plain_dump, plain_steps),
    ("independent", independent_dump, independent_steps),
    ("write_dump", proved::dump, proved::step),
    ("plain-checked", plain_dump_checked, plain_steps),
    ("independent-lent", independent_dump_lent, independent_steps),
];

/// Given a dump, they read it 1,000 times and give how often it was one.
const READERS: [Meter; 5] = [
    ("plain", plain_load, nothing),
    ("independent", independent_load, nothing),
    ("load_in", proved::load, nothing),
    ("plain-checked", plain_load_checked, nothing),
    ("independent-lent", independent_load_lent, nothing),
];

/// Given bytes that are no dump, they read them 1,000 times and give the answer as one number.
const JUDGES: [Meter; 3] =
    [("plain", plain_judge, nothing), ("load_in", proved_judge, nothing), ("plain-checked", plain_judge_checked, nothing)];

/// The place of plain-checked among WRITERS and READERS. What stands before it works on tables that are kept, what stands behind it on lent
/// ones.
const CHECKED: usize = 3;

fn times(mut done: impl FnMut() -> bool) -> u64 {
    (0..TIMES).filter(|_| done()).count() as u64
}

fn plain_after(events: &[u8]) -> Plain {
    let mut plain = Plain::start();
    fields(events).for_each(|field| _ = plain.step(field));
    plain
}

fn node_after(events: &[u8]) -> Node {
    let mut node = Node::start();
    fields(events).for_each(|field| _ = node.step(field));
    node
}

fn plain_steps(events: &[u8]) -> u64 {
    black_box(plain_after(events));
    0
}

fn independent_steps(events: &[u8]) -> u64 {
    black_box(node_after(events));
    0
}

/// From rows that are kept.
fn plain_dump(events: &[u8]) -> u64 {
    let plain = plain_after(events);
    let mut buffer = [0; BUFFER];
    times(|| black_box(&plain).dump(black_box(&mut buffer)).is_ok())
}

/// From lent tables: numbers read into rows, checked, written.
fn plain_dump_checked(events: &[u8]) -> u64 {
    let tables = Tables::of(&plain_after(events));
    let mut buffer = [0; BUFFER];
    times(|| dump_checked(black_box(&tables), black_box(&mut buffer)).is_ok())
}

/// From a node that is kept, into bytes of its own.
fn independent_dump(events: &[u8]) -> u64 {
    let node = node_after(events);
    times(|| !black_box(black_box(&node).dump()).is_empty())
}

fn independent_dump_lent(events: &[u8]) -> u64 {
    let tables = node_after(events).tables();
    let mut buffer = [0; BUFFER];
    times(|| lent::dump(black_box(&tables), black_box(&mut buffer)).0 == 0)
}

fn plain_load(dump: &[u8]) -> u64 {
    times(|| black_box(plain::load(black_box(dump))).is_ok())
}

/// Into lent tables.
fn plain_load_checked(dump: &[u8]) -> u64 {
    let mut tables = Tables::start();
    times(|| load_checked(black_box(&mut tables), black_box(dump)).is_ok())
}

fn independent_load(dump: &[u8]) -> u64 {
    times(|| black_box(nucleus::load(black_box(dump))).is_ok())
}

fn independent_load_lent(dump: &[u8]) -> u64 {
    let mut tables = Node::start().tables();
    times(|| lent::load(black_box(&mut tables), black_box(dump)) == (0, 0))
}

/// An answer as one number.
fn told(refusal: u8, offset: usize) -> u64 {
    offset as u64 * 256 + u64::from(refusal)
}

/// The last of 1,000 answers. A dump has none.
fn judged(mut read: impl FnMut() -> Option<Bad>) -> u64 {
    let last = (0..TIMES).filter_map(|_| black_box(read())).last();
    last.map_or(0, |bad| told(bad.refusal, bad.offset))
}

fn plain_judge(bytes: &[u8]) -> u64 {
    judged(|| plain::load(black_box(bytes)).err())
}

fn plain_judge_checked(bytes: &[u8]) -> u64 {
    let mut tables = Tables::start();
    judged(|| load_checked(black_box(&mut tables), black_box(bytes)).err())
}

fn proved_judge(bytes: &[u8]) -> u64 {
    let (refusal, offset) = proved::verdict(bytes, TIMES);
    told(refusal, offset)
}

/// Once: it is held to, and not timed.
fn independent_answer(bytes: &[u8]) -> u64 {
    let (refusal, offset) = nucleus::load(bytes).map_or_else(|bad| bad.numbers(), |_| (0, 0));
    told(refusal, offset)
}

/// The dump of these tables, by both.
fn dump_of(filled: &Filled) -> Vec<u8> {
    let mut buffer = [0; BUFFER];
    let length = dump_checked(&filled.tables, &mut buffer).expect("a dump");
    assert_eq!(buffer[..length], node_after(&filled.events).dump(), "{}: another dump", filled.name);
    buffer[..length].to_vec()
}

/// The time of one dump by each meter.
fn one_dump<const N: usize>(rounds: usize, meters: &[Meter; N], bytes: &[u8]) -> [f64; N] {
    for (name, run, _) in meters {
        assert_eq!(run(bytes), TIMES, "{name} refuses a dump");
    }
    let whole = best(rounds, meters.map(|(_, run, _)| run), bytes);
    let off = best(rounds, meters.map(|(_, _, off)| off), bytes);
    std::array::from_fn(|place| (whole[place] - off[place]) / TIMES as f64)
}

/// One table: a line for each of the tables, a column for each meter, and the ratios of the sums.
fn compare<const N: usize>(rounds: usize, title: &str, meters: &[Meter; N], all: &[(&Filled, &[u8], usize)]) {
    println!("\n{title}");
    print!("{} {:>5}", tables::fill_head(), "bytes");
    meters.iter().for_each(|(name, ..)| print!(" {name:>16}"));
    println!();
    let mut sums = [0.0; N];
    for (filled, bytes, length) in all {
        print!("{} {length:>5}", filled.fill());
        for (sum, time) in sums.iter_mut().zip(one_dump(rounds, meters, bytes)) {
            *sum += time;
            print!(" {:>16.1}", time * 1e9);
        }
        println!();
    }
    for (place, word) in [(0, "to plain"), (CHECKED, "to plain-checked")] {
        print!("{:<width$}", word, width = tables::fill_head().len() + 6);
        sums.iter().for_each(|sum| print!(" {:>16.2}", sum / sums[place]));
        println!();
    }
}

/// The times of the dumps that can be edited so, added up by meter, and how many these are.
fn one_edit(rounds: usize, edit: &Edit, dumps: &[Vec<u8>]) -> ([f64; JUDGES.len()], usize) {
    let (mut sums, mut count) = ([0.0; JUDGES.len()], 0);
    for bytes in dumps.iter().filter_map(|dump| edit.of(dump)) {
        let expected = independent_answer(&bytes);
        assert_eq!(expected % 256, u64::from(edit.refusal), "{}: another refusal", edit.name);
        for (name, judge, _) in JUDGES {
            assert_eq!(judge(&bytes), expected, "{}: {name} answers otherwise", edit.name);
        }
        let times = best(rounds, JUDGES.map(|(_, judge, _)| judge), &bytes[..]);
        sums.iter_mut().zip(times).for_each(|(sum, time)| *sum += time / TIMES as f64);
        count += 1;
    }
    (sums, count)
}

fn ratios(refusal: &str, sums: &[f64]) {
    print!("{refusal:>3} {:<32}", "to plain");
    sums.iter().for_each(|sum| print!(" {:>16.2}", sum / sums[0]));
    println!();
}

/// One table: a line for each edit, with the mean time over the dumps, and the ratios of the sums for each refusal and for all.
fn compare_bad(rounds: usize, dumps: &[Vec<u8>]) {
    print!("\nreading what is no dump\n{:>3} {:<26} {:>5}", "no.", "damage", "dumps");
    JUDGES.iter().for_each(|(name, ..)| print!(" {name:>16}"));
    println!();
    let mut all = [0.0; JUDGES.len()];
    for edits in EDITS.chunk_by(|one, next| one.refusal == next.refusal) {
        let mut sums = [0.0; JUDGES.len()];
        for edit in edits {
            let (times, count) = one_edit(rounds, edit, dumps);
            print!("{:>3} {:<26} {count:>5}", edit.refusal, edit.name);
            times.iter().for_each(|time| print!(" {:>16.1}", time * 1e9 / count as f64));
            println!();
            sums.iter_mut().zip(times).for_each(|(sum, time)| *sum += time);
        }
        ratios(&edits[0].refusal.to_string(), &sums);
        all.iter_mut().zip(sums).for_each(|(all, sum)| *all += sum);
    }
    ratios("all", &all);
}

/// A meter of this name once, on typical tables.
fn run_only(name: &str, file: &str) -> Option<u64> {
    let filled = tables::typical(&[(file.to_string(), timing::read(file))]).pop()?;
    let named = |meters: &[Meter], name: &str| meters.iter().find(|(other, ..)| *other == name).map(|(_, run, _)| *run);
    if let Some(reader) = name.strip_prefix('-') {
        return Some(named(&READERS, reader)?(&dump_of(&filled)));
    }
    let Some(judge) = name.strip_prefix('+') else { return Some(named(&WRITERS, name)?(&filled.events)) };
    let (judge, dump) = (named(&JUDGES, judge)?, dump_of(&filled));
    Some(EDITS.iter().filter_map(|edit| edit.of(&dump)).map(|bytes| judge(&bytes)).sum())
}

fn main() -> ExitCode {
    let arguments: Vec<String> = std::env::args().skip(1).collect();
    if let [Some("only"), Some(name), Some(file), None] = [0, 1, 2, 3].map(|place| arguments.get(place).map(String::as_str)) {
        if let Some(count) = run_only(name, file) {
            println!("{count}");
            return ExitCode::SUCCESS;
        }
    }
    let Some((rounds, files)) = timing::files(&arguments) else {
        eprintln!("usage: dumps ROUNDS FILE..  or  dumps only NAME FILE");
        return ExitCode::FAILURE;
    };
    let mut all = tables::typical(&files);
    all.extend(tables::fullest());
    let dumps: Vec<Vec<u8>> = all.iter().map(dump_of).collect();
    let writing: Vec<_> = all.iter().zip(&dumps).map(|(filled, dump)| (filled, &filled.events[..], dump.len())).collect();
    let reading: Vec<_> = all.iter().zip(&dumps).map(|(filled, dump)| (filled, &dump[..], dump.len())).collect();
    println!("best of {rounds}, ns a dump");
    compare(rounds, "writing a dump", &WRITERS, &writing);
    compare(rounds, "reading a dump", &READERS, &reading);
    compare_bad(rounds, &dumps);
    ExitCode::SUCCESS
}
