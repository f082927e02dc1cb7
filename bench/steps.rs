//! steps ROUNDS FILE..: times the steps of three programs over the same events in one run: plain Rust, the independent program and the
//! proved nucleus. Then the check by itself, of plain Rust and of the proved nucleus, on the same tables. steps names ROUNDS FILE..: the
//! steps alone, without the check by itself. steps big ROUNDS FILE..: times the step of plain Rust and the proved one at limits of 64
//! threads and 128 blocks. steps only NAME FILE: runs one of them once, for a profiler. NAME: one of RUNS or BIG, check or plain-check.
//!
//! A time is the best of ROUNDS. The counts of accepted events must agree; a time is never a test.

mod places;
#[allow(dead_code)]
mod proved;
mod tables;
mod timing;

use nucleus::{lent, Node};
use places::best_of_both;
use plain::lent::{step_checked, Tables};
use plain::Plain;
use std::hint::black_box;
use std::process::ExitCode;
use tables::Filled;
use timing::{best, fields, timed, Run};

const CHECKS: u32 = 1000;

/// A name, and what is timed.
type Named = (&'static str, Run);

/// `step` and `step_in` are the proved ones.
const RUNS: [Named; 6] = [
    ("plain", plain),
    ("independent", independent),
    ("step", proved::step),
    ("plain-checked", plain_checked),
    ("independent-lent", independent_lent),
    ("step_in", proved::step_in),
];

/// From here on RUNS work on lent tables, which are checked at each event.
const LENT: usize = 3;

const BIG: [Named; 2] = [("plain-big", plain_big), ("step-big", proved::step_big)];

const CHECK: [Named; 2] = [("plain-check", plain_check), ("check", proved::check)];

/// Plain Rust, on rows that it keeps and changes in place.
fn plain(bytes: &[u8]) -> u64 {
    let mut plain = Plain::start();
    fields(bytes).filter(|field| plain.step(field).refusal == 0).count() as u64
}

/// The same with room for 64 threads and 128 blocks.
fn plain_big(bytes: &[u8]) -> u64 {
    let mut plain = big::Plain::start();
    fields(bytes).filter(|field| plain.step(field).refusal == 0).count() as u64
}

/// Its step on lent tables: numbers read into rows, checked, stepped, written back.
fn plain_checked(bytes: &[u8]) -> u64 {
    let mut tables = Tables::start();
    fields(bytes).filter(|field| step_checked(&mut tables, field).refusal == 0).count() as u64
}

/// What proved::check does: the tables that the bytes leave, then 1,000 times their numbers read and checked.
fn plain_check(bytes: &[u8]) -> u64 {
    let mut plain = Plain::start();
    fields(bytes).for_each(|field| _ = plain.step(field));
    let mut tables = Tables::of(&plain);
    let passes = |beats: &u32| {
        tables.beats = *beats;
        black_box(&tables).meet_rules()
    };
    (0..CHECKS).filter(passes).count() as u64
}

/// The independent program's step on a node that it keeps.
fn independent(bytes: &[u8]) -> u64 {
    let mut node = Node::start();
    fields(bytes).filter(|field| node.step(field).refusal == 0).count() as u64
}

/// Its step on tables that are lent, which are checked at each event.
fn independent_lent(bytes: &[u8]) -> u64 {
    let mut tables = Node::start().tables();
    fields(bytes).filter(|field| lent::step(&mut tables, field).refusal == 0).count() as u64
}

/// The seconds of each run, over all files.
fn sums<const N: usize>(rounds: usize, runs: &[Named; N], files: &[(String, Vec<u8>)]) -> [f64; N] {
    let mut seconds = [0.0; N];
    let (mut events, mut accepted) = (0, 0);
    for (file, bytes) in files {
        let expected = timed(runs[0].1, bytes).1;
        for (name, run) in runs {
            assert_eq!(timed(*run, bytes).1, expected, "{file}: {name} accepts another number of events");
        }
        let fastest = best_of_both(rounds, runs.map(|(_, run)| run), bytes);
        seconds.iter_mut().zip(fastest).for_each(|(sum, time)| *sum += time);
        events += fields(bytes).count();
        accepted += expected;
    }
    let noun = if files.len() == 1 { "file" } else { "files" };
    println!("{} {noun}, {events} events, {accepted} accepted by each; best of {rounds}", files.len());
    seconds.map(|time| time / events as f64)
}

fn compare_steps(rounds: usize, files: &[(String, Vec<u8>)]) {
    let seconds = sums(rounds, &RUNS, files);
    println!("{:<18} {:>9} {:>9} {:>16}", "step", "ns/event", "to plain", "to plain-checked");
    for (place, ((name, _), time)) in RUNS.iter().zip(seconds).enumerate() {
        print!("{name:<18} {:>9.1} {:>9.2}", time * 1e9, time / seconds[0]);
        println!("{}", if place < LENT { String::new() } else { format!(" {:>16.2}", time / seconds[LENT]) });
    }
}

fn compare_big(rounds: usize, files: &[(String, Vec<u8>)]) {
    let seconds = sums(rounds, &BIG, files);
    println!("{:<18} {:>9} {:>9}", "step, 64 and 128", "ns/event", "to plain");
    for ((name, _), time) in BIG.iter().zip(seconds) {
        println!("{name:<18} {:>9.1} {:>9.2}", time * 1e9, time / seconds[0]);
    }
}

/// The time of one check, by plain Rust and by the proved one. The run up to the tables is taken off.
fn one_check(rounds: usize, filled: &Filled) -> [f64; 2] {
    for (name, check) in CHECK {
        assert_eq!(check(&filled.events), CHECKS.into(), "{name} finds a fault in {}", filled.name);
    }
    let [mine, run, proved, run_proved] = best(rounds, [plain_check, plain, proved::check, proved::step], &filled.events);
    [mine - run, proved - run_proved].map(|time| time / f64::from(CHECKS))
}

fn compare_checks(rounds: usize, all: &[Filled]) {
    println!("\ncheck by itself, ns each: any lent numbers, and the table rules");
    println!("{} {:>7} {:>7} {:>6}", tables::fill_head(), "plain", "check", "ratio");
    let mut sums = [0.0; 2];
    for filled in all {
        let times = one_check(rounds, filled);
        let [mine, proved] = times.map(|time| time * 1e9);
        println!("{} {mine:>7.1} {proved:>7.1} {:>6.2}", filled.fill(), proved / mine);
        sums.iter_mut().zip(times).for_each(|(sum, time)| *sum += time);
    }
    println!("ratio of the sums {:.2}", sums[1] / sums[0]);
}

fn run_only(name: &str, file: &str) -> Option<u64> {
    let (_, run) = RUNS.iter().chain(&BIG).chain(&CHECK).find(|(other, _)| *other == name)?;
    Some(run(&timing::read(file)))
}

fn main() -> ExitCode {
    let arguments: Vec<String> = std::env::args().skip(1).collect();
    let words: Vec<&str> = arguments.iter().map(String::as_str).collect();
    match words[..] {
        ["only", name, file] => {
            let Some(count) = run_only(name, file) else { return usage() };
            println!("{count}");
        }
        ["names", ..] => {
            let Some((rounds, files)) = timing::files(&arguments[1..]) else { return usage() };
            compare_steps(rounds, &files);
        }
        ["big", ..] => {
            let Some((rounds, files)) = timing::files(&arguments[1..]) else { return usage() };
            compare_big(rounds, &files);
        }
        _ => {
            let Some((rounds, files)) = timing::files(&arguments) else { return usage() };
            compare_steps(rounds, &files);
            let mut all = tables::typical(&files);
            all.extend(tables::fullest());
            compare_checks(rounds, &all);
        }
    }
    ExitCode::SUCCESS
}

fn usage() -> ExitCode {
    eprintln!("usage: steps ROUNDS FILE..  or  steps names|big ROUNDS FILE..  or  steps only NAME FILE");
    ExitCode::FAILURE
}
