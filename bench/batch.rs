//! batch ROUNDS FILE..: times batches of 1, 10 and 100 events, by the proved nucleus and by plain Rust, and single calls of the nucleus,
//! over the same events in one run; and both as C code calls them, if libboard.a is there.
//! batch only NAME SIZE FILE: runs one of them once, for a profiler. NAME: one of WAYS.
//!
//! Before anything is timed, the decisions of all are held to those of the independent program, number by number. A time is the middle of
//! RUNS, which are taken in turn, each the best of ROUNDS; a time is never a test.

#[cfg(board)]
mod board;
mod places;
#[allow(dead_code)]
mod proved;
mod timing;

use nucleus::Node;
use places::best_of_both;
use plain::batch::DECISION;
use plain::lent::{batch_checked, Tables};
use plain::Plain;
use proved::WORDS;
use std::hint::black_box;
use std::ops::Range;
use std::process::ExitCode;
use timing::{fields, timed, Run};

const SIZES: [usize; 3] = [1, 10, 100];
const RUNS: usize = 5;

/// No decision has it.
const STAYS: u32 = 0xA5A5_A5A5;

/// The numbers of the longest batch.
const LONGEST: usize = DECISION * SIZES[2];

/// A file, cut into batches before anything is timed. A field that is cut off at the end is left out.
struct Batches {
    bytes: Vec<u8>,
    parts: Vec<Part>,
}

struct Part {
    place: Range<usize>,
    fields: usize,
}

impl Batches {
    fn of(bytes: &[u8], size: usize) -> Batches {
        let lengths: Vec<usize> = fields(bytes).filter(|field| is_complete(field)).map(<[u8]>::len).collect();
        assert!(!lengths.is_empty(), "a file without a complete field");
        let mut end = 0;
        let part = |lengths: &[usize]| {
            let start = end;
            end += lengths.iter().sum::<usize>();
            Part { place: start..end, fields: lengths.len() }
        };
        Batches { parts: lengths.chunks(size).map(part).collect(), bytes: bytes.to_vec() }
    }

    /// The bytes of each batch, and how many numbers its decisions have.
    fn each(&self) -> impl Iterator<Item = (&[u8], usize)> {
        self.parts.iter().map(|part| self.of_part(part))
    }

    fn first(&self) -> (&[u8], usize) {
        self.of_part(&self.parts[0])
    }

    fn of_part(&self, part: &Part) -> (&[u8], usize) {
        (&self.bytes[part.place.clone()], DECISION * part.fields)
    }

    fn events(&self) -> usize {
        self.parts.iter().map(|part| part.fields).sum()
    }
}

fn is_complete(field: &[u8]) -> bool {
    matches!(field, [_, high, low, value @ ..] if value.len() == usize::from(u16::from_be_bytes([*high, *low])))
}

/// A way to run batches: the tables that it keeps, and one batch on them, which gives the refusal.
trait Way {
    /// So many numbers of each decision are told.
    const TELLS: usize = DECISION;
    /// Single calls have no room to count.
    const COUNTS_ROOM: bool = true;

    fn start() -> Self;
    fn batch(&mut self, events: &[u8], out: &mut [u32]) -> u8;
}

/// Plain Rust, on rows that it keeps. They are checked at the start of the file and never again.
impl Way for Plain {
    fn start() -> Plain {
        let plain = Plain::start();
        assert!(black_box(&plain).meets_rules());
        plain
    }

    fn batch(&mut self, events: &[u8], out: &mut [u32]) -> u8 {
        Plain::batch(self, events, out).err().unwrap_or(0)
    }
}

/// The same with the rows checked where they stand, once for each batch.
struct Rows(Plain);

impl Way for Rows {
    fn start() -> Rows {
        Rows(Plain::start())
    }

    fn batch(&mut self, events: &[u8], out: &mut [u32]) -> u8 {
        self.0.batch_checked(events, out).err().unwrap_or(0)
    }
}

/// Plain Rust on lent tables: numbers read into rows and checked, and written back, once for each batch.
impl Way for Tables {
    fn start() -> Tables {
        Tables::start()
    }

    fn batch(&mut self, events: &[u8], out: &mut [u32]) -> u8 {
        batch_checked(self, events, out).err().unwrap_or(0)
    }
}

/// The proved step on a lent memory, which checks it at each event. It tells the refusal alone: the other five numbers are not written.
struct Single([u32; WORDS]);

impl Way for Single {
    const TELLS: usize = 1;
    const COUNTS_ROOM: bool = false;

    fn start() -> Single {
        Single(started())
    }

    fn batch(&mut self, events: &[u8], out: &mut [u32]) -> u8 {
        for (field, numbers) in fields(events).zip(out.chunks_exact_mut(DECISION)) {
            numbers[0] = proved::step_in_slice(&mut self.0, field).into();
        }
        0
    }
}

/// The proved batch on a lent memory.
struct Batch([u32; WORDS]);

impl Way for Batch {
    fn start() -> Batch {
        Batch(started())
    }

    fn batch(&mut self, events: &[u8], out: &mut [u32]) -> u8 {
        proved::batch(&mut self.0, events, out)
    }
}

/// Single calls as C code makes them, on tables behind a reference. The whole report is written down.
#[cfg(board)]
struct NucleusStep(board::Tables);

#[cfg(board)]
impl Way for NucleusStep {
    const COUNTS_ROOM: bool = false;

    fn start() -> NucleusStep {
        NucleusStep(board::start())
    }

    fn batch(&mut self, events: &[u8], out: &mut [u32]) -> u8 {
        for (field, numbers) in fields(events).zip(out.chunks_exact_mut(DECISION)) {
            let board::Report { refusal, status, runner, kind, sender, word } = board::step(&mut self.0, field);
            numbers[..DECISION - 1].copy_from_slice(&[refusal, status, runner, kind, sender].map(u32::from));
            numbers[DECISION - 1] = word;
        }
        0
    }
}

/// And a batch.
#[cfg(board)]
struct NucleusBatch(board::Tables);

#[cfg(board)]
impl Way for NucleusBatch {
    fn start() -> NucleusBatch {
        NucleusBatch(board::start())
    }

    fn batch(&mut self, events: &[u8], out: &mut [u32]) -> u8 {
        board::batch(&mut self.0, events, out)
    }
}

fn started() -> [u32; WORDS] {
    let mut memory = [0; WORDS];
    proved::start(&mut memory);
    memory
}

/// What is timed: batch after batch, from a start, into one buffer. How many events are accepted.
fn accepted<W: Way>(batches: &Batches) -> u64 {
    let mut way = W::start();
    let mut out = [0; LONGEST];
    let mut accepted = 0;
    for (events, numbers) in batches.each() {
        let refusal = way.batch(events, &mut out[..numbers]);
        assert_eq!(refusal, 0, "a batch is refused");
        let decisions = black_box(&out)[..numbers].chunks_exact(DECISION);
        accepted += decisions.filter(|decision| decision[0] == 0).count();
    }
    accepted as u64
}

/// All numbers that are written. Behind those of each batch there is room for one more decision, which must stay.
fn decisions<W: Way>(batches: &Batches) -> Vec<u32> {
    let mut way = W::start();
    let mut all = Vec::new();
    for (events, numbers) in batches.each() {
        let mut out = vec![STAYS; numbers + DECISION];
        assert_eq!(way.batch(events, &mut out), 0, "a batch is refused");
        assert_eq!(out.split_off(numbers), [STAYS; DECISION], "numbers behind the last decision have changed");
        all.extend(out);
    }
    all
}

/// A refusal, and the buffer behind the call.
type Said = (u8, Vec<u32>);

/// One number too few for the first batch, then its bytes but the last one: the refusal and the buffer of each.
fn edges<W: Way>(batches: &Batches) -> [Said; 2] {
    let (events, numbers) = batches.first();
    let mut way = W::start();
    let tried = [(events, numbers - 1), (&events[..events.len() - 1], numbers)];
    tried.map(|(events, room)| {
        let mut out = vec![STAYS; room];
        (way.batch(events, &mut out), out)
    })
}

struct Meter {
    name: &'static str,
    tells: usize,
    counts_room: bool,
    accepted: Run<Batches>,
    decisions: fn(&Batches) -> Vec<u32>,
    edges: fn(&Batches) -> [Said; 2],
}

const fn meter<W: Way>(name: &'static str) -> Meter {
    let (tells, counts_room) = (W::TELLS, W::COUNTS_ROOM);
    Meter { name, tells, counts_room, accepted: accepted::<W>, decisions: decisions::<W>, edges: edges::<W> }
}

const WAYS: [Meter; if cfg!(board) { 7 } else { 5 }] = [
    meter::<Plain>("plain"),
    meter::<Rows>("plain-rows"),
    meter::<Tables>("plain-checked"),
    meter::<Single>("single"),
    meter::<Batch>("batch"),
    #[cfg(board)]
    meter::<NucleusStep>("nucleus_step"),
    #[cfg(board)]
    meter::<NucleusBatch>("nucleus_batch"),
];

/// The place of the proved batch. Each that stands before it is a measure of it. Behind it stand the calls for C, the single one first.
const BATCH: usize = 4;

/// What the independent program decides.
fn independent(batches: &Batches) -> Vec<u32> {
    let mut node = Node::start();
    let mut all = Vec::new();
    for field in batches.each().flat_map(|(events, _)| fields(events)) {
        let nucleus::Decision { refusal, status, runner, kind, sender, word } = node.step(field);
        all.extend([refusal, status, runner, kind, sender].map(u32::from));
        all.push(word);
    }
    all
}

/// All of them decide the same, number by number, accept as many events, and take a short buffer and a cut field in the same way.
/// How many events they accept.
fn hold(file: &str, batches: &Batches) -> u64 {
    let expected = independent(batches);
    let edges = expected_edges(batches, &expected);
    let count = expected.chunks_exact(DECISION).filter(|decision| decision[0] == 0).count() as u64;
    for meter in &WAYS {
        let name = meter.name;
        let found = (meter.decisions)(batches);
        assert_eq!(found.len(), expected.len(), "{file}: {name} decides another number of events");
        let told = meter.tells;
        let pairs = found.chunks_exact(DECISION).zip(expected.chunks_exact(DECISION));
        for (number, (found, expected)) in pairs.enumerate() {
            assert_eq!(found[..told], expected[..told], "{file}: {name} decides otherwise at event {}", number + 1);
        }
        assert_eq!(timed(meter.accepted, batches).1, count, "{file}: {name} accepts another number of events");
        if meter.counts_room {
            assert_eq!((meter.edges)(batches), edges, "{file}: {name} takes a short buffer or a cut field otherwise");
        }
    }
    same_words(file, batches);
    count
}

/// Refusal 14 and nothing written; then all decisions of the first batch but the last.
fn expected_edges(batches: &Batches, decisions: &[u32]) -> [Said; 2] {
    let (_, numbers) = batches.first();
    let mut but_last = decisions[..numbers].to_vec();
    but_last[numbers - DECISION..].fill(STAYS);
    [(14, vec![STAYS; numbers - 1]), (0, but_last)]
}

/// Behind each batch the memory is that which single calls leave, word for word: it is the same step.
fn same_words(file: &str, batches: &Batches) {
    let (mut single, mut batch) = (Single::start(), Batch::start());
    let mut out = [0; LONGEST];
    for (number, (events, numbers)) in batches.each().enumerate() {
        single.batch(events, &mut out[..numbers]);
        batch.batch(events, &mut out[..numbers]);
        assert!(single.0 == batch.0, "{file}: batch {} leaves another memory than single calls", number + 1);
    }
}

/// The least, the middle and the most.
fn spread(mut all: [f64; RUNS]) -> [f64; 3] {
    all.sort_by(f64::total_cmp);
    [all[0], all[RUNS / 2], all[RUNS - 1]]
}

/// The seconds of one event in each run, for each of WAYS: one run behind the other.
fn runs(rounds: usize, files: &[Batches]) -> [[f64; RUNS]; WAYS.len()] {
    let mut seconds = [[0.0; RUNS]; WAYS.len()];
    let events: usize = files.iter().map(Batches::events).sum();
    for run in 0..RUNS {
        for batches in files {
            let fastest = best_of_both(rounds, WAYS.map(|meter| meter.accepted), batches);
            seconds.iter_mut().zip(fastest).for_each(|(sums, time)| sums[run] += time / events as f64);
        }
    }
    seconds
}

fn compare(rounds: usize, size: usize, files: &[Batches]) {
    let seconds = runs(rounds, files);
    let ratio = |of: usize, to: usize| spread(std::array::from_fn(|run| seconds[of][run] / seconds[to][run]));
    print!("\n{:<16} {:>9}", format!("batches of {size}"), "ns/event");
    WAYS[..BATCH].iter().for_each(|measure| print!(" {:>16}", format!("to {}", measure.name)));
    println!();
    for (place, meter) in WAYS.iter().enumerate() {
        print!("{:<16} {:>9.1}", meter.name, spread(seconds[place])[1] * 1e9);
        (0..BATCH).for_each(|to| print!(" {:>16.2}", ratio(place, to)[1]));
        println!();
    }
    print!("{:<26}", "batch, least to most");
    for to in 0..BATCH {
        let [least, _, most] = ratio(BATCH, to);
        print!(" {:>16}", format!("{least:.2} to {most:.2}"));
    }
    println!();
    if let [single, batch] = (BATCH + 1..WAYS.len()).collect::<Vec<_>>()[..] {
        let [least, middle, most] = ratio(batch, single);
        println!("{} to {}: {middle:.2} ({least:.2} to {most:.2})", WAYS[batch].name, WAYS[single].name);
    }
}

fn compare_all(rounds: usize, files: &[(String, Vec<u8>)]) {
    let cut = |size: usize| -> Vec<Batches> { files.iter().map(|(_, bytes)| Batches::of(bytes, size)).collect() };
    let sizes = SIZES.map(|size| (size, cut(size)));
    let count = |all: &[Batches]| files.iter().zip(all).map(|((file, _), batches)| hold(file, batches)).sum::<u64>();
    let counts = sizes.each_ref().map(|(_, all)| count(all));
    let events: usize = sizes[0].1.iter().map(Batches::events).sum();
    assert!(counts.iter().all(|&count| count == counts[0]), "the sizes accept other numbers of events");
    let noun = if files.len() == 1 { "file" } else { "files" };
    println!("{} {noun}, {events} events, {} accepted by each, with the same decisions", files.len(), counts[0]);
    println!("middle of {RUNS} runs, each the best of {rounds}");
    sizes.iter().for_each(|(size, all)| compare(rounds, *size, all));
}

fn run_only(name: &str, size: &str, file: &str) -> Option<u64> {
    let meter = WAYS.iter().find(|meter| meter.name == name)?;
    let size = size.parse().ok().filter(|size| SIZES.contains(size))?;
    Some((meter.accepted)(&Batches::of(&timing::read(file), size)))
}

fn main() -> ExitCode {
    let arguments: Vec<String> = std::env::args().skip(1).collect();
    let words: Vec<&str> = arguments.iter().map(String::as_str).collect();
    if let ["only", name, size, file] = words[..] {
        let Some(count) = run_only(name, size, file) else { return usage() };
        println!("{count}");
        return ExitCode::SUCCESS;
    }
    let Some((rounds, files)) = timing::files(&arguments) else { return usage() };
    compare_all(rounds, &files);
    ExitCode::SUCCESS
}

fn usage() -> ExitCode {
    eprintln!("usage: batch ROUNDS FILE..  or  batch only NAME SIZE FILE");
    ExitCode::FAILURE
}
