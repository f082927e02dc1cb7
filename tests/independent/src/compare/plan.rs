//! What is compared: the fixed run, and the one that goes on as long as one likes.

use super::check::{self, Program};
use super::outcome::{Case, Outcome};
use super::source::Source;
use super::subject::Subject;
use crate::census::{Census, STATES};
use crate::damage::{self, Damage};
use crate::program::{fields_of, FieldReader};
use crate::valid::Dumps;
use crate::verdicts::Verdicts;
use std::io::Read;
use std::ops::Range;
use std::path::PathBuf;
use std::time::{Duration, Instant};

pub struct Comparison {
    pub node: Subject,
    pub snapshot: Subject,
    pub inspect: Subject,
    /// The folder for inputs that show a difference.
    pub keep: PathBuf,
    /// How long the search for a short input may last.
    pub shrinking: Duration,
    pub census: Census,
    /// Of the dumps that were handed to inspect.
    pub dumps: Verdicts,
    pub outcome: Outcome,
    since: Instant,
}

/// Every refusal that can come in the fixed run comes this often at least.
const REFUSED: u64 = 100;
/// And every deep state, and every cause why bytes are no dump.
const REACHED: u64 = 10;
/// One good dump in a batch stands beside so many damaged ones.
const DAMAGED: usize = 6;
/// The batches of the fixed run.
pub const BATCHES: Range<u64> = 1..15;

impl Comparison {
    pub fn new(node: Subject, snapshot: Subject, inspect: Subject, keep: PathBuf) -> Comparison {
        Comparison {
            node,
            snapshot,
            inspect,
            keep,
            shrinking: Duration::from_secs(120),
            census: Census::default(),
            dumps: Verdicts::default(),
            outcome: Outcome::default(),
            since: Instant::now(),
        }
    }

    /// The fixed run: the same files each time, and what they reach.
    pub fn fixed(&mut self) {
        let long = (1..=24).map(|seed| Source::Mixed { seed, events: 5_000 });
        let longer = (25..=27).map(|seed| Source::Mixed { seed, events: 20_000 });
        long.chain(longer).for_each(|source| self.node_file(source));
        self.progress("node, long files");
        short_files(1_001..1_121).for_each(|source| self.node_file(source));
        self.progress("node, short files");
        (1..=32).for_each(|seed| self.node_file(Source::Rubbish { seed }));
        self.progress("node, rubbish");
        (1..=60)
            .for_each(|seed| self.snapshot_file(Source::Mixed { seed: 2_000 + seed, events: seed * seed }));
        (1_001..=1_008).for_each(|seed| self.snapshot_file(Source::Rubbish { seed }));
        self.progress("snapshot");
        BATCHES.for_each(|seed| self.inspect_batch(seed));
        self.progress("inspect");
        self.judge_reached();
        self.show();
    }

    /// Seed after seed, up to the first difference.
    pub fn long(&mut self, seeds: Range<u64>, events: u64) {
        let mut told = Instant::now();
        for seed in seeds {
            self.node_file(Source::Mixed { seed, events });
            self.snapshot_file(Source::Mixed { seed, events: events.min(2_000) });
            self.node_file(Source::Rubbish { seed });
            self.snapshot_file(Source::Rubbish { seed });
            self.inspect_batch(seed);
            if self.outcome.failed > 0 {
                return self.show_shorter();
            }
            if told.elapsed() >= Duration::from_secs(10) {
                self.progress(&format!("up to seed {seed}"));
                told = Instant::now();
            }
        }
        self.print_refusals();
        self.print_states();
    }

    /// Short files may show the difference too, and are a better place to look for the shortest from.
    fn show_shorter(&mut self) {
        println!("looking for it in short files");
        for source in short_files(1..201) {
            self.node_file(source);
            self.snapshot_file(source);
        }
        self.show();
    }

    fn show(&self) {
        self.outcome.show(|program| self.subject(program).clone(), self.shrinking, &self.keep);
    }

    fn subject(&self, program: Program) -> &Subject {
        match program {
            Program::Node => &self.node,
            Program::Snapshot => &self.snapshot,
            Program::Inspect => &self.inspect,
        }
    }

    fn progress(&self, what: &str) {
        let seconds = self.since.elapsed().as_secs();
        let Outcome { passed, failed, .. } = &self.outcome;
        let (events, dumps) = (self.census.events, self.dumps.total());
        println!("{seconds:4} s  {what}: {passed} the same, {failed} not; {events} events, {dumps} dumps");
    }

    fn node_file(&mut self, source: Source) {
        if self.outcome.goes_on(Program::Node) {
            let compared = check::lines(&self.node, source, &mut self.census);
            let case = Case { program: Program::Node, what: source.to_string(), file: source.name() };
            self.outcome.judge(case, compared, |fields| first_fields(source.reader(), fields));
        }
    }

    fn snapshot_file(&mut self, source: Source) {
        if self.outcome.goes_on(Program::Snapshot) {
            let file: Vec<u8> = source.pieces().flatten().collect();
            let compared = check::whole(Program::Snapshot, &self.snapshot, &file);
            let case = Case { program: Program::Snapshot, what: source.to_string(), file: source.name() };
            self.outcome.judge(case, compared, |_| fields_of(&file));
        }
    }

    /// The case is failed at the first dump that differs.
    fn inspect_batch(&mut self, seed: u64) {
        for (number, (bytes, kind)) in batch(seed).into_iter().enumerate() {
            if !self.outcome.goes_on(Program::Inspect) {
                return;
            }
            self.dumps.note(&bytes);
            let compared = check::whole(Program::Inspect, &self.inspect, &bytes);
            if !matches!(compared, Ok(None)) {
                let what = format!("dumps of seed {seed}, number {number}: {kind}");
                let case = Case { program: Program::Inspect, what, file: format!("dump-{seed}-{number}") };
                return self.outcome.judge(case, compared, |_| fields_of(&bytes));
            }
        }
        self.outcome.pass();
    }

    // ---- what was reached ----

    /// The refusals that the programs can give.
    fn refusals(&self) -> Vec<(usize, u64)> {
        let of_events = self.census.refusals.iter().copied().enumerate().skip(1);
        let of_bytes = self.dumps.refusals().into_iter().map(|(number, times)| (number.into(), times));
        of_events.chain(of_bytes).collect()
    }

    fn print_refusals(&self) {
        for (number, times) in self.refusals() {
            println!("{times:9}  refusal {number}");
        }
        println!(
            "           refusals 11, 12 and 14 are given to calls of the library alone, and cannot come here"
        );
        println!("{:9}  events accepted, {} dumps read", self.census.refusals[0], self.dumps.read);
    }

    fn print_states(&self) {
        for what in STATES {
            println!("{:9}  {what}", self.census.times(what));
        }
    }

    fn judge_reached(&mut self) {
        self.print_refusals();
        self.print_states();
        self.dumps.print_causes();
        if [Program::Node, Program::Inspect].into_iter().any(|program| !self.outcome.goes_on(program)) {
            println!("not all was run, so nothing is asked of these figures");
            return;
        }
        let mut rare = self.refusals();
        rare.retain(|(_, times)| *times < REFUSED);
        self.outcome.judge_reached(&format!("every refusal {REFUSED} times"), &rare);
        let rare: Vec<&str> = STATES.into_iter().filter(|what| self.census.times(what) < REACHED).collect();
        self.outcome.judge_reached(&format!("every deep state {REACHED} times"), &rare);
        self.judge_causes();
    }

    fn judge_causes(&mut self) {
        let mut rare = self.dumps.causes();
        rare.retain(|(_, times)| *times < REACHED);
        self.outcome.judge_reached(&format!("every cause of a refused dump {REACHED} times"), &rare);
        let mut rare = self.dumps.several();
        rare.retain(|(_, times)| *times < REACHED);
        self.outcome.judge_reached(&format!("faults beside each other {REACHED} times"), &rare);
    }
}

/// Each kind of damage once, with good dumps between them, each with what it is.
pub fn batch(seed: u64) -> Vec<(Vec<u8>, String)> {
    let mut dumps = Dumps::new(seed);
    let mut batch = Vec::new();
    for (number, kind) in damage::kinds().into_iter().enumerate() {
        if number % DAMAGED == 0 {
            batch.push((dumps.next_dump(), "a good dump".to_string()));
        }
        batch.push((damaged(&mut dumps, kind), format!("a damaged dump ({kind:?})")));
    }
    batch
}

/// The next dump that gives room for this kind.
fn damaged(dumps: &mut Dumps, kind: Damage) -> Vec<u8> {
    loop {
        let good = dumps.next_dump();
        if let Some(bytes) = damage::damage_by(&good, kind, dumps.random()) {
            return bytes;
        }
    }
}

/// Files of 40 to 200 events, most of which end in a halt or a panic.
fn short_files(seeds: Range<u64>) -> impl Iterator<Item = Source> {
    seeds.map(|seed| Source::Mixed { seed, events: 40 + seed % 160 })
}

/// So many fields from the beginning of a file.
fn first_fields(input: impl Read, count: u64) -> Vec<Vec<u8>> {
    let mut reader = FieldReader::new(input);
    let mut fields = Vec::new();
    let mut field = Vec::new();
    while (fields.len() as u64) < count && matches!(reader.next_field(&mut field), Ok(true)) {
        fields.push(field.clone());
    }
    fields
}
